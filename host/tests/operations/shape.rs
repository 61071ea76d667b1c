//! RAM of many sizes and places, with anything in it.
use crate::common::Random;
use crate::document_03::Monitor;

/// What set-up is asked for: RAM from b on, of n frames, of which the first k are the monitor's.
#[derive(Clone, Copy, Debug)]
pub struct Shape {
    pub b: u64,
    pub n: u64,
    pub k: u64,
}

impl Shape {
    pub fn new(random: &mut Random) -> Shape {
        let n = match random.below(16) {
            0 => 16,
            1 => 100 + random.below(300),
            2..=4 => 48 + random.below(50),
            _ => 16 + random.below(32),
        };
        let highest = (1 << 48) - 4096 * n;
        let anywhere = ((random.next() % (1 << 48)) & !0xfff).min(highest);
        let k = match random.below(8) {
            0 => 0,
            1 => random.below(n),
            _ => random.below(8),
        };
        Shape { b: random.pick(&[0, 0x40000000, highest, anywhere]), n, k }
    }

    pub fn ram(&self, random: &mut Random) -> Vec<u8> {
        (0..512 * self.n).flat_map(|_| random.next().to_le_bytes()).collect()
    }

    pub fn ledger(&self, random: &mut Random) -> Vec<u32> {
        (0..pageledger::ledger_words(self.n)).map(|_| random.next() as u32).collect()
    }

    pub fn document(&self, ram: &[u8]) -> Monitor {
        Monitor::set_up(ram, self.b, self.n, self.k).expect("numbers that fit")
    }

    pub fn library<'a>(&self, ram: &'a mut [u8], ledger: &'a mut [u32]) -> pageledger::Monitor<'a> {
        pageledger::Monitor::simulated(ram, ledger, self.b, self.n, self.k).expect("numbers that fit")
    }
}
