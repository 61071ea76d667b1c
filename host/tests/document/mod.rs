//! Document 01 a second time, written from the document alone, section by section, and in no hurry.
use pageledger::{Answer, Kind};
use std::ops::RangeInclusive;

/// A walk's answer and the way that it took.
pub struct Walked {
    pub answer: Answer,
    /// The descriptors that were fetched, in order.
    pub trace: Vec<Fetched>,
    /// The levels at which the last block or page of each stage was found.
    pub leaf: [Option<u32>; 3],
}

#[derive(Clone, Copy)]
pub struct Fetched {
    pub address: u64,
    pub stage: usize,
    pub level: u32,
}

/// Section 1.
struct Memory<'a> {
    bytes: &'a [u8],
    base: u64,
    trace: Vec<Fetched>,
    leaf: [Option<u32>; 3],
}

struct Failure {
    kind: Kind,
    level: u32,
}

/// Section 3: what a descriptor is.
enum Descriptor {
    Invalid,
    NotModelled,
    Table { next: u64 },
    Leaf { output: u64, size: u64 },
}

fn bits(d: u64, which: RangeInclusive<u32>) -> u64 {
    let width = which.end() - which.start() + 1;
    (d >> which.start()) & (u64::MAX >> (64 - width))
}

fn bit(d: u64, which: u32) -> bool {
    bits(d, which..=which) == 1
}

fn descriptor(d: u64, level: u32) -> Descriptor {
    let address = bits(d, 12..=47) << 12;
    let strange = bits(d, 48..=50) != 0;
    match (bits(d, 0..=1), level) {
        (3, 0..=2) if strange || bits(d, 59..=63) != 0 => Descriptor::NotModelled,
        (3, 0..=2) => Descriptor::Table { next: address },
        (3, 3) | (1, 1 | 2) if strange => Descriptor::NotModelled,
        (3, 3) => Descriptor::Leaf { output: address, size: 4 << 10 },
        (1, 2) if bits(d, 12..=20) != 0 => Descriptor::NotModelled,
        (1, 2) => Descriptor::Leaf { output: address, size: 2 << 20 },
        (1, 1) if bits(d, 12..=29) != 0 => Descriptor::NotModelled,
        (1, 1) => Descriptor::Leaf { output: address, size: 1 << 30 },
        _ => Descriptor::Invalid,
    }
}

/// Section 3, the rights: reading, writing and executing, by stage 2 or by stage 1 at a level.
fn rights_2(d: u64) -> [bool; 3] {
    [bit(d, 6), bit(d, 7), !bit(d, 54)]
}

fn rights_1(d: u64, el: u64) -> [bool; 3] {
    let (programs, writable) = (bit(d, 6), !bit(d, 7));
    match el {
        0 => [programs, programs && writable, !bit(d, 54)],
        _ => [true, writable, !bit(d, 53) && !(programs && writable)],
    }
}

/// Section 2: the nine bits that start at bit 39 - 9 l.
fn index(input: u64, level: u32) -> u64 {
    let from = [39, 30, 21, 12][level as usize];
    bits(input, from..=from + 8)
}

impl Memory<'_> {
    fn fetch(&mut self, stage: usize, address: u64, level: u32) -> Result<u64, Failure> {
        let abort = Failure { kind: Kind::WalkAbort, level };
        let Some(from) = address.checked_sub(self.base) else { return Err(abort) };
        let Some(eight) = self.bytes.get(from as usize..).and_then(|rest| rest.first_chunk::<8>()) else { return Err(abort) };
        self.trace.push(Fetched { address, stage, level });
        Ok(u64::from_le_bytes(*eight))
    }

    /// Section 4, points 2 to 5, of a descriptor that was fetched: the next table, or the address and the end.
    fn look(&mut self, stage: usize, d: u64, level: u32, input: u64, allowed: bool) -> Result<(bool, u64), Failure> {
        let fails = |kind| Err(Failure { kind, level });
        match descriptor(d, level) {
            Descriptor::Invalid => fails(Kind::Translation),
            Descriptor::NotModelled => fails(Kind::NotModelled),
            Descriptor::Table { next } => Ok((false, next)),
            Descriptor::Leaf { .. } if !bit(d, 10) => fails(Kind::AccessFlag),
            Descriptor::Leaf { .. } if !allowed => fails(Kind::Permission),
            Descriptor::Leaf { output, size } => {
                self.leaf[stage] = Some(level);
                Ok((true, output | input & (size - 1)))
            }
        }
    }

    fn stage_2(&mut self, root: u64, ipa: u64, access: u64) -> Result<u64, Failure> {
        let mut table = root;
        for level in 0..=3 {
            let d = self.fetch(2, table + 8 * index(ipa, level), level)?;
            match self.look(2, d, level, ipa, rights_2(d)[access as usize])? {
                (true, address) => return Ok(address),
                (false, next) => table = next,
            }
        }
        unreachable!("a table at level 3")
    }

    /// Section 5.
    fn both(&mut self, root1: u64, root2: u64, va: u64, access: u64, el: u64) -> Result<u64, Answer> {
        let at_1 = |f: Failure| Answer::Fault { kind: f.kind, stage: 1, level: f.level.into(), fetched: 0 };
        let at_2 = |f: Failure| Answer::Fault { kind: f.kind, stage: 2, level: f.level.into(), fetched: 0 };
        if bits(va, 48..=63) != 0 {
            return Err(at_1(Failure { kind: Kind::Translation, level: 0 }));
        }
        let mut table = root1;
        for level in 0..=3 {
            let during = |f: Failure| Answer::During { kind: f.kind, level: f.level.into(), of: level.into(), fetched: 0 };
            let place = self.stage_2(root2, table + 8 * index(va, level), 0).map_err(during)?;
            let d = self.fetch(1, place, level).map_err(at_1)?;
            match self.look(1, d, level, va, rights_1(d, el)[access as usize]).map_err(at_1)? {
                (true, ipa) => return self.stage_2(root2, ipa, access).map_err(at_2),
                (false, next) => table = next,
            }
        }
        unreachable!("a table at level 3")
    }

    fn tell(self, result: Result<u64, Answer>) -> Walked {
        let fetched = self.trace.len() as u64;
        let answer = match result {
            Ok(address) => Answer::Found { address, fetched },
            Err(Answer::Fault { kind, stage, level, .. }) => Answer::Fault { kind, stage, level, fetched },
            Err(Answer::During { kind, level, of, .. }) => Answer::During { kind, level, of, fetched },
            Err(other) => other,
        };
        Walked { answer, trace: self.trace, leaf: self.leaf }
    }
}

fn fits(bytes: &[u8], base: u64, frames: u64) -> bool {
    (16..=65536).contains(&frames)
        && base % 4096 == 0
        && u128::from(base) + 4096 * u128::from(frames) <= 1 << 48
        && bytes.len() as u128 == 4096 * u128::from(frames)
}

fn is_root(root: u64) -> bool {
    root % 4096 == 0 && root < 1 << 48
}

fn refused() -> Walked {
    Walked { answer: Answer::Refused, trace: Vec::new(), leaf: [None; 3] }
}

fn memory(bytes: &[u8], base: u64) -> Memory<'_> {
    Memory { bytes, base, trace: Vec::with_capacity(24), leaf: [None; 3] }
}

pub fn stage2(bytes: &[u8], base: u64, frames: u64, root: u64, ipa: u64, access: u64) -> Walked {
    if !fits(bytes, base, frames) || !is_root(root) || access > 2 || ipa >= 1 << 48 {
        return refused();
    }
    let mut memory = memory(bytes, base);
    let result = memory.stage_2(root, ipa, access);
    memory.tell(result.map_err(|f| Answer::Fault { kind: f.kind, stage: 2, level: f.level.into(), fetched: 0 }))
}

#[allow(clippy::too_many_arguments)]
pub fn both_stages(bytes: &[u8], base: u64, frames: u64, root1: u64, root2: u64, va: u64, access: u64, el: u64) -> Walked {
    if !fits(bytes, base, frames) || !is_root(root1) || !is_root(root2) || access > 2 || el > 1 {
        return refused();
    }
    let mut memory = memory(bytes, base);
    let result = memory.both(root1, root2, va, access, el);
    memory.tell(result)
}
