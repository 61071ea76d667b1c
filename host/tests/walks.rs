//! The library beside a second implementation of document 01, on images whose walks go deep, damaged on the walk's way and
//! anywhere, with fitting and hostile arguments. Deterministic: PAGELEDGER_SEED sets the seed that is printed, and
//! PAGELEDGER_WALKS the number of walks. Every answer that can be must come 1,000 times.
mod common;
mod document;

use common::{setting, told, Random};
use document::{Fetched, Walked};
use pageledger::{Access, Answer, El, Kind, Ram, Short};
use std::collections::BTreeMap;

const LOW: u64 = (1 << 48) - 1;

struct Image {
    bytes: Vec<u8>,
    base: u64,
    frames: u64,
}

impl Image {
    /// Of five frames four are tables of stage 2, of level 0 to 3, and one is a table of stage 1 for any level. Each table of
    /// stage 2 leads to those of the next level, the last to those of stage 1; a table of stage 1 leads anywhere.
    fn new(random: &mut Random) -> Image {
        let frames = if random.one_in(8) { 512 } else { 16 + random.below(48) };
        let highest = (1 << 48) - 4096 * frames;
        let base = match random.below(4) {
            0 => 0,
            1 => highest & !0x1fffff,
            2 => (random.next() & LOW & !0x3fffffff).min(highest),
            _ => (random.next() & LOW & !0xfff).min(highest),
        };
        let mut image = Image { bytes: vec![0; 4096 * frames as usize], base, frames };
        let wild = random.pick(&[0, 0, 0, 0, 0, 2000, 200, 30, 8]);
        for place in 0..512 * frames {
            let mut d = image.good(random, place / 512 % 5);
            if wild != 0 && random.one_in(wild) {
                d = if random.one_in(4) { random.next() } else { d ^ 1 << random.below(64) };
            }
            image.put(base + 8 * place, d);
        }
        image
    }

    /// A table, or a page that allows nearly everything; the bits that don't matter are random.
    fn good(&self, random: &mut Random, role: u64) -> u64 {
        let free = random.next() & 0x0780_0000_0000_0b3c;
        let (to, rights) = match role {
            4 => (random.next() & LOW & !0xfff, random.pick(&[0x40, 0x40, 0x40, 0xc0])),
            _ => (self.frame(random, role + 1), random.pick(&[0x40, 0xc0, 0xc0, 0xc0])),
        };
        free | to | rights | 0x403
    }

    /// The address of a frame that is such a table.
    fn frame(&self, random: &mut Random, role: u64) -> u64 {
        self.base + 4096 * (5 * random.below(self.frames / 5) + role)
    }

    fn word(&self, address: u64) -> u64 {
        let at = (address - self.base) as usize;
        u64::from_le_bytes(*self.bytes[at..].first_chunk().unwrap())
    }

    fn put(&mut self, address: u64, d: u64) {
        let at = (address - self.base) as usize;
        self.bytes[at..at + 8].copy_from_slice(&d.to_le_bytes());
    }

    /// The descriptor as a block.
    fn block(&self, random: &mut Random, d: u64, level: u32) -> u64 {
        let size = 1u64 << (39 - 9 * level);
        let to = if random.one_in(2) { self.base } else { random.next() };
        d & !(LOW & !0xfff) & !3 | 1 | to & LOW & !(size - 1)
    }

    /// A change to one descriptor of a level that is likely to change the walk there, or one step later.
    fn damaged(&self, random: &mut Random, mut d: u64, level: u32) -> u64 {
        if (level == 1 || level == 2) && random.one_in(2) {
            d = self.block(random, d, level);
        }
        match random.below(13) {
            0 => d & !1,
            1 => d ^ 2,
            2 => d | 1 << (48 + random.below(3)),
            3 => d | 1 << (59 + random.below(5)),
            4 | 5 => d & !0x400,
            6 => d & !0x40,
            7 => d ^ 0xc0,
            8 => d ^ random.pick(&[1 << 53, 1 << 54, 3 << 53]),
            9 => d ^ 1 << random.below(64),
            // somewhere else, and likely not in RAM
            10 => d & !(LOW & !0xfff) | random.next() & LOW & !0xfff,
            11 => d | 0x1000,
            _ => d,
        }
    }
}

#[derive(Clone, Copy, Debug)]
struct Query {
    both: bool,
    length: usize,
    base: u64,
    frames: u64,
    root1: u64,
    root2: u64,
    address: u64,
    access: u64,
    el: u64,
}

impl Query {
    fn new(random: &mut Random, image: &Image) -> Query {
        Query {
            both: !random.one_in(4),
            length: image.bytes.len(),
            base: image.base,
            frames: image.frames,
            root1: random.next() & LOW & !0xfff,
            root2: image.frame(random, 0),
            address: random.next() & LOW,
            access: random.below(3),
            el: random.below(2),
        }
    }

    /// One or two arguments that don't fit, or only just do.
    fn hostile(&mut self, random: &mut Random) {
        for _ in 0..1 + random.below(2) {
            let wild = random.next();
            match random.below(9) {
                0 => self.frames = random.pick(&[0, 15, 16, 17, 65536, 65537, 1 << 36, 1 << 52, u64::MAX, wild]),
                1 => self.base = random.pick(&[self.base ^ 1, self.base ^ 0x800, (1 << 48) - 4096, 1 << 48, u64::MAX, !0xfff, wild]),
                2 => self.root1 = random.pick(&[self.root1 ^ 8, self.root1 | 0x800, 1 << 48, LOW & !0xfff, u64::MAX, !0xfff, wild]),
                3 => self.root2 = random.pick(&[self.root2 ^ 8, self.root2 | 0x800, 1 << 48, LOW & !0xfff, u64::MAX, !0xfff, wild]),
                4 => self.address = random.pick(&[1 << 48, 1 << 63, u64::MAX, LOW, 0, wild]),
                5 => self.access = random.pick(&[3, 4, 256, 1 << 32, u64::MAX, wild]),
                6 => self.el = random.pick(&[2, 3, 256, 1 << 32, u64::MAX, wild]),
                7 => self.length = self.length.saturating_sub(random.pick(&[1, 8, 4096, self.length])),
                // a root outside of RAM fits
                _ => self.root2 = wild & LOW & !0xfff,
            }
        }
    }

    fn expected(&self, bytes: &[u8]) -> Walked {
        let Query { base, frames, root1, root2, address, access, el, .. } = *self;
        let bytes = &bytes[..self.length];
        if self.both {
            document::both_stages(bytes, base, frames, root1, root2, address, access, el)
        } else {
            document::stage2(bytes, base, frames, root2, address, access)
        }
    }

    fn ask(&self, bytes: &[u8], out: &mut [u64]) -> Result<(), Short> {
        let Query { base, frames, root1, root2, address, access, el, .. } = *self;
        let bytes = &bytes[..self.length];
        if self.both {
            pageledger::both_stages_raw(bytes, base, frames, root1, root2, address, access, el, out)
        } else {
            pageledger::stage2_raw(bytes, base, frames, root2, address, access, out)
        }
    }
}

/// What is counted of an answer.
fn name(query: &Query, walked: &Walked) -> String {
    let of = if query.both { "both stages" } else { "stage 2 alone" };
    let leaf = |stage: usize| walked.leaf[stage].map_or("-".into(), |level| level.to_string());
    match walked.answer {
        Answer::Found { .. } if query.both => format!("{of}: found, by levels {} and {}", leaf(1), leaf(2)),
        Answer::Found { .. } => format!("{of}: found, by level {}", leaf(2)),
        Answer::Fault { kind, stage, level, .. } => format!("{of}: {kind:?} stage {stage} level {level}"),
        Answer::During { kind, level, of: first, .. } => format!("{of}: {kind:?} stage 2 level {level} during stage 1 level {first}"),
        Answer::Refused => format!("{of}: refused"),
    }
}

/// Every answer that can be.
fn possible() -> Vec<String> {
    let kinds = [Kind::WalkAbort, Kind::Translation, Kind::NotModelled, Kind::AccessFlag, Kind::Permission];
    let mut names = vec!["both stages: refused".to_string(), "stage 2 alone: refused".to_string()];
    for kind in kinds {
        for level in 0..4 {
            if level == 0 && matches!(kind, Kind::AccessFlag | Kind::Permission) {
                continue; // no block at level 0
            }
            // Where stage 2's root lies outside of RAM, the first descriptor of stage 1 is not reached.
            let no_root = level == 0 && kind == Kind::WalkAbort;
            names.push(format!("stage 2 alone: {kind:?} stage 2 level {level}"));
            names.push(format!("both stages: {kind:?} stage 1 level {level}"));
            if !no_root {
                names.push(format!("both stages: {kind:?} stage 2 level {level}"));
            }
            for of in 0..if no_root { 1 } else { 4 } {
                names.push(format!("both stages: {kind:?} stage 2 level {level} during stage 1 level {of}"));
            }
        }
    }
    for level in 1..4 {
        names.push(format!("stage 2 alone: found, by level {level}"));
        for level1 in 1..4 {
            names.push(format!("both stages: found, by levels {level1} and {level}"));
        }
    }
    names
}

#[test]
fn walks() {
    let seed = setting("PAGELEDGER_SEED", 1);
    let walks = setting("PAGELEDGER_WALKS", 1_500_000);
    let random = &mut Random(seed);
    let mut seen: BTreeMap<String, u64> = possible().into_iter().map(|name| (name, 0)).collect();
    let kinds = seen.len();
    let mut done = 0;
    while done < walks {
        let mut image = Image::new(random);
        for _ in 0..2000 {
            let mut query = Query::new(random, &image);
            if random.one_in(20) {
                query.hostile(random);
            }
            // Descriptors on the walk's way are changed, and put back later: a block in each stage, or damage in up to two places.
            let mut before = Vec::new();
            let blocks = random.one_in(12);
            for turn in 0..if blocks { 2 } else { random.pick(&[0, 1, 1, 1, 1, 1, 2, 2]) } {
                let mut way = query.expected(&image.bytes).trace;
                if blocks {
                    way.retain(|f| matches!(f.level, 1 | 2) && f.stage == 1 + turn);
                    way.drain(..way.len().saturating_sub(2));
                }
                if way.is_empty() {
                    break;
                }
                let Fetched { address, level, .. } = random.pick(&way);
                let d = image.word(address);
                before.push((address, d));
                let other = if blocks { image.block(random, d, level) } else { image.damaged(random, d, level) };
                image.put(address, other);
            }
            let copy = random.one_in(200).then(|| image.bytes.clone());
            let expected = query.expected(&image.bytes);
            let answer = pageledger::answer(told(random, |out| query.ask(&image.bytes, out)));
            assert_eq!(answer, expected.answer, "seed {seed}, walk {done}: {query:x?}");
            if let Some(copy) = copy {
                assert!(copy == image.bytes, "seed {seed}, walk {done}: RAM was written");
            }
            *seen.entry(name(&query, &expected)).or_default() += 1;
            done += 1;
            for (address, d) in before.into_iter().rev() {
                image.put(address, d);
            }
        }
    }
    println!();
    for (name, count) in &seen {
        println!("{count:8} {name}");
    }
    println!("seed {seed}: {done} walks, {} kinds of answers, the rarest {} times", seen.len(), seen.values().min().unwrap());
    assert_eq!(seen.len(), kinds, "an answer that cannot be");
    assert!(seen.values().all(|count| *count >= 1000.min(done / 1500)), "a kind of answer is too rare to say anything");
}

/// Section 1: 16 to 65,536 frames, with as many bytes lent. A root outside of RAM is no reason to refuse.
#[test]
fn sizes() {
    let bytes = vec![0; 4096 * 65537];
    for (frames, fits) in [(0, false), (15, false), (16, true), (65536, true), (65537, false)] {
        let ram = Ram { bytes: &bytes[..4096 * frames], base: 0 };
        let invalid = Answer::Fault { kind: Kind::Translation, stage: 2, level: 0, fetched: 1 };
        assert_eq!(ram.stage2(0, 0, Access::Read), if fits { invalid } else { Answer::Refused }, "{frames} frames");
        let outside = Answer::During { kind: Kind::WalkAbort, level: 0, of: 0, fetched: 0 };
        let answer = ram.both_stages(0, LOW & !0xfff, 0, Access::Read, El::El0);
        assert_eq!(answer, if fits { outside } else { Answer::Refused }, "{frames} frames");
    }
}

/// Document 01, section 6, through the safe functions.
#[test]
fn worked_image() {
    let words: [(u64, u64); 24] = [
        (0x40001000, 0x0000000040002003), (0x4000bb38, 0x0060000080004443), (0x40002010, 0x0000000040003003),
        (0x4000bb40, 0x00200000800054c3), (0x40003000, 0x0000000040004003), (0x4000bb48, 0x0040000080005403),
        (0x40004000, 0x00400000400087ff), (0x4000bb50, 0x0060000080100443), (0x40004008, 0x00400000400097ff),
        (0x4000bb58, 0x0060000080006443), (0x40004010, 0x004000004000a7ff), (0x4000bb60, 0x0060000080004043),
        (0x40004018, 0x004000004000b7ff), (0x400087f0, 0x0000000080001003), (0x40004020, 0x004000004000d7ff),
        (0x40009240, 0x0000000080002003), (0x40004028, 0x000000004000e77f), (0x4000ad10, 0x0000000080003003),
        (0x40004030, 0x004000004000f3ff), (0x4000ad18, 0x0000000090000003), (0x40004038, 0x000000004001077d),
        (0x4000ad20, 0x0800000080007003), (0x40003008, 0x00400000402007fd), (0x40003010, 0x00000000402017fd),
    ];
    let mut image = Image { bytes: vec![0; 32 * 4096], base: 0x40000000, frames: 32 };
    for (address, d) in words {
        image.put(address, d);
    }
    let ram = Ram { bytes: &image.bytes, base: image.base };
    let (r, w, x) = (Access::Read, Access::Write, Access::Execute);
    let found = |address, fetched| Answer::Found { address, fetched };
    let fault = |kind, stage, level, fetched| Answer::Fault { kind, stage, level, fetched };

    let two = |ipa, access| ram.stage2(0x40001000, ipa, access);
    assert_eq!(two(0x80000000, r), found(0x40008000, 4));
    assert_eq!(two(0x80004abc, w), found(0x4000dabc, 4));
    assert_eq!(two(0x80004abc, x), fault(Kind::Permission, 2, 3, 4));
    assert_eq!(two(0x80005ffc, x), found(0x4000effc, 4));
    assert_eq!(two(0x80005ffc, w), fault(Kind::Permission, 2, 3, 4));
    assert_eq!(two(0x80006000, r), fault(Kind::AccessFlag, 2, 3, 4));
    assert_eq!(two(0x80007000, r), fault(Kind::Translation, 2, 3, 4));
    assert_eq!(two(0x803ff123, w), found(0x403ff123, 3));
    assert_eq!(two(0x80400000, r), fault(Kind::NotModelled, 2, 2, 3));
    assert_eq!(two(0x80600000, r), fault(Kind::Translation, 2, 2, 3));
    assert_eq!(two(0xc0000000, r), fault(Kind::Translation, 2, 1, 2));
    assert_eq!(two(0x8000000000, r), fault(Kind::Translation, 2, 0, 1));

    let v = 0x7f1234567000;
    let both = |va, access, el| ram.both_stages(0x80000000, 0x40001000, va, access, el);
    let during = |level, of, fetched| Answer::During { kind: Kind::Translation, level, of, fetched };
    assert_eq!(both(v + 0x123, r, El::El0), found(0x4000d123, 24));
    assert_eq!(both(v + 0x123, w, El::El0), found(0x4000d123, 24));
    assert_eq!(both(v + 0x123, x, El::El0), fault(Kind::Permission, 1, 3, 20));
    assert_eq!(both(v + 0x1010, x, El::El0), found(0x4000e010, 24));
    assert_eq!(both(v + 0x1010, w, El::El1), fault(Kind::Permission, 1, 3, 20));
    assert_eq!(both(v + 0x2000, r, El::El0), fault(Kind::Permission, 1, 3, 20));
    assert_eq!(both(v + 0x2000, w, El::El1), fault(Kind::Permission, 2, 3, 24));
    assert_eq!(both(v + 0x2000, x, El::El1), found(0x4000e000, 24));
    assert_eq!(both(v + 0x3000, r, El::El0), fault(Kind::Translation, 2, 3, 24));
    assert_eq!(both(v + 0x4000, r, El::El0), fault(Kind::AccessFlag, 2, 3, 24));
    assert_eq!(both(v + 0x5000, r, El::El0), fault(Kind::AccessFlag, 1, 3, 20));
    assert_eq!(both(v + 0x6000, r, El::El0), fault(Kind::Translation, 1, 3, 20));
    assert_eq!(both(v + 0x200000, r, El::El0), during(2, 3, 18));
    assert_eq!(both(v + 0x400000, r, El::El0), fault(Kind::NotModelled, 1, 2, 15));
    assert_eq!(both(v + (1 << 48), r, El::El0), fault(Kind::Translation, 1, 0, 0));
    assert_eq!(ram.both_stages(0x90000000, 0x40001000, v, r, El::El0), during(2, 0, 3));
    assert_eq!(ram.both_stages(0x90000001, 0x40001000, v, r, El::El0), Answer::Refused);
}
