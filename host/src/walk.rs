//! Document 01: the walk, on any bytes that nobody writes meanwhile.
use crate::refusal::{room, status, Short};
use crate::{raw, FRAME_BYTES};

/// How many numbers a walk's answer has.
pub const ANSWER_NUMBERS: usize = 7;

/// How the guest wants to use an address.
#[derive(Clone, Copy, Debug, PartialEq, Eq, PartialOrd, Ord, Hash)]
pub enum Access {
    Read = 0,
    Write = 1,
    Execute = 2,
}

/// Where in the guest an access comes from: its programs, or its kernel.
#[derive(Clone, Copy, Debug, PartialEq, Eq, PartialOrd, Ord, Hash)]
pub enum El {
    El0 = 0,
    El1 = 1,
}

/// Why a walk failed.
#[derive(Clone, Copy, Debug, PartialEq, Eq, PartialOrd, Ord, Hash)]
pub enum Kind {
    WalkAbort,
    Translation,
    NotModelled,
    AccessFlag,
    Permission,
}

/// `fetched` is the number of descriptors that were read.
#[derive(Clone, Copy, Debug, PartialEq, Eq, PartialOrd, Ord, Hash)]
#[must_use]
pub enum Answer {
    Found { address: u64, fetched: u64 },
    Fault { kind: Kind, stage: u64, level: u64, fetched: u64 },
    /// A failure of stage 2 at `level`, while stage 1 fetched its descriptor of the level `of`.
    During { kind: Kind, level: u64, of: u64, fetched: u64 },
    /// An argument does not fit.
    Refused,
}

/// RAM as an image: whole frames of 4,096 bytes, the first byte at the physical address `base`. Nobody writes them while they are
/// lent, no guest either: nothing is proved of bytes that change during a walk.
#[derive(Clone, Copy)]
pub struct Ram<'a> {
    pub bytes: &'a [u8],
    pub base: u64,
}

impl Ram<'_> {
    fn frames(&self) -> u64 {
        (self.bytes.len() / FRAME_BYTES) as u64
    }

    /// What a guest-physical address translates to under the stage-2 tables at `root`.
    pub fn stage2(&self, root: u64, ipa: u64, access: Access) -> Answer {
        let mut out = [0; ANSWER_NUMBERS];
        room(stage2_raw(self.bytes, self.base, self.frames(), root, ipa, access as u64, &mut out));
        answer(out)
    }

    /// What a guest's virtual address translates to: `root1` is the guest's, guest-physical, and `root2` the monitor's.
    pub fn both_stages(&self, root1: u64, root2: u64, va: u64, access: Access, el: El) -> Answer {
        let mut out = [0; ANSWER_NUMBERS];
        room(both_stages_raw(self.bytes, self.base, self.frames(), root1, root2, va, access as u64, el as u64, &mut out));
        answer(out)
    }
}

/// The C function, with any numbers; the answer is in the first `ANSWER_NUMBERS` elements of `out`.
pub fn stage2_raw(ram: &[u8], base: u64, frames: u64, root: u64, ipa: u64, access: u64, out: &mut [u64]) -> Result<(), Short> {
    // SAFETY: both arrays are valid for their lengths, and `out` is lent to nobody else.
    status(unsafe {
        raw::pageledger_stage2(ram.as_ptr(), ram.len(), base, frames, root, ipa, access, out.as_mut_ptr(), out.len())
    })
}

/// The C function, with any numbers; the answer is in the first `ANSWER_NUMBERS` elements of `out`.
#[allow(clippy::too_many_arguments)]
pub fn both_stages_raw(
    ram: &[u8],
    base: u64,
    frames: u64,
    root1: u64,
    root2: u64,
    va: u64,
    access: u64,
    el: u64,
    out: &mut [u64],
) -> Result<(), Short> {
    let (bytes, length) = (ram.as_ptr(), ram.len());
    // SAFETY: both arrays are valid for their lengths, and `out` is lent to nobody else.
    status(unsafe {
        raw::pageledger_both_stages(bytes, length, base, frames, root1, root2, va, access, el, out.as_mut_ptr(), out.len())
    })
}

/// The answer that the numbers tell.
pub fn answer([what, address, kind, stage, level, of, fetched]: [u64; ANSWER_NUMBERS]) -> Answer {
    match what {
        0 => Answer::Found { address, fetched },
        1 => Answer::Fault { kind: kind_of(kind), stage, level, fetched },
        2 => Answer::During { kind: kind_of(kind), level, of, fetched },
        3 => Answer::Refused,
        other => unreachable!("an answer that is a {other}"),
    }
}

fn kind_of(number: u64) -> Kind {
    match number {
        1 => Kind::WalkAbort,
        2 => Kind::Translation,
        3 => Kind::NotModelled,
        4 => Kind::AccessFlag,
        5 => Kind::Permission,
        other => unreachable!("kind {other}"),
    }
}
