//! What is held to document 03: the library, through its safe crate, or the second implementation with a wrong answer in it.
use crate::document;
use crate::document_03::{lowest, Choose, Kind, Monitor};
use crate::steps::Operation;
use pageledger::{Access, Answer, Refusal, Shared};
use std::collections::BTreeSet;

/// What is asked of a frame, in one piece.
#[derive(Clone, Debug, PartialEq, Eq)]
pub enum Frame {
    Monitor,
    Free,
    Table { of: u64 },
    Page { owner: u64, readers: BTreeSet<u64>, writers: BTreeSet<u64>, places: u64 },
    Draining { of: u64 },
}

impl From<&Kind> for Frame {
    fn from(kind: &Kind) -> Frame {
        match kind {
            Kind::Monitor => Frame::Monitor,
            Kind::Free => Frame::Free,
            Kind::Table { of } => Frame::Table { of: *of },
            Kind::Draining { of, .. } => Frame::Draining { of: *of },
            Kind::Page(page) => Frame::Page {
                owner: page.owner,
                readers: page.readers.clone(),
                writers: page.writers.clone(),
                places: page.places.len() as u64,
            },
        }
    }
}

#[derive(Clone, Copy, Debug, PartialEq, Eq)]
pub struct Guest {
    pub root: Option<u64>,
    pub dirty: bool,
}

pub trait Subject {
    /// 0, or the refusal.
    fn operate(&mut self, operation: Operation) -> u64;
    fn ram(&self) -> &[u8];
    fn ledger(&self) -> &[u32];
    fn frame(&self, f: u64) -> Frame;
    fn guest(&self, g: u64) -> Guest;
    fn translation(&self, g: u64, ipa: u64, access: Access) -> Answer;
    /// Whether the guest may.
    fn store(&mut self, g: u64, ipa: u64, bytes: &[u8]) -> bool;
    fn load(&self, g: u64, ipa: u64, bytes: &mut [u8]) -> bool;
    /// A store by a translation that the processor kept; the frame is a page, or drains and was one.
    fn store_kept(&mut self, f: u64, offset: usize, bytes: &[u8]);
    /// The single stores to RAM of the last operation, where somebody has watched.
    fn stores(&self) -> Option<&[Store]> {
        None
    }
}

/// Bytes that were stored at once, `at` bytes into RAM. None where what was stored depends on what was there.
#[derive(Clone, Debug, PartialEq, Eq)]
pub struct Store {
    pub at: usize,
    pub bytes: Vec<u8>,
}

fn number(answer: Result<(), Refusal>) -> u64 {
    answer.map_or_else(|refusal| refusal.number(), |()| 0)
}

impl Subject for pageledger::Monitor<'_> {
    fn operate(&mut self, operation: Operation) -> u64 {
        number(match operation {
            Operation::Create { g } => self.create(g),
            Operation::Give { f, g } => self.give(f, g),
            Operation::Map { f, g, a, r } => self.map_raw(f, g, a, r),
            Operation::Unmap { a, g } => self.unmap(a, g),
            Operation::Share { g, f, h, w } => self.share_raw(g, f, h, w),
            Operation::Unshare { g, f, h } => self.unshare(g, f, h),
            Operation::Take { f, g } => self.take(f, g),
            Operation::Destroy { g } => self.destroy(g),
            Operation::Invalidated { g } => self.invalidated(g),
        })
    }

    fn ram(&self) -> &[u8] {
        // SAFETY: RAM is a test's own, and nothing writes it while it is looked at.
        unsafe { self.image() }.bytes
    }

    fn ledger(&self) -> &[u32] {
        self.ledger()
    }

    fn frame(&self, f: u64) -> Frame {
        match self.frame(f).expect("a frame's number") {
            pageledger::Frame::Monitor => Frame::Monitor,
            pageledger::Frame::Free => Frame::Free,
            pageledger::Frame::Table { of } => Frame::Table { of },
            pageledger::Frame::Draining { of } => Frame::Draining { of },
            pageledger::Frame::Page { owner, places } => {
                let others = |so: fn(Shared) -> bool| (1..=4).filter(|h| so(self.shared_with(f, *h))).collect();
                Frame::Page { owner, readers: others(|s| s != Shared::Nothing), writers: others(|s| s == Shared::Writing), places }
            }
        }
    }

    fn guest(&self, g: u64) -> Guest {
        let guest = self.guest(g).expect("a guest's number");
        Guest { root: guest.root, dirty: guest.dirty }
    }

    fn translation(&self, g: u64, ipa: u64, access: Access) -> Answer {
        self.translation(g, ipa, access)
    }

    fn store(&mut self, g: u64, ipa: u64, bytes: &[u8]) -> bool {
        self.store(g, ipa, bytes).is_ok()
    }

    fn load(&self, g: u64, ipa: u64, bytes: &mut [u8]) -> bool {
        self.load(g, ipa, bytes).is_ok()
    }

    fn store_kept(&mut self, f: u64, offset: usize, bytes: &[u8]) {
        assert!(offset + bytes.len() <= pageledger::FRAME_BYTES);
        // SAFETY: the caller's document says that it is a page, or was one; and so it lies in RAM.
        unsafe {
            let to = self.ram_ptr().add(pageledger::FRAME_BYTES * f as usize + offset);
            to.copy_from_nonoverlapping(bytes.as_ptr(), bytes.len());
        }
    }
}

impl Monitor {
    pub fn run(&mut self, operation: Operation, choose: Choose) -> u64 {
        self.stores.clear();
        let answer = match operation {
            Operation::Create { g } => self.create(g, choose),
            Operation::Give { f, g } => self.give(f, g),
            Operation::Map { f, g, a, r } => self.map(f, g, a, r, choose),
            Operation::Unmap { a, g } => self.unmap(a, g),
            Operation::Share { g, f, h, w } => self.share(g, f, h, w),
            Operation::Unshare { g, f, h } => self.unshare(g, f, h),
            Operation::Take { f, g } => self.take(f, g),
            Operation::Destroy { g } => self.destroy(g),
            Operation::Invalidated { g } => self.invalidated(g),
        };
        answer.map_or_else(|refusal| refusal, |()| 0)
    }

    /// Where the bytes stand that a guest reaches so; they are of one page.
    fn reached(&self, g: u64, ipa: u64, length: usize, access: Access) -> Option<usize> {
        if ipa % 4096 + length as u64 > 4096 {
            return None;
        }
        match self.translation(g, ipa, access) {
            Answer::Found { address, .. } => Some((address - self.base) as usize),
            _ => None,
        }
    }
}

impl Subject for Monitor {
    fn operate(&mut self, operation: Operation) -> u64 {
        self.run(operation, &lowest)
    }

    fn ram(&self) -> &[u8] {
        &self.ram
    }

    fn ledger(&self) -> &[u32] {
        &[]
    }

    fn frame(&self, f: u64) -> Frame {
        Frame::from(&self.frames[f as usize])
    }

    fn guest(&self, g: u64) -> Guest {
        let guest = self.guest(g).expect("a guest's number");
        Guest { root: guest.root, dirty: guest.dirty }
    }

    fn translation(&self, g: u64, ipa: u64, access: Access) -> Answer {
        let frames = self.frames.len() as u64;
        let Some(root) = self.root(g) else { return Answer::Refused };
        document::stage2(&self.ram, self.base, frames, root, ipa, access as u64).answer
    }

    fn store(&mut self, g: u64, ipa: u64, bytes: &[u8]) -> bool {
        let Some(at) = self.reached(g, ipa, bytes.len(), Access::Write) else { return false };
        self.ram[at..at + bytes.len()].copy_from_slice(bytes);
        true
    }

    fn load(&self, g: u64, ipa: u64, bytes: &mut [u8]) -> bool {
        let Some(at) = self.reached(g, ipa, bytes.len(), Access::Read) else { return false };
        bytes.copy_from_slice(&self.ram[at..at + bytes.len()]);
        true
    }

    fn store_kept(&mut self, f: u64, offset: usize, bytes: &[u8]) {
        self.bytes(f)[offset..][..bytes.len()].copy_from_slice(bytes);
    }
}
