//! Document 03: the monitor's operations and questions over RAM and the ledger. The ledger is the monitor's alone, and so a slice; RAM
//! is a pointer and a length, since guests write their pages while the monitor works.
use crate::refusal::{done, room, status};
use crate::{answer, page, raw, Access, Answer, NotMade, Page, Ram, Refusal, Short, ANSWER_NUMBERS, FRAME_BYTES};
use core::marker::PhantomData;
use core::ptr::NonNull;

/// With which rights a page is mapped; it is always read.
#[derive(Clone, Copy, Debug, PartialEq, Eq, PartialOrd, Ord, Hash)]
pub enum Rights {
    Read = 1,
    ReadWrite = 3,
    ReadExecute = 5,
    ReadWriteExecute = 7,
}

impl TryFrom<u64> for Rights {
    type Error = Refusal;

    /// The rights of that number: 1 to read, 2 to write, 4 to execute, added up.
    fn try_from(number: u64) -> Result<Rights, Refusal> {
        let all = [Rights::Read, Rights::ReadWrite, Rights::ReadExecute, Rights::ReadWriteExecute];
        all.into_iter().find(|rights| *rights as u64 == number).ok_or(Refusal::NoRights)
    }
}

/// What a frame is.
#[derive(Clone, Copy, Debug, PartialEq, Eq, PartialOrd, Ord, Hash)]
pub enum Frame {
    Monitor,
    Free,
    /// It holds a stage-2 table of a guest.
    Table { of: u64 },
    /// `places` is the number of places where it is mapped.
    Page { owner: u64, places: u64 },
    /// The guest's caches may still lead to it.
    Draining { of: u64 },
}

/// What a guest that is not the owner may map a page for.
#[derive(Clone, Copy, Debug, PartialEq, Eq, PartialOrd, Ord, Hash)]
pub enum Shared {
    Nothing,
    Reading,
    /// Reading and writing.
    Writing,
}

#[derive(Clone, Copy, Debug, PartialEq, Eq, PartialOrd, Ord, Hash)]
pub struct Guest {
    /// Its root table's physical address, if the guest exists.
    pub root: Option<u64>,
    pub dirty: bool,
}

/// How many numbers an answer about a frame has, and one about a guest.
pub const FRAME_NUMBERS: usize = 3;
pub const GUEST_NUMBERS: usize = 3;

/// How long the slice for the ledger is, for so many frames: its head, and a row for each frame.
pub const fn ledger_words(frames: u64) -> usize {
    const HEAD: usize = 144;
    const ROW: usize = 16;
    HEAD + ROW * frames as usize
}

/// A set-up RAM and ledger. While it lives, nobody else writes the ledger:
///
/// ```
/// use pageledger::{ledger_words, Monitor, Refusal, Rights};
/// let (mut ram, mut ledger) = (vec![0; 16 * 4096], vec![0; ledger_words(16)]);
/// let mut monitor = Monitor::simulated(&mut ram, &mut ledger, 0x40000000, 16, 2).unwrap();
/// monitor.create(1).unwrap();
/// monitor.give(8, 1).unwrap();
/// monitor.map(8, 1, 0x80000000, Rights::Read).unwrap();
/// assert_eq!(monitor.map(8, 1, 0x80000000, Rights::ReadWrite), Err(Refusal::MappedAlready));
/// assert!(monitor.store(1, 0x80000000, b"mapped for reading").is_err());
/// monitor.page(8).unwrap().write(0, b"boot").unwrap();
/// let mut read = [0; 4];
/// monitor.load(1, 0x80000000, &mut read).unwrap();
/// assert_eq!(&read, b"boot");
/// ```
///
/// ```compile_fail,E0506
/// # use pageledger::{ledger_words, Monitor};
/// # let (mut ram, mut ledger) = (vec![0; 16 * 4096], vec![0; ledger_words(16)]);
/// let mut monitor = Monitor::simulated(&mut ram[..], &mut ledger[..], 0x40000000, 16, 2).unwrap();
/// ledger = vec![0; ledger_words(16)];
/// monitor.create(1).unwrap();
/// ```
///
/// It may go from one core to another, behind a lock; calls are one at a time, so no two cores share it:
///
/// ```compile_fail,E0277
/// fn shared<T: Sync>() {}
/// shared::<pageledger::Monitor>();
/// ```
pub struct Monitor<'a> {
    ram: NonNull<u8>,
    ram_length: usize,
    base: u64,
    ledger: &'a mut [u32],
    lent: PhantomData<&'a mut [u8]>,
}

// SAFETY: the library keeps nothing of its own, and no function minds which core calls it.
unsafe impl Send for Monitor<'_> {}

/// Calls an operation. SAFETY, of each: both arrays are valid for their lengths, the ledger is lent to nobody else, and they hold
/// what set-up and earlier operations have made, and stores to frames that are no tables, as `set_up` asks.
macro_rules! operation {
    ($monitor:ident, $name:ident $(, $argument:expr)*) => {{
        let (ram, ledger) = ($monitor.ram.as_ptr(), &mut *$monitor.ledger);
        done(unsafe { raw::$name(ram, $monitor.ram_length, ledger.as_mut_ptr(), ledger.len() $(, $argument)*) })
    }};
}

/// Asks a question. SAFETY, of each: as for an operation; nothing is written but the answer.
macro_rules! question {
    ($monitor:ident, $name:ident $(, $argument:expr)*) => {{
        let (ram, ledger) = ($monitor.ram.as_ptr(), &*$monitor.ledger);
        unsafe { raw::$name(ram, $monitor.ram_length, ledger.as_ptr(), ledger.len() $(, $argument)*) }
    }};
}

impl<'a> Monitor<'a> {
    /// RAM of `frames` frames from the physical address `base` on, the first `monitor_frames` of them the monitor's, and a ledger of
    /// `ledger_words(frames)` words. Refused with `NoFrame` where anything does not fit, or RAM does not lie at a multiple of 8,
    /// and then nothing has changed. RAM is not written.
    ///
    /// # Safety
    /// `ram` is valid for reads and writes of `ram_length` bytes, and the ledger is not among them. And for as long as the monitor
    /// lives, its caller sees to what include/pageledger.h asks of one; in short:
    /// - now, once per boot, the processors keep no translation of any guest;
    /// - nobody but the monitor writes a table or a frame that was one and drains; guests write what they reach, and the host, between
    ///   calls, pages, free frames and the monitor's;
    /// - a guest runs only while it exists, with its root, after a barrier; over an archive that is not for bare metal, not while `map`
    ///   works for it;
    /// - `invalidated` is called only when every core has forgotten all of that guest's translations.
    pub unsafe fn set_up(
        ram: NonNull<u8>,
        ram_length: usize,
        ledger: &'a mut [u32],
        base: u64,
        frames: u64,
        monitor_frames: u64,
    ) -> Result<Monitor<'a>, Refusal> {
        // On bare metal a descriptor is stored by a store-release, which wants it; the library itself can't see where RAM lies.
        if ram.as_ptr() as usize % align_of::<u64>() != 0 {
            return Err(Refusal::NoFrame);
        }
        let (words, length) = (ledger.as_mut_ptr(), ledger.len());
        // SAFETY: both arrays are valid for their lengths, and the ledger is lent to nobody else.
        done(unsafe { raw::pageledger_set_up(ram.as_ptr(), ram_length, words, length, base, frames, monitor_frames) })?;
        Ok(Monitor { ram, ram_length, base, ledger, lent: PhantomData })
    }

    /// Over RAM that no processor walks and no guest runs on: a test's or a simulator's. Otherwise as `set_up`.
    pub fn simulated(
        ram: &'a mut [u8],
        ledger: &'a mut [u32],
        base: u64,
        frames: u64,
        monitor_frames: u64,
    ) -> Result<Monitor<'a>, Refusal> {
        let ram_length = ram.len();
        // SAFETY: RAM is lent to nobody else while the monitor lives, and no processor keeps or writes anything of it.
        unsafe { Monitor::set_up(NonNull::from(ram).cast(), ram_length, ledger, base, frames, monitor_frames) }
    }

    /// A free frame becomes the guest's root table.
    pub fn create(&mut self, guest: u64) -> Result<(), Refusal> {
        operation!(self, pageledger_create, guest)
    }

    /// A free frame becomes a page of the guest, all zero.
    pub fn give(&mut self, frame: u64, guest: u64) -> Result<(), Refusal> {
        operation!(self, pageledger_give, frame, guest)
    }

    /// The guest's address translates to the frame, with these rights.
    pub fn map(&mut self, frame: u64, guest: u64, ipa: u64, rights: Rights) -> Result<(), Refusal> {
        self.map_raw(frame, guest, ipa, rights as u64)
    }

    /// The C function: rights that are any number, as a guest may have asked for them.
    pub fn map_raw(&mut self, frame: u64, guest: u64, ipa: u64, rights: u64) -> Result<(), Refusal> {
        operation!(self, pageledger_map, frame, guest, ipa, rights)
    }

    /// The guest's address no longer translates; the guest becomes dirty.
    pub fn unmap(&mut self, ipa: u64, guest: u64) -> Result<(), Refusal> {
        operation!(self, pageledger_unmap, ipa, guest)
    }

    /// The guest `with` may map the owner's page for reading, and for writing too if that is shared.
    pub fn share(&mut self, owner: u64, frame: u64, with: u64, writing: bool) -> Result<(), Refusal> {
        self.share_raw(owner, frame, with, u64::from(writing))
    }

    /// The C function: writing is shared unless that is 0.
    pub fn share_raw(&mut self, owner: u64, frame: u64, with: u64, writing: u64) -> Result<(), Refusal> {
        operation!(self, pageledger_share, owner, frame, with, writing)
    }

    /// The guest `with` may no longer map the owner's page.
    pub fn unshare(&mut self, owner: u64, frame: u64, with: u64) -> Result<(), Refusal> {
        operation!(self, pageledger_unshare, owner, frame, with)
    }

    /// The owner's page is free, or drains if the owner is dirty.
    pub fn take(&mut self, frame: u64, owner: u64) -> Result<(), Refusal> {
        operation!(self, pageledger_take, frame, owner)
    }

    /// The guest no longer exists; its tables and pages drain.
    pub fn destroy(&mut self, guest: u64) -> Result<(), Refusal> {
        operation!(self, pageledger_destroy, guest)
    }

    /// The report that every core has forgotten all of the guest's translations. What drained for it is free.
    pub fn invalidated(&mut self, guest: u64) -> Result<(), Refusal> {
        operation!(self, pageledger_invalidated, guest)
    }

    /// What the frame is, if there is one of that number.
    pub fn frame(&self, frame: u64) -> Option<Frame> {
        let mut out = [0; FRAME_NUMBERS];
        room(self.frame_raw(frame, &mut out));
        let [what, guest, places] = out;
        match what {
            0 => None,
            1 => Some(Frame::Monitor),
            2 => Some(Frame::Free),
            3 => Some(Frame::Table { of: guest }),
            4 => Some(Frame::Draining { of: guest }),
            5 => Some(Frame::Page { owner: guest, places }),
            other => unreachable!("a frame that is a {other}"),
        }
    }

    /// What the frame is shared with the guest for: nothing, also where there is no such frame or guest.
    pub fn shared_with(&self, frame: u64, guest: u64) -> Shared {
        match question!(self, pageledger_shared_with, frame, guest) {
            0 => Shared::Nothing,
            1 => Shared::Reading,
            2 => Shared::Writing,
            other => unreachable!("shared {other}"),
        }
    }

    /// What the guest is, if the number is 1 to 4.
    pub fn guest(&self, guest: u64) -> Option<Guest> {
        let mut out = [0; GUEST_NUMBERS];
        room(self.guest_raw(guest, &mut out));
        let [what, root, dirty] = out;
        match what {
            0 => None,
            1 => Some(Guest { root: None, dirty: dirty != 0 }),
            2 => Some(Guest { root: Some(root), dirty: dirty != 0 }),
            other => unreachable!("a guest that is a {other}"),
        }
    }

    /// What a guest-physical address of the guest translates to. `Refused` also where there is no such guest.
    pub fn translation(&self, guest: u64, ipa: u64, access: Access) -> Answer {
        let mut out = [0; ANSWER_NUMBERS];
        room(self.translation_raw(guest, ipa, access as u64, &mut out));
        answer(out)
    }

    /// The C function; the answer is in the first `FRAME_NUMBERS` elements of `out`.
    pub fn frame_raw(&self, frame: u64, out: &mut [u64]) -> Result<(), Short> {
        status(question!(self, pageledger_frame, frame, out.as_mut_ptr(), out.len()))
    }

    /// The C function; the answer is in the first `GUEST_NUMBERS` elements of `out`.
    pub fn guest_raw(&self, guest: u64, out: &mut [u64]) -> Result<(), Short> {
        status(question!(self, pageledger_guest, guest, out.as_mut_ptr(), out.len()))
    }

    /// The C function, with any numbers; the answer is in the first `ANSWER_NUMBERS` elements of `out`.
    pub fn translation_raw(&self, guest: u64, ipa: u64, access: u64, out: &mut [u64]) -> Result<(), Short> {
        status(question!(self, pageledger_translation, guest, ipa, access, out.as_mut_ptr(), out.len()))
    }

    /// The guest reads bytes of one page at a guest-physical address.
    pub fn load(&self, guest: u64, ipa: u64, into: &mut [u8]) -> Result<(), NotMade> {
        let from = self.reached(guest, ipa, into.len(), Access::Read)?;
        // SAFETY: these bytes are of one page, which lies in RAM.
        unsafe { page::read(from, into) };
        Ok(())
    }

    /// The guest stores bytes into one page at a guest-physical address.
    pub fn store(&mut self, guest: u64, ipa: u64, bytes: &[u8]) -> Result<(), NotMade> {
        let to = self.reached(guest, ipa, bytes.len(), Access::Write)?;
        // SAFETY: these bytes are of one page, which lies in RAM; no table does.
        unsafe { page::write(to, bytes) };
        Ok(())
    }

    /// A guest's page, for the host; none where the frame is no page.
    pub fn page(&mut self, frame: u64) -> Option<Page<'_>> {
        match self.frame(frame)? {
            // SAFETY: a page lies in RAM, and stays a page while the monitor is lent.
            Frame::Page { .. } => Some(unsafe { Page::new(self.ram.add(FRAME_BYTES * frame as usize)) }),
            _ => None,
        }
    }

    /// RAM's first byte, for whoever accesses frames as `set_up` allows it.
    pub fn ram_ptr(&self) -> *mut u8 {
        self.ram.as_ptr()
    }

    /// All of RAM as an image, for walks.
    ///
    /// # Safety
    /// As long as the image lives, nobody writes RAM: no guest runs that could.
    pub unsafe fn image(&self) -> Ram<'_> {
        // SAFETY: RAM is valid for its length, and nobody writes it.
        Ram { bytes: unsafe { core::slice::from_raw_parts(self.ram.as_ptr(), self.ram_length) }, base: self.base }
    }

    /// The ledger's words, for reading.
    pub fn ledger(&self) -> &[u32] {
        self.ledger
    }

    /// Where in RAM the bytes stand that the guest reaches so. A page of its tables lies in RAM.
    fn reached(&self, guest: u64, ipa: u64, length: usize, access: Access) -> Result<*mut u8, NotMade> {
        page::within((ipa % FRAME_BYTES as u64) as usize, length)?;
        match self.translation(guest, ipa, access) {
            // SAFETY: the address is of a page, which lies in RAM.
            Answer::Found { address, .. } => Ok(unsafe { self.ram.as_ptr().add((address - self.base) as usize) }),
            _ => Err(NotMade),
        }
    }
}
