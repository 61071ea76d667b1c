//! Bytes that guests may write meanwhile: no reference to them is ever made. Each is read or written once, by itself, as volatile.
use crate::{NotMade, FRAME_BYTES};
use core::marker::PhantomData;
use core::ptr::NonNull;

/// A guest's page, for a host that puts a program there or looks at what the guest has written. The monitor is lent with it, so that
/// the frame stays a page meanwhile.
pub struct Page<'a> {
    start: NonNull<u8>,
    lent: PhantomData<&'a mut ()>,
}

impl Page<'_> {
    /// SAFETY: `start` is valid for reads and writes of a frame's bytes for as long as the page lives, and the frame is a page.
    pub(crate) unsafe fn new(start: NonNull<u8>) -> Self {
        Page { start, lent: PhantomData }
    }

    /// Reads bytes of the page from `offset` on.
    pub fn read(&self, offset: usize, into: &mut [u8]) -> Result<(), NotMade> {
        within(offset, into.len())?;
        // SAFETY: these bytes are of the page.
        unsafe { read(self.start.as_ptr().add(offset), into) };
        Ok(())
    }

    /// Writes bytes of the page from `offset` on.
    pub fn write(&mut self, offset: usize, bytes: &[u8]) -> Result<(), NotMade> {
        within(offset, bytes.len())?;
        // SAFETY: these bytes are of the page.
        unsafe { write(self.start.as_ptr().add(offset), bytes) };
        Ok(())
    }

    /// The page's first byte. What is done by the pointer is the caller's to see to: guests may write the page meanwhile.
    pub fn as_ptr(&self) -> *mut u8 {
        self.start.as_ptr()
    }
}

/// So many bytes from `offset` on are of one frame.
pub(crate) fn within(offset: usize, length: usize) -> Result<(), NotMade> {
    if offset <= FRAME_BYTES && length <= FRAME_BYTES - offset { Ok(()) } else { Err(NotMade) }
}

/// SAFETY: `from` is valid for reads of as many bytes.
pub(crate) unsafe fn read(from: *const u8, into: &mut [u8]) {
    for (at, byte) in into.iter_mut().enumerate() {
        *byte = unsafe { from.add(at).read_volatile() };
    }
}

/// SAFETY: `to` is valid for writes of as many bytes.
pub(crate) unsafe fn write(to: *mut u8, bytes: &[u8]) {
    for (at, byte) in bytes.iter().enumerate() {
        unsafe { to.add(at).write_volatile(*byte) };
    }
}
