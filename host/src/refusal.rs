//! What goes wrong, as errors.
use core::error::Error;
use core::fmt;

/// Why an operation was refused: document 03, section 2, with its numbers. Nothing was changed.
#[derive(Clone, Copy, Debug, PartialEq, Eq, PartialOrd, Ord, Hash)]
pub enum Refusal {
    NoGuestNumber = 1,
    GuestExists = 2,
    NoFreeFrames = 3,
    NoFrame = 4,
    NoGuest = 5,
    NotFree = 6,
    NoPageAddress = 7,
    NoRights = 8,
    NotItsPage = 9,
    MappedAlready = 10,
    NotMapped = 11,
    WithItself = 12,
    StillUsed = 13,
    Dirty = 14,
}

impl Refusal {
    /// All of them, in the order of their numbers.
    pub const ALL: [Refusal; 14] = [
        Refusal::NoGuestNumber,
        Refusal::GuestExists,
        Refusal::NoFreeFrames,
        Refusal::NoFrame,
        Refusal::NoGuest,
        Refusal::NotFree,
        Refusal::NoPageAddress,
        Refusal::NoRights,
        Refusal::NotItsPage,
        Refusal::MappedAlready,
        Refusal::NotMapped,
        Refusal::WithItself,
        Refusal::StillUsed,
        Refusal::Dirty,
    ];

    /// The refusal of that number, if there is one.
    pub fn from_number(number: u64) -> Option<Refusal> {
        Refusal::ALL.into_iter().find(|refusal| refusal.number() == number)
    }

    pub const fn number(self) -> u64 {
        self as u64
    }
}

impl fmt::Display for Refusal {
    fn fmt(&self, to: &mut fmt::Formatter) -> fmt::Result {
        to.write_str(match self {
            Refusal::NoGuestNumber => "the guest's number is not 1 to 4",
            Refusal::GuestExists => "the guest exists already, or is dirty",
            Refusal::NoFreeFrames => "there are not enough free frames",
            Refusal::NoFrame => "the frame's number is out of range; at set-up, a number or a length does not fit",
            Refusal::NoGuest => "a guest that is named does not exist",
            Refusal::NotFree => "the frame is not free",
            Refusal::NoPageAddress => "the guest-physical address is not a multiple of 4,096, or is 2^48 or more",
            Refusal::NoRights => "the rights are not 1, 3, 5 or 7",
            Refusal::NotItsPage => "the frame is not a page that this guest may use so",
            Refusal::MappedAlready => "the address is mapped already",
            Refusal::NotMapped => "the address is not mapped",
            Refusal::WithItself => "a guest can't share with itself",
            Refusal::StillUsed => "the page is still mapped or shared",
            Refusal::Dirty => "the guest is dirty",
        })
    }
}

impl Error for Refusal {}

/// An array is too short for an answer. Nothing was written.
#[derive(Clone, Copy, Debug, PartialEq, Eq)]
pub struct Short;

/// The status that says so.
const SHORT: u64 = 64;

impl fmt::Display for Short {
    fn fmt(&self, to: &mut fmt::Formatter) -> fmt::Result {
        to.write_str("the array is too short for the answer")
    }
}

impl Error for Short {}

/// The bytes may not be accessed so, or are not of one page. Nothing was written.
#[derive(Clone, Copy, Debug, PartialEq, Eq)]
pub struct NotMade;

impl fmt::Display for NotMade {
    fn fmt(&self, to: &mut fmt::Formatter) -> fmt::Result {
        to.write_str("the bytes may not be accessed so, or are not of one page")
    }
}

impl Error for NotMade {}

/// What an operation answered.
pub(crate) fn done(number: u64) -> Result<(), Refusal> {
    match number {
        0 => Ok(()),
        other => Err(Refusal::from_number(other).unwrap_or_else(|| unreachable!("answer {other}"))),
    }
}

/// What a function said that tells an answer in an array.
pub(crate) fn status(number: u64) -> Result<(), Short> {
    match number {
        0 => Ok(()),
        SHORT => Err(Short),
        other => unreachable!("status {other}"),
    }
}

/// Where the array has room.
pub(crate) fn room(told: Result<(), Short>) {
    told.expect("the array has room for an answer");
}
