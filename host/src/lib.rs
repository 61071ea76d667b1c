//! What a guest's address translates to, through its own tables and the monitor's, and the monitor's operations on them: an
//! interface to the proved library. `include/pageledger.h` tells what each function does; here its numbers are types.
#![cfg_attr(not(test), no_std)]

mod monitor;
mod page;
mod raw;
mod refusal;
mod walk;

pub use monitor::{ledger_words, Frame, Guest, Monitor, Rights, Shared, FRAME_NUMBERS, GUEST_NUMBERS};
pub use page::Page;
pub use refusal::{NotMade, Refusal, Short};
pub use walk::{answer, both_stages_raw, stage2_raw, Access, Answer, El, Kind, Ram, ANSWER_NUMBERS};

/// The bytes of a frame, a page or a table.
pub const FRAME_BYTES: usize = 4096;

/// Guests have the numbers 1 to this.
pub const GUESTS: u64 = 4;
