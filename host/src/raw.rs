//! The functions of the library, each as include/pageledger.h has it.

extern "C" {
    pub fn pageledger_stage2(
        ram: *const u8,
        ram_length: usize,
        base: u64,
        frames: u64,
        root: u64,
        ipa: u64,
        access: u64,
        answer: *mut u64,
        answer_length: usize,
    ) -> u64;
    pub fn pageledger_both_stages(
        ram: *const u8,
        ram_length: usize,
        base: u64,
        frames: u64,
        root1: u64,
        root2: u64,
        va: u64,
        access: u64,
        el: u64,
        answer: *mut u64,
        answer_length: usize,
    ) -> u64;
}

/// The monitor's: every one starts with RAM and the ledger.
macro_rules! functions {
    ($($name:ident($ram:ty, $ledger:ty $(, $argument:ident: $type:ty)*);)*) => {
        extern "C" {
            $(pub fn $name(ram: $ram, ram_length: usize, ledger: $ledger, ledger_length: usize $(, $argument: $type)*) -> u64;)*
        }
    };
}

functions! {
    pageledger_set_up(*const u8, *mut u32, base: u64, frames: u64, monitor_frames: u64);
    pageledger_create(*mut u8, *mut u32, guest: u64);
    pageledger_give(*mut u8, *mut u32, frame: u64, guest: u64);
    pageledger_map(*mut u8, *mut u32, frame: u64, guest: u64, ipa: u64, rights: u64);
    pageledger_unmap(*mut u8, *mut u32, ipa: u64, guest: u64);
    pageledger_share(*const u8, *mut u32, owner: u64, frame: u64, with: u64, writing: u64);
    pageledger_unshare(*const u8, *mut u32, owner: u64, frame: u64, with: u64);
    pageledger_take(*const u8, *mut u32, frame: u64, owner: u64);
    pageledger_destroy(*const u8, *mut u32, guest: u64);
    pageledger_invalidated(*const u8, *mut u32, guest: u64);
    pageledger_frame(*const u8, *const u32, frame: u64, answer: *mut u64, answer_length: usize);
    pageledger_shared_with(*const u8, *const u32, frame: u64, guest: u64);
    pageledger_guest(*const u8, *const u32, guest: u64, answer: *mut u64, answer_length: usize);
    pageledger_translation(*const u8, *const u32, guest: u64, ipa: u64, access: u64, answer: *mut u64, answer_length: usize);
}
