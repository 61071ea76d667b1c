//! RAM that is lent read-only. The processor stops at each store to it; the store is then made alone, by a single step, and written
//! down with the bytes that it wrote. What it wrote shows by making it twice, over the bytes that were there and over their complement:
//! a byte that is the same after both was stored.
use crate::subject::Store;
use std::cell::UnsafeCell;
use std::ffi::c_void;
use std::sync::{Mutex, MutexGuard, PoisonError};

/// No instruction stores more bytes.
const WIDEST: usize = 64;
/// Stores of one operation that there is room for: four frames cleared byte by byte, and more.
const ROOM: usize = 20_000;

// Linux on x86-64, as <sys/mman.h>, <signal.h> and <ucontext.h> have it.
const READ: i32 = 1;
const READ_WRITE: i32 = 3;
const PRIVATE_ANONYMOUS: i32 = 0x22;
const SIGTRAP: i32 = 5;
const SIGSEGV: i32 = 11;
const WITH_INFO: i32 = 4;
const REGISTERS: usize = 18; // r8 to rip, and the flags
const FLAGS: usize = 17;
const SINGLE_STEP: u64 = 0x100;

#[repr(C)]
struct Action {
    handler: usize,
    mask: [u64; 16],
    flags: i32,
    restorer: usize,
}

#[repr(C)]
struct Info {
    head: [i32; 4],
    address: usize,
}

#[repr(C)]
struct Context {
    head: [u64; 5],
    registers: [u64; REGISTERS],
}

extern "C" {
    fn mmap(address: *mut c_void, length: usize, protection: i32, flags: i32, file: i32, offset: i64) -> *mut c_void;
    fn munmap(address: *mut c_void, length: usize) -> i32;
    fn mprotect(address: *mut c_void, length: usize, protection: i32) -> i32;
    fn sigaction(signal: i32, action: *const Action, before: *mut Action) -> i32;
}

/// A store that is being made, `at` bytes into RAM.
#[derive(Clone, Copy)]
struct Making {
    at: usize,
    registers: [u64; REGISTERS],
    before: [u8; WIDEST],
    /// What the first time left.
    first: Option<[u8; WIDEST]>,
}

#[derive(Clone, Copy)]
enum Caught {
    /// One instruction: so many bytes, or none where what it stores depends on what was there.
    Once { at: usize, bytes: [u8; WIDEST], length: usize },
    /// A call of memset.
    Filled { at: usize, byte: u8, length: usize },
}

/// What the handlers work on. There is one, held by whoever has lent RAM.
struct Watch {
    start: *mut u8,
    length: usize,
    making: Option<Making>,
    caught: Vec<Caught>,
}

struct Only(UnsafeCell<Watch>);

// SAFETY: it is used by the thread that holds TURN, and by handlers that interrupt that thread at a store to RAM it has lent.
unsafe impl Sync for Only {}

static WATCH: Only = Only(UnsafeCell::new(Watch { start: std::ptr::null_mut(), length: 0, making: None, caught: Vec::new() }));
static TURN: Mutex<()> = Mutex::new(());

impl Watch {
    fn protect(&self, how: i32) {
        // SAFETY: these pages are mapped, and nothing else is in them.
        assert_eq!(unsafe { mprotect(self.start.cast(), self.length, how) }, 0, "mprotect");
    }

    /// The bytes that a store at this place may write.
    fn window(&mut self, at: usize) -> &mut [u8] {
        // SAFETY: RAM lies there, and nobody else has it while a store is stopped.
        unsafe { std::slice::from_raw_parts_mut(self.start.add(at), WIDEST.min(self.length - at)) }
    }

    fn copy(&mut self, at: usize) -> [u8; WIDEST] {
        let mut bytes = [0; WIDEST];
        let window = self.window(at);
        bytes[..window.len()].copy_from_slice(window);
        bytes
    }

    fn write_down(&mut self, caught: Caught) {
        assert!(self.caught.len() < ROOM, "more stores than any operation makes");
        self.caught.push(caught);
    }

    /// The store has been made over what was there, and over its complement.
    fn made(&mut self, Making { at, before, first, .. }: Making) {
        let (first, second, room) = (first.unwrap(), self.copy(at), self.window(at).len());
        let length = (0..room).take_while(|i| first[*i] == second[*i]).count();
        let kept = (length..room).all(|i| first[i] == before[i] && second[i] == !before[i]);
        self.window(at).copy_from_slice(&first[..room]);
        self.protect(READ);
        self.write_down(Caught::Once { at, bytes: first, length: if kept { length } else { 0 } });
    }
}

/// A store to RAM: it goes on alone.
extern "C" fn stopped(_: i32, info: &Info, context: &mut Context) {
    // SAFETY: the thread that has lent RAM stands at a store, and not in a function of Watch.
    let watch = unsafe { &mut *WATCH.0.get() };
    let at = info.address.wrapping_sub(watch.start as usize);
    if at >= watch.length || watch.making.is_some() {
        return action(SIGSEGV, 0); // not ours: as without us
    }
    watch.making = Some(Making { at, registers: context.registers, before: watch.copy(at), first: None });
    watch.protect(READ_WRITE);
    context.registers[FLAGS] |= SINGLE_STEP;
}

/// The store was made, for the first time or for the second.
extern "C" fn stepped(_: i32, _: &Info, context: &mut Context) {
    // SAFETY: as above; it stands right behind the store.
    let watch = unsafe { &mut *WATCH.0.get() };
    let Some(mut making) = watch.making.take() else { return action(SIGTRAP, 0) };
    if making.first.is_some() {
        watch.made(making);
        context.registers[FLAGS] &= !SINGLE_STEP;
        return;
    }
    making.first = Some(watch.copy(making.at));
    for (byte, before) in watch.window(making.at).iter_mut().zip(making.before) {
        *byte = !before;
    }
    context.registers = making.registers;
    context.registers[FLAGS] |= SINGLE_STEP;
    watch.making = Some(making);
}

fn action(signal: i32, handler: usize) {
    let action = Action { handler, mask: [0; 16], flags: WITH_INFO, restorer: 0 };
    // SAFETY: the handler has the signature that WITH_INFO asks for, or is 0, the default.
    assert_eq!(unsafe { sigaction(signal, &action, std::ptr::null_mut()) }, 0, "sigaction");
}

/// What the library, and all else in this program, is linked with. RAM that is lent it fills at once, and writes that down.
///
/// # Safety
/// As in C.
#[no_mangle]
pub unsafe extern "C" fn memset(to: *mut u8, byte: i32, length: usize) -> *mut u8 {
    let fill = || unsafe { std::arch::asm!("rep stosb", inout("rcx") length => _, inout("rdi") to => _, in("al") byte as u8) };
    let watch = unsafe { &mut *WATCH.0.get() };
    let at = (to as usize).wrapping_sub(watch.start as usize);
    if at >= watch.length {
        fill();
        return to;
    }
    watch.protect(READ_WRITE);
    fill();
    watch.protect(READ);
    watch.write_down(Caught::Filled { at, byte: byte as u8, length });
    to
}

/// RAM, read-only to everybody.
pub struct Lent {
    start: *mut u8,
    length: usize,
    _turn: MutexGuard<'static, ()>,
}

impl Lent {
    /// RAM that holds these bytes, of whole frames.
    pub fn new(bytes: &[u8]) -> Lent {
        let turn = TURN.lock().unwrap_or_else(PoisonError::into_inner);
        // SAFETY: new pages, anywhere; whole frames are whole pages.
        let start: *mut u8 = unsafe { mmap(std::ptr::null_mut(), bytes.len(), READ_WRITE, PRIVATE_ANONYMOUS, -1, 0) }.cast();
        assert_ne!(start as isize, -1, "mmap");
        // SAFETY: they have room for these bytes.
        unsafe { start.copy_from_nonoverlapping(bytes.as_ptr(), bytes.len()) };
        // SAFETY: it is our turn.
        let watch = unsafe { &mut *WATCH.0.get() };
        *watch = Watch { start, length: bytes.len(), making: None, caught: Vec::with_capacity(ROOM) };
        action(SIGSEGV, stopped as *const () as usize);
        action(SIGTRAP, stepped as *const () as usize);
        watch.protect(READ);
        Lent { start, length: bytes.len(), _turn: turn }
    }

    pub fn start(&self) -> *mut u8 {
        self.start
    }

    pub fn bytes(&self) -> &[u8] {
        // SAFETY: they are mapped as long as this lives, and written through it alone.
        unsafe { std::slice::from_raw_parts(self.start, self.length) }
    }

    /// Stores that are not watched, as guests' are.
    pub fn writable<T>(&mut self, stores: impl FnOnce(*mut u8) -> T) -> T {
        // SAFETY: it is our turn.
        let watch = unsafe { &mut *WATCH.0.get() };
        watch.protect(READ_WRITE);
        let made = stores(self.start);
        watch.protect(READ);
        made
    }

    /// The stores to RAM since the last time that this was asked, in their order.
    pub fn caught(&mut self) -> Vec<Store> {
        // SAFETY: it is our turn, and no store is being made.
        let caught = unsafe { &mut (*WATCH.0.get()).caught };
        caught.drain(..).map(Store::from).collect()
    }
}

impl From<Caught> for Store {
    fn from(caught: Caught) -> Store {
        match caught {
            Caught::Once { at, bytes, length } => Store { at, bytes: bytes[..length].to_vec() },
            Caught::Filled { at, byte, length } => Store { at, bytes: vec![byte; length] },
        }
    }
}

impl Drop for Lent {
    fn drop(&mut self) {
        // SAFETY: it is our turn; these pages are ours, and nobody has them any more.
        unsafe {
            *WATCH.0.get() = Watch { start: std::ptr::null_mut(), length: 0, making: None, caught: Vec::new() };
            munmap(self.start.cast(), self.length);
        }
    }
}

/// Stores of all widths are caught whole, also where they leave what was there; one that depends on it tells no bytes.
#[test]
fn each_store_is_caught() {
    use std::arch::x86_64::{_mm_set1_epi8, _mm_storeu_si128};
    use std::sync::atomic::{AtomicU64, Ordering};
    let mut lent = Lent::new(&[7; 2 * 4096]);
    let start = lent.start();
    // SAFETY: all of these places lie in the two pages.
    unsafe {
        start.write_volatile(7);
        start.add(2).cast::<u16>().write_volatile(0x0107);
        start.add(8).cast::<u64>().write_volatile(0x0707070707070707);
        start.add(4092).cast::<u64>().write_unaligned(5);
        _mm_storeu_si128(start.add(100).cast(), _mm_set1_epi8(7));
        AtomicU64::from_ptr(start.add(16).cast()).fetch_add(1, Ordering::SeqCst);
        start.add(8191).write_volatile(3);
        memset(start.add(4096), 0, 4096);
    }
    let caught: Vec<_> = lent.caught().into_iter().map(|store| (store.at, store.bytes)).collect();
    let expected: [(usize, &[u8]); 8] = [
        (0, &[7]),
        (2, &[7, 1]),
        (8, &[7; 8]),
        (4092, &[5, 0, 0, 0, 0, 0, 0, 0]),
        (100, &[7; 16]),
        (16, &[]),
        (8191, &[3]),
        (4096, &[0; 4096]),
    ];
    assert_eq!(caught, expected.map(|(at, bytes)| (at, bytes.to_vec())));
    lent.writable(|start| unsafe { start.write_volatile(9) });
    assert_eq!((lent.caught(), &lent.bytes()[..4], lent.bytes()[16]), (vec![], &[9, 7, 7, 1][..], 8));
}
