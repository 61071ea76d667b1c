//! Libraries whose stores are watched: the one that is linked; and the second implementation as one, which makes the stores of its
//! list by instructions of its own, as it should or with a fault.
use crate::document_03::{lowest, Kind, Monitor, Stored};
use crate::lent::Lent;
use crate::shape::Shape;
use crate::steps::Operation;
use crate::subject::{Frame, Guest, Store, Subject};
use pageledger::{Access, Answer};
use std::ptr::NonNull;

/// Something that works on RAM which is lent read-only.
pub struct Watched<S> {
    library: S,
    operate: Box<dyn Fn(&mut S, &Lent, Operation) -> u64>,
    lent: Lent,
    stores: Vec<Store>,
}

/// What is linked.
pub fn linked<'a>(shape: &Shape, ram: &[u8], ledger: &'a mut [u32]) -> Watched<pageledger::Monitor<'a>> {
    let mut lent = Lent::new(ram);
    let start = NonNull::new(lent.start()).unwrap();
    // SAFETY: no processor walks this RAM; it lives as long as the monitor does, and stores to it are let through.
    let monitor = unsafe { pageledger::Monitor::set_up(start, ram.len(), ledger, shape.b, shape.n, shape.k) };
    assert_eq!(lent.caught(), [], "set-up stores to RAM");
    let library = monitor.expect("numbers that fit");
    Watched { library, operate: Box::new(|monitor, _, operation| monitor.operate(operation)), lent, stores: Vec::new() }
}

/// What a library can do wrong though its answers are right, and what it leaves in the ledger.
#[derive(Clone, Copy, Debug, PartialEq, Eq)]
pub enum Fault {
    /// A new table is linked, and then cleared.
    LinkedFirst,
    /// A descriptor is stored in two halves.
    TwoHalves,
    /// What map stores last, it also stores into a table that drains.
    IntoDraining,
}

/// The second implementation.
pub fn written(shape: &Shape, ram: &[u8], fault: Option<Fault>) -> Watched<Monitor> {
    let operate = move |document: &mut Monitor, lent: &Lent, operation: Operation| {
        let answer = document.run(operation, &lowest);
        for stored in list(document, fault) {
            make(document, lent, stored, fault == Some(Fault::TwoHalves));
        }
        answer
    };
    Watched { library: shape.document(ram), operate: Box::new(operate), lent: Lent::new(ram), stores: Vec::new() }
}

/// The document's list of stores, or one with a fault.
fn list(document: &Monitor, fault: Option<Fault>) -> Vec<Stored> {
    let mut list = document.stores.clone();
    let draining = document.frames.iter().position(|kind| matches!(kind, Kind::Draining { was_table: true, .. }));
    match (fault, draining, list.last().copied()) {
        (Some(Fault::LinkedFirst), ..) => {
            for at in 1..list.len() {
                if matches!(list[at - 1..=at], [Stored::Cleared { .. }, Stored::Word { .. }]) {
                    list.swap(at - 1, at);
                }
            }
        }
        (Some(Fault::IntoDraining), Some(f), Some(Stored::Word { word, .. })) if word != 0 => {
            list.push(Stored::Word { address: document.address(f as u64), word });
        }
        _ => {}
    }
    list
}

fn make(document: &Monitor, lent: &Lent, stored: Stored, in_halves: bool) {
    let place = |address: u64| lent.start().wrapping_add((address - document.base) as usize);
    // SAFETY: the document's frames and tables lie in RAM, which is lent, at multiples of 8.
    unsafe {
        match stored {
            Stored::Cleared { f } => (0..512).for_each(|word| place(document.address(f) + 8 * word).cast::<u64>().write_volatile(0)),
            Stored::Word { address, word } if in_halves => {
                place(address).cast::<u32>().write_volatile(word as u32);
                place(address + 4).cast::<u32>().write_volatile((word >> 32) as u32);
            }
            Stored::Word { address, word } => place(address).cast::<u64>().write_volatile(word),
        }
    }
}

impl<S: Subject> Watched<S> {
    /// A guest's store, which is not watched: what it makes of the library's RAM is in the one that is lent.
    fn unwatched<T>(&mut self, store: impl FnOnce(&mut S) -> T) -> T {
        let Watched { library, lent, .. } = self;
        lent.writable(|start| {
            let made = store(library);
            // SAFETY: it is as long as the library's, or is the library's.
            unsafe { start.copy_from(library.ram().as_ptr(), library.ram().len()) };
            made
        })
    }
}

impl<S: Subject> Subject for Watched<S> {
    fn operate(&mut self, operation: Operation) -> u64 {
        let answer = (self.operate)(&mut self.library, &self.lent, operation);
        self.stores = self.lent.caught();
        answer
    }

    fn stores(&self) -> Option<&[Store]> {
        Some(&self.stores)
    }

    fn ram(&self) -> &[u8] {
        self.lent.bytes()
    }

    fn ledger(&self) -> &[u32] {
        self.library.ledger()
    }

    fn frame(&self, f: u64) -> Frame {
        self.library.frame(f)
    }

    fn guest(&self, g: u64) -> Guest {
        self.library.guest(g)
    }

    fn translation(&self, g: u64, ipa: u64, access: Access) -> Answer {
        self.library.translation(g, ipa, access)
    }

    fn store(&mut self, g: u64, ipa: u64, bytes: &[u8]) -> bool {
        self.unwatched(|library| library.store(g, ipa, bytes))
    }

    fn load(&self, g: u64, ipa: u64, bytes: &mut [u8]) -> bool {
        self.library.load(g, ipa, bytes)
    }

    fn store_kept(&mut self, f: u64, offset: usize, bytes: &[u8]) {
        self.unwatched(|library| library.store_kept(f, offset, bytes));
    }
}
