//! The library as it is compiled, store by store: the stores to RAM of each operation are those that the second implementation of
//! document 03 makes, in its order, a descriptor whole; and after every single one, inside operations too, a processor that keeps all
//! that it can finds nothing that its guest was not allowed, and one translation of an address.
//! Deterministic: PAGELEDGER_SEED sets the seed that is printed, and PAGELEDGER_WATCHED the number of operations.
#![cfg(all(target_arch = "x86_64", target_os = "linux"))] // where a process can make itself stop after one instruction
#[path = "../operations/caches.rs"]
mod caches;
#[allow(dead_code)] // of walks
#[path = "../common/mod.rs"]
mod common;
#[allow(dead_code)] // stage 2 alone is wanted here
#[path = "../document/mod.rs"]
mod document;
#[path = "../document/monitor.rs"]
mod document_03;
mod lent;
mod libraries;
#[path = "../operations/list.rs"]
mod list;
#[path = "../operations/run.rs"]
mod run;
#[path = "../operations/seen.rs"]
mod seen;
#[allow(dead_code)] // RAM that is not lent
#[path = "../operations/shape.rs"]
mod shape;
#[path = "../operations/steps.rs"]
mod steps;
#[path = "../operations/subject.rs"]
mod subject;

use common::{setting, Random};
use libraries::{linked, written, Fault};
use run::Run;
use seen::{possible, Seen};
use shape::Shape;

#[test]
fn stores() {
    let seed = setting("PAGELEDGER_SEED", 1);
    let wanted = setting("PAGELEDGER_WATCHED", 20_000);
    let random = &mut Random(seed);
    let (mut seen, mut done, mut runs) = (possible(), 0, 0);
    while done < wanted {
        let shape = Shape::new(random);
        let (ram, mut ledger) = (shape.ram(random), shape.ledger(random));
        let mut subject = linked(&shape, &ram, &mut ledger);
        match Run::new(&mut subject, shape.document(&ram), random, &mut seen).steps() {
            Ok(operations) => done += operations,
            Err(problem) => panic!("seed {seed}, run {runs} with {shape:x?}: {problem}"),
        }
        runs += 1;
    }
    println!();
    for (name, count) in &seen {
        println!("{count:8} {name}");
    }
    println!("seed {seed}: {done} operations in {runs} runs, watched store by store");
    assert!(seen.values().all(|count| *count >= 100.min(done / 10_000)), "an answer is too rare to say anything");
}

/// How a library that makes the second implementation's stores is noticed within so many operations, if it is.
fn noticed(fault: Option<Fault>, by_list: bool, operations: u64) -> Option<String> {
    let random = &mut Random(1);
    let mut done = 0;
    while done < operations {
        let shape = Shape::new(random);
        let ram = shape.ram(random);
        let mut seen = Seen::new();
        let mut subject = written(&shape, &ram, fault);
        let mut run = Run::new(&mut subject, shape.document(&ram), random, &mut seen);
        run.by_list = by_list;
        match run.steps() {
            Ok(operations) => done += operations,
            Err(problem) => return Some(problem),
        }
    }
    None
}

/// Each is refused for its list of stores, and where the list is not asked for, for what the processor then finds; and nothing is
/// refused where nothing is wrong.
#[test]
fn wrong_libraries() {
    assert_eq!(noticed(None, true, 300), None);
    let faults = [
        (Fault::LinkedFirst, "the list clears frame", "the monitor wrote"),
        (Fault::TwoHalves, "the list has", "has two translations of"),
        (Fault::IntoDraining, "the list is done", "for a table of level"),
    ];
    for (fault, by_list, outside) in faults {
        for (asked, says) in [(true, by_list), (false, outside)] {
            let problem = noticed(Some(fault), asked, 5_000).unwrap_or_default();
            assert!(problem.contains(says), "{fault:?} is not noticed so: {problem:?}");
        }
    }
}
