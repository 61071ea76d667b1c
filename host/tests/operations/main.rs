//! The library's operations beside a second implementation of document 03: random sequences of operations and of guests' stores,
//! with fitting and hostile numbers, on RAM of many sizes. After each operation the answer, all of RAM, what the ledger says of
//! each frame and guest, and translations are compared; after a refusal RAM and the ledger with copies from before; and what a
//! processor that keeps all it can may use is held to what the guests own and share.
//! Deterministic: PAGELEDGER_SEED sets the seed that is printed, and PAGELEDGER_OPERATIONS the number of operations. Every
//! answer that document 03 lists for an operation must come 100 times.
mod caches;
mod cases;
#[path = "../common/mod.rs"]
mod common;
#[allow(dead_code)] // stage 2 alone is wanted here
#[path = "../document/mod.rs"]
mod document;
#[path = "../document/monitor.rs"]
mod document_03;
mod faces;
mod list;
mod run;
mod seen;
mod shape;
mod steps;
mod subject;

use common::{setting, Random};
use document_03::Wrong;
use run::Run;
use seen::{possible, Seen};
use shape::Shape;

#[test]
fn operations() {
    let seed = setting("PAGELEDGER_SEED", 1);
    let wanted = setting("PAGELEDGER_OPERATIONS", 300_000);
    let random = &mut Random(seed);
    let mut seen = possible();
    let kinds = seen.len();
    let (mut done, mut runs) = (0, 0);
    while done < wanted {
        let shape = Shape::new(random);
        let (mut ram, mut ledger) = (shape.ram(random), shape.ledger(random));
        let document = shape.document(&ram);
        let mut subject = shape.library(&mut ram, &mut ledger);
        match Run::new(&mut subject, document, random, &mut seen).steps() {
            Ok(operations) => done += operations,
            Err(problem) => panic!("seed {seed}, run {runs} with {shape:x?}: {problem}"),
        }
        runs += 1;
    }
    println!();
    for (name, count) in &seen {
        println!("{count:8} {name}");
    }
    let rarest = seen.values().min().unwrap();
    println!("seed {seed}: {done} operations in {runs} runs, {} kinds of answers, the rarest {rarest} times", seen.len());
    assert_eq!(seen.len(), kinds, "an answer that the document does not list");
    assert!(seen.values().all(|count| *count >= 100.min(done / 2000)), "an answer is too rare to say anything");
}

/// Whether runs of the second implementation with a wrong answer in it are noticed within so many operations, and how.
fn noticed(wrong: Option<Wrong>, in_both: bool) -> Option<String> {
    let random = &mut Random(1);
    let mut done = 0;
    while done < 30_000 {
        let shape = Shape::new(random);
        let mut document = shape.document(&shape.ram(random));
        let mut subject = shape.document(&document.ram);
        subject.wrong = wrong;
        document.wrong = wrong.filter(|_| in_both);
        match Run::new(&mut subject, document, random, &mut Seen::new()).steps() {
            Ok(operations) => done += operations,
            Err(problem) => return Some(problem),
        }
    }
    None
}

/// Section 6: each is noticed, also by what is not held to the second implementation but seen from outside; and nothing is
/// where there is nothing.
#[test]
fn wrong_answers() {
    assert_eq!(noticed(None, false), None);
    let seen_by = [
        (Wrong::GivenOutEarly, "reaches frame"),
        (Wrong::UnshareByTables, "reaches frame"),
        (Wrong::LinkedTooSoon, "RAM is not as it was"),
        (Wrong::SharesForgotten, "the new guest may map"),
        (Wrong::NotCleared, "the page is not all zero"),
    ];
    for (wrong, outside) in seen_by {
        assert!(noticed(Some(wrong), false).is_some(), "{wrong:?} is not noticed");
        let problem = noticed(Some(wrong), true).unwrap_or_default();
        assert!(problem.contains(outside), "{wrong:?} is not seen from outside: {problem:?}");
    }
}
