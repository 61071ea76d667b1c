//! A guest with one page: what does its address 0x80000abc translate to, and who may have the page back?
use pageledger::{ledger_words, Access, Answer, Monitor, Refusal, Rights};

fn main() -> Result<(), Refusal> {
    let (mut ram, mut ledger) = (vec![0; 16 * 4096], vec![0; ledger_words(16)]);
    // On a machine whose guests run: unsafe { Monitor::set_up(ram, ram_length, ..) }, and what that asks for.
    let mut monitor = Monitor::simulated(&mut ram, &mut ledger, 0x40000000, 16, 2)?;
    monitor.create(1)?;
    monitor.give(8, 1)?;
    monitor.map(8, 1, 0x80000000, Rights::ReadWrite)?;
    match monitor.translation(1, 0x80000abc, Access::Write) {
        Answer::Found { address, fetched } => println!("0x{address:x} fetched {fetched}"),
        other => println!("{other:?}"),
    }
    if let Err(refusal) = monitor.take(8, 1) {
        println!("take answers {}: {refusal}", refusal.number());
    }
    Ok(())
}
