//! What does guest-physical 0xabc translate to? A table of stage 2 that points at itself answers.
use pageledger::{Access, Answer, Ram};

fn main() {
    let mut bytes = vec![0; 16 * 4096];
    bytes[0x1000..0x1008].copy_from_slice(&0x400014c3u64.to_le_bytes());
    let ram = Ram { bytes: &bytes, base: 0x40000000 };
    match ram.stage2(0x40001000, 0xabc, Access::Write) {
        Answer::Found { address, fetched } => println!("0x{address:x} fetched {fetched}"),
        other => println!("{other:?}"),
    }
}
