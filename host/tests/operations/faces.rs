//! What the crate adds to the C functions: refusals and rights as types, pages that guests may write meanwhile, and who may hold a
//! monitor.
use crate::Shape;
use pageledger::{ledger_words, Access, Answer, Monitor, NotMade, Refusal, Rights, FRAME_BYTES};
use std::collections::BTreeSet;
use std::error::Error;

const SHAPE: Shape = Shape { b: 0x40000000, n: 16, k: 2 };
const HOME: u64 = 0x80000000;
const RIGHTS: [Rights; 4] = [Rights::Read, Rights::ReadWrite, Rights::ReadExecute, Rights::ReadWriteExecute];

/// A guest 1 with a page, frame 8, that is mapped at HOME with such rights.
fn with_page(rights: Rights, then: impl FnOnce(Monitor)) {
    let (mut ram, mut ledger) = (vec![0; 16 * FRAME_BYTES], vec![0; ledger_words(16)]);
    let mut monitor = SHAPE.library(&mut ram, &mut ledger);
    let answers = [monitor.create(1), monitor.give(8, 1), monitor.map(8, 1, HOME, rights)];
    assert_eq!(answers, [Ok(()); 3]);
    then(monitor);
}

/// Document 03, section 2: 1 to 14, each with a sentence of its own.
#[test]
fn refusals() {
    let numbers: Vec<_> = (0..100).filter(|number| Refusal::from_number(*number).is_some()).collect();
    assert_eq!(numbers, Vec::from_iter(1..=14));
    assert!(numbers.iter().all(|number| Refusal::from_number(*number).unwrap().number() == *number));
    let sentences: BTreeSet<_> = Refusal::ALL.iter().map(|refusal| refusal.to_string()).collect();
    assert_eq!(sentences.len(), Refusal::ALL.len());
    let error: Box<dyn Error + Send + Sync> = Refusal::StillUsed.into();
    assert_eq!(error.to_string(), "the page is still mapped or shared");
}

/// Of all numbers four are rights, and a page that is mapped with them is accessed so and not otherwise.
#[test]
fn rights() {
    let found: Vec<_> = (0..300).filter_map(|number| Rights::try_from(number).ok()).collect();
    assert_eq!(found, RIGHTS);
    assert_eq!(Rights::try_from((1 << 32) + 1), Err(Refusal::NoRights));
    for rights in RIGHTS {
        for (access, bit) in [(Access::Read, 1), (Access::Write, 2), (Access::Execute, 4)] {
            with_page(rights, |monitor| {
                let may = matches!(monitor.translation(1, HOME, access), Answer::Found { address: 0x40008000, .. });
                assert_eq!(may, rights as u64 & bit != 0, "{rights:?}, {access:?}");
            });
        }
    }
}

/// A page is read and written inside its 4,096 bytes, and nothing else is a page.
#[test]
fn pages() {
    with_page(Rights::ReadWrite, |mut monitor| {
        let mut page = monitor.page(8).expect("a page");
        assert_eq!(page.write(FRAME_BYTES - 4, b"last"), Ok(()));
        for (offset, bytes) in [(FRAME_BYTES - 3, 4), (FRAME_BYTES, 1), (FRAME_BYTES + 1, 0), (usize::MAX, 1), (0, FRAME_BYTES + 1)] {
            assert_eq!(page.write(offset, &vec![1; bytes]), Err(NotMade), "{bytes} bytes at {offset}");
            assert_eq!(page.read(offset, &mut vec![0; bytes]), Err(NotMade), "{bytes} bytes at {offset}");
        }
        assert_eq!(page.read(FRAME_BYTES, &mut []), Ok(()));
        let mut all = [0; FRAME_BYTES];
        assert_eq!(page.read(0, &mut all), Ok(()));
        assert!(all.ends_with(b"last") && all[..FRAME_BYTES - 4].iter().all(|byte| *byte == 0));
        assert_eq!(monitor.store(1, HOME, b"boot"), Ok(()));
        let mut read = [0; 4];
        assert_eq!(monitor.page(8).unwrap().read(0, &mut read), Ok(()));
        assert_eq!(&read, b"boot");
        // SAFETY: no guest runs.
        let image = unsafe { monitor.image() };
        let around = [&image.bytes[7 * FRAME_BYTES..8 * FRAME_BYTES], &image.bytes[9 * FRAME_BYTES..10 * FRAME_BYTES]];
        assert!(around.iter().all(|frame| frame.iter().all(|byte| *byte == 0)), "written beside the page");
        let others: Vec<_> = (0..20).filter(|frame| monitor.page(*frame).is_some()).collect();
        assert_eq!(others, [8]);
    });
}

/// A monitor goes from one core to another.
#[test]
fn between_threads() {
    with_page(Rights::Read, |mut monitor| {
        let taken = std::thread::scope(|scope| scope.spawn(move || (monitor.unmap(HOME, 1), monitor.take(8, 1))).join());
        assert_eq!(taken.unwrap(), (Ok(()), Ok(())));
    });
}
