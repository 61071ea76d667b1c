//! What the documents and the header say by example: set-up's numbers, document 03's two sequences, questions and stores.
use crate::common::{setting, told, Random};
use crate::document;
use crate::document_03::{Kind, Monitor};
use crate::run::Run;
use crate::seen::Seen;
use crate::steps::Operation::{self, *};
use crate::subject::Subject;
use crate::Shape;
use pageledger::{answer, ledger_words, Access, Answer, Frame, Guest, Refusal, Rights, Shared};

/// Runs operations with their answers on the library, each held to all that a random one is held to.
fn answers(shape: Shape, script: &[(Operation, u64)], then: impl FnOnce(&pageledger::Monitor)) {
    let random = &mut Random(5);
    let (mut ram, mut ledger) = (shape.ram(random), shape.ledger(random));
    let document = shape.document(&ram);
    let mut subject = shape.library(&mut ram, &mut ledger);
    let mut seen = Seen::new();
    let mut run = Run::new(&mut subject, document, random, &mut seen);
    for (at, (operation, answer)) in script.iter().enumerate() {
        assert_eq!(run.perform(*operation), Ok(*answer), "line {}: {operation:x?}", at + 1);
    }
    then(&subject);
}

/// Document 03, section 5: the first sequence.
#[test]
fn section_5() {
    let map = |f, g, a, r| Map { f, g, a, r };
    let home = 0x80000000;
    let script = [
        (Create { g: 1 }, 0),
        (Create { g: 1 }, 2),
        (Create { g: 2 }, 0),
        (Give { f: 8, g: 1 }, 0),
        (Give { f: 8, g: 2 }, 6),
        (map(8, 1, home, 3), 0),
        (map(8, 1, home, 1), 10),
        (map(8, 2, 0x1000, 1), 9),
        (Share { g: 1, f: 8, h: 2, w: 0 }, 0),
        (map(8, 2, 0x1000, 3), 9),
        (map(8, 2, 0x1000, 1), 0),
        (Unshare { g: 1, f: 8, h: 2 }, 13),
        (Unmap { a: 0x1000, g: 2 }, 0),
        (Unshare { g: 1, f: 8, h: 2 }, 14),
        (Invalidated { g: 2 }, 0),
        (Unshare { g: 1, f: 8, h: 2 }, 0),
        (Take { f: 8, g: 1 }, 13),
        (Unmap { a: home, g: 1 }, 0),
        (Take { f: 8, g: 1 }, 0),
        (Give { f: 8, g: 2 }, 6),
        (Invalidated { g: 1 }, 0),
        (Give { f: 8, g: 2 }, 0),
        (map(8, 1, home + 1, 1), 7),
        (map(8, 1, 1 << 48, 1), 7),
        (map(0, 2, 0x2000, 1), 9),
        (map(9, 2, 0x2000, 1), 9),
        (map(8, 2, 0x2000, 2), 8),
        (Unmap { a: home, g: 1 }, 11),
        (Destroy { g: 1 }, 0),
        (Create { g: 1 }, 2),
        (Invalidated { g: 1 }, 0),
        (Create { g: 1 }, 0),
    ];
    let shape = Shape { b: 0x40000000, n: 16, k: 2 };
    answers(shape, &script, |_| ());
    answers(shape, &script[..19], |monitor| assert_eq!(monitor.frame(8), Some(Frame::Draining { of: 1 })));
}

/// Document 03, section 5: the sequence that runs out, and section 3's entry.
#[test]
fn runs_out() {
    let first = [(Create { g: 1 }, 0), (Give { f: 14, g: 1 }, 0), (Give { f: 15, g: 1 }, 0), (Map { f: 14, g: 1, a: 0, r: 1 }, 0)];
    let last = (Map { f: 15, g: 1, a: 1 << 47, r: 1 }, 3);
    let shape = Shape { b: 0x40000000, n: 16, k: 10 };
    answers(shape, &[&first[..], &[last]].concat(), |_| ());

    let script = [(Create { g: 1 }, 0), (Give { f: 9, g: 1 }, 0), (Map { f: 9, g: 1, a: 0x5000, r: 3 }, 0)];
    answers(Shape { b: 0x40000000, n: 16, k: 2 }, &script, |monitor| {
        let entries: Vec<_> = monitor.ram().chunks(8).filter(|word| **word == 0x00400000400097ffu64.to_le_bytes()).collect();
        assert_eq!(entries.len(), 1, "the entry for reading and writing frame 0x40009000");
    });
}

/// Set-up's answer for any numbers, beside the document's; a refusal changes nothing, and RAM never changes.
fn set_up_once(shape: Shape, ram_length: usize, words: usize) {
    let Shape { b, n, k } = shape;
    let held = |at: usize| (at % 251) as u8;
    let mut ram: Vec<u8> = (0..ram_length).map(held).collect();
    let mut ledger = vec![0x5a5a5a5a; words];
    let expected = Monitor::fits(ram_length, n <= 65_536 && words == ledger_words(n), b, n, k);
    let answer = pageledger::Monitor::simulated(&mut ram, &mut ledger, b, n, k);
    let case = format!("{shape:x?} with {ram_length} bytes and {words} words");
    match (&answer, &expected) {
        (Ok(monitor), Ok(frames)) => {
            let frame = |f: usize| if frames[f] == Kind::Monitor { Frame::Monitor } else { Frame::Free };
            assert!((0..n).all(|f| monitor.frame(f) == Some(frame(f as usize))), "{case}: a frame");
            assert!((1..=4).all(|g| monitor.guest(g) == Some(Guest { root: None, dirty: false })), "{case}: a guest");
        }
        (Err(refusal), Err(4)) => assert_eq!(*refusal, Refusal::NoFrame, "{case}"),
        _ => panic!("{case} is {:?}, and by the document {:?}", answer.err(), expected.err()),
    }
    let refused = answer.is_err();
    assert!(ram.iter().enumerate().all(|(at, byte)| *byte == held(at)), "{case} wrote RAM");
    assert!(!refused || ledger.iter().all(|word| *word == 0x5a5a5a5a), "{case} wrote the ledger");
}

#[test]
fn set_up() {
    let end = 1 << 48;
    let high = [1 << 32, (1 << 32) + 16, 1 << 36, 1 << 48, 1 << 52, (1 << 52) + 16, 1 << 60, u64::MAX];
    for n in [16, 17, 300] {
        let (bytes, words) = (4096 * n as usize, ledger_words(n));
        let highest = end - 4096 * n;
        for k in [0, 1, n - 1, n, n + 1].into_iter().chain(high) {
            set_up_once(Shape { b: 0, n, k }, bytes, words);
        }
        for b in [0, 1, 8, 0x800, 0xfff, 0x1000, highest, highest + 1, highest + 4096, end - 4096, !0xfff].into_iter().chain(high) {
            set_up_once(Shape { b, n, k: 2 }, bytes, words);
        }
        for other in [0, 1, 15, n - 1, n + 1, 65_536, 65_537].into_iter().chain(high) {
            set_up_once(Shape { b: 0, n: other, k: 0 }, bytes, words);
        }
        for length in [0, 1, bytes - 4096, bytes - 8, bytes - 1, bytes + 1, bytes + 4096] {
            set_up_once(Shape { b: 0, n, k: 0 }, length, words);
        }
        for length in [0, 1, 143, 144, words - 16, words - 1, words + 1, words + 16] {
            set_up_once(Shape { b: 0, n, k: 0 }, bytes, length);
        }
    }
    for n in [0, 15, 65_536, 65_537] {
        set_up_once(Shape { b: 0x40000000, n, k: n / 2 }, 4096 * n as usize, ledger_words(n));
    }
    let (mut words, mut ledger) = (vec![0u64; 16 * 512 + 1], vec![0; ledger_words(16)]);
    // SAFETY: bytes of these words.
    let bytes = unsafe { words.align_to_mut::<u8>().1 };
    for place in 0..=8 {
        let answer = pageledger::Monitor::simulated(&mut bytes[place..place + 16 * 4096], &mut ledger, 0x40000000, 16, 2);
        assert_eq!(answer.err(), if place % 8 == 0 { None } else { Some(Refusal::NoFrame) }, "RAM at {place} of 8");
    }
}

/// The most frames, with the highest addresses, and a page that is mapped in many places.
#[test]
fn most_frames() {
    let (n, end) = (65_536, 1 << 48);
    let (mut ram, mut ledger) = (vec![0; 4096 * n as usize], vec![0; ledger_words(n)]);
    let mut monitor = Shape { b: end - 4096 * n, n, k: 1 }.library(&mut ram, &mut ledger);
    assert_eq!(monitor.create(4), Ok(()));
    assert_eq!(monitor.give(n, 4), Err(Refusal::NoFrame));
    assert_eq!(monitor.give(n - 1, 4), Ok(()));
    assert_eq!(monitor.map(n - 1, 4, end - 4096, Rights::ReadWriteExecute), Ok(()));
    let last = Answer::Found { address: end - 1, fetched: 4 };
    assert_eq!(monitor.translation(4, end - 1, Access::Execute), last);
    assert_eq!(monitor.store(4, end - 4, b"last"), Ok(()));
    assert!(monitor.ram().ends_with(b"last"));
    for place in 0..2000 {
        assert_eq!(monitor.map(n - 1, 4, 4096 * place, Rights::Read), Ok(()));
    }
    assert_eq!(monitor.frame(n - 1), Some(Frame::Page { owner: 4, places: 2001 }));
    assert_eq!(monitor.unmap(end - 4096, 4), Ok(()));
    assert_eq!(monitor.take(n - 1, 4), Err(Refusal::StillUsed));
    assert_eq!(monitor.destroy(4), Ok(()));
    assert_eq!(monitor.frame(n - 1), Some(Frame::Draining { of: 4 }));
    assert_eq!(monitor.invalidated(4), Ok(()));
    assert!((1..n).all(|f| monitor.frame(f) == Some(Frame::Free)));
}

/// The numbers of the header's answers, from the document's ledger.
fn frame_numbers(document: &Monitor, f: u64) -> [u64; 3] {
    match usize::try_from(f).ok().and_then(|f| document.frames.get(f)) {
        None => [0, 0, 0],
        Some(Kind::Monitor) => [1, 0, 0],
        Some(Kind::Free) => [2, 0, 0],
        Some(Kind::Table { of }) => [3, *of, 0],
        Some(Kind::Draining { of, .. }) => [4, *of, 0],
        Some(Kind::Page(page)) => [5, page.owner, page.places.len() as u64],
    }
}

fn guest_numbers(document: &Monitor, g: u64) -> [u64; 3] {
    match document.guest(g) {
        None => [0, 0, 0],
        Some(guest) => [1 + u64::from(guest.root.is_some()), guest.root.unwrap_or(0), u64::from(guest.dirty)],
    }
}

fn shared(document: &Monitor, f: u64, h: u64) -> Shared {
    match document.page(f) {
        Some(page) if page.writers.contains(&h) => Shared::Writing,
        Some(page) if page.readers.contains(&h) => Shared::Reading,
        _ => Shared::Nothing,
    }
}

/// One question of each kind, with any numbers.
fn ask(subject: &mut pageledger::Monitor, document: &Monitor, addresses: &[u64], random: &mut Random) {
    let n = document.frames.len() as u64;
    let high = [5, n, 1 << 8, 1 << 16, 1 << 32, (1 << 32) + 1, 1 << 48, 1 << 63, u64::MAX];
    let mut any = |good: u64| if random.one_in(8) { random.pick(&high) } else { random.below(good) };
    let (f, g, access, offset) = (any(n), any(6), any(3), any(4096));
    let ipa = random.pick(addresses) | offset;
    let frame = told(random, |out| subject.frame_raw(f, out));
    assert_eq!(frame, frame_numbers(document, f), "frame {f:x}");
    let guest = told(random, |out| subject.guest_raw(g, out));
    assert_eq!(guest, guest_numbers(document, g), "guest {g:x}");
    assert_eq!(subject.shared_with(f, g), shared(document, f, g), "frame {f:x} and guest {g:x}");
    let translation = answer(told(random, |out| subject.translation_raw(g, ipa, access, out)));
    let walked = document.root(g).map(|root| document::stage2(&document.ram, document.base, n, root, ipa, access).answer);
    assert_eq!(translation, walked.unwrap_or(Answer::Refused), "guest {g:x}, {ipa:x}, {access:x}");
    assert_eq!(subject.page(f).is_some(), document.page(f).is_some(), "frame {f:x}");
}

/// Questions about any numbers in many states, and arrays with room and without.
#[test]
fn questions() {
    let random = &mut Random(setting("PAGELEDGER_SEED", 1));
    let mut found = 0;
    for _ in 0..60 {
        let shape = Shape::new(random);
        let (mut ram, mut ledger) = (shape.ram(random), shape.ledger(random));
        let document = shape.document(&ram);
        let mut subject = shape.library(&mut ram, &mut ledger);
        let mut seen = Seen::new();
        let mut run = Run::new(&mut subject, document, random, &mut seen);
        for _ in 0..200 {
            run.step().unwrap();
        }
        let (document, addresses) = (run.document, run.addresses);
        for _ in 0..2000 {
            ask(&mut subject, &document, &addresses, random);
        }
        found += document.pages().filter(|(_, page)| !page.places.is_empty() && !page.readers.is_empty()).count();
    }
    assert!(found > 20, "the states have too little in them");
}
