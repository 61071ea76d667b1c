//! One run: steps on a subject, each held to document 03 at once.
use crate::caches::{Caches, Translation};
use crate::common::Random;
use crate::document_03::{Kind, Monitor};
use crate::list::{listed, pieces};
use crate::seen::Seen;
use crate::steps::{addresses, get_back, Operation, Steps};
use crate::subject::{Frame, Subject};
use pageledger::{Access, Answer};
use std::collections::{BTreeSet, VecDeque};

pub struct Run<'a, S> {
    pub subject: &'a mut S,
    pub document: Monitor,
    caches: Caches,
    random: &'a mut Random,
    pub seen: &'a mut Seen,
    pub addresses: Vec<u64>,
    /// Operations that must all answer 0.
    plan: VecDeque<Operation>,
    /// The subject's RAM before the step.
    before: Vec<u8>,
    /// Whether the list of an operation's stores is held to the document's; what is seen after each always is.
    pub by_list: bool,
}

pub fn hold(holds: bool, problem: impl FnOnce() -> String) -> Result<(), String> {
    if holds { Ok(()) } else { Err(problem()) }
}

fn same<T: PartialEq + std::fmt::Debug>(what: impl FnOnce() -> String, subject: T, document: T) -> Result<(), String> {
    hold(subject == document, || format!("{} is {subject:x?}, and by the document {document:x?}", what()))
}

/// The first frame in which two images differ.
fn difference(a: &[u8], b: &[u8]) -> Option<usize> {
    if a == b { None } else { Some((0..a.len()).find(|at| a[*at] != b[*at]).unwrap() / 4096) }
}

const ACCESSES: [Access; 3] = [Access::Read, Access::Write, Access::Execute];

impl<'a, S: Subject> Run<'a, S> {
    pub fn new(subject: &'a mut S, document: Monitor, random: &'a mut Random, seen: &'a mut Seen) -> Self {
        let caches = Caches::new(document.base, document.ram.len() as u64);
        let (addresses, before) = (addresses(random), subject.ram().to_vec());
        Run { subject, document, caches, random, seen, addresses, plan: VecDeque::new(), before, by_list: true }
    }

    /// A guest's store, one by a translation that was kept, or an operation. Whether it was an operation.
    pub fn step(&mut self) -> Result<bool, String> {
        match self.random.below(10) {
            0 => self.store()?,
            1 => self.store_kept()?,
            _ => return self.operation().map(|()| true),
        }
        self.before.copy_from_slice(self.subject.ram());
        Ok(false)
    }

    /// Some hundreds of steps, and how many of them were operations.
    pub fn steps(&mut self) -> Result<u64, String> {
        let mut operations = 0;
        for _ in 0..200 + self.random.below(1500) {
            operations += u64::from(self.step()?);
        }
        Ok(operations)
    }

    fn count(&mut self, what: String) {
        *self.seen.entry(what).or_default() += 1;
    }

    fn operation(&mut self) -> Result<(), String> {
        if self.plan.is_empty() && self.random.one_in(400) {
            let pages: Vec<u64> = self.document.pages().map(|(f, _)| f).collect();
            if !pages.is_empty() {
                let f = self.random.pick(&pages);
                self.plan.extend(get_back(f, self.document.page(f).unwrap()));
            }
        }
        if let Some(operation) = self.plan.pop_front() {
            let answer = self.perform(operation)?;
            if self.plan.is_empty() {
                self.count("a page was got back".into());
            }
            return hold(answer == 0, || format!("{operation:x?}, to get a page back, answers {answer}"));
        }
        let operation = Steps { random: self.random, addresses: &self.addresses, document: &self.document }.next();
        self.perform(operation).map(drop)
    }

    /// One operation, and all that is held of it.
    pub fn perform(&mut self, operation: Operation) -> Result<u64, String> {
        let ledger = self.subject.ledger().to_vec();
        let answer = self.subject.operate(operation);
        self.count(format!("{}: {answer}", operation.name()));
        let held = self.held(operation, answer, &ledger);
        held.map(|()| answer).map_err(|problem| format!("after {operation:x?}, which answered {answer}, {problem}"))
    }

    fn held(&mut self, operation: Operation, answer: u64, ledger: &[u32]) -> Result<(), String> {
        let (free, frames) = (self.document.free(), self.document.frames.clone());
        let expected = self.follow(operation);
        hold(answer == expected, || format!("the document's answer is {expected}"))?;
        self.count_more(operation, answer, free);
        let taken = self.document.bad_choice;
        hold(taken.is_none(), || format!("frame {taken:?}, which was not free, was taken for a table"))?;
        self.moments(&frames)?;
        if answer == 0 {
            self.effect(operation)?;
            self.state()?;
            self.before.copy_from_slice(self.subject.ram());
        } else {
            hold(self.subject.ledger() == ledger, || "the ledger is not as it was".into())?;
            let differs = difference(self.subject.ram(), &self.before);
            hold(differs.is_none(), || format!("RAM is not as it was, first in frame {differs:?}"))?;
        }
        let mut sample = vec![self.random.pick(&self.addresses), self.random.pick(&self.addresses)];
        sample.extend(operation.address());
        sample.into_iter().try_for_each(|a| self.translations(a))
    }

    /// What tells apart cases of one answer; so many frames were free before.
    fn count_more(&mut self, operation: Operation, answer: u64, free: usize) {
        match (operation, answer) {
            (Operation::Map { .. }, 0) => self.count(format!("map made {} tables", free - self.document.free())),
            (Operation::Map { .. }, 3) => self.count(format!("map was refused with {free} free frames")),
            (Operation::Give { f, .. }, 6) => {
                let what = match self.document.frames[f as usize] {
                    Kind::Monitor => "the monitor's frame",
                    Kind::Table { .. } => "a table",
                    Kind::Page(_) => "a page",
                    Kind::Draining { was_table: true, .. } => "a table that drains",
                    _ => "a page that drains",
                };
                self.count(format!("give was refused {what}"));
            }
            (Operation::Take { .. }, 0) => {
                let drains = free == self.document.free();
                self.count(format!("take left a page {}", if drains { "draining" } else { "free" }));
            }
            _ => {}
        }
    }

    /// What an operation promises and what anybody can see without the second implementation.
    fn effect(&mut self, operation: Operation) -> Result<(), String> {
        match operation {
            Operation::Give { f, .. } => {
                let page = &self.subject.ram()[4096 * f as usize..][..4096];
                hold(page.iter().all(|byte| *byte == 0), || "the page is not all zero".into())?;
                let leads = (1..=4).find(|g| self.caches.pages(*g).iter().any(|t| self.frame(t) as u64 == f));
                hold(leads.is_none(), || format!("a cache of guest {leads:?} leads to the new page"))
            }
            Operation::Create { g } => {
                let inherits = |f: &u64| matches!(self.subject.frame(*f), Frame::Page { readers, .. } if readers.contains(&g));
                let page = (0..self.document.frames.len() as u64).find(inherits);
                hold(page.is_none(), || format!("the new guest may map {page:?}"))
            }
            Operation::Invalidated { g } => {
                self.caches.forget(g);
                Ok(())
            }
            _ => Ok(()),
        }
    }

    /// The document's answer. Which frame is taken is not the document's choice: it follows the subject.
    fn follow(&mut self, operation: Operation) -> u64 {
        let (subject, base) = (&*self.subject, self.document.base);
        let guest = if let Operation::Create { g } = operation { g } else { 0 };
        let choose = |_: &Monitor, entry: Option<u64>| {
            let table = match entry {
                None => subject.guest(guest).root.unwrap_or(0),
                Some(entry) => {
                    let at = (entry - base) as usize;
                    u64::from_le_bytes(*subject.ram()[at..].first_chunk().unwrap()) & !3
                }
            };
            table.wrapping_sub(base) / 4096
        };
        self.document.run(operation, &choose)
    }

    /// Inside the operation, where somebody has watched: after each single store the processor looks, and what guests reach is what
    /// the frames allowed before the operation; tables are those after it. A new root is no guest's until create has answered.
    fn moments(&mut self, frames: &[Kind]) -> Result<(), String> {
        let Some(stores) = self.subject.stores() else { return Ok(()) };
        if self.by_list {
            listed(&self.document.stores, stores, self.document.base)?;
        }
        let (mut ram, mut moments, mut looks) = (self.before.clone(), 0, 0);
        for piece in stores.iter().flat_map(pieces) {
            ram[piece.0..][..piece.1.len()].copy_from_slice(piece.1);
            moments += 1;
            if !self.caches.finds(piece.0 as u64 / 4096) {
                continue; // what the processor can find is as it was
            }
            looks += 1;
            self.caches.look(&ram)?;
            self.caches.isolated(|f| Frame::from(&frames[f as usize]))?;
            self.caches.tables(|f| Subject::frame(&self.document, f))?;
            self.caches.single()?;
        }
        let differs = difference(&ram, self.subject.ram());
        hold(differs.is_none(), || format!("RAM is not what the stores make of it, first in frame {differs:?}"))?;
        *self.seen.entry("moments after a store".into()).or_default() += moments;
        *self.seen.entry("moments after a store to a table in use".into()).or_default() += looks;
        Ok(())
    }

    /// The whole state, and isolation.
    fn state(&mut self) -> Result<(), String> {
        let differs = difference(self.subject.ram(), &self.document.ram);
        hold(differs.is_none(), || format!("RAM is not as the document says, first in frame {differs:?}"))?;
        for f in 0..self.document.frames.len() as u64 {
            same(|| format!("frame {f}"), self.subject.frame(f), Subject::frame(&self.document, f))?;
        }
        for g in 1..=4 {
            same(|| format!("guest {g}"), self.subject.guest(g), Subject::guest(&self.document, g))?;
        }
        self.caches.start([1, 2, 3, 4].map(|g| self.subject.guest(g).root));
        self.caches.look(self.subject.ram())?;
        self.caches.isolated(|f| self.subject.frame(f))?;
        self.caches.tables(|f| self.subject.frame(f))?;
        self.caches.single()?;
        if self.random.one_in(8) { self.places() } else { Ok(()) }
    }

    /// What an address translates to, for each guest and access: by the walk of the document's tables, and by its ledger.
    fn translations(&mut self, a: u64) -> Result<(), String> {
        let ipa = a | self.random.below(4096);
        for g in 1..=4 {
            let mut frame = None;
            for access in ACCESSES {
                let answer = self.subject.translation(g, ipa, access);
                same(|| format!("guest {g}'s {ipa:x}, {access:?},"), answer, self.document.translation(g, ipa, access))?;
                if let Answer::Found { address, .. } = answer {
                    frame = Some((address - self.document.base) / 4096);
                }
            }
            same(|| format!("the frame of guest {g}'s {ipa:x}"), frame, self.document.mapped(g, ipa & !0xfff))?;
        }
        Ok(())
    }

    /// All addresses of all guests: the pages that the tables lead to are the places of the ledger.
    fn places(&mut self) -> Result<(), String> {
        let mut now = Caches::new(self.document.base, self.document.ram.len() as u64);
        now.start([1, 2, 3, 4].map(|g| self.subject.guest(g).root));
        now.look(self.subject.ram())?;
        for g in 1..=4 {
            let mapped: BTreeSet<_> = now.pages(g).iter().map(|t| (t.ipa, (t.address - self.document.base) / 4096)).collect();
            let pages = self.document.pages();
            let places = pages.flat_map(|(f, page)| page.places.iter().filter(|(h, _)| *h == g).map(move |(_, a)| (*a, f))).collect();
            same(|| format!("what guest {g} has mapped"), mapped, places)?;
        }
        Ok(())
    }

    /// A guest stores bytes, mostly where it has a page, and all that have the page mapped read them.
    fn store(&mut self) -> Result<(), String> {
        let g = 1 + self.random.below(4);
        let places: Vec<_> = self.document.pages().flat_map(|(_, page)| page.places.iter().filter(|(h, _)| *h == g)).collect();
        let any = self.random.pick(&self.addresses);
        let a = match self.random.below(32) {
            0..=3 => any,
            4 => any | self.random.pick(&[1 << 48, 1 << 63, u64::MAX - 4095]),
            _ if places.is_empty() => any,
            _ => self.random.pick(&places).1,
        };
        let ipa = a + if self.random.one_in(8) { 4095 - self.random.below(64) } else { self.random.below(4096) };
        let bytes: Vec<u8> = (0..1 + self.random.below(64)).map(|_| self.random.next() as u8).collect();
        let made = self.subject.store(g, ipa, &bytes);
        let result = same(|| "whether a store is made".into(), made, self.document.store(g, ipa, &bytes)).and_then(|()| {
            let differs = difference(self.subject.ram(), &self.document.ram);
            hold(differs.is_none(), || format!("RAM differs in frame {differs:?}"))
        });
        result.map_err(|problem| format!("after guest {g} stored {} bytes at {ipa:x}, {problem}", bytes.len()))?;
        self.count(format!("a guest's store: {}", if made { "made" } else { "not made" }));
        if made { self.read(g, ipa, &bytes) } else { Ok(()) }
    }

    /// What a guest has just stored is what each guest reads there that has the page mapped.
    fn read(&mut self, g: u64, ipa: u64, bytes: &[u8]) -> Result<(), String> {
        let f = self.document.mapped(g, ipa & !0xfff).unwrap();
        for (h, a) in self.document.page(f).unwrap().places.clone() {
            let mut found = vec![0; bytes.len()];
            let read = self.subject.load(h, a + ipa % 4096, &mut found);
            hold(read && found == bytes, || format!("guest {h} does not read at {a:x} what guest {g} stored at {ipa:x}"))?;
            if h != g {
                self.count("what another guest stored: read".into());
            }
        }
        Ok(())
    }

    /// What a guest may still do by a translation that the processor kept, if it may write.
    fn kept(&self, g: u64, translation: &Translation) -> Option<&'static str> {
        let f = self.frame(translation);
        match self.document.frames[f] {
            _ if !translation.rights[1] => None,
            Kind::Page(_) if self.document.mapped(g, translation.ipa) == Some(f as u64) => Some("mapped"),
            Kind::Page(_) => Some("no longer mapped"),
            Kind::Draining { was_table: false, .. } => Some("draining"),
            _ => None,
        }
    }

    /// A guest stores by a translation that the processor kept, perhaps to a page that was taken from it.
    fn store_kept(&mut self) -> Result<(), String> {
        let g = 1 + self.random.below(4);
        let kept = |t: &Translation| self.kept(g, t).map(|what| (self.frame(t) as u64, what));
        let mut all: Vec<_> = self.caches.pages(g).iter().filter_map(kept).collect();
        if all.iter().any(|(_, what)| *what == "draining") {
            all.retain(|(_, what)| *what == "draining");
        }
        if !self.document.exists(g) || all.is_empty() {
            return Ok(());
        }
        let (f, what) = self.random.pick(&all);
        let (offset, bytes) = (self.random.below(4089) as usize, self.random.next().to_le_bytes());
        self.subject.store_kept(f, offset, &bytes);
        self.document.store_kept(f, offset, &bytes);
        self.count(format!("a store by a kept translation: {what}"));
        let differs = difference(self.subject.ram(), &self.document.ram);
        hold(differs.is_none(), || format!("after a store by a kept translation RAM differs in frame {differs:?}"))
    }

    fn frame(&self, translation: &Translation) -> usize {
        ((translation.address - self.document.base) / 4096) as usize
    }
}
