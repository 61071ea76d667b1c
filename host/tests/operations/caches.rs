//! Document 03, section 4: what the processor may use for each guest, gathered from RAM's bytes and the guests' roots alone, and
//! held to what the ledger says of the frames: isolation, seen from outside.
use crate::subject::Frame;
use std::collections::{BTreeMap, BTreeSet};

/// A page translation: the guest-physical address, the frame's address, and whether it may be read, written, executed.
#[derive(Clone, Copy, Debug, PartialEq, Eq, PartialOrd, Ord)]
pub struct Translation {
    pub ipa: u64,
    pub address: u64,
    pub rights: [bool; 3],
}

#[derive(Default)]
struct Kept {
    pages: BTreeSet<Translation>,
    /// Each table that a descriptor led to, with its level, and the first address that it serves.
    tables: BTreeMap<(u64, u32), u64>,
}

pub struct Caches {
    base: u64,
    size: u64,
    /// Of guests 1 to 4.
    kept: [Kept; 4],
}

impl Caches {
    pub fn new(base: u64, size: u64) -> Caches {
        Caches { base, size, kept: Default::default() }
    }

    pub fn pages(&self, g: u64) -> &BTreeSet<Translation> {
        &self.kept[g as usize - 1].pages
    }

    /// The report that all of a guest's translations are forgotten.
    pub fn forget(&mut self, g: u64) {
        self.kept[g as usize - 1] = Kept::default();
    }

    /// Guests run from these roots.
    pub fn start(&mut self, roots: [Option<u64>; 4]) {
        for (kept, root) in self.kept.iter_mut().zip(roots) {
            kept.tables.extend(root.map(|root| ((root, 0), 0)));
        }
    }

    /// Whether the processor can find anything in a frame: it was kept for a table.
    pub fn finds(&self, f: u64) -> bool {
        let address = self.base + 4096 * f;
        self.kept.iter().any(|kept| kept.tables.range((address, 0)..=(address, 3)).next().is_some())
    }

    /// The processor keeps all that it can, from each table that it kept.
    pub fn look(&mut self, ram: &[u8]) -> Result<(), String> {
        for g in 1..=4 {
            let kept = &mut self.kept[g as usize - 1];
            let mut open: Vec<_> = kept.tables.iter().map(|((table, level), ipa)| (*table, *level, *ipa)).collect();
            while let Some((table, level, ipa)) = open.pop() {
                let at = table.checked_sub(self.base).filter(|at| *at < self.size);
                let at = at.ok_or_else(|| format!("guest {g} has a table at {table:x}, outside of RAM"))?;
                let words = &ram[at as usize..][..4096];
                kept.keep(words, level, ipa, &mut open)?;
            }
        }
        Ok(())
    }

    fn frame(&self, g: u64, address: u64) -> Result<u64, String> {
        let at = address.checked_sub(self.base).filter(|at| *at < self.size);
        at.map(|at| at / 4096).ok_or_else(|| format!("guest {g} reaches {address:x}, outside of RAM"))
    }

    /// What a guest may reach is its own page, or one that is shared with it for that, or one that drains for it. So no table.
    pub fn isolated(&self, what: impl Fn(u64) -> Frame) -> Result<(), String> {
        for g in 1..=4 {
            for translation in self.pages(g) {
                let f = self.frame(g, translation.address)?;
                let frame = what(f);
                if !allowed(g, &frame, translation.rights) {
                    return Err(format!("guest {g} reaches frame {f}, which is {frame:?}, by {translation:x?}"));
                }
            }
        }
        Ok(())
    }

    /// The tables that are kept for a guest are its own, or were.
    pub fn tables(&self, what: impl Fn(u64) -> Frame) -> Result<(), String> {
        for g in 1..=4 {
            for (table, level) in self.kept[g as usize - 1].tables.keys() {
                let f = self.frame(g, *table)?;
                let frame = what(f);
                if !matches!(frame, Frame::Table { of } | Frame::Draining { of } if of == g) {
                    return Err(format!("guest {g} has frame {f} for a table of level {level}, and it is {frame:?}"));
                }
            }
        }
        Ok(())
    }

    /// An address of a guest has one translation, with one frame and one set of rights; and a range has one table of a level.
    pub fn single(&self) -> Result<(), String> {
        for (kept, g) in self.kept.iter().zip(1..) {
            let mut before = None;
            for translation in &kept.pages {
                if before == Some(translation.ipa) {
                    return Err(format!("guest {g} has two translations of {:x}", translation.ipa));
                }
                before = Some(translation.ipa);
            }
            let ranges: BTreeSet<_> = kept.tables.iter().map(|((_, level), ipa)| (level, ipa)).collect();
            if ranges.len() != kept.tables.len() {
                return Err(format!("guest {g} has two tables of one range: {:x?}", kept.tables));
            }
        }
        Ok(())
    }
}

fn allowed(g: u64, frame: &Frame, [_, write, execute]: [bool; 3]) -> bool {
    match frame {
        Frame::Page { owner, .. } if *owner == g => true,
        Frame::Page { readers, writers, .. } => readers.contains(&g) && (!write || writers.contains(&g)) && !execute,
        Frame::Draining { of } => *of == g,
        Frame::Monitor | Frame::Free | Frame::Table { .. } => false,
    }
}

impl Kept {
    /// Keeps what one table holds; tables that are new are put with those that are open. Document 01, section 3.
    fn keep(&mut self, words: &[u8], level: u32, first: u64, open: &mut Vec<(u64, u32, u64)>) -> Result<(), String> {
        for (index, word) in words.chunks_exact(8).enumerate() {
            let d = u64::from_le_bytes(word.try_into().unwrap());
            let ipa = first + ((index as u64) << (39 - 9 * level));
            let address = d & 0xffff_ffff_f000;
            match (d % 4, level) {
                (0 | 2, _) => {}
                (3, 0..=2) => {
                    if self.tables.insert((address, level + 1), ipa).is_none() {
                        open.push((address, level + 1, ipa));
                    }
                }
                (3, 3) => {
                    let rights = [d >> 6 & 1 == 1, d >> 7 & 1 == 1, d >> 54 & 1 == 0];
                    self.pages.insert(Translation { ipa, address, rights });
                }
                _ => return Err(format!("the monitor wrote {d:x} at level {level}")),
            }
        }
        Ok(())
    }
}
