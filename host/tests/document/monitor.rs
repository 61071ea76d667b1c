//! Document 03 a second time, written from the document alone, and in no hurry. The ledger is an enum a frame with sets of
//! guests and places; the tables stand in a RAM of its own. Section 6's wrong answers can be asked for, to see them noticed.
use std::collections::BTreeSet;

/// Section 1: what a frame is.
#[derive(Clone, Debug, PartialEq, Eq)]
pub enum Kind {
    Monitor,
    Free,
    Table { of: u64 },
    Page(Page),
    Draining { of: u64, was_table: bool },
}

#[derive(Clone, Debug, PartialEq, Eq)]
pub struct Page {
    pub owner: u64,
    /// Guests beside the owner that may map it for reading, and those of them that may also map it for writing.
    pub readers: BTreeSet<u64>,
    pub writers: BTreeSet<u64>,
    /// Each guest and address where it is mapped.
    pub places: BTreeSet<(u64, u64)>,
}

#[derive(Clone, Copy, Debug, Default, PartialEq, Eq)]
pub struct Guest {
    pub root: Option<u64>,
    pub dirty: bool,
}

/// Section 6.
#[derive(Clone, Copy, Debug, PartialEq, Eq)]
pub enum Wrong {
    GivenOutEarly,
    UnshareByTables,
    LinkedTooSoon,
    SharesForgotten,
    NotCleared,
}

/// A store to RAM that an operation makes: a frame filled with zeros, or a descriptor.
#[derive(Clone, Copy, Debug, PartialEq, Eq)]
pub enum Stored {
    Cleared { f: u64 },
    Word { address: u64, word: u64 },
}

pub struct Monitor {
    pub ram: Vec<u8>,
    /// The stores of the last operation, in their order.
    pub stores: Vec<Stored>,
    pub base: u64,
    pub frames: Vec<Kind>,
    guests: [Guest; 4],
    /// A frame that was not free was chosen for a table.
    pub bad_choice: Option<u64>,
    pub wrong: Option<Wrong>,
}

/// Which free frame is taken: for a root, or for the table that the entry at an address is to lead to.
pub type Choose<'a> = &'a dyn Fn(&Monitor, Option<u64>) -> u64;

/// Any choice will do; this one is section 5's.
pub fn lowest(monitor: &Monitor, _: Option<u64>) -> u64 {
    monitor.frames.iter().position(|kind| *kind == Kind::Free).unwrap() as u64
}

/// A refusal's number as an error, so that checks stand one below the other.
fn check(holds: bool, refusal: u64) -> Result<(), u64> {
    if holds { Ok(()) } else { Err(refusal) }
}

fn page_address(a: u64) -> bool {
    a % 4096 == 0 && a < 1 << 48
}

/// Document 01, section 2: bits 47..39, 38..30, 29..21, 20..12.
fn index(a: u64, level: usize) -> u64 {
    (a >> [39, 30, 21, 12][level]) % 512
}

impl Monitor {
    /// Section 1, and document 01, section 1: the frames, where the numbers and the slices fit.
    pub fn fits(ram_length: usize, ledger_fits: bool, b: u64, n: u64, k: u64) -> Result<Vec<Kind>, u64> {
        check((16..=65_536).contains(&n) && k < n, 4)?;
        check(b % 4096 == 0 && b <= (1 << 48) - 4096 * n, 4)?;
        check(ram_length as u64 == 4096 * n && ledger_fits, 4)?;
        Ok((0..n).map(|f| if f < k { Kind::Monitor } else { Kind::Free }).collect())
    }

    pub fn set_up(ram: &[u8], b: u64, n: u64, k: u64) -> Result<Monitor, u64> {
        let frames = Monitor::fits(ram.len(), true, b, n, k)?;
        Ok(Monitor { ram: ram.to_vec(), stores: Vec::new(), base: b, frames, guests: Default::default(), bad_choice: None, wrong: None })
    }

    pub fn guest(&self, g: u64) -> Option<Guest> {
        (1..=4).contains(&g).then(|| self.guests[g as usize - 1])
    }

    pub fn root(&self, g: u64) -> Option<u64> {
        self.guest(g).and_then(|guest| guest.root)
    }

    pub fn exists(&self, g: u64) -> bool {
        self.root(g).is_some()
    }

    pub fn dirty(&self, g: u64) -> bool {
        self.guest(g).is_some_and(|guest| guest.dirty)
    }

    pub fn page(&self, f: u64) -> Option<&Page> {
        match self.frames.get(usize::try_from(f).ok()?)? {
            Kind::Page(page) => Some(page),
            _ => None,
        }
    }

    fn page_mut(&mut self, f: u64) -> &mut Page {
        match &mut self.frames[f as usize] {
            Kind::Page(page) => page,
            other => panic!("frame {f} is {other:?}"),
        }
    }

    pub fn pages(&self) -> impl Iterator<Item = (u64, &Page)> {
        (0..self.frames.len() as u64).filter_map(|f| Some((f, self.page(f)?)))
    }

    pub fn free(&self) -> usize {
        self.frames.iter().filter(|kind| **kind == Kind::Free).count()
    }

    /// The frame that an address of a guest is mapped to.
    pub fn mapped(&self, g: u64, a: u64) -> Option<u64> {
        self.pages().find(|(_, page)| page.places.contains(&(g, a))).map(|(f, _)| f)
    }

    fn in_range(&self, f: u64) -> bool {
        f < self.frames.len() as u64
    }

    fn guest_mut(&mut self, g: u64) -> &mut Guest {
        &mut self.guests[g as usize - 1]
    }

    pub fn address(&self, f: u64) -> u64 {
        self.base + 4096 * f
    }

    pub fn bytes(&mut self, f: u64) -> &mut [u8] {
        &mut self.ram[4096 * f as usize..][..4096]
    }

    fn word(&self, address: u64) -> u64 {
        u64::from_le_bytes(*self.ram[(address - self.base) as usize..].first_chunk().unwrap())
    }

    fn put(&mut self, address: u64, word: u64) {
        let at = (address - self.base) as usize;
        self.ram[at..at + 8].copy_from_slice(&word.to_le_bytes());
        self.stores.push(Stored::Word { address, word });
    }

    fn clear(&mut self, f: u64) {
        self.bytes(f).fill(0);
        self.stores.push(Stored::Cleared { f });
    }

    /// A free frame becomes a table of g, all zero. Its address.
    fn new_table(&mut self, g: u64, entry: Option<u64>, choose: Choose) -> u64 {
        let mut f = choose(self, entry);
        if !self.in_range(f) || self.frames[f as usize] != Kind::Free {
            self.bad_choice = Some(f);
            f = lowest(self, None);
        }
        self.frames[f as usize] = Kind::Table { of: g };
        self.clear(f);
        self.address(f)
    }

    /// The addresses of the entries on an address's way, from level 0 as far as there are tables.
    fn way(&self, root: u64, a: u64) -> Vec<u64> {
        let mut way = vec![root + 8 * index(a, 0)];
        while way.len() < 4 {
            match self.word(way[way.len() - 1]) {
                0 => break,
                entry => way.push(entry - 3 + 8 * index(a, way.len())),
            }
        }
        way
    }

    /// "An entry that map writes".
    fn entry(&self, f: u64, r: u64) -> u64 {
        let ones: u64 = [2, 3, 4, 5, 8, 9, 10].iter().map(|bit| 1 << bit).sum();
        let (read, write, execute) = (r & 1, r >> 1 & 1, r >> 2 & 1);
        3 + ones + (read << 6) + (write << 7) + self.address(f) + ((1 - execute) << 54)
    }

    /// "create g | 1, 2, 3 | a free frame becomes g's root table, all zero".
    pub fn create(&mut self, g: u64, choose: Choose) -> Result<(), u64> {
        check((1..=4).contains(&g), 1)?;
        check(!self.exists(g) && !self.dirty(g), 2)?;
        check(self.free() >= 1, 3)?;
        self.guest_mut(g).root = Some(self.new_table(g, None, choose));
        Ok(())
    }

    /// "give f to g | 5, 4, 6 | f becomes a page of g, shared with nobody, all zero".
    pub fn give(&mut self, f: u64, g: u64) -> Result<(), u64> {
        check(self.exists(g), 5)?;
        check(self.in_range(f), 4)?;
        check(self.frames[f as usize] == Kind::Free, 6)?;
        let nobody = BTreeSet::new;
        self.frames[f as usize] = Kind::Page(Page { owner: g, readers: nobody(), writers: nobody(), places: BTreeSet::new() });
        if self.wrong != Some(Wrong::NotCleared) {
            self.clear(f);
        }
        Ok(())
    }

    /// "9: f isn't a page; or it is another guest's page and r contains execute, or reading isn't shared with g, or r contains
    /// write and writing isn't shared with g."
    fn may_use(&self, g: u64, f: u64, r: u64) -> bool {
        let Some(page) = self.page(f) else { return false };
        page.owner == g || r & 4 == 0 && page.readers.contains(&g) && (r & 2 == 0 || page.writers.contains(&g))
    }

    /// "map f into g at a, rights r | 5, 14, 7, 8, 4, 9, 10, 3 | a translates to f with rights r; f's count grows by 1".
    pub fn map(&mut self, f: u64, g: u64, a: u64, r: u64, choose: Choose) -> Result<(), u64> {
        check(self.exists(g), 5)?;
        check(!self.dirty(g), 14)?;
        check(page_address(a), 7)?;
        check([1, 3, 5, 7].contains(&r), 8)?;
        check(self.in_range(f), 4)?;
        check(self.may_use(g, f, r), 9)?;
        check(self.mapped(g, a).is_none(), 10)?;
        let root = self.root(g).unwrap();
        let mut way = self.way(root, a);
        check(self.free() >= 4 - way.len() || self.wrong == Some(Wrong::LinkedTooSoon), 3)?;
        while way.len() < 4 {
            check(self.free() > 0, 3)?;
            let entry = way[way.len() - 1];
            let table = self.new_table(g, Some(entry), choose);
            self.put(entry, table + 3);
            way = self.way(root, a);
        }
        self.put(way[3], self.entry(f, r));
        self.page_mut(f).places.insert((g, a));
        Ok(())
    }

    /// "unmap a from g | 5, 7, 11 | a no longer translates; the count falls by 1; g becomes dirty".
    pub fn unmap(&mut self, a: u64, g: u64) -> Result<(), u64> {
        check(self.exists(g), 5)?;
        check(page_address(a), 7)?;
        let f = self.mapped(g, a).ok_or(11u64)?;
        let entry = self.way(self.root(g).unwrap(), a)[3];
        self.put(entry, 0);
        self.page_mut(f).places.remove(&(g, a));
        self.guest_mut(g).dirty = true;
        Ok(())
    }

    fn page_of(&self, g: u64, f: u64) -> bool {
        self.page(f).is_some_and(|page| page.owner == g)
    }

    fn has_mapped(&self, h: u64, f: u64) -> bool {
        self.page(f).is_some_and(|page| page.places.iter().any(|(guest, _)| *guest == h))
    }

    /// "share g's f with h, writing w | 5, 12, 4, 9, 13, 14 | h may map f for reading, and for writing too unless w = 0".
    pub fn share(&mut self, g: u64, f: u64, h: u64, w: u64) -> Result<(), u64> {
        check(self.exists(g) && self.exists(h), 5)?;
        check(g != h, 12)?;
        check(self.in_range(f), 4)?;
        check(self.page_of(g, f), 9)?;
        let narrows = w == 0 && self.page(f).unwrap().writers.contains(&h);
        check(!(narrows && self.has_mapped(h, f)), 13)?;
        check(!(narrows && self.dirty(h)), 14)?;
        let page = self.page_mut(f);
        page.readers.insert(h);
        if w == 0 {
            page.writers.remove(&h);
        } else {
            page.writers.insert(h);
        }
        Ok(())
    }

    /// "unshare g's f from h | 5, 4, 9, 13, 14 | h may no longer map f".
    pub fn unshare(&mut self, g: u64, f: u64, h: u64) -> Result<(), u64> {
        check(self.exists(g) && self.exists(h), 5)?;
        check(self.in_range(f), 4)?;
        check(self.page_of(g, f) && self.page(f).unwrap().readers.contains(&h), 9)?;
        check(!self.has_mapped(h, f), 13)?;
        check(!self.dirty(h) || self.wrong == Some(Wrong::UnshareByTables), 14)?;
        let page = self.page_mut(f);
        page.readers.remove(&h);
        page.writers.remove(&h);
        Ok(())
    }

    /// "take f from g | 5, 4, 9, 13 | if g is dirty, f drains for g; otherwise f is free".
    pub fn take(&mut self, f: u64, g: u64) -> Result<(), u64> {
        check(self.exists(g), 5)?;
        check(self.in_range(f), 4)?;
        check(self.page_of(g, f), 9)?;
        let page = self.page(f).unwrap();
        check(page.places.is_empty() && page.readers.is_empty(), 13)?;
        let drains = self.dirty(g) && self.wrong != Some(Wrong::GivenOutEarly);
        self.frames[f as usize] = if drains { Kind::Draining { of: g, was_table: false } } else { Kind::Free };
        Ok(())
    }

    /// "destroy g | 5, 13 | g no longer exists and is dirty; its tables and pages drain for g".
    pub fn destroy(&mut self, g: u64) -> Result<(), u64> {
        check(self.exists(g), 5)?;
        let shared = |page: &Page| page.owner == g && !page.readers.is_empty();
        let with = |page: &Page| page.readers.contains(&g) && self.wrong != Some(Wrong::SharesForgotten);
        check(!self.pages().any(|(_, page)| shared(page) || with(page)), 13)?;
        for kind in &mut self.frames {
            match kind {
                Kind::Table { of } if *of == g => *kind = Kind::Draining { of: g, was_table: true },
                Kind::Page(page) if page.owner == g => *kind = Kind::Draining { of: g, was_table: false },
                // only where a share was forgotten
                Kind::Page(page) => page.places.retain(|(guest, _)| *guest != g),
                _ => {}
            }
        }
        *self.guest_mut(g) = Guest { root: None, dirty: true };
        Ok(())
    }

    /// "invalidated g | 1 | g isn't dirty any more; what drains for g is free".
    pub fn invalidated(&mut self, g: u64) -> Result<(), u64> {
        check((1..=4).contains(&g), 1)?;
        self.guest_mut(g).dirty = false;
        for kind in &mut self.frames {
            if matches!(kind, Kind::Draining { of, .. } if *of == g) {
                *kind = Kind::Free;
            }
        }
        Ok(())
    }
}
