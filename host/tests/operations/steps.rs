//! The operations, and which is asked for next: mostly one that fits what there is, or nearly does, and often enough hostile numbers.
use crate::common::Random;
use crate::document_03::{Kind, Monitor, Page};

#[derive(Clone, Copy, Debug, PartialEq, Eq)]
pub enum Operation {
    Create { g: u64 },
    Give { f: u64, g: u64 },
    Map { f: u64, g: u64, a: u64, r: u64 },
    Unmap { a: u64, g: u64 },
    Share { g: u64, f: u64, h: u64, w: u64 },
    Unshare { g: u64, f: u64, h: u64 },
    Take { f: u64, g: u64 },
    Destroy { g: u64 },
    Invalidated { g: u64 },
}

/// Document 03, section 3: the operations and their refusals, in order.
pub const REFUSALS: [(&str, &[u64]); 9] = [
    ("create", &[1, 2, 3]),
    ("give", &[5, 4, 6]),
    ("map", &[5, 14, 7, 8, 4, 9, 10, 3]),
    ("unmap", &[5, 7, 11]),
    ("share", &[5, 12, 4, 9, 13, 14]),
    ("unshare", &[5, 4, 9, 13, 14]),
    ("take", &[5, 4, 9, 13]),
    ("destroy", &[5, 13]),
    ("invalidated", &[1]),
];

impl Operation {
    pub fn name(&self) -> &'static str {
        match self {
            Operation::Create { .. } => "create",
            Operation::Give { .. } => "give",
            Operation::Map { .. } => "map",
            Operation::Unmap { .. } => "unmap",
            Operation::Share { .. } => "share",
            Operation::Unshare { .. } => "unshare",
            Operation::Take { .. } => "take",
            Operation::Destroy { .. } => "destroy",
            Operation::Invalidated { .. } => "invalidated",
        }
    }

    /// The guest-physical address that it names.
    pub fn address(&self) -> Option<u64> {
        match self {
            Operation::Map { a, .. } | Operation::Unmap { a, .. } => Some(*a),
            _ => None,
        }
    }
}

/// Addresses of pages: few or many whose ways part at each level, and neighbours of one.
pub fn addresses(random: &mut Random) -> Vec<u64> {
    let end = 1u64 << 48;
    let far = [0, 0x1000, 0x1ff000, 0x200000, 0x3ffff000, 0x40000000, 0x80000000, 1 << 39, 1 << 47, end - 4096];
    let mut all = Vec::new();
    for _ in 0..1 + random.below(16) {
        let anywhere = (random.next() % end) & !0xfff;
        all.push(if random.one_in(3) { anywhere } else { random.pick(&far) });
    }
    let near = all[0];
    all.extend((1..10).map(|page| (near + 4096 * page) % end));
    all
}

pub struct Steps<'a> {
    pub random: &'a mut Random,
    pub addresses: &'a [u64],
    pub document: &'a Monitor,
}

impl Steps<'_> {
    /// A number that no argument is meant to be, or the same one with bits above.
    fn hostile(&mut self, good: u64) -> u64 {
        let n = self.document.frames.len() as u64;
        let wild = self.random.next();
        let above = good.wrapping_add(1 << self.random.pick(&[8, 16, 32, 36, 48, 63]));
        let of_it = [above, above, good ^ 1, good.wrapping_neg(), good.wrapping_mul(4096), wild];
        let others = [0, 5, 6, 8, 9, n, n - 1, n + 1, 1 << 32, 1 << 48, u64::MAX, u64::MAX - 4095, (1 << 32) + 1];
        if self.random.one_in(3) { self.random.pick(&of_it) } else { self.random.pick(&others) }
    }

    fn or_hostile(&mut self, good: u64) -> u64 {
        if self.random.one_in(24) { self.hostile(good) } else { good }
    }

    fn one_of(&mut self, from: Vec<u64>, otherwise: u64) -> u64 {
        if from.is_empty() { otherwise } else { self.random.pick(&from) }
    }

    fn any_guest(&mut self) -> u64 {
        1 + self.random.below(4)
    }

    /// Mostly one that exists.
    fn guest(&mut self) -> u64 {
        let any = self.any_guest();
        let there = (1..=4).filter(|g| self.document.exists(*g)).collect();
        let good = if self.random.one_in(24) { any } else { self.one_of(there, any) };
        self.or_hostile(good)
    }

    fn any_frame(&mut self) -> u64 {
        self.random.below(self.document.frames.len() as u64)
    }

    /// Mostly a page such as is wanted.
    fn page(&mut self, wanted: impl Fn(&Page) -> bool) -> u64 {
        let any = self.any_frame();
        let there = self.document.pages().filter(|(_, page)| wanted(page)).map(|(f, _)| f).collect();
        let good = if self.random.one_in(16) { any } else { self.one_of(there, any) };
        self.or_hostile(good)
    }

    fn address(&mut self) -> u64 {
        let good = self.random.pick(self.addresses);
        match self.random.below(32) {
            0 => good + self.random.pick(&[1, 8, 0x800, 0xfff]),
            1 => good | self.random.pick(&[1 << 48, 1 << 52, 1 << 63]),
            2 => self.hostile(good),
            3 => (self.random.next() % (1 << 48)) & !0xfff,
            _ => good,
        }
    }

    /// A guest's page, with a guest that it is shared with, where there is one.
    fn shared(&mut self) -> (u64, u64, u64) {
        let document = self.document;
        let all: Vec<_> = document.pages().flat_map(|(f, page)| page.readers.iter().map(move |h| (page.owner, f, *h))).collect();
        if all.is_empty() || self.random.one_in(4) {
            let g = self.guest();
            return (g, self.page(|page| page.owner == g), self.guest());
        }
        let (g, f, h) = self.random.pick(&all);
        (self.or_hostile(g), self.or_hostile(f), self.or_hostile(h))
    }

    /// Mostly a page that the guest may use, with rights that it mostly has.
    fn map(&mut self) -> Operation {
        let g = self.guest();
        let f = self.page(|page| page.owner == g || page.readers.contains(&g));
        let r = match (self.random.below(40), self.document.page(f)) {
            (0, _) => self.random.pick(&[0, 2, 4, 6, 8, 9, 11, (1 << 32) + 1, u64::MAX]),
            (1, _) => self.hostile(1),
            (2..=5, _) => self.random.pick(&[1, 3, 5, 7]),
            (_, Some(page)) if page.owner == g => self.random.pick(&[1, 3, 3, 5, 7, 7]),
            (_, Some(page)) if page.writers.contains(&g) => self.random.pick(&[1, 3, 3]),
            _ => 1,
        };
        Operation::Map { f, g, a: self.address(), r }
    }

    fn unmap(&mut self) -> Operation {
        let all: Vec<_> = self.document.pages().flat_map(|(_, page)| page.places.iter().copied()).collect();
        if all.is_empty() || self.random.one_in(4) {
            return Operation::Unmap { a: self.address(), g: self.guest() };
        }
        let (g, a) = self.random.pick(&all);
        Operation::Unmap { a: self.or_hostile(a), g: self.or_hostile(g) }
    }

    fn share(&mut self) -> Operation {
        let (g, f, h) = self.shared();
        let h = if self.random.one_in(2) { self.guest() } else { h };
        let w = self.random.pick(&[0, 0, 0, 1, 1, 1, 2, 1 << 32, 1 << 63, u64::MAX]);
        Operation::Share { g, f, h, w }
    }

    fn take(&mut self) -> Operation {
        let idle = !self.random.one_in(3);
        let f = self.page(|page| !idle || page.places.is_empty() && page.readers.is_empty());
        let owner = self.document.page(f).map(|page| page.owner);
        let g = match owner {
            Some(owner) if !self.random.one_in(8) => self.or_hostile(owner),
            _ => self.guest(),
        };
        Operation::Take { f, g }
    }

    /// Mostly a free frame, and of the others often one that drains.
    fn give(&mut self) -> Operation {
        let any = self.any_frame();
        let which = self.random.below(8);
        let wanted = |kind: &Kind| match which {
            0 => true,
            1 => matches!(kind, Kind::Draining { was_table: true, .. }),
            2 => matches!(kind, Kind::Draining { was_table: false, .. }),
            _ => *kind == Kind::Free,
        };
        let frames = (0..self.document.frames.len() as u64).filter(|f| wanted(&self.document.frames[*f as usize])).collect();
        let good = self.one_of(frames, any);
        Operation::Give { f: self.or_hostile(good), g: self.guest() }
    }

    fn create(&mut self) -> Operation {
        let any = self.any_guest();
        let there = (1..=4).filter(|g| !self.document.exists(*g)).collect();
        let good = if self.random.one_in(6) { any } else { self.one_of(there, any) };
        Operation::Create { g: self.or_hostile(good) }
    }

    fn invalidated(&mut self) -> Operation {
        let any = self.any_guest();
        let dirty = (1..=4).filter(|g| self.document.dirty(*g)).collect();
        let good = self.one_of(dirty, any);
        Operation::Invalidated { g: self.or_hostile(good) }
    }

    pub fn next(&mut self) -> Operation {
        match self.random.below(100) {
            0..=4 => self.create(),
            5..=18 => self.give(),
            19..=49 => self.map(),
            50..=59 => self.unmap(),
            60..=71 => self.share(),
            72..=80 => {
                let (g, f, h) = self.shared();
                Operation::Unshare { g, f, h }
            }
            81..=87 => self.take(),
            88 => Operation::Destroy { g: self.guest() },
            _ => self.invalidated(),
        }
    }
}

/// "An owner can always get a page back: unmap and invalidate wherever it is shared, unshare, unmap and invalidate at home, take."
pub fn get_back(f: u64, page: &Page) -> Vec<Operation> {
    let g = page.owner;
    let mut plan = Vec::new();
    let unmap_all = |plan: &mut Vec<Operation>, h: u64| {
        plan.extend(page.places.iter().filter(|(guest, _)| *guest == h).map(|(_, a)| Operation::Unmap { a: *a, g: h }));
        plan.push(Operation::Invalidated { g: h });
    };
    for h in &page.readers {
        unmap_all(&mut plan, *h);
        plan.push(Operation::Unshare { g, f, h: *h });
    }
    unmap_all(&mut plan, g);
    plan.push(Operation::Take { f, g });
    plan
}
