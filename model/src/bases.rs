//! Sound tables to damage: most are made by the model's calls, some by hand. The small ones have at most 12 slots.

use crate::calls;
use crate::random::Stream;
use crate::rules::audit;
use crate::tables::{rect, Head, Kind, Options, Orientation, Slot, Tables, NONE};

pub const PLAIN: Options = Options { align_width: 1, align_height: 1, small: 32, large: 256 };
/// Thresholds for sheets of some ten units a side.
pub const LOW: Options = Options { align_width: 1, align_height: 1, small: 4, large: 8 };

/// Tables in the making; each step must be answered by 0.
pub struct Bench(pub Tables);

impl Bench {
    pub fn start(slots: usize, entries: usize, width: i32, height: i32, options: Options) -> Bench {
        let mut tables = Tables::zero(slots, entries);
        assert_eq!(calls::start(&mut tables, width, height, options), 0);
        Bench(tables)
    }

    pub fn take(mut self, width: i32, height: i32) -> Bench {
        let (answer, _, _) = calls::allocate(&mut self.0, width, height);
        assert_eq!(answer, 0, "{width}x{height} of {:?}", self.0);
        self
    }

    pub fn free(mut self, ticket: u32) -> Bench {
        assert_eq!(calls::deallocate(&mut self.0, ticket), 0, "ticket {ticket} of {:?}", self.0);
        self
    }

    /// Frees the Alloc slot that comes at this place of the listing.
    pub fn free_nth(self, place: usize) -> Bench {
        let ticket = tickets(&self.0)[place];
        self.free(ticket)
    }

    pub fn free_all(mut self) -> Bench {
        while !tickets(&self.0).is_empty() {
            self = self.free_nth(0);
        }
        self
    }

    pub fn grow(mut self, width: i32, height: i32) -> Bench {
        assert_eq!(calls::grow(&mut self.0, width, height), 0, "grow {width}x{height} of {:?}", self.0);
        self
    }
}

/// The live tickets, in slot order.
pub fn tickets(tables: &Tables) -> Vec<u32> {
    let mut lent = vec![(0, rect(0, 0, 0, 0)); tables.generations.len()];
    let (answer, count) = calls::list_alloc(tables, &mut lent);
    assert_eq!(answer, 0);
    lent[..count as usize].iter().map(|&(ticket, _)| ticket).collect()
}

/// The ledger's day: 100×1000, 900×200, 300×200 on 1000×1000.
fn ledger(slots: usize) -> Bench {
    Bench::start(slots, slots, 1000, 1000, PLAIN).take(100, 1000).take(900, 200).take(300, 200)
}

/// A row of equal columns, or of equal rows on a narrow sheet.
fn chain(slots: usize, entries: usize, members: i32, wide: bool) -> Bench {
    let (width, height) = if wide { (10 * members + 5, 6) } else { (6, 10 * members + 5) };
    let mut bench = Bench::start(slots, entries, width, height, LOW);
    for _ in 0..members {
        bench = if wide { bench.take(10, 6) } else { bench.take(6, 10) };
    }
    bench
}

/// Containers nested as deep as the slots allow, each an only child, with one Alloc at the bottom.
pub fn nested(slots: u32) -> Tables {
    let mut tables = Tables::zero(slots as usize, slots as usize);
    for slot in 0..slots {
        let last = slot + 1 == slots;
        tables.put(
            slot,
            Slot {
                parent: if slot == 0 { NONE } else { slot - 1 },
                next: NONE,
                prev: NONE,
                kind: if last { Kind::Alloc } else { Kind::Container },
                orientation: if slot % 2 == 0 { Orientation::Horizontal } else { Orientation::Vertical },
                rect: if last || slot == 0 { rect(0, 0, 7, 9) } else { rect(3, 2, 1, 0) },
            },
        );
    }
    tables.head =
        Head { width: 7, height: 9, options: LOW, root: 0, spare: NONE, count: slots, lengths: [0, slots, 1] };
    tables
}

/// Two Containers at the top, the last with its true rectangle, the slots in no order.
fn two_containers() -> Tables {
    let mut tables = Tables::zero(9, 9);
    let (container, alloc, free, unused) = (Kind::Container, Kind::Alloc, Kind::Free, Kind::Unused);
    let (down, along) = (Orientation::Vertical, Orientation::Horizontal);
    let slots = [
        (7, 5, NONE, alloc, along, rect(0, 5, 4, 12)),
        (3, NONE, 6, alloc, along, rect(5, 0, 9, 5)),
        (NONE, 8, 4, unused, down, rect(9, 9, 9, 9)),
        (NONE, 7, NONE, container, down, rect(0, 0, 0, 0)),
        (1, 2, 3, unused, along, rect(1, 2, 3, 4)),
        (7, NONE, 0, free, along, rect(4, 5, 9, 12)),
        (3, 1, NONE, free, along, rect(0, 0, 5, 5)),
        (NONE, NONE, 3, container, down, rect(0, 5, 9, 12)),
        (8, NONE, 8, unused, down, rect(0, 0, 0, 0)),
    ];
    for (number, (parent, next, prev, kind, orientation, rect)) in slots.into_iter().enumerate() {
        tables.put(number as u32, Slot { parent, next, prev, kind, orientation, rect });
    }
    tables.lists = [vec![6, 5, 0, 0, 0, 0, 0, 0, 0], vec![5, 6, 8, 2, 5, 0, 0, 0, 0], vec![6, 4, 6, 0, 0, 0, 0, 0, 0]];
    tables.head = Head { width: 9, height: 12, options: LOW, root: 3, spare: 4, count: 9, lengths: [2, 5, 3] };
    tables
}

/// The small bases, each sound and with at most 12 slots.
pub fn small() -> Vec<Tables> {
    let thresholds = |small, large| Options { small, large, ..PLAIN };
    let aligned = Options { align_width: 5, align_height: 2, ..LOW };
    let lone = |slots, width, height| Bench::start(slots, slots, width, height, LOW).take(width, height);
    let last_container = |slots| Bench::start(slots, slots, 10, 10, LOW).take(10, 4).take(4, 6);
    let benches = vec![
        // Fresh, and taken whole.
        Bench::start(1, 1, 10, 10, LOW),
        Bench::start(3, 3, 65_536, 65_536, PLAIN),
        lone(1, 10, 10),
        lone(3, 65_536, 1),
        // One request, cut each way.
        Bench::start(2, 2, 10, 10, LOW).take(10, 4),
        Bench::start(3, 3, 10, 10, LOW).take(5, 10),
        Bench::start(4, 4, 10, 10, LOW).take(4, 4),
        Bench::start(5, 5, 10, 10, LOW).take(3, 6),
        Bench::start(7, 9, 10, 10, LOW).take(3, 6),
        // Thresholds that leave one bucket or two.
        Bench::start(5, 5, 10, 10, thresholds(-5, -2)).take(3, 6),
        Bench::start(5, 5, 10, 10, thresholds(i32::MIN, i32::MAX)).take(3, 6),
        Bench::start(5, 5, 10, 10, thresholds(i32::MAX, i32::MAX)).take(3, 6),
        Bench::start(8, 9, 10, 10, thresholds(5, 5)).take(4, 4).take(4, 2),
        Bench::start(10, 10, 30, 30, aligned).take(7, 3).take(9, 9),
        // The ledger.
        ledger(10),
        ledger(8).free(4).free(6),
        ledger(8).free(6).free(4),
        ledger(9).free(4).free(6).take(500, 200),
        Bench::start(8, 8, 1000, 1000, PLAIN).take(100, 100).grow(3000, 3000),
        Bench::start(6, 6, 1000, 1000, PLAIN).take(100, 100).grow(3000, 3000).take(1000, 2900),
        // Wide chains, whole and with holes.
        chain(9, 9, 5, true),
        chain(9, 12, 6, false).free_nth(1).free_nth(3),
        chain(12, 12, 8, true).free_nth(6).free_nth(3).free_nth(1),
        chain(12, 12, 9, true).free_nth(4).free_nth(4).free_nth(4).take(7, 6),
        chain(8, 8, 6, true).free_all(),
        // After grows: an only child, nested roots, a Container last at the top.
        lone(4, 10, 10).grow(20, 10),
        lone(8, 10, 10).grow(20, 10).grow(20, 20).grow(30, 20),
        lone(10, 10, 10).grow(20, 20).take(10, 20).grow(25, 25).take(25, 5),
        last_container(6),
        last_container(9).grow(10, 12),
        last_container(12).grow(15, 15).take(5, 15),
        lone(9, 10, 4).grow(20, 4).take(4, 4).take(6, 3),
        lone(12, 6, 6).grow(12, 12).take(4, 8).take(2, 8),
        Bench::start(7, 7, 10, 10, LOW).take(3, 6).free_all().grow(12, 12),
        lone(6, 4, 4).grow(4, 9).grow(9, 9).free_all(),
        // Spare slots, dead and repeated entries, entries in other buckets, full lists.
        Bench::start(4, 4, 1, 2, thresholds(2, 3)).take(1, 1).take(1, 1).free_nth(0).free_nth(0).grow(1, 2),
        Bench::start(8, 8, 2, 2, thresholds(5, 9)).take(1, 1).take(1, 1).free(2).take(1, 1),
        Bench::start(11, 11, 12, 12, LOW).take(5, 7).take(3, 3).take(4, 2).free_nth(1).take(5, 1),
        Bench::start(12, 12, 12, 12, LOW).take(2, 3).take(5, 5).take(3, 7).free_nth(1).free_nth(0).take(1, 4),
        Bench::start(12, 12, 16, 16, LOW).take(6, 6).take(4, 4).take(5, 9).take(4, 2).free_nth(2),
        Bench::start(12, 14, 9, 9, LOW).take(4, 4).take(4, 4).take(2, 5).free_all().take(4, 4).free_all().take(3, 3),
    ];
    let mut bases: Vec<Tables> = benches.into_iter().map(|bench| bench.0).collect();
    bases.extend([nested(2), nested(3), nested(12), two_containers()]);
    for base in &bases {
        assert!(base.generations.len() <= 12);
        assert_eq!(audit(base), (0, 0), "{base:?}");
    }
    bases
}

/// Larger bases, from random days.
pub fn large() -> Vec<Tables> {
    let mut bases = Vec::new();
    for seed in 1..=6 {
        let mut stream = Stream::new(seed * 7919);
        let mut tables = Bench::start(64, 64 + seed as usize, 60, 50, Options { small: 8, large: 20, ..PLAIN }).0;
        for _ in 0..400 {
            let live = tickets(&tables);
            if stream.below(100) < 62 - live.len() as u32 {
                let (width, height) = (stream.between(1, 18), stream.between(1, 18));
                calls::allocate(&mut tables, width, height);
            } else if stream.below(60) == 0 {
                let (width, height) = (stream.between(0, 9), stream.between(0, 9));
                let (width, height) = (tables.head.width + width, tables.head.height + height);
                calls::grow(&mut tables, width, height);
            } else if !live.is_empty() {
                calls::deallocate(&mut tables, stream.pick(&live));
            }
        }
        assert_eq!(audit(&tables), (0, 0));
        bases.push(tables);
    }
    bases
}
