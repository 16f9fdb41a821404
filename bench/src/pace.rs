//! Calls drawn once, by the crate, and made again on either side: each side by functions of its own that are never inlined, so that a counter of
//! instructions can be told to count what happens in them alone.

use crate::lent::Bare;
use compare::random_test::{RandomTest, Step};
use model::random::Stream;
use model::tables::{Head, Options, Tables};
use oracle::view::{state, AllocId, NodeKind, State};
use oracle::{size2, AllocatorOptions, AtlasAllocator};

#[derive(Clone, Copy)]
pub enum Call {
    Allocate(i32, i32),
    Deallocate(u32),
}

/// Calls, and where they begin: the atlas, and tables that hold the same.
pub struct Pace {
    pub atlas: AtlasAllocator,
    pub bare: Bare,
    pub calls: Vec<Call>,
    /// What the crate answered: a ticket, or nothing for a refusal; of a deallocate nothing.
    pub tickets: Vec<Option<u32>>,
}

/// Tables of so many slots and entries that hold what an atlas holds.
fn tables_of(seen: &State, slots: usize, entries: usize) -> Tables {
    let mut tables = Tables::zero(slots, entries);
    for (place, slot) in seen.slots.iter().enumerate() {
        let corners = [slot.rect.min.x, slot.rect.min.y, slot.rect.max.x, slot.rect.max.y].map(|corner| corner as u32);
        let links = [slot.parent, slot.next, slot.prev, slot.code];
        tables.words[8 * place..8 * place + 8].copy_from_slice(&[links, corners].concat());
    }
    tables.generations[..seen.generations.len()].copy_from_slice(&seen.generations);
    for (list, entries) in tables.lists.iter_mut().zip(&seen.lists) {
        list[..entries.len()].copy_from_slice(entries);
    }
    tables.head = Head {
        width: seen.size.width,
        height: seen.size.height,
        options: Options {
            align_width: seen.options.alignment.width,
            align_height: seen.options.alignment.height,
            small: seen.options.small_size_threshold,
            large: seen.options.large_size_threshold,
        },
        root: seen.root,
        spare: seen.spare,
        count: seen.slots.len() as u32,
        lengths: [0, 1, 2].map(|bucket| seen.lists[bucket].len() as u32),
    };
    tables
}

/// Calls as they are drawn, each made by the crate at once.
struct Drawn {
    atlas: AtlasAllocator,
    live: Vec<u32>,
    calls: Vec<Call>,
    tickets: Vec<Option<u32>>,
}

impl Drawn {
    fn allocate(&mut self, width: i32, height: i32) {
        let ticket = self.atlas.allocate(size2(width, height)).map(|given| given.id.serialize());
        self.live.extend(ticket);
        self.calls.push(Call::Allocate(width, height));
        self.tickets.push(ticket);
    }

    fn deallocate(&mut self, place: usize) {
        let ticket = self.live.remove(place);
        self.atlas.deallocate(AllocId::deserialize(ticket));
        self.calls.push(Call::Deallocate(ticket));
        self.tickets.push(None);
    }
}

/// So many steps of the crate's `atlas_random_test`, in tables of 512 slots with the longest lists.
pub fn random_test(steps: usize) -> Pace {
    let options = AllocatorOptions { alignment: size2(5, 2), ..oracle::DEFAULT_OPTIONS };
    let atlas = AtlasAllocator::with_options(size2(1_000, 1_000), &options);
    let bare = Bare::of(&tables_of(&state(&atlas), 512, 16_384));
    let (begun, mut numbers) = (atlas.clone(), RandomTest::new());
    let mut drawn = Drawn { atlas, live: Vec::new(), calls: Vec::new(), tickets: Vec::new() };
    for _ in 0..steps {
        match numbers.step(drawn.live.len()) {
            Step::Free(place) => drawn.deallocate(place),
            Step::Take(width, height) => drawn.allocate(width, height),
        }
    }
    Pace { atlas: begun, bare, calls: drawn.calls, tickets: drawn.tickets }
}

/// How many slots are not Unused.
fn in_use(atlas: &AtlasAllocator) -> usize {
    state(atlas).slots.iter().filter(|slot| slot.kind() != NodeKind::Unused).count()
}

/// So many calls, a deallocate and an allocate by turns, on a sheet with so many slots in use or a few less: two deallocates where an allocate
/// might take more.
pub fn steady(slots: usize, calls: usize) -> Pace {
    let mut stream = Stream::new(slots as u64);
    let atlas = AtlasAllocator::new(size2(4_096, 4_096));
    let mut drawn = Drawn { atlas, live: Vec::new(), calls: Vec::new(), tickets: Vec::new() };
    let side = (4_096.0 * 2.2 / (slots as f64).sqrt()) as i32;
    let request =
        |drawn: &mut Drawn, stream: &mut Stream| drawn.allocate(stream.between(1, side), stream.between(1, side));
    while in_use(&drawn.atlas) + 4 <= slots && drawn.calls.len() < 4 * slots {
        request(&mut drawn, &mut stream);
    }
    let begun = drawn.atlas.clone();
    let bare = Bare::of(&tables_of(&state(&begun), slots, 16_384));
    drawn.calls.clear();
    drawn.tickets.clear();
    while drawn.calls.len() < calls {
        drawn.deallocate(stream.below(drawn.live.len() as u32) as usize);
        if in_use(&drawn.atlas) + 4 <= slots {
            request(&mut drawn, &mut stream);
        }
    }
    Pace { atlas: begun, bare, calls: drawn.calls, tickets: drawn.tickets }
}

#[inline(never)]
pub fn crate_allocate(atlas: &mut AtlasAllocator, width: i32, height: i32) -> Option<u32> {
    atlas.allocate(size2(width, height)).map(|given| given.id.serialize())
}

#[inline(never)]
pub fn crate_deallocate(atlas: &mut AtlasAllocator, ticket: u32) -> Option<u32> {
    atlas.deallocate(AllocId::deserialize(ticket));
    None
}

#[inline(never)]
pub fn our_allocate(bare: &mut Bare, width: i32, height: i32) -> Option<u32> {
    let mut out = [0; 5];
    (bare.lend().allocate(width, height, &mut out) == 0).then_some(out[0])
}

#[inline(never)]
pub fn our_deallocate(bare: &mut Bare, ticket: u32) -> Option<u32> {
    assert_eq!(bare.lend().deallocate(ticket), 0);
    None
}

#[inline(never)]
pub fn check_before_allocate(bare: &mut Bare) {
    assert_eq!(bare.check(), 0);
}

#[inline(never)]
pub fn check_before_deallocate(bare: &mut Bare) {
    assert_eq!(bare.check(), 0);
}

pub fn crates(atlas: &mut AtlasAllocator, call: Call) -> Option<u32> {
    match call {
        Call::Allocate(width, height) => crate_allocate(atlas, width, height),
        Call::Deallocate(ticket) => crate_deallocate(atlas, ticket),
    }
}

pub fn ours(bare: &mut Bare, call: Call) -> Option<u32> {
    match call {
        Call::Allocate(width, height) => our_allocate(bare, width, height),
        Call::Deallocate(ticket) => our_deallocate(bare, ticket),
    }
}

/// The check that a call makes first, by itself.
pub fn check(bare: &mut Bare, call: Call) {
    match call {
        Call::Allocate(..) => check_before_allocate(bare),
        Call::Deallocate(_) => check_before_deallocate(bare),
    }
}
