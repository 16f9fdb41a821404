//! Days on tables without room to spare, from one slot on, with arguments of all kinds: lists are swept, slots run out, and every refusal is met.

use crate::call::{Call, Setup};
use crate::days;
use crate::papers::{Answers, Pair};
use crate::trail::Trail;
use model::bases::tickets;
use model::calls::GENERATION;
use model::random::Stream;
use model::rules::audit;
use model::tables::{Options, Tables, BUCKETS};

/// Numbers at the ends of ranges.
const ENDS: [i32; 9] = [i32::MIN, -1, 0, 1, 2, 65_536, 65_537, i32::MAX - 1, i32::MAX];

/// Tables of so many slots and entries that hold anything.
pub fn littered(slots: usize, entries: [usize; 3], stream: &mut Stream) -> Tables {
    let mut tables = Tables::zero(slots, 0);
    tables.words.fill_with(|| stream.word());
    tables.generations.fill_with(|| stream.word() as u8);
    tables.lists = entries.map(|length| (0..length).map(|_| stream.word()).collect());
    for number in 0..model::tables::HEAD_FIELDS {
        tables.head.set_field(number, stream.word());
    }
    tables
}

/// A valid setup, mostly small, or now and then one with a number at an end of its range.
fn setup(stream: &mut Stream, side: i32) -> Setup {
    if stream.below(2) == 0 {
        return days::setup(stream, 1);
    }
    let small = stream.between(-1, side);
    let (align_width, align_height) = (stream.pick(&[1, 1, 1, 2]), stream.pick(&[1, 1, 1, 3]));
    let options = Options { align_width, align_height, small, large: small + stream.between(0, side) };
    let mut setup = Setup { width: stream.between(1, side), height: stream.between(1, side), options };
    if stream.below(8) == 0 {
        let end = stream.pick(&ENDS);
        match stream.below(6) {
            0 => setup.width = end,
            1 => setup.height = end,
            2 => setup.options.align_width = end,
            3 => setup.options.align_height = end,
            4 => setup.options.small = end,
            _ => setup.options.large = end,
        }
    }
    setup
}

/// A ticket: mostly a live one; else one of a slot near, with its generation or near it, or any number.
fn ticket(tables: &Tables, live: &[u32], stream: &mut Stream) -> u32 {
    if !live.is_empty() && stream.below(4) != 0 {
        return stream.pick(live);
    }
    let slot = stream.below(tables.room().max(1) + 2);
    let generation = tables.generations.get(slot as usize).copied().unwrap_or(0);
    let generation = generation.wrapping_add(stream.pick(&[0, 0, 0, 1, 255]));
    match stream.below(8) {
        0 => stream.word(),
        1 => u32::MAX,
        _ => slot + u32::from(generation) * GENERATION,
    }
}

/// A side to ask for.
fn side(stream: &mut Stream, sheet: i32) -> i32 {
    match stream.below(30) {
        0 => stream.pick(&ENDS),
        1 => sheet,
        _ => {
            let share = sheet / stream.pick(&[1, 2, 4]);
            stream.between(1, share.max(1))
        }
    }
}

/// Any call.
pub fn call(tables: &Tables, live: &[u32], stream: &mut Stream) -> Call {
    let head = &tables.head;
    match stream.below(100) {
        0..=39 => Call::Allocate(side(stream, head.width), side(stream, head.height)),
        40..=69 => Call::Deallocate(ticket(tables, live, stream)),
        70..=76 => {
            let mut longer = |side: i32| match stream.below(12) {
                0 => stream.pick(&ENDS),
                1 => side.saturating_sub(1),
                _ => side.saturating_add(stream.pick(&[0, 0, 1, 2, 9])),
            };
            Call::Grow(longer(head.width), longer(head.height))
        }
        77..=82 => Call::Lookup(ticket(tables, live, stream)),
        83..=86 => Call::ListAllocated(stream.below(5 * tables.room().min(40) + 1) as usize),
        87..=90 => Call::ListFree(stream.below(4 * tables.room().min(40) + 1) as usize),
        91..=92 => Call::IsEmpty,
        93 => Call::Size,
        94..=96 => Call::Check,
        97 => Call::Clear,
        98 => Call::Start(setup(stream, 16)),
        _ => Call::Reset(setup(stream, 16)),
    }
}

/// Fills a list with entries of any slots below n: dead ones and repeats are allowed.
fn fill(tables: &mut Tables, bucket: usize, stream: &mut Stream) {
    while (tables.head.lengths[bucket] as usize) < tables.lists[bucket].len() {
        tables.lists[bucket][tables.head.lengths[bucket] as usize] = stream.below(tables.head.count);
        tables.head.lengths[bucket] += 1;
    }
}

/// The day of this seed. Tables stay sound, and freeing everything ends in one Free slot.
pub fn day(seed: u64) -> Answers {
    let mut stream = Stream::new(seed);
    let mut answers = Answers::default();
    let mut trail = Trail::new("beside the model, tight tables", seed);
    let slots = stream.between(1, 32) as usize;
    let entries = [0; 3].map(|_| slots + stream.pick(&[0, 0, 0, 1, 5]));
    let mut pair = Pair::of(littered(slots, entries, &mut stream));
    let mut begun = false;
    while !begun {
        let side = stream.pick(&[4, 10, 16, 40]);
        let start = Call::Start(setup(&mut stream, side));
        trail.step(start);
        begun = pair.make(start, &mut answers)[0] == 0;
    }
    for _ in 0..60 {
        if stream.below(6) == 0 {
            let mut tables = pair.model.clone();
            fill(&mut tables, stream.pick(&BUCKETS), &mut stream);
            pair = Pair::of(tables);
        }
        let next = call(&pair.model, &tickets(&pair.model), &mut stream);
        trail.step(next);
        pair.make(next, &mut answers);
        assert_eq!(audit(&pair.model), (0, 0));
    }
    for ticket in tickets(&pair.model) {
        trail.step(Call::Deallocate(ticket));
        assert_eq!(pair.make(Call::Deallocate(ticket), &mut answers), [0]);
    }
    assert_eq!(pair.make(Call::IsEmpty, &mut answers), [0, 1]);
    answers
}
