//! Calls on damaged tables, on tables of lengths out of range, and with tickets of any kind: the library answers what the model answers, and changes
//! what the model changes.

use crate::call::{Call, Setup};
use crate::papers::{Answers, Pair};
use crate::tight::{call, littered};
use crate::trail::Trail;
use model::bases::{self, PLAIN};
use model::random::Stream;
use model::rules::{audit, MOST_ENTRIES, MOST_SLOTS};
use model::tables::{Tables, BUCKETS, HEAD_FIELDS, NONE};

/// Every call once, with arguments to suit the tables, as far as they can be.
pub fn each_call(tables: &Tables, stream: &mut Stream) -> [Call; 13] {
    let head = &tables.head;
    let ticket = stream.below(head.count.clamp(1, 16));
    [
        Call::Allocate(stream.between(1, 5), stream.between(1, 5)),
        Call::Deallocate(ticket),
        Call::Deallocate(stream.word()),
        Call::Grow(head.width.saturating_add(stream.between(0, 2)), head.height.saturating_add(1)),
        Call::Lookup(ticket),
        Call::ListAllocated(5 * tables.room().min(64) as usize),
        Call::ListFree(4 * tables.room().min(64) as usize),
        Call::IsEmpty,
        Call::Size,
        Call::Check,
        Call::Clear,
        Call::Start(Setup { width: 10, height: 7, options: PLAIN }),
        Call::Reset(Setup { width: stream.between(0, 9), height: 7, options: PLAIN }),
    ]
}

/// Makes every call once, each on a copy of the tables.
pub fn all_calls(tables: &Tables, stream: &mut Stream, answers: &mut Answers, trail: &mut Trail) {
    for call in each_call(tables, stream) {
        trail.step(call);
        Pair::of(tables.clone()).make(call, answers);
    }
}

/// A number to damage a place with: of a slot, at an end of a range, a little more or less, or any.
fn other(old: u32, stream: &mut Stream) -> u32 {
    let near = [old.wrapping_add(1), old.wrapping_sub(1), old ^ 1 << stream.below(32)];
    match stream.below(4) {
        0 => stream.below(12),
        1 => stream.pick(&[NONE, NONE - 1, 1 << 31, (1 << 31) - 1, 65_536, 65_537, 4_096, 16_384, 16_385]),
        2 => stream.word(),
        _ => stream.pick(&near),
    }
}

/// Changes one number somewhere.
fn harm(tables: &mut Tables, stream: &mut Stream) {
    let place = |length: usize, stream: &mut Stream| stream.below(length as u32) as usize;
    match stream.below(10) {
        0..=4 if !tables.words.is_empty() => {
            let used = (8 * tables.head.count as usize).clamp(1, tables.words.len());
            let place = place(used, stream);
            tables.words[place] = other(tables.words[place], stream);
        }
        5..=6 => {
            let number = place(HEAD_FIELDS, stream);
            tables.head.set_field(number, other(tables.head.field(number), stream));
        }
        7..=8 => {
            let list = &mut tables.lists[stream.pick(&BUCKETS)];
            if !list.is_empty() {
                let place = place(list.len().min(8), stream);
                list[place] = other(list[place], stream);
            }
        }
        _ if !tables.generations.is_empty() => {
            let place = place(tables.generations.len(), stream);
            tables.generations[place] = stream.word() as u8;
        }
        _ => {}
    }
}

/// Makes a table shorter or longer, mostly by one.
fn cut(tables: &mut Tables, stream: &mut Stream) {
    let mut other = |length: usize, most: usize| match stream.below(8) {
        0 => 0,
        1 => most + 1,
        2 => most,
        3..=4 => length.saturating_sub(1),
        5 => length / 2,
        _ => length + 1,
    };
    let (words, generations) = (other(tables.words.len(), 8 * MOST_SLOTS), other(tables.generations.len(), MOST_SLOTS));
    let list = other(tables.lists[0].len(), MOST_ENTRIES);
    match stream.below(5) {
        0 => tables.words.resize(words, 3),
        1 => tables.generations.resize(generations, 0),
        bucket => tables.lists[bucket as usize - 2].resize(list, 0),
    }
}

/// Damaged tables by this seed: a small sound base, some calls later, with up to three numbers or lengths changed; or tables that hold anything.
pub fn day(seed: u64, bases: &[Tables]) -> Answers {
    let mut stream = Stream::new(seed);
    let mut answers = Answers::default();
    let mut trail = Trail::new("damaged tables", seed);
    let mut pair = Pair::of(bases[stream.below(bases.len() as u32) as usize].clone());
    for _ in 0..stream.below(12) {
        let next = call(&pair.model, &bases::tickets(&pair.model), &mut stream);
        trail.step(next);
        pair.make(next, &mut answers);
    }
    assert_eq!(audit(&pair.model), (0, 0));
    for _ in 0..12 {
        let mut tables = pair.model.clone();
        match stream.below(20) {
            0 => {
                let slots = stream.between(0, 12) as usize;
                tables = littered(slots, [0; 3].map(|_| stream.between(0, 16) as usize), &mut stream);
            }
            1..=4 => cut(&mut tables, &mut stream),
            _ => (0..=stream.below(3)).for_each(|_| harm(&mut tables, &mut stream)),
        }
        all_calls(&tables, &mut stream, &mut answers, &mut trail);
    }
    answers
}
