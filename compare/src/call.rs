//! What a call is, and what a side answers to it: its number and the words that it hands over, in one row.

use crate::fenced::{Fenced, Sheet};
use model::calls;
use model::tables::{rect, Options, Rect, Tables};

/// A sheet's size and options, as start and reset take them.
#[derive(Clone, Copy, Debug)]
pub struct Setup {
    pub width: i32,
    pub height: i32,
    pub options: Options,
}

#[derive(Clone, Copy, Debug)]
pub enum Call {
    Start(Setup),
    Reset(Setup),
    Clear,
    Allocate(i32, i32),
    Deallocate(u32),
    Grow(i32, i32),
    Lookup(u32),
    /// With a lent list of so many words.
    ListAllocated(usize),
    ListFree(usize),
    IsEmpty,
    Size,
    Check,
}

/// What stands in a lent list, and in what a call hands over, before the call.
const BEFORE: u32 = 0x5A5A_1234;

pub fn corners(place: Rect) -> [u32; 4] {
    [place.x0, place.y0, place.x1, place.y1]
}

/// The library's answer.
pub fn ours(sheet: &mut Sheet, call: Call) -> Vec<u32> {
    let mut out = match call {
        Call::Allocate(..) => Fenced::of(&[BEFORE; 5]),
        Call::Lookup(_) => Fenced::of(&[BEFORE; 4]),
        Call::Size => Fenced::of(&[BEFORE; 2]),
        Call::ListAllocated(_) | Call::ListFree(_) | Call::IsEmpty => Fenced::of(&[BEFORE; 1]),
        _ => Fenced::of(&[]),
    };
    let mut list = match call {
        Call::ListAllocated(length) | Call::ListFree(length) => Fenced::of(&vec![BEFORE; length]),
        _ => Fenced::of(&[]),
    };
    let answer = sheet.lend(|lent| match call {
        Call::Start(Setup { width, height, options: Options { align_width, align_height, small, large } }) => {
            lent.start(width, height, align_width, align_height, small, large)
        }
        Call::Reset(Setup { width, height, options: Options { align_width, align_height, small, large } }) => {
            lent.reset(width, height, align_width, align_height, small, large)
        }
        Call::Clear => lent.clear(),
        Call::Allocate(width, height) => lent.allocate(width, height, out.array()),
        Call::Deallocate(ticket) => lent.deallocate(ticket),
        Call::Grow(width, height) => lent.grow(width, height),
        Call::Lookup(ticket) => lent.lookup(ticket, out.array()),
        Call::ListAllocated(_) => lent.list_allocated(list.inside_mut(), out.array()),
        Call::ListFree(_) => lent.list_free(list.inside_mut(), out.array()),
        Call::IsEmpty => lent.is_empty(out.array()),
        Call::Size => {
            lent.size(out.array());
            0
        }
        Call::Check => lent.check(),
    });
    let mut told = vec![answer];
    told.extend(out.told());
    told.extend(list.told());
    told
}

/// The model's answer.
pub fn models(tables: &mut Tables, call: Call) -> Vec<u32> {
    match call {
        Call::Start(Setup { width, height, options }) => vec![calls::start(tables, width, height, options)],
        Call::Reset(Setup { width, height, options }) => vec![calls::reset(tables, width, height, options)],
        Call::Clear => vec![calls::clear(tables)],
        Call::Allocate(width, height) => {
            let (answer, ticket, place) = calls::allocate(tables, width, height);
            [&[answer, ticket][..], &corners(place)].concat()
        }
        Call::Deallocate(ticket) => vec![calls::deallocate(tables, ticket)],
        Call::Grow(width, height) => vec![calls::grow(tables, width, height)],
        Call::Lookup(ticket) => {
            let (answer, place) = calls::lookup(tables, ticket);
            [&[answer][..], &corners(place)].concat()
        }
        Call::ListAllocated(length) => {
            let mut lent = vec![(BEFORE, BEFORE_RECT); length / 5];
            let (answer, count) = calls::list_alloc(tables, &mut lent);
            let entries = lent.iter().flat_map(|&(ticket, place)| [&[ticket][..], &corners(place)].concat());
            listed(answer, count, entries, length)
        }
        Call::ListFree(length) => {
            let mut lent = vec![BEFORE_RECT; length / 4];
            let (answer, count) = calls::list_free(tables, &mut lent);
            listed(answer, count, lent.iter().flat_map(|&place| corners(place)), length)
        }
        Call::IsEmpty => {
            let (answer, empty) = calls::is_empty(tables);
            vec![answer, empty.into()]
        }
        Call::Size => {
            let (width, height) = calls::size(tables);
            vec![0, width as u32, height as u32]
        }
        Call::Check => vec![model::rules::answer(tables)],
    }
}

const BEFORE_RECT: Rect = rect(BEFORE, BEFORE, BEFORE, BEFORE);

/// Answer, count and the whole lent list: the words past the last whole entry are as before.
fn listed(answer: u32, count: u32, entries: impl Iterator<Item = u32>, length: usize) -> Vec<u32> {
    let mut told = vec![answer, count];
    told.extend(entries);
    told.resize(2 + length, BEFORE);
    told
}
