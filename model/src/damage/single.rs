//! One number changed, anywhere; and two at once.

use crate::list::List;
use crate::random::Stream;
use crate::rules::{LONGEST, MOST_ENTRIES};
use crate::tables::{Tables, BUCKETS, HEAD_FIELDS, NONE};

/// One number changed.
#[derive(Clone, Copy, Debug)]
pub enum Edit {
    Word(usize, u32),
    Generation(usize, u8),
    Entry(usize, usize, u32),
    Field(usize, u32),
}

pub fn edited(base: &Tables, edits: &[Edit]) -> Tables {
    let mut tables = base.clone();
    for &edit in edits {
        match edit {
            Edit::Word(place, value) => tables.words[place] = value,
            Edit::Generation(place, value) => tables.generations[place] = value,
            Edit::Entry(bucket, place, value) => tables.lists[bucket][place] = value,
            Edit::Field(number, value) => tables.head.set_field(number, value),
        }
    }
    tables
}

/// The values worth trying in the place of an old one, each once, the old one left out.
fn instead_of(old: u32, mut values: Vec<u32>) -> Vec<u32> {
    values.sort_unstable();
    values.dedup();
    values.retain(|&value| value != old);
    values
}

/// What to put in the place of a link or an entry: every slot number, the first numbers past n and past N, the none-link
/// and the number before it, and the old number's neighbours.
fn instead_of_link(tables: &Tables, old: u32) -> Vec<u32> {
    let mut values: Vec<u32> = (0..=tables.head.count).collect();
    values.extend([tables.room(), NONE, NONE - 1, old.wrapping_add(1), old.wrapping_sub(1)]);
    instead_of(old, values)
}

/// What to put in the place of a corner: its neighbours, ends of the ranges, and the other corners of the base.
fn instead_of_corner(tables: &Tables, old: u32) -> Vec<u32> {
    let n = tables.head.count;
    let mut values = vec![0, 1, n - 1, n, NONE, NONE - 1, 1 << 31, old.wrapping_add(1), old.wrapping_sub(1)];
    let mut corners: Vec<u32> = tables.words.chunks(8).take(n as usize).flat_map(|slot| &slot[4..]).copied().collect();
    corners.sort_unstable();
    corners.dedup();
    values.extend(corners.into_iter().take(6));
    instead_of(old, values)
}

/// Every edit of one number that the list tries on a small base.
pub fn singles(base: &Tables) -> Vec<Edit> {
    let mut edits = Vec::new();
    let head = &base.head;
    for (place, &old) in base.words.iter().enumerate() {
        let values = match place % 8 {
            _ if place / 8 >= head.count as usize => vec![NONE, 2, 6],
            0..=2 => instead_of_link(base, old),
            3 => instead_of(old, vec![0, 1, 2, 3, 4, 5, 6, 7, 8, NONE]),
            _ => instead_of_corner(base, old),
        };
        edits.extend(values.into_iter().filter(|&value| value != old).map(|value| Edit::Word(place, value)));
    }
    for (place, &old) in base.generations.iter().enumerate() {
        edits.push(Edit::Generation(place, !old));
    }
    for bucket in BUCKETS {
        for (place, &old) in base.lists[bucket].iter().enumerate() {
            let counts = place <= head.lengths[bucket] as usize;
            let values = if counts { instead_of_link(base, old) } else { vec![NONE - old] };
            edits.extend(values.into_iter().map(|value| Edit::Entry(bucket, place, value)));
        }
    }
    for number in 0..HEAD_FIELDS {
        let values = instead_of_field(base, number);
        edits.extend(values.into_iter().map(|value| Edit::Field(number, value)));
    }
    edits
}

fn instead_of_field(base: &Tables, number: usize) -> Vec<u32> {
    let old = base.head.field(number);
    let (above, below) = (old.wrapping_add(1), old.wrapping_sub(1));
    let (least, most) = (i32::MIN as u32, i32::MAX as u32);
    let other = base.head.field(number ^ 1);
    let values = match number {
        0 | 1 => vec![0, 1, above, below, LONGEST as u32, LONGEST as u32 + 1, NONE, NONE - 1, least, most, other],
        2 | 3 => vec![0, 1, above, below, NONE, least, most],
        4 | 5 => vec![0, 1, above, below, other, other.wrapping_add(1), other.wrapping_sub(1), NONE, least, most],
        6 | 7 => return instead_of_link(base, old),
        8 => (0..=base.room() + 1).chain([NONE, NONE - 1]).collect(),
        _ => {
            let entries = base.lists[0].len() as u32;
            (0..=entries + 1).chain([MOST_ENTRIES as u32, MOST_ENTRIES as u32 + 1, NONE, NONE - 1]).collect()
        }
    };
    instead_of(old, values)
}

/// Two edits at once, drawn from the single ones, so that broken rules meet and the lowest must be named.
pub fn pairs(list: &mut List, base: &Tables, count: usize, stream: &mut Stream) {
    let edits = singles(base);
    for _ in 0..count {
        list.show(&edited(base, &[stream.pick(&edits), stream.pick(&edits)]));
    }
}
