//! Days drawn at random within the crate's premises: sheets of all sizes, alignments and thresholds of every kind, and calls of every kind.

use crate::call::{Call, Setup};
use crate::crates::{Beside, Counts};
use crate::trail::Trail;
use model::random::Stream;
use model::tables::Options;

/// The longest side of a sheet.
const LONGEST: i32 = i32::MAX;

/// A side of a sheet: short, of any length, or at an end of the range.
fn side(stream: &mut Stream, least: i32) -> i32 {
    let most = stream.pick(&[1, 4, 9, 30, 100, 1_000, 1_000, 5_000, 65_536, LONGEST]).max(least);
    if stream.below(6) == 0 {
        most
    } else {
        stream.between(least, most)
    }
}

/// An alignment: mostly 1, else small, as large as the sheet, or as large as they come.
fn alignment(stream: &mut Stream, side: i32) -> i32 {
    match stream.below(20) {
        0..=10 => 1,
        11..=16 => stream.pick(&[2, 3, 4, 5, 7, 16]),
        17 => stream.between(1, side),
        18 => stream.between(side, side.saturating_mul(2)),
        _ => stream.pick(&[65_536, 1 << 30, i32::MAX]),
    }
}

/// Two thresholds, the large one not below the small one.
fn thresholds(stream: &mut Stream, side: i32) -> (i32, i32) {
    let one = |stream: &mut Stream| match stream.below(8) {
        0 => stream.pick(&[i32::MIN, -1_000, -1, 0, 1]),
        1 => stream.pick(&[i32::MAX, i32::MAX - 1, 65_536, 65_537]),
        2 => side.saturating_add(stream.between(-1, 1)),
        _ => stream.between(0, side / 2 + 1),
    };
    let small = one(stream);
    let large = if stream.below(6) == 0 { small } else { one(stream) };
    (small.min(large), small.max(large))
}

/// A valid setup, with sides from `least` on.
pub fn setup(stream: &mut Stream, least: i32) -> Setup {
    let (width, height) = (side(stream, least), side(stream, least));
    let (small, large) = if stream.below(4) == 0 { (32, 256) } else { thresholds(stream, width.min(height)) };
    // A crowd does not fit where sides are rounded up far.
    let (align_width, align_height) =
        if least > 1 { (1, stream.pick(&[1, 2])) } else { (alignment(stream, width), alignment(stream, height)) };
    Setup { width, height, options: Options { align_width, align_height, small, large } }
}

/// The side, or 1 where rounding it up would leave i32.
fn roundable(alignment: i32, side: i32) -> i32 {
    let (step, length) = (i64::from(alignment), i64::from(side));
    if (length + step - 1) / step * step > i64::from(i32::MAX) {
        1
    } else {
        side
    }
}

/// One day of both sides.
struct Day {
    beside: Beside,
    stream: Stream,
    trail: Trail,
    live: Vec<u32>,
    /// How many rectangles the day is to keep.
    keep: usize,
    least: i32,
}

impl Day {
    fn make(&mut self, call: Call) -> Vec<u32> {
        self.trail.step(call);
        self.beside.make(call)
    }

    /// Frees one, or begins anew where a list would be swept.
    fn free(&mut self, place: usize) {
        if !self.beside.has_entries() {
            return self.begin();
        }
        let ticket = self.live.swap_remove(place);
        self.make(Call::Deallocate(ticket));
    }

    /// The rectangle of a Free slot that some entry names.
    fn some_free(&mut self) -> Option<(i32, i32)> {
        let seen = &self.beside.seen;
        let entries = seen.lists.concat();
        if entries.is_empty() {
            return None;
        }
        let slot = seen.at(self.stream.pick(&entries));
        slot.is_free().then(|| (slot.rect.width(), slot.rect.height()))
    }

    /// A size to ask for: as large as lets the day keep its rectangles; or one that fits a Free slot on one side or both; or up to the whole
    /// sheet; or more than it; or a side of 0 or less.
    fn request(&mut self) -> (i32, i32) {
        let size = self.beside.seen.size;
        let share = (self.keep as f64).sqrt().ceil() as i32;
        let stream = &mut self.stream;
        let filling = self.least > 1 && self.live.len() < self.keep / 2;
        let (width, height) = match stream.below(if filling { 4_000 } else { 40 }) {
            0 => (size.width, size.height),
            1 => (stream.between(1, size.width), size.height),
            2 => (size.width, stream.between(1, size.height)),
            3 => (stream.between(1, size.width), stream.between(1, size.height)),
            4 => (stream.between(1, size.width.saturating_mul(3)), stream.between(1, size.height.saturating_mul(3))),
            5 if stream.below(3) == 0 => {
                (stream.pick(&[0, 1, -1, i32::MIN, i32::MAX]), stream.pick(&[0, 1, i32::MIN, i32::MAX]))
            }
            5..=14 => match (stream.below(4), self.some_free()) {
                (0, Some((width, height))) => (width, height),
                (1, Some((width, height))) => (self.stream.between(1, width), height),
                (2, Some((width, height))) => (width, self.stream.between(1, height)),
                (_, Some((width, height))) => (self.stream.between(1, width), self.stream.between(1, height)),
                (_, None) => (1, 1),
            },
            _ => (stream.between(1, (size.width / share).max(1)), stream.between(1, (size.height / share).max(1))),
        };
        let alignment = self.beside.seen.options.alignment;
        (roundable(alignment.width, width), roundable(alignment.height, height))
    }

    fn allocate(&mut self) {
        let (width, height) = self.request();
        let told = self.make(Call::Allocate(width, height));
        if told[0] == 0 {
            self.live.push(told[1]);
        }
    }

    /// A size not below the present one, within the range: mostly near, and at times far.
    fn grow(&mut self) {
        let size = self.beside.seen.size;
        let most = self.stream.pick(&[1, 1, 5, 40, 65_536, LONGEST]);
        let mut longer = |side: i32| match self.stream.below(3) {
            0 => side,
            _ => self.stream.between(side, side.saturating_add(most)),
        };
        let (width, height) = (longer(size.width), longer(size.height));
        self.make(Call::Grow(width, height));
    }

    /// Frees everything: in the order of taking, against it, or in none.
    fn free_all(&mut self) {
        let order = self.stream.below(3);
        while !self.live.is_empty() {
            let last = self.live.len() - 1;
            match order {
                0 => self.live.rotate_left(1),
                1 => {}
                _ => self.live.swap(last, self.stream.below(last as u32 + 1) as usize),
            }
            self.free(last);
        }
    }

    /// Clears, or resets, and drops the tickets.
    fn begin(&mut self) {
        let call = match self.stream.below(2) {
            0 => Call::Clear,
            _ => Call::Reset(setup(&mut self.stream, self.least)),
        };
        self.make(call);
        self.live.clear();
    }

    /// One call, or all that a turn takes.
    fn turn(&mut self) {
        let choice = self.stream.below(1_000);
        let crowded = self.live.len() >= self.keep;
        if !self.beside.has_entries() || !self.beside.has_slots() && self.live.is_empty() {
            self.begin();
        } else if !self.beside.has_slots() && choice < 900 {
            let place = self.stream.below(self.live.len() as u32) as usize;
            self.free(place);
        } else if !self.beside.has_slots() {
            self.free_all();
        } else if choice < 25 {
            self.grow();
        } else if choice < 27 && self.least == 1 {
            self.begin();
        } else if choice < 31 && self.live.len() < 200 {
            self.free_all();
        } else if choice < 60 && !self.live.is_empty() {
            let ticket = self.stream.pick(&self.live);
            self.make(Call::Lookup(ticket));
        } else if choice < 65 {
            self.trail.calls += 2;
            self.beside.list();
        } else if self.live.is_empty() || self.stream.below(100) < if crowded { 35 } else { 70 } {
            self.allocate();
        } else {
            let place = self.stream.below(self.live.len() as u32) as usize;
            self.free(place);
        }
    }
}

/// The tables of a day: their slots and entries, and how many calls are made. Few are large, since each call reads all of them.
fn tables(stream: &mut Stream) -> (usize, usize, usize) {
    let slots = match stream.below(200) {
        0 => 4_096,
        1..=6 => 512,
        7..=60 => 128,
        _ => stream.between(5, 64) as usize,
    };
    let entries = stream.pick(&[slots, 4 * slots, 16_384]).clamp(slots.max(32), 16_384);
    let calls = match stream.below(20) {
        _ if slots >= 512 => 3 * slots,
        0 => 4_000,
        _ => stream.between(20, 600) as usize,
    };
    (slots, entries, calls)
}

/// The day of this seed. At its end everything is freed, and the whole sheet taken and freed.
pub fn day(seed: u64) -> Counts {
    let mut stream = Stream::new(seed);
    let (slots, entries, calls) = tables(&mut stream);
    let least = if slots < 512 { 1 } else { 600 };
    let setup = setup(&mut stream, least);
    let beside = Beside::start(setup, slots, entries, stream.word() as u8);
    let trail = Trail::new("beside the crate", seed);
    let keep = if slots < 512 { stream.between(1, slots as i32 / 2) as usize } else { slots / 2 };
    let mut day = Day { beside, stream, trail, live: Vec::new(), keep, least };
    while day.trail.calls < calls {
        day.turn();
    }
    day.beside.list();
    day.free_all();
    let (size, alignment) = (day.beside.seen.size, day.beside.seen.options.alignment);
    let whole = (roundable(alignment.width, size.width), roundable(alignment.height, size.height));
    if day.beside.has_entries() && day.make(Call::Allocate(whole.0, whole.1))[0] == 0 {
        day.live = day.beside.tickets();
        day.free_all();
    }
    day.beside.counts
}
