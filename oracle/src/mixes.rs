//! Mixes drawn from seeded streams: allocations, deallocations, grows, clears and resets on small and middle sheets,
//! under many thresholds and alignments. Each ends with every ticket given back in a drawn order, and with the sheet
//! taken whole.

use crate::day::Day;
use crate::days::options;
use crate::random::Stream;
use crate::record::List;
use crate::{size2, AllocatorOptions, Size};

/// One mix: a seed, a sheet, options, the number of drawn calls, the longest side asked for, and how many in a hundred
/// calls give a ticket back and how many grow the sheet.
struct Mix {
    seed: u64,
    sheet: (i32, i32),
    alignment: (i32, i32),
    thresholds: (i32, i32),
    calls: usize,
    longest: i32,
    frees: usize,
    grows: usize,
}

const fn mix(seed: u64, sheet: (i32, i32), thresholds: (i32, i32), calls: usize, longest: i32, frees: usize) -> Mix {
    Mix { seed, sheet, alignment: (1, 1), thresholds, calls, longest, frees, grows: 2 }
}

const fn aligned(alignment: (i32, i32), mix: Mix) -> Mix {
    Mix { alignment, ..mix }
}

const fn growing(grows: usize, mix: Mix) -> Mix {
    Mix { grows, ..mix }
}

const MIXES: &[Mix] = &[
    mix(1, (2, 2), (5, 9), 60, 2, 45),
    mix(2, (3, 3), (2, 3), 80, 3, 45),
    mix(3, (4, 4), (2, 4), 120, 3, 45),
    mix(4, (8, 8), (2, 4), 160, 5, 45),
    mix(5, (16, 16), (4, 8), 150, 8, 42),
    mix(6, (16, 16), (4, 8), 150, 4, 40),
    mix(7, (32, 9), (5, 9), 110, 9, 45),
    mix(8, (9, 32), (5, 9), 110, 9, 45),
    mix(9, (100, 100), (32, 256), 100, 60, 42),
    mix(10, (100, 100), (10, 40), 140, 50, 42),
    mix(11, (100, 100), (10, 40), 160, 25, 36),
    mix(12, (300, 200), (32, 256), 100, 120, 42),
    mix(13, (1000, 1000), (32, 256), 160, 300, 42),
    mix(14, (1000, 1000), (32, 256), 100, 300, 38),
    mix(15, (1000, 100), (32, 256), 120, 150, 45),
    mix(16, (40_000, 40_000), (32, 256), 100, 9_000, 42),
    mix(17, (100, 100), (-5, -1), 60, 50, 42),
    mix(18, (100, 100), (-5, 0), 40, 50, 42),
    mix(19, (100, 100), (0, 0), 40, 50, 42),
    mix(20, (100, 100), (0, 30), 60, 50, 42),
    mix(21, (100, 100), (-7, 30), 60, 50, 42),
    mix(22, (100, 100), (20, 20), 80, 50, 42),
    mix(23, (100, 100), (1, 1), 40, 50, 42),
    mix(24, (100, 100), (32, i32::MAX), 60, 50, 42),
    mix(25, (100, 100), (i32::MAX, i32::MAX), 60, 50, 42),
    mix(26, (100, 100), (i32::MIN, i32::MAX), 60, 50, 42),
    mix(27, (100, 100), (i32::MIN, i32::MIN), 40, 50, 42),
    aligned((5, 2), mix(28, (1000, 1000), (32, 256), 140, 300, 42)),
    aligned((7, 3), mix(29, (210, 210), (32, 100), 120, 80, 42)),
    aligned((7, 3), mix(30, (100, 100), (10, 40), 120, 40, 42)),
    aligned((64, 64), mix(31, (1024, 1024), (32, 256), 140, 200, 42)),
    aligned((64, 64), mix(32, (1000, 1000), (100, 400), 100, 200, 42)),
    aligned((1, 16), mix(33, (128, 128), (16, 64), 100, 60, 42)),
    aligned((3, 1), mix(34, (20, 20), (4, 9), 100, 7, 44)),
    growing(15, mix(35, (3, 3), (3, 5), 120, 4, 45)),
    growing(12, mix(36, (10, 8), (6, 12), 100, 8, 45)),
    growing(12, mix(37, (8, 10), (9, 16), 100, 8, 48)),
    growing(12, mix(38, (40, 40), (20, 60), 80, 30, 45)),
    mix(39, (1000, 1000), (32, 256), 150, 150, 12),
];

/// A mix gives tickets back rather than take more slots than this, so that no call runs past the tables.
const CROWDED: usize = 250;

pub fn write(list: &mut List) {
    for mix in MIXES {
        run(list, mix);
    }
}

fn run(list: &mut List, mix: &Mix) {
    let given = options(mix.alignment, mix.thresholds);
    let mut stream = Stream::new(mix.seed);
    let mut day = Day::start(list, size2(mix.sheet.0, mix.sheet.1), &given);
    for call in 0..mix.calls {
        let tickets = day.tickets();
        let draw = stream.below(100);
        if !tickets.is_empty() && (draw < mix.frees || day.state().slots.len() >= CROWDED) {
            day.deallocate(tickets[stream.below(tickets.len())]);
        } else if draw >= 100 - mix.grows {
            grow(&mut day, &mut stream);
        } else if draw == 99 - mix.grows && call > mix.calls / 3 && call % 5 == 0 {
            clear_or_reset(&mut day, &mut stream, mix, &given);
        } else {
            let (width, height) = request(&day, &mut stream, mix.longest);
            day.allocate(width, height);
        }
    }
    end(&mut day, &mut stream, &given);
}

/// Grows by a little on no axis, either or both.
fn grow(day: &mut Day, stream: &mut Stream) {
    let size = day.size();
    let longer = |stream: &mut Stream, side: i32| match stream.below(3) {
        0 => side,
        _ => (side + stream.between(1, 1 + side / 4)).min(65_536),
    };
    let width = longer(stream, size.width);
    day.grow(width, longer(stream, size.height));
}

fn clear_or_reset(day: &mut Day, stream: &mut Stream, mix: &Mix, given: &AllocatorOptions) {
    if stream.below(2) == 0 {
        day.clear();
    } else {
        day.reset(size2(mix.sheet.1, mix.sheet.0), given);
    }
}

/// A request: mostly drawn sides, at times the sides of a Free slot, so that exact fits come up, and at times a side
/// that no sheet has.
fn request(day: &Day, stream: &mut Stream, longest: i32) -> (i32, i32) {
    let drawn = (stream.between(1, longest), stream.between(1, longest));
    let state = day.state();
    let free: Vec<Size> = state.slots.iter().filter(|slot| slot.is_free()).map(|slot| slot.rect.size()).collect();
    if free.is_empty() {
        return drawn;
    }
    let size = free[stream.below(free.len())];
    match stream.below(20) {
        0 | 1 => (size.width, size.height),
        2 | 3 => (size.width, drawn.1.min(size.height)),
        4 | 5 => (drawn.0.min(size.width), size.height),
        6 => (size.width + 1, size.height),
        7 if stream.below(4) == 0 => (-drawn.0, drawn.1 - 1),
        _ => drawn,
    }
}

/// Gives everything back in a drawn order; then one Free root is left, and the sheet can be taken whole, or as much of
/// it as the alignment allows.
fn end(day: &mut Day, stream: &mut Stream, given: &AllocatorOptions) {
    let mut tickets = day.tickets();
    while !tickets.is_empty() {
        day.deallocate(tickets.swap_remove(stream.below(tickets.len())));
    }
    assert!(day.is_empty());
    let size = day.size();
    assert_eq!(day.state().at(day.state().root).rect, size.into());
    let aligned = |alignment: i32, side: i32| side / alignment * alignment;
    let most = size2(aligned(given.alignment.width, size.width), aligned(given.alignment.height, size.height));
    let (_, place) = day.allocate(most.width, most.height).expect("the whole sheet is free");
    assert_eq!(place, most.into());
}
