//! The leaf vectors at the head of the list: buckets, roundings and cuts as the crate works them out.

use crate::premises::{candidate_areas, MOST_AREA};
use crate::random::Stream;
use crate::record::{corners, tag, List};
use crate::view::leaves::{adjust_size, free_list_for_size, guillotine_rect};
use crate::{point2, size2, Rectangle};

const MOST: i32 = i32::MAX;

pub fn write(list: &mut List) {
    buckets(list);
    roundings(list);
    cuts(list);
}

/// Either side decides, at each threshold and just below it.
fn buckets(list: &mut List) {
    let thresholds =
        [(32, 256), (0, 0), (-5, -1), (-5, 40), (7, 7), (i32::MIN, MOST), (MOST, MOST), (i32::MIN, i32::MIN)];
    let sides = [1, 6, 7, 31, 32, 255, 256, 65_536, MOST];
    for (small, large) in thresholds {
        for width in sides {
            for height in sides {
                let bucket = free_list_for_size(small, large, size2(width, height));
                list.line(tag::BUCKET_OF, &[small as u32, large as u32, width as u32, height as u32, bucket as u32]);
            }
        }
    }
}

/// Roundings that stay within an i32.
fn roundings(list: &mut List) {
    for alignment in [1, 2, 3, 5, 7, 64, 1_000, 65_536, 1 << 30, MOST - 1, MOST] {
        for side in [1, 2, 3, 4, 5, 6, 7, 10, 63, 64, 65, 999, 65_535, 65_536, MOST - 1, MOST] {
            let (step, length) = (i64::from(alignment), i64::from(side));
            if (length + step - 1) / step * step <= i64::from(MOST) {
                let rounded = adjust_size(alignment, side);
                list.line(tag::ROUNDING, &[alignment as u32, side as u32, rounded as u32]);
            }
        }
    }
}

/// One cut, on each orientation.
fn cut(list: &mut List, chosen: Rectangle, width: i32, height: i32) {
    for orientation in [0, 1] {
        let (split, leftover, cut) = guillotine_rect(chosen, size2(width, height), orientation);
        let mut words = corners(&chosen).to_vec();
        words.extend([width as u32, height as u32, orientation]);
        words.extend(corners(&split));
        words.extend(corners(&leftover));
        words.push(cut);
        list.line(tag::CUT, &words);
    }
}

fn at(x: i32, y: i32, width: i32, height: i32) -> Rectangle {
    Rectangle { min: point2(x, y), max: point2(x + width, y + height) }
}

/// All cuts of two small rectangles, some drawn ones, and large ones: with one area above the crate's cap and the other below it, and with
/// both above it, which makes them equal.
fn cuts(list: &mut List) {
    for chosen in [at(0, 0, 3, 3), at(5, 9, 4, 2)] {
        for width in 1..=chosen.width() {
            for height in 1..=chosen.height() {
                cut(list, chosen, width, height);
            }
        }
    }
    let mut stream = Stream::new(22);
    for _ in 0..60 {
        let (width, height) = (stream.between(1, 2_000), stream.between(1, 2_000));
        let chosen = at(stream.between(0, 60_000), stream.between(0, 60_000), width, height);
        cut(list, chosen, stream.between(1, width), stream.between(1, height));
    }
    let sheet = at(0, 0, 65_536, 65_536);
    let large = [(65_536, 65_536), (65_536, 32_768), (32_768, 65_536), (1, 1), (65_535, 65_535), (32_768, 32_768)];
    for (width, height) in large {
        cut(list, sheet, width, height);
    }
    for (width, height) in [(1_000, 60_000), (60_000, 1_000), (2, 65_500), (65_500, 2), (1, 65_535), (65_535, 1)] {
        let (right, bottom) = candidate_areas(&sheet, size2(width, height));
        assert!(right.max(bottom) > MOST_AREA && right.min(bottom) < MOST_AREA);
        cut(list, sheet, width, height);
    }
    for chosen in [at(0, 0, MOST, MOST), at(7, 9, 200_000, 200_000)] {
        for (width, height) in [(60_000, 50_000), (50_000, 60_000), (65_536, 65_536), (99_999, 50_000)] {
            let (right, bottom) = candidate_areas(&chosen, size2(width, height));
            assert!(right.min(bottom) > MOST_AREA);
            cut(list, chosen, width, height);
        }
    }
}
