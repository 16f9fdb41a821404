//! Each refusal from outside, the panics that guillotiere has asserts for, and the paper's ledger.

use ferrunchju::*;
use std::panic::{catch_unwind, AssertUnwindSafe};

fn thousand() -> AtlasAllocator {
    AtlasAllocator::new(size2(1000, 1000))
}

fn corners(x0: i32, y0: i32, x1: i32, y1: i32) -> Rectangle {
    Rectangle::new(point2(x0, y0), point2(x1, y1))
}

/// The words that a call panics with.
fn panic_of(call: impl FnOnce()) -> String {
    let panic = catch_unwind(AssertUnwindSafe(call)).expect_err("a panic");
    panic.downcast_ref::<String>().expect("words").clone()
}

/// The sheet as anyone can see it.
fn seen(atlas: &AtlasAllocator) -> (Size, Vec<Allocation>, Vec<Rectangle>) {
    (
        atlas.size(),
        atlas.try_allocated_rectangles().expect("a listing"),
        atlas.try_free_rectangles().expect("a listing"),
    )
}

#[test]
fn capacities() {
    let with = |slots, entries| AtlasAllocator::try_with_capacity(size2(10, 10), &DEFAULT_OPTIONS, slots, entries);
    for (slots, entries) in [(0, 0), (0, 16_384), (4_097, 16_384), (16, 15), (16, 16_385), (usize::MAX, usize::MAX)] {
        assert_eq!(with(slots, entries).err(), Some(Refusal::TableLength), "{slots} slots, {entries} entries");
    }
    for (slots, entries) in [(1, 1), (1, 16_384), (4_096, 4_096), (4_096, 16_384)] {
        assert_eq!(with(slots, entries).expect("an allocator").capacity(), (slots, entries));
    }
    assert_eq!(thousand().capacity(), (4_096, 16_384));
}

#[test]
fn setups() {
    let of = |size, options| AtlasAllocator::try_with_options(size, &options).err();
    let ten = size2(10, 10);
    for size in [size2(0, 10), size2(10, 0), size2(-1, 10), size2(10, i32::MIN)] {
        assert_eq!(of(size, DEFAULT_OPTIONS), Some(Refusal::InvalidSetup));
        assert_eq!(panic_of(|| drop(AtlasAllocator::new(size))), Refusal::InvalidSetup.to_string());
    }
    for alignment in [size2(0, 1), size2(1, 0), size2(1, -5)] {
        assert_eq!(of(ten, AllocatorOptions { alignment, ..DEFAULT_OPTIONS }), Some(Refusal::InvalidSetup));
    }
    assert_eq!(of(ten, AllocatorOptions { small_size_threshold: 257, ..DEFAULT_OPTIONS }), Some(Refusal::InvalidSetup));
    assert_eq!(of(ten, AllocatorOptions { small_size_threshold: 256, ..DEFAULT_OPTIONS }), None);
    for side in [1, 65_536, 65_537, i32::MAX] {
        assert_eq!(of(size2(side, side), DEFAULT_OPTIONS), None);
    }
}

/// A reset that is refused leaves all as it was.
#[test]
fn reset_refused() {
    let mut atlas = thousand();
    atlas.allocate(size2(100, 1000)).unwrap();
    let before = seen(&atlas);
    assert_eq!(atlas.try_reset(size2(0, 5), &DEFAULT_OPTIONS), Err(Refusal::InvalidSetup));
    assert_eq!(seen(&atlas), before);
    assert_eq!(panic_of(|| atlas.reset(size2(0, 5), &DEFAULT_OPTIONS)), Refusal::InvalidSetup.to_string());
    atlas.reset(size2(20, 5), &DEFAULT_OPTIONS);
    assert_eq!(seen(&atlas), (size2(20, 5), vec![], vec![corners(0, 0, 20, 5)]));
}

#[test]
fn requests() {
    let mut atlas =
        AtlasAllocator::with_options(size2(10, 10), &AllocatorOptions { alignment: size2(2, 1), ..DEFAULT_OPTIONS });
    for (size, refusal) in [
        (size2(0, 1), Refusal::NotPositive),
        (size2(1, 0), Refusal::NotPositive),
        (size2(i32::MIN, i32::MIN), Refusal::NotPositive),
        (size2(i32::MAX, 1), Refusal::TooLarge),
        (size2(1, i32::MAX), Refusal::NoSpace),
        (size2(11, 1), Refusal::NoSpace),
    ] {
        assert_eq!(atlas.try_allocate(size), Err(refusal));
        assert_eq!(atlas.allocate(size), None);
    }
    assert!(atlas.is_empty());
}

/// The paper: 10×10 with N = 1 is taken; 10×4 needs N = 2; 5×10 needs 3; 4×4 needs 4; 3×6 needs 5.
#[test]
fn slots_needed() {
    for (size, slots) in [(size2(10, 10), 1), (size2(10, 4), 2), (size2(5, 10), 3), (size2(4, 4), 4), (size2(3, 6), 5)]
    {
        let with = |slots| AtlasAllocator::with_capacity(size2(10, 10), &DEFAULT_OPTIONS, slots, 16);
        assert!(with(slots).allocate(size).is_some());
        if slots > 1 {
            let mut short = with(slots - 1);
            assert_eq!(short.try_allocate(size), Err(Refusal::NoSlots));
            assert_eq!(short.allocate(size), None);
            assert!(short.is_empty());
        }
    }
}

#[test]
fn tickets() {
    let mut atlas = thousand();
    let a = atlas.allocate(size2(100, 1000)).unwrap();
    let b = atlas.allocate(size2(900, 200)).unwrap();
    let no = AllocId::deserialize;
    for (id, refusal) in [
        (no(5_000), Refusal::NoSuchSlot),
        (no(u32::MAX), Refusal::NoSuchSlot),
        (no(a.id.serialize() + (1 << 24)), Refusal::OtherGeneration),
        (no(0), Refusal::NotAllocated),
        (no(3), Refusal::NotAllocated),
    ] {
        assert_eq!(atlas.try_get(id), Err(refusal));
        assert_eq!(
            panic_of(|| {
                let _rectangle = atlas[id];
            }),
            refusal.to_string()
        );
        assert_eq!(atlas.try_deallocate(id), Err(refusal));
        assert_eq!(panic_of(|| atlas.deallocate(id)), refusal.to_string());
    }
    assert_eq!(atlas[a.id], a.rectangle);
    assert_eq!(atlas.try_get(b.id), Ok(b.rectangle));
    atlas.deallocate(b.id);
    assert_eq!(atlas.try_deallocate(b.id).map_err(Refusal::number), Err(10));
}

/// Grow is refused by 11, then 7, and leaves all as it was.
#[test]
fn growing() {
    let mut atlas = AtlasAllocator::with_capacity(size2(10, 10), &DEFAULT_OPTIONS, 3, 3);
    let a = atlas.allocate(size2(5, 10)).unwrap();
    let before = seen(&atlas);
    for (size, refusal) in [
        (size2(9, 10), Refusal::Smaller),
        (size2(i32::MAX, 9), Refusal::Smaller),
        (size2(-1, -1), Refusal::Smaller),
        (size2(20, 20), Refusal::NoSlots),
    ] {
        assert_eq!(atlas.try_grow(size), Err(refusal), "{size:?}");
        assert_eq!(panic_of(|| atlas.grow(size)), refusal.to_string());
        assert_eq!(seen(&atlas), before);
    }
    atlas.grow(size2(10, 10));
    atlas.deallocate(a.id);
    atlas.grow(size2(i32::MAX, i32::MAX));
    assert!(atlas.is_empty());
    assert_eq!(seen(&atlas).2, [corners(0, 0, i32::MAX, i32::MAX)]);
}

/// A ticket keeps all 32 bits on its way through a number.
#[test]
fn tickets_as_numbers() {
    for number in [0, 2, 16_777_221, 0xFF00_0FFF, u32::MAX] {
        assert_eq!(AllocId::deserialize(number).serialize(), number);
    }
    let mut atlas = thousand();
    atlas.allocate(size2(100, 1000)).unwrap();
    for _ in 0..300 {
        let a = atlas.allocate(size2(500, 200)).unwrap();
        let again = AllocId::deserialize(a.id.serialize());
        assert_eq!(atlas[again], a.rectangle);
        atlas.deallocate(again);
        assert!(atlas.try_get(a.id).is_err());
    }
}

/// The ledger's first days.
#[test]
fn ledger() {
    let mut atlas = thousand();
    let take = |atlas: &mut AtlasAllocator, w, h| {
        let got = atlas.try_allocate(size2(w, h))?;
        Ok((got.id.serialize(), got.rectangle))
    };
    assert_eq!(take(&mut atlas, 100, 1000), Ok((2, corners(0, 0, 100, 1000))));
    assert_eq!(take(&mut atlas, 900, 200), Ok((4, corners(100, 0, 1000, 200))));
    assert_eq!(take(&mut atlas, 300, 200), Ok((6, corners(100, 200, 400, 400))));
    assert_eq!(take(&mut atlas, 1000, 1), Err(Refusal::NoSpace));
    let mut listed = Vec::new();
    atlas.for_each_allocated_rectangle(|id, rectangle| listed.push((id.serialize(), *rectangle)));
    assert_eq!(
        listed,
        [(2, corners(0, 0, 100, 1000)), (4, corners(100, 0, 1000, 200)), (6, corners(100, 200, 400, 400))]
    );
    let mut free = Vec::new();
    atlas.for_each_free_rectangle(|rectangle| free.push(*rectangle));
    assert_eq!(free, [corners(100, 400, 1000, 1000), corners(400, 200, 1000, 400)]);
    let other = atlas.clone();
    atlas.deallocate(AllocId::deserialize(4));
    atlas.deallocate(AllocId::deserialize(6));
    assert_eq!(take(&mut atlas, 500, 200), Ok((16_777_221, corners(100, 0, 600, 200))));
    assert_eq!(atlas.check(), Ok(()));
    assert_eq!(seen(&other).1.len(), 3);
}

/// 100×100, grow to 3000×3000; then 1000×2900: ticket 1.
#[test]
fn ledger_of_grow() {
    let mut atlas = thousand();
    let a = atlas.allocate(size2(100, 100)).unwrap();
    atlas.grow(size2(3000, 3000));
    assert_eq!(atlas.size(), size2(3000, 3000));
    let free = seen(&atlas).2;
    assert!(free.contains(&corners(0, 100, 1000, 3000)) && free.contains(&corners(1000, 0, 3000, 3000)));
    assert_eq!(atlas[a.id], a.rectangle);
    assert_eq!(atlas.allocate(size2(1000, 2900)).unwrap().id.serialize(), 1);
    assert_eq!(atlas.check(), Ok(()));
}

/// Full and empty again, with the rectangles covering the sheet on the way.
#[test]
fn full_and_empty_again() {
    let mut atlas = AtlasAllocator::with_capacity(size2(64, 64), &DEFAULT_OPTIONS, 64, 64);
    let mut ids = Vec::new();
    let refusal = loop {
        match atlas.try_allocate(size2(7, 9)) {
            Ok(allocation) => ids.push(allocation.id),
            Err(refusal) => break refusal,
        }
        let (_, allocated, free) = seen(&atlas);
        let area = |rectangles: &[Rectangle]| rectangles.iter().map(Rectangle::area).sum::<i32>();
        let taken: Vec<Rectangle> = allocated.iter().map(|allocation| allocation.rectangle).collect();
        assert_eq!(area(&taken) + area(&free), 64 * 64);
    };
    assert!(matches!(refusal, Refusal::NoSpace | Refusal::NoSlots));
    for id in ids {
        atlas.deallocate(id);
    }
    assert!(atlas.is_empty());
    assert_eq!(seen(&atlas).2, [corners(0, 0, 64, 64)]);
}
