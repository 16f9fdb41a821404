//! The steps under allocate and deallocate, one at a time: new slots, spare slots and pushes.

use oracle::view::{self, steps, NONE};
use oracle::{size2, AtlasAllocator, DEFAULT_OPTIONS};

#[test]
fn a_new_slot_is_appended_or_the_head_of_the_spare_chain() {
    let mut atlas = AtlasAllocator::with_options(size2(10, 10), &DEFAULT_OPTIONS);
    assert_eq!([1, 2, 3].map(|_| steps::new_node(&mut atlas)), [1, 2, 3]);
    let state = view::state(&atlas);
    assert_eq!((state.slots.len(), state.spare), (4, NONE));
    assert_eq!(state.generations, [0, 0, 0, 0]);
}

#[test]
fn marking_unused_writes_kind_and_next_only() {
    let mut atlas = AtlasAllocator::with_options(size2(10, 10), &DEFAULT_OPTIONS);
    let ticket = atlas.allocate(size2(4, 4)).unwrap().id.serialize();
    assert_eq!(ticket, 2);
    let before = view::state(&atlas);
    steps::mark_node_unused(&mut atlas, 3);
    steps::mark_node_unused(&mut atlas, 1);
    let after = view::state(&atlas);
    assert_eq!(after.spare, 1);
    for (slot, next) in [(1, 3), (3, NONE)] {
        let mut marked = *before.at(slot);
        marked.code += 3 - marked.code % 4;
        marked.next = next;
        assert_eq!(*after.at(slot), marked);
    }
    assert_eq!([1, 3, 4].map(|_| steps::new_node(&mut atlas)), [1, 3, 4]);
    assert_eq!(view::state(&atlas).generations, [0, 1, 0, 1, 0]);
}

#[test]
fn a_push_appends_to_the_bucket_of_the_size() {
    let mut atlas = AtlasAllocator::with_options(size2(300, 300), &DEFAULT_OPTIONS);
    for side in [31, 32, 255, 256] {
        steps::add_free_rect(&mut atlas, 0, size2(side, 1));
    }
    assert_eq!(view::state(&atlas).lists, [vec![0], vec![0, 0], vec![0, 0]]);
}
