//! Guillotiere's own tests (allocator.rs of guillotiere 0.7.0, by Nicolas Silva; NOTICE has its licences), with `use` changed. Bodies are as they
//! are there, but for their layout and one print of private fields at the end of `atlas_random_test`. Three need `SimpleAtlasAllocator`, which is
//! not here: `simple_atlas`, `allocate_zero` and `allocate_negative`. The last two stand here with `AtlasAllocator` in its place.

use ferrunchju::*;

#[test]
fn atlas_basic() {
    let mut atlas = AtlasAllocator::new(size2(1000, 1000));

    let full = atlas.allocate(size2(1000, 1000)).unwrap().id;
    assert!(atlas.allocate(size2(1, 1)).is_none());

    atlas.deallocate(full);

    let a = atlas.allocate(size2(100, 1000)).unwrap().id;
    let b = atlas.allocate(size2(900, 200)).unwrap().id;
    let c = atlas.allocate(size2(300, 200)).unwrap().id;
    let d = atlas.allocate(size2(200, 300)).unwrap().id;
    let e = atlas.allocate(size2(100, 300)).unwrap().id;
    let f = atlas.allocate(size2(100, 300)).unwrap().id;
    let g = atlas.allocate(size2(100, 300)).unwrap().id;

    atlas.deallocate(b);
    atlas.deallocate(f);
    atlas.deallocate(c);
    atlas.deallocate(e);
    let h = atlas.allocate(size2(500, 200)).unwrap().id;
    atlas.deallocate(a);
    let i = atlas.allocate(size2(500, 200)).unwrap().id;
    atlas.deallocate(g);
    atlas.deallocate(h);
    atlas.deallocate(d);
    atlas.deallocate(i);

    let full = atlas.allocate(size2(1000, 1000)).unwrap().id;
    assert!(atlas.allocate(size2(1, 1)).is_none());
    atlas.deallocate(full);
}

#[test]
fn atlas_random_test() {
    let mut atlas = AtlasAllocator::with_options(
        size2(1000, 1000),
        &AllocatorOptions { alignment: size2(5, 2), ..DEFAULT_OPTIONS },
    );

    let a = 1103515245;
    let c = 12345;
    let m = usize::pow(2, 31);
    let mut seed: usize = 37;

    let mut rand = || {
        seed = (a * seed + c) % m;
        seed
    };

    let mut n: usize = 0;
    let mut misses: usize = 0;

    let mut allocated = Vec::new();
    for _ in 0..500000 {
        if rand() % 5 > 2 && !allocated.is_empty() {
            // deallocate something
            let nth = rand() % allocated.len();
            let id = allocated[nth];
            allocated.remove(nth);

            atlas.deallocate(id);
        } else {
            // allocate something
            let size = size2((rand() % 300) as i32 + 5, (rand() % 300) as i32 + 5);

            if let Some(alloc) = atlas.allocate(size) {
                allocated.push(alloc.id);
                n += 1;
            } else {
                misses += 1;
            }
        }
    }

    while let Some(id) = allocated.pop() {
        atlas.deallocate(id);
    }

    std::println!("added/removed {} rectangles, {} misses", n, misses);

    // Not in guillotiere's body: how often guillotiere itself says yes and no on this run.
    assert_eq!((n, misses), (200_261, 99_509));

    let full = atlas.allocate(size2(1000, 1000)).unwrap().id;
    assert!(atlas.allocate(size2(1, 1)).is_none());
    atlas.deallocate(full);
}

#[test]
fn test_grow() {
    let mut atlas = AtlasAllocator::new(size2(1000, 1000));

    atlas.grow(size2(2000, 2000));

    let full = atlas.allocate(size2(2000, 2000)).unwrap().id;
    assert!(atlas.allocate(size2(1, 1)).is_none());
    atlas.deallocate(full);

    let a = atlas.allocate(size2(100, 100)).unwrap().id;

    atlas.grow(size2(3000, 3000));

    let b = atlas.allocate(size2(1000, 2900)).unwrap().id;

    atlas.grow(size2(4000, 4000));

    atlas.deallocate(b);
    atlas.deallocate(a);

    let full = atlas.allocate(size2(4000, 4000)).unwrap().id;
    assert!(atlas.allocate(size2(1, 1)).is_none());
    atlas.deallocate(full);
}

#[test]
fn clear_empty() {
    let mut atlas = AtlasAllocator::new(size2(1000, 1000));

    assert!(atlas.is_empty());

    assert!(atlas.allocate(size2(10, 10)).is_some());
    assert!(!atlas.is_empty());

    atlas.clear();
    assert!(atlas.is_empty());

    let a = atlas.allocate(size2(10, 10)).unwrap().id;
    let b = atlas.allocate(size2(20, 20)).unwrap().id;
    assert!(!atlas.is_empty());

    atlas.deallocate(b);
    atlas.deallocate(a);
    assert!(atlas.is_empty());

    atlas.clear();
    assert!(atlas.is_empty());

    atlas.clear();
    assert!(atlas.is_empty());
}

#[test]
fn allocate_zero() {
    let mut atlas = AtlasAllocator::new(size2(1000, 1000));

    assert!(atlas.allocate(size2(0, 0)).is_none());
}

#[test]
fn allocate_negative() {
    let mut atlas = AtlasAllocator::new(size2(1000, 1000));

    assert!(atlas.allocate(size2(-1, 1)).is_none());
    assert!(atlas.allocate(size2(1, -1)).is_none());
    assert!(atlas.allocate(size2(-1, -1)).is_none());

    assert!(atlas.allocate(size2(-167114179, -718142)).is_none());
}

#[test]
fn issue_25() {
    let mut allocator = AtlasAllocator::new(Size::new(65536, 65536));
    allocator.allocate(Size::new(2, 2));
    allocator.allocate(Size::new(65500, 2));
    allocator.allocate(Size::new(2, 65500));
}

#[test]
fn grow_free_list_bucket() {
    // Regression test: growing a free node in-place must move it to the correct
    // free list bucket, otherwise allocations searching a higher bucket won't find it.

    let mut atlas = AtlasAllocator::with_options(
        size2(100, 100),
        &AllocatorOptions { small_size_threshold: 32, large_size_threshold: 256, ..DEFAULT_OPTIONS },
    );

    // Allocate most of the atlas, leaving a thin free strip along the bottom.
    // The strip's min dimension (10) is below small_size_threshold (32), so it
    // lands in the SMALL_BUCKET.
    let a = atlas.allocate(size2(100, 90)).unwrap().id;

    // Grow the atlas so that the free strip extends from 10 to 1010 pixels tall.
    // Its min dimension is now 100 (>= small_threshold), so it should move out of
    // SMALL_BUCKET. Before the fix it stayed in SMALL_BUCKET and large allocations
    // could not find it.
    atlas.grow(size2(100, 1100));

    // This allocation needs a rect of 100x500. The ideal bucket is LARGE_BUCKET
    // (500 >= 256). Without the bucket fix the 100x1010 free strip would still be
    // in SMALL_BUCKET and this allocation would fail.
    assert!(atlas.allocate(size2(100, 500)).is_some(), "Should find the grown free strip in the correct bucket");

    atlas.deallocate(a);

    // Also test the single-root early-return path in grow().
    let mut atlas2 = AtlasAllocator::with_options(
        size2(20, 20),
        &AllocatorOptions { small_size_threshold: 32, large_size_threshold: 256, ..DEFAULT_OPTIONS },
    );
    // Atlas is a single free root node in SMALL_BUCKET (20 < 32).
    // Grow it past the large threshold.
    atlas2.grow(size2(512, 512));

    // Allocate something that searches LARGE_BUCKET.
    assert!(atlas2.allocate(size2(500, 500)).is_some(), "Single-root grow should update the free list bucket");
}
