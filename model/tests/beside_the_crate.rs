//! The model beside the crate itself, on random days within the premises of docs/ORACLE.md: after every call the slots,
//! generations, lists, root, spare chain and sheet are equal, and the model's audit says sound.

use model::calls::{allocate, clear, deallocate, grow, is_empty, list_alloc, list_free, lookup, reset, start};
use model::random::Stream;
use model::rules::audit;
use model::tables::{rect, Options, Rect, Tables, BUCKETS};
use oracle::view::state;
use oracle::{size2, AllocatorOptions, AtlasAllocator};

const SLOTS: usize = 400;
const ENTRIES: usize = 1_000;

fn crate_options(options: Options) -> AllocatorOptions {
    AllocatorOptions {
        alignment: size2(options.align_width, options.align_height),
        small_size_threshold: options.small,
        large_size_threshold: options.large,
    }
}

fn corners(place: &oracle::Rectangle) -> Rect {
    rect(place.min.x as u32, place.min.y as u32, place.max.x as u32, place.max.y as u32)
}

fn compare(tables: &Tables, atlas: &AtlasAllocator) {
    let seen = state(atlas);
    assert_eq!(tables.head.count as usize, seen.slots.len());
    for (number, slot) in seen.slots.iter().enumerate() {
        let place = corners(&slot.rect);
        let words = [slot.parent, slot.next, slot.prev, slot.code, place.x0, place.y0, place.x1, place.y1];
        assert_eq!(tables.words[8 * number..8 * number + 8], words, "slot {number}");
    }
    assert_eq!(tables.generations[..seen.generations.len()], seen.generations);
    for bucket in BUCKETS {
        assert_eq!(tables.entries(bucket), seen.lists[bucket], "bucket {bucket}");
    }
    assert_eq!((tables.head.root, tables.head.spare), (seen.root, seen.spare));
    assert_eq!((tables.head.width, tables.head.height), (seen.size.width, seen.size.height));
    assert_eq!(audit(tables), (0, 0));
    assert_eq!(is_empty(tables), (0, atlas.is_empty()));
}

fn setup(stream: &mut Stream) -> (i32, i32, Options) {
    let side = stream.pick(&[3, 12, 40, 300, 2_000]);
    let small = stream.between(-2, side / 2);
    let options = Options {
        align_width: stream.pick(&[1, 1, 1, 2, 3, 7]),
        align_height: stream.pick(&[1, 1, 1, 2, 5]),
        small,
        large: small + stream.between(0, side),
    };
    (stream.between(1, side), stream.between(1, side), options)
}

#[derive(Default, Debug)]
struct Counts {
    calls: usize,
    taken: usize,
    refused: usize,
    freed: usize,
    grown: usize,
    most_slots: u32,
}

fn day(seed: u64, steps: usize, counts: &mut Counts) {
    let mut stream = Stream::new(seed);
    let (width, height, options) = setup(&mut stream);
    let mut tables = Tables::zero(SLOTS, ENTRIES);
    assert_eq!(start(&mut tables, width, height, options), 0);
    let mut atlas = AtlasAllocator::with_options(size2(width, height), &crate_options(options));
    compare(&tables, &atlas);
    let keep = stream.between(1, 25) as usize;
    let mut live: Vec<u32> = Vec::new();
    for _ in 0..steps {
        let choice = stream.below(100);
        if choice < 4 {
            let (wider, taller) = (stream.pick(&[0, 0, 1, 5]), stream.pick(&[0, 0, 1, 4]));
            let (width, height) = (tables.head.width + wider, tables.head.height + taller);
            assert_eq!(grow(&mut tables, width, height), 0);
            atlas.grow(size2(width, height));
            counts.grown += 1;
        } else if choice == 4 && stream.below(10) == 0 {
            if stream.below(2) == 0 {
                assert_eq!(clear(&mut tables), 0);
                atlas.clear();
            } else {
                let (width, height, options) = setup(&mut stream);
                assert_eq!(reset(&mut tables, width, height, options), 0);
                atlas.reset(size2(width, height), &crate_options(options));
            }
            live.clear();
        } else if live.len() < keep && choice < 70 || live.is_empty() {
            let part = stream.pick(&[1, 2, 3, 5, 9]);
            let width = stream.between(-1 + i32::from(part > 1), (tables.head.width / part).max(1));
            let height = stream.between(i32::from(part > 1), (tables.head.height / part).max(1));
            let ours = allocate(&mut tables, width, height);
            match atlas.allocate(size2(width, height)) {
                Some(given) => {
                    assert_eq!(ours, (0, given.id.serialize(), corners(&given.rectangle)));
                    assert_eq!(lookup(&tables, ours.1), (0, corners(&atlas[given.id])));
                    live.push(ours.1);
                    counts.taken += 1;
                }
                None => {
                    let empty = width <= 0 || height <= 0;
                    assert_eq!(ours, (if empty { 4 } else { 6 }, 0, Rect::ZERO));
                    counts.refused += 1;
                }
            }
        } else {
            let ticket = live.swap_remove(stream.below(live.len() as u32) as usize);
            assert_eq!(deallocate(&mut tables, ticket), 0);
            atlas.deallocate(oracle::view::AllocId::deserialize(ticket));
            counts.freed += 1;
        }
        compare(&tables, &atlas);
        counts.calls += 1;
        counts.most_slots = counts.most_slots.max(tables.head.count);
    }
    listings(&tables, &atlas);
}

fn listings(tables: &Tables, atlas: &AtlasAllocator) {
    let mut taken = Vec::new();
    atlas.for_each_allocated_rectangle(|id, place| taken.push((id.serialize(), corners(place))));
    let mut lent = vec![(0, Rect::ZERO); taken.len()];
    assert_eq!(list_alloc(tables, &mut lent), (0, taken.len() as u32));
    assert_eq!(lent, taken);
    let mut free = Vec::new();
    atlas.for_each_free_rectangle(|place| free.push(corners(place)));
    let mut lent = vec![Rect::ZERO; free.len()];
    assert_eq!(list_free(tables, &mut lent), (0, free.len() as u32));
    assert_eq!(lent, free);
}

#[test]
fn random_days() {
    let mut counts = Counts::default();
    for seed in 1..=600 {
        day(seed, 100, &mut counts);
    }
    for seed in 601..=610 {
        day(seed, 400, &mut counts);
    }
    println!("{counts:?}");
    assert!(counts.calls >= 60_000 && counts.taken > 20_000 && counts.freed > 20_000 && counts.grown > 2_000);
}
