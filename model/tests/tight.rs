//! Random days on tables without room to spare: lists are swept and slots run out, which the crate has no counterpart of. What
//! can be held against 01 from outside is: tables stay sound, refusals change what they may, places past the ends keep their
//! bytes, and freeing everything ends in one Free slot.

use model::bases::{nested, tickets};
use model::calls::{allocate, deallocate, grow, is_empty, start};
use model::random::Stream;
use model::rules::audit;
use model::steps::spare_slots;
use model::tables::{Options, Tables, BUCKETS};
use std::thread;

/// Places past n and past the lists' lengths are as before, where no push came: a call pushes at most twice to a list, and the
/// second push may sweep the first away.
fn rest_kept(before: &Tables, after: &Tables) {
    let used = before.head.count.max(after.head.count) as usize;
    assert_eq!(before.words[8 * used..], after.words[8 * used..]);
    assert_eq!(before.generations[used..], after.generations[used..]);
    for bucket in BUCKETS {
        let used = (before.head.lengths[bucket] as usize + 2).min(before.lists[bucket].len());
        assert_eq!(before.lists[bucket][used..], after.lists[bucket][used..]);
    }
}

/// Fills a list up with entries of any slots below n; dead ones and repeats are allowed.
fn fill(tables: &mut Tables, bucket: usize, stream: &mut Stream) {
    while (tables.head.lengths[bucket] as usize) < tables.lists[bucket].len() {
        tables.lists[bucket][tables.head.lengths[bucket] as usize] = stream.below(tables.head.count);
        tables.head.lengths[bucket] += 1;
    }
    assert_eq!(audit(tables), (0, 0));
}

/// After a sweep and the push: the pushed slot last, before it the first entries of the other Free slots, in the old order. The
/// pushed slot is the one Free slot that deallocate may add.
fn swept(before: &Tables, after: &Tables, bucket: usize) {
    let entries = after.entries(bucket);
    let (&pushed, kept) = entries.split_last().expect("a push");
    let mut expected: Vec<u32> = Vec::new();
    for &entry in before.entries(bucket) {
        if after.free().contains(&entry) && entry != pushed && !expected.contains(&entry) {
            expected.push(entry);
        }
    }
    assert_eq!(kept, expected);
    assert_eq!(after.lists[bucket][entries.len()..], before.lists[bucket][entries.len()..]);
}

#[derive(Debug, Default)]
struct Counts {
    calls: usize,
    /// Sweeps by deallocate, which pushes once.
    swept: usize,
    out_of_slots: usize,
}

fn day(seed: u64, counts: &mut Counts) {
    let mut stream = Stream::new(seed);
    let slots = stream.between(1, 14) as usize;
    let small = stream.between(-1, 9);
    let options = Options { align_width: 1, align_height: 1, small, large: small + stream.between(0, 9) };
    let mut tables = Tables::zero(slots, slots + stream.below(2) as usize);
    for word in &mut tables.words {
        *word = stream.word();
    }
    for bucket in BUCKETS {
        for entry in &mut tables.lists[bucket] {
            *entry = stream.word();
        }
    }
    assert_eq!(start(&mut tables, stream.between(1, 16), stream.between(1, 16), options), 0);
    for _ in 0..80 {
        if stream.below(3) == 0 {
            fill(&mut tables, stream.below(3) as usize, &mut stream);
        }
        let before = tables.clone();
        let live = tickets(&tables);
        let choice = stream.below(20);
        let frees = (1..=9).contains(&choice) && !live.is_empty();
        let answer = match choice {
            0 => {
                let (width, height) = (stream.between(0, 2), stream.between(0, 2));
                let (width, height) = (tables.head.width + width, tables.head.height + height);
                grow(&mut tables, width, height)
            }
            _ if frees => deallocate(&mut tables, stream.pick(&live)),
            _ => {
                let (width, height) = (stream.between(1, 9), stream.between(1, 9));
                let answer = allocate(&mut tables, width, height).0;
                if answer == 6 || answer == 7 {
                    // The lists may have lost dead entries, nothing else.
                    let seen = Tables { lists: tables.lists.clone(), head: tables.head, ..before.clone() };
                    assert_eq!(tables, seen);
                    assert_eq!((tables.head.root, tables.head.spare), (before.head.root, before.head.spare));
                    for bucket in BUCKETS {
                        assert_eq!(entries_of_free(&before, bucket), entries_of_free(&tables, bucket));
                    }
                }
                answer
            }
        };
        assert!([0, 6, 7].contains(&answer));
        assert_eq!(audit(&tables), (0, 0), "seed {seed}");
        rest_kept(&before, &tables);
        counts.calls += 1;
        counts.out_of_slots += usize::from(answer == 7);
        assert!(answer != 7 || spare_slots(&before) < 4);
        for bucket in BUCKETS {
            let was_full = before.head.lengths[bucket] as usize == before.lists[bucket].len();
            if frees && was_full && before.lists[bucket] != tables.lists[bucket] {
                swept(&before, &tables, bucket);
                counts.swept += 1;
            }
        }
    }
    for ticket in tickets(&tables) {
        assert_eq!((deallocate(&mut tables, ticket), audit(&tables)), (0, (0, 0)));
    }
    assert_eq!(is_empty(&tables), (0, true));
    assert_eq!(tables.live().len(), 1);
}

/// A list's entries of Free slots, sorted.
fn entries_of_free(tables: &Tables, bucket: usize) -> Vec<u32> {
    let free = tables.free();
    let mut entries: Vec<u32> = tables.entries(bucket).iter().copied().filter(|entry| free.contains(entry)).collect();
    entries.sort_unstable();
    entries
}

#[test]
fn tight_days() {
    let mut counts = Counts::default();
    for seed in 1..=500 {
        day(seed, &mut counts);
    }
    println!("{counts:?}");
    assert!(counts.swept > 1_000 && counts.out_of_slots > 1_000);
}

/// As many Containers as the tables can hold, each inside the one before, are sound.
#[test]
fn deepest_nest() {
    let walk = || audit(&nested(4_096));
    let verdict = thread::Builder::new().stack_size(64 << 20).spawn(walk).expect("a thread").join().expect("a verdict");
    assert_eq!(verdict, (0, 0));
}
