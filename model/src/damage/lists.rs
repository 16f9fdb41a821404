//! Free lists, the spare chain and the numbers of slots changed: rules 6 and 2; and what must not matter.

use super::parts::unused;
use crate::list::List;
use crate::random::Stream;
use crate::rules::{audit, bucket_of};
use crate::tables::{Head, Slot, Tables, BUCKETS, NONE};

/// Rule 6: each Free slot's entries in its own bucket overwritten, taken out, or put in another list alone.
pub fn entries(list: &mut List, base: &Tables) {
    for free in base.free() {
        let size = base.slot(free).rect;
        let own = bucket_of(&base.head, size.width(), size.height());
        for instead in base.below_count().filter(|&slot| slot != free) {
            let mut tables = base.clone();
            for place in 0..tables.head.lengths[own] as usize {
                if tables.lists[own][place] == free {
                    tables.lists[own][place] = instead;
                }
            }
            list.show(&tables);
            for other in BUCKETS.into_iter().filter(|&bucket| bucket != own) {
                let length = tables.head.lengths[other] as usize;
                if instead == base.head.root && length < tables.lists[other].len() {
                    let mut moved = tables.clone();
                    moved.lists[other][length] = free;
                    list.show(&moved);
                    moved.head.lengths[other] += 1;
                    list.show(&moved);
                }
            }
        }
        let mut tables = base.clone();
        let kept: Vec<u32> = tables.entries(own).iter().copied().filter(|&entry| entry != free).collect();
        tables.lists[own][..kept.len()].copy_from_slice(&kept);
        tables.head.lengths[own] = kept.len() as u32;
        list.show(&tables);
    }
}

/// The Unused slots chained in this order.
fn spare_chain(base: &Tables, order: &[u32], end: u32) -> Tables {
    let mut tables = base.clone();
    tables.head.spare = order.first().copied().unwrap_or(end);
    for (place, &slot) in order.iter().enumerate() {
        tables.words[8 * slot as usize + 1] = order.get(place + 1).copied().unwrap_or(end);
    }
    tables
}

/// Rule 2: the spare chain in other orders, with one slot left out, without an end, ended by another number, and with slots
/// turned Unused or live.
pub fn spares(list: &mut List, base: &Tables) {
    let chained = unused(base);
    let n = base.head.count;
    let turned: Vec<u32> = chained.iter().rev().copied().collect();
    for order in [&chained, &turned] {
        list.show(&spare_chain(base, order, NONE));
        for end in [n, base.room(), NONE - 1, base.head.root] {
            list.show(&spare_chain(base, order, end));
        }
        for &back in order {
            list.show(&spare_chain(base, order, back));
        }
    }
    for place in 0..chained.len() {
        let mut fewer = chained.clone();
        fewer.remove(place);
        list.show(&spare_chain(base, &fewer, NONE));
        list.show(&spare_chain(base, &fewer, n));
        // The one left out turned live: a stray.
        let mut tables = spare_chain(base, &fewer, NONE);
        tables.words[8 * chained[place] as usize + 3] = 1;
        list.show(&tables);
    }
    for leaf in base.live() {
        let mut more = chained.clone();
        more.push(leaf);
        let mut tables = spare_chain(base, &more, NONE);
        list.show(&tables);
        tables.words[8 * leaf as usize + 3] = 3;
        list.show(&tables);
        tables.words[8 * leaf as usize + 3] = 9;
        list.show(&tables);
    }
    // All slots Unused, and well chained: no root is live.
    let mut tables = base.clone();
    let all: Vec<u32> = base.below_count().collect();
    for &slot in &all {
        tables.words[8 * slot as usize + 3] |= 3;
    }
    list.show(&spare_chain(&tables, &all, NONE));
    list.show(&tables);
}

/// The slots numbered anew, so that sound tables come out that no call makes; then with one of the parts left as it was. Gives
/// the sound ones.
pub fn renumbered(list: &mut List, base: &Tables, stream: &mut Stream) -> Tables {
    let n = base.head.count;
    let mut number: Vec<u32> = (0..n).collect();
    for place in (1..n).rev() {
        number.swap(place as usize, stream.below(place + 1) as usize);
    }
    let named = |link: u32| if link < n { number[link as usize] } else { link };
    let mut tables = base.clone();
    for slot in base.below_count() {
        let was = base.slot(slot);
        tables
            .put(named(slot), Slot { parent: named(was.parent), next: named(was.next), prev: named(was.prev), ..was });
    }
    tables.head.root = named(base.head.root);
    tables.head.spare = named(base.head.spare);
    for bucket in BUCKETS {
        for place in 0..base.head.lengths[bucket] as usize {
            tables.lists[bucket][place] = named(base.lists[bucket][place]);
        }
    }
    list.show(&tables);
    list.show(&Tables { lists: base.lists.clone(), ..tables.clone() });
    list.show(&Tables { head: Head { root: base.head.root, ..tables.head }, ..tables.clone() });
    list.show(&Tables { head: Head { spare: base.head.spare, ..tables.head }, ..tables.clone() });
    list.show(&Tables { words: base.words.clone(), ..tables.clone() });
    tables
}

/// What must not matter: garbage at n and above, past the list lengths, in Unused slots' other words, and in the generations.
pub fn garbage(list: &mut List, base: &Tables, stream: &mut Stream) -> Tables {
    let mut tables = base.clone();
    for place in 8 * base.head.count as usize..tables.words.len() {
        tables.words[place] = if stream.below(2) == 0 { stream.below(9) } else { stream.word() };
    }
    list.show(&tables);
    for slot in unused(base) {
        for word in [0, 2, 4, 5, 6, 7] {
            tables.words[8 * slot as usize + word] = stream.word() >> stream.below(32);
        }
        tables.words[8 * slot as usize + 3] = stream.pick(&[3, 7, 8, 9, 10, 4_096, NONE]);
    }
    list.show(&tables);
    for bucket in BUCKETS {
        for place in base.head.lengths[bucket] as usize..tables.lists[bucket].len() {
            tables.lists[bucket][place] = stream.word();
        }
    }
    list.show(&tables);
    for generation in &mut tables.generations {
        *generation = stream.word() as u8;
    }
    list.show(&tables);
    assert_eq!(audit(&tables), (0, 0));
    tables
}
