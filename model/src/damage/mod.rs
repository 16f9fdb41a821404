//! What is on the list of damaged tables. Each part takes a sound base and shows tables made from it, always one damage
//! (or one set of damages meant together) away from the base.

mod bare;
mod links;
mod lists;
mod parts;
mod rects;
mod single;

use crate::bases;
use crate::list::List;
use crate::random::Stream;
use crate::tables::Tables;
use bare::{bare, by_hand};
use links::{astray, chains};
use lists::{entries, garbage, renumbered, spares};
use rects::{borders, geometry, leaf_kinds, stored_rects};
use single::{edited, pairs, singles, Edit};

/// Everything that is tried on a small base.
fn small(list: &mut List, base: &Tables, stream: &mut Stream) {
    list.open(base);
    for edit in singles(base) {
        list.show(&edited(base, &[edit]));
    }
    leaf_kinds(list, base, stream);
    borders(list, base);
    geometry(list, base);
    chains(list, base);
    astray(list, base);
    stored_rects(list, base);
    entries(list, base);
    spares(list, base);
    // Once more where slot order isn't link order, so that the lowest place isn't the first one met.
    for _ in 0..2 {
        let other = renumbered(list, base, stream);
        leaf_kinds(list, &other, stream);
        stored_rects(list, &other);
        pairs(list, &other, 40, stream);
        chains(list, &other);
    }
    pairs(list, base, 60, stream);
    let littered = garbage(list, base, stream);
    pairs(list, &littered, 20, stream);
    list.show(base);
}

/// One number of a larger base changed at random, the slots that count before the others.
fn large(list: &mut List, base: &Tables, stream: &mut Stream) {
    list.open(base);
    let edits = singles(base);
    for _ in 0..500 {
        list.show(&edited(base, &[stream.pick(&edits)]));
    }
    for slot in base.live() {
        for other in [0, 1, 2, 4, 5, 6] {
            if stream.below(4) == 0 {
                list.show(&edited(base, &[Edit::Word(8 * slot as usize + 3, other)]));
            }
        }
    }
    stored_rects(list, base);
    pairs(list, base, 50, stream);
    let littered = garbage(list, base, stream);
    pairs(list, &littered, 50, stream);
    list.show(base);
}

/// The sentences of the rules, each of which some verdict must turn on alone.
const SENTENCES: usize = 36;

/// The whole list.
pub fn whole() -> List {
    let mut list = List::new();
    let mut stream = Stream::new(20_140_731);
    bare(&mut list);
    by_hand(&mut list);
    for base in bases::small() {
        small(&mut list, &base, &mut stream);
    }
    for base in bases::large() {
        large(&mut list, &base, &mut stream);
    }
    assert!(list.total() >= 15_000 && list.verdicts.iter().all(|&count| count >= 100), "{:?}", list.verdicts);
    assert!(list.alone.len() == SENTENCES && list.alone.values().all(|&count| count >= 20), "{:?}", list.alone);
    list
}
