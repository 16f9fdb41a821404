//! The whole list, from the leaf vectors to the last mix.

use crate::record::List;
use crate::{days, leaves, mixes, shapes};

/// Makes the list. Panics if a call lies outside the premises or if a required branch was never taken.
pub fn whole() -> List {
    let mut list = List::default();
    leaves::write(&mut list);
    days::write(&mut list);
    shapes::write(&mut list);
    mixes::write(&mut list);
    list.counts.assert_whole();
    list
}
