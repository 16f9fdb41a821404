//! The library beside the model: on any tables, with any arguments. After each call every place of every table is equal, and so is the head.

use crate::call::{models, ours, Call};
use crate::fenced::{assert_same, Sheet};
use model::tables::Tables;

/// How often each number was answered.
#[derive(Clone, Copy, Debug, Default)]
pub struct Answers {
    pub calls: usize,
    pub given: [usize; 13],
    /// Lists that were full and are shorter or other after a call that was done.
    pub swept: usize,
}

impl Answers {
    pub fn add(&mut self, other: &Answers) {
        self.calls += other.calls;
        self.swept += other.swept;
        for (all, more) in self.given.iter_mut().zip(other.given) {
            *all += more;
        }
    }
}

/// The same tables twice: lent to the library, and to the model.
pub struct Pair {
    pub ours: Sheet,
    pub model: Tables,
}

impl Pair {
    pub fn of(tables: Tables) -> Pair {
        Pair { ours: Sheet::of(&tables), model: tables }
    }

    /// Makes one call on both, compares, and gives what both answered. A refusal but 6 and 7 changes nothing, which is looked at once more here.
    pub fn make(&mut self, call: Call, answers: &mut Answers) -> Vec<u32> {
        let before = self.model.clone();
        let told = models(&mut self.model, call);
        assert_eq!(ours(&mut self.ours, call), told, "the answer, on {before:?}");
        assert_same(&self.ours, &self.model);
        if told[0] != 0 && !(matches!(call, Call::Allocate(..)) && [6, 7].contains(&told[0])) {
            assert_same(&self.ours, &before);
        }
        answers.calls += 1;
        answers.given[told[0] as usize] += 1;
        for (bucket, list) in before.lists.iter().enumerate() {
            let full = before.head.lengths[bucket] as usize == list.len();
            let changing = matches!(call, Call::Allocate(..) | Call::Deallocate(_) | Call::Grow(..));
            answers.swept += usize::from(told[0] == 0 && changing && full && self.model.lists[bucket] != *list);
        }
        told
    }
}
