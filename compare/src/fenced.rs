//! Tables between guards: what is lent stands in the midst of words that no call may touch, and each call looks whether they are as before.

use crate::linked::{Lent, HEAD};
use model::tables::{Head, Tables, HEAD_FIELDS};

/// How many elements stand guard on each side.
const MARGIN: usize = 16;

/// A number that can stand guard.
pub trait Guard: Copy + PartialEq {
    const GUARD: Self;
}

impl Guard for u32 {
    const GUARD: u32 = 0xA5C3_96E1;
}

impl Guard for u8 {
    const GUARD: u8 = 0xA5;
}

/// A table and its guards.
#[derive(Clone)]
pub struct Fenced<T>(Vec<T>);

impl<T: Guard> Fenced<T> {
    pub fn of(inside: &[T]) -> Self {
        let mut all = vec![T::GUARD; inside.len() + 2 * MARGIN];
        all[MARGIN..MARGIN + inside.len()].copy_from_slice(inside);
        Fenced(all)
    }

    pub fn inside(&self) -> &[T] {
        &self.0[MARGIN..self.0.len() - MARGIN]
    }

    pub fn inside_mut(&mut self) -> &mut [T] {
        let end = self.0.len() - MARGIN;
        &mut self.0[MARGIN..end]
    }

    /// The inside of a table of this length.
    pub fn array<const LENGTH: usize>(&mut self) -> &mut [T; LENGTH] {
        self.inside_mut().try_into().expect("the length")
    }

    fn holds(&self) -> bool {
        let (before, after) = (&self.0[..MARGIN], &self.0[self.0.len() - MARGIN..]);
        before.iter().chain(after).all(|&guard| guard == T::GUARD)
    }

    /// What stands inside, where the guards are as they were.
    pub fn told(&self) -> &[T] {
        assert!(self.holds(), "a guard was written over");
        self.inside()
    }
}

/// One sheet of the library's: the five tables and the head, each between guards.
#[derive(Clone)]
pub struct Sheet {
    head: Fenced<u32>,
    words: Fenced<u32>,
    generations: Fenced<u8>,
    lists: [Fenced<u32>; 3],
}

impl Sheet {
    pub fn of(tables: &Tables) -> Sheet {
        let head: [u32; HEAD_FIELDS] = std::array::from_fn(|number| tables.head.field(number));
        Sheet {
            head: Fenced::of(&head),
            words: Fenced::of(&tables.words),
            generations: Fenced::of(&tables.generations),
            lists: std::array::from_fn(|bucket| Fenced::of(&tables.lists[bucket])),
        }
    }

    /// Makes one call, and looks at the guards of all that was lent.
    pub fn lend<T>(&mut self, call: impl FnOnce(&mut Lent) -> T) -> T {
        let [small, medium, large] = &mut self.lists;
        let answer = call(&mut Lent {
            words: self.words.inside_mut(),
            generations: self.generations.inside_mut(),
            lists: [small.inside_mut(), medium.inside_mut(), large.inside_mut()],
            head: self.head.array::<HEAD>(),
        });
        let guarded = self.words.holds() && self.head.holds() && self.lists.iter().all(Fenced::holds);
        assert!(guarded && self.generations.holds(), "a guard was written over");
        answer
    }

    pub fn head(&self) -> Head {
        let mut head = Head::default();
        for (number, &value) in self.head.inside().iter().enumerate() {
            head.set_field(number, value);
        }
        head
    }

    pub fn words(&self) -> &[u32] {
        self.words.inside()
    }

    pub fn generations(&self) -> &[u8] {
        self.generations.inside()
    }

    /// A list's whole table.
    pub fn list(&self, bucket: usize) -> &[u32] {
        self.lists[bucket].inside()
    }
}

/// Every place of every table, and the head.
pub fn assert_same(sheet: &Sheet, tables: &Tables) {
    assert_eq!(sheet.head(), tables.head, "the head");
    assert!(sheet.words() == tables.words, "slots: ours {:?}, theirs {:?}", sheet.words(), tables.words);
    assert_eq!(sheet.generations(), tables.generations, "generations");
    for (bucket, list) in tables.lists.iter().enumerate() {
        assert_eq!(sheet.list(bucket), list, "list {bucket}");
    }
}
