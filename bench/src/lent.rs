//! Tables lent to the library as they are, with no guards.

use compare::linked::{Lent, HEAD};
use model::tables::{Tables, HEAD_FIELDS};

/// Tables with the head as the library takes it.
#[derive(Clone)]
pub struct Bare {
    pub words: Vec<u32>,
    pub generations: Vec<u8>,
    pub lists: [Vec<u32>; 3],
    pub head: [u32; HEAD],
}

impl Bare {
    pub fn of(tables: &Tables) -> Bare {
        const { assert!(HEAD == HEAD_FIELDS) };
        Bare {
            words: tables.words.clone(),
            generations: tables.generations.clone(),
            lists: tables.lists.clone(),
            head: std::array::from_fn(|number| tables.head.field(number)),
        }
    }

    pub fn lend(&mut self) -> Lent<'_> {
        let [small, medium, large] = &mut self.lists;
        Lent {
            words: &mut self.words,
            generations: &mut self.generations,
            lists: [small, medium, large],
            head: &mut self.head,
        }
    }

    /// 0 sound, 1 a table length out of range, 2 not sound.
    pub fn check(&mut self) -> u32 {
        self.lend().check()
    }
}
