//! The lent tables and the head, as plain numbers, and a slot taken apart.

/// The number that stands for no link.
pub const NONE: u32 = u32::MAX;

/// The three free lists, in 01's order.
pub const SMALL: usize = 0;
pub const MEDIUM: usize = 1;
pub const LARGE: usize = 2;
pub const BUCKETS: [usize; 3] = [SMALL, MEDIUM, LARGE];

#[derive(Clone, Copy, Debug, PartialEq, Eq)]
pub enum Kind {
    Container,
    Alloc,
    Free,
    Unused,
}

#[derive(Clone, Copy, Debug, PartialEq, Eq)]
pub enum Orientation {
    Vertical,
    Horizontal,
}

impl Orientation {
    pub fn other(self) -> Self {
        match self {
            Orientation::Vertical => Orientation::Horizontal,
            Orientation::Horizontal => Orientation::Vertical,
        }
    }
}

/// A rectangle by its min and max corners.
#[derive(Clone, Copy, Debug, PartialEq, Eq)]
pub struct Rect {
    pub x0: u32,
    pub y0: u32,
    pub x1: u32,
    pub y1: u32,
}

impl Rect {
    pub const ZERO: Rect = rect(0, 0, 0, 0);

    pub fn is_empty(self) -> bool {
        self.x0 >= self.x1 || self.y0 >= self.y1
    }

    pub fn width(self) -> i64 {
        i64::from(self.x1) - i64::from(self.x0)
    }

    pub fn height(self) -> i64 {
        i64::from(self.y1) - i64::from(self.y0)
    }
}

pub const fn rect(x0: u32, y0: u32, x1: u32, y1: u32) -> Rect {
    Rect { x0, y0, x1, y1 }
}

/// One slot, taken out of its eight words.
#[derive(Clone, Copy, Debug, PartialEq, Eq)]
pub struct Slot {
    pub parent: u32,
    pub next: u32,
    pub prev: u32,
    pub kind: Kind,
    pub orientation: Orientation,
    pub rect: Rect,
}

/// The code word: kind + 4 × orientation.
pub fn code(kind: Kind, orientation: Orientation) -> u32 {
    kind as u32 + 4 * orientation as u32
}

/// The kind that a code word is read as: a word above 7 is Unused.
pub fn kind_of(code: u32) -> Kind {
    match code {
        0 | 4 => Kind::Container,
        1 | 5 => Kind::Alloc,
        2 | 6 => Kind::Free,
        _ => Kind::Unused,
    }
}

/// The orientation that a code word is read as: Horizontal from 4 on.
pub fn orientation_of(code: u32) -> Orientation {
    if code < 4 {
        Orientation::Vertical
    } else {
        Orientation::Horizontal
    }
}

/// Alignment and thresholds, as they arrive.
#[derive(Clone, Copy, Debug, PartialEq, Eq, Default)]
pub struct Options {
    pub align_width: i32,
    pub align_height: i32,
    pub small: i32,
    pub large: i32,
}

#[derive(Clone, Copy, Debug, PartialEq, Eq, Default)]
pub struct Head {
    pub width: i32,
    pub height: i32,
    pub options: Options,
    pub root: u32,
    pub spare: u32,
    /// n, the slot count.
    pub count: u32,
    pub lengths: [u32; 3],
}

/// The head's fields as the list of damaged tables numbers them.
pub const HEAD_FIELDS: usize = 12;

impl Head {
    /// A field by its number, an i32 as the u32 with the same bits.
    pub fn field(&self, number: usize) -> u32 {
        match number {
            0 => self.width as u32,
            1 => self.height as u32,
            2 => self.options.align_width as u32,
            3 => self.options.align_height as u32,
            4 => self.options.small as u32,
            5 => self.options.large as u32,
            6 => self.root,
            7 => self.spare,
            8 => self.count,
            _ => self.lengths[number - 9],
        }
    }

    pub fn set_field(&mut self, number: usize, value: u32) {
        match number {
            0 => self.width = value as i32,
            1 => self.height = value as i32,
            2 => self.options.align_width = value as i32,
            3 => self.options.align_height = value as i32,
            4 => self.options.small = value as i32,
            5 => self.options.large = value as i32,
            6 => self.root = value,
            7 => self.spare = value,
            8 => self.count = value,
            _ => self.lengths[number - 9] = value,
        }
    }
}

/// Everything that a call is lent.
#[derive(Clone, Debug, PartialEq, Eq)]
pub struct Tables {
    pub head: Head,
    /// Eight words a slot: parent, next, prev, code, x0, y0, x1, y1.
    pub words: Vec<u32>,
    pub generations: Vec<u8>,
    pub lists: [Vec<u32>; 3],
}

impl Tables {
    /// Tables of this many slots, with list tables of this many entries, all zero, the head too.
    pub fn zero(slots: usize, entries: usize) -> Tables {
        Tables {
            head: Head::default(),
            words: vec![0; 8 * slots],
            generations: vec![0; slots],
            lists: [vec![0; entries], vec![0; entries], vec![0; entries]],
        }
    }

    /// N, the slots that the tables have room for.
    pub fn room(&self) -> u32 {
        self.generations.len() as u32
    }

    pub fn slot(&self, number: u32) -> Slot {
        let words = &self.words[8 * number as usize..8 * number as usize + 8];
        Slot {
            parent: words[0],
            next: words[1],
            prev: words[2],
            kind: kind_of(words[3]),
            orientation: orientation_of(words[3]),
            rect: rect(words[4], words[5], words[6], words[7]),
        }
    }

    /// Writes all eight words of a slot.
    pub fn put(&mut self, number: u32, slot: Slot) {
        let words = [
            slot.parent,
            slot.next,
            slot.prev,
            code(slot.kind, slot.orientation),
            slot.rect.x0,
            slot.rect.y0,
            slot.rect.x1,
            slot.rect.y1,
        ];
        self.words[8 * number as usize..8 * number as usize + 8].copy_from_slice(&words);
    }

    pub fn kind(&self, number: u32) -> Kind {
        self.slot(number).kind
    }

    /// The entries of a list that count: those below its length.
    pub fn entries(&self, bucket: usize) -> &[u32] {
        &self.lists[bucket][..self.head.lengths[bucket] as usize]
    }

    /// The slots below n, in slot order.
    pub fn below_count(&self) -> std::ops::Range<u32> {
        0..self.head.count
    }

    /// A live slot is one below n and not Unused.
    pub fn is_live(&self, number: u32) -> bool {
        number < self.head.count && self.kind(number) != Kind::Unused
    }

    /// The live slots, in slot order.
    pub fn live(&self) -> Vec<u32> {
        self.below_count().filter(|&slot| self.is_live(slot)).collect()
    }

    /// The Free slots below n, in slot order.
    pub fn free(&self) -> Vec<u32> {
        self.below_count().filter(|&slot| self.kind(slot) == Kind::Free).collect()
    }
}
