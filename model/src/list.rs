//! The list of damaged tables: writes it, and reads it back.
//!
//! A record is one line of unsigned decimals with one space between, the first being the kind:
//! `30 N L` new tables, all zero; `31 place value` a word; `32 place value` a generation; `33 bucket place value` a list
//! entry; `34 field value` a head field; `35 rule place` the verdict on the tables as they stand now.

use crate::rules::{audit, examine};
use crate::tables::{Tables, BUCKETS, HEAD_FIELDS};
use std::collections::BTreeMap;
use std::fmt::Write;

/// The list as it is being written, with the tables that a reader has so far.
pub struct List {
    pub text: String,
    now: Tables,
    /// The verdicts by rule, 0 for sound.
    pub verdicts: [usize; 8],
    /// For each sentence of a rule, the verdicts in which it alone is broken.
    pub alone: BTreeMap<&'static str, usize>,
    /// The distinct (rule, place) verdicts.
    pub distinct: BTreeMap<(u32, u32), usize>,
}

impl List {
    pub fn new() -> List {
        List {
            text: String::new(),
            now: Tables::zero(1, 1),
            verdicts: [0; 8],
            alone: BTreeMap::new(),
            distinct: BTreeMap::new(),
        }
    }

    fn line(&mut self, numbers: &[u32]) {
        for (place, number) in numbers.iter().enumerate() {
            let space = if place == 0 { "" } else { " " };
            write!(self.text, "{space}{number}").expect("a string takes all");
        }
        self.text.push('\n');
    }

    /// New tables, filled, with their verdict.
    pub fn open(&mut self, tables: &Tables) {
        let (slots, entries) = (tables.generations.len(), tables.lists[0].len());
        self.line(&[30, slots as u32, entries as u32]);
        self.now = Tables::zero(slots, entries);
        self.show(tables);
    }

    /// The edits that make these tables of the last ones, and their verdict.
    pub fn show(&mut self, tables: &Tables) {
        let before = std::mem::replace(&mut self.now, tables.clone());
        for (place, (&old, &new)) in before.words.iter().zip(&tables.words).enumerate() {
            if old != new {
                self.line(&[31, place as u32, new]);
            }
        }
        for (place, (&old, &new)) in before.generations.iter().zip(&tables.generations).enumerate() {
            if old != new {
                self.line(&[32, place as u32, new.into()]);
            }
        }
        for bucket in BUCKETS {
            for (place, (&old, &new)) in before.lists[bucket].iter().zip(&tables.lists[bucket]).enumerate() {
                if old != new {
                    self.line(&[33, bucket as u32, place as u32, new]);
                }
            }
        }
        for number in 0..HEAD_FIELDS {
            if before.head.field(number) != tables.head.field(number) {
                self.line(&[34, number as u32, tables.head.field(number)]);
            }
        }
        let (rule, place) = audit(tables);
        self.line(&[35, rule, place]);
        self.verdicts[rule as usize] += 1;
        *self.distinct.entry((rule, place)).or_default() += 1;
        if let Some((_, fault)) = examine(tables) {
            if let [sentence] = fault.sentences[..] {
                *self.alone.entry(sentence).or_default() += 1;
            }
        }
    }

    pub fn total(&self) -> usize {
        self.verdicts.iter().sum()
    }
}

impl Default for List {
    fn default() -> Self {
        List::new()
    }
}

/// Reads a list, hands the tables of each verdict to `look`, and panics at the first line out of form.
pub fn read(text: &str, mut look: impl FnMut(&Tables, (u32, u32))) {
    assert!(text.is_ascii() && text.ends_with('\n'));
    let mut tables: Option<Tables> = None;
    for line in text.lines() {
        let numbers: Vec<u32> = line.split(' ').map(|word| word.parse().expect("a decimal below 2^32")).collect();
        let plain: Vec<String> = numbers.iter().map(u32::to_string).collect();
        assert_eq!(plain.join(" "), line, "one space, no leading zero");
        match (&mut tables, &numbers[..]) {
            (_, &[30, slots, entries]) => tables = Some(Tables::zero(slots as usize, entries as usize)),
            (Some(tables), &[31, place, value]) => tables.words[place as usize] = value,
            (Some(tables), &[32, place, value]) => {
                tables.generations[place as usize] = u8::try_from(value).expect("a byte");
            }
            (Some(tables), &[33, bucket, place, value]) => tables.lists[bucket as usize][place as usize] = value,
            (Some(tables), &[34, number, value]) => {
                assert!((number as usize) < HEAD_FIELDS);
                tables.head.set_field(number as usize, value);
            }
            (Some(tables), &[35, rule, place]) => look(tables, (rule, place)),
            _ => panic!("line out of form: {line}"),
        }
    }
}
