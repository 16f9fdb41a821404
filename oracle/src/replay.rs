//! Reads a list back as the Rattle side does: it keeps tables, applies what each call changed, and holds them against
//! the crate, which makes the same calls. A list that is read to its end without a panic has the format, keeps the
//! premises, and states every slot, generation, list and head after every call.

use crate::record::{answer, corners, tag};
use crate::view::{self, leaves, steps, AllocId, State};
use crate::{point2, premises, size2, AllocatorOptions, AtlasAllocator, Rectangle, Size};

/// The tables that a reader keeps: n, root and spare, the list lengths, and what the list has said of each place.
struct Tables {
    head: [u32; 3],
    slots: Vec<[u32; 8]>,
    generations: Vec<u32>,
    lengths: [usize; 3],
    entries: [Vec<u32>; 3],
}

impl Tables {
    fn new() -> Self {
        // Words that no call leaves anywhere, so that a place which is claimed but was never stated shows.
        const UNSAID: u32 = 0xDEAD_BEEF;
        Tables {
            head: [UNSAID; 3],
            slots: vec![[UNSAID; 8]; premises::SLOTS],
            generations: vec![UNSAID; premises::SLOTS],
            lengths: [0; 3],
            entries: [(); 3].map(|_| vec![UNSAID; premises::ENTRIES]),
        }
    }

    /// Applies one line of changes; false if the line is of another kind.
    fn apply(&mut self, kind: u32, words: &[u32]) -> bool {
        match (kind, words) {
            (tag::SLOT, [slot, fields @ ..]) => self.slots[*slot as usize] = fields.try_into().expect("eight fields"),
            (tag::GENERATION, [slot, generation]) => self.generations[*slot as usize] = *generation,
            (tag::LENGTH, [bucket, length]) => self.lengths[*bucket as usize] = *length as usize,
            (tag::ENTRY, [bucket, place, entry]) => self.entries[*bucket as usize][*place as usize] = *entry,
            (tag::HEAD, head) => self.head = head.try_into().expect("three words"),
            _ => return false,
        }
        true
    }

    /// The tables say what the atlas holds, in every place that is claimed.
    fn assert_hold(&self, state: &State) {
        let n = state.slots.len();
        assert_eq!(self.head, [n as u32, state.root, state.spare]);
        for (slot, said) in state.slots.iter().zip(&self.slots) {
            let [x0, y0, x1, y1] = corners(&slot.rect);
            assert_eq!(*said, [slot.parent, slot.next, slot.prev, slot.code, x0, y0, x1, y1]);
        }
        for (generation, said) in state.generations.iter().zip(&self.generations) {
            assert_eq!(*said, u32::from(*generation));
        }
        for (bucket, entries) in state.lists.iter().enumerate() {
            assert_eq!(self.entries[bucket][..self.lengths[bucket]], entries[..]);
        }
    }
}

/// One line's numbers; the line must be just these with a space between.
fn numbers(line: &str) -> Vec<u32> {
    let words: Vec<u32> = line.split(' ').map(|word| word.parse().expect("an unsigned number")).collect();
    let again: Vec<String> = words.iter().map(u32::to_string).collect();
    assert_eq!(again.join(" "), line, "leading zeros or other signs");
    words
}

fn size(words: &[u32]) -> Size {
    size2(words[0] as i32, words[1] as i32)
}

fn rectangle(words: &[u32]) -> Rectangle {
    let [x0, y0, x1, y1] = [0, 1, 2, 3].map(|place| words[place] as i32);
    Rectangle { min: point2(x0, y0), max: point2(x1, y1) }
}

/// The options in the last four words of a setup.
fn options(words: &[u32]) -> AllocatorOptions {
    AllocatorOptions {
        alignment: size(&words[2..]),
        small_size_threshold: words[4] as i32,
        large_size_threshold: words[5] as i32,
    }
}

/// A search that the list has written out and whose allocate has not come yet: the rounded request, the crate's lists
/// after the search, and how many of them have been read.
struct Searched {
    rounded: Size,
    lists: [Vec<u32>; 3],
    read: usize,
}

/// The atlas that makes the calls, and the tables that are held against it.
struct Reader {
    atlas: AtlasAllocator,
    tables: Tables,
    searched: Option<Searched>,
    open: bool,
    calls: usize,
}

/// Reads a whole list and gives the number of calls on it.
pub fn read(text: &str) -> usize {
    assert!(text.is_ascii() && text.ends_with('\n'));
    let atlas = AtlasAllocator::new(size2(1, 1));
    let mut reader = Reader { atlas, tables: Tables::new(), searched: None, open: false, calls: 0 };
    for line in text.lines() {
        let words = numbers(line);
        reader.line(words[0], &words[1..]);
    }
    assert!(!reader.open && reader.searched.is_none(), "the last call is closed");
    reader.calls
}

impl Reader {
    fn line(&mut self, kind: u32, words: &[u32]) {
        if self.tables.apply(kind, words) {
            assert!(self.open, "a change outside a call");
            return;
        }
        assert_eq!(self.open, kind == tag::CLOSE, "a call is closed before the next line");
        self.open = (tag::START..=tag::RESET).contains(&kind);
        assert!(
            self.searched.is_none() || [tag::SEARCHED_LIST, tag::ALLOCATE].contains(&kind),
            "a search stands alone"
        );
        match kind {
            tag::START => {
                premises::setup(size(words), &options(words));
                self.atlas = AtlasAllocator::with_options(size(words), &options(words));
                self.tables = Tables::new();
            }
            tag::ALLOCATE => self.allocate(words),
            tag::DEALLOCATE => {
                premises::live(&view::state(&self.atlas), words[0]);
                self.atlas.deallocate(AllocId::deserialize(words[0]));
            }
            tag::GROW => {
                premises::growth(&view::state(&self.atlas), size(words));
                self.atlas.grow(size(words));
            }
            tag::CLEAR => self.atlas.clear(),
            tag::RESET => {
                premises::setup(size(words), &options(words));
                self.atlas.reset(size(words), &options(words));
            }
            tag::SEARCH => self.search(size(words), words[2]),
            tag::SEARCHED_LIST => {
                let searched = self.searched.as_mut().expect("a list after a search");
                let entries = &searched.lists[searched.read];
                assert_eq!(words[..2], [searched.read as u32, entries.len() as u32]);
                assert_eq!(words[2..], entries[..]);
                searched.read += 1;
            }
            tag::CLOSE => {
                let state = view::state(&self.atlas);
                premises::room(&state);
                self.tables.assert_hold(&state);
                assert_eq!(words, [u32::from(self.atlas.is_empty())]);
                self.calls += 1;
            }
            _ => leaf(kind, words),
        }
    }

    /// A search chooses the slot on the list; the atlas itself stays as it is.
    fn search(&mut self, rounded: Size, chosen: u32) {
        let mut tried = self.atlas.clone();
        assert_eq!(steps::find_suitable_rect(&mut tried, rounded), chosen);
        self.searched = Some(Searched { rounded, lists: view::state(&tried).lists, read: 0 });
    }

    /// An allocate gives the answer on the list, and follows its own search.
    fn allocate(&mut self, words: &[u32]) {
        let request = size(words);
        if !request.is_empty() {
            let before = view::state(&self.atlas);
            let rounded = premises::rounded(&before, request);
            if let Some(searched) = self.searched.take() {
                assert_eq!((searched.rounded, searched.read), (rounded, 3));
            }
        }
        match self.atlas.allocate(request) {
            Some(allocation) => {
                assert_eq!(words[2..4], [answer::DONE, allocation.id.serialize()]);
                assert_eq!(words[4..], corners(&allocation.rectangle));
            }
            None => {
                let refusal = if request.is_empty() { answer::SIDE } else { answer::NO_SPACE };
                assert_eq!(words[2..], [refusal, 0, 0, 0, 0, 0]);
            }
        }
    }
}

/// A leaf vector holds the crate's result.
fn leaf(kind: u32, words: &[u32]) {
    match kind {
        tag::BUCKET_OF => {
            let bucket = leaves::free_list_for_size(words[0] as i32, words[1] as i32, size(&words[2..]));
            assert_eq!(words[4..], [bucket as u32]);
        }
        tag::ROUNDING => assert_eq!(words[2..], [leaves::adjust_size(words[0] as i32, words[1] as i32) as u32]),
        tag::CUT => {
            let (split, leftover, orientation) = leaves::guillotine_rect(rectangle(words), size(&words[4..]), words[6]);
            assert_eq!((rectangle(&words[7..]), rectangle(&words[11..])), (split, leftover));
            assert_eq!(words[15..], [orientation]);
        }
        _ => panic!("no such line: {kind}"),
    }
}
