//! The crate's allocator and a window into it. The file is included, so that what stands below it sees its private
//! fields and functions and the file itself stays as it was published.

include!("allocator.rs");

/// The number that stands for no link.
pub const NONE: u32 = u32::MAX;

/// One slot as the tables hold it, stale fields included.
#[derive(Copy, Clone, Debug, PartialEq, Eq)]
pub struct Slot {
    pub parent: u32,
    pub next: u32,
    pub prev: u32,
    /// Kind + 4 × orientation: Container 0, Alloc 1, Free 2, Unused 3; Vertical 0, Horizontal 1.
    pub code: u32,
    pub rect: Rectangle,
}

impl Slot {
    pub fn kind(&self) -> NodeKind {
        [NodeKind::Container, NodeKind::Alloc, NodeKind::Free, NodeKind::Unused][(self.code % 4) as usize]
    }

    pub fn is_free(&self) -> bool {
        self.kind() == NodeKind::Free
    }

    /// 0 for Vertical, 1 for Horizontal.
    pub fn orientation(&self) -> usize {
        (self.code / 4) as usize
    }
}

/// Everything that an atlas holds.
#[derive(Clone, Debug, PartialEq, Eq)]
pub struct State {
    pub slots: Vec<Slot>,
    pub generations: Vec<u8>,
    pub lists: [Vec<u32>; NUM_BUCKETS],
    pub root: u32,
    pub spare: u32,
    pub size: Size,
    pub options: AllocatorOptions,
}

impl State {
    /// The slot that a link or an entry names.
    pub fn at(&self, slot: u32) -> &Slot {
        &self.slots[slot as usize]
    }

    /// The bucket of a size under this atlas's thresholds.
    pub fn bucket(&self, size: Size) -> usize {
        leaves::free_list_for_size(self.options.small_size_threshold, self.options.large_size_threshold, size)
    }

    /// Whether a link names a Free slot.
    pub fn names_free(&self, link: u32) -> bool {
        link != NONE && self.at(link).is_free()
    }
}

fn orientation_number(orientation: Orientation) -> u32 {
    match orientation {
        Orientation::Vertical => 0,
        Orientation::Horizontal => 1,
    }
}

fn slot_view(node: &Node) -> Slot {
    let kind = match node.kind {
        NodeKind::Container => 0,
        NodeKind::Alloc => 1,
        NodeKind::Free => 2,
        NodeKind::Unused => 3,
    };
    Slot {
        parent: node.parent.0,
        next: node.next_sibling.0,
        prev: node.prev_sibling.0,
        code: kind + 4 * orientation_number(node.orientation),
        rect: node.rect,
    }
}

/// The whole state of an atlas.
pub fn state(atlas: &AtlasAllocator) -> State {
    State {
        slots: atlas.nodes.iter().map(slot_view).collect(),
        generations: atlas.generations.iter().map(|generation| generation.0).collect(),
        lists: [SMALL_BUCKET, MEDIUM_BUCKET, LARGE_BUCKET]
            .map(|bucket| atlas.free_lists[bucket].iter().map(|entry| entry.0).collect()),
        root: atlas.root_node.0,
        spare: atlas.unused_nodes.0,
        size: atlas.size,
        options: AllocatorOptions {
            alignment: atlas.alignment,
            small_size_threshold: atlas.small_size_threshold,
            large_size_threshold: atlas.large_size_threshold,
        },
    }
}

/// The crate's private functions on numbers and rectangles, under their own names.
pub mod leaves {
    use super::{orientation_number, Orientation};
    use crate::{Rectangle, Size};

    pub fn free_list_for_size(small: i32, large: i32, size: Size) -> usize {
        super::free_list_for_size(small, large, &size)
    }

    pub fn adjust_size(alignment: i32, mut side: i32) -> i32 {
        super::adjust_size(alignment, &mut side);
        side
    }

    /// Split, leftover and orientation; an orientation is 0 for Vertical and 1 for Horizontal.
    pub fn guillotine_rect(chosen: Rectangle, request: Size, orientation: u32) -> (Rectangle, Rectangle, u32) {
        let given = if orientation == 0 { Orientation::Vertical } else { Orientation::Horizontal };
        let (split, leftover, cut) = super::guillotine_rect(&chosen, request, given);
        (split, leftover, orientation_number(cut))
    }
}

/// The crate's private steps on an atlas, under their own names, with slots as plain numbers.
pub mod steps {
    use super::{AllocIndex, AtlasAllocator};
    use crate::Size;

    /// The chosen slot, or the none-link. The chosen entry leaves its list.
    pub fn find_suitable_rect(atlas: &mut AtlasAllocator, rounded: Size) -> u32 {
        atlas.find_suitable_rect(&rounded).0
    }

    pub fn new_node(atlas: &mut AtlasAllocator) -> u32 {
        atlas.new_node().0
    }

    pub fn mark_node_unused(atlas: &mut AtlasAllocator, slot: u32) {
        atlas.mark_node_unused(AllocIndex(slot));
    }

    pub fn add_free_rect(atlas: &mut AtlasAllocator, slot: u32, size: Size) {
        atlas.add_free_rect(AllocIndex(slot), &size);
    }

    /// No step of the crate's: drops the entries of slots that aren't Free. It makes the wrong atlas that a port with
    /// this shortcut would have, so that the list can be shown to tell the two apart.
    pub fn drop_dead_entries(atlas: &mut AtlasAllocator) {
        let nodes = &atlas.nodes;
        for list in &mut atlas.free_lists {
            list.retain(|entry| nodes[entry.index()].kind == super::NodeKind::Free);
        }
    }
}
