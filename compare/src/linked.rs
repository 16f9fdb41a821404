//! The calls of libferrunchju.a, as include/ferrunchju.h declares them. The only module with unsafe code.
//!
//! Each pointer is taken from a slice or an array together with its length, all of them from different borrows; the library keeps none.

/// How many words the head has.
pub const HEAD: usize = 12;

/// What a call is lent: the five tables and the head.
pub struct Lent<'a> {
    pub words: &'a mut [u32],
    pub generations: &'a mut [u8],
    /// Small, medium, large.
    pub lists: [&'a mut [u32]; 3],
    pub head: &'a mut [u32; HEAD],
}

/// Declares the library's calls, and a method of `Lent` for each, which gives its answer.
macro_rules! calls {
    ($($(#[$doc:meta])* $seen:vis fn $name:ident = $linked:ident($($more:ident: $kind:ty),*);)*) => {
        extern "C" {
            $(fn $linked(
                words: *mut u32, words_length: usize, generations: *mut u8, generations_length: usize,
                small: *mut u32, small_length: usize, medium: *mut u32, medium_length: usize,
                large: *mut u32, large_length: usize, head: *mut [u32; HEAD] $(, $more: $kind)*
            ) -> u32;)*
        }

        impl Lent<'_> {
            $($(#[$doc])* $seen fn $name(&mut self $(, $more: $kind)*) -> u32 {
                let [small, medium, large] = &mut self.lists;
                // SAFETY: the head of this module.
                unsafe {
                    $linked(
                        self.words.as_mut_ptr(), self.words.len(), self.generations.as_mut_ptr(), self.generations.len(),
                        small.as_mut_ptr(), small.len(), medium.as_mut_ptr(), medium.len(),
                        large.as_mut_ptr(), large.len(), self.head $(, $more)*
                    )
                }
            })*
        }
    };
}

calls! {
    pub fn start = ferrunchju_start(width: i32, height: i32, align_width: i32, align_height: i32, small: i32, large: i32);
    pub fn reset = ferrunchju_reset(width: i32, height: i32, align_width: i32, align_height: i32, small: i32, large: i32);
    pub fn clear = ferrunchju_clear();
    /// Ticket and corners go to the five words.
    pub fn allocate = ferrunchju_allocate(width: i32, height: i32, out: &mut [u32; 5]);
    pub fn deallocate = ferrunchju_deallocate(ticket: u32);
    pub fn grow = ferrunchju_grow(width: i32, height: i32);
    pub fn lookup = ferrunchju_lookup(ticket: u32, out: &mut [u32; 4]);
    fn allocated_words = ferrunchju_list_allocated(list: *mut u32, list_length: usize, count: &mut [u32; 1]);
    fn free_words = ferrunchju_list_free(list: *mut u32, list_length: usize, count: &mut [u32; 1]);
    pub fn is_empty = ferrunchju_is_empty(empty: &mut [u32; 1]);
    pub fn check = ferrunchju_check();
}

extern "C" {
    fn ferrunchju_size(head: *const [u32; HEAD], out: &mut [u32; 2]);
}

impl Lent<'_> {
    pub fn list_allocated(&mut self, list: &mut [u32], count: &mut [u32; 1]) -> u32 {
        self.allocated_words(list.as_mut_ptr(), list.len(), count)
    }

    pub fn list_free(&mut self, list: &mut [u32], count: &mut [u32; 1]) -> u32 {
        self.free_words(list.as_mut_ptr(), list.len(), count)
    }

    pub fn size(&mut self, out: &mut [u32; 2]) {
        // SAFETY: the head of this module.
        unsafe { ferrunchju_size(self.head, out) }
    }
}
