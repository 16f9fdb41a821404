/* Ferrunchju: a rectangle allocator in which every call is proved to do what its paper says (docs/01-scope.md), on any tables that
 * arrive. This header declares the calls of libferrunchju.a, which `rt lib` in crates/ferrunchju writes for x86-64.
 *
 * A sheet is kept in five tables and a head, all of which the caller owns and lends to each call. With N slots, 1 to 4,096:
 *
 *   words         N * 8 words: eight to a slot
 *   generations   N bytes
 *   small, medium, large
 *                 the three free lists: N to 16,384 words each, of lengths of their own
 *   head          struct ferrunchju_head
 *
 * A length counts elements, not bytes. Nothing has to be set before ferrunchju_start, but that no word is indeterminate: zero the tables
 * and the head. From then on only the calls write them. A program may still store them, move them or let them be damaged: each call but
 * start, reset and clear checks all of them first, and answers 2 where they are not sound.
 *
 * What the calls cannot check, and a caller owes: each pointer is aligned, not null, and good for its length for as long as the call runs; a
 * pointer without const is lent to this call alone; and no two things lent to one call overlap, where one of them is written. A
 * call keeps no pointer, and allocates nothing. It needs up to 450 KiB of stack (docs/MEASURES.md).
 *
 * Each call but ferrunchju_size returns its answer, the first of enum ferrunchju_answer that applies, in the order that stands at the
 * call. Any other answer than 0 is a refusal: it leaves tables and head as they were and hands over zeroes. The one exception is that 6 and 7
 * of ferrunchju_allocate may drop entries of slots that are not free from the free lists. */
#ifndef FERRUNCHJU_H
#define FERRUNCHJU_H

#include <stddef.h>
#include <stdint.h>

#ifdef __cplusplus
extern "C" {
#endif

/* What a call may answer. */
enum ferrunchju_answer {
    FERRUNCHJU_DONE = 0,              /* done */
    FERRUNCHJU_TABLE_LENGTH = 1,      /* a table length is out of range */
    FERRUNCHJU_NOT_SOUND = 2,         /* the tables are not sound */
    FERRUNCHJU_INVALID_SETUP = 3,     /* sheet side, alignment or thresholds are invalid */
    FERRUNCHJU_NOT_POSITIVE = 4,      /* a requested side is 0 or less */
    FERRUNCHJU_TOO_LARGE = 5,         /* a requested side, rounded up, exceeds 2,147,483,647 */
    FERRUNCHJU_NO_SPACE = 6,          /* no free rectangle is as wide and as tall as the rounded request */
    FERRUNCHJU_NO_SLOTS = 7,          /* fewer spare slots than the call needs */
    FERRUNCHJU_NO_SUCH_SLOT = 8,      /* the ticket's slot is not in use */
    FERRUNCHJU_OTHER_GENERATION = 9,  /* the ticket is of another generation of its slot */
    FERRUNCHJU_NOT_ALLOCATED = 10,    /* the ticket's slot is not allocated */
    FERRUNCHJU_SMALLER = 11,          /* grow: a side is smaller than now */
    FERRUNCHJU_SHORT_LIST = 12        /* the lent list is shorter than the listing */
};

/* What is kept beside the tables, in twelve numbers of 32 bits. */
struct ferrunchju_head {
    int32_t width;             /* the sheet, 1 to 2,147,483,647 */
    int32_t height;
    int32_t alignment_width;   /* requests are rounded up to multiples of these, 1 or more */
    int32_t alignment_height;
    int32_t small_threshold;   /* from this side on a rectangle is medium */
    int32_t large_threshold;   /* from this side on it is large; not below the small one */
    uint32_t root;             /* the first slot of the top chain */
    uint32_t spare;            /* the first spare slot, or 4,294,967,295 */
    uint32_t count;            /* how many slots have been in use */
    uint32_t small_length;     /* how many entries the free lists have */
    uint32_t medium_length;
    uint32_t large_length;
};

/* A rectangle from its least corner to its greatest, which is outside it. */
struct ferrunchju_rectangle {
    uint32_t x0;
    uint32_t y0;
    uint32_t x1;
    uint32_t y1;
};

/* A ticket and its rectangle. A ticket has 32 bits, and all of them matter: slot + generation * 16,777,216. */
struct ferrunchju_allocation {
    uint32_t ticket;
    struct ferrunchju_rectangle rectangle;
};

struct ferrunchju_extent {
    int32_t width;
    int32_t height;
};

/* The calls take these for 12, 4, 5 and 2 words. */
typedef char ferrunchju_head_has_12_words[sizeof(struct ferrunchju_head) == 48 ? 1 : -1];
typedef char ferrunchju_rectangle_has_4_words[sizeof(struct ferrunchju_rectangle) == 16 ? 1 : -1];
typedef char ferrunchju_allocation_has_5_words[sizeof(struct ferrunchju_allocation) == 20 ? 1 : -1];
typedef char ferrunchju_extent_has_2_words[sizeof(struct ferrunchju_extent) == 8 ? 1 : -1];

/* A new sheet, whatever tables and head held: one free rectangle, and sound. Answers 1, 3, else 0. */
uint32_t ferrunchju_start(uint32_t *words, size_t words_length, uint8_t *generations, size_t generations_length,
                          uint32_t *small, size_t small_length, uint32_t *medium, size_t medium_length,
                          uint32_t *large, size_t large_length, struct ferrunchju_head *head,
                          int32_t width, int32_t height, int32_t alignment_width, int32_t alignment_height,
                          int32_t small_threshold, int32_t large_threshold);

/* The same sheet again, empty, with the size and the options given: as start. Tickets begin anew. Answers 1, 3, else 0. */
uint32_t ferrunchju_reset(uint32_t *words, size_t words_length, uint8_t *generations, size_t generations_length,
                          uint32_t *small, size_t small_length, uint32_t *medium, size_t medium_length,
                          uint32_t *large, size_t large_length, struct ferrunchju_head *head,
                          int32_t width, int32_t height, int32_t alignment_width, int32_t alignment_height,
                          int32_t small_threshold, int32_t large_threshold);

/* The same sheet again, empty, with the size and the options that the head has. Tickets begin anew. Answers 1, 3, else 0. */
uint32_t ferrunchju_clear(uint32_t *words, size_t words_length, uint8_t *generations, size_t generations_length,
                          uint32_t *small, size_t small_length, uint32_t *medium, size_t medium_length,
                          uint32_t *large, size_t large_length, struct ferrunchju_head *head);

/* A rectangle at least as wide and as tall as asked for, rounded up to multiples of the alignment, with its ticket.
 * Answers 1, 2, 4, 5, 6, 7, else 0. */
uint32_t ferrunchju_allocate(uint32_t *words, size_t words_length, uint8_t *generations, size_t generations_length,
                             uint32_t *small, size_t small_length, uint32_t *medium, size_t medium_length,
                             uint32_t *large, size_t large_length, struct ferrunchju_head *head,
                             int32_t width, int32_t height, struct ferrunchju_allocation *out);

/* Frees the rectangle of a live ticket. Answers 1, 2, 8, 9, 10, else 0. */
uint32_t ferrunchju_deallocate(uint32_t *words, size_t words_length, const uint8_t *generations, size_t generations_length,
                               uint32_t *small, size_t small_length, uint32_t *medium, size_t medium_length,
                               uint32_t *large, size_t large_length, struct ferrunchju_head *head, uint32_t ticket);

/* Grows the sheet: every rectangle stays where it is, and what is new is free. Answers 1, 2, 11, 3, 7, else 0. */
uint32_t ferrunchju_grow(uint32_t *words, size_t words_length, uint8_t *generations, size_t generations_length,
                         uint32_t *small, size_t small_length, uint32_t *medium, size_t medium_length,
                         uint32_t *large, size_t large_length, struct ferrunchju_head *head, int32_t width, int32_t height);

/* The rectangle of a live ticket. Answers 1, 2, 8, 9, 10, else 0. */
uint32_t ferrunchju_lookup(const uint32_t *words, size_t words_length, const uint8_t *generations, size_t generations_length,
                           const uint32_t *small, size_t small_length, const uint32_t *medium, size_t medium_length,
                           const uint32_t *large, size_t large_length, const struct ferrunchju_head *head,
                           uint32_t ticket, struct ferrunchju_rectangle *out);

/* The allocated rectangles with their tickets, in slot order, from the list's first word on: five words to an entry, as struct
 * ferrunchju_allocation has them. count is of entries, list_length of words; words past the listing stay as they were. N * 5 words are
 * always enough. Answers 1, 2, 12, else 0. */
uint32_t ferrunchju_list_allocated(const uint32_t *words, size_t words_length, const uint8_t *generations, size_t generations_length,
                                   const uint32_t *small, size_t small_length, const uint32_t *medium, size_t medium_length,
                                   const uint32_t *large, size_t large_length, const struct ferrunchju_head *head,
                                   uint32_t *list, size_t list_length, uint32_t *count);

/* The free rectangles, likewise: four words to an entry, as struct ferrunchju_rectangle has them; N * 4 words are always enough.
 * Answers 1, 2, 12, else 0. */
uint32_t ferrunchju_list_free(const uint32_t *words, size_t words_length, const uint8_t *generations, size_t generations_length,
                              const uint32_t *small, size_t small_length, const uint32_t *medium, size_t medium_length,
                              const uint32_t *large, size_t large_length, const struct ferrunchju_head *head,
                              uint32_t *list, size_t list_length, uint32_t *count);

/* Whether one free rectangle is the whole sheet: 1 for yes, 0 for no. Answers 1, 2, else 0. */
uint32_t ferrunchju_is_empty(const uint32_t *words, size_t words_length, const uint8_t *generations, size_t generations_length,
                             const uint32_t *small, size_t small_length, const uint32_t *medium, size_t medium_length,
                             const uint32_t *large, size_t large_length, const struct ferrunchju_head *head, uint32_t *empty);

/* The sheet's size, as the head has it. Nothing is checked. */
void ferrunchju_size(const struct ferrunchju_head *head, struct ferrunchju_extent *out);

/* The check that the other calls make first. Answers 1, 2, else 0: the lengths are in range and the tables are sound. */
uint32_t ferrunchju_check(const uint32_t *words, size_t words_length, const uint8_t *generations, size_t generations_length,
                          const uint32_t *small, size_t small_length, const uint32_t *medium, size_t medium_length,
                          const uint32_t *large, size_t large_length, const struct ferrunchju_head *head);

#ifdef __cplusplus
}
#endif

#endif
