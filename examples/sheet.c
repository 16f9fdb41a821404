/* A day at a sheet of 1000x1000, from C: start, allocate, look up, list, free, grow, and what the calls answer where they refuse. The numbers are
 * those of the paper's ledger. Prints what it did; ends with 1 at the first number that is another. */
#include "ferrunchju.h"

#include <stdio.h>
#include <stdlib.h>

enum { SLOTS = 64 };

static uint32_t words[SLOTS * 8];
static uint8_t generations[SLOTS];
static uint32_t small[SLOTS], medium[SLOTS], large[SLOTS];
static struct ferrunchju_head head;

/* The five tables with their lengths, and the head: what every call is lent. */
#define TABLES words, SLOTS * 8, generations, SLOTS, small, SLOTS, medium, SLOTS, large, SLOTS, &head

static void expect(const char *what, uint32_t got, uint32_t wanted) {
    if (got != wanted) {
        printf("%s: %lu, and not %lu\n", what, (unsigned long)got, (unsigned long)wanted);
        exit(1);
    }
}

static void expect_rectangle(struct ferrunchju_rectangle r, uint32_t x0, uint32_t y0, uint32_t x1, uint32_t y1) {
    expect("x0", r.x0, x0);
    expect("y0", r.y0, y0);
    expect("x1", r.x1, x1);
    expect("y1", r.y1, y1);
}

static void print_rectangle(struct ferrunchju_rectangle r) {
    printf(" (%lu,%lu)-(%lu,%lu)\n", (unsigned long)r.x0, (unsigned long)r.y0, (unsigned long)r.x1, (unsigned long)r.y1);
}

static struct ferrunchju_allocation take(int32_t width, int32_t height) {
    struct ferrunchju_allocation got = {0, {0, 0, 0, 0}};
    expect("allocate", ferrunchju_allocate(TABLES, width, height, &got), FERRUNCHJU_DONE);
    printf("%ldx%ld: ticket %lu,", (long)width, (long)height, (unsigned long)got.ticket);
    print_rectangle(got.rectangle);
    return got;
}

static void give_back(uint32_t ticket) {
    expect("deallocate", ferrunchju_deallocate(TABLES, ticket), FERRUNCHJU_DONE);
    printf("%lu freed\n", (unsigned long)ticket);
}

static void list_all(uint32_t allocated_wanted, uint32_t free_wanted) {
    static uint32_t list[SLOTS * 5];
    uint32_t count = 0, i;
    struct ferrunchju_rectangle r;
    expect("list_allocated", ferrunchju_list_allocated(TABLES, list, SLOTS * 5, &count), FERRUNCHJU_DONE);
    expect("how many are allocated", count, allocated_wanted);
    for (i = 0; i < count; i++) {
        r.x0 = list[5 * i + 1];
        r.y0 = list[5 * i + 2];
        r.x1 = list[5 * i + 3];
        r.y1 = list[5 * i + 4];
        printf("allocated %lu:", (unsigned long)list[5 * i]);
        print_rectangle(r);
    }
    expect("list_free", ferrunchju_list_free(TABLES, list, SLOTS * 5, &count), FERRUNCHJU_DONE);
    expect("how many are free", count, free_wanted);
    for (i = 0; i < count; i++) {
        r.x0 = list[4 * i];
        r.y0 = list[4 * i + 1];
        r.x1 = list[4 * i + 2];
        r.y1 = list[4 * i + 3];
        printf("free:");
        print_rectangle(r);
    }
}

int main(void) {
    struct ferrunchju_allocation first, second, third, again;
    struct ferrunchju_allocation none = {7, {7, 7, 7, 7}};
    struct ferrunchju_rectangle found = {7, 7, 7, 7};
    struct ferrunchju_extent size = {0, 0};
    uint32_t list[4] = {7, 7, 7, 7}, count = 7, empty = 7, root;

    /* A setup that is refused changes nothing. */
    expect("no side", ferrunchju_start(TABLES, 0, 1, 1, 1, 32, 256), FERRUNCHJU_INVALID_SETUP);
    expect("the head", head.count, 0);
    expect("no tables yet", ferrunchju_check(TABLES), FERRUNCHJU_NOT_SOUND);

    expect("start", ferrunchju_start(TABLES, 1000, 1000, 1, 1, 32, 256), FERRUNCHJU_DONE);
    expect("check", ferrunchju_check(TABLES), FERRUNCHJU_DONE);
    expect("is_empty", ferrunchju_is_empty(TABLES, &empty), FERRUNCHJU_DONE);
    expect("empty", empty, 1);
    ferrunchju_size(&head, &size);
    expect("width", (uint32_t)size.width, 1000);
    expect("height", (uint32_t)size.height, 1000);

    first = take(100, 1000);
    expect("ticket", first.ticket, 2);
    expect_rectangle(first.rectangle, 0, 0, 100, 1000);
    second = take(900, 200);
    expect("ticket", second.ticket, 4);
    expect_rectangle(second.rectangle, 100, 0, 1000, 200);
    third = take(300, 200);
    expect("ticket", third.ticket, 6);
    expect_rectangle(third.rectangle, 100, 200, 400, 400);
    expect("large list", head.large_length, 2);
    expect("large list", large[0], 5);
    expect("large list", large[1], 7);

    /* Refusals: an answer, and zeroes. */
    expect("no space", ferrunchju_allocate(TABLES, 1000, 1, &none), FERRUNCHJU_NO_SPACE);
    expect("no ticket", none.ticket, 0);
    expect_rectangle(none.rectangle, 0, 0, 0, 0);
    expect("no side", ferrunchju_allocate(TABLES, 0, 1, &none), FERRUNCHJU_NOT_POSITIVE);
    expect("a slot that isn't there", ferrunchju_lookup(TABLES, 8, &found), FERRUNCHJU_NO_SUCH_SLOT);
    expect_rectangle(found, 0, 0, 0, 0);
    expect("another generation", ferrunchju_deallocate(TABLES, 4 + 16777216), FERRUNCHJU_OTHER_GENERATION);
    expect("a free slot", ferrunchju_deallocate(TABLES, 5), FERRUNCHJU_NOT_ALLOCATED);
    expect("a short list", ferrunchju_list_allocated(TABLES, list, 4, &count), FERRUNCHJU_SHORT_LIST);
    expect("no count", count, 0);
    expect("the list as it was", list[0], 7);
    expect("a table too short", ferrunchju_check(words, SLOTS * 8 - 8, generations, SLOTS, small, SLOTS, medium, SLOTS, large, SLOTS, &head),
           FERRUNCHJU_TABLE_LENGTH);

    list_all(3, 2);
    expect("lookup", ferrunchju_lookup(TABLES, 6, &found), FERRUNCHJU_DONE);
    expect_rectangle(found, 100, 200, 400, 400);

    give_back(second.ticket);
    give_back(third.ticket);
    again = take(500, 200);
    expect("ticket", again.ticket, 16777221);
    expect_rectangle(again.rectangle, 100, 0, 600, 200);

    /* Damage is found before anything is done on it. */
    root = head.root;
    head.root = 3;
    expect("damage", ferrunchju_deallocate(TABLES, again.ticket), FERRUNCHJU_NOT_SOUND);
    head.root = root;

    give_back(again.ticket);
    give_back(first.ticket);
    list_all(0, 1);
    expect("is_empty", ferrunchju_is_empty(TABLES, &empty), FERRUNCHJU_DONE);
    expect("empty", empty, 1);

    expect("clear", ferrunchju_clear(TABLES), FERRUNCHJU_DONE);
    first = take(100, 100);
    expect("smaller", ferrunchju_grow(TABLES, 3000, 999), FERRUNCHJU_SMALLER);
    expect("grow", ferrunchju_grow(TABLES, 3000, 3000), FERRUNCHJU_DONE);
    printf("grown to %ldx%ld\n", (long)head.width, (long)head.height);
    expect("root", head.root, 5);
    expect("large list", head.large_length, 3);
    expect("large list", large[0], 3);
    expect("large list", large[1], 1);
    expect("large list", large[2], 4);
    expect("lookup", ferrunchju_lookup(TABLES, first.ticket, &found), FERRUNCHJU_DONE);
    expect_rectangle(found, 0, 0, 100, 100);
    expect("ticket", take(1000, 2900).ticket, 1);

    expect("reset", ferrunchju_reset(TABLES, 10, 10, 5, 2, 32, 256), FERRUNCHJU_DONE);
    first = take(7, 3);
    expect_rectangle(first.rectangle, 0, 0, 10, 4);
    expect("clear", ferrunchju_clear(TABLES), FERRUNCHJU_DONE);
    expect("is_empty", ferrunchju_is_empty(TABLES, &empty), FERRUNCHJU_DONE);
    expect("empty", empty, 1);
    printf("as the ledger has it\n");
    return 0;
}
