// What a call costs from C.
//   cc -O2 -I hosts/c hosts/c/cost.c target/hosts/libregion_store.a -o cost
//   cost            for each call a line NAME NS, nanoseconds of processor time for one, the least of five rounds
//   cost NAME N     makes it N times and prints nothing, for a program that counts instructions: those of 2 N less those of N
// The stores and the names are those of bench/bench.c. What uses its store up can be made once, and is not timed; there is room for some 5,000 of allocate.
#include <stdio.h>
#include <stdlib.h>
#include <time.h>

#include "region_store.h"

#define WORDS (RS_MOST_PAGES * RS_PAGE_WORDS)
#define ROUNDS 5
#define LINKED 200
#define FILLED 16 // regions, and pages of each

static uint32_t heap[WORDS];
static struct rs_store store;

// Kinds by their numbers: a free pointer and a number; one free pointer; three numbers; three free pointers; one pointer marked 3; and two pointers marked 2, a free one and a number.
enum { PAIR = 1, POINTER, DATA, POINTERS, UP, LINK };

// What follows gives the refusals of its calls, or'ed, so 0 where all were accepted.
static uint32_t declare(uint32_t count, uint32_t a, uint32_t b, uint32_t c, uint32_t d)
{
    uint32_t marks[4];
    marks[0] = a, marks[1] = b, marks[2] = c, marks[3] = d;
    return rs_declare(&store, marks, count).refusal;
}

// The kinds but the last, a frame of 8 slots, and so many regions, named from 2 on.
static uint32_t made(uint32_t regions)
{
    uint32_t refused = rs_make(&store, heap, WORDS).refusal;
    refused |= declare(2, 1, 0, 0, 0);
    refused |= declare(1, 1, 0, 0, 0);
    refused |= declare(3, 0, 0, 0, 0);
    refused |= declare(3, 1, 1, 1, 0);
    refused |= declare(1, 3, 0, 0, 0);
    refused |= rs_push(&store, 8).refusal;
    while (regions-- > 0) refused |= rs_new_region(&store).refusal;
    return refused;
}

// An object with its pointers led to what a slot holds.
static uint32_t leading(uint32_t slot, uint32_t region, uint32_t kind, uint32_t pointers, uint32_t value)
{
    uint32_t refused = rs_allocate(&store, slot, region, kind).refusal;
    while (pointers-- > 0) refused |= rs_set_pointer(&store, slot, pointers, value, 0).refusal;
    return refused;
}

// Objects in slots 0 to 4, in regions 2 to 6: three of a pointer and a number, the first two of which lead to the third and hold 7, and two of three numbers.
static uint32_t plain(void)
{
    uint32_t refused = made(5), i;
    refused |= leading(2, 4, PAIR, 0, 0);
    for (i = 0; i < 2; i++) {
        refused |= leading(i, 2 + i, PAIR, 1, 2);
        refused |= rs_put(&store, i, 1, 7).refusal;
    }
    refused |= leading(3, 5, DATA, 0, 0);
    return refused | leading(4, 6, DATA, 0, 0);
}

// The plain store with a frame more.
static uint32_t stacked(void)
{
    uint32_t refused = plain();
    return refused | rs_push(&store, 8).refusal;
}

// The plain store with the kind of the cycle.
static uint32_t linked(void)
{
    uint32_t refused = plain();
    return refused | declare(4, 2, 2, 1, 0);
}

// 255 pages full of objects with a pointer each into another region.
static uint32_t full(void)
{
    uint32_t refused = made(2), i;
    refused |= rs_allocate(&store, 0, 2, POINTER).refusal;
    for (i = 0; i < 8160; i++) refused |= leading(1, 3, POINTER, 1, 0);
    return refused;
}

// Region 5 with 16 pages full of objects of three pointers, one into each of regions 2 to 4; no slot leads into it.
static uint32_t heavy(void)
{
    uint32_t refused = made(4), i, w;
    for (w = 0; w < 3; w++) refused |= rs_allocate(&store, w, 2 + w, PAIR).refusal;
    for (i = 0; i < 256; i++) {
        refused |= rs_allocate(&store, 3, 5, POINTERS).refusal;
        for (w = 0; w < 3; w++) refused |= rs_set_pointer(&store, 3, w, w, 0).refusal;
        refused |= rs_clear(&store, 3).refusal;
    }
    return refused;
}

// Regions 2 to 17 with 16 pages each, full of objects of three pointers, which lead into the region before; those of region 2 are null. No slot leads anywhere.
static uint32_t filled(void)
{
    uint32_t refused = made(FILLED), i, r;
    for (i = 0; i < 256; i++) {
        for (r = 0; r < FILLED; r++) refused |= leading(r % 2, 2 + r, POINTERS, 3, 1 - r % 2);
        refused |= rs_clear(&store, 0).refusal | rs_clear(&store, 1).refusal;
    }
    return refused;
}

static uint32_t delete_filled(void)
{
    uint32_t names[FILLED], i;
    for (i = 0; i < FILLED; i++) names[i] = 1 + FILLED - i;
    return rs_delete_all(&store, names, FILLED, 0).refusal;
}

// A region made, filled with objects in a list that leads both ways, some with a pointer out of the region, and deleted: of each object in slot 6, what was made before it in slot 5.
static uint32_t cycle(void)
{
    uint32_t refused = 0, i, list = rs_new_region(&store).values[0];
    for (i = 0; i < LINKED; i++) {
        refused |= rs_allocate(&store, 6, list, LINK).refusal;
        refused |= rs_put(&store, 6, 3, i).refusal;
        refused |= rs_set_pointer(&store, 6, 1, 5, 0).refusal;
        if (i > 0) refused |= rs_set_pointer(&store, 5, 0, 6, 0).refusal;
        if (i % 7 == 0) refused |= rs_set_pointer(&store, 6, 2, 0, 0).refusal;
        if (i % 10 == 0) refused |= rs_load(&store, 6, 1, 7).refusal;
        refused |= rs_copy(&store, 6, 5).refusal;
    }
    for (i = 5; i < 8; i++) refused |= rs_clear(&store, i).refusal;
    return refused | rs_delete(&store, list, 0).refusal;
}

// A function that makes a call n times. An audit is never refused; it has to give 1.
#define MANY(call, refusal_of) \
    static uint32_t many_##call(long n) \
    { \
        uint32_t refused = 0; \
        while (n-- > 0) refused |= (refusal_of); \
        return refused; \
    }

MANY(clear, rs_clear(&store, 0).refusal)
MANY(copy, rs_copy(&store, 0, 5).refusal)
MANY(fetch, rs_fetch(&store, 0, 0).refusal)
MANY(first, rs_first(&store, 5, 2).refusal)
MANY(load, rs_load(&store, 0, 0, 5).refusal)
MANY(put, rs_put(&store, 0, 1, 7).refusal)
MANY(get, rs_get(&store, 0, 1).refusal)
MANY(view, rs_view(&store, 3).refusal)
MANY(set_pointer, rs_set_pointer(&store, 0, 0, 1 + (n & 1), 0).refusal)
MANY(allocate, rs_allocate(&store, 5, 2, PAIR).refusal)
MANY(push_drop, rs_push(&store, 8).refusal || rs_drop(&store, 0).refusal)
MANY(push_hand_back, rs_push(&store, 8).refusal || rs_hand_back(&store, 0, 5, 0).refusal)
MANY(same, rs_same(&store, 0, 1).refusal)
MANY(about, rs_about(&store, 0).refusal)
MANY(locate, rs_locate(&store, 0).refusal)
MANY(totals, rs_totals(&store).refusal)
MANY(report, rs_report(&store, 2).refusal)
MANY(region_delete, rs_delete(&store, rs_new_region(&store).values[0], 0).refusal)
MANY(subregion_delete, rs_delete(&store, rs_subregion(&store, 2).values[0], 0).refusal)
MANY(cycle, cycle())
MANY(delete_pages, rs_delete(&store, 5, 0).refusal)
MANY(delete_all, delete_filled())
MANY(audit, rs_audit(&store).values[0] ^ 1)

// Of each its store, and how many are made in a round.
static const struct line {
    const char *name;
    uint32_t (*store)(void);
    uint32_t (*many)(long);
    long calls;
} lines[] = {
    {"clear", plain, many_clear, 200000},
    {"copy", plain, many_copy, 200000},
    {"fetch", stacked, many_fetch, 200000},
    {"first", plain, many_first, 200000},
    {"load", plain, many_load, 200000},
    {"put", plain, many_put, 200000},
    {"get", plain, many_get, 200000},
    {"view", plain, many_view, 200000},
    {"set_pointer", plain, many_set_pointer, 200000},
    {"allocate", plain, many_allocate, 1000},
    {"push_drop", plain, many_push_drop, 200000},
    {"push_hand_back", plain, many_push_hand_back, 200000},
    {"same", plain, many_same, 200000},
    {"about", plain, many_about, 200000},
    {"locate", plain, many_locate, 200000},
    {"totals", plain, many_totals, 200000},
    {"report", plain, many_report, 200000},
    {"region_delete", plain, many_region_delete, 20000},
    {"subregion_delete", plain, many_subregion_delete, 20000},
    {"cycle", linked, many_cycle, 200},
    {"delete_pages", heavy, many_delete_pages, 0},
    {"delete_all", filled, many_delete_all, 0},
    {"audit", plain, many_audit, 20000},
    {"audit_full", full, many_audit, 200},
};
#define LINES (sizeof lines / sizeof lines[0])

// Makes n of them five times, and prints what one costs.
static uint32_t cost(const struct line *l)
{
    clock_t least = 0;
    uint32_t refused = l->store();
    int round;
    for (round = 0; round < ROUNDS; round++) {
        clock_t before = clock();
        refused |= l->many(l->calls);
        clock_t took = clock() - before;
        if (round == 0 || took < least) least = took;
    }
    printf("%s %.1f\n", l->name, 1e9 * (double)least / CLOCKS_PER_SEC / (double)l->calls);
    return refused;
}

int main(int count, char **words)
{
    uint32_t refused = 0;
    size_t i, found = count == 1;
    if (!rs_layout_matches()) {
        fprintf(stderr, "the library has another layout than region_store.h\n");
        return 1;
    }
    for (i = 0; i < LINES; i++) {
        if (count == 1 && lines[i].calls) refused |= cost(&lines[i]);
        if (count != 3 || strcmp(words[1], lines[i].name) != 0) continue;
        refused |= lines[i].store();
        refused |= lines[i].many(atol(words[2]));
        found = 1;
    }
    if (!found) {
        fprintf(stderr, "cost, or cost NAME N\n");
        return 2;
    }
    if (refused) fprintf(stderr, "cost: a call was refused\n");
    return refused != 0;
}
