// What the calls cost from Rattle, by the function that crates/bench exports: in place (by their numbers, `store::call_in`) and by value (by their names).
//   bench                 a line for each name: the name, and two numbers, runs of which are to be counted
//   bench WAY NAME        the least nanoseconds of processor time of one
//   bench WAY NAME N      a run of N, for a tool that counts instructions
// WAY is `place` or `value`. A run makes its store first, so what one costs is the difference of two runs. Where there is no such way nothing is printed, and a run gives 2.
#include <inttypes.h>
#include <stdint.h>
#include <stdio.h>
#include <stdlib.h>
#include <string.h>
#include <time.h>

// The words of 256 pages.
#define WORDS 16384
// A measured difference is at least this long, in nanoseconds, where the store allows it.
#define LEAST 4000000.0
#define ROUNDS 25

static uint32_t heap[WORDS];

// A call by its number: that and four arguments. As a or b the last name given.
typedef uint32_t call[5];
#define LAST UINT32_MAX

// Makes a store with the kinds and the frame of crates/bench and the calls `once`, and so many of `again`, round and round; then n calls of `rows`, round and round.
// Gives the sum of all grounds of refusal times 2^32, and the sum of the values of those n.
uint64_t bench(
    uint32_t *heap, size_t words, const call *once, size_t n_once, const call *again, size_t n_again, size_t many,
    const call *rows, size_t n_rows, const uint32_t *list, size_t n_list, uint32_t way, size_t n);
enum { PLACE = 0, CHANGING = 1, ANSWERING = 2, NOT = 3 };

#define DECLARE {2}
#define NEW_REGION {3}
#define SUBREGION(above) {4, above}
#define PUSH(slots) {5, slots}
#define DROP {6}
#define HAND_BACK(slot, beneath) {7, slot, beneath}
#define ALLOCATE(slot, region, kind) {8, slot, region, kind}
#define FIRST(slot, region) {9, slot, region}
#define COPY(from, to) {10, from, to}
#define FETCH(beneath, to) {11, beneath, to}
#define CLEAR(slot) {12, slot}
#define LOAD(slot, word, to) {13, slot, word, to}
#define SET_POINTER(slot, word, value) {14, slot, word, value}
#define PUT(slot, word, value) {15, slot, word, value}
#define DELETE(region) {23, region}

#define CALLS(...) (const call[]){__VA_ARGS__}, sizeof((const call[]){__VA_ARGS__}) / sizeof(call)
#define LIST(...) (const uint32_t[]){__VA_ARGS__}, sizeof((const uint32_t[]){__VA_ARGS__}) / sizeof(uint32_t)
#define NONE NULL, 0

// Objects of a pointer and a number in slots 0 to 2, in regions 2 to 4.
#define THREE NEW_REGION, ALLOCATE(0, 2, 1), NEW_REGION, ALLOCATE(1, 3, 1), NEW_REGION, ALLOCATE(2, 4, 1)
// Those, the first two of which lead to the third and hold 7, and objects of three numbers in slots 3 and 4, in regions 5 and 6.
#define FIVE THREE, SET_POINTER(0, 0, 2), PUT(0, 1, 7), SET_POINTER(1, 0, 2), PUT(1, 1, 7), NEW_REGION, ALLOCATE(3, 5, 3), NEW_REGION, ALLOCATE(4, 6, 3)
// Every slot of the top frame leads to slot 0's object.
#define COPIES COPY(0, 1), COPY(0, 2), COPY(0, 3), COPY(0, 4), COPY(0, 5), COPY(0, 6), COPY(0, 7)
// An object of three free pointers in a slot, all of them to what another slot holds; and two objects in turn, in two regions, each leading to the object made before it.
#define LEADING(slot, region, value) ALLOCATE(slot, region, 4), SET_POINTER(slot, 0, value), SET_POINTER(slot, 1, value), SET_POINTER(slot, 2, value)
#define PAIR(region) LEADING(0, region, 1), LEADING(1, region + 1, 0)
#define EIGHT NEW_REGION, NEW_REGION, NEW_REGION, NEW_REGION, NEW_REGION, NEW_REGION, NEW_REGION, NEW_REGION
#define DOWN(region) SUBREGION(region), SUBREGION(region + 1), SUBREGION(region + 2), SUBREGION(region + 3), SUBREGION(region + 4)

struct store {
    const call *once;
    size_t n_once;
    const call *again;
    size_t n_again;
    size_t times;
};

// The plain store; and with one frame more.
static const struct store plain = {CALLS(FIVE), NONE, 0};
static const struct store stacked = {CALLS(FIVE, PUSH(8)), NONE, 0};
// The plain one with 32 frames of 8 slots, none of them null, and none of the frames counted.
static const struct store laden = {CALLS(FIVE, COPIES), CALLS(PUSH(8), FETCH(0, 0), COPIES), 31};
// All 256 pages held: one by region 2, with an object in slot 0, and 255 by region 3, full of 8,160 objects of one free pointer, which leads to that object.
static const struct store full = {CALLS(NEW_REGION, ALLOCATE(0, 2, 2), NEW_REGION), CALLS(ALLOCATE(1, 3, 2), SET_POINTER(1, 0, 0)), 8160};
// Region 5 with 16 pages full of 256 objects of three free pointers, 768 in all, into regions 2 to 4; no slot leads into it.
static const struct store heavy = {CALLS(THREE, NEW_REGION), CALLS(ALLOCATE(3, 5, 4), SET_POINTER(3, 0, 0), SET_POINTER(3, 1, 1), SET_POINTER(3, 2, 2), CLEAR(3)), 256};
// Regions 2 to 17 with 16 pages each, all 256, full of 256 objects of three free pointers: each leads into the region before, those of region 2 are null. No slot leads anywhere.
static const struct store filled = {CALLS(EIGHT, EIGHT), CALLS(PAIR(2), PAIR(4), PAIR(6), PAIR(8), PAIR(10), PAIR(12), PAIR(14), PAIR(16), CLEAR(0), CLEAR(1)), 256};
// Regions 2 to 17, each below the one before: an object with a word marked 3 in slot 0, at level 16, and two objects in slots 1 and 2 at level 1, the end of the way up.
static const struct store deep = {CALLS(NEW_REGION, DOWN(2), DOWN(7), DOWN(12), ALLOCATE(0, 17, 5), ALLOCATE(1, 2, 2), ALLOCATE(2, 2, 2)), NONE, 0};

// The cycle of a region, as in hosts/c/cost.c: it is made, and 200 objects in it, in a list that leads both ways, some with a pointer out of the region; then slots are cleared, and the region is deleted. The kind's marks are the line's list.
static const struct store linked = {CALLS(FIVE, DECLARE), NONE, 0};
#define OBJECTS 200
#define N_CYCLE (1 + OBJECTS * 3 + 428 + 20 + 3 + 1)
static call cycle[N_CYCLE];

static void write_cycle(void) {
    call *next = cycle;
#define ADD(...) memcpy(next++, (call){__VA_ARGS__}, sizeof(call))
    ADD(3);
    for (uint32_t i = 0; i < OBJECTS; i++) {
        ADD(8, 6, LAST, 6);
        ADD(15, 6, 3, i);
        ADD(14, 6, 1, 5);
        if (i > 0) ADD(14, 5, 0, 6);
        if (i % 7 == 0) ADD(14, 6, 2, 0);
        if (i % 10 == 0) ADD(13, 6, 1, 7);
        ADD(10, 6, 5);
    }
    for (uint32_t slot = 5; slot < 8; slot++) ADD(12, slot);
    ADD(23, LAST);
    if (next != cycle + N_CYCLE) abort();
}

// One is `unit` calls. Their values add up to `values`, where that is not ANY.
// `most` is how many the store allows: what uses it up is counted as 1 less 0, and not timed; all else as twice `count` less `count`.
struct line {
    const char *name;
    const struct store *store;
    const call *rows;
    size_t n_rows;
    const uint32_t *list;
    size_t n_list;
    uint32_t in_place;
    uint32_t by_value;
    size_t unit;
    uint32_t values;
    size_t count;
    size_t most;
};

#define ANY UINT32_MAX
#define MANY 100000000
#define NAMES 400000

static const struct line lines[] = {
    {"clear", &plain, CALLS(CLEAR(0)), NONE, PLACE, CHANGING, 1, 0, 1000, MANY},
    {"copy", &plain, CALLS(COPY(0, 5)), NONE, PLACE, CHANGING, 1, 0, 1000, MANY},
    {"fetch", &stacked, CALLS(FETCH(0, 0)), NONE, PLACE, CHANGING, 1, 0, 1000, MANY},
    {"first", &plain, CALLS(FIRST(5, 2)), NONE, PLACE, CHANGING, 1, 0, 1000, MANY},
    {"load", &plain, CALLS(LOAD(0, 0, 5)), NONE, PLACE, CHANGING, 1, 0, 1000, MANY},
    {"put", &plain, CALLS(PUT(0, 1, 7)), NONE, PLACE, ANSWERING, 1, 0, 1000, MANY},
    {"get", &plain, CALLS({16, 0, 1}), NONE, PLACE, ANSWERING, 1, 7, 1000, MANY},
    {"view", &plain, CALLS({17, 3}), NONE, PLACE, ANSWERING, 1, ANY, 1000, MANY},
    {"set_pointer", &plain, CALLS(SET_POINTER(0, 0, 1), SET_POINTER(0, 0, 2)), NONE, PLACE, CHANGING, 1, 0, 1000, MANY},
    {"set_pointer_up", &deep, CALLS(SET_POINTER(0, 0, 1), SET_POINTER(0, 0, 2)), NONE, PLACE, CHANGING, 1, 0, 1000, MANY},
    {"allocate", &plain, CALLS(ALLOCATE(5, 2, 1)), NONE, PLACE, CHANGING, 1, 0, 1000, 4000},
    {"push_drop", &plain, CALLS(PUSH(8), DROP), NONE, PLACE, CHANGING, 2, 3, 1000, MANY},
    {"push_hand_back", &plain, CALLS(PUSH(8), HAND_BACK(0, 5)), NONE, PLACE, CHANGING, 2, 3, 1000, MANY},
    {"same", &plain, CALLS({18, 0, 1}), NONE, PLACE, ANSWERING, 1, 0, 1000, MANY},
    {"about", &plain, CALLS({19, 0}), NONE, PLACE, ANSWERING, 1, 3, 1000, MANY},
    {"locate", &plain, CALLS({25, 0}), NONE, PLACE, ANSWERING, 1, 0, 1000, MANY},
    {"totals", &plain, CALLS({21}), NONE, PLACE, ANSWERING, 1, 258, 1000, MANY},
    {"report", &plain, CALLS({20, 2}), NONE, PLACE, ANSWERING, 1, 2, 1000, MANY},
    {"report_frames", &laden, CALLS({20, 2}), NONE, PLACE, ANSWERING, 1, 257, 100, MANY},
    {"region_delete", &plain, CALLS(NEW_REGION, DELETE(LAST)), NONE, PLACE, CHANGING, 2, ANY, 1000, NAMES},
    {"subregion_delete", &plain, CALLS(SUBREGION(2), DELETE(LAST)), NONE, PLACE, CHANGING, 2, ANY, 1000, NAMES},
    {"cycle", &linked, cycle, N_CYCLE, LIST(2, 2, 1, 0), PLACE, NOT, N_CYCLE, ANY, 20, NAMES},
    {"delete_pages", &heavy, CALLS(DELETE(5)), NONE, PLACE, CHANGING, 1, 16, 1, 1},
    {"delete_all", &filled, CALLS({24}), LIST(17, 16, 15, 14, 13, 12, 11, 10, 9, 8, 7, 6, 5, 4, 3, 2), PLACE, CHANGING, 1, 256, 1, 1},
    {"audit", &plain, CALLS({22}), NONE, PLACE, ANSWERING, 1, 1, 20, MANY},
    {"audit_full", &full, CALLS({22}), NONE, PLACE, ANSWERING, 1, 1, 2, MANY},
    {"call_clear", &plain, CALLS({112}), NONE, NOT, CHANGING, 1, 0, 1000, MANY},
};
#define LINES (sizeof lines / sizeof lines[0])

// Where there are none.
static const call no_calls[1];
static const uint32_t no_list[1];

static void checked(const struct line *l, uint32_t way, size_t n) {
    const struct store *s = l->store;
    uint64_t sums = bench(
        heap, WORDS, s->once, s->n_once, s->again ? s->again : no_calls, s->n_again, s->n_again * s->times, l->rows, l->n_rows,
        l->list ? l->list : no_list, l->n_list, way, n * l->unit);
    uint32_t refused = (uint32_t)(sums >> 32), values = (uint32_t)sums;
    if (refused != 0 || (l->values != ANY && values != (uint32_t)n * l->values)) {
        fprintf(stderr, "%s: refusals add up to %" PRIu32 ", values to %" PRIu32 "\n", l->name, refused, values);
        exit(1);
    }
}

static double timed(const struct line *l, uint32_t way, size_t n) {
    struct timespec from, to;
    clock_gettime(CLOCK_PROCESS_CPUTIME_ID, &from);
    checked(l, way, n);
    clock_gettime(CLOCK_PROCESS_CPUTIME_ID, &to);
    return (to.tv_sec - from.tv_sec) * 1e9 + (to.tv_nsec - from.tv_nsec);
}

// The n whose runs of n and 2n differ by long enough.
static size_t enough(const struct line *l, uint32_t way) {
    size_t n = 2;
    while (4 * n <= l->most && timed(l, way, 2 * n) - timed(l, way, n) < LEAST) n *= 2;
    return n;
}

// The least time of a run of 2n, less the least of one of n.
static double cost(const struct line *l, uint32_t way) {
    size_t n = enough(l, way);
    double once = timed(l, way, n), twice = timed(l, way, 2 * n);
    for (int k = 1; k < ROUNDS; k++) {
        double o = timed(l, way, n), t = timed(l, way, 2 * n);
        if (o < once) once = o;
        if (t < twice) twice = t;
    }
    return (twice - once) / n;
}

static const struct line *named(const char *name) {
    for (size_t i = 0; i < LINES; i++)
        if (strcmp(name, lines[i].name) == 0) return &lines[i];
    fprintf(stderr, "bench: no line has the name %s\n", name);
    exit(2);
}

int main(int argc, char **argv) {
    write_cycle();
    if (argc < 3) {
        for (size_t i = 0; i < LINES; i++) {
            const struct line *l = &lines[i];
            printf("%s %zu %zu\n", l->name, l->most == 1 ? 0 : l->count, l->most == 1 ? 1 : 2 * l->count);
        }
        return 0;
    }
    const struct line *l = named(argv[2]);
    uint32_t way = strcmp(argv[1], "value") == 0 ? l->by_value : l->in_place;
    if (way == NOT) return argc > 3 ? 2 : 0;
    if (argc > 3)
        checked(l, way, strtoul(argv[3], NULL, 10));
    else if (l->most > 1)
        printf("%.1f\n", cost(l, way));
    return 0;
}
