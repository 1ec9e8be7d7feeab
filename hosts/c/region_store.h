// A region store for C programs: objects in regions, with exact counts, in memory that the program lends.
//
// The library makes every decision and is proved; this header only passes the memory on. Link with the library:
//   cc -Ihosts/c mine.c target/hosts/libregion_store.a
//
// A first example: why a region cannot go while a slot leads into it.
//
//   #include <stdio.h>
//   #include "region_store.h"
//
//   static uint32_t heap[4 * RS_PAGE_WORDS];
//   static struct rs_store store;
//
//   int main(void)
//   {
//       static const uint32_t marks[] = {1, 0}; // a free pointer and a number
//       if (!rs_layout_matches() || rs_make(&store, heap, 4 * RS_PAGE_WORDS).refusal) return 1;
//       uint32_t kind = rs_declare(&store, marks, 2).values[0];
//       uint32_t region = rs_new_region(&store).values[0];
//       rs_push(&store, 1);
//       rs_allocate(&store, 0, region, kind);
//       puts(region_store_reason(rs_delete(&store, region, 0).refusal)); // an outside pointer remains; ..
//       return 0;
//   }
//
// Every call gives a reply: the refusal, RS_ACCEPTED or a number of enum rs_refusal, and four values, 0 where there is none. A call that is refused has changed nothing (but rs_make, see there); of several reasons it names the one that comes first in the list at its function.
//
// What the program must keep to:
//  - A store is used by one caller at a time, also for calls that only ask: the library may write what was there.
//  - The heap is s->words words long and stays where it is, as long as the store is used. Store, heap, list and reply do not overlap, and only calls write the heap.
//  - A store is filled by rs_make or rs_file_load before any other call.
//  - Pointers are aligned as their types are. To the functions rs_* a null list counts as an empty one, and to rs_make a null heap; no other pointer may be null, nor s->heap. (The functions region_store_* take no null pointer at all: see there.)
//  - A call takes up to 21 KiB of stack, and one by its name less than 4 KiB but rs_audit and rs_delete_all, beside what a thread takes by itself: small threads, coroutines and signal stacks may have less.
// Whatever bytes the state and the heap hold, every call ends, touches only what it is lent, and answers (this is proved). But what a call answers is right only for a store that rs_make made, or for one that rs_audit finds sound, and that only calls have changed since.
//
// A struct rs_store may be copied or moved: nothing in it points into it. Two copies share one heap, so only one of them may be used.
#ifndef REGION_STORE_H
#define REGION_STORE_H

#include <stddef.h>
#include <stdint.h>
#include <string.h>

#define RS_PAGE_WORDS 64
#define RS_MOST_PAGES 256

// ---- The state
//
// The library takes the five numbers as one array. As members with names they would lie side by side too, but a pointer to the first of them would not be one to all five by C's rules. So they are an array, and enum rs_number names its places.

// hosts/tables: begin layout
#define RS_LAYOUT_VERSION 1
#define RS_STATE_BYTES 3652

// The places of the state's numbers.
enum rs_number {
    RS_STANDING = 0, // how many frames stand
    RS_COUNTED = 1, // how many frames, from the lowest on, are counted
    RS_DECLARED = 2, // how many kinds are declared
    RS_GIVEN = 3, // the last name given to a region
    RS_MADE = 4 // how many pages were made
};

struct rs_state {
    uint32_t numbers[5]; // see enum rs_number
    uint8_t widths[32]; // how many slots each frame has
    uint32_t slots[256]; // slot s of frame i, at 8 i + s: a pointer, 0 for null
    uint8_t sizes[16]; // how many words an object of each kind has
    uint8_t marks[256]; // the mark of word w of kind k, at 16 (k - 1) + w
    uint32_t names[64]; // the name of each region entry, 0 for one not in use
    uint8_t parents[64]; // the entry of the region above plus 1, 0 for none
    uint8_t levels[64]; // how deep each region lies
    uint32_t shares[256]; // filler f's share of the count of entry i, at 4 i + f
    uint16_t newest[64]; // the newest page of each region plus 1, 0 for none
    uint32_t oldest[64]; // the first object of each region, 0 for none
    uint8_t owners[256]; // the entry of the region that holds each page plus 1, 0 for a free page
    uint8_t taken[256]; // how many words of each page objects fill
};

// The arrays of a state, as the library takes them.
#define RS_LENT(state) \
    (state)->numbers, (state)->widths, (state)->slots, (state)->sizes, (state)->marks, (state)->names, \
    (state)->parents, (state)->levels, (state)->shares, (state)->newest, (state)->oldest, (state)->owners, \
    (state)->taken
// hosts/tables: end

// The build fails here if the compiler pads the state.
typedef char rs_state_has_no_padding[sizeof(struct rs_state) == RS_STATE_BYTES ? 1 : -1];

struct rs_store {
    struct rs_state state;
    uint32_t *heap;
    size_t words;
};

// ---- What calls answer

struct rs_reply {
    uint32_t refusal;
    uint32_t values[4];
};

// The words of an object, in the heap itself; refused, they are NULL and the count is 0.
struct rs_view {
    uint32_t refusal;
    const uint32_t *words;
    size_t count;
};

// hosts/tables: begin numbers
enum rs_call_number {
    RS_CALL_MAKE = 1,
    RS_CALL_DECLARE = 2,
    RS_CALL_NEW_REGION = 3,
    RS_CALL_SUBREGION = 4,
    RS_CALL_PUSH = 5,
    RS_CALL_DROP = 6,
    RS_CALL_HAND_BACK = 7,
    RS_CALL_ALLOCATE = 8,
    RS_CALL_FIRST = 9,
    RS_CALL_COPY = 10,
    RS_CALL_FETCH = 11,
    RS_CALL_CLEAR = 12,
    RS_CALL_LOAD = 13,
    RS_CALL_SET_POINTER = 14,
    RS_CALL_PUT = 15,
    RS_CALL_GET = 16,
    RS_CALL_VIEW = 17,
    RS_CALL_SAME = 18,
    RS_CALL_ABOUT = 19,
    RS_CALL_REPORT = 20,
    RS_CALL_TOTALS = 21,
    RS_CALL_AUDIT = 22,
    RS_CALL_DELETE = 23,
    RS_CALL_DELETE_ALL = 24,
    RS_CALL_LOCATE = 25
};
// hosts/tables: end

// hosts/tables: begin refusals
enum rs_refusal {
    RS_ACCEPTED = 0,
    RS_HEAP_LENGTH = 1,
    RS_NO_REGION = 2,
    RS_PERMANENT = 3,
    RS_REGIONS_FULL = 4,
    RS_NAMES_OUT = 5,
    RS_NO_FRAME = 6,
    RS_FRAMES_FULL = 7,
    RS_SLOT_COUNT = 8,
    RS_NO_SLOT = 9,
    RS_KINDS_FULL = 10,
    RS_WRONG_MARKS = 11,
    RS_NO_KIND = 12,
    RS_NO_PAGE = 13,
    RS_NULL_OBJECT = 14,
    RS_NO_WORD = 15,
    RS_WRONG_WORD = 16,
    RS_BREAKS_MARK = 17,
    RS_SUBREGION_LIVES = 18,
    RS_OUTSIDE_POINTER = 19,
    RS_TOO_DEEP = 20,
    RS_WRONG_HEAP = 21,
    RS_WRONG_NAMES = 22,
    RS_NO_FILLER = 23,
    RS_NO_CALL = 24
};
// hosts/tables: end

// Why a call was refused.
static inline const char *region_store_reason(uint32_t number)
{
    switch (number) {
    case RS_ACCEPTED: return "accepted";
    // hosts/tables: begin reasons
    case RS_HEAP_LENGTH: return "the heap's length is not 64 times 1 to 256";
    case RS_NO_REGION: return "no live region has that name";
    case RS_PERMANENT: return "region 1 is permanent";
    case RS_REGIONS_FULL: return "64 regions live, the most there can be";
    case RS_NAMES_OUT: return "name 1,000,000 was given, the last there is";
    case RS_NO_FRAME: return "no frame, or fewer than the two that the call needs";
    case RS_FRAMES_FULL: return "32 frames stand, the most there can be";
    case RS_SLOT_COUNT: return "a frame has 1 to 8 slots";
    case RS_NO_SLOT: return "a slot named is not there";
    case RS_KINDS_FULL: return "16 kinds stand, the most there can be";
    case RS_WRONG_MARKS: return "no mark, more than 16 marks, or one above 4";
    case RS_NO_KIND: return "no such kind";
    case RS_NO_PAGE: return "the region has no page, or the object does not fit its newest one, and no page is free";
    case RS_NULL_OBJECT: return "the object slot is null";
    case RS_NO_WORD: return "the object has no such word";
    case RS_WRONG_WORD: return "the word is data where a pointer is wanted, or the other way round; for view, some word is no data";
    case RS_BREAKS_MARK: return "the pointer breaks the word's mark";
    case RS_SUBREGION_LIVES: return "a subregion lives; for delete_all, one that is not named with the others";
    case RS_OUTSIDE_POINTER: return "an outside pointer remains; for delete_all, a slot that leads into a region named, or a free word of a region that is not";
    case RS_TOO_DEEP: return "the region above is at level 16, the deepest";
    case RS_WRONG_HEAP: return "the heap's length is not the one made, or none was made, since make refused";
    case RS_WRONG_NAMES: return "no name, more than 16 names, or one twice";
    case RS_NO_FILLER: return "the filler is above 3";
    case RS_NO_CALL: return "no call has that number";
    // hosts/tables: end
    default: return "no refusal has that number";
    }
}

// ---- The library
//
// A program uses the functions further down; these are what they stand on. No pointer given to them may be null, also where a length is 0: an empty list or heap is some word with the length 0. A reply is five words: the refusal, then the values. The view's three: the refusal, the place in the heap, how many words.
// The functions after region_store_layout make one call each, on what it reads and writes of the state alone. They give the refusal and write the values, zeros where they refuse.
// region_store_layout writes the version of the layout, then of each array the bytes of an element and the number of elements, in the order of struct rs_state, as far as `room` goes. It gives how many numbers a layout has, whether there was room for them or not.

#ifdef __cplusplus
extern "C" {
#endif

// hosts/tables: begin library
void region_store_make(
    uint32_t *numbers, uint8_t *widths, uint32_t *slots, uint8_t *sizes, uint8_t *marks,
    uint32_t *names, uint8_t *parents, uint8_t *levels, uint32_t *shares, uint16_t *newest,
    uint32_t *oldest, uint8_t *owners, uint8_t *taken,
    uint32_t *heap, size_t words, uint32_t *reply);
void region_store_call(
    uint32_t *numbers, uint8_t *widths, uint32_t *slots, uint8_t *sizes, uint8_t *marks,
    uint32_t *names, uint8_t *parents, uint8_t *levels, uint32_t *shares, uint16_t *newest,
    uint32_t *oldest, uint8_t *owners, uint8_t *taken,
    uint32_t *heap, size_t words, uint32_t number, uint32_t a, uint32_t b, uint32_t c, uint32_t d,
    const uint32_t *list, size_t count, uint32_t *reply);
void region_store_view(
    const uint32_t *numbers, const uint8_t *widths, const uint32_t *slots, const uint8_t *sizes, const uint8_t *marks,
    const uint32_t *names, const uint8_t *parents, const uint8_t *levels, const uint32_t *shares, const uint16_t *newest,
    const uint32_t *oldest, const uint8_t *owners, const uint8_t *taken,
    const uint32_t *heap, size_t words, uint32_t slot, uint32_t *out);
void region_store_audit(
    const uint32_t *numbers, const uint8_t *widths, const uint32_t *slots, const uint8_t *sizes, const uint8_t *marks,
    const uint32_t *names, const uint8_t *parents, const uint8_t *levels, const uint32_t *shares, const uint16_t *newest,
    const uint32_t *oldest, const uint8_t *owners, const uint8_t *taken,
    const uint32_t *heap, size_t words, uint32_t *reply);
size_t region_store_layout(uint32_t *out, size_t room);
uint32_t region_store_declare(
    uint32_t made, uint32_t *declared, uint8_t *sizes, uint8_t *marks, const uint32_t *heap, size_t words,
    const uint32_t *list, size_t count, uint32_t *value);
uint32_t region_store_new_region(
    uint32_t made, uint32_t *given, uint32_t *names, uint8_t *parents, uint8_t *levels, uint32_t *shares,
    uint16_t *newest, uint32_t *oldest, const uint32_t *heap, size_t words, uint32_t *value);
uint32_t region_store_subregion(
    uint32_t made, uint32_t *given, uint32_t *names, uint8_t *parents, uint8_t *levels, uint32_t *shares,
    uint16_t *newest, uint32_t *oldest, const uint32_t *heap, size_t words, uint32_t region, uint32_t *value);
uint32_t region_store_push(
    uint32_t made, uint32_t *standing, uint8_t *widths, uint32_t *slots, const uint32_t *heap, size_t words,
    uint32_t count, uint32_t *value);
uint32_t region_store_drop(
    uint32_t made, uint32_t *standing, uint32_t *counted, const uint8_t *widths, const uint32_t *slots,
    uint32_t *shares, const uint8_t *owners, const uint32_t *heap, size_t words, uint32_t filler, uint32_t *value);
uint32_t region_store_hand_back(
    uint32_t made, uint32_t *standing, uint32_t *counted, const uint8_t *widths, uint32_t *slots, uint32_t *shares,
    const uint8_t *owners, const uint32_t *heap, size_t words, uint32_t slot, uint32_t beneath, uint32_t filler,
    uint32_t *value);
uint32_t region_store_allocate(
    uint32_t made, uint32_t standing, uint32_t declared, const uint8_t *widths, uint32_t *slots, const uint8_t *sizes,
    const uint32_t *names, uint16_t *newest, uint32_t *oldest, uint8_t *owners, uint8_t *taken, uint32_t *heap,
    size_t words, uint32_t slot, uint32_t region, uint32_t kind);
uint32_t region_store_first(
    uint32_t made, uint32_t standing, const uint8_t *widths, uint32_t *slots, const uint32_t *names,
    const uint32_t *oldest, const uint32_t *heap, size_t words, uint32_t slot, uint32_t region);
uint32_t region_store_copy(
    uint32_t made, uint32_t standing, const uint8_t *widths, uint32_t *slots, const uint32_t *heap, size_t words,
    uint32_t from, uint32_t to);
uint32_t region_store_fetch(
    uint32_t made, uint32_t standing, const uint8_t *widths, uint32_t *slots, const uint32_t *heap, size_t words,
    uint32_t beneath, uint32_t slot);
uint32_t region_store_clear(
    uint32_t made, uint32_t standing, const uint8_t *widths, uint32_t *slots, const uint32_t *heap, size_t words,
    uint32_t slot);
uint32_t region_store_load(
    uint32_t made, uint32_t standing, uint32_t declared, const uint8_t *widths, uint32_t *slots, const uint8_t *sizes,
    const uint8_t *marks, const uint32_t *heap, size_t words, uint32_t slot, uint32_t word, uint32_t to);
uint32_t region_store_set_pointer(
    uint32_t made, uint32_t standing, uint32_t declared, const uint8_t *widths, const uint32_t *slots,
    const uint8_t *sizes, const uint8_t *marks, const uint32_t *names, const uint8_t *parents, const uint8_t *levels,
    uint32_t *shares, const uint8_t *owners, uint32_t *heap, size_t words, uint32_t slot, uint32_t word,
    uint32_t value, uint32_t filler);
uint32_t region_store_put(
    uint32_t made, uint32_t standing, uint32_t declared, const uint8_t *widths, const uint32_t *slots,
    const uint8_t *sizes, const uint8_t *marks, uint32_t *heap, size_t words, uint32_t slot, uint32_t word,
    uint32_t number);
uint32_t region_store_get(
    uint32_t made, uint32_t standing, uint32_t declared, const uint8_t *widths, const uint32_t *slots,
    const uint8_t *sizes, const uint8_t *marks, const uint32_t *heap, size_t words, uint32_t slot, uint32_t word,
    uint32_t *value);
uint32_t region_store_same(
    uint32_t made, uint32_t standing, const uint8_t *widths, const uint32_t *slots, const uint32_t *heap, size_t words,
    uint32_t slot, uint32_t other, uint32_t *value);
uint32_t region_store_about(
    uint32_t made, uint32_t standing, const uint8_t *widths, const uint32_t *slots, const uint32_t *names,
    const uint8_t *owners, const uint32_t *heap, size_t words, uint32_t slot, uint32_t *values);
uint32_t region_store_report(
    uint32_t made, uint32_t standing, uint32_t counted, const uint8_t *widths, const uint32_t *slots,
    const uint32_t *names, const uint8_t *parents, const uint32_t *shares, const uint8_t *owners, const uint32_t *heap,
    size_t words, uint32_t region, uint32_t *values);
uint32_t region_store_totals(
    uint32_t made, uint32_t standing, uint32_t counted, const uint32_t *names, const uint8_t *owners, uint32_t *values);
uint32_t region_store_delete(
    uint32_t made, uint32_t standing, uint32_t *counted, uint32_t declared, const uint8_t *widths,
    const uint32_t *slots, const uint8_t *sizes, const uint8_t *marks, uint32_t *names, const uint8_t *parents,
    uint32_t *shares, uint8_t *owners, const uint8_t *taken, const uint32_t *heap, size_t words, uint32_t region,
    uint32_t filler, uint32_t *value);
uint32_t region_store_locate(
    uint32_t made, uint32_t standing, const uint8_t *widths, const uint32_t *slots, const uint32_t *heap, size_t words,
    uint32_t slot, uint32_t *values);
// hosts/tables: end

#ifdef __cplusplus
}
#endif

// Whether the library linked has the layout of this header: 1 or 0. To be asked once, before all else; with another library nothing here is right.
static inline int rs_layout_matches(void)
{
    // hosts/tables: begin widths
    static const uint32_t mine[] = {
        RS_LAYOUT_VERSION, 4, 5, 1, 32, 4, 256, 1, 16, 1, 256, 4, 64,
        1, 64, 1, 64, 4, 256, 2, 64, 4, 64, 1, 256,
        1, 256
    };
    // hosts/tables: end
    uint32_t its[sizeof mine / sizeof mine[0]] = {0};
    size_t count = sizeof mine / sizeof mine[0];
    return region_store_layout(its, count) == count && memcmp(its, mine, sizeof mine) == 0;
}

static inline struct rs_reply rs_reply_of(const uint32_t *words)
{
    struct rs_reply reply;
    reply.refusal = words[0];
    memcpy(reply.values, words + 1, sizeof reply.values);
    return reply;
}

// ---- The calls

// Makes a store of the heap: every word becomes 0, every page free, and region 1, the permanent one, lives. What s held before does not matter.
// heap, words: the heap, and how many words it has, 64 for each page.
// No values.
// Refused by RS_HEAP_LENGTH. Then the heap has not changed, but the state has: its arrays are all zeros, whatever they held, and s holds no store. Totals gives zeros, audit 0, and all other calls are refused by RS_WRONG_HEAP.
// A heap that is NULL counts as one of 0 words; s->heap is then some word that is never lent.
static inline struct rs_reply rs_make(struct rs_store *s, uint32_t *heap, size_t words)
{
    static uint32_t none;
    uint32_t reply[5] = {0, 0, 0, 0, 0};
    s->heap = heap ? heap : &none;
    s->words = heap ? words : 0;
    region_store_make(RS_LENT(&s->state), s->heap, s->words, reply);
    return rs_reply_of(reply);
}

// Makes any call but make by its number, of enum rs_call_number. It takes its numbers from a, b, c and d from the left, in the order of its function below, and its list from the list; the rest is ignored.
// Of view it gives the refusal alone.
// Any other number is refused by RS_NO_CALL. A list that is NULL counts as an empty one.
static inline struct rs_reply rs_call(struct rs_store *s, uint32_t number, uint32_t a, uint32_t b, uint32_t c, uint32_t d, const uint32_t *list, size_t count)
{
    const uint32_t none = 0;
    uint32_t reply[5] = {0, 0, 0, 0, 0};
    region_store_call(
        RS_LENT(&s->state), s->heap, s->words, number, a, b, c, d, list ? list : &none, list ? count : 0, reply);
    return rs_reply_of(reply);
}

// Gives the words of an object without pointers: the part of the heap itself, no copy. They change with every put, and mean nothing once the object's region is deleted.
// slot: a slot of the top frame, from 0 on.
// Refused by RS_WRONG_HEAP, RS_NO_FRAME, RS_NO_SLOT, RS_NULL_OBJECT, RS_WRONG_WORD.
static inline struct rs_view rs_view(const struct rs_store *s, uint32_t slot)
{
    uint32_t out[3] = {0, 0, 0};
    struct rs_view view;
    region_store_view(RS_LENT(&s->state), s->heap, s->words, slot, out);
    view.refusal = out[0];
    view.words = out[0] == RS_ACCEPTED ? s->heap + out[1] : NULL;
    view.count = out[0] == RS_ACCEPTED ? out[2] : 0;
    return view;
}

// hosts/tables: begin calls
// Declares a kind of object by a mark for each word: 0 data, 1 free pointer, 2 same region, 3 up, 4 forever.
// marks, count of them: a mark for each of the 1 to 16 words of an object of the kind.
// values[0]: kind, a kind's number, from 1 on.
// Refused by RS_WRONG_HEAP, RS_WRONG_MARKS, RS_KINDS_FULL.
static inline struct rs_reply rs_declare(struct rs_store *s, const uint32_t *marks, size_t count)
{
    struct rs_state *t = &s->state;
    struct rs_reply reply = {0, {0, 0, 0, 0}};
    uint32_t value;
    const uint32_t none = 0;
    reply.refusal = region_store_declare(
        t->numbers[RS_MADE], &t->numbers[RS_DECLARED], t->sizes, t->marks, s->heap, s->words, marks ? marks : &none,
        marks ? count : 0, &value);
    reply.values[0] = value;
    return reply;
}

// Makes a region that lies in no other, and gives its name.
// values[0]: region, a region's name, a number from 1 on.
// Refused by RS_WRONG_HEAP, RS_REGIONS_FULL, RS_NAMES_OUT.
static inline struct rs_reply rs_new_region(struct rs_store *s)
{
    struct rs_state *t = &s->state;
    struct rs_reply reply = {0, {0, 0, 0, 0}};
    uint32_t value;
    reply.refusal = region_store_new_region(
        t->numbers[RS_MADE], &t->numbers[RS_GIVEN], t->names, t->parents, t->levels, t->shares, t->newest, t->oldest,
        s->heap, s->words, &value);
    reply.values[0] = value;
    return reply;
}

// Makes a region inside a region, and gives its name.
// region: a region's name, a number from 1 on.
// values[0]: region, a region's name, a number from 1 on.
// Refused by RS_WRONG_HEAP, RS_NO_REGION, RS_TOO_DEEP, RS_REGIONS_FULL, RS_NAMES_OUT.
static inline struct rs_reply rs_subregion(struct rs_store *s, uint32_t region)
{
    struct rs_state *t = &s->state;
    struct rs_reply reply = {0, {0, 0, 0, 0}};
    uint32_t value;
    reply.refusal = region_store_subregion(
        t->numbers[RS_MADE], &t->numbers[RS_GIVEN], t->names, t->parents, t->levels, t->shares, t->newest, t->oldest,
        s->heap, s->words, region, &value);
    reply.values[0] = value;
    return reply;
}

// Puts a frame of 1 to 8 null slots on the stack, and gives how many frames stand.
// slots: how many slots the frame has, 1 to 8.
// values[0]: frames.
// Refused by RS_WRONG_HEAP, RS_SLOT_COUNT, RS_FRAMES_FULL.
static inline struct rs_reply rs_push(struct rs_store *s, uint32_t slots)
{
    struct rs_state *t = &s->state;
    struct rs_reply reply = {0, {0, 0, 0, 0}};
    uint32_t value;
    reply.refusal = region_store_push(
        t->numbers[RS_MADE], &t->numbers[RS_STANDING], t->widths, t->slots, s->heap, s->words, slots, &value);
    reply.values[0] = value;
    return reply;
}

// Takes the top frame off the stack, and gives how many frames stand.
// filler: whom the call acts for, 0 to 3; 0 where one program has the store to itself.
// values[0]: frames.
// Refused by RS_WRONG_HEAP, RS_NO_FILLER, RS_NO_FRAME.
static inline struct rs_reply rs_drop(struct rs_store *s, uint32_t filler)
{
    struct rs_state *t = &s->state;
    struct rs_reply reply = {0, {0, 0, 0, 0}};
    uint32_t value;
    reply.refusal = region_store_drop(
        t->numbers[RS_MADE], &t->numbers[RS_STANDING], &t->numbers[RS_COUNTED], t->widths, t->slots, t->shares,
        t->owners, s->heap, s->words, filler, &value);
    reply.values[0] = value;
    return reply;
}

// Takes the top frame off the stack, and puts what one of its slots held into a slot of the frame beneath it.
// slot: a slot of the top frame, from 0 on.
// beneath: a slot of the frame beneath the top one, from 0 on.
// filler: whom the call acts for, 0 to 3; 0 where one program has the store to itself.
// values[0]: frames.
// Refused by RS_WRONG_HEAP, RS_NO_FILLER, RS_NO_FRAME, RS_NO_SLOT.
static inline struct rs_reply rs_hand_back(struct rs_store *s, uint32_t slot, uint32_t beneath, uint32_t filler)
{
    struct rs_state *t = &s->state;
    struct rs_reply reply = {0, {0, 0, 0, 0}};
    uint32_t value;
    reply.refusal = region_store_hand_back(
        t->numbers[RS_MADE], &t->numbers[RS_STANDING], &t->numbers[RS_COUNTED], t->widths, t->slots, t->shares,
        t->owners, s->heap, s->words, slot, beneath, filler, &value);
    reply.values[0] = value;
    return reply;
}

// Makes an object of a kind in a region, its words 0 or null, and leads a slot to it.
// slot: a slot of the top frame, from 0 on.
// region: a region's name, a number from 1 on.
// kind: a kind's number, from 1 on.
// No values.
// Refused by RS_WRONG_HEAP, RS_NO_FRAME, RS_NO_SLOT, RS_NO_REGION, RS_NO_KIND, RS_NO_PAGE.
static inline struct rs_reply rs_allocate(struct rs_store *s, uint32_t slot, uint32_t region, uint32_t kind)
{
    struct rs_state *t = &s->state;
    struct rs_reply reply = {0, {0, 0, 0, 0}};
    reply.refusal = region_store_allocate(
        t->numbers[RS_MADE], t->numbers[RS_STANDING], t->numbers[RS_DECLARED], t->widths, t->slots, t->sizes, t->names,
        t->newest, t->oldest, t->owners, t->taken, s->heap, s->words, slot, region, kind);
    return reply;
}

// Leads a slot to the first object of a region, or makes it null where there is none.
// slot: a slot of the top frame, from 0 on.
// region: a region's name, a number from 1 on.
// No values.
// Refused by RS_WRONG_HEAP, RS_NO_FRAME, RS_NO_SLOT, RS_NO_REGION.
static inline struct rs_reply rs_first(struct rs_store *s, uint32_t slot, uint32_t region)
{
    struct rs_state *t = &s->state;
    struct rs_reply reply = {0, {0, 0, 0, 0}};
    reply.refusal = region_store_first(
        t->numbers[RS_MADE], t->numbers[RS_STANDING], t->widths, t->slots, t->names, t->oldest, s->heap, s->words,
        slot, region);
    return reply;
}

// Leads a slot to where another one leads.
// from: the slot of the top frame that is read.
// to: the slot of the top frame that is led there.
// No values.
// Refused by RS_WRONG_HEAP, RS_NO_FRAME, RS_NO_SLOT.
static inline struct rs_reply rs_copy(struct rs_store *s, uint32_t from, uint32_t to)
{
    struct rs_state *t = &s->state;
    struct rs_reply reply = {0, {0, 0, 0, 0}};
    reply.refusal = region_store_copy(
        t->numbers[RS_MADE], t->numbers[RS_STANDING], t->widths, t->slots, s->heap, s->words, from, to);
    return reply;
}

// Leads a slot to where a slot of the frame beneath leads.
// beneath: a slot of the frame beneath the top one, from 0 on.
// slot: a slot of the top frame, from 0 on.
// No values.
// Refused by RS_WRONG_HEAP, RS_NO_FRAME, RS_NO_SLOT.
static inline struct rs_reply rs_fetch(struct rs_store *s, uint32_t beneath, uint32_t slot)
{
    struct rs_state *t = &s->state;
    struct rs_reply reply = {0, {0, 0, 0, 0}};
    reply.refusal = region_store_fetch(
        t->numbers[RS_MADE], t->numbers[RS_STANDING], t->widths, t->slots, s->heap, s->words, beneath, slot);
    return reply;
}

// Makes a slot null.
// slot: a slot of the top frame, from 0 on.
// No values.
// Refused by RS_WRONG_HEAP, RS_NO_FRAME, RS_NO_SLOT.
static inline struct rs_reply rs_clear(struct rs_store *s, uint32_t slot)
{
    struct rs_state *t = &s->state;
    struct rs_reply reply = {0, {0, 0, 0, 0}};
    reply.refusal = region_store_clear(
        t->numbers[RS_MADE], t->numbers[RS_STANDING], t->widths, t->slots, s->heap, s->words, slot);
    return reply;
}

// Leads a slot to where a pointer word of an object leads.
// slot: a slot of the top frame, from 0 on.
// word: a word of the object, from 0 on.
// to: the slot of the top frame that is led there.
// No values.
// Refused by RS_WRONG_HEAP, RS_NO_FRAME, RS_NO_SLOT, RS_NULL_OBJECT, RS_NO_WORD, RS_WRONG_WORD.
static inline struct rs_reply rs_load(struct rs_store *s, uint32_t slot, uint32_t word, uint32_t to)
{
    struct rs_state *t = &s->state;
    struct rs_reply reply = {0, {0, 0, 0, 0}};
    reply.refusal = region_store_load(
        t->numbers[RS_MADE], t->numbers[RS_STANDING], t->numbers[RS_DECLARED], t->widths, t->slots, t->sizes, t->marks,
        s->heap, s->words, slot, word, to);
    return reply;
}

// Leads a pointer word of an object to where a slot leads, if the word's mark allows it.
// slot: a slot of the top frame, from 0 on.
// word: a word of the object, from 0 on.
// value: the slot of the top frame that leads where the word is to lead (not a pointer itself); a null slot makes the word null.
// filler: whom the call acts for, 0 to 3; 0 where one program has the store to itself.
// No values.
// Refused by RS_WRONG_HEAP, RS_NO_FILLER, RS_NO_FRAME, RS_NO_SLOT, RS_NULL_OBJECT, RS_NO_WORD, RS_WRONG_WORD, RS_BREAKS_MARK.
static inline struct rs_reply rs_set_pointer(struct rs_store *s, uint32_t slot, uint32_t word, uint32_t value, uint32_t filler)
{
    struct rs_state *t = &s->state;
    struct rs_reply reply = {0, {0, 0, 0, 0}};
    reply.refusal = region_store_set_pointer(
        t->numbers[RS_MADE], t->numbers[RS_STANDING], t->numbers[RS_DECLARED], t->widths, t->slots, t->sizes, t->marks,
        t->names, t->parents, t->levels, t->shares, t->owners, s->heap, s->words, slot, word, value, filler);
    return reply;
}

// Writes a data word of an object.
// slot: a slot of the top frame, from 0 on.
// word: a word of the object, from 0 on.
// number: what the data word holds, a number of 32 bits.
// No values.
// Refused by RS_WRONG_HEAP, RS_NO_FRAME, RS_NO_SLOT, RS_NULL_OBJECT, RS_NO_WORD, RS_WRONG_WORD.
static inline struct rs_reply rs_put(struct rs_store *s, uint32_t slot, uint32_t word, uint32_t number)
{
    struct rs_state *t = &s->state;
    struct rs_reply reply = {0, {0, 0, 0, 0}};
    reply.refusal = region_store_put(
        t->numbers[RS_MADE], t->numbers[RS_STANDING], t->numbers[RS_DECLARED], t->widths, t->slots, t->sizes, t->marks,
        s->heap, s->words, slot, word, number);
    return reply;
}

// Reads a data word of an object.
// slot: a slot of the top frame, from 0 on.
// word: a word of the object, from 0 on.
// values[0]: number, what the data word holds, a number of 32 bits.
// Refused by RS_WRONG_HEAP, RS_NO_FRAME, RS_NO_SLOT, RS_NULL_OBJECT, RS_NO_WORD, RS_WRONG_WORD.
static inline struct rs_reply rs_get(struct rs_store *s, uint32_t slot, uint32_t word)
{
    struct rs_state *t = &s->state;
    struct rs_reply reply = {0, {0, 0, 0, 0}};
    uint32_t value;
    reply.refusal = region_store_get(
        t->numbers[RS_MADE], t->numbers[RS_STANDING], t->numbers[RS_DECLARED], t->widths, t->slots, t->sizes, t->marks,
        s->heap, s->words, slot, word, &value);
    reply.values[0] = value;
    return reply;
}

// Tells whether two slots lead to one object, or are both null.
// slot: a slot of the top frame, from 0 on.
// other: the other slot, of the top frame too.
// values[0]: same, 1 or 0.
// Refused by RS_WRONG_HEAP, RS_NO_FRAME, RS_NO_SLOT.
static inline struct rs_reply rs_same(struct rs_store *s, uint32_t slot, uint32_t other)
{
    struct rs_state *t = &s->state;
    struct rs_reply reply = {0, {0, 0, 0, 0}};
    uint32_t value;
    reply.refusal = region_store_same(
        t->numbers[RS_MADE], t->numbers[RS_STANDING], t->widths, t->slots, s->heap, s->words, slot, other, &value);
    reply.values[0] = value;
    return reply;
}

// Gives the region and the kind of the object that a slot leads to, 0 and 0 for null.
// slot: a slot of the top frame, from 0 on.
// values[0]: region, the name of the object's region, 0 for null.
// values[1]: kind, the number of its kind, 0 for null.
// Refused by RS_WRONG_HEAP, RS_NO_FRAME, RS_NO_SLOT.
static inline struct rs_reply rs_about(struct rs_store *s, uint32_t slot)
{
    struct rs_state *t = &s->state;
    struct rs_reply reply = {0, {0, 0, 0, 0}};
    reply.refusal = region_store_about(
        t->numbers[RS_MADE], t->numbers[RS_STANDING], t->widths, t->slots, t->names, t->owners, s->heap, s->words,
        slot, reply.values);
    return reply;
}

// Gives a region's stored count, its outside pointers, its pages, and the live subregions directly below it.
// region: a region's name, a number from 1 on.
// values[0]: count, the stored count.
// values[1]: outside, its outside pointers.
// values[2]: pages, the pages that it holds.
// values[3]: subregions, the live subregions directly below it.
// Refused by RS_WRONG_HEAP, RS_NO_REGION.
static inline struct rs_reply rs_report(struct rs_store *s, uint32_t region)
{
    struct rs_state *t = &s->state;
    struct rs_reply reply;
    reply.refusal = region_store_report(
        t->numbers[RS_MADE], t->numbers[RS_STANDING], t->numbers[RS_COUNTED], t->widths, t->slots, t->names,
        t->parents, t->shares, t->owners, s->heap, s->words, region, reply.values);
    return reply;
}

// Gives how many pages are free, regions live, frames stand and frames are counted.
// values[0]: free_pages, the pages that are free.
// values[1]: regions, the regions that live, region 1 among them.
// values[2]: frames, the frames that stand.
// values[3]: counted, the frames, from the lowest on, that are counted.
// Never refused.
static inline struct rs_reply rs_totals(struct rs_store *s)
{
    struct rs_state *t = &s->state;
    struct rs_reply reply;
    reply.refusal = region_store_totals(
        t->numbers[RS_MADE], t->numbers[RS_STANDING], t->numbers[RS_COUNTED], t->names, t->owners, reply.values);
    return reply;
}

// Tells whether the memory is a sound store, by counting everything anew.
// values[0]: sound, 1 or 0.
// Never refused.
static inline struct rs_reply rs_audit(struct rs_store *s)
{
    uint32_t reply[5] = {0, 0, 0, 0, 0};
    region_store_audit(RS_LENT(&s->state), s->heap, s->words, reply);
    return rs_reply_of(reply);
}

// Deletes a region, and gives how many pages that frees.
// region: a region's name, a number from 1 on.
// filler: whom the call acts for, 0 to 3; 0 where one program has the store to itself.
// values[0]: pages.
// Refused by RS_WRONG_HEAP, RS_NO_FILLER, RS_NO_REGION, RS_PERMANENT, RS_SUBREGION_LIVES, RS_OUTSIDE_POINTER.
static inline struct rs_reply rs_delete(struct rs_store *s, uint32_t region, uint32_t filler)
{
    struct rs_state *t = &s->state;
    struct rs_reply reply = {0, {0, 0, 0, 0}};
    uint32_t value;
    reply.refusal = region_store_delete(
        t->numbers[RS_MADE], t->numbers[RS_STANDING], &t->numbers[RS_COUNTED], t->numbers[RS_DECLARED], t->widths,
        t->slots, t->sizes, t->marks, t->names, t->parents, t->shares, t->owners, t->taken, s->heap, s->words, region,
        filler, &value);
    reply.values[0] = value;
    return reply;
}

// Deletes 1 to 16 regions that may lead into each other, all or none, and gives how many pages that frees. Refusals 2 and 3 are tested for one name after the other.
// regions, count of them: the names of 1 to 16 regions, each once.
// filler: whom the call acts for, 0 to 3; 0 where one program has the store to itself.
// values[0]: pages.
// Refused by RS_WRONG_HEAP, RS_NO_FILLER, RS_WRONG_NAMES, RS_NO_REGION, RS_PERMANENT, RS_SUBREGION_LIVES, RS_OUTSIDE_POINTER.
static inline struct rs_reply rs_delete_all(struct rs_store *s, const uint32_t *regions, size_t count, uint32_t filler)
{
    return rs_call(s, RS_CALL_DELETE_ALL, filler, 0, 0, 0, regions, count);
}

// Gives the page of the object that a slot leads to and the word of its header there, 256 and 0 for null.
// slot: a slot of the top frame, from 0 on.
// values[0]: page, the page on which the object lies, from 0 on, 256 for null.
// values[1]: word, the word of that page at which its header stands, from 0 on, 0 for null.
// Refused by RS_WRONG_HEAP, RS_NO_FRAME, RS_NO_SLOT.
static inline struct rs_reply rs_locate(struct rs_store *s, uint32_t slot)
{
    struct rs_state *t = &s->state;
    struct rs_reply reply = {0, {0, 0, 0, 0}};
    reply.refusal = region_store_locate(
        t->numbers[RS_MADE], t->numbers[RS_STANDING], t->widths, t->slots, s->heap, s->words, slot, reply.values);
    return reply;
}
// hosts/tables: end

#endif
