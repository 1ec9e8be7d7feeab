// Makes a random session with drive, one line at a time, and keeps its script and its answers.
//   random DRIVE SEED CALLS SCRIPT ANSWERS
// Starts the program DRIVE, sends it CALLS calls, makes of a store among them, and writes the lines to SCRIPT and what it answers to ANSWERS. One seed gives one session. At the end it prints how often each refusal came.
//
// It keeps a sketch of the store, by the answers: regions, kinds, frames, objects and where their words lead. The sketch only serves to choose calls that mean something; what it has wrong costs a few refusals.
//
// The session fills the store and empties it, in turn. So that it can always be emptied again, a free word leads to another region only within a group of eight names; words of a region's first object, which can be had at any time, may lead anywhere. A subregion has a later name than the region above, so the regions of the last group can always go together.
#define _POSIX_C_SOURCE 200809L
#include <inttypes.h>
#include <signal.h>
#include <stdio.h>
#include <stdlib.h>
#include <sys/types.h>
#include <sys/wait.h>
#include <unistd.h>

#include "c/by_name.h"

#define REGIONS 64
#define KINDS 16
#define WORDS 16
#define FRAMES 32
#define SLOTS 8
#define OBJECTS (RS_MOST_PAGES * RS_PAGE_WORDS / 2 + 1)
#define GROUP 8
#define MOST_LISTED 20
#define EXTREME 4294967295u

// ---- Chance

static uint64_t chance;

static uint32_t any(void)
{
    uint64_t z = chance += 0x9E3779B97F4A7C15u;
    z = (z ^ z >> 30) * 0xBF58476D1CE4E5B9u;
    z = (z ^ z >> 27) * 0x94D049BB133111EBu;
    return (uint32_t)((z ^ z >> 31) >> 32);
}

// A number below n; n is not 0.
static uint32_t below(uint32_t n) { return (uint32_t)((uint64_t)any() * n >> 32); }

// True so many times in a thousand.
static int seldom(uint32_t times) { return below(1000) < times; }

// ---- The sketch of the store. Objects are named from 1 here, 0 is null; regions by entry, and entry 0 is region 1.

struct object {
    uint32_t region;
    uint32_t kind;
    uint32_t next; // the object of its region made before it, or the next one not in use
    uint32_t words[WORDS];
};

struct region {
    uint32_t name; // 0 for an entry not in use
    uint32_t above; // an entry
    uint32_t level;
    uint32_t first, last;
    uint32_t slots; // how many slots lead into it
    uint32_t leads[REGIONS]; // how many free words lead to each other region
};

struct kind {
    uint32_t size;
    uint32_t marks[WORDS];
};

static struct object objects[OBJECTS];
static uint32_t unused; // the first object not in use
static struct region regions[REGIONS];
static uint32_t live;
static struct kind kinds[KINDS + 1];
static uint32_t declared;
static uint32_t widths[FRAMES], slots[FRAMES][SLOTS], standing;
static uint32_t pages, filled_in_one;
static uint32_t last_name = 1;

static void begin(uint32_t n)
{
    uint32_t i;
    pages = n;
    for (i = 1; i + 1 < OBJECTS; i++) objects[i].next = i + 1;
    unused = 1;
    regions[0].name = 1;
    regions[0].level = 1;
    live = 1;
}

static uint32_t *top(void) { return slots[standing - 1]; }

static struct kind *kind_of(uint32_t o) { return &kinds[objects[o].kind]; }

static void lead_slot(uint32_t *slot, uint32_t o)
{
    if (*slot) regions[objects[*slot].region].slots--;
    *slot = o;
    if (o) regions[objects[o].region].slots++;
}

// How often a word leads from its region to another as a free pointer, by the word's object and where it leads.
static uint32_t *led(uint32_t o, uint32_t w)
{
    static uint32_t nowhere;
    uint32_t to = objects[o].words[w];
    if (!to || kind_of(o)->marks[w] != 1 || objects[to].region == objects[o].region) return &nowhere;
    return &regions[objects[o].region].leads[objects[to].region];
}

static void lead_word(uint32_t o, uint32_t w, uint32_t to)
{
    --*led(o, w);
    objects[o].words[w] = to;
    ++*led(o, w);
}

static void drop_frame(void)
{
    uint32_t i;
    for (i = 0; i < widths[standing - 1]; i++) lead_slot(&top()[i], 0);
    standing--;
}

// The entry of a live region, or REGIONS.
static uint32_t entry_of(uint32_t name)
{
    uint32_t i;
    for (i = 0; i < REGIONS; i++)
        if (name && regions[i].name == name) return i;
    return REGIONS;
}

static void add_region(uint32_t name, uint32_t above, uint32_t level)
{
    uint32_t i = 0;
    while (regions[i].name) i++;
    memset(&regions[i], 0, sizeof regions[i]);
    regions[i].name = last_name = name;
    regions[i].above = above;
    regions[i].level = level;
    live++;
}

static void remove_region(uint32_t name)
{
    uint32_t e = entry_of(name), o = regions[e].last, i, next;
    for (; o; o = next) {
        next = objects[o].next;
        objects[o].next = unused;
        unused = o;
    }
    for (i = 0; i < REGIONS; i++) regions[i].leads[e] = 0;
    regions[e].name = 0;
    live--;
}

static uint32_t add_object(uint32_t region, uint32_t kind)
{
    uint32_t o = unused;
    unused = objects[o].next;
    memset(&objects[o], 0, sizeof objects[o]);
    objects[o].region = region;
    objects[o].kind = kind;
    objects[o].next = regions[region].last;
    regions[region].last = o;
    if (!regions[region].first) regions[region].first = o;
    if (region == 0) filled_in_one += kinds[kind].size + 1;
    return o;
}

// ---- A call, and what it does to the sketch where it is accepted

struct call {
    uint32_t number;
    uint32_t n[4];
    uint32_t list[MOST_LISTED];
    uint32_t count;
};

static void declare(const struct call *c)
{
    struct kind *k = &kinds[++declared];
    k->size = c->count;
    memcpy(k->marks, c->list, sizeof(uint32_t) * c->count);
}

static void hand_back(uint32_t slot, uint32_t beneath)
{
    uint32_t o = top()[slot];
    lead_slot(&slots[standing - 2][beneath], o);
    drop_frame();
}

static void accepted(const struct call *c, uint32_t value)
{
    const uint32_t *n = c->n;
    uint32_t i;
    switch (c->number) {
    case RS_CALL_DECLARE: declare(c); break;
    case RS_CALL_NEW_REGION: add_region(value, REGIONS, 1); break;
    case RS_CALL_SUBREGION: add_region(value, entry_of(n[0]), regions[entry_of(n[0])].level + 1); break;
    case RS_CALL_PUSH: widths[standing++] = n[0]; break;
    case RS_CALL_DROP: drop_frame(); break;
    case RS_CALL_HAND_BACK: hand_back(n[0], n[1]); break;
    case RS_CALL_ALLOCATE: lead_slot(&top()[n[0]], add_object(entry_of(n[1]), n[2])); break;
    case RS_CALL_FIRST: lead_slot(&top()[n[0]], regions[entry_of(n[1])].first); break;
    case RS_CALL_COPY: lead_slot(&top()[n[1]], top()[n[0]]); break;
    case RS_CALL_FETCH: lead_slot(&top()[n[1]], slots[standing - 2][n[0]]); break;
    case RS_CALL_CLEAR: lead_slot(&top()[n[0]], 0); break;
    case RS_CALL_LOAD: lead_slot(&top()[n[2]], objects[top()[n[0]]].words[n[1]]); break;
    case RS_CALL_SET_POINTER: lead_word(top()[n[0]], n[1], top()[n[2]]); break;
    case RS_CALL_DELETE: remove_region(n[0]); break;
    case RS_CALL_DELETE_ALL: for (i = 0; i < c->count; i++) remove_region(c->list[i]); break;
    default: break;
    }
}

// ---- Arguments that mean something

// What the session is at: filling pages, making regions, or emptying the store; how often it has emptied it; whether frames are piled up meanwhile; whether no page was free of late.
enum aim { FILLING, PARTING, EMPTYING };
static enum aim aim;
static uint64_t turns;
static int deep, full;

static uint32_t width(void) { return standing ? widths[standing - 1] : 2; }

// The place of a slot of the top frame, null or not as wanted, if chance finds one soon.
static uint32_t pick_slot(int null)
{
    uint32_t s = below(width()), tries;
    for (tries = 0; standing && tries < 6 && (top()[s] == 0) != null; tries++) s = below(width());
    return s;
}

// An entry in use; later ones more often.
static uint32_t pick_entry(void)
{
    uint32_t e = below(REGIONS), other = below(REGIONS);
    while (!regions[e].name) e = (e + 1) % REGIONS;
    while (!regions[other].name) other = (other + 1) % REGIONS;
    return regions[other].name > regions[e].name ? other : e;
}

// Objects of region 1 stay, so they get a quarter of the pages, and none of fewer than four.
static int room_in_one(void) { return pages >= 4 && filled_in_one < pages * RS_PAGE_WORDS / 4; }

static uint32_t deepest(void)
{
    uint32_t e = 0, i;
    for (i = 1; i < REGIONS; i++)
        if (regions[i].name && regions[i].level > regions[e].level) e = i;
    return e;
}

static uint32_t pick_region(const struct call *c)
{
    uint32_t e = pick_entry();
    if (c->number == RS_CALL_SUBREGION && seldom(400)) e = deepest();
    if (c->number == RS_CALL_SUBREGION && regions[e].level == 16 && seldom(800)) e = pick_entry();
    if (c->number != RS_CALL_ALLOCATE || e != 0) return regions[e].name;
    if (room_in_one() && seldom(300)) return 1;
    return last_name > 1 ? last_name : 2;
}

static int pointer_wanted(uint32_t number) { return number == RS_CALL_LOAD || number == RS_CALL_SET_POINTER; }

// A word of the object in a slot that the call can take; where it has none, any number.
static uint32_t pick_word(uint32_t number, uint32_t slot)
{
    uint32_t o = standing && slot < width() ? top()[slot] : 0;
    uint32_t size = o ? kind_of(o)->size : WORDS;
    uint32_t w = below(size), tries;
    for (tries = 0; o && tries < 8; tries++) {
        int pointer = kind_of(o)->marks[w] != 0;
        if (pointer == pointer_wanted(number) && !(aim == EMPTYING && pointer && !objects[o].words[w] && tries < 5)) break;
        w = below(size);
    }
    return w;
}

// Whether a word may lead to an object by its mark, and should, so that the store can be emptied again.
static int suits(uint32_t o, uint32_t w, uint32_t to)
{
    uint32_t mark = w < kind_of(o)->size ? kind_of(o)->marks[w] : 0;
    uint32_t from = objects[o].region, into = objects[to].region, e;
    if (!to) return 1;
    if (mark == 1) return from == into || regions[from].first == o || (from && regions[from].name / GROUP == regions[into].name / GROUP);
    if (mark == 2) return from == into;
    if (mark == 4) return into == 0;
    for (e = from; e != into; e = regions[e].above)
        if (regions[e].above == REGIONS || e == 0) return 0;
    return 1;
}

// The slot that a word is to lead to: one that suits, or one that is not there. A word that is not counted may be led anywhere, which its mark may forbid.
static uint32_t pick_value(uint32_t slot, uint32_t word)
{
    uint32_t o = standing && slot < width() ? top()[slot] : 0;
    uint32_t v = pick_slot(aim == EMPTYING), tries, i;
    if (!o) return v;
    if (word < kind_of(o)->size && kind_of(o)->marks[word] != 1 && seldom(250)) return v;
    for (tries = 0; tries < 8 && !suits(o, word, top()[v]); tries++) v = below(width());
    for (i = 0; i < width() && !suits(o, word, top()[v]); i++) v = (v + 1) % width();
    return suits(o, word, top()[v]) ? v : width();
}

// A kind; in large stores more often one with many words.
static uint32_t pick_kind(void)
{
    uint32_t k = 1 + below(declared ? declared : 1), other = 1 + below(declared ? declared : 1);
    return pages > 60 && kinds[other].size > kinds[k].size ? other : k;
}

static uint32_t pick_number(void)
{
    if (seldom(100)) return EXTREME;
    return seldom(500) ? any() : below(100);
}

// ---- Deletes

// What has to go with a region: its subregions, and the regions with free words that lead there, and so on. Gives how many entries, or 0 where a slot or a word of region 1 leads there or it is more than 16.
static uint32_t together(uint32_t e, uint32_t *list)
{
    char named[REGIONS] = {0};
    uint32_t count = 0, done, i;
    list[count++] = e;
    named[e] = 1;
    for (done = 0; done < count; done++) {
        uint32_t r = list[done];
        if (r == 0 || regions[r].slots) return 0;
        for (i = 0; i < REGIONS; i++) {
            if (named[i] || !regions[i].name) continue;
            if (!regions[i].leads[r] && !(i && regions[i].above == r)) continue;
            if (count == 16) return 0;
            named[i] = 1;
            list[count++] = i;
        }
    }
    return count;
}

static void shuffle(uint32_t *list, uint32_t count)
{
    uint32_t i, j, held;
    for (i = count; i > 1; i--) {
        j = below(i);
        held = list[i - 1];
        list[i - 1] = list[j];
        list[j] = held;
    }
}

// The names for delete_all, or the one for delete: such as can go, if chance finds some soon.
static void pick_deleted(struct call *c, uint32_t most)
{
    uint32_t tries, i, e;
    c->count = 0;
    for (tries = 0; tries < 8 && (c->count == 0 || c->count > most); tries++) {
        e = pick_entry();
        c->count = together(e, c->list);
    }
    if (c->count == 0 || c->count > most) {
        c->count = 1 + below(most < 3 ? most : 3);
        for (i = 0; i < c->count; i++) c->list[i] = pick_entry();
    }
    for (i = 0; i < c->count; i++) c->list[i] = regions[c->list[i]].name;
    shuffle(c->list, c->count);
    if (most == 1 || c->count == 16 || !seldom(100)) return;
    c->list[c->count++] = pick_entry() ? last_name : 1;
}

// Lists that are refused for their length, or for a name twice.
static void spoil_list(struct call *c)
{
    uint32_t how = below(4), i;
    if (how == 0) c->count = 0;
    if (how == 1)
        for (i = c->count, c->count = 17 + below(MOST_LISTED - 16); i < c->count; i++) c->list[i] = below(5);
    if (how == 2 && c->count && c->count < MOST_LISTED) c->list[c->count++] = c->list[0];
    if (how == 3 && c->count) c->list[below(c->count)] = seldom(500) ? EXTREME : 5;
}

static void pick_marks(struct call *c)
{
    static const uint32_t often[10] = {0, 0, 0, 1, 1, 1, 1, 2, 3, 4};
    uint32_t i;
    int numbers = seldom(250);
    c->count = 1 + below(seldom(300) ? WORDS : 5);
    for (i = 0; i < c->count; i++) c->list[i] = numbers ? 0 : often[below(10)];
}

// ---- Calls

// How often each call is made, by what the session is at; 0 stands for 2.
static const unsigned char weights[3][BY_NAME_CALLS + 1] = {
    {
        [RS_CALL_DECLARE] = 1, [RS_CALL_NEW_REGION] = 4, [RS_CALL_SUBREGION] = 4, [RS_CALL_PUSH] = 5, [RS_CALL_DROP] = 3,
        [RS_CALL_HAND_BACK] = 3, [RS_CALL_ALLOCATE] = 45, [RS_CALL_SET_POINTER] = 18, [RS_CALL_PUT] = 5, [RS_CALL_AUDIT] = 1,
        [RS_CALL_FETCH] = 4, [RS_CALL_LOAD] = 5, [RS_CALL_DELETE] = 1, [RS_CALL_DELETE_ALL] = 1
    },
    {
        [RS_CALL_DECLARE] = 1, [RS_CALL_NEW_REGION] = 20, [RS_CALL_SUBREGION] = 25, [RS_CALL_PUSH] = 5, [RS_CALL_DROP] = 3,
        [RS_CALL_HAND_BACK] = 3, [RS_CALL_ALLOCATE] = 20, [RS_CALL_SET_POINTER] = 20, [RS_CALL_PUT] = 5, [RS_CALL_AUDIT] = 1,
        [RS_CALL_FETCH] = 4, [RS_CALL_LOAD] = 5
    },
    {
        [RS_CALL_DECLARE] = 1, [RS_CALL_NEW_REGION] = 1, [RS_CALL_SUBREGION] = 1, [RS_CALL_PUSH] = 5, [RS_CALL_DROP] = 8,
        [RS_CALL_HAND_BACK] = 4, [RS_CALL_FIRST] = 8, [RS_CALL_CLEAR] = 25, [RS_CALL_SET_POINTER] = 15, [RS_CALL_AUDIT] = 1,
        [RS_CALL_DELETE] = 15, [RS_CALL_DELETE_ALL] = 15
    }
};

static uint32_t weight(uint32_t number)
{
    uint32_t w = weights[aim][number];
    return w ? w : 2;
}

static uint32_t pick_call(void)
{
    uint32_t sum = 0, n, left;
    if (declared < 5 && seldom(300)) return RS_CALL_DECLARE;
    if (standing == 0 && seldom(700)) return RS_CALL_PUSH;
    for (n = RS_CALL_MAKE + 1; n <= BY_NAME_CALLS; n++) sum += weight(n);
    left = below(sum);
    for (n = RS_CALL_MAKE + 1; left >= weight(n); n++) left -= weight(n);
    if (n == RS_CALL_ALLOCATE && full && aim == PARTING && seldom(900)) return RS_CALL_PUT;
    if ((n == RS_CALL_DROP || n == RS_CALL_HAND_BACK) && (deep || standing < 2) && seldom(900)) return RS_CALL_PUSH;
    return n;
}

// A number that is most often none of those that there are.
static uint32_t wild(void)
{
    static const uint32_t some[8] = {EXTREME, EXTREME - 1, 0, 8, 16, 256, 65536, 1000000};
    return seldom(500) ? some[below(8)] : below(300);
}

static int is(const char *name, size_t length, const char *one) { return strlen(one) == length && strncmp(name, one, length) == 0; }

// The argument of a call by its name in the table; those before it are there.
static uint32_t pick(const struct call *c, const char *name, size_t length)
{
    if (is(name, length, "region")) return pick_region(c);
    if (is(name, length, "kind")) return pick_kind();
    if (is(name, length, "slots")) return 1 + below(SLOTS);
    if (is(name, length, "word")) return pick_word(c->number, c->n[0]);
    if (is(name, length, "number")) return pick_number();
    if (is(name, length, "beneath")) return below(standing > 1 ? widths[standing - 2] : 2);
    if (is(name, length, "filler")) return seldom(990) ? below(4) : 4 + below(3);
    if (is(name, length, "value")) return pick_value(c->n[0], c->n[1]);
    if (is(name, length, "to")) return seldom(500) ? pick_slot(1) : below(width());
    return pick_slot(c->number == RS_CALL_ALLOCATE && seldom(500));
}

static void pick_list(struct call *c)
{
    if (c->number == RS_CALL_DECLARE) pick_marks(c);
    else pick_deleted(c, 16);
    if (seldom(c->number == RS_CALL_DECLARE ? 150 : 30)) spoil_list(c);
}

// Now and then a wild number, but none that could keep the store from being emptied: region 1 for an object, or a slot for a word to lead to.
static uint32_t pick_or_wild(const struct call *c, const char *name, size_t length)
{
    uint32_t n = pick(c, name, length);
    if (!seldom(12)) return n;
    n = wild();
    if (c->number == RS_CALL_ALLOCATE && n == 1 && !room_in_one()) return 0;
    return is(name, length, "value") && n < SLOTS ? n + SLOTS : n;
}

static void pick_arguments(struct call *c)
{
    const char *at = by_name_shape(c->number)->arguments;
    uint32_t given = 0;
    while (*at) {
        size_t length = strcspn(at, " ");
        if (length > 2 && at[length - 1] == '.') pick_list(c);
        else {
            c->n[given] = pick_or_wild(c, at, length);
            given++;
        }
        at += length;
        at += strspn(at, " ");
    }
    // A region that can go is better than any.
    if (c->number == RS_CALL_DELETE && !seldom(100)) {
        pick_deleted(c, 1);
        c->n[0] = c->list[0];
        c->count = 0;
    }
}

// ---- Lines

static FILE *to_drive, *from_drive, *script, *answers;
static uint64_t place;
static uint64_t times[64];

static void fail(const char *why)
{
    fprintf(stderr, "random: call %" PRIu64 ": %s\n", place, why);
    exit(1);
}

// Sends a line and takes its answer; gives the refusal, and the first value.
static uint32_t send(const char *line, uint32_t *value)
{
    char answer[128];
    uint64_t its;
    uint32_t refusal;
    if (fputs(line, to_drive) == EOF || fflush(to_drive) != 0 || !fgets(answer, sizeof answer, from_drive)) fail("drive has ended");
    fputs(line, script);
    fputs(answer, answers);
    place++;
    if (sscanf(answer, "%" SCNu64 " %" SCNu32 " %" SCNu32, &its, &refusal, value) != 3 || its != place) fail("drive does not take the line");
    times[refusal < 63 ? refusal : 63]++;
    return refusal;
}

static uint32_t send_pages(uint32_t n)
{
    char line[32];
    uint32_t value;
    snprintf(line, sizeof line, "pages %" PRIu32 "\n", n);
    return send(line, &value);
}

// A call as a line: by its name or by its number; the filler stands in front, where it is not 0 or by chance.
static void write_call(const struct call *c, char *line, size_t room)
{
    const struct by_name_shape *shape = by_name_shape(c->number);
    size_t at = 0;
    uint32_t i;
    uint32_t filler = shape->filler ? c->n[shape->filler - 1] : 0;
    if (filler || (shape->filler && seldom(300))) at += (size_t)snprintf(line, room, "as %" PRIu32 " ", filler);
    if (seldom(500)) at += (size_t)snprintf(line + at, room - at, "%s", shape->name);
    else at += (size_t)snprintf(line + at, room - at, "%" PRIu32, c->number);
    for (i = 0; i < shape->numbers; i++)
        if (i + 1 != shape->filler) at += (size_t)snprintf(line + at, room - at, " %" PRIu32, c->n[i]);
    for (i = 0; shape->list && i < c->count; i++) at += (size_t)snprintf(line + at, room - at, " %" PRIu32, c->list[i]);
    snprintf(line + at, room - at, "\n");
}

// ---- The session

// Goes on until the pages or the regions were short for some calls, or few regions live, but not for ever; then it is the turn of another aim.
static void turn(const struct call *c, uint32_t refusal, uint32_t value)
{
    static uint32_t since, missed, least = 1, most = 20;
    static const uint32_t longest[3] = {20000, 2000, 1500};
    since++;
    if (refusal == RS_NO_PAGE) full = 1;
    if (refusal == RS_ACCEPTED && value && (c->number == RS_CALL_DELETE || c->number == RS_CALL_DELETE_ALL)) full = 0;
    if (refusal == (aim == FILLING ? RS_NO_PAGE : RS_REGIONS_FULL)) missed++;
    if ((aim == EMPTYING ? live > least : missed < most) && since < longest[aim]) return;
    turns += aim == EMPTYING;
    if (aim == EMPTYING) aim = seldom(600) ? FILLING : PARTING;
    else aim = seldom(700) ? EMPTYING : aim == FILLING ? PARTING : FILLING;
    deep = aim != EMPTYING && seldom(300);
    least = 1 + below(6);
    most = 1 + below(20);
    since = missed = 0;
}

static void session(uint64_t calls)
{
    static const uint32_t most[5] = {1, 4, 12, 60, RS_MOST_PAGES};
    uint32_t n = seldom(100) ? RS_MOST_PAGES : 1 + below(most[below(5)]);
    char line[512];
    if (seldom(300) && place + 1 < calls) send_pages(seldom(500) ? 0 : RS_MOST_PAGES + 1);
    begin(n);
    if (place < calls && send_pages(n) != RS_ACCEPTED) fail("make is refused");
    while (place < calls) {
        struct call c;
        uint32_t refusal, value = 0;
        memset(&c, 0, sizeof c);
        c.number = pick_call();
        pick_arguments(&c);
        write_call(&c, line, sizeof line);
        refusal = send(line, &value);
        if (refusal == RS_ACCEPTED) accepted(&c, value);
        turn(&c, refusal, value);
    }
}

// ---- The program

static pid_t start(const char *drive)
{
    int in[2], out[2];
    pid_t child;
    if (pipe(in) != 0 || pipe(out) != 0) fail("no pipe can be had");
    child = fork();
    if (child < 0) fail("no program can be started");
    if (child == 0) {
        dup2(in[0], 0);
        dup2(out[1], 1);
        close(in[0]);
        close(in[1]);
        close(out[0]);
        close(out[1]);
        execl(drive, drive, (char *)NULL);
        _exit(127);
    }
    close(in[0]);
    close(out[1]);
    to_drive = fdopen(in[1], "w");
    from_drive = fdopen(out[0], "r");
    if (!to_drive || !from_drive) fail("no pipe can be had");
    return child;
}

static void report(void)
{
    uint32_t i;
    printf("%" PRIu32 " pages, %" PRIu64 " calls, %" PRIu64 " in 100 accepted, %" PRIu64 " times filled and emptied\n", pages, place, place ? 100 * times[0] / place : 0, turns);
    for (i = 0; i < 64; i++)
        if (times[i]) printf("%" PRIu32 " %" PRIu64 " %s\n", i, times[i], region_store_reason(i));
}

int main(int count, char **words)
{
    pid_t child;
    int status;
    if (count != 6) {
        fprintf(stderr, "random DRIVE SEED CALLS SCRIPT ANSWERS\n");
        return 1;
    }
    chance = strtoull(words[2], NULL, 10);
    signal(SIGPIPE, SIG_IGN);
    script = fopen(words[4], "w");
    answers = fopen(words[5], "w");
    if (!script || !answers) fail("a file cannot be written");
    child = start(words[1]);
    session(strtoull(words[3], NULL, 10));
    fclose(to_drive);
    if (fgetc(from_drive) != EOF) fail("drive has answered too much");
    if (waitpid(child, &status, 0) != child || status != 0) fail("drive has failed");
    if (fclose(script) != 0 || fclose(answers) != 0) fail("a file cannot be written");
    report();
    return 0;
}
