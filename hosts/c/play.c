// Plays a script on two stores, each call by its name on one and by its number on the other, and prints a line for each call.
//   play SCRIPT [--load FILE] [--place N] [--save FILE]
// Exits with 1, and says why, where the two differ, or a line is none of a script, or the audit at the end does not give 1.
#include "region_store_file.h"

#include <inttypes.h>

#include "by_name.h"

// One page more than a store can have, so that make can refuse it.
#define WORDS ((RS_MOST_PAGES + 1) * RS_PAGE_WORDS)
#define MOST_LISTED 64
#define MOST_WORDS (MOST_LISTED + 3)
// The stores are compared each time that so many calls were made.
#define OFTEN 20

static struct rs_store named, numbered;
static uint32_t named_heap[WORDS], numbered_heap[WORDS];
static uint64_t place, line_number;
static int made;

// A line of a script, as a call.
struct line {
    uint32_t number;
    uint32_t n[4];
    uint32_t list[MOST_LISTED];
    size_t count;
};

static void fail(const char *why)
{
    fflush(stdout);
    fprintf(stderr, "play: line %" PRIu64 ", call %" PRIu64 ": %s\n", line_number, place, why);
    exit(1);
}

static uint32_t number_of(const char *word)
{
    uint64_t n = 0;
    if (*word == 0) fail("a number is wanted");
    for (; *word; word++) {
        if (*word < '0' || *word > '9') fail("a number is wanted");
        n = 10 * n + (uint64_t)(*word - '0');
        if (n > UINT32_MAX) fail("a number is too large");
    }
    return (uint32_t)n;
}

// The call that a word names, or has the number of; 0 for none.
static uint32_t call_of(const char *word)
{
    uint32_t n;
    if (*word >= '0' && *word <= '9') {
        n = number_of(word);
        return n > RS_CALL_MAKE && n <= BY_NAME_CALLS ? n : 0;
    }
    for (n = RS_CALL_MAKE + 1; n <= BY_NAME_CALLS; n++)
        if (strcmp(word, by_name_shape(n)->name) == 0) return n;
    return 0;
}

static void compare(void)
{
    if (named.words != numbered.words) fail("the two heaps have not one length");
    if (memcmp(&named.state, &numbered.state, sizeof named.state) != 0) fail("by name and by number have left other states");
    if (memcmp(named.heap, numbered.heap, sizeof(uint32_t) * named.words) != 0) fail("by name and by number have left other heaps");
}

static void answer(struct rs_reply one, struct rs_reply two)
{
    place++;
    printf("%" PRIu64 " %" PRIu32 " %" PRIu32 " %" PRIu32 " %" PRIu32 " %" PRIu32 "\n", place, one.refusal, one.values[0], one.values[1], one.values[2], one.values[3]);
    if (one.refusal != two.refusal || memcmp(one.values, two.values, sizeof one.values) != 0) fail("by name and by number answer otherwise");
    if (made && place % OFTEN == 0) compare();
}

// Both heaps hold other words before: make clears them.
static void make(uint32_t pages)
{
    struct rs_reply one, two;
    if (made) fail("a store is made already");
    if (pages > RS_MOST_PAGES + 1) fail("that is too many pages");
    memset(named_heap, 0xAA, sizeof named_heap);
    memset(numbered_heap, 0x55, sizeof numbered_heap);
    one = rs_make(&named, pages ? named_heap : NULL, pages * RS_PAGE_WORDS);
    two = rs_make(&numbered, numbered_heap, pages * RS_PAGE_WORDS);
    made = one.refusal == RS_ACCEPTED;
    answer(one, two);
}

static void call(const struct line *line)
{
    struct rs_reply one = by_name(&named, line->number, line->n, line->list, line->count);
    struct rs_reply two = rs_call(&numbered, line->number, line->n[0], line->n[1], line->n[2], line->n[3], line->list, line->count);
    // By its number view gives no part; so that of the other store is asked for.
    if (line->number == RS_CALL_VIEW) {
        struct rs_view view = rs_view(&numbered, line->n[0]);
        if (view.refusal != two.refusal) fail("view answers otherwise by its number");
        two.values[0] = (uint32_t)view.count;
    }
    answer(one, two);
}

// The arguments of a call, from the words after its name.
static void arguments(struct line *line, char **words, size_t count, uint32_t filler, int filled)
{
    const struct by_name_shape *shape = by_name_shape(line->number);
    size_t numbers = shape->numbers - (shape->filler ? 1 : 0);
    size_t i;
    if (filled && !shape->filler) fail("that call has no filler");
    if (shape->list ? numbers != 0 || count > MOST_LISTED : count != numbers) fail("that call takes another number of arguments");
    for (i = 0; i < count; i++) {
        if (shape->list) line->list[line->count++] = number_of(words[i]);
        else line->n[i] = number_of(words[i]);
    }
    if (shape->filler) line->n[shape->filler - 1] = filler;
}

static void play(char **words, size_t count)
{
    struct line line;
    uint32_t filler = 0;
    size_t at = 0;
    memset(&line, 0, sizeof line);
    if (strcmp(words[0], "pages") == 0) {
        if (count != 2) fail("pages takes one number");
        make(number_of(words[1]));
        return;
    }
    if (strcmp(words[0], "as") == 0) {
        if (count < 3) fail("a call is wanted after the filler");
        filler = number_of(words[1]);
        at = 2;
    }
    line.number = call_of(words[at]);
    if (line.number == 0) fail("no call has that name or number");
    if (!made) fail("no store is made yet");
    arguments(&line, words + at + 1, count - at - 1, filler, at != 0);
    call(&line);
}

static void play_all(const char *path)
{
    char text[4098];
    FILE *script = fopen(path, "r");
    if (!script) fail("the script cannot be read");
    while (fgets(text, sizeof text, script)) {
        char *words[MOST_WORDS];
        size_t count = 0;
        char *word;
        line_number++;
        if (strlen(text) == sizeof text - 1 && !strchr(text, '\n')) fail("the line is too long");
        text[strcspn(text, "#\n")] = 0;
        for (word = strtok(text, " \t\r"); word; word = strtok(NULL, " \t\r")) {
            if (count == MOST_WORDS) fail("the line has too many words");
            words[count++] = word;
        }
        if (count > 0) play(words, count);
    }
    if (ferror(script)) fail("the script cannot be read");
    fclose(script);
}

static void load(const char *path)
{
    enum rs_file one = rs_file_load(&named, named_heap, WORDS, path);
    enum rs_file two = rs_file_load(&numbered, numbered_heap, WORDS, path);
    if (one != RS_FILE_DONE || two != RS_FILE_DONE) fail(rs_file_message(one != RS_FILE_DONE ? one : two));
    made = 1;
}

int main(int count, char **words)
{
    const char *from = NULL, *to = NULL;
    enum rs_file saved;
    int i;
    for (i = 2; i + 1 < count; i += 2) {
        if (strcmp(words[i], "--load") == 0) from = words[i + 1];
        else if (strcmp(words[i], "--save") == 0) to = words[i + 1];
        else if (strcmp(words[i], "--place") == 0) place = number_of(words[i + 1]);
        else break;
    }
    if (count < 2 || i != count) {
        fprintf(stderr, "play SCRIPT [--load FILE] [--place N] [--save FILE]\n");
        return 1;
    }
    if (!rs_layout_matches()) fail("the library has another layout");
    if (from) load(from);
    play_all(words[1]);
    if (!made) fail("no store was made");
    compare();
    if (rs_audit(&named).values[0] != 1) fail("the audit does not give 1");
    saved = to ? rs_file_save(&named, to) : RS_FILE_DONE;
    if (saved != RS_FILE_DONE) fail(rs_file_message(saved));
    if (fflush(stdout) != 0) fail("the answers cannot be written");
    return 0;
}
