// A first program with a region store: makes one, fills it, has a delete refused, and saves and loads it.
//   cc -I hosts/c hosts/c/example.c target/hosts/libregion_store.a -o example
//   ./example [FILE]
// It saves to FILE, or to example.store, and removes that at the end.
#include "region_store_file.h"

#define PAGES 4
#define WORDS (PAGES * RS_PAGE_WORDS)

static uint32_t heap[WORDS], heap_loaded[WORDS];
static struct rs_store store, loaded;

// Prints what a call answered, and gives its first value.
static uint32_t show(const char *call, struct rs_reply reply)
{
    if (reply.refusal == RS_ACCEPTED) printf("%s: %u\n", call, (unsigned)reply.values[0]);
    else printf("%s: refused by %u, %s\n", call, (unsigned)reply.refusal, region_store_reason(reply.refusal));
    return reply.values[0];
}

static void show_report(const char *call, struct rs_reply reply)
{
    printf("%s: stored count %u, outside pointers %u, pages %u, subregions %u\n", call, (unsigned)reply.values[0],
        (unsigned)reply.values[1], (unsigned)reply.values[2], (unsigned)reply.values[3]);
}

// A view is the object's part of the heap itself.
static void show_view(const struct rs_store *s, uint32_t slot)
{
    struct rs_view view = rs_view(s, slot);
    size_t i;
    printf("view of slot %u:", (unsigned)slot);
    for (i = 0; i < view.count; i++) printf(" %u", (unsigned)view.words[i]);
    printf("\n");
}

// A round of clues, and a grid inside it that one of the clues leads to.
static void fill(void)
{
    static const uint32_t clue_marks[] = {1, 0}; // a pointer to any region, and a number
    static const uint32_t score_marks[] = {0, 0, 0}; // three numbers
    uint32_t clue = show("declare a clue", rs_declare(&store, clue_marks, 2));
    uint32_t score = show("declare a score", rs_declare(&store, score_marks, 3));
    uint32_t round = show("a region, the round", rs_new_region(&store));
    uint32_t grid = show("a region in it, the grid", rs_subregion(&store, round));
    show("a frame of 3 slots", rs_push(&store, 3));
    rs_allocate(&store, 0, round, clue); // slot 0: a clue of the round
    rs_allocate(&store, 1, grid, clue); // slot 1: a clue of the grid
    rs_set_pointer(&store, 0, 0, 1, 0); // word 0 of the first leads to the second; filler 0 acts
    rs_allocate(&store, 2, 1, score); // slot 2: a score, in the permanent region
    rs_put(&store, 2, 0, 11);
    rs_put(&store, 2, 1, 22);
    rs_put(&store, 2, 2, 33);

    show_report("report of the grid", rs_report(&store, grid));
    show("delete the grid", rs_delete(&store, grid, 0));
    rs_clear(&store, 1); // slot 1 is null now,
    rs_set_pointer(&store, 0, 0, 1, 0); // and so is the clue's pointer
    show_report("report of the grid", rs_report(&store, grid));
    show("delete the grid, pages freed", rs_delete(&store, grid, 0));
}

static int save_and_load(const char *path)
{
    enum rs_file answer = rs_file_save(&store, path);
    printf("save: %s\n", rs_file_message(answer));
    if (answer != RS_FILE_DONE) return 1;
    answer = rs_file_load(&loaded, heap_loaded, WORDS, path);
    printf("load: %s\n", rs_file_message(answer));
    remove(path);
    if (answer != RS_FILE_DONE) return 1;
    show_view(&loaded, 2);
    show("a region of the store loaded", rs_new_region(&loaded));
    return 0;
}

int main(int count, char **words)
{
    if (!rs_layout_matches()) {
        fprintf(stderr, "the library has another layout than region_store.h\n");
        return 1;
    }
    if (rs_make(&store, heap, WORDS).refusal != RS_ACCEPTED) return 1;
    fill();
    show_view(&store, 2);
    show("audit", rs_audit(&store));
    return save_and_load(count > 1 ? words[1] : "example.store");
}
