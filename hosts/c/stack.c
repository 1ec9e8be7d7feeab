// What stack the calls take from C.
//   stack MOST [CALL..]
// Makes each call but make, by its name and by its number, on a stack of its own whose bytes are known before, and prints a line NAME BYTES BYTES: how deep it was changed by the one and by the other. Exits with 1 where a call is refused, or one but those named takes more than MOST bytes by its name.
#define _XOPEN_SOURCE 600
#include <inttypes.h>
#include <stdio.h>
#include <stdlib.h>
#include <ucontext.h>

#include "by_name.h"

#define WORDS (RS_MOST_PAGES * RS_PAGE_WORDS)
#define STACK 262144
#define KNOWN 0xA5
#define DEEPEST 16

static uint32_t heap[WORDS];
static struct rs_store store;
static unsigned char stack[STACK];
static ucontext_t here, there;
static int failed;

// A call: its number, its arguments, and whether it goes by its name.
static struct {
    uint32_t number;
    uint32_t n[4];
    uint32_t list[2];
    size_t count;
    int named;
    struct rs_reply reply;
} call;

static void run(void)
{
    if (call.named) call.reply = by_name(&store, call.number, call.n, call.list, call.count);
    else call.reply = rs_call(&store, call.number, call.n[0], call.n[1], call.n[2], call.n[3], call.list, call.count);
}

// The bytes of the stack that the call has changed, from its upper end.
static size_t depth(int named)
{
    size_t i;
    call.named = named;
    memset(stack, KNOWN, sizeof stack);
    if (getcontext(&there) != 0) return SIZE_MAX;
    there.uc_stack.ss_sp = stack;
    there.uc_stack.ss_size = sizeof stack;
    there.uc_link = &here;
    makecontext(&there, run, 0);
    if (swapcontext(&here, &there) != 0) return SIZE_MAX;
    for (i = 0; i < sizeof stack && stack[i] == KNOWN; i++) {}
    return sizeof stack - i;
}

// A store in which each call below is accepted: a frame with an object of every mark in slot 0, of the deepest region that there can be, and of numbers in slot 1, of the region above all the others; and a frame over it that has both.
static uint32_t deepest;

static void make(void)
{
    static const uint32_t each_mark[] = {0, 1, 2, 3, 4}, numbers[] = {0, 0, 0};
    uint32_t level;
    rs_make(&store, heap, WORDS);
    rs_declare(&store, each_mark, 5);
    rs_declare(&store, numbers, 3);
    deepest = rs_new_region(&store).values[0];
    rs_push(&store, 8);
    rs_allocate(&store, 1, deepest, 2);
    for (level = 2; level <= DEEPEST; level++) deepest = rs_subregion(&store, deepest).values[0];
    rs_allocate(&store, 0, deepest, 1);
    rs_push(&store, 8);
    rs_fetch(&store, 0, 0);
    rs_fetch(&store, 1, 1);
    rs_new_region(&store);
    rs_new_region(&store);
}

// The call on such a store: twice, since at the first time the system may look up functions of its own on the same stack.
static size_t taken(uint32_t number, const uint32_t *n, size_t count, int named)
{
    size_t bytes = 0;
    int time;
    for (time = 0; time < 2; time++) {
        make();
        call.number = number;
        memcpy(call.n, n, sizeof call.n);
        call.count = count;
        call.list[0] = number == RS_CALL_DECLARE ? 1 : deepest + 1;
        call.list[1] = number == RS_CALL_DECLARE ? 0 : deepest + 2;
        bytes = depth(named);
        if (call.reply.refusal == RS_ACCEPTED) continue;
        fprintf(stderr, "stack: %s is refused by %" PRIu32 "\n", by_name_shape(number)->name, call.reply.refusal);
        failed = 1;
    }
    return bytes;
}

static void measure(uint32_t number, const uint32_t *n, size_t count, size_t most, int words_count, char **words)
{
    const char *name = by_name_shape(number)->name;
    size_t bytes = taken(number, n, count, 1);
    int i, exempt = 0;
    printf("%s %zu %zu\n", name, bytes, taken(number, n, count, 0));
    for (i = 2; i < words_count; i++)
        if (strcmp(words[i], name) == 0) exempt = 1;
    if (exempt || bytes <= most) return;
    fprintf(stderr, "stack: %s takes %zu bytes, more than %zu\n", name, bytes, most);
    failed = 1;
}

int main(int count, char **words)
{
    uint32_t number;
    if (count < 2) {
        fprintf(stderr, "stack MOST [CALL..]\n");
        return 1;
    }
    for (number = RS_CALL_MAKE + 1; number <= BY_NAME_CALLS; number++) {
        // Slot 0, word 3, slot 1, filler 0: of most calls the first ones are such as they take.
        uint32_t n[4] = {0, 3, 1, 0};
        make();
        switch (number) {
        case RS_CALL_PUSH: n[0] = 8; break;
        case RS_CALL_HAND_BACK: n[1] = 2; n[2] = 3; break;
        case RS_CALL_ALLOCATE: n[1] = deepest; n[2] = 2; break;
        case RS_CALL_FIRST: n[1] = deepest; break;
        case RS_CALL_PUT:
        case RS_CALL_GET: n[1] = 0; break;
        case RS_CALL_VIEW: n[0] = 1; break;
        case RS_CALL_SUBREGION: n[0] = deepest + 1; break;
        case RS_CALL_REPORT: n[0] = deepest; break;
        case RS_CALL_DELETE: n[0] = deepest + 1; n[1] = 0; break;
        default: break;
        }
        measure(number, n, number == RS_CALL_DECLARE || number == RS_CALL_DELETE_ALL ? 2 : 0, (size_t)atol(words[1]), count, words);
    }
    return failed;
}
