// Tests of the C host.
//   test LINES FOLDER
// LINES has what document 01's session prints; files are written in FOLDER, and removed. Prints what is wrong, and how many checks were made; exits with 1 if one failed.
#define _POSIX_C_SOURCE 200809L

#include <dirent.h>
#include <errno.h>
#include <fcntl.h>
#include <inttypes.h>
#include <stdarg.h>
#include <stdio.h>
#include <string.h>
#include <sys/stat.h>
#include <sys/wait.h>
#include <time.h>
#include <unistd.h>

// ---- What saving and loading ask of the system is noted, and fails where it is told to

// Each step as a letter: O opens a folder, o a file, w writes, f flushes a file, m renames, d flushes a folder, r reads.
static char steps[64];
static ino_t flushed, moved, flushed_folder;
static int kept_open; // files that other programs would get
static size_t at_once; // the most bytes of a read or a write, 0 for all
static struct {
    char step;
    int by; // the errno
    int times;
} failing;

static int fails(char step)
{
    size_t at = strlen(steps);
    if (at + 1 < sizeof steps) steps[at] = step;
    if (step != failing.step || failing.times == 0) return 0;
    failing.times--;
    errno = failing.by;
    return 1;
}

static size_t some(size_t count) { return at_once && count > at_once ? at_once : count; }

static int noted_open(const char *name, int flags, ...)
{
    va_list more;
    int mode;
    va_start(more, flags);
    mode = flags & O_CREAT ? va_arg(more, int) : 0;
    va_end(more);
    if (!(flags & O_CLOEXEC)) kept_open++;
    return fails(flags & O_DIRECTORY ? 'O' : 'o') ? -1 : open(name, flags, mode);
}

static ssize_t noted_write(int file, const void *from, size_t count) { return fails('w') ? -1 : write(file, from, some(count)); }

static ssize_t noted_read(int file, void *to, size_t count) { return fails('r') ? -1 : read(file, to, some(count)); }

static int noted_fsync(int file)
{
    struct stat about;
    int folder = fstat(file, &about) == 0 && S_ISDIR(about.st_mode);
    *(folder ? &flushed_folder : &flushed) = about.st_ino;
    return fails(folder ? 'd' : 'f') ? -1 : fsync(file);
}

static int noted_rename(const char *from, const char *to)
{
    struct stat about;
    moved = stat(from, &about) == 0 ? about.st_ino : 0;
    return fails('m') ? -1 : rename(from, to);
}

#define open noted_open
#define write noted_write
#define read noted_read
#define fsync noted_fsync
#define rename noted_rename
#include "region_store_file.h"
#undef open
#undef write
#undef read
#undef fsync
#undef rename

#include "by_name.h"

static unsigned checks, failures;

#define CHECK(fact) check((fact) != 0, #fact, __LINE__)

static void check(int holds, const char *fact, int line)
{
    checks++;
    if (holds) return;
    failures++;
    if (failures <= 20) fprintf(stderr, "test.c, line %d: %s\n", line, fact);
}

static struct rs_store s;
static uint32_t heap[RS_PAGE_WORDS * RS_MOST_PAGES + RS_PAGE_WORDS];

static void make(uint32_t pages) { CHECK(rs_make(&s, heap, RS_PAGE_WORDS * pages).refusal == RS_ACCEPTED); }

// Accepted, with these values.
static int gives(struct rs_reply r, uint32_t a, uint32_t b, uint32_t c, uint32_t d)
{
    return r.refusal == RS_ACCEPTED && r.values[0] == a && r.values[1] == b && r.values[2] == c && r.values[3] == d;
}

#define NUMBERS 64
static unsigned seen[NUMBERS];

// Refused by this number, without values.
static int refused(struct rs_reply r, uint32_t number)
{
    seen[r.refusal % NUMBERS]++;
    return r.refusal == number && !r.values[0] && !r.values[1] && !r.values[2] && !r.values[3];
}

static int sound(void) { return gives(rs_audit(&s), 1, 0, 0, 0); }

static const uint32_t one_free[] = {1, 0}, numbers_only[] = {0, 0, 0}, each_mark[] = {0, 1, 2, 3, 4};

static void test_layout(void)
{
    uint32_t out[4] = {9, 9, 9, 9};
    CHECK(rs_layout_matches());
    CHECK(region_store_layout(out, 0) == 27 && out[0] == 9);
    CHECK(region_store_layout(out, 3) == 27 && out[0] == RS_LAYOUT_VERSION && out[1] == 4 && out[2] == 5 && out[3] == 9);
}

// ---- Document 01's session

static char text[4096];

static void line(uint32_t place, struct rs_reply r)
{
    size_t at = strlen(text);
    snprintf(text + at, sizeof text - at, "%" PRIu32 " %" PRIu32 " %" PRIu32 " %" PRIu32 " %" PRIu32 " %" PRIu32 "\n",
        place, r.refusal, r.values[0], r.values[1], r.values[2], r.values[3]);
}

static void test_session(const char *lines)
{
    char expected[sizeof text] = {0};
    FILE *f = fopen(lines, "r");
    CHECK(f && fread(expected, 1, sizeof expected - 1, f) > 0);
    if (f) fclose(f);
    line(1, rs_make(&s, heap, 2 * RS_PAGE_WORDS));
    line(2, rs_declare(&s, one_free, 2));
    line(3, rs_push(&s, 2));
    line(4, rs_new_region(&s));
    line(5, rs_allocate(&s, 0, 1, 1));
    line(6, rs_allocate(&s, 1, 2, 1));
    line(7, rs_set_pointer(&s, 0, 0, 1, 0));
    line(8, rs_report(&s, 2));
    line(9, rs_clear(&s, 1));
    line(10, rs_delete(&s, 2, 0));
    line(11, rs_set_pointer(&s, 0, 0, 1, 0));
    line(12, rs_delete(&s, 2, 0));
    line(13, rs_new_region(&s));
    line(14, rs_report(&s, 2));
    line(15, rs_allocate(&s, 1, 3, 1));
    line(16, rs_drop(&s, 0));
    CHECK(strcmp(text, expected) == 0);
}

// ---- The calls by their names

static void test_stack(void)
{
    make(4);
    CHECK(gives(rs_push(&s, 3), 1, 0, 0, 0));
    CHECK(gives(rs_push(&s, 8), 2, 0, 0, 0));
    CHECK(gives(rs_declare(&s, numbers_only, 3), 1, 0, 0, 0));
    CHECK(gives(rs_declare(&s, each_mark, 5), 2, 0, 0, 0));
    CHECK(gives(rs_new_region(&s), 2, 0, 0, 0));
    CHECK(gives(rs_allocate(&s, 7, 2, 1), 0, 0, 0, 0));
    CHECK(gives(rs_about(&s, 7), 2, 1, 0, 0));
    CHECK(gives(rs_hand_back(&s, 7, 1, 3), 1, 0, 0, 0));
    CHECK(gives(rs_about(&s, 1), 2, 1, 0, 0));
    CHECK(gives(rs_push(&s, 2), 2, 0, 0, 0));
    CHECK(gives(rs_fetch(&s, 1, 0), 0, 0, 0, 0));
    CHECK(gives(rs_copy(&s, 0, 1), 0, 0, 0, 0));
    CHECK(gives(rs_same(&s, 0, 1), 1, 0, 0, 0));
    CHECK(gives(rs_clear(&s, 1), 0, 0, 0, 0));
    CHECK(gives(rs_same(&s, 0, 1), 0, 0, 0, 0));
    CHECK(gives(rs_about(&s, 1), 0, 0, 0, 0));
    CHECK(gives(rs_locate(&s, 0), 0, 0, 0, 0));
    CHECK(gives(rs_locate(&s, 1), 256, 0, 0, 0));
    CHECK(gives(rs_first(&s, 1, 2), 0, 0, 0, 0));
    CHECK(gives(rs_same(&s, 0, 1), 1, 0, 0, 0));
    CHECK(gives(rs_totals(&s), 3, 2, 2, 0));
    CHECK(gives(rs_drop(&s, 2), 1, 0, 0, 0));
    CHECK(sound());
}

// Goes on from test_stack: slot 1 leads to three numbers of region 2.
static void test_words(void)
{
    CHECK(gives(rs_put(&s, 1, 2, UINT32_MAX), 0, 0, 0, 0));
    CHECK(gives(rs_get(&s, 1, 2), UINT32_MAX, 0, 0, 0));
    CHECK(gives(rs_subregion(&s, 2), 3, 0, 0, 0));
    CHECK(gives(rs_allocate(&s, 0, 3, 2), 0, 0, 0, 0));
    CHECK(gives(rs_set_pointer(&s, 0, 1, 1, 0), 0, 0, 0, 0));
    CHECK(gives(rs_set_pointer(&s, 0, 2, 0, 1), 0, 0, 0, 0));
    CHECK(gives(rs_set_pointer(&s, 0, 3, 1, 2), 0, 0, 0, 0));
    CHECK(gives(rs_set_pointer(&s, 0, 4, 2, 3), 0, 0, 0, 0));
    CHECK(gives(rs_load(&s, 0, 3, 2), 0, 0, 0, 0));
    CHECK(gives(rs_same(&s, 1, 2), 1, 0, 0, 0));
    CHECK(gives(rs_report(&s, 2), 1, 3, 1, 1));
    CHECK(gives(rs_locate(&s, 0), 1, 0, 0, 0));
    CHECK(sound());
    CHECK(gives(rs_clear(&s, 0), 0, 0, 0, 0));
    CHECK(gives(rs_delete(&s, 3, 1), 1, 0, 0, 0));
    CHECK(gives(rs_report(&s, 2), 0, 2, 1, 0));
}

static void test_joint_delete(void)
{
    const uint32_t both[] = {3, 2};
    make(3);
    rs_declare(&s, one_free, 2);
    rs_push(&s, 2);
    rs_new_region(&s);
    rs_new_region(&s);
    rs_allocate(&s, 0, 2, 1);
    rs_allocate(&s, 1, 3, 1);
    CHECK(gives(rs_set_pointer(&s, 0, 0, 1, 1), 0, 0, 0, 0));
    CHECK(gives(rs_set_pointer(&s, 1, 0, 0, 2), 0, 0, 0, 0));
    CHECK(gives(rs_drop(&s, 0), 0, 0, 0, 0));
    CHECK(refused(rs_delete(&s, 2, 0), RS_OUTSIDE_POINTER));
    CHECK(gives(rs_delete_all(&s, both, 2, 3), 2, 0, 0, 0));
    CHECK(gives(rs_totals(&s), 3, 1, 0, 0));
    CHECK(sound());
}

// A view is the heap itself: a put shows in one that was taken before.
static void test_view(void)
{
    struct rs_view view;
    make(1);
    rs_declare(&s, numbers_only, 3);
    rs_push(&s, 1);
    rs_allocate(&s, 0, 1, 1);
    view = rs_view(&s, 0);
    CHECK(view.refusal == RS_ACCEPTED && view.count == 3 && view.words > heap && view.words + 3 <= heap + RS_PAGE_WORDS);
    CHECK(view.words[1] == 0);
    rs_put(&s, 0, 1, 77);
    CHECK(view.words[0] == 0 && view.words[1] == 77 && view.words[2] == 0);
    CHECK(refused(rs_call(&s, RS_CALL_VIEW, 1, 0, 0, 0, NULL, 0), RS_NO_SLOT));
    CHECK(gives(rs_call(&s, RS_CALL_VIEW, 0, 0, 0, 0, NULL, 0), 0, 0, 0, 0));
    view = rs_view(&s, 1);
    CHECK(view.refusal == RS_NO_SLOT && view.count == 0 && view.words == NULL);
}

// ---- The refusals

static void test_lengths(void)
{
    static const struct rs_state zeros;
    memset(heap, 0x5A, sizeof heap);
    memset(&s, 0x5A, sizeof s);
    CHECK(refused(rs_make(&s, heap, 0), RS_HEAP_LENGTH));
    CHECK(memcmp(&s.state, &zeros, sizeof zeros) == 0);
    CHECK(refused(rs_make(&s, heap, RS_PAGE_WORDS * (RS_MOST_PAGES + 1)), RS_HEAP_LENGTH));
    CHECK(refused(rs_make(&s, heap, 65), RS_HEAP_LENGTH));
    CHECK(heap[0] == 0x5A5A5A5A && heap[65] == 0x5A5A5A5A);
    CHECK(refused(rs_new_region(&s), RS_WRONG_HEAP));
    CHECK(refused(rs_make(&s, NULL, RS_PAGE_WORDS), RS_HEAP_LENGTH));
    CHECK(refused(rs_new_region(&s), RS_WRONG_HEAP));
    CHECK(rs_view(&s, 0).refusal == RS_WRONG_HEAP);
    CHECK(gives(rs_totals(&s), 0, 0, 0, 0));
    CHECK(gives(rs_audit(&s), 0, 0, 0, 0));
    make(2);
    s.words = RS_PAGE_WORDS;
    CHECK(refused(rs_new_region(&s), RS_WRONG_HEAP));
    CHECK(gives(rs_audit(&s), 0, 0, 0, 0));
    s.words = 2 * RS_PAGE_WORDS + 1;
    CHECK(refused(rs_push(&s, 1), RS_WRONG_HEAP));
    s.words = 2 * RS_PAGE_WORDS;
    CHECK(sound());
}

static void test_numbers(void)
{
    make(1);
    CHECK(refused(rs_call(&s, RS_CALL_MAKE, 0, 0, 0, 0, NULL, 0), RS_NO_CALL));
    CHECK(refused(rs_call(&s, 0, 0, 0, 0, 0, NULL, 0), RS_NO_CALL));
    CHECK(refused(rs_call(&s, BY_NAME_CALLS + 1, 0, 0, 0, 0, NULL, 0), RS_NO_CALL));
    CHECK(refused(rs_call(&s, UINT32_MAX, 0, 0, 0, 0, NULL, 0), RS_NO_CALL));
    CHECK(gives(rs_call(&s, RS_CALL_DECLARE, 9, 9, 9, 9, numbers_only, 3), 1, 0, 0, 0));
    CHECK(gives(rs_call(&s, RS_CALL_PUSH, 2, 9, 9, 9, numbers_only, 3), 1, 0, 0, 0));
    CHECK(refused(rs_declare(&s, NULL, 0), RS_WRONG_MARKS));
    CHECK(refused(rs_declare(&s, NULL, 3), RS_WRONG_MARKS));
    CHECK(refused(rs_delete_all(&s, NULL, 0, 0), RS_WRONG_NAMES));
}

static void test_full(void)
{
    uint32_t i;
    make(1);
    for (i = 2; i <= 64; i++) CHECK(gives(rs_new_region(&s), i, 0, 0, 0));
    CHECK(refused(rs_new_region(&s), RS_REGIONS_FULL));
    CHECK(refused(rs_subregion(&s, 1), RS_REGIONS_FULL));
    for (i = 1; i <= 32; i++) CHECK(gives(rs_push(&s, 1 + i % 8), i, 0, 0, 0));
    CHECK(refused(rs_push(&s, 1), RS_FRAMES_FULL));
    for (i = 1; i <= 16; i++) CHECK(gives(rs_declare(&s, each_mark, 5), i, 0, 0, 0));
    CHECK(refused(rs_declare(&s, each_mark, 5), RS_KINDS_FULL));
    CHECK(sound());
    make(1);
    rs_new_region(&s);
    for (i = 2; i <= 16; i++) CHECK(gives(rs_subregion(&s, i), i + 1, 0, 0, 0));
    CHECK(refused(rs_subregion(&s, 17), RS_TOO_DEEP));
}

static void test_frames_refused(void)
{
    const uint32_t seventeen[17] = {0}, five[1] = {5};
    make(1);
    CHECK(refused(rs_drop(&s, 0), RS_NO_FRAME));
    CHECK(refused(rs_clear(&s, 0), RS_NO_FRAME));
    CHECK(refused(rs_push(&s, 0), RS_SLOT_COUNT));
    CHECK(refused(rs_push(&s, 9), RS_SLOT_COUNT));
    rs_push(&s, 2);
    CHECK(refused(rs_hand_back(&s, 0, 0, 0), RS_NO_FRAME));
    CHECK(refused(rs_fetch(&s, 0, 0), RS_NO_FRAME));
    CHECK(refused(rs_clear(&s, 2), RS_NO_SLOT));
    CHECK(refused(rs_declare(&s, seventeen, 17), RS_WRONG_MARKS));
    CHECK(refused(rs_declare(&s, five, 1), RS_WRONG_MARKS));
    CHECK(refused(rs_allocate(&s, 0, 1, 1), RS_NO_KIND));
    CHECK(refused(rs_allocate(&s, 0, 2, 1), RS_NO_REGION));
    CHECK(refused(rs_drop(&s, 4), RS_NO_FILLER));
    CHECK(refused(rs_hand_back(&s, 0, 0, 4), RS_NO_FILLER));
    CHECK(refused(rs_set_pointer(&s, 0, 0, 0, UINT32_MAX), RS_NO_FILLER));
    CHECK(refused(rs_delete(&s, 2, 4), RS_NO_FILLER));
    CHECK(refused(rs_delete_all(&s, five, 1, 4), RS_NO_FILLER));
}

static void test_objects_refused(void)
{
    make(1);
    rs_push(&s, 2);
    rs_declare(&s, each_mark, 5);
    rs_new_region(&s);
    CHECK(refused(rs_get(&s, 0, 0), RS_NULL_OBJECT));
    CHECK(refused(rs_put(&s, 0, 0, 1), RS_NULL_OBJECT));
    CHECK(refused(rs_load(&s, 0, 1, 0), RS_NULL_OBJECT));
    CHECK(refused(rs_set_pointer(&s, 0, 1, 0, 0), RS_NULL_OBJECT));
    CHECK(rs_view(&s, 0).refusal == RS_NULL_OBJECT);
    rs_allocate(&s, 0, 2, 1);
    CHECK(refused(rs_allocate(&s, 1, 1, 1), RS_NO_PAGE));
    CHECK(refused(rs_get(&s, 0, 5), RS_NO_WORD));
    CHECK(refused(rs_get(&s, 0, 1), RS_WRONG_WORD));
    CHECK(refused(rs_put(&s, 0, 1, 1), RS_WRONG_WORD));
    CHECK(refused(rs_load(&s, 0, 0, 0), RS_WRONG_WORD));
    CHECK(rs_view(&s, 0).refusal == RS_WRONG_WORD);
    CHECK(refused(rs_set_pointer(&s, 0, 4, 0, 0), RS_BREAKS_MARK));
    CHECK(refused(rs_delete(&s, 2, 0), RS_OUTSIDE_POINTER));
    CHECK(sound());
}

static void test_deletes_refused(void)
{
    const uint32_t twice[] = {2, 2}, gone[] = {2, 9}, first[] = {2, 1}, two[] = {2};
    uint32_t many[17], i;
    for (i = 0; i < 17; i++) many[i] = i + 2;
    make(1);
    rs_new_region(&s);
    rs_subregion(&s, 2);
    CHECK(refused(rs_delete(&s, 1, 0), RS_PERMANENT));
    CHECK(refused(rs_delete(&s, 9, 0), RS_NO_REGION));
    CHECK(refused(rs_delete(&s, 2, 0), RS_SUBREGION_LIVES));
    CHECK(refused(rs_delete_all(&s, two, 1, 0), RS_SUBREGION_LIVES));
    CHECK(refused(rs_delete_all(&s, twice, 2, 0), RS_WRONG_NAMES));
    CHECK(refused(rs_delete_all(&s, many, 17, 0), RS_WRONG_NAMES));
    CHECK(refused(rs_delete_all(&s, gone, 2, 0), RS_NO_REGION));
    CHECK(refused(rs_delete_all(&s, first, 2, 0), RS_PERMANENT));
    CHECK(gives(rs_delete_all(&s, many, 2, 0), 0, 0, 0, 0));
}

static void test_reasons(void)
{
    const char *none = "no refusal has that number";
    uint32_t n;
    CHECK(strcmp(region_store_reason(RS_ACCEPTED), "accepted") == 0);
    CHECK(strcmp(region_store_reason(RS_NO_FILLER), "the filler is above 3") == 0);
    CHECK(strcmp(region_store_reason(UINT32_MAX), none) == 0);
    for (n = 1; strcmp(region_store_reason(n), none) != 0; n++)
        if (!seen[n]) {
            fprintf(stderr, "test.c: refusal %" PRIu32 " was not had\n", n);
            failures++;
        }
    CHECK(n == RS_NO_CALL + 1);
}

// ---- Saved stores

static char folder[256], path[512];
static struct rs_store other;
static uint32_t other_heap[RS_PAGE_WORDS * RS_MOST_PAGES];
static unsigned char bytes[RS_FILE_MOST + 300];
static size_t length;

static void write_file(const unsigned char *from, size_t count)
{
    FILE *f = fopen(path, "wb");
    CHECK(f && fwrite(from, 1, count, f) == count && fclose(f) == 0);
}

static void read_file(void)
{
    FILE *f = fopen(path, "rb");
    length = f ? fread(bytes, 1, sizeof bytes, f) : 0;
    CHECK(f && fclose(f) == 0);
}

static int is_there(const char *name)
{
    struct stat about;
    return lstat(name, &about) == 0;
}

// The file that the Nth name is of, where this process saves to the path.
static const char *new_name(int n)
{
    static char name[600];
    snprintf(name, sizeof name, "%s.%ld.%d.new", path, (long)getpid(), n);
    return name;
}

// How many files there are beside the path that begin with its name.
static unsigned beside(void)
{
    const char *last = strrchr(path, '/') + 1;
    struct dirent *entry;
    unsigned n = 0;
    DIR *d = opendir(folder);
    CHECK(d != NULL);
    while (d && (entry = readdir(d)) != NULL)
        if (strncmp(entry->d_name, last, strlen(last)) == 0 && strcmp(entry->d_name, last) != 0) n++;
    if (d) closedir(d);
    return n;
}

// Loads, and if that is refused sees that nothing has changed.
static enum rs_file load(size_t room)
{
    static struct rs_store before;
    static uint32_t before_heap[RS_PAGE_WORDS * RS_MOST_PAGES];
    enum rs_file answer;
    memcpy(&before, &other, sizeof other);
    memcpy(before_heap, other_heap, sizeof other_heap);
    answer = rs_file_load(&other, other_heap, room, path);
    if (answer != RS_FILE_DONE) CHECK(memcmp(&before, &other, sizeof other) == 0 && memcmp(before_heap, other_heap, sizeof other_heap) == 0);
    return answer;
}

static int equal(void)
{
    return memcmp(&s.state, &other.state, sizeof s.state) == 0 && s.words == other.words && memcmp(s.heap, other.heap, 4 * s.words) == 0;
}

// A store of one page with a pointer, numbers and a counted frame.
static void make_small(void)
{
    make(1);
    rs_declare(&s, one_free, 2);
    rs_declare(&s, numbers_only, 3);
    rs_push(&s, 2);
    rs_allocate(&s, 0, 1, 1);
    rs_allocate(&s, 1, 1, 2);
    rs_put(&s, 1, 0, 0x01020304);
    rs_set_pointer(&s, 0, 0, 1, 2);
    rs_push(&s, 1);
    rs_new_region(&s);
    rs_delete(&s, 2, 1);
}

static void test_round_trip(void)
{
    uint32_t pages;
    CHECK(rs_crc32(0, "123456789", 9) == 0xCBF43926);
    CHECK(rs_crc32(rs_crc32(0, "1234", 4), "56789", 5) == 0xCBF43926);
    for (pages = 1; pages <= RS_MOST_PAGES; pages = 3 * pages + 1) {
        make(pages);
        rs_new_region(&s);
        CHECK(rs_file_save(&s, path) == RS_FILE_DONE && beside() == 0);
        CHECK(load(sizeof other_heap / 4) == RS_FILE_DONE && equal() && other.heap == other_heap);
    }
    make(RS_MOST_PAGES);
    CHECK(rs_file_save(&s, path) == RS_FILE_DONE && load(sizeof other_heap / 4) == RS_FILE_DONE && equal());
    make_small();
    CHECK(rs_file_save(&s, path) == RS_FILE_DONE && load(RS_PAGE_WORDS) == RS_FILE_DONE && equal());
    CHECK(gives(rs_audit(&other), 1, 0, 0, 0));
    read_file();
    CHECK(length == 3932 && memcmp(bytes, "REGSTORE\1\0\0\0\x44\x0E\0\0\x40\0\0\0\2\0\0\0\1\0\0\0\2\0\0\0\2\0\0\0\1\0\0\0\2\1", 42) == 0);
    CHECK(load(RS_PAGE_WORDS - 1) == RS_FILE_NO_ROOM);
    CHECK(rs_file_load(&other, NULL, RS_PAGE_WORDS, path) == RS_FILE_NO_ROOM);
}

// What is at the path is what was last read from it.
static int as_it_was(void)
{
    static unsigned char before[sizeof bytes];
    size_t count = length;
    memcpy(before, bytes, length);
    read_file();
    return length == count && memcmp(before, bytes, length) == 0;
}

static void test_unwritable(void)
{
    static char away[5000];
    struct rs_store none;
    snprintf(away, sizeof away, "%s.away/store", path);
    CHECK(rs_file_save(&s, away) == RS_FILE_UNWRITABLE && !is_there(away));
    // A folder stands where the new file should be renamed to.
    snprintf(away, sizeof away, "%s.away", path);
    CHECK(mkdir(away, 0777) == 0);
    CHECK(rs_file_save(&s, away) == RS_FILE_UNWRITABLE && beside() == 1);
    CHECK(rmdir(away) == 0);
    memset(away, 'x', sizeof away - 1);
    CHECK(rs_file_save(&s, away) == RS_FILE_UNWRITABLE);
    away[sizeof away - 3] = '/';
    CHECK(rs_file_save(&s, away) == RS_FILE_UNWRITABLE);
    rs_make(&none, NULL, 0);
    CHECK(rs_file_save(&none, path) == RS_FILE_UNWRITABLE);
    CHECK(as_it_was() && beside() == 0);
    CHECK(strcmp(rs_file_message(RS_FILE_DONE), "done") == 0);
    CHECK(strcmp(rs_file_message(RS_FILE_UNWRITABLE), "the file cannot be written") == 0);
    CHECK(strcmp(rs_file_message(11), "no message has that number") == 0);
}

// So that a save writes other bytes.
static void change(void) { CHECK(rs_new_region(&s).refusal == RS_ACCEPTED); }

// Saves, or loads, while a step fails by an errno so many times, and gives the answer; the steps are noted.
static enum rs_file save_failing(char step, int by, int times)
{
    enum rs_file answer;
    memset(steps, 0, sizeof steps);
    failing.step = step;
    failing.by = by;
    failing.times = times;
    answer = step == 'r' ? load(RS_PAGE_WORDS) : rs_file_save(&s, path);
    failing.step = 0;
    return answer;
}

// The folder is opened first; the file is flushed before it is renamed, and the folder after that.
static void test_steps(void)
{
    struct stat about, plain;
    CHECK(save_failing(0, 0, 0) == RS_FILE_DONE && strcmp(steps, "Oowfmd") == 0);
    CHECK(stat(path, &about) == 0 && flushed == about.st_ino && moved == about.st_ino);
    CHECK(stat(folder, &plain) == 0 && flushed_folder == plain.st_ino);
    unlink(path);
    write_file(bytes, length);
    CHECK(stat(path, &plain) == 0 && plain.st_mode == about.st_mode);
    at_once = 1000;
    CHECK(save_failing(0, 0, 0) == RS_FILE_DONE && strcmp(steps, "Oowwwwfmd") == 0 && as_it_was());
    CHECK(load(RS_PAGE_WORDS) == RS_FILE_DONE && equal());
    at_once = 0;
    CHECK(kept_open == 0);
}

static void test_failures(void)
{
    static const char each[] = "Oowfdr", before_it_stands[] = "Oowfm";
    size_t i;
    for (i = 0; each[i]; i++) CHECK(save_failing(each[i], EINTR, 3) == RS_FILE_DONE);
    CHECK(save_failing('r', EIO, 1) == RS_FILE_UNREADABLE);
    change();
    for (i = 0; before_it_stands[i]; i++) {
        CHECK(save_failing(before_it_stands[i], EIO, 1) == RS_FILE_UNWRITABLE);
        CHECK(as_it_was() && beside() == 0);
    }
    CHECK(save_failing('f', EINVAL, 1) == RS_FILE_UNWRITABLE && as_it_was() && beside() == 0);
    // Where the folder alone is not flushed the new file stands there.
    CHECK(save_failing('d', EIO, 1) == RS_FILE_UNWRITABLE && beside() == 0);
    CHECK(load(RS_PAGE_WORDS) == RS_FILE_DONE && equal());
    change();
    CHECK(save_failing('d', EINVAL, 1) == RS_FILE_DONE && beside() == 0);
    CHECK(load(RS_PAGE_WORDS) == RS_FILE_DONE && equal());
    read_file();
}

// Names that are taken, by a file, a folder or a link, are left as they are; where all are, the save is refused.
static void test_taken_names(void)
{
    struct stat about;
    int n;
    CHECK(rename(path, new_name(0)) == 0 && mkdir(new_name(1), 0777) == 0 && symlink("nowhere", new_name(2)) == 0);
    CHECK(stat(new_name(0), &about) == 0);
    CHECK(rs_file_save(&s, path) == RS_FILE_DONE && as_it_was() && beside() == 3 && !is_there(new_name(3)));
    moved = about.st_ino;
    CHECK(stat(new_name(0), &about) == 0 && about.st_ino == moved && about.st_size == (off_t)length);
    for (n = 3; n < RS_FILE_NAMES; n++) CHECK(symlink(path, new_name(n)) == 0);
    CHECK(save_failing(0, 0, 0) == RS_FILE_UNWRITABLE && strchr(steps, 'w') == NULL);
    CHECK(as_it_was() && beside() == RS_FILE_NAMES);
    CHECK(unlink(new_name(RS_FILE_NAMES - 1)) == 0 && rs_file_save(&s, path) == RS_FILE_DONE);
    for (n = 0; n < RS_FILE_NAMES - 1; n++) CHECK(n == 1 ? rmdir(new_name(n)) == 0 : unlink(new_name(n)) == 0);
    CHECK(as_it_was() && beside() == 0);
}

// A link with the new file's name is not followed; one at the path is replaced.
static void test_links(void)
{
    char target[600];
    struct stat about;
    snprintf(target, sizeof target, "%s.target", path);
    CHECK(rename(path, target) == 0 && symlink(target, new_name(0)) == 0 && symlink(target, path) == 0);
    change();
    CHECK(rs_file_save(&s, path) == RS_FILE_DONE && beside() == 2);
    CHECK(lstat(path, &about) == 0 && S_ISREG(about.st_mode));
    CHECK(load(RS_PAGE_WORDS) == RS_FILE_DONE && equal());
    CHECK(lstat(new_name(0), &about) == 0 && S_ISLNK(about.st_mode) && unlink(new_name(0)) == 0);
    CHECK(rename(target, path) == 0 && as_it_was());
    CHECK(rs_file_save(&s, path) == RS_FILE_DONE && beside() == 0);
    read_file();
}

// A pipe would be waited for: then the alarm ends the program.
static void test_not_files(void)
{
    char fifo[600];
    snprintf(fifo, sizeof fifo, "%s.fifo", path);
    CHECK(mkfifo(fifo, 0666) == 0);
    alarm(20);
    CHECK(rs_file_load(&other, other_heap, RS_PAGE_WORDS, fifo) == RS_FILE_UNREADABLE);
    strcat(fifo, "/x");
    CHECK(rs_file_save(&s, fifo) == RS_FILE_UNWRITABLE);
    *strrchr(fifo, '/') = 0;
    alarm(0);
    CHECK(rs_file_load(&other, other_heap, RS_PAGE_WORDS, folder) == RS_FILE_UNREADABLE);
    CHECK(rs_file_load(&other, other_heap, RS_PAGE_WORDS, "/dev/null") == RS_FILE_UNREADABLE);
    CHECK(rs_file_load(&other, other_heap, RS_PAGE_WORDS, "/dev/zero") == RS_FILE_UNREADABLE);
    CHECK(unlink(fifo) == 0);
}

static int64_t milliseconds(void)
{
    struct timespec now;
    clock_gettime(CLOCK_MONOTONIC, &now);
    return 1000 * (int64_t)now.tv_sec + now.tv_nsec / 1000000;
}

// A process that saves a store over and over.
static pid_t saver(const struct rs_store *one, int64_t until)
{
    pid_t child = fork();
    if (child != 0) return child;
    do if (rs_file_save(one, path) != RS_FILE_DONE) _exit(1);
    while (milliseconds() < until);
    _exit(0);
}

// Two processes save two stores to one path; at each moment one of the two is there.
static void test_savers(void)
{
    static uint32_t large_heap[RS_PAGE_WORDS * RS_MOST_PAGES];
    static struct rs_store large;
    int64_t until = milliseconds() + 500;
    int i, status;
    pid_t child[2];
    CHECK(gives(rs_make(&large, large_heap, sizeof large_heap / 4), 0, 0, 0, 0));
    child[0] = saver(&s, until);
    child[1] = saver(&large, until);
    CHECK(child[0] > 0 && child[1] > 0);
    while (milliseconds() < until) {
        CHECK(rs_file_load(&other, other_heap, sizeof other_heap / 4, path) == RS_FILE_DONE);
        CHECK(equal() || (other.words == large.words && memcmp(&large.state, &other.state, sizeof large.state) == 0));
    }
    for (i = 0; i < 2; i++) CHECK(waitpid(child[i], &status, 0) == child[i] && WIFEXITED(status) && WEXITSTATUS(status) == 0);
    CHECK(beside() == 0);
    CHECK(rs_file_save(&s, path) == RS_FILE_DONE && as_it_was());
}

// What a load of a file of one page answers where the byte at a place is changed.
static enum rs_file expected(size_t at, unsigned char changed)
{
    uint32_t words;
    if (at < 8) return RS_FILE_NO_STORE;
    if (at < 12) return RS_FILE_OTHER_VERSION;
    if (at < 16) return RS_FILE_WRONG_LENGTHS;
    if (at >= 20) return RS_FILE_WRONG_SUM;
    words = (at == 16 ? 0 : RS_PAGE_WORDS) + ((uint32_t)changed << 8 * (at - 16));
    return words % RS_PAGE_WORDS == 0 && words <= RS_PAGE_WORDS * RS_MOST_PAGES ? RS_FILE_SHORT : RS_FILE_WRONG_LENGTHS;
}

static void test_damage(void)
{
    static const unsigned char by[2] = {0xFF, 1};
    size_t at, i;
    for (at = 0; at < length; at++)
        for (i = 0; i < 2; i++) {
            bytes[at] ^= by[i];
            write_file(bytes, length);
            CHECK(load(RS_PAGE_WORDS) == expected(at, bytes[at]));
            bytes[at] ^= by[i];
        }
    for (at = 0; at < length; at++) {
        write_file(bytes, at);
        CHECK(load(RS_PAGE_WORDS) == RS_FILE_SHORT);
    }
    memset(bytes + length, 0, 256);
    write_file(bytes, length + 1);
    CHECK(load(RS_PAGE_WORDS) == RS_FILE_LONG);
    write_file(bytes, length + 256);
    CHECK(load(RS_PAGE_WORDS) == RS_FILE_LONG);
    unlink(path);
    CHECK(load(RS_PAGE_WORDS) == RS_FILE_UNREADABLE);
    write_file(bytes, length);
    CHECK(load(RS_PAGE_WORDS) == RS_FILE_DONE && equal());
}

// Writes the file with the sum that its bytes have.
static void write_mended(void)
{
    uint32_t sum = rs_crc32(0, bytes, length - 4);
    unsigned char *at = bytes + length - 4;
    rs_out_32(&at, &sum, 1);
    write_file(bytes, length);
}

// Neither sum nor audit is enough: with a right sum a wrong share is found by the audit, a changed data word by neither.
static void test_mended(void)
{
    size_t share = 20 + offsetof(struct rs_state, shares);
    size_t word = 20 + RS_STATE_BYTES;
    uint32_t given = 999999;
    unsigned char *at = bytes + 20 + 4 * RS_GIVEN;
    bytes[share] ^= 1;
    write_mended();
    CHECK(load(RS_PAGE_WORDS) == RS_FILE_UNSOUND);
    bytes[share] ^= 1;
    while (word < length - 4 && memcmp(bytes + word, "\4\3\2\1", 4) != 0) word += 4;
    CHECK(word < length - 4);
    bytes[word] ^= 1;
    write_mended();
    CHECK(load(RS_PAGE_WORDS) == RS_FILE_DONE && !equal());
    bytes[word] ^= 1;
    rs_out_32(&at, &given, 1);
    write_mended();
    CHECK(load(RS_PAGE_WORDS) == RS_FILE_DONE);
    CHECK(gives(rs_new_region(&other), 1000000, 0, 0, 0));
    CHECK(refused(rs_new_region(&other), RS_NAMES_OUT));
    CHECK(refused(rs_subregion(&other, 1), RS_NAMES_OUT));
}

// ---- Memory that is no store

static uint64_t chance = 1;

static uint32_t any(void)
{
    chance = chance * 6364136223846793005u + 1442695040888963407u;
    return (uint32_t)(chance >> 32);
}

// Words on both sides of what is lent, which nothing may touch.
#define GUARD 16
#define LENT (5 * RS_PAGE_WORDS)
static struct {
    uint32_t before[GUARD];
    struct rs_state state;
    uint32_t between[GUARD];
    uint32_t heap[LENT + GUARD];
} lent, kept, numbered;

// Any bytes; or few and small ones; or a store with a few bytes changed.
static void fill(uint32_t how)
{
    unsigned char *at = (unsigned char *)&lent.state;
    size_t i;
    for (i = 0; i < sizeof lent.state; i++) {
        if (how == 0) at[i] = (unsigned char)any();
        if (how == 1) at[i] = (unsigned char)(any() % 4 ? 0 : any() % 20);
    }
    if (how == 2) lent.state = s.state;
    for (i = 0; i < LENT; i++) lent.heap[i] = how == 2 ? s.heap[i % s.words] : how == 1 ? any() % 400 : any();
    if (how == 2) {
        for (i = any() % 12; i > 0; i--) at[any() % sizeof lent.state] = (unsigned char)any();
        for (i = any() % 4; i > 0; i--) lent.heap[any() % LENT] = any() % 2 ? any() : any() % 400;
        return;
    }
    // Often the numbers are such that more than the first test is passed.
    if (any() % 2) lent.state.numbers[RS_MADE] = 1 + any() % 5;
    if (any() % 2) lent.state.numbers[RS_STANDING] = any() % 40;
    if (any() % 2) lent.state.numbers[RS_DECLARED] = any() % 20;
}

// Small numbers alone, or any.
static uint32_t argument(int small)
{
    uint32_t how = small ? 3 : any() % 4;
    if (how == 0) return any();
    if (how == 1) return UINT32_MAX - any() % 2;
    return any() % (how == 2 ? 300 : 4);
}

// The call by its name on what is lent, and by its number on a copy of it: they answer the same, and leave the same memory.
static void junk_call(struct rs_store *t, uint32_t number)
{
    static struct rs_store u;
    uint32_t n[4], list[40];
    int small = any() % 4 != 0;
    size_t i, count = any() % 8 ? any() % 4 : any() % 40;
    size_t words = any() % 4 ? lent.state.numbers[RS_MADE] % 6 * RS_PAGE_WORDS : any() % (LENT + 1);
    struct rs_reply r, by_number;
    struct rs_view view;
    for (i = 0; i < 4; i++) n[i] = argument(small);
    for (i = 0; i < 40; i++) list[i] = argument(small);
    memcpy(&kept, &lent, sizeof lent);
    memcpy(&numbered, &lent, sizeof lent);
    t->state = u.state = lent.state;
    t->words = u.words = words;
    t->heap = lent.heap;
    u.heap = numbered.heap;
    r = by_name(t, number, n, list, count);
    by_number = rs_call(&u, number, n[0], n[1], n[2], n[3], list, count);
    CHECK(r.refusal == by_number.refusal && (number == RS_CALL_VIEW || memcmp(r.values, by_number.values, sizeof r.values) == 0));
    CHECK(memcmp(&t->state, &u.state, sizeof u.state) == 0 && memcmp(lent.heap, numbered.heap, sizeof lent.heap) == 0);
    CHECK(t->heap == lent.heap && t->words == words);
    lent.state = t->state;
    if (r.refusal != RS_ACCEPTED || by_name_shape(number)->asks) CHECK(memcmp(&kept, &lent, sizeof lent) == 0);
    CHECK(memcmp(kept.heap + t->words, lent.heap + t->words, sizeof lent.heap - 4 * t->words) == 0);
    CHECK(r.refusal <= RS_NO_CALL && (r.refusal == RS_NO_CALL) == (number < 2 || number > BY_NAME_CALLS));
    view = rs_view(t, n[0]);
    CHECK(view.refusal || (view.words >= t->heap && view.words + view.count <= t->heap + t->words));
}

// The library itself, lent the arrays between words that it may not touch.
static void guarded_call(uint32_t number)
{
    uint32_t reply[5 + 2] = {0}, n[4], list[3];
    size_t words = any() % 2 ? LENT : any() % (LENT + 1), i;
    for (i = 0; i < 4; i++) n[i] = argument(1);
    for (i = 0; i < 3; i++) list[i] = argument(1);
    reply[5] = reply[6] = 0xC0FFEE;
    memcpy(&kept, &lent, sizeof lent);
    region_store_call(RS_LENT(&lent.state), lent.heap, words, number, n[0], n[1], n[2], n[3], list, 3, reply);
    CHECK(memcmp(kept.before, lent.before, sizeof lent.before) == 0 && memcmp(kept.between, lent.between, sizeof lent.between) == 0);
    CHECK(memcmp(kept.heap + words, lent.heap + words, sizeof lent.heap - 4 * words) == 0);
    if (reply[0] != RS_ACCEPTED) CHECK(memcmp(&kept, &lent, sizeof lent) == 0);
    CHECK(reply[5] == 0xC0FFEE && reply[6] == 0xC0FFEE);
}

// The functions of direct calls write every value, whatever was there, also where they refuse, and no word more.
static void test_values(void)
{
    struct rs_state *t = &s.state;
    uint32_t v[5] = {9, 9, 9, 9, 9};
    make(1);
    CHECK(region_store_push(t->numbers[RS_MADE], &t->numbers[RS_STANDING], t->widths, t->slots, heap, RS_PAGE_WORDS, 9, v) == RS_SLOT_COUNT);
    CHECK(v[0] == 0 && v[1] == 9);
    CHECK(region_store_about(t->numbers[RS_MADE], t->numbers[RS_STANDING], t->widths, t->slots, t->names, t->owners, heap, RS_PAGE_WORDS, 0, v + 1) == RS_NO_FRAME);
    CHECK(v[1] == 0 && v[2] == 0 && v[3] == 9);
    v[0] = v[1] = v[2] = 9;
    CHECK(region_store_report(
        t->numbers[RS_MADE], t->numbers[RS_STANDING], t->numbers[RS_COUNTED], t->widths, t->slots, t->names, t->parents, t->shares, t->owners, heap, RS_PAGE_WORDS, 7, v) == RS_NO_REGION);
    CHECK(v[0] == 0 && v[1] == 0 && v[2] == 0 && v[3] == 0 && v[4] == 9);
}

// A store with two regions in one another, objects in all slots but one, and words that lead to and fro.
static void make_large(void)
{
    uint32_t i;
    make(LENT / RS_PAGE_WORDS);
    rs_declare(&s, each_mark, 5);
    rs_declare(&s, numbers_only, 3);
    rs_new_region(&s);
    rs_subregion(&s, 2);
    rs_push(&s, 2);
    rs_allocate(&s, 1, 1, 2);
    rs_push(&s, 4);
    rs_new_region(&s);
    rs_delete(&s, 4, 1);
    for (i = 0; i < 3; i++) rs_allocate(&s, i, i + 1, 1);
    for (i = 0; i < 3; i++) rs_set_pointer(&s, i, 1, (i + 1) % 3, i);
    CHECK(sound());
}

static void test_junk(void)
{
    static struct rs_store t;
    uint32_t round, first, i;
    make_large();
    for (round = 0; round < 10000; round++) {
        for (i = 0; i < GUARD; i++) lent.before[i] = lent.between[i] = lent.heap[LENT + i] = any();
        fill(round % 3);
        first = any() % 31;
        for (i = 0; i <= 30; i++) {
            junk_call(&t, (first + i) % 31);
            guarded_call((first + i) % 31);
        }
    }
}

int main(int count, char **words)
{
    if (count != 3) {
        fprintf(stderr, "test LINES FOLDER\n");
        return 1;
    }
    snprintf(folder, sizeof folder, "%s", words[2]);
    snprintf(path, sizeof path, "%s/c.%ld.store", folder, (long)getpid());
    test_layout();
    test_session(words[1]);
    test_stack();
    test_words();
    test_joint_delete();
    test_view();
    test_lengths();
    test_numbers();
    test_full();
    test_frames_refused();
    test_objects_refused();
    test_deletes_refused();
    test_round_trip();
    test_unwritable();
    test_steps();
    test_failures();
    test_taken_names();
    test_links();
    test_not_files();
    test_savers();
    test_damage();
    test_mended();
    test_reasons();
    test_values();
    test_junk();
    unlink(path);
    printf("%u checks, %u failed\n", checks, failures);
    return failures != 0;
}
