// Saving and loading a region store, on POSIX systems. Beside region_store.h it needs nothing to link.
//
// A saved store is one file, the same for all hosts and all machines; all numbers are little-endian:
//   8 bytes   REGSTORE
//   4 bytes   the version of the layout
//   4 bytes   the bytes of the state, 3,652
//   4 bytes   the words of the heap
//   the state, member by member; the heap
//   4 bytes   CRC-32, zlib's, of all bytes before it
//
// rs_file_load tests the sum and has the memory audited, for each finds what the other cannot: the sum finds bytes that changed on the way, but a file may hold a sum that is right and memory that is no store; the audit finds that, but data words and entries not in use are not its business, so a changed one it would not notice. Neither proves who wrote a file.
//
// With a compiler told to keep to the C standard (-std=c99) this header comes before all others, or _POSIX_C_SOURCE is defined as 200809L.
#ifndef REGION_STORE_FILE_H
#define REGION_STORE_FILE_H

#if defined(__STRICT_ANSI__) && !defined(_POSIX_C_SOURCE) && !defined(_GNU_SOURCE) && !defined(_DEFAULT_SOURCE)
#define _POSIX_C_SOURCE 200809L
#endif

#include <errno.h>
#include <fcntl.h>
#include <stdio.h>
#include <stdlib.h>
#include <sys/stat.h>
#include <unistd.h>

#include "region_store.h"

// What saving and loading answer.
// hosts/tables: begin files
#define RS_FILE_MAGIC "REGSTORE"

enum rs_file {
    RS_FILE_DONE = 0,
    RS_FILE_UNREADABLE = 1, // the file cannot be read
    RS_FILE_SHORT = 2, // the file ends before its sum
    RS_FILE_NO_STORE = 3, // the file does not begin as a saved store does
    RS_FILE_OTHER_VERSION = 4, // the file has another version of the layout
    RS_FILE_WRONG_LENGTHS = 5, // the file's lengths are none that a store has
    RS_FILE_LONG = 6, // the file goes on after its sum
    RS_FILE_WRONG_SUM = 7, // the file's sum is not that of its bytes
    RS_FILE_UNSOUND = 8, // the audit rejects the memory that the file has
    RS_FILE_NO_ROOM = 9, // the heap lent is smaller than the one in the file
    RS_FILE_UNWRITABLE = 10 // the file cannot be written
};
// hosts/tables: end

static inline const char *rs_file_message(uint32_t number)
{
    switch (number) {
    case RS_FILE_DONE: return "done";
    // hosts/tables: begin messages
    case RS_FILE_UNREADABLE: return "the file cannot be read";
    case RS_FILE_SHORT: return "the file ends before its sum";
    case RS_FILE_NO_STORE: return "the file does not begin as a saved store does";
    case RS_FILE_OTHER_VERSION: return "the file has another version of the layout";
    case RS_FILE_WRONG_LENGTHS: return "the file's lengths are none that a store has";
    case RS_FILE_LONG: return "the file goes on after its sum";
    case RS_FILE_WRONG_SUM: return "the file's sum is not that of its bytes";
    case RS_FILE_UNSOUND: return "the audit rejects the memory that the file has";
    case RS_FILE_NO_ROOM: return "the heap lent is smaller than the one in the file";
    case RS_FILE_UNWRITABLE: return "the file cannot be written";
    // hosts/tables: end
    default: return "no message has that number";
    }
}

// Bytes in front of the state, those of the sum, and those of the largest file there is.
#define RS_FILE_HEAD 20
#define RS_FILE_SUM 4
#define RS_FILE_MOST (RS_FILE_HEAD + RS_STATE_BYTES + 4 * RS_PAGE_WORDS * RS_MOST_PAGES + RS_FILE_SUM)
// The longest path of a new file, PATH.PID.N.new, with its last 0.
#define RS_FILE_PATH 4096
// How many names PATH.PID.N.new are tried, N from 0 on.
#define RS_FILE_NAMES 100

// CRC-32 as zlib has it: of some bytes, after others that have the sum given, 0 where there are none.
static inline uint32_t rs_crc32(uint32_t sum, const void *bytes, size_t count)
{
    static const uint32_t steps[16] = {
        0x00000000, 0x1DB71064, 0x3B6E20C8, 0x26D930AC, 0x76DC4190, 0x6B6B51F4, 0x4DB26158, 0x5005713C,
        0xEDB88320, 0xF00F9344, 0xD6D6A3E8, 0xCB61B38C, 0x9B64C2B0, 0x86D3D2D4, 0xA00AE278, 0xBDBDF21C
    };
    const unsigned char *at = (const unsigned char *)bytes;
    sum = ~sum;
    for (; count > 0; count--) {
        sum ^= *at++;
        sum = (sum >> 4) ^ steps[sum & 15];
        sum = (sum >> 4) ^ steps[sum & 15];
    }
    return ~sum;
}

// ---- Numbers as bytes: each moves the place on

static inline void rs_out_8(unsigned char **at, const uint8_t *from, size_t count)
{
    for (size_t i = 0; i < count; i++) *(*at)++ = from[i];
}

static inline void rs_out_16(unsigned char **at, const uint16_t *from, size_t count)
{
    for (size_t i = 0; i < count; i++) {
        *(*at)++ = (unsigned char)(from[i] & 255);
        *(*at)++ = (unsigned char)(from[i] >> 8);
    }
}

static inline void rs_out_32(unsigned char **at, const uint32_t *from, size_t count)
{
    for (size_t i = 0; i < count; i++)
        for (unsigned shift = 0; shift < 32; shift += 8) *(*at)++ = (unsigned char)(from[i] >> shift & 255);
}

static inline void rs_in_8(const unsigned char **at, uint8_t *to, size_t count)
{
    for (size_t i = 0; i < count; i++) to[i] = *(*at)++;
}

static inline void rs_in_16(const unsigned char **at, uint16_t *to, size_t count)
{
    for (size_t i = 0; i < count; i++, *at += 2) to[i] = (uint16_t)((*at)[0] | (*at)[1] << 8);
}

static inline void rs_in_32(const unsigned char **at, uint32_t *to, size_t count)
{
    for (size_t i = 0; i < count; i++, *at += 4)
        to[i] = (uint32_t)(*at)[0] | (uint32_t)(*at)[1] << 8 | (uint32_t)(*at)[2] << 16 | (uint32_t)(*at)[3] << 24;
}

static inline void rs_out_state(unsigned char **at, const struct rs_state *state)
{
    // hosts/tables: begin written
    rs_out_32(at, state->numbers, 5);
    rs_out_8(at, state->widths, 32);
    rs_out_32(at, state->slots, 256);
    rs_out_8(at, state->sizes, 16);
    rs_out_8(at, state->marks, 256);
    rs_out_32(at, state->names, 64);
    rs_out_8(at, state->parents, 64);
    rs_out_8(at, state->levels, 64);
    rs_out_32(at, state->shares, 256);
    rs_out_16(at, state->newest, 64);
    rs_out_32(at, state->oldest, 64);
    rs_out_8(at, state->owners, 256);
    rs_out_8(at, state->taken, 256);
    // hosts/tables: end
}

static inline void rs_in_state(const unsigned char **at, struct rs_state *state)
{
    // hosts/tables: begin read
    rs_in_32(at, state->numbers, 5);
    rs_in_8(at, state->widths, 32);
    rs_in_32(at, state->slots, 256);
    rs_in_8(at, state->sizes, 16);
    rs_in_8(at, state->marks, 256);
    rs_in_32(at, state->names, 64);
    rs_in_8(at, state->parents, 64);
    rs_in_8(at, state->levels, 64);
    rs_in_32(at, state->shares, 256);
    rs_in_16(at, state->newest, 64);
    rs_in_32(at, state->oldest, 64);
    rs_in_8(at, state->owners, 256);
    rs_in_8(at, state->taken, 256);
    // hosts/tables: end
}

// ---- Files and folders: what a signal interrupts is asked again, but for close, since the file may be closed all the same

// Opens a file or a folder, which programs that this one starts do not get; -1 where it cannot.
static inline int rs_file_open(const char *path, int flags)
{
    int file;
    do file = open(path, flags | O_CLOEXEC, 0666);
    while (file < 0 && errno == EINTR);
    return file;
}

// Has the disk take what was written to a file, or a folder's names; 1 where that went well.
static inline int rs_file_flush(int file)
{
    int failed;
    do failed = fsync(file);
    while (failed && errno == EINTR);
    return !failed;
}

// ---- Saving

// The bytes of a saved store, at most RS_FILE_MOST; gives how many.
static inline size_t rs_file_bytes(const struct rs_store *s, unsigned char *bytes)
{
    const uint32_t head[3] = {RS_LAYOUT_VERSION, RS_STATE_BYTES, (uint32_t)s->words};
    uint32_t sum;
    unsigned char *at = bytes;
    memcpy(at, RS_FILE_MAGIC, 8);
    at += 8;
    rs_out_32(&at, head, 3);
    rs_out_state(&at, &s->state);
    rs_out_32(&at, s->heap, s->words);
    sum = rs_crc32(0, bytes, (size_t)(at - bytes));
    rs_out_32(&at, &sum, 1);
    return (size_t)(at - bytes);
}

// Writes the bytes to an open file, has the disk take them, and closes it; 1 where all of that went well.
static inline int rs_file_write(int file, const unsigned char *bytes, size_t count)
{
    int well = 1;
    while (well && count > 0) {
        ssize_t n = write(file, bytes, count);
        if (n > 0) {
            bytes += n;
            count -= (size_t)n;
        } else if (n == 0 || errno != EINTR) well = 0;
    }
    if (well && !rs_file_flush(file)) well = 0;
    if (close(file) != 0 && errno != EINTR) well = 0;
    return well;
}

// Opens the folder that a path lies in.
static inline int rs_file_folder(const char *path)
{
    char folder[RS_FILE_PATH];
    const char *last = strrchr(path, '/');
    size_t length = last ? (size_t)(last - path) : 0;
    if (!last) return rs_file_open(".", O_RDONLY | O_DIRECTORY);
    if (last == path) return rs_file_open("/", O_RDONLY | O_DIRECTORY);
    if (length >= sizeof folder) return -1;
    memcpy(folder, path, length);
    folder[length] = 0;
    return rs_file_open(folder, O_RDONLY | O_DIRECTORY);
}

// Makes the new file beside the path, PATH.PID.N.new with the first N that is not taken, whatever stands there, a link too. Gives it open, and its name; -1 where it cannot be made.
static inline int rs_file_beside(const char *path, char *name)
{
    for (int n = 0; n < RS_FILE_NAMES; n++) {
        int length = snprintf(name, RS_FILE_PATH, "%s.%ld.%d.new", path, (long)getpid(), n);
        int file;
        if (length < 0 || length >= RS_FILE_PATH) return -1;
        file = rs_file_open(name, O_WRONLY | O_CREAT | O_EXCL);
        if (file >= 0 || errno != EEXIST) return file;
    }
    return -1;
}

// Writes the bytes to a new file beside the path, then renames that to the path; the folder is open. Only a file made here is removed.
static inline int rs_file_replace(const char *path, int folder, const unsigned char *bytes, size_t count)
{
    char beside[RS_FILE_PATH];
    int file = rs_file_beside(path, beside);
    if (file < 0) return 0;
    if (!rs_file_write(file, bytes, count) || rename(beside, path) != 0) {
        unlink(beside);
        return 0;
    }
    // Some file systems have no flush of a folder: they say EINVAL.
    return rs_file_flush(folder) || errno == EINVAL;
}

// Saves a store: gives RS_FILE_DONE or RS_FILE_UNWRITABLE.
// The bytes are written to a new file beside the path, PATH.PID.N.new (PID the number of the process, N the first from 0 to 99 that is not taken), and flushed; then that file is renamed to the path, and the folder is flushed. So at every moment there is one whole store at the path, the old one or a new one, also where several threads or processes save to it at once: each has a file of its own, and the last to rename stays. A link at the path is replaced by the file, and what it led to is left as it was.
// After RS_FILE_UNWRITABLE what was at the path is there as it was, unless all went well but the last step, the flush of the folder: then the new file is there, whole and flushed, but a loss of power may bring the old one back. (That a file system cannot flush folders at all is no failure.) The file beside the path is removed, if the system lets it be; no other file has been touched. A crash on the way may leave a file PATH.PID.N.new, which may be deleted.
// A store that make refused, or whose heap is not the one made, is not saved.
static inline enum rs_file rs_file_save(const struct rs_store *s, const char *path)
{
    unsigned char *bytes;
    int folder;
    int well = 0;
    if (!s->heap || s->words == 0 || s->words > RS_PAGE_WORDS * RS_MOST_PAGES) return RS_FILE_UNWRITABLE;
    if (s->words != RS_PAGE_WORDS * (size_t)s->state.numbers[RS_MADE]) return RS_FILE_UNWRITABLE;
    bytes = (unsigned char *)malloc(RS_FILE_MOST);
    folder = rs_file_folder(path);
    if (bytes && folder >= 0) well = rs_file_replace(path, folder, bytes, rs_file_bytes(s, bytes));
    if (folder >= 0) close(folder);
    free(bytes);
    return well ? RS_FILE_DONE : RS_FILE_UNWRITABLE;
}

// ---- Loading

// A file's bytes, one more than the largest has room, and the store in it.
struct rs_file_held {
    struct rs_store store;
    uint32_t heap[RS_PAGE_WORDS * RS_MOST_PAGES];
    unsigned char bytes[RS_FILE_MOST + 1];
    size_t count;
};

// Reads a file, or as much of it as there is room for; 1 where that went well. Folders, pipes and devices are not read, and a pipe is not waited for.
static inline int rs_file_read(const char *path, struct rs_file_held *held)
{
    struct stat about;
    ssize_t n = 1;
    int file = rs_file_open(path, O_RDONLY | O_NONBLOCK);
    if (file < 0) return 0;
    if (fstat(file, &about) != 0 || !S_ISREG(about.st_mode)) n = -1;
    held->count = 0;
    while (n > 0 && held->count < sizeof held->bytes) {
        do n = read(file, held->bytes + held->count, sizeof held->bytes - held->count);
        while (n < 0 && errno == EINTR);
        if (n > 0) held->count += (size_t)n;
    }
    close(file);
    return n >= 0;
}

// Tests the bytes of a file, and takes the store out of them. The tests come in the order of enum rs_file, but that a file is short is told twice: first where it has not even the bytes that every file has, and again, before long, where it has fewer than its lengths say.
static inline enum rs_file rs_file_take(struct rs_file_held *held)
{
    const unsigned char *at = held->bytes + 8;
    struct rs_store *s = &held->store;
    uint32_t head[3], sum;
    size_t whole;
    struct rs_reply sound;
    if (held->count < RS_FILE_HEAD + RS_FILE_SUM) return RS_FILE_SHORT;
    if (memcmp(held->bytes, RS_FILE_MAGIC, 8) != 0) return RS_FILE_NO_STORE;
    rs_in_32(&at, head, 3);
    if (head[0] != RS_LAYOUT_VERSION) return RS_FILE_OTHER_VERSION;
    if (head[1] != RS_STATE_BYTES || head[2] == 0) return RS_FILE_WRONG_LENGTHS;
    if (head[2] % RS_PAGE_WORDS != 0 || head[2] / RS_PAGE_WORDS > RS_MOST_PAGES) return RS_FILE_WRONG_LENGTHS;
    whole = RS_FILE_HEAD + RS_STATE_BYTES + 4 * (size_t)head[2] + RS_FILE_SUM;
    if (held->count < whole) return RS_FILE_SHORT;
    if (held->count > whole) return RS_FILE_LONG;
    s->heap = held->heap;
    s->words = head[2];
    rs_in_state(&at, &s->state);
    rs_in_32(&at, s->heap, s->words);
    rs_in_32(&at, &sum, 1);
    if (sum != rs_crc32(0, held->bytes, whole - RS_FILE_SUM)) return RS_FILE_WRONG_SUM;
    sound = rs_audit(s);
    return sound.refusal == RS_ACCEPTED && sound.values[0] == 1 ? RS_FILE_DONE : RS_FILE_UNSOUND;
}

// Loads a saved store into a heap of `room` words: gives RS_FILE_DONE, and then s holds the store and uses the first words of the heap, as many as the file has; or the reason that it is not loaded, and then neither s nor the heap has changed. What is no regular file (a folder, a pipe, a device) cannot be read; memory for the file that cannot be had counts as a file that cannot be read.
static inline enum rs_file rs_file_load(struct rs_store *s, uint32_t *heap, size_t room, const char *path)
{
    struct rs_file_held *held = (struct rs_file_held *)malloc(sizeof *held);
    enum rs_file answer = RS_FILE_UNREADABLE;
    if (held && rs_file_read(path, held)) answer = rs_file_take(held);
    if (answer == RS_FILE_DONE && (!heap || room < held->store.words)) answer = RS_FILE_NO_ROOM;
    if (answer == RS_FILE_DONE) {
        memcpy(heap, held->heap, 4 * held->store.words);
        *s = held->store;
        s->heap = heap;
    }
    free(held);
    return answer;
}

#endif
