// For tests: the calls of the store by number, each made by the function that has its name.
#ifndef BY_NAME_H
#define BY_NAME_H

#include "region_store.h"

// A call: its arguments as store.txt has them, how many of them are numbers, whether it takes a list, which of the numbers, from 1, is the filler, 0 for none, and whether it only asks.
struct by_name_shape {
    const char *name;
    const char *arguments;
    unsigned numbers;
    unsigned list;
    unsigned filler;
    unsigned asks;
};

// hosts/tables: begin shapes
#define BY_NAME_CALLS 25

static inline const struct by_name_shape *by_name_shape(uint32_t number)
{
    static const struct by_name_shape shapes[BY_NAME_CALLS + 1] = {
        {"", "", 0, 0, 0, 0},
        {"make", "heap..", 0, 1, 0, 0},
        {"declare", "marks..", 0, 1, 0, 0},
        {"new_region", "", 0, 0, 0, 0},
        {"subregion", "region", 1, 0, 0, 0},
        {"push", "slots", 1, 0, 0, 0},
        {"drop", "filler", 1, 0, 1, 0},
        {"hand_back", "slot beneath filler", 3, 0, 3, 0},
        {"allocate", "slot region kind", 3, 0, 0, 0},
        {"first", "slot region", 2, 0, 0, 0},
        {"copy", "from to", 2, 0, 0, 0},
        {"fetch", "beneath slot", 2, 0, 0, 0},
        {"clear", "slot", 1, 0, 0, 0},
        {"load", "slot word to", 3, 0, 0, 0},
        {"set_pointer", "slot word value filler", 4, 0, 4, 0},
        {"put", "slot word number", 3, 0, 0, 0},
        {"get", "slot word", 2, 0, 0, 1},
        {"view", "slot", 1, 0, 0, 1},
        {"same", "slot other", 2, 0, 0, 1},
        {"about", "slot", 1, 0, 0, 1},
        {"report", "region", 1, 0, 0, 1},
        {"totals", "", 0, 0, 0, 1},
        {"audit", "", 0, 0, 0, 1},
        {"delete", "region filler", 2, 0, 2, 0},
        {"delete_all", "regions.. filler", 1, 1, 1, 0},
        {"locate", "slot", 1, 0, 0, 1}
    };
    return &shapes[number <= BY_NAME_CALLS ? number : 0];
}
// hosts/tables: end

// View's refusal, and the length of its part as the first value.
static inline struct rs_reply by_name_view(struct rs_store *s, uint32_t slot)
{
    struct rs_view view = rs_view(s, slot);
    struct rs_reply reply = {view.refusal, {(uint32_t)view.count, 0, 0, 0}};
    return reply;
}

// Makes the call that has the number, by its name; any number that is none, 1 among them, as rs_call does.
static inline struct rs_reply by_name(struct rs_store *s, uint32_t number, const uint32_t n[4], const uint32_t *list, size_t count)
{
    switch (number) {
    case RS_CALL_VIEW: return by_name_view(s, n[0]);
    // hosts/tables: begin by_name
    case RS_CALL_DECLARE: return rs_declare(s, list, count);
    case RS_CALL_NEW_REGION: return rs_new_region(s);
    case RS_CALL_SUBREGION: return rs_subregion(s, n[0]);
    case RS_CALL_PUSH: return rs_push(s, n[0]);
    case RS_CALL_DROP: return rs_drop(s, n[0]);
    case RS_CALL_HAND_BACK: return rs_hand_back(s, n[0], n[1], n[2]);
    case RS_CALL_ALLOCATE: return rs_allocate(s, n[0], n[1], n[2]);
    case RS_CALL_FIRST: return rs_first(s, n[0], n[1]);
    case RS_CALL_COPY: return rs_copy(s, n[0], n[1]);
    case RS_CALL_FETCH: return rs_fetch(s, n[0], n[1]);
    case RS_CALL_CLEAR: return rs_clear(s, n[0]);
    case RS_CALL_LOAD: return rs_load(s, n[0], n[1], n[2]);
    case RS_CALL_SET_POINTER: return rs_set_pointer(s, n[0], n[1], n[2], n[3]);
    case RS_CALL_PUT: return rs_put(s, n[0], n[1], n[2]);
    case RS_CALL_GET: return rs_get(s, n[0], n[1]);
    case RS_CALL_SAME: return rs_same(s, n[0], n[1]);
    case RS_CALL_ABOUT: return rs_about(s, n[0]);
    case RS_CALL_REPORT: return rs_report(s, n[0]);
    case RS_CALL_TOTALS: return rs_totals(s);
    case RS_CALL_AUDIT: return rs_audit(s);
    case RS_CALL_DELETE: return rs_delete(s, n[0], n[1]);
    case RS_CALL_DELETE_ALL: return rs_delete_all(s, list, count, n[0]);
    case RS_CALL_LOCATE: return rs_locate(s, n[0]);
    // hosts/tables: end
    default: return rs_call(s, number, n[0], n[1], n[2], n[3], list, count);
    }
}

#endif
