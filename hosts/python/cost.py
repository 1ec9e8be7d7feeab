#!/usr/bin/env python3
"""What a call costs from Python: for each call a line NAME NS, nanoseconds of processor time for
one, the least of five rounds. The stores and the names are those of bench/bench.c."""

import time
import timeit

from region_store import MOST_PAGES, Store

ROUNDS = 5
KINDS = ((1, 0), (1,), (0, 0, 0), (1, 1, 1), (3,))
PAIR, POINTER, DATA, POINTERS, UP, LINK = range(1, 7)


def made(regions):
    """The kinds, a frame of 8 slots, and so many regions, named from 2 on."""
    store = Store(MOST_PAGES)
    for marks in KINDS:
        store.declare(marks)
    store.push(8)
    for _ in range(regions):
        store.new_region()
    return store


def plain():
    """Objects in slots 0 to 4, in regions 2 to 6: three of a pointer and a number, the first two
    of which lead to the third and hold 7, and two of three numbers."""
    store = made(5)
    store.allocate(2, 4, PAIR)
    for i in range(2):
        store.allocate(i, 2 + i, PAIR)
        store.set_pointer(i, 0, 2)
        store.put(i, 1, 7)
    store.allocate(3, 5, DATA)
    store.allocate(4, 6, DATA)
    return store


def stacked():
    """The plain store with a frame more."""
    store = plain()
    store.push(8)
    return store


def linked():
    """The plain store with the kind of the cycle."""
    store = plain()
    store.declare((2, 2, 1, 0))
    return store


def full():
    """255 pages full of objects with a pointer each into another region."""
    store = made(2)
    store.allocate(0, 2, POINTER)
    for _ in range(8160):
        store.allocate(1, 3, POINTER)
        store.set_pointer(1, 0, 0)
    return store


def cycle(store):
    """A region made, filled with 200 objects in a list that leads both ways, some with a pointer
    out of the region, and deleted: of each object in slot 6, what was made before it in slot 5."""
    region = store.new_region()
    for i in range(200):
        store.allocate(6, region, LINK)
        store.put(6, 3, i)
        store.set_pointer(6, 1, 5)
        if i > 0:
            store.set_pointer(5, 0, 6)
        if i % 7 == 0:
            store.set_pointer(6, 2, 0)
        if i % 10 == 0:
            store.load(6, 1, 7)
        store.copy(6, 5)
    for slot in range(5, 8):
        store.clear(slot)
    store.delete(region)


# of each its store, and how many are made in a round
LINES = (
    ("clear", "store.clear(0)", plain, 20000),
    ("copy", "store.copy(0, 5)", plain, 20000),
    ("fetch", "store.fetch(0, 0)", stacked, 20000),
    ("first", "store.first(5, 2)", plain, 20000),
    ("load", "store.load(0, 0, 5)", plain, 20000),
    ("put", "store.put(0, 1, 7)", plain, 20000),
    ("get", "store.get(0, 1)", plain, 20000),
    ("view", "store.view(3)", plain, 20000),
    ("set_pointer", "store.set_pointer(0, 0, 1)", plain, 20000),
    ("allocate", "store.allocate(5, 2, 1)", plain, 1000),
    ("push_drop", "store.push(8); store.drop()", plain, 20000),
    ("push_hand_back", "store.push(8); store.hand_back(0, 5)", plain, 20000),
    ("same", "store.same(0, 1)", plain, 20000),
    ("about", "store.about(0)", plain, 20000),
    ("locate", "store.locate(0)", plain, 20000),
    ("totals", "store.totals()", plain, 20000),
    ("report", "store.report(2)", plain, 20000),
    ("region_delete", "store.delete(store.new_region())", plain, 20000),
    ("subregion_delete", "store.delete(store.subregion(2))", plain, 20000),
    ("cycle", "cycle(store)", linked, 20),
    ("audit", "store.audit()", plain, 20000),
    ("audit_full", "store.audit()", full, 100),
)


def cost(statement, store, calls):
    """Nanoseconds of one; raises Refused where it is refused."""
    names = {"store": store, "cycle": cycle}
    timer = timeit.Timer(statement, timer=time.process_time, globals=names)
    return 1e9 * min(timer.repeat(ROUNDS, calls)) / calls


def main():
    for name, statement, store, calls in LINES:
        print(f"{name} {cost(statement, store(), calls):.1f}", flush=True)


if __name__ == "__main__":
    main()
