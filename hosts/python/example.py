#!/usr/bin/env python3
"""A small season of puzzles in a region store: a round is a region, its grids are subregions, and
clues are objects that lie in a grid. Two people, filler 0 and filler 1, fill the grids."""

import os
import tempfile

from region_store import NotLoaded, Refused, Store

ANNA, BEN = 0, 1  # the fillers

# The words of a clue: where it leads, its number, and how many letters its answer has.
LEADS_TO, NUMBER, LETTERS = 0, 1, 2


def file_clue(store, slot, grid, kind, number, letters):
    """Makes a clue in a grid, and leads a slot to it."""
    store.allocate(slot, grid, kind)
    store.put(slot, NUMBER, number)
    store.put(slot, LETTERS, letters)


def try_to_delete(store, region, who):
    """Deletes a region, or prints why it has to stay."""
    try:
        pages = store.delete(region, filler=who)
        print(f"region {region} is deleted, pages freed: {pages}")
    except Refused as refused:
        print(refused)


def a_round(store, clue):
    """Files a round with two grids, a clue in each; gives the three regions."""
    print("-- a round with two grids")
    spring = store.new_region()
    monday = store.subregion(spring)
    tuesday = store.subregion(spring)
    file_clue(store, 0, monday, clue, number=5, letters=7)
    file_clue(store, 1, tuesday, clue, number=12, letters=4)
    print("regions:", spring, monday, tuesday)
    print("slot 1 leads to", store.about(1), "at", store.locate(1))
    return spring, monday, tuesday


def a_clue_leads_there(store, tuesday):
    """Tuesday's grid cannot go while a clue of Monday's leads into it."""
    print("-- Monday's clue 5 says: see clue 12 of Tuesday")
    store.set_pointer(0, LEADS_TO, 1, filler=ANNA)
    store.clear(1)  # now only the clue leads there
    print(store.report(tuesday))
    try_to_delete(store, tuesday, BEN)

    print("-- the clue still leads there")
    store.load(0, LEADS_TO, 1)  # slot 1: where the clue leads
    print("clue", store.get(1, NUMBER), "has", store.get(1, LETTERS), "letters")


def deletes(store, spring, monday, tuesday):
    """Grids and the round go, by one filler and by the other."""
    print("-- Ben makes the clue let go; then Tuesday can go")
    store.clear(1)
    store.set_pointer(0, LEADS_TO, 1, filler=BEN)  # slot 1 is null, and so is the word now
    try_to_delete(store, tuesday, BEN)

    print("-- the round has to wait for its last grid, or go together with it")
    store.clear(0)
    try_to_delete(store, spring, ANNA)
    print("pages freed together:", store.delete_all([spring, monday], filler=ANNA))


def a_score(store, score):
    """What should outlive every round lies in region 1, the permanent one."""
    print("-- the score; a view shows the heap itself")
    store.allocate(2, 1, score)
    words = store.view(2)
    store.put(2, 0, 31)
    store.put(2, 1, 28)
    print("the score:", list(words))


def saved_and_loaded(store):
    """Saves the store, and gives what is loaded again."""
    print("-- saved and loaded")
    with tempfile.TemporaryDirectory() as folder:
        path = os.path.join(folder, "season.store")
        store.save(path)
        print("bytes:", os.path.getsize(path))
        again = Store.load(path)
        os.truncate(path, 1000)
        try:
            Store.load(path)
        except NotLoaded as error:
            print("not loaded:", error.message)
    return again


def main():
    store = Store(8)  # 8 pages of 64 words
    clue = store.declare([1, 0, 0])  # a pointer to any region, and two numbers
    score = store.declare([0, 0, 0])  # three numbers
    store.push(3)  # a frame with slots 0, 1 and 2: objects are reached through these
    spring, monday, tuesday = a_round(store, clue)
    a_clue_leads_there(store, tuesday)
    deletes(store, spring, monday, tuesday)
    a_score(store, score)
    again = saved_and_loaded(store)
    print("equal:", again.image() == store.image())
    print("the score:", list(again.view(2)))
    print("audit:", again.audit())
    print(again)


if __name__ == "__main__":
    main()
