#!/usr/bin/env python3
"""Plays a script on two stores, by the methods and by call, and prints a line for each call.

    play.py SCRIPT [--load FILE] [--place N] [--save FILE]

The lines are those of drive: PLACE REFUSAL V1 V2 V3 V4, places from N + 1; for view the first value
is the length of its part. The two stores must agree in every answer, and every 1,000 calls and at
the end in state and heap; the audit must give 1. Exit status 0 if all this was so, else 1.
"""

import argparse
import sys

from region_store import CALLS, LAST, MOST_PAGES, NotLoaded, NotSaved, Refused, Store

NO_VALUES = (0, 0, 0, 0)
BETWEEN = 1000


class Wrong(Exception):
    """The script, or what was answered, is not as it should be."""


class Shape:
    """How a call is written in a script, and made."""

    def __init__(self, call):
        self.number = call.number
        self.name = call.name
        self.filled = "filler" in call.arguments
        self.listed = any(word.endswith("..") for word in call.arguments)
        self.numbers = sum(word != "filler" and not word.endswith("..") for word in call.arguments)
        self.partial = any(word.endswith("..") for word in call.values)


SHAPES = {}
for _call in CALLS.values():
    if _call.name != "make":
        SHAPES[_call.name] = SHAPES[str(_call.number)] = Shape(_call)


def number_of(word):
    """A number of the script."""
    if not (word.isascii() and word.isdigit()):
        raise Wrong(f"a number is wanted, not {word}")
    number = int(word)
    if number > LAST:
        raise Wrong(f"the number is too large: {word}")
    return number


def by_name(store, shape, numbers, filler):
    """A call by its method: the refusal, and the values as the methods give them."""
    given = {"filler": filler} if shape.filled else {}
    try:
        if shape.listed:
            value = getattr(store, shape.name)(numbers, **given)
        else:
            value = getattr(store, shape.name)(*numbers, **given)
    except Refused as refused:
        if refused.call != shape.name:
            raise Wrong(f"{shape.name} was refused as {refused.call}") from None
        return refused.number, NO_VALUES
    if value is None:
        return 0, NO_VALUES
    if shape.partial:
        return 0, (len(value), 0, 0, 0)
    if isinstance(value, tuple):
        return 0, tuple(value) + NO_VALUES[len(value) :]
    return 0, (int(value), 0, 0, 0)


def by_number(store, shape, numbers, filler):
    """The same call by its number: the refusal and the values."""
    given = (filler,) if shape.filled else ()
    if shape.listed:
        five = store.call(shape.number, *given, list=numbers)
    else:
        five = store.call(shape.number, *numbers, *given)
    return five[0], five[1:]


class Player:
    """Two stores that are given one list of calls."""

    def __init__(self, place):
        self.place = place
        self.line = 0
        self.named = None
        self.numbered = None
        self.out = []

    def load(self, path):
        self.named = Store.load(path)
        self.numbered = Store.load(path)

    def answer(self, refusal, values):
        self.place += 1
        self.out.append("%d %d %d %d %d %d\n" % (self.place, refusal, *values))
        if len(self.out) == BETWEEN:
            self.write()

    def write(self):
        """Compares the stores, and writes what was answered."""
        if self.named and self.named.image() != self.numbered.image():
            raise Wrong("by name and by number have left other stores")
        sys.stdout.write("".join(self.out))
        self.out.clear()

    def pages(self, words):
        if self.named:
            raise Wrong("a store is made already")
        if len(words) != 1:
            raise Wrong("pages takes one number")
        pages = number_of(words[0])
        if pages > MOST_PAGES + 1:
            raise Wrong("that is too many pages")
        try:
            self.named, self.numbered = Store(pages), Store(pages)
        except Refused as refused:
            self.answer(refused.number, NO_VALUES)
        else:
            self.answer(0, NO_VALUES)

    def make_call(self, shape, words, filler):
        numbers = [number_of(word) for word in words]
        if not shape.listed and len(numbers) != shape.numbers:
            raise Wrong(f"{shape.name} takes {shape.numbers} numbers")
        if not self.named:
            raise Wrong("no store is made yet")
        refusal, values = by_name(self.named, shape, numbers, filler)
        other, others = by_number(self.numbered, shape, numbers, filler)
        if refusal != other or (values != others and not shape.partial):
            raise Wrong(f"by name {refusal} {values}, by number {other} {others}")
        self.answer(refusal, values)

    def play_line(self, words):
        if words[0] == "pages":
            self.pages(words[1:])
            return
        filler = 0
        if words[0] == "as":
            if len(words) < 3:
                raise Wrong("a filler and a call are wanted after as")
            filler = number_of(words[1])
            words = words[2:]
            if words[0] in SHAPES and not SHAPES[words[0]].filled:
                raise Wrong(f"{words[0]} has no filler")
        if words[0] not in SHAPES:
            raise Wrong(f"no call has that name or number: {words[0]}")
        self.make_call(SHAPES[words[0]], words[1:], filler)

    def play(self, script):
        for self.line, text in enumerate(script, 1):
            words = text.partition("#")[0].split()
            if words:
                self.play_line(words)

    def end(self, path):
        self.write()
        if not self.named:
            raise Wrong("no store was made")
        if not (self.named.audit() and self.numbered.audit()):
            raise Wrong("the audit does not give 1")
        if path:
            self.named.save(path)
        sys.stdout.flush()


def main():
    arguments = argparse.ArgumentParser(prog="play.py", description="Plays a script on two stores.")
    arguments.add_argument("script", metavar="SCRIPT")
    arguments.add_argument("--load", metavar="FILE", help="begin with a saved store")
    arguments.add_argument("--place", metavar="N", type=int, default=0, help="the place before the first")
    arguments.add_argument("--save", metavar="FILE", help="save the store at the end")
    given = arguments.parse_args()
    player = Player(given.place)
    try:
        if given.load:
            player.load(given.load)
        with open(given.script, encoding="utf-8") as script:
            player.play(script)
        player.end(given.save)
    except (Wrong, NotLoaded, NotSaved, OSError) as error:
        print(f"play.py: line {player.line}, call {player.place}: {error}", file=sys.stderr)
        return 1
    return 0


if __name__ == "__main__":
    sys.exit(main())
