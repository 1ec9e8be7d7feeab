#!/usr/bin/env python3
"""Tests of region_store.py: python3 test_region_store.py [-v]

Refusal 21 cannot be had: a Store keeps its state and its heap together.
"""

import contextlib
import copy
import doctest
import enum
import errno
import gc
import inspect
import io
import os
import pathlib
import pickle
import pydoc
import shutil
import signal
import stat
import struct
import subprocess
import sys
import tempfile
import threading
import time
import unittest
import warnings
import zlib
from unittest import mock

import cost
import play
import region_store
from region_store import (
    CALLS, FILES, LAST, LAYOUT, MESSAGES, REASONS, REFUSALS, STATE_BYTES,
    About, Locate, NotLoaded, NotSaved, Refused, Report, Store, Totals,
)

HERE = pathlib.Path(__file__).resolve().parent
HEAD = 20  # bytes of a file before the state
NAMED = {call.name: call for call in CALLS.values()}
METHODS = [call for call in CALLS.values() if call.name != "make"]


def load_tests(loader, tests, pattern):
    tests.addTests(doctest.DocTestSuite(region_store))
    return tests


def is_list(word):
    return word.endswith("..")


def small():
    """A store of two pages: in slot 0 an object of region 1, in slot 1 one of region 2, to which
    the first leads; kind 1 is a free pointer and a number, kind 2 two numbers; slot 2 is null."""
    store = Store(2)
    store.declare([1, 0])
    store.declare([0, 0])
    store.push(3)
    store.new_region()
    store.allocate(0, 1, 1)
    store.allocate(1, 2, 1)
    store.set_pointer(0, 0, 1)
    store.put(0, 1, 77)
    return store


def place_of(name):
    """Where an array of the state begins in a file."""
    place = HEAD
    for array, width, length in LAYOUT:
        if array == name:
            return place
        place += width * length
    raise KeyError(name)


def mended(data):
    """The bytes with the right sum."""
    return data[:-4] + struct.pack("<I", zlib.crc32(data[:-4]))


def forked(work):
    """A child that does some work: its number. It ends with 0 if the work gives true, and by a signal
    if it takes too long."""
    with warnings.catch_warnings():
        warnings.simplefilter("ignore", DeprecationWarning)  # of forks while there are threads
        child = os.fork()
    if child:
        return child
    status = 1
    try:
        signal.signal(signal.SIGALRM, signal.SIG_DFL)
        signal.alarm(20)
        status = 0 if work() else 1
    finally:
        os._exit(status)


class Recorder(Store):
    """A store that notes which methods are asked for."""

    used = set()

    def __getattribute__(self, name):
        Recorder.used.add(name)
        return super().__getattribute__(name)


class Calls(unittest.TestCase):
    """What a user sees of each call."""

    def test_every_call(self):
        Recorder.used.clear()
        store = Recorder(3)
        self.regions_and_frames(store)
        self.objects(store)
        self.ends(store)
        self.assertEqual({call.name for call in METHODS} - Recorder.used, set())

    def regions_and_frames(self, store):
        self.assertEqual(store.declare([1, 0]), 1)
        self.assertEqual(store.declare(mark for mark in (0, 0, 0)), 2)
        self.assertEqual(store.new_region(), 2)
        self.assertEqual(store.subregion(2), 3)
        self.assertEqual(store.push(2), 1)
        self.assertEqual(store.push(3), 2)
        self.assertEqual(store.totals(), Totals(3, 3, 2, 0))
        self.assertEqual(store.totals().free_pages, 3)

    def objects(self, store):
        self.assertIsNone(store.allocate(0, 2, 1))
        self.assertIsNone(store.allocate(1, 3, 2))
        self.assertIsNone(store.set_pointer(0, 0, 1, filler=3))
        self.assertIsNone(store.put(1, 2, LAST))
        self.assertEqual(store.get(1, 2), LAST)
        self.assertEqual(list(store.view(1)), [0, 0, LAST])
        self.assertIsNone(store.load(0, 0, 2))
        self.assertIs(store.same(1, 2), True)
        self.assertIs(store.same(0, 2), False)
        self.assertIsNone(store.copy(0, 2))
        self.assertIs(store.same(0, 2), True)
        self.assertIsNone(store.first(2, 3))
        self.assertEqual(store.about(2), About(region=3, kind=2))
        self.assertEqual(store.locate(2), Locate(page=1, word=0))
        self.assertIsNone(store.clear(2))
        self.assertEqual(store.about(2), (0, 0))
        self.assertEqual(store.locate(2), (256, 0))
        self.assertEqual(store.report(3), Report(1, 2, 1, 0))
        self.assertEqual(store.report(region=2).subregions, 1)

    def ends(self, store):
        self.assertEqual(store.hand_back(0, 1, filler=1), 1)
        self.assertEqual(store.push(1), 2)
        self.assertIsNone(store.fetch(1, 0))
        self.assertEqual(store.about(0), (2, 1))
        self.assertEqual(store.drop(filler=2), 1)
        self.assertIsNone(store.clear(1))
        self.assertEqual(store.delete_all([3, 2], filler=1), 2)
        self.assertEqual(store.delete(store.new_region()), 0)
        self.assertIs(store.audit(), True)
        self.assertEqual(repr(store), "<Recorder: pages=3, free_pages=3, regions=1, frames=1, counted=0>")
        self.assertEqual(store.drop(), 0)

    def test_fillers(self):
        for filler in range(4):
            store = small()
            store.set_pointer(0, 0, 2)
            before = self.shares(store)
            store.set_pointer(0, 0, 1, filler=filler)
            moved = [new - old for new, old in zip(self.shares(store), before)]
            self.assertEqual(moved, [0] * (4 + filler) + [1] + [0] * (251 - filler))

    def shares(self, store):
        return struct.unpack_from("<256I", store.image(), place_of("shares") - HEAD)

    def test_session(self):
        expected = (HERE / "../../crates/session/stdout").read_text()
        out = io.StringIO()
        player = play.Player(0)
        with contextlib.redirect_stdout(out):
            with open(HERE / "../tests/session.txt", encoding="utf-8") as script:
                player.play(script)
            player.end(None)
        self.assertEqual(out.getvalue(), expected)

    def test_call(self):
        store = small()
        self.assertEqual(store.call(16, 0, 1), (0, 77, 0, 0, 0))
        self.assertEqual(store.call(number=20, a=2), (0, 1, 2, 1, 0))
        self.assertEqual(store.call(23, 2), (19, 0, 0, 0, 0))
        self.assertEqual(store.call(2, list=(0, 4)), (0, 3, 0, 0, 0))
        self.assertEqual(store.call(2), (11, 0, 0, 0, 0))
        self.assertEqual(store.call(2, list=range(17)), (11, 0, 0, 0, 0))
        self.assertEqual(store.call(14, 0, 0, 2, 3), (0, 0, 0, 0, 0))
        self.assertEqual(store.call(12, 1), (0, 0, 0, 0, 0))
        self.assertEqual(store.call(24, 4, list=[2]), (23, 0, 0, 0, 0))
        self.assertEqual(store.call(24, 1, list=[2]), (0, 1, 0, 0, 0))

    def test_a_method_for_each_call(self):
        store = Store(1)
        for call in METHODS:
            method = getattr(store, call.name)
            given = list(inspect.signature(method).parameters.values())
            names = [word.rstrip(".") for word in call.arguments]
            self.assertEqual([one.name.rstrip("_") for one in given], names, call.name)
            if "filler" in names:
                self.assertEqual(given[-1].default, 0)
                self.assertEqual(given[-1].kind, inspect.Parameter.KEYWORD_ONLY)

    def test_docstrings(self):
        store = Store(1)
        for call in METHODS:
            text = " ".join(getattr(store, call.name).__doc__.split())
            at = 0
            for number in call.refusals:
                found = text.find(f"{number} {REFUSALS[number]}: {REASONS[number]}", at)
                self.assertGreaterEqual(found, at, (call.name, number))
                at = found + 1
            for word in call.arguments:
                self.assertRegex(text, rf" {word.rstrip('.')}_?: \w+")
            self.assertNotIn(": a number", text)
            if not call.refusals:
                self.assertIn("Never refused", text)

    def test_docstrings_of_values(self):
        for call in METHODS:
            if len(call.values) > 1:
                values = getattr(region_store, call.name.title().replace("_", ""))
                self.assertEqual(values._fields, call.values)
                self.assertIn(f"What Store.{call.name} gives.\n", values.__doc__)
                for field in values._fields:
                    self.assertRegex(values.__doc__, rf"\n{field}: \w+")
        self.assertIn("\noutside: its outside pointers\n", Report.__doc__)
        self.assertIn("Gives: kind, a kind's number, from 1 on.", Store.declare.__doc__)


class Refusals(unittest.TestCase):
    """Each refusal that can be had, with its name and reason; nothing changes by it."""

    def setUp(self):
        self.seen = set()

    def refused(self, number, store, name, *arguments, call=None, **filler):
        before = store.image()
        with self.assertRaises(Refused) as caught:
            getattr(store, name)(*arguments, **filler)
        error = caught.exception
        name = call or name
        self.assertEqual((error.number, error.call), (number, name))
        self.assertEqual((error.name, error.reason), (REFUSALS[number], REASONS[number]))
        self.assertEqual(str(error), f"{name}: refused by {number}: {REASONS[number]}")
        self.assertIn(number, NAMED[name].refusals)
        self.assertEqual(store.image(), before)
        self.seen.add(number)

    def test_all(self):
        self.of_make()
        self.of_frames()
        self.of_objects()
        self.of_words()
        self.of_deletes()
        self.of_what_is_full()
        self.of_names()
        self.of_call()
        self.assertEqual(set(REFUSALS) - self.seen, {21})

    def test_one_that_is_not_in_the_table(self):
        error = Refused("get", 99)
        self.assertEqual((error.call, error.number, error.name), ("get", 99, "unknown"))
        self.assertIn("the library is another version", error.reason)
        self.assertEqual(str(error), f"get: refused by 99: {error.reason}")

    def of_make(self):
        for pages in (0, 257, 258, -1, -(10**30), 2**26, 2**32 + 1, 10**30):
            with self.assertRaises(Refused) as caught:
                Store(pages)
            self.assertEqual((caught.exception.number, caught.exception.call), (1, "make"))
        self.seen.add(1)
        for pages in (1, 256):
            self.assertEqual(Store(pages).pages, pages)
            self.assertEqual(len(Store(pages).heap), 64 * pages)
        for pages in (1.0, "1", None):
            with self.assertRaises(TypeError):
                Store(pages)
        store = small()
        self.refused(1, store, "__init__", 257, call="make")
        self.assertEqual(store.get(0, 1), 77)

    def of_frames(self):
        store = Store(1)
        self.refused(6, store, "drop")
        self.refused(8, store, "push", 0)
        self.refused(8, store, "push", 9)
        store.push(1)
        self.refused(9, store, "clear", 1)
        self.refused(6, store, "fetch", 0, 0)
        self.refused(23, store, "drop", filler=4)
        self.refused(23, store, "delete", 1, filler=LAST)

    def of_objects(self):
        store = small()
        self.refused(11, store, "declare", [])
        self.refused(11, store, "declare", [5])
        self.refused(11, store, "declare", [0] * 100000)
        self.refused(12, store, "allocate", 2, 1, 3)
        self.refused(2, store, "allocate", 2, 9, 1)
        store.new_region()
        self.refused(13, store, "allocate", 2, 3, 1)

    def of_words(self):
        store = small()
        self.refused(14, store, "get", 2, 0)
        self.refused(14, store, "view", 2)
        self.refused(9, store, "view", 3)
        self.refused(15, store, "put", 0, 2, 1)
        self.refused(16, store, "get", 0, 0)
        self.refused(16, store, "view", 0)
        store.allocate(2, 1, store.declare([2, 4]))
        self.refused(17, store, "set_pointer", 2, 0, 1)

    def of_deletes(self):
        store = small()
        self.refused(3, store, "delete", 1)
        self.refused(2, store, "delete", 3)
        self.refused(19, store, "delete", 2)
        self.refused(19, store, "delete_all", [2])
        self.refused(22, store, "delete_all", [])
        self.refused(22, store, "delete_all", [2, 2])
        self.refused(22, store, "delete_all", range(2, 19))
        self.refused(3, store, "delete_all", {1})
        store.subregion(2)
        self.refused(18, store, "delete", 2)
        self.refused(18, store, "delete_all", [2])

    def of_what_is_full(self):
        store = small()
        region = 1
        while store.call(4, region)[0] == 0:
            region = store.totals().regions
        self.refused(20, store, "subregion", region)
        while store.call(3)[0] == 0:
            pass
        self.refused(4, store, "new_region")
        while store.call(2, list=[0])[0] == 0:
            pass
        self.refused(10, store, "declare", [0])
        while store.call(5, 8)[0] == 0:
            pass
        self.refused(7, store, "push", 1)
        self.assertEqual(store.totals(), Totals(0, 64, 32, 0))
        self.assertTrue(store.audit())

    def of_names(self):
        data = bytearray(small()._saved())
        struct.pack_into("<I", data, HEAD + 12, 999999)
        with tempfile.TemporaryDirectory() as folder:
            path = pathlib.Path(folder, "many")
            path.write_bytes(mended(bytes(data)))
            store = Store.load(path)
        self.assertEqual(store.new_region(), 1000000)
        self.refused(5, store, "new_region")
        self.refused(5, store, "subregion", 2)

    def of_call(self):
        store = small()
        before = store.image()
        for number in (0, 1, max(CALLS) + 1, LAST):
            self.assertEqual(store.call(number, 1, 2, 3, 4, [5]), (24, 0, 0, 0, 0))
        self.assertEqual(store.image(), before)
        self.seen.add(24)


class Index:
    """Not an int, but an integer."""

    def __init__(self, number):
        self.number = number

    def __index__(self):
        return self.number


class Slot(enum.IntEnum):
    CLUE = 0


class Numbers(unittest.TestCase):
    """Nothing is cut to 32 bits: what is no number from 0 to 2**32 - 1 never reaches the library."""

    WRONG = ((-1, ValueError), (2**32, ValueError), (2**32 + 1, ValueError), (2**64, ValueError),
             (-(2**64), ValueError), (1.0, TypeError), (float("nan"), TypeError), ("1", TypeError),
             (b"1", TypeError), (None, TypeError), ([1], TypeError), ({1}, TypeError))

    def setUp(self):
        self.store = small()
        self.before = self.store.image()

        def called(*_):
            self.fail("the library was called")

        self.kept = self.store._call, self.store._view
        self.store._call = self.store._view = called

    def tearDown(self):
        self.store._call, self.store._view = self.kept
        self.assertEqual(self.store.image(), self.before)

    def test_methods(self):
        for call in METHODS:
            for place, word in enumerate(call.arguments):
                for wrong, error in self.WRONG:
                    numbers = [(1,) if is_list(one) else 1 for one in call.arguments]
                    numbers[place] = [wrong] if is_list(word) else wrong
                    given = {}
                    if call.arguments[-1] == "filler":
                        given["filler"] = numbers.pop()
                    with self.subTest(call=call.name, word=word, wrong=wrong):
                        with self.assertRaises(error) as caught:
                            getattr(self.store, call.name)(*numbers, **given)
                        self.assertTrue(str(caught.exception).startswith(call.name + ": "))

    def test_call(self):
        for place in range(5):
            for wrong, error in self.WRONG:
                numbers = [12, 1, 1, 1, 1]
                numbers[place] = wrong
                with self.assertRaises(error):
                    self.store.call(*numbers)
                with self.assertRaises(error):
                    self.store.call(*numbers, list=[1])
        for wrong, error in self.WRONG[:-2]:
            with self.assertRaises(error):
                self.store.call(2, list=[0, wrong])
        for wrong in ("1", 1, None, [[1]]):
            with self.assertRaises(TypeError):
                self.store.call(2, list=wrong)
            with self.assertRaises(TypeError):
                self.store.delete_all(wrong)

    def test_no_list_is_null(self):
        lent = []
        self.store._call = lambda *given: lent.append(given)
        for marks in ((), [], range(0), [1]):
            self.store.declare(marks)
            self.store.call(2, list=marks)
        for given in lent:
            at, count = given[5:7]
            self.assertTrue(at is region_store._NO_LIST or at.value)
            self.assertTrue(count is region_store._NO_COUNT or count.value < 2)

    def test_integers_of_other_types(self):
        store = small()
        store.put(Slot.CLUE, True, Index(LAST))
        self.assertEqual(store.get(Index(0), Index(1)), LAST)
        self.assertEqual(store.call(Index(16), Slot.CLUE, True), (0, LAST, 0, 0, 0))
        store.put(0, 1, 0)
        self.assertEqual(store.get(0, 1), 0)
        with self.assertRaises(ValueError):
            store.put(0, 1, Index(2**32))
        for marks in (bytes([1, 0]), (1, Index(0)), {0: "x"}, range(3), iter([4])):
            self.assertGreater(store.declare(marks), 2)


class Views(unittest.TestCase):
    """View and heap are the memory itself."""

    def test_a_put_shows(self):
        store = small()
        store.allocate(2, 1, 2)
        view = store.view(2)
        heap = store.heap
        self.assertEqual((view.format, view.itemsize, view.readonly), ("I", 4, True))
        self.assertEqual((heap.format, len(heap), heap.readonly), ("I", 128, True))
        store.put(2, 1, 123456789)
        self.assertEqual(view.tolist(), [0, 123456789])
        page, word = store.locate(2)
        self.assertEqual(heap[64 * page + word + 2], 123456789)
        with self.assertRaises(TypeError):
            view[0] = 1
        with self.assertRaises(TypeError):
            heap[0] = 1

    def test_after_a_delete(self):
        store = Store(1)
        store.declare([0, 0])
        store.push(1)
        store.allocate(0, store.new_region(), 1)
        view = store.view(0)
        store.put(0, 0, 5)
        store.clear(0)
        store.delete(2)
        store.allocate(0, store.new_region(), 1)
        store.put(0, 1, 6)
        self.assertEqual(view.tolist(), [0, 6])

    def test_it_keeps_the_heap(self):
        store = small()
        store.allocate(2, 1, 2)
        store.put(2, 0, 4711)
        views = [store.view(2) for _ in range(3)]
        store.heap.release()
        views.pop().release()
        self.assertEqual(store.view(2)[0], 4711)
        del store
        gc.collect()
        others = [Store(2) for _ in range(200)]
        self.assertEqual([view[0] for view in views], [4711, 4711])
        self.assertEqual(len(others), 200)

    def test_places_are_aligned(self):
        self.assertEqual(sum(width * length for _, width, length in LAYOUT), STATE_BYTES)
        for name, width, _ in LAYOUT:
            self.assertEqual((place_of(name) - HEAD) % width, 0)
        for pages in range(1, 257):
            self.assertEqual(region_store.ctypes.addressof(Store(pages)._memory) % 4, 0)


class Callers(unittest.TestCase):
    """One caller at a time."""

    def setUp(self):
        interval = sys.getswitchinterval()
        sys.setswitchinterval(1e-6)
        self.addCleanup(sys.setswitchinterval, interval)

    def run_all(self, work, count):
        wrong = []

        def guarded(index):
            try:
                work(index)
            except BaseException as error:
                wrong.append(error)

        threads = [threading.Thread(target=guarded, args=(index,)) for index in range(count)]
        for thread in threads:
            thread.start()
        for thread in threads:
            thread.join()
        self.assertEqual(wrong, [])

    def test_threads_on_one_store(self):
        store = Store(4)
        store.declare([0, 0, 0])
        store.push(8)
        for slot in range(6):
            store.allocate(slot, 1, 1)

        def work(slot):
            for number in range(slot, 6 * 3000, 6):
                store.put(slot, 1, number)
                assert store.get(slot, 1) == number
                assert store.view(slot)[1] == number
                assert store.call(16, slot, 1) == (0, number, 0, 0, 0)
                assert store.call(12, 8)[0] == 9

        self.run_all(work, 6)
        self.assertTrue(store.audit())

    def test_several_calls_together(self):
        store = Store(4)

        def work(index):
            for _ in range(1000):
                with store:
                    assert store.push(1 + index) == 1
                    store.first(index, 1)
                    assert store.drop(filler=index) == 0

        self.run_all(work, 4)
        self.assertTrue(store.audit())

    def test_a_thread_waits(self):
        store = small()
        answers = []
        thread = threading.Thread(target=lambda: answers.append(store.get(0, 1)))
        with store as held:
            self.assertIs(held, store)
            thread.start()
            time.sleep(0.05)
            self.assertEqual(answers, [])
            store.put(0, 1, 78)
        thread.join()
        self.assertEqual(answers, [78])

    def test_a_handler_may_call(self):
        store = small()
        times = []

        def handler(*_):
            times.append(store.report(2))

        kept = signal.signal(signal.SIGALRM, handler)
        signal.setitimer(signal.ITIMER_REAL, 0.0002, 0.0002)
        try:
            until = time.monotonic() + 0.5
            while time.monotonic() < until:
                self.assertEqual(store.get(0, 1), 77)
                self.assertEqual(store.call(16, 0, 0), (16, 0, 0, 0, 0))
        finally:
            signal.setitimer(signal.ITIMER_REAL, 0)
            signal.signal(signal.SIGALRM, kept)
        self.assertGreater(len(times), 10)
        self.assertEqual(set(times), {Report(1, 2, 1, 0)})


class Forks(unittest.TestCase):
    """A child of fork can use its copies of stores."""

    def ends_well(self, work):
        self.assertEqual(os.waitpid(forked(work), 0)[1], 0)

    def used(self, store):
        store.put(0, 1, 78)
        with store:
            return store.get(0, 1) == 78 and store.audit() and store._lock.acquire(blocking=False)

    def test_another_thread_holds_the_lock(self):
        stores = [small(), Unequal.small(), copy.copy(small())]
        held, ended = threading.Event(), threading.Event()

        def hold():
            with stores[0], stores[1], stores[2]:
                held.set()
                ended.wait()

        thread = threading.Thread(target=hold)
        thread.start()
        held.wait()
        try:
            for store in stores:
                self.ends_well(lambda: self.used(store))
                self.ends_well(lambda: self.grandchild(store))
                self.assertFalse(store._lock.acquire(blocking=False))
        finally:
            ended.set()
            thread.join()
        self.assertTrue(self.used(stores[0]))

    def grandchild(self, store):
        child = forked(lambda: self.used(store))
        return os.waitpid(child, 0)[1] == 0 and self.used(store)

    def test_the_thread_that_forks_holds_the_lock(self):
        store = small()
        with store, store:
            child = forked(lambda: self.left(store))
            self.assertEqual(os.waitpid(child, 0)[1], 0)
            self.assertEqual(store.get(0, 1), 77)

    def left(self, store):
        """Leaves the two blocks: then the lock is free for another thread."""
        store.__exit__()
        answers = []
        thread = threading.Thread(target=lambda: answers.append(store.get(0, 1)))
        thread.start()
        thread.join(0.1)
        waits = thread.is_alive()
        store.__exit__()
        thread.join()
        return waits and answers == [77]

    def test_stores_are_not_kept(self):
        gc.collect()
        before = len(region_store._stores)
        stores = [Store(1) for _ in range(10)]
        self.assertEqual(len(region_store._stores), before + 10)
        del stores
        gc.collect()
        self.assertEqual(len(region_store._stores), before)


class Unequal(Store):
    """A store that cannot be hashed."""

    __hash__ = None

    @classmethod
    def small(cls):
        return cls._loaded(None, small()._saved())


class Named(Store):
    """A store with something of its own."""


class Copies(unittest.TestCase):
    """Copies have memory of their own."""

    def test_copies(self):
        store = small()
        for way in (copy.copy, copy.deepcopy, lambda one: pickle.loads(pickle.dumps(one))):
            other = way(store)
            self.assertIs(type(other), Store)
            self.assertEqual(other.image(), store.image())
            other.put(0, 1, 1)
            other.drop()
            self.assertEqual(store.get(0, 1), 77)
            self.assertEqual(store.totals().frames, 1)
            self.assertTrue(other.audit())

    def test_subclass(self):
        store = Named(1)
        store.title = "spring"
        other = copy.copy(store)
        self.assertIs(type(other), Named)
        self.assertEqual(other.title, "spring")
        with self.assertRaises(AttributeError):
            Store(1).title = "none"

    def test_exceptions(self):
        for error in (Refused("get", 9), Refused("get", 99), NotLoaded("x", 2), NotSaved("x", 10)):
            other = pickle.loads(pickle.dumps(error))
            self.assertEqual((str(other), vars(other)), (str(error), vars(error)))

    def test_a_spoilt_pickle(self):
        data = bytearray(small()._saved())
        data[HEAD] ^= 1
        with self.assertRaises(NotLoaded) as caught:
            region_store._restored(Store, bytes(data))
        self.assertEqual(caught.exception.name, "wrong_sum")


class Files(unittest.TestCase):
    """Saving and loading."""

    def setUp(self):
        folder = tempfile.TemporaryDirectory()
        self.addCleanup(folder.cleanup)
        self.folder = pathlib.Path(folder.name)
        self.path = self.folder / "one.store"

    def names(self):
        return sorted(os.listdir(self.folder))

    def not_loaded(self, data, name):
        self.path.write_bytes(data)
        with self.assertRaises(NotLoaded) as caught:
            Store.load(self.path)
        error = caught.exception
        self.assertEqual(error.name, name)
        self.assertEqual(FILES[error.number], name)
        self.assertEqual(error.message, MESSAGES[error.number])
        self.assertEqual(str(error), f"{error.message}: {str(self.path)!r}")

    def test_round_trip(self):
        for pages in (1, 2, 256):
            store = Store(pages)
            store.push(1)
            store.allocate(0, 1, store.declare([0]))
            store.put(0, 0, 0x01020304)
            store.save(self.path)
            self.assertEqual(self.names(), ["one.store"])
            other = Store.load(str(self.path))
            self.assertEqual(other.image(), store.image())
            self.assertEqual((other.pages, other.get(0, 0)), (pages, 0x01020304))
            data = self.path.read_bytes()
            self.assertEqual(len(data), 8 + 12 + STATE_BYTES + 256 * pages + 4)
            self.assertEqual(data[:HEAD], b"REGSTORE" + struct.pack("<III", 1, STATE_BYTES, 64 * pages))
            self.assertEqual(data[HEAD:-4], store.image())

    def test_kinds_of_paths(self):
        store = small()
        for path in (self.path, str(self.path), os.fsencode(self.path)):
            store.save(path)
            self.assertEqual(Store.load(path).image(), store.image())
            self.path.unlink()
        with self.assertRaises(TypeError):
            store.save(3)
        here = os.getcwd()
        self.addCleanup(os.chdir, here)
        os.chdir(self.folder)
        store.save("short")
        self.assertEqual(Store.load("short").image(), store.image())

    def not_saved(self, store, path):
        with self.assertRaises(NotSaved) as caught:
            store.save(path)
        error = caught.exception
        self.assertEqual((error.number, error.name), (10, "unwritable"))
        self.assertEqual(error.message, MESSAGES[10])
        self.assertIsInstance(error.__cause__, (OSError, ValueError))

    def test_unwritable(self):
        store = small()
        self.not_saved(store, self.folder / "none" / "x")
        (self.folder / "x").mkdir()
        self.not_saved(store, self.folder / "x")
        self.not_saved(store, str(self.folder / "no\0path"))
        self.assertEqual(self.names(), ["x"])

    def new_name(self, n):
        return self.folder / f"one.store.{os.getpid()}.{n}.new"

    def test_the_order_of_a_save(self):
        fsync, rename = os.fsync, os.rename
        steps = []

        def flushed(file):
            about = os.fstat(file)
            steps.append(("flushed", about.st_ino, stat.S_ISDIR(about.st_mode) or about.st_size))
            fsync(file)

        def renamed(old, new):
            steps.append(("renamed", os.stat(old).st_ino, os.fspath(new)))
            rename(old, new)

        with mock.patch("os.fsync", flushed), mock.patch("os.rename", renamed):
            small().save(self.path)
        about = self.path.stat()
        self.assertEqual(steps, [("flushed", about.st_ino, about.st_size),
                                 ("renamed", about.st_ino, str(self.path)),
                                 ("flushed", self.folder.stat().st_ino, True)])
        (self.folder / "plain").write_bytes(b"")
        self.assertEqual(about.st_mode, (self.folder / "plain").stat().st_mode)

    def test_a_save_that_fails_on_the_way(self):
        store = small()
        store.save(self.path)
        before = self.path.read_bytes()
        store.put(0, 1, 5)

        def fails(*_):
            raise OSError(errno.EINVAL, "Invalid argument")

        for name in ("os.open", "os.fsync", "os.rename"):
            with mock.patch(name, fails):
                self.not_saved(store, self.path)
            self.assertEqual(self.names(), ["one.store"])
            self.assertEqual(self.path.read_bytes(), before)
        store.save(self.path)
        self.assertEqual(Store.load(self.path).get(0, 1), 5)

    def save_to_folder(self, store, number):
        """Saves while the flush of a folder fails by a number."""
        fsync = os.fsync

        def flushed(file):
            if stat.S_ISDIR(os.fstat(file).st_mode):
                raise OSError(number, os.strerror(number))
            fsync(file)

        with mock.patch("os.fsync", flushed):
            store.save(self.path)

    def test_a_folder_that_is_not_flushed(self):
        store = small()
        self.save_to_folder(store, errno.EINVAL)
        self.assertEqual(Store.load(self.path).image(), store.image())
        store.put(0, 1, 5)
        with self.assertRaises(NotSaved) as caught:
            self.save_to_folder(store, errno.EIO)
        self.assertEqual(caught.exception.__cause__.errno, errno.EIO)
        self.assertEqual(Store.load(self.path).get(0, 1), 5)
        self.assertEqual(self.names(), ["one.store"])

    def test_an_interrupt_after_the_rename(self):
        rename = os.rename

        def interrupted(old, new):
            rename(old, new)
            self.new_name(0).write_bytes(b"another save's")
            raise KeyboardInterrupt

        store = small()
        with mock.patch("os.rename", interrupted), self.assertRaises(KeyboardInterrupt):
            store.save(self.path)
        self.assertEqual(Store.load(self.path).image(), store.image())
        self.assertEqual(self.new_name(0).read_bytes(), b"another save's")

    def test_names_that_are_taken(self):
        store = small()
        target = self.folder / "target"
        target.write_bytes(b"kept")
        self.new_name(0).write_bytes(b"left")
        self.new_name(1).mkdir()
        self.new_name(2).symlink_to(target)
        self.new_name(3).symlink_to(self.folder / "nowhere")
        before = self.names()
        store.save(self.path)
        self.assertEqual(self.names(), sorted(before + ["one.store"]))
        self.assertEqual(Store.load(self.path).image(), store.image())
        for n in range(4, 100):
            self.new_name(n).write_bytes(b"left")
        store.put(0, 1, 5)
        self.not_saved(store, self.path)
        self.assertEqual(Store.load(self.path).get(0, 1), 77)
        self.new_name(99).unlink()
        store.save(self.path)
        self.assertEqual(Store.load(self.path).get(0, 1), 5)
        self.assertEqual({self.new_name(n).read_bytes() for n in range(99) if n not in (1, 2, 3)}, {b"left"})
        self.assertEqual(len(self.names()), 2 + 99)
        self.assertTrue(self.new_name(2).is_symlink() and self.new_name(3).is_symlink())
        self.assertEqual(target.read_bytes(), b"kept")

    def test_a_link_at_the_path(self):
        target = self.folder / "target"
        target.write_bytes(b"kept")
        self.path.symlink_to(target)
        store = small()
        store.save(self.path)
        self.assertFalse(self.path.is_symlink())
        self.assertEqual(Store.load(self.path).image(), store.image())
        self.assertEqual(target.read_bytes(), b"kept")

    def test_savers_at_once(self):
        """A process and two threads save three stores to one path: one of them is always there."""
        stores = [Store(pages) for pages in (1, 2, 256)]
        images = {store.image() for store in stores}
        stores[0].save(self.path)
        until = time.monotonic() + 0.7
        wrong = []

        def saver(store):
            try:
                while time.monotonic() < until:
                    store.save(self.path)
            except BaseException as error:
                wrong.append(error)

        child = forked(lambda: saver(stores[0]) or not wrong)
        threads = [threading.Thread(target=saver, args=(store,)) for store in stores[1:]]
        for thread in threads:
            thread.start()
        while time.monotonic() < until:
            self.assertIn(Store.load(self.path).image(), images)
        for thread in threads:
            thread.join()
        self.assertEqual(os.waitpid(child, 0)[1], 0)
        self.assertEqual(wrong, [])
        self.assertEqual(self.names(), ["one.store"])

    def test_no_regular_file(self):
        fifo = self.folder / "fifo"
        os.mkfifo(fifo)
        answers = []

        def loaded(path):
            try:
                Store.load(path)
            except NotLoaded as error:
                answers.append((error.name, type(error.__cause__)))

        for path in (fifo, self.folder, "/dev/null", "/dev/zero"):
            thread = threading.Thread(target=loaded, args=(path,), daemon=True)
            thread.start()
            thread.join(20)
            self.assertFalse(thread.is_alive(), path)
            name, cause = answers.pop()
            self.assertEqual(name, "unreadable")
            self.assertTrue(issubclass(cause, OSError))
        self.not_saved(small(), fifo / "x")

    def test_unreadable(self):
        for path in (self.folder / "none", self.folder, "", "no\0path", "no\ud800path"):
            with self.assertRaises(NotLoaded) as caught:
                Store.load(path)
            self.assertEqual((caught.exception.number, caught.exception.name), (1, "unreadable"))
            self.assertIsInstance(caught.exception.__cause__, (OSError, ValueError))
        for path in (3, None, 1.0, [self.path]):
            with self.assertRaises(TypeError):
                Store.load(path)

    def one_page(self):
        store = Store(1)
        store.push(2)
        store.allocate(0, 1, store.declare([1, 0]))
        return store

    def name_by_place(self, place, changed):
        if place < 8:
            return "no_store"
        if place < 12:
            return "other_version"
        if place < HEAD:
            state, words = struct.unpack_from("<II", changed, 12)
            pages, odd = divmod(words, 64)
            one = state == STATE_BYTES and not odd and 1 < pages <= 256
            return "short" if one else "wrong_lengths"
        return "wrong_sum"

    def test_every_byte(self):
        store = self.one_page()
        image = store.image()
        data = store._saved()
        for place in range(len(data)):
            for change in (0xFF, 1):
                changed = bytearray(data)
                changed[place] ^= change
                self.not_loaded(changed, self.name_by_place(place, changed))
        self.assertEqual(self.path.read_bytes(), bytes(changed))
        self.assertEqual(store.image(), image)

    def test_every_length(self):
        data = self.one_page()._saved()
        self.assertEqual(len(data), 3932)
        for length in range(len(data)):
            self.not_loaded(data[:length], "short")
        self.not_loaded(data + b"\0", "long")
        self.not_loaded(data + bytes(256), "long")
        self.not_loaded(data + bytes(200000), "long")

    def test_lengths(self):
        data = self.one_page()._saved()
        for state, words in ((STATE_BYTES, 0), (STATE_BYTES, 63), (STATE_BYTES, 257 * 64),
                             (STATE_BYTES, LAST), (STATE_BYTES - 4, 65), (LAST, 64), (0, 64)):
            self.not_loaded(data[:12] + struct.pack("<II", state, words) + data[HEAD:], "wrong_lengths")
        two = struct.pack("<II", STATE_BYTES, 128)
        self.not_loaded(data[:12] + two + data[HEAD:], "short")
        self.not_loaded(mended(data[:12] + two + data[HEAD:-4] + bytes(260)), "unsound")

    def test_the_order(self):
        data = bytearray(self.one_page()._saved())
        data[-1] ^= 1
        data[place_of("shares")] ^= 1
        self.not_loaded(data, "wrong_sum")
        self.not_loaded(data + b"x", "long")
        data[12] ^= 1
        self.not_loaded(data + b"x", "wrong_lengths")
        data[8] ^= 1
        self.not_loaded(data + b"x", "other_version")
        data[0] ^= 1
        self.not_loaded(data + b"x", "no_store")
        self.not_loaded(data[:24], "no_store")
        self.not_loaded(data[:23], "short")

    def test_the_sum_and_the_audit(self):
        store = self.one_page()
        store.put(0, 1, 9)
        data = bytearray(store._saved())
        data[place_of("shares")] ^= 1
        self.not_loaded(mended(data), "unsound")
        data = bytearray(store._saved())
        word = HEAD + STATE_BYTES + 4 * 2
        self.assertEqual(data[word], 9)
        data[word] = 10
        self.path.write_bytes(mended(data))
        self.assertEqual(Store.load(self.path).get(0, 1), 10)


class Loads(unittest.TestCase):
    """load asked of the class, which loads a file, and load asked of a store, which is call 13."""

    def setUp(self):
        folder = tempfile.TemporaryDirectory()
        self.addCleanup(folder.cleanup)
        self.path = os.path.join(folder.name, "one.store")
        self.store = small()
        self.store.save(self.path)

    def help_of(self, thing):
        return pydoc.plain(pydoc.render_doc(thing))

    def test_help(self):
        of_class, of_store = self.help_of(Store.load), self.help_of(self.store.load)
        self.assertIn("load(path)", of_class)
        self.assertIn("NotLoaded", of_class)
        self.assertIn("store.load(slot, word, to), asked of a store, is call 13", of_class)
        self.assertIn("load(slot: ", of_store)
        self.assertIn("Leads a slot to where a pointer word of an object leads.", of_store)
        self.assertIn("Store.load(path)", of_store)
        self.assertNotIn("NotLoaded", of_store)
        self.assertIn(Store.load.__doc__.splitlines()[0], self.help_of(Store))

    def test_signatures(self):
        self.assertEqual(list(inspect.signature(Store.load).parameters), ["path"])
        self.assertEqual(list(inspect.signature(self.store.load).parameters), ["slot", "word", "to"])
        self.assertEqual((Store.load.__name__, self.store.load.__name__), ("load", "load"))
        self.assertIs(Store.load.__self__, Store)
        self.assertIs(self.store.load.__self__, self.store)

    def test_a_subclass(self):
        for cls in (Store, Named):
            self.assertIs(type(cls.load(self.path)), cls)
            self.assertIs(type(cls.load(path=self.path)), cls)
        loaded = Named.load(self.path)
        self.assertEqual(loaded.image(), self.store.image())
        self.assertIsNone(loaded.load(0, 0, 2))
        self.assertTrue(loaded.same(1, 2))

    def test_by_super(self):
        class Counted(Store):
            loads = 0

            def load(self, slot, word, to):
                self.loads += 1
                return super().load(slot, word, to)

        class Loader(Store):
            @classmethod
            def open(cls, path):
                return super().load(path)

        store = Loader.open(self.path)
        self.assertIs(type(store), Loader)
        counted = Counted(1)
        with self.assertRaises(Refused):
            counted.load(0, 0, 0)
        self.assertEqual(counted.loads, 1)

    def test_a_store_reads_no_file(self):
        def opened(*_, **__):
            self.fail("a file was opened")

        before = self.store.image()
        with mock.patch("builtins.open", opened), mock.patch("os.open", opened):
            for given in ((self.path,), (self.path, 0, 1), (0, self.path, 1), (pathlib.Path(self.path), 0, 1)):
                with self.assertRaises(TypeError):
                    self.store.load(*given)
            with self.assertRaises(TypeError):
                self.store.load(path=self.path)
            self.assertEqual(self.store.image(), before)
            self.assertIsNone(self.store.load(0, 0, 2))
        self.assertTrue(self.store.same(1, 2))

    def test_a_class_makes_no_call(self):
        before = self.store.image()
        for given in ((0, 0, 2), (self.store, 0, 0, 2), (0,), (self.store,), ()):
            with self.assertRaises(TypeError):
                Store.load(*given)
        self.assertEqual(self.store.image(), before)


class Players(unittest.TestCase):
    """The player finds what is wrong."""

    def play(self, *lines):
        player = play.Player(0)
        with contextlib.redirect_stdout(io.StringIO()) as out:
            player.play(lines)
            player.end(None)
        return out.getvalue()

    def test_lines(self):
        out = self.play("pages 0", " # a comment", "pages 1 # one", "\tpush 2", "as 3 6", "as 4 drop", "21")
        lines = ["1 1 0 0 0 0", "2 0 0 0 0 0", "3 0 1 0 0 0", "4 0 0 0 0 0", "5 23 0 0 0 0", "6 0 1 1 0 0"]
        self.assertEqual(out.splitlines(), lines)

    def test_wrong_lines(self):
        for line in ("pages 1", "pages", "1", "make", "0", str(max(CALLS) + 1), "tidy", "push", "push 1 2",
                     "push -1", "push x", f"push {LAST + 1}", "as 1", "as 1 push 1", "as x drop", "drop 0"):
            with self.assertRaises(play.Wrong, msg=line):
                self.play("pages 1", line)
        for script in ((), ("push 1",), ("pages 0",), ("pages 0", "totals"), ("pages 258",)):
            with self.assertRaises(play.Wrong, msg=script):
                self.play(*script)

    def test_stores_that_differ(self):
        for line in ("push 1", "totals"):
            player = play.Player(0)
            player.play(["pages 1"])
            player.numbered.call(5, 2)
            with self.assertRaises(play.Wrong):
                player.play([line])
        player = play.Player(0)
        player.play(["pages 1", "push 1"])
        player.numbered.call(2, list=[0])
        with self.assertRaises(play.Wrong):
            player.end(None)


class Costs(unittest.TestCase):
    """What the program that measures makes are calls that are accepted."""

    def test_each(self):
        for name, statement, store, _ in cost.LINES:
            with self.subTest(name):
                self.assertGreaterEqual(cost.cost(statement, store(), 1), 0)


class Imports(unittest.TestCase):
    """The library is found, or ImportError says what is wrong."""

    def setUp(self):
        folder = tempfile.TemporaryDirectory()
        self.addCleanup(folder.cleanup)
        self.folder = pathlib.Path(folder.name)
        self.library = region_store._library._name

    def imported(self, code="import region_store", library=None, module=HERE):
        environment = dict(os.environ, PYTHONPATH=str(module), PYTHONDONTWRITEBYTECODE="1")
        environment.pop("REGION_STORE_LIBRARY", None)
        if library is not None:
            environment["REGION_STORE_LIBRARY"] = str(library)
        done = subprocess.run([sys.executable, "-c", code], env=environment, cwd=self.folder,
                              stdout=subprocess.PIPE, stderr=subprocess.PIPE, universal_newlines=True)
        return done.returncode, done.stdout + done.stderr

    def fails(self, *words, **given):
        code, text = self.imported(**given)
        self.assertEqual(code, 1)
        self.assertIn("ImportError: region_store: ", text)
        for word in words:
            self.assertIn(str(word), text)

    def changed_module(self, old, new):
        text = (HERE / "region_store.py").read_text(encoding="utf-8")
        self.assertIn(old, text)
        (self.folder / "region_store.py").write_text(text.replace(old, new), encoding="utf-8")

    def test_where_it_looks(self):
        self.changed_module("", "")
        self.fails(self.folder / "libregion_store.so", "target/hosts/libregion_store.so",
                   module=self.folder)
        shutil.copy(self.library, self.folder / "libregion_store.so")
        code = "import region_store; print(region_store._library._name)"
        beside = str(self.folder / "libregion_store.so")
        self.assertEqual(self.imported(code, module=self.folder), (0, beside + "\n"))
        self.assertEqual(self.imported(code, self.library), (0, self.library + "\n"))
        self.assertEqual(self.imported(code, "libregion_store.so"), (0, beside + "\n"))

    def test_what_is_not_the_library(self):
        self.fails(self.folder / "none", library=self.folder / "none")
        (self.folder / "text").write_text("text")
        self.fails(self.folder / "text", "is not the library", library=self.folder / "text")
        self.fails("is not the library", "region_store_make", library=self.another_library())

    def another_library(self):
        with open("/proc/self/maps", encoding="utf-8") as maps:
            paths = {line.split()[-1] for line in maps if "/libc.so" in line or "/libc-" in line}
        if not paths:
            self.skipTest("no other library is at hand")
        return paths.pop()

    def test_other_layouts(self):
        for old, new in (("\nVERSION = 1\n", "\nVERSION = 2\n"),
                         ('("marks", 1, 256)', '("marks", 1, 255)'),
                         ('    ("taken", 1, 256),\n', "")):
            self.changed_module(old, new)
            self.fails("another layout", library=self.library, module=self.folder)

    def test_byte_order(self):
        self.fails("little-endian", code="import sys; sys.byteorder = 'big'; import region_store")


if __name__ == "__main__":
    unittest.main()
