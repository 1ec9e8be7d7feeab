"""A region store with exact counts: the proved library, for Python programs.

Objects lie in regions, regions in regions. An object is reached only through slots of a stack of
frames. A region is deleted exactly when no subregion of it lives and no pointer from outside leads
into it. Each call either does what it says, or is refused by a number and changes nothing.

>>> from region_store import Store, Refused
>>> store = Store(4)                     # four pages of 64 words
>>> clue = store.declare([1, 0])         # a kind of object: a free pointer and a number
>>> store.push(2)                        # a frame of two slots; one frame stands
1
>>> grid = store.new_region()
>>> store.allocate(0, grid, clue)        # an object of the grid, in slot 0
>>> store.put(0, 1, 17)                  # its word 1 is a number
>>> store.get(0, 1)
17
>>> try:
...     store.delete(grid)
... except Refused as refused:
...     print(refused.number, refused.name)
19 outside_pointer
>>> store.clear(0)                       # no slot leads into the grid any more
>>> store.delete(grid)                   # one page is free again
1
>>> store.totals()
Totals(free_pages=4, regions=1, frames=1, counted=0)

A program that calls the library has to keep to this, and the class Store sees to all of it:
pointers are aligned and never null, also where a length is 0; the buffers do not overlap, stay
where they are, and live as long as the library may use them; lengths are true; one caller at a
time (see Store). The library was proved to end, to touch only what it is lent and to answer,
whatever numbers the memory holds. What is left to the program: heap and view are read-only, and
whoever gets round that writes into the store itself; and a call takes up to 21 KiB of stack, beside
what the interpreter takes, which threads have unless threading.stack_size gives them less.

The library is looked for in this order: the file that the environment variable
REGION_STORE_LIBRARY names (then nowhere else); libregion_store.so beside this module;
../../target/hosts/libregion_store.so from this module's folder. At import its layout is compared
with the one that this module knows, and ImportError is raised where they differ.
"""

from __future__ import annotations

import ctypes
import errno
import functools
import operator
import os
import stat
import struct
import sys
import threading
import weakref
import zlib
from array import array
from collections import namedtuple
from collections.abc import Iterable
from types import MethodType

__all__ = ["Store", "Refused", "NotLoaded", "NotSaved", "CALLS", "REFUSALS", "REASONS"]

Call = namedtuple("Call", "number name asks arguments values refusals")
Call.__doc__ = "A call as the library knows it; asks is True where it leaves the store as it is."

# hosts/tables: begin tables
VERSION = 1
MAGIC = b"REGSTORE"

# The arrays of the state, in their order: name, bytes of an element, elements.
LAYOUT = (
    ("numbers", 4, 5),
    ("widths", 1, 32),
    ("slots", 4, 256),
    ("sizes", 1, 16),
    ("marks", 1, 256),
    ("names", 4, 64),
    ("parents", 1, 64),
    ("levels", 1, 64),
    ("shares", 4, 256),
    ("newest", 2, 64),
    ("oldest", 4, 64),
    ("owners", 1, 256),
    ("taken", 1, 256),
)
STATE_BYTES = 3652

# The calls by number. Of arguments and values 'name..' is a list or a part of the heap, 'name?' is 1 or 0.
CALLS = {
    1: Call(1, "make", False, ("heap..",), (), (1,)),
    2: Call(2, "declare", False, ("marks..",), ("kind",), (21, 11, 10)),
    3: Call(3, "new_region", False, (), ("region",), (21, 4, 5)),
    4: Call(4, "subregion", False, ("region",), ("region",), (21, 2, 20, 4, 5)),
    5: Call(5, "push", False, ("slots",), ("frames",), (21, 8, 7)),
    6: Call(6, "drop", False, ("filler",), ("frames",), (21, 23, 6)),
    7: Call(7, "hand_back", False, ("slot", "beneath", "filler"), ("frames",), (21, 23, 6, 9)),
    8: Call(8, "allocate", False, ("slot", "region", "kind"), (), (21, 6, 9, 2, 12, 13)),
    9: Call(9, "first", False, ("slot", "region"), (), (21, 6, 9, 2)),
    10: Call(10, "copy", False, ("from", "to"), (), (21, 6, 9)),
    11: Call(11, "fetch", False, ("beneath", "slot"), (), (21, 6, 9)),
    12: Call(12, "clear", False, ("slot",), (), (21, 6, 9)),
    13: Call(13, "load", False, ("slot", "word", "to"), (), (21, 6, 9, 14, 15, 16)),
    14: Call(14, "set_pointer", False, ("slot", "word", "value", "filler"), (), (21, 23, 6, 9, 14, 15, 16, 17)),
    15: Call(15, "put", False, ("slot", "word", "number"), (), (21, 6, 9, 14, 15, 16)),
    16: Call(16, "get", True, ("slot", "word"), ("number",), (21, 6, 9, 14, 15, 16)),
    17: Call(17, "view", True, ("slot",), ("part..",), (21, 6, 9, 14, 16)),
    18: Call(18, "same", True, ("slot", "other"), ("same?",), (21, 6, 9)),
    19: Call(19, "about", True, ("slot",), ("region", "kind"), (21, 6, 9)),
    20: Call(20, "report", True, ("region",), ("count", "outside", "pages", "subregions"), (21, 2)),
    21: Call(21, "totals", True, (), ("free_pages", "regions", "frames", "counted"), ()),
    22: Call(22, "audit", True, (), ("sound?",), ()),
    23: Call(23, "delete", False, ("region", "filler"), ("pages",), (21, 23, 2, 3, 18, 19)),
    24: Call(24, "delete_all", False, ("regions..", "filler"), ("pages",), (21, 23, 22, 2, 3, 18, 19)),
    25: Call(25, "locate", True, ("slot",), ("page", "word"), (21, 6, 9)),
}

# The refusals: their numbers by name, then names and reasons by number.
HEAP_LENGTH = 1
NO_REGION = 2
PERMANENT = 3
REGIONS_FULL = 4
NAMES_OUT = 5
NO_FRAME = 6
FRAMES_FULL = 7
SLOT_COUNT = 8
NO_SLOT = 9
KINDS_FULL = 10
WRONG_MARKS = 11
NO_KIND = 12
NO_PAGE = 13
NULL_OBJECT = 14
NO_WORD = 15
WRONG_WORD = 16
BREAKS_MARK = 17
SUBREGION_LIVES = 18
OUTSIDE_POINTER = 19
TOO_DEEP = 20
WRONG_HEAP = 21
WRONG_NAMES = 22
NO_FILLER = 23
NO_CALL = 24
REFUSALS = {
    1: "heap_length",
    2: "no_region",
    3: "permanent",
    4: "regions_full",
    5: "names_out",
    6: "no_frame",
    7: "frames_full",
    8: "slot_count",
    9: "no_slot",
    10: "kinds_full",
    11: "wrong_marks",
    12: "no_kind",
    13: "no_page",
    14: "null_object",
    15: "no_word",
    16: "wrong_word",
    17: "breaks_mark",
    18: "subregion_lives",
    19: "outside_pointer",
    20: "too_deep",
    21: "wrong_heap",
    22: "wrong_names",
    23: "no_filler",
    24: "no_call",
}
REASONS = {
    1: "the heap's length is not 64 times 1 to 256",
    2: "no live region has that name",
    3: "region 1 is permanent",
    4: "64 regions live, the most there can be",
    5: "name 1,000,000 was given, the last there is",
    6: "no frame, or fewer than the two that the call needs",
    7: "32 frames stand, the most there can be",
    8: "a frame has 1 to 8 slots",
    9: "a slot named is not there",
    10: "16 kinds stand, the most there can be",
    11: "no mark, more than 16 marks, or one above 4",
    12: "no such kind",
    13: "the region has no page, or the object does not fit its newest one, and no page is free",
    14: "the object slot is null",
    15: "the object has no such word",
    16: "the word is data where a pointer is wanted, or the other way round; for view, some word is no data",
    17: "the pointer breaks the word's mark",
    18: "a subregion lives; for delete_all, one that is not named with the others",
    19: "an outside pointer remains; for delete_all, a slot that leads into a region named, or a free word of a region that is not",
    20: "the region above is at level 16, the deepest",
    21: "the heap's length is not the one made, or none was made, since make refused",
    22: "no name, more than 16 names, or one twice",
    23: "the filler is above 3",
    24: "no call has that number",
}

# Why a file is not loaded or saved, likewise.
FILE_UNREADABLE = 1
FILE_SHORT = 2
FILE_NO_STORE = 3
FILE_OTHER_VERSION = 4
FILE_WRONG_LENGTHS = 5
FILE_LONG = 6
FILE_WRONG_SUM = 7
FILE_UNSOUND = 8
FILE_NO_ROOM = 9
FILE_UNWRITABLE = 10
FILES = {
    1: "unreadable",
    2: "short",
    3: "no_store",
    4: "other_version",
    5: "wrong_lengths",
    6: "long",
    7: "wrong_sum",
    8: "unsound",
    9: "no_room",
    10: "unwritable",
}
MESSAGES = {
    1: "the file cannot be read",
    2: "the file ends before its sum",
    3: "the file does not begin as a saved store does",
    4: "the file has another version of the layout",
    5: "the file's lengths are none that a store has",
    6: "the file goes on after its sum",
    7: "the file's sum is not that of its bytes",
    8: "the audit rejects the memory that the file has",
    9: "the heap lent is smaller than the one in the file",
    10: "the file cannot be written",
}
# hosts/tables: end

# hosts/tables: begin tuples
About = namedtuple("About", ("region", "kind"))
About.__doc__ = """What Store.about gives.

region: the name of the object's region, 0 for null
kind: the number of its kind, 0 for null
"""

Report = namedtuple("Report", ("count", "outside", "pages", "subregions"))
Report.__doc__ = """What Store.report gives.

count: the stored count
outside: its outside pointers
pages: the pages that it holds
subregions: the live subregions directly below it
"""

Totals = namedtuple("Totals", ("free_pages", "regions", "frames", "counted"))
Totals.__doc__ = """What Store.totals gives.

free_pages: the pages that are free
regions: the regions that live, region 1 among them
frames: the frames that stand
counted: the frames, from the lowest on, that are counted
"""

Locate = namedtuple("Locate", ("page", "word"))
Locate.__doc__ = """What Store.locate gives.

page: the page on which the object lies, from 0 on, 256 for null
word: the word of that page at which its header stands, from 0 on, 0 for null
"""
# hosts/tables: end

PAGE_WORDS = 64
MOST_PAGES = 256
LAST = 2**32 - 1  # the last number that a call can be given

# A saved store: the head, the state, the heap, the sum.
_HEAD = struct.Struct("<8sIII")
_SUM = struct.Struct("<I")
_LONGEST = _HEAD.size + STATE_BYTES + 4 * PAGE_WORDS * MOST_PAGES + _SUM.size


class Refused(Exception):
    """A call was refused, and changed nothing.

    call: the name of the call.  number: the refusal's number.  name: its name.  reason: why.

    A library of another version may have the same layout and refuse by a number that is not in
    REFUSALS. Then the name is 'unknown', and the reason says that it is another version.
    """

    def __init__(self, call, number):
        super().__init__(call, number)
        self.call = call
        self.number = number
        self.name = REFUSALS.get(number, "unknown")
        self.reason = REASONS.get(number, "the library is another version than this module")

    def __str__(self):
        return f"{self.call}: refused by {self.number}: {self.reason}"


class _FileError(Exception):
    """number and name: which of the tests it was.  message: what it says.  path: the file."""

    def __init__(self, path, number):
        super().__init__(path, number)
        self.path = path
        self.number = number
        self.name = FILES[number]
        self.message = MESSAGES[number]

    def __str__(self):
        return self.message if self.path is None else f"{self.message}: {self.path!r}"


class NotLoaded(_FileError):
    """A saved store was not loaded, and nothing has changed.

    number and name say which test it did not pass, message says it in words; path is the file's,
    None where a copy or a pickle was to be restored. It is chained as NotSaved is where the file
    cannot be read.
    """


class NotSaved(_FileError):
    """A store was not saved (see Store.save). number, name, message and path: as for NotLoaded.

    It is chained from the error that says more, an OSError, or a ValueError where no file can have
    that path.
    """


# ---- the library


def _places():
    """Where the library is looked for."""
    named = os.environ.get("REGION_STORE_LIBRARY")
    if named:
        return [os.path.abspath(named)]
    here = os.path.dirname(os.path.abspath(__file__))
    file = "libregion_store.so"
    return [
        os.path.join(here, file),
        os.path.normpath(os.path.join(here, "..", "..", "target", "hosts", file)),
    ]


def _opened():
    """The library, once its layout was compared with LAYOUT."""
    if sys.byteorder != "little":
        raise ImportError("region_store: the machine is not little-endian")
    places = _places()
    path = next((place for place in places if os.path.exists(place)), None)
    if path is None:
        raise ImportError("region_store: no library; looked for " + " and ".join(places) + "; hosts/build makes it")
    # Calls are short, an audit of a full store the longest, so PyDLL: the interpreter's lock is kept.
    try:
        library = ctypes.PyDLL(path)
        make, call = library.region_store_make, library.region_store_call
        view, layout = library.region_store_view, library.region_store_layout
    except (OSError, AttributeError) as error:
        raise ImportError(f"region_store: {path} is not the library: {error}") from error
    make.restype = call.restype = view.restype = None
    if _layout(layout) != [VERSION] + [n for _, *pair in LAYOUT for n in pair]:
        raise ImportError(f"region_store: {path} has another layout than this module")
    return library


def _layout(layout):
    """The numbers that region_store_layout gives."""
    layout.restype = ctypes.c_size_t
    layout.argtypes = [ctypes.c_void_p, ctypes.c_size_t]
    room = 1 + 2 * len(LAYOUT)
    out = (ctypes.c_uint32 * room)()
    return list(out) if layout(out, room) == room else []


_library = _opened()


# ---- numbers and memory

_ABOVE = ~LAST  # the bits that no number from 0 to LAST has
_NO_NUMBERS = ()
_NO_LIST = ctypes.byref(ctypes.c_uint32())
_NO_COUNT = ctypes.c_size_t.from_param(0)
_five_numbers = struct.Struct("=5I").unpack_from
_three_numbers = struct.Struct("=3I").unpack_from


def _whole(number, call, name):
    """The number as an int, if it is an integer from 0 to LAST."""
    try:
        whole = int(operator.index(number))
    except TypeError:
        raise TypeError(f"{call}: {name} is no integer: {number!r}") from None
    if not 0 <= whole <= LAST:
        raise ValueError(f"{call}: {name} is not 0 to {LAST}: {whole}")
    return whole


def _title(number):
    """The name of a call, for messages."""
    return CALLS[number].name if number in CALLS else f"call {number}"


def _all_whole(number, numbers):
    """The four numbers of a call, each tested by _whole under its name."""
    arguments = CALLS[number].arguments if number in CALLS else ()
    names = [name for name in arguments if not name.endswith("..")]
    names += "abcd"[len(names) :]
    return [_whole(n, _title(number), name) for n, name in zip(numbers, names)]


def _reply():
    """A reply of five numbers: as it is lent, and as it is read."""
    reply = (ctypes.c_uint32 * 5)()
    return ctypes.byref(reply), reply


def _lent(pages):
    """Memory for a state and a heap, and the library's first arguments, converted once and for all:
    a call has only its own numbers to convert."""
    words = PAGE_WORDS * pages
    memory = (ctypes.c_uint32 * (STATE_BYTES // 4 + max(words, PAGE_WORDS)))()
    lent = []
    place = 0
    for _, width, length in LAYOUT:
        lent.append(ctypes.byref(memory, place))
        place += width * length
    lent += [ctypes.byref(memory, place), ctypes.c_size_t.from_param(words)]
    return memory, lent


def _tested(data):
    """Why the bytes are no saved store, a number of FILES; 0 where they may be one."""
    if len(data) < _HEAD.size + _SUM.size:
        return FILE_SHORT
    magic, version, state, words = _HEAD.unpack_from(data)
    if magic != MAGIC:
        return FILE_NO_STORE
    if version != VERSION:
        return FILE_OTHER_VERSION
    pages, odd = divmod(words, PAGE_WORDS)
    if state != STATE_BYTES or odd or not 1 <= pages <= MOST_PAGES:
        return FILE_WRONG_LENGTHS
    length = _HEAD.size + STATE_BYTES + 4 * words + _SUM.size
    if len(data) != length:
        return FILE_SHORT if len(data) < length else FILE_LONG
    end = length - _SUM.size
    return 0 if _SUM.unpack_from(data, end)[0] == zlib.crc32(data[:end]) else FILE_WRONG_SUM


def _beside(path):
    """A new file beside the path, open: PATH.PID.N.new with the first N that is not taken, whatever
    stands there, a link too."""
    for n in range(100):
        try:
            return open(f"{path}.{os.getpid()}.{n}.new", "xb")
        except FileExistsError:
            continue
    raise FileExistsError(errno.EEXIST, "each name PATH.PID.N.new is taken", path)


def _removed(file):
    """Removes an open file, unless it was renamed: then its name may be another save's."""
    try:
        if os.path.samestat(os.fstat(file.fileno()), os.lstat(file.name)):
            os.unlink(file.name)
    except OSError:
        pass


def _write(path, data):
    """Writes the bytes to the path, all or none: to a file beside it first, which is renamed."""
    folder = os.open(os.path.dirname(path) or ".", os.O_RDONLY | os.O_DIRECTORY | os.O_CLOEXEC)
    try:
        with _beside(path) as file:
            try:
                file.write(data)
                file.flush()
                os.fsync(file.fileno())
                os.rename(file.name, path)
            except BaseException:
                _removed(file)
                raise
        try:
            os.fsync(folder)
        except OSError as error:
            # Some file systems have no flush of a folder: they say EINVAL.
            if error.errno != errno.EINVAL:
                raise
    finally:
        os.close(folder)


def _at_once(path, flags):
    """Opens a file; a pipe is not waited for."""
    return os.open(path, flags | os.O_NONBLOCK | os.O_CLOEXEC)


def _read(path):
    """The bytes of a file; of one that is longer than every saved store one byte more than that."""
    with open(path, "rb", opener=_at_once) as file:
        if not stat.S_ISREG(os.fstat(file.fileno()).st_mode):
            raise OSError(errno.EINVAL, "not a regular file", path)
        return file.read(_LONGEST + 1)


def _restored(cls, data):
    """A store of its own memory, from the bytes of a saved one."""
    return cls._loaded(None, data)


class _OfEither:
    """A name with two meanings: asked of an instance it is one method, asked of the class another,
    which is given the class."""

    def __init__(self, of_instance):
        self._of_instance = of_instance

    def of_class(self, function):
        """Decorates the method that the class is asked for."""
        self._of_class = function
        return self

    def __get__(self, instance, owner=None):
        if instance is None:
            return MethodType(self._of_class, owner)
        return MethodType(self._of_instance, instance)


# The stores that there are, by id.
_stores = weakref.WeakValueDictionary()


def _forked():
    """In a child of fork: renews the locks that threads held which are not in the child. A lock that
    the thread which forked holds itself stays as it is."""
    for reference in _stores.valuerefs():
        store = reference()
        if store is None:
            continue
        if store._lock.acquire(blocking=False):
            store._lock.release()
        else:
            store._lock = threading.RLock()


os.register_at_fork(after_in_child=_forked)


class Store:
    """A store of 1 to 256 pages, and a method for each call.

    Store(pages) makes it. Any other number of pages is refused by 1, heap_length, a negative or a
    very large one too (at most 257 pages are lent to be refused); then there is no store. It holds
    its state and its heap together, so that no method is ever refused by 21.

    store.save(path) saves a store, and Store.load(path), asked of the class, gives one that was
    saved. store.load(slot, word, to), asked of a store, is call 13, and reads no file.

    Methods give None, an int, a bool, or a named tuple, as their values are none, one, one that is
    1 or 0, or several. They raise Refused where the call was refused; then nothing has changed.
    Numbers are integers from 0 to 2**32 - 1 (whatever operator.index takes); others raise TypeError
    or ValueError before the library is called. The filler, 0 to 3, is given by its keyword.

    One caller at a time: each call is made under a lock of the store, so that threads wait for each
    other. 'with store:' holds it for several calls, so that no other thread's come between; there
    is nothing to close. The thread that holds it may go on calling, from a signal handler or a
    finaliser too.

    A child of os.fork has a copy of each store and may use it, also where another thread of the
    parent held the lock at that moment: that thread is not in the child, and its lock is not held
    there. Of calls that it made under 'with store:' the copy has those before the fork.

    copy.copy, copy.deepcopy and pickle give a store with memory of its own, equal in state and
    heap; what they restore is tested as a file is (NotLoaded).
    """

    __slots__ = ("_memory", "_heap", "_call", "_view", "_lock", "_replies", "__weakref__")

    def __init__(self, pages: int):
        pages = operator.index(pages)
        memory, lent = _lent(min(max(pages, 0), MOST_PAGES + 1))
        out, reply = _reply()
        _library.region_store_make(*lent, out)
        if reply[0]:
            raise Refused(CALLS[1].name, reply[0])
        self._hold(memory, lent)

    def _hold(self, memory, lent):
        """Makes this the store of some memory, as _lent gives it."""
        self._memory = memory
        self._heap = memoryview(memory).cast("B").cast("I")[STATE_BYTES // 4 :].toreadonly()
        self._call = functools.partial(_library.region_store_call, *lent)
        self._view = functools.partial(_library.region_store_view, *lent)
        self._lock = threading.RLock()
        self._replies = [_reply()]
        _stores[id(self)] = self

    # ---- how calls are made

    def _five(self, number, a=0, b=0, c=0, d=0, list=_NO_LIST, count=_NO_COUNT):
        """Makes a call: the refusal and four values."""
        # Together the numbers are an int without a bit above 32, or each has to be looked at.
        try:
            numbers = a | b | c | d
        except Exception:
            numbers = None
        if type(numbers) is not int or numbers & _ABOVE:
            a, b, c, d = _all_whole(number, (a, b, c, d))
        # A reply is one call's alone until it is read: a handler may call in between.
        try:
            lent, reply = pair = self._replies.pop()
        except IndexError:
            lent, reply = pair = _reply()
        with self._lock:
            self._call(number, a, b, c, d, list, count, lent)
        five = _five_numbers(reply)
        self._replies.append(pair)
        return five

    def _listed(self, list, number, a=0, b=0, c=0, d=0):
        """Makes a call that takes a list. A number more is lent, so that it is never null."""
        title = _title(number)
        numbers = array("I", [_whole(n, title, "a number of the list") for n in list])
        count = ctypes.c_size_t(len(numbers))
        numbers.append(0)
        lent = ctypes.c_void_p(numbers.buffer_info()[0])
        return self._five(number, a, b, c, d, lent, count)

    def _part(self, number, slot):
        """The part of the heap that view gives."""
        slot = _whole(slot, CALLS[number].name, "slot")
        lent, reply = _reply()
        with self._lock:
            self._view(slot, lent)
        refusal, place, length = _three_numbers(reply)
        if refusal:
            raise Refused(CALLS[number].name, refusal)
        return self._heap[place : place + length]

    def call(self, number: int, a: int = 0, b: int = 0, c: int = 0, d: int = 0,
             list: Iterable[int] = _NO_NUMBERS) -> tuple:
        """Makes any call but make by its number, and gives five numbers: the refusal, 0 where it
        was accepted, and four values, 0 where there is none. Raises no Refused.

        a, b, c, d are the call's arguments that are no list, from the left, the filler among them;
        list has declare's marks or delete_all's names. What a call does not take is ignored, but
        has to be numbers too. Of view it gives the refusal alone. A number that no call has, 1
        among them, is refused by 24.
        """
        number = _whole(number, "call", "number")
        if list is _NO_NUMBERS:
            return self._five(number, a, b, c, d)
        return self._listed(list, number, a, b, c, d)

    # ---- the calls

    # hosts/tables: begin methods
    def declare(self, marks: Iterable[int]) -> int:
        """Declares a kind of object by a mark for each word: 0 data, 1 free pointer, 2 same region,
        3 up, 4 forever.

        Arguments:
            marks: a mark for each of the 1 to 16 words of an object of the kind; any iterable of
                numbers
        Gives: kind, a kind's number, from 1 on.

        Refused by the first of these that holds:
            21 wrong_heap: the heap's length is not the one made, or none was made, since make
                refused
            11 wrong_marks: no mark, more than 16 marks, or one above 4
            10 kinds_full: 16 kinds stand, the most there can be
        """
        five = self._listed(marks, 2)
        if five[0]:
            raise Refused("declare", five[0])
        return five[1]

    def new_region(self) -> int:
        """Makes a region that lies in no other, and gives its name.

        Gives: region, a region's name, a number from 1 on.

        Refused by the first of these that holds:
            21 wrong_heap: the heap's length is not the one made, or none was made, since make
                refused
             4 regions_full: 64 regions live, the most there can be
             5 names_out: name 1,000,000 was given, the last there is
        """
        five = self._five(3)
        if five[0]:
            raise Refused("new_region", five[0])
        return five[1]

    def subregion(self, region: int) -> int:
        """Makes a region inside a region, and gives its name.

        Arguments:
            region: a region's name, a number from 1 on
        Gives: region, a region's name, a number from 1 on.

        Refused by the first of these that holds:
            21 wrong_heap: the heap's length is not the one made, or none was made, since make
                refused
             2 no_region: no live region has that name
            20 too_deep: the region above is at level 16, the deepest
             4 regions_full: 64 regions live, the most there can be
             5 names_out: name 1,000,000 was given, the last there is
        """
        five = self._five(4, region)
        if five[0]:
            raise Refused("subregion", five[0])
        return five[1]

    def push(self, slots: int) -> int:
        """Puts a frame of 1 to 8 null slots on the stack, and gives how many frames stand.

        Arguments:
            slots: how many slots the frame has, 1 to 8
        Gives: frames, a number.

        Refused by the first of these that holds:
            21 wrong_heap: the heap's length is not the one made, or none was made, since make
                refused
             8 slot_count: a frame has 1 to 8 slots
             7 frames_full: 32 frames stand, the most there can be
        """
        five = self._five(5, slots)
        if five[0]:
            raise Refused("push", five[0])
        return five[1]

    def drop(self, *, filler: int = 0) -> int:
        """Takes the top frame off the stack, and gives how many frames stand.

        Arguments:
            filler: whom the call acts for, 0 to 3; 0 where one program has the store to itself
        Gives: frames, a number.

        Refused by the first of these that holds:
            21 wrong_heap: the heap's length is not the one made, or none was made, since make
                refused
            23 no_filler: the filler is above 3
             6 no_frame: no frame, or fewer than the two that the call needs
        """
        five = self._five(6, filler)
        if five[0]:
            raise Refused("drop", five[0])
        return five[1]

    def hand_back(self, slot: int, beneath: int, *, filler: int = 0) -> int:
        """Takes the top frame off the stack, and puts what one of its slots held into a slot of the
        frame beneath it.

        Arguments:
            slot: a slot of the top frame, from 0 on
            beneath: a slot of the frame beneath the top one, from 0 on
            filler: whom the call acts for, 0 to 3; 0 where one program has the store to itself
        Gives: frames, a number.

        Refused by the first of these that holds:
            21 wrong_heap: the heap's length is not the one made, or none was made, since make
                refused
            23 no_filler: the filler is above 3
             6 no_frame: no frame, or fewer than the two that the call needs
             9 no_slot: a slot named is not there
        """
        five = self._five(7, slot, beneath, filler)
        if five[0]:
            raise Refused("hand_back", five[0])
        return five[1]

    def allocate(self, slot: int, region: int, kind: int) -> None:
        """Makes an object of a kind in a region, its words 0 or null, and leads a slot to it.

        Arguments:
            slot: a slot of the top frame, from 0 on
            region: a region's name, a number from 1 on
            kind: a kind's number, from 1 on
        Gives: nothing.

        Refused by the first of these that holds:
            21 wrong_heap: the heap's length is not the one made, or none was made, since make
                refused
             6 no_frame: no frame, or fewer than the two that the call needs
             9 no_slot: a slot named is not there
             2 no_region: no live region has that name
            12 no_kind: no such kind
            13 no_page: the region has no page, or the object does not fit its newest one, and no
                page is free
        """
        five = self._five(8, slot, region, kind)
        if five[0]:
            raise Refused("allocate", five[0])

    def first(self, slot: int, region: int) -> None:
        """Leads a slot to the first object of a region, or makes it null where there is none.

        Arguments:
            slot: a slot of the top frame, from 0 on
            region: a region's name, a number from 1 on
        Gives: nothing.

        Refused by the first of these that holds:
            21 wrong_heap: the heap's length is not the one made, or none was made, since make
                refused
             6 no_frame: no frame, or fewer than the two that the call needs
             9 no_slot: a slot named is not there
             2 no_region: no live region has that name
        """
        five = self._five(9, slot, region)
        if five[0]:
            raise Refused("first", five[0])

    def copy(self, from_: int, to: int) -> None:
        """Leads a slot to where another one leads.

        Arguments:
            from_: the slot of the top frame that is read
            to: the slot of the top frame that is led there
        Gives: nothing.

        Refused by the first of these that holds:
            21 wrong_heap: the heap's length is not the one made, or none was made, since make
                refused
             6 no_frame: no frame, or fewer than the two that the call needs
             9 no_slot: a slot named is not there
        """
        five = self._five(10, from_, to)
        if five[0]:
            raise Refused("copy", five[0])

    def fetch(self, beneath: int, slot: int) -> None:
        """Leads a slot to where a slot of the frame beneath leads.

        Arguments:
            beneath: a slot of the frame beneath the top one, from 0 on
            slot: a slot of the top frame, from 0 on
        Gives: nothing.

        Refused by the first of these that holds:
            21 wrong_heap: the heap's length is not the one made, or none was made, since make
                refused
             6 no_frame: no frame, or fewer than the two that the call needs
             9 no_slot: a slot named is not there
        """
        five = self._five(11, beneath, slot)
        if five[0]:
            raise Refused("fetch", five[0])

    def clear(self, slot: int) -> None:
        """Makes a slot null.

        Arguments:
            slot: a slot of the top frame, from 0 on
        Gives: nothing.

        Refused by the first of these that holds:
            21 wrong_heap: the heap's length is not the one made, or none was made, since make
                refused
             6 no_frame: no frame, or fewer than the two that the call needs
             9 no_slot: a slot named is not there
        """
        five = self._five(12, slot)
        if five[0]:
            raise Refused("clear", five[0])

    def load(self, slot: int, word: int, to: int) -> None:
        """Leads a slot to where a pointer word of an object leads.

        Arguments:
            slot: a slot of the top frame, from 0 on
            word: a word of the object, from 0 on
            to: the slot of the top frame that is led there
        Gives: nothing.

        Refused by the first of these that holds:
            21 wrong_heap: the heap's length is not the one made, or none was made, since make
                refused
             6 no_frame: no frame, or fewer than the two that the call needs
             9 no_slot: a slot named is not there
            14 null_object: the object slot is null
            15 no_word: the object has no such word
            16 wrong_word: the word is data where a pointer is wanted, or the other way round; for
                view, some word is no data

        This is what a store is asked for. Asked of the class, Store.load(path) is another method:
        it loads a saved store.
        """
        five = self._five(13, slot, word, to)
        if five[0]:
            raise Refused("load", five[0])

    def set_pointer(self, slot: int, word: int, value: int, *, filler: int = 0) -> None:
        """Leads a pointer word of an object to where a slot leads, if the word's mark allows it.

        Arguments:
            slot: a slot of the top frame, from 0 on
            word: a word of the object, from 0 on
            value: the slot of the top frame that leads where the word is to lead (not a pointer
                itself); a null slot makes the word null
            filler: whom the call acts for, 0 to 3; 0 where one program has the store to itself
        Gives: nothing.

        Refused by the first of these that holds:
            21 wrong_heap: the heap's length is not the one made, or none was made, since make
                refused
            23 no_filler: the filler is above 3
             6 no_frame: no frame, or fewer than the two that the call needs
             9 no_slot: a slot named is not there
            14 null_object: the object slot is null
            15 no_word: the object has no such word
            16 wrong_word: the word is data where a pointer is wanted, or the other way round; for
                view, some word is no data
            17 breaks_mark: the pointer breaks the word's mark
        """
        five = self._five(14, slot, word, value, filler)
        if five[0]:
            raise Refused("set_pointer", five[0])

    def put(self, slot: int, word: int, number: int) -> None:
        """Writes a data word of an object.

        Arguments:
            slot: a slot of the top frame, from 0 on
            word: a word of the object, from 0 on
            number: what the data word holds, a number of 32 bits
        Gives: nothing.

        Refused by the first of these that holds:
            21 wrong_heap: the heap's length is not the one made, or none was made, since make
                refused
             6 no_frame: no frame, or fewer than the two that the call needs
             9 no_slot: a slot named is not there
            14 null_object: the object slot is null
            15 no_word: the object has no such word
            16 wrong_word: the word is data where a pointer is wanted, or the other way round; for
                view, some word is no data
        """
        five = self._five(15, slot, word, number)
        if five[0]:
            raise Refused("put", five[0])

    def get(self, slot: int, word: int) -> int:
        """Reads a data word of an object.

        Arguments:
            slot: a slot of the top frame, from 0 on
            word: a word of the object, from 0 on
        Gives: number, what the data word holds, a number of 32 bits.

        Refused by the first of these that holds:
            21 wrong_heap: the heap's length is not the one made, or none was made, since make
                refused
             6 no_frame: no frame, or fewer than the two that the call needs
             9 no_slot: a slot named is not there
            14 null_object: the object slot is null
            15 no_word: the object has no such word
            16 wrong_word: the word is data where a pointer is wanted, or the other way round; for
                view, some word is no data
        """
        five = self._five(16, slot, word)
        if five[0]:
            raise Refused("get", five[0])
        return five[1]

    def view(self, slot: int) -> memoryview:
        """Gives the words of an object without pointers: the part of the heap itself, no copy.

        Arguments:
            slot: a slot of the top frame, from 0 on
        Gives: a read-only memoryview of the heap itself, format 'I', no copy.

        It is the heap, not the object: a later put shows in it. Once the object's region is deleted
        it shows what is left there, and then what new objects of that page hold. It keeps the
        heap's memory as long as it is kept, also when the Store is gone. What should stay as it is
        now has to be copied: list(view) or bytes(view).

        Refused by the first of these that holds:
            21 wrong_heap: the heap's length is not the one made, or none was made, since make
                refused
             6 no_frame: no frame, or fewer than the two that the call needs
             9 no_slot: a slot named is not there
            14 null_object: the object slot is null
            16 wrong_word: the word is data where a pointer is wanted, or the other way round; for
                view, some word is no data
        """
        return self._part(17, slot)

    def same(self, slot: int, other: int) -> bool:
        """Tells whether two slots lead to one object, or are both null.

        Arguments:
            slot: a slot of the top frame, from 0 on
            other: the other slot, of the top frame too
        Gives: same, True or False.

        Refused by the first of these that holds:
            21 wrong_heap: the heap's length is not the one made, or none was made, since make
                refused
             6 no_frame: no frame, or fewer than the two that the call needs
             9 no_slot: a slot named is not there
        """
        five = self._five(18, slot, other)
        if five[0]:
            raise Refused("same", five[0])
        return five[1] == 1

    def about(self, slot: int) -> About:
        """Gives the region and the kind of the object that a slot leads to, 0 and 0 for null.

        Arguments:
            slot: a slot of the top frame, from 0 on
        Gives: About(region, kind).

        Refused by the first of these that holds:
            21 wrong_heap: the heap's length is not the one made, or none was made, since make
                refused
             6 no_frame: no frame, or fewer than the two that the call needs
             9 no_slot: a slot named is not there
        """
        five = self._five(19, slot)
        if five[0]:
            raise Refused("about", five[0])
        return About(*five[1:3])

    def report(self, region: int) -> Report:
        """Gives a region's stored count, its outside pointers, its pages, and the live subregions
        directly below it.

        Arguments:
            region: a region's name, a number from 1 on
        Gives: Report(count, outside, pages, subregions).

        Refused by the first of these that holds:
            21 wrong_heap: the heap's length is not the one made, or none was made, since make
                refused
             2 no_region: no live region has that name
        """
        five = self._five(20, region)
        if five[0]:
            raise Refused("report", five[0])
        return Report(*five[1:5])

    def totals(self) -> Totals:
        """Gives how many pages are free, regions live, frames stand and frames are counted.

        Gives: Totals(free_pages, regions, frames, counted).

        Never refused.
        """
        five = self._five(21)
        return Totals(*five[1:5])

    def audit(self) -> bool:
        """Tells whether the memory is a sound store, by counting everything anew.

        Gives: sound, True or False.

        Never refused.
        """
        five = self._five(22)
        return five[1] == 1

    def delete(self, region: int, *, filler: int = 0) -> int:
        """Deletes a region, and gives how many pages that frees.

        Arguments:
            region: a region's name, a number from 1 on
            filler: whom the call acts for, 0 to 3; 0 where one program has the store to itself
        Gives: pages, a number.

        Refused by the first of these that holds:
            21 wrong_heap: the heap's length is not the one made, or none was made, since make
                refused
            23 no_filler: the filler is above 3
             2 no_region: no live region has that name
             3 permanent: region 1 is permanent
            18 subregion_lives: a subregion lives; for delete_all, one that is not named with the
                others
            19 outside_pointer: an outside pointer remains; for delete_all, a slot that leads into a
                region named, or a free word of a region that is not
        """
        five = self._five(23, region, filler)
        if five[0]:
            raise Refused("delete", five[0])
        return five[1]

    def delete_all(self, regions: Iterable[int], *, filler: int = 0) -> int:
        """Deletes 1 to 16 regions that may lead into each other, all or none, and gives how many
        pages that frees. Refusals 2 and 3 are tested for one name after the other.

        Arguments:
            regions: the names of 1 to 16 regions, each once; any iterable of numbers
            filler: whom the call acts for, 0 to 3; 0 where one program has the store to itself
        Gives: pages, a number.

        Refused by the first of these that holds:
            21 wrong_heap: the heap's length is not the one made, or none was made, since make
                refused
            23 no_filler: the filler is above 3
            22 wrong_names: no name, more than 16 names, or one twice
             2 no_region: no live region has that name
             3 permanent: region 1 is permanent
            18 subregion_lives: a subregion lives; for delete_all, one that is not named with the
                others
            19 outside_pointer: an outside pointer remains; for delete_all, a slot that leads into a
                region named, or a free word of a region that is not
        """
        five = self._listed(regions, 24, filler)
        if five[0]:
            raise Refused("delete_all", five[0])
        return five[1]

    def locate(self, slot: int) -> Locate:
        """Gives the page of the object that a slot leads to and the word of its header there, 256
        and 0 for null.

        Arguments:
            slot: a slot of the top frame, from 0 on
        Gives: Locate(page, word).

        Refused by the first of these that holds:
            21 wrong_heap: the heap's length is not the one made, or none was made, since make
                refused
             6 no_frame: no frame, or fewer than the two that the call needs
             9 no_slot: a slot named is not there
        """
        five = self._five(25, slot)
        if five[0]:
            raise Refused("locate", five[0])
        return Locate(*five[1:3])
    # hosts/tables: end

    # ---- the memory

    @property
    def pages(self) -> int:
        """How many pages the store was made with."""
        return len(self._heap) // PAGE_WORDS

    @property
    def heap(self) -> memoryview:
        """All words of the heap: a read-only memoryview of the heap itself, format 'I', no copy."""
        return self._heap[:]

    def image(self) -> bytes:
        """A copy of the state and the heap: two stores are equal if these are."""
        with self._lock:
            return bytes(self._memory)

    def __repr__(self):
        totals = ", ".join(f"{name}={n}" for name, n in zip(Totals._fields, self.totals()))
        return f"<{type(self).__name__}: pages={self.pages}, {totals}>"

    def __enter__(self):
        self._lock.acquire()
        return self

    def __exit__(self, *_):
        self._lock.release()

    # ---- saved stores

    def save(self, path) -> None:
        """Saves the store to a file, str or os.PathLike, all or nothing.

        PATH.PID.N.new (PID the number of the process, N the first from 0 to 99 that is not taken) is
        written beside it and flushed, then renamed to PATH, and the folder is flushed. So at every
        moment there is one whole store at PATH, the old one or a new one, also where several threads
        or processes save to it at once: each has a file of its own, and the last to rename stays. A
        link at PATH is replaced by the file, and what it led to is left as it was.

        Raises NotSaved where that fails: what was at PATH is there as it was, unless all went well
        but the last step, the flush of the folder; then the new file is there, whole and flushed,
        but a loss of power may bring the old one back. (That a file system cannot flush folders at
        all is no failure.) The file beside PATH is removed, if the system lets it be; no other file
        has been touched. A crash on the way may leave a file PATH.PID.N.new, which may be deleted.
        """
        path = os.fsdecode(path)
        try:
            _write(path, self._saved())
        except (OSError, ValueError) as error:
            raise NotSaved(path, FILE_UNWRITABLE) from error

    # Of a store this name is the call above, of the class the loader below.
    load = _OfEither(load)

    @load.of_class
    def load(cls, path) -> Store:
        """Store.load(path): a new store from a saved file, str or os.PathLike. Asked of a subclass,
        it gives one of that class. (store.load(slot, word, to), asked of a store, is call 13.)

        Raises NotLoaded where the file is no saved store, with the first of the FILES, 1 to 8, that
        holds (but a file too short for its lengths is short, 2, after 5 was tested); then nothing has
        changed. What is no regular file (a folder, a pipe, a device) is unreadable, 1, and a pipe is
        not waited for. The last two tests need each other. The audit is no sum: data words and
        entries not in use are not its business. And a sum is no audit: it says nothing of what was
        summed.
        """
        path = os.fsdecode(path)
        try:
            data = _read(path)
        except (OSError, ValueError) as error:
            raise NotLoaded(path, FILE_UNREADABLE) from error
        return cls._loaded(path, data)

    def _saved(self):
        """The bytes of the store's file."""
        head = _HEAD.pack(MAGIC, VERSION, STATE_BYTES, len(self._heap))
        data = head + self.image()
        return data + _SUM.pack(zlib.crc32(data))

    @classmethod
    def _loaded(cls, path, data):
        """A store from the bytes of a file."""
        number = _tested(data)
        if number:
            raise NotLoaded(path, number)
        words = _HEAD.unpack_from(data)[3]
        store = cls.__new__(cls)
        store._hold(*_lent(words // PAGE_WORDS))
        memoryview(store._memory).cast("B")[:] = data[_HEAD.size : -_SUM.size]
        if not Store.audit(store):
            raise NotLoaded(path, FILE_UNSOUND)
        return store

    def __reduce_ex__(self, _):
        return _restored, (type(self), self._saved()), getattr(self, "__dict__", None)
