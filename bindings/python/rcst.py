"""The proved settings store, for a notebook: one file over ctypes, on bytes in memory.

    import rcst
    store = rcst.Store.read("console.rcst")
    store.state()                          # current version, pages, whether an update is open
    store.lookup(40, store.version)        # the value, or None
    store.life(40)                         # every stretch of versions in which it held one value
    store.difference(1, 2)                 # what differs between two releases

A call that the library refuses raises Refused, with its number and its words; it has changed no
byte. Nothing here writes a file: to make a release in one, use the tool, rcst apply.

The library is librcst.so, which ./install makes of the proved librcst.a; RCST_SO names another file.
It judges a store before it trusts it, so any bytes may be lent.
"""
import ctypes
import os
from collections import namedtuple
from pathlib import Path

__all__ = ["Store", "Refused", "State", "Difference", "Stretch", "words", "PAGE_BYTES", "HIGHEST_KEY"]

PAGE_BYTES = 256
SECOND_PAGE_BYTES = 512
HIGHEST_KEY = 16_777_215
ALIVE = 1_048_575
MOST_LEVELS = 7
LIST_TOO_SHORT = 14

WORDS = [
    "done",
    "length not 6 to 4,096 whole pages of the edition",
    "first four bytes wrong",
    "edition neither 1 nor 2 (prune: not 2; convert: source not 1)",
    "not sound (lookup, range: the header, a slot, or a page of their own walk is wrong, or the walk cannot go on)",
    "key too large (insert: 16,776,960 or above), or range low above high",
    "version above last or below the oldest (of a difference: either version; of a return or a prune: above current)",
    "no update open (insert, delete, return, commit, abandon)",
    "update already open (open, prune, convert)",
    "current is 1,048,574 (open)",
    "key alive (insert)",
    "key not alive (delete)",
    "the rules need a page and none is free",
    "the rules need a 257th slot (edition 2: a 513th)",
    "caller's list holds fewer numbers than two for each setting found (range), three for each stretch (life), "
    "four for each difference (difference), one for each page visited (visits)",
    "the open version's settings equal the current version's, key for key (commit)",
    "value not of the key's kind or outside its limits (named insert), or key of another kind (viewer)",
    "key unknown to the table of kinds, or met in a range (named settings, viewer)",
]

State = namedtuple("State", "pages current open roots edition free oldest")
State.__doc__ = "What a store tells of itself; open is 1 if an update is, and oldest the first version that can be read."
Difference = namedtuple("Difference", "key kind old new")
Difference.__doc__ = "A key that was added, removed or changed; a value is None where there is none."
Stretch = namedtuple("Stretch", "start end value")
Stretch.__doc__ = "A value from version start up to, not including, end; end is None if it is still alive."


def words(number):
    """A number's words: when the library gives it."""
    return WORDS[number] if 0 <= number < len(WORDS) else "not a number of this library"


class Refused(Exception):
    """A call that the library refused."""

    def __init__(self, number):
        super().__init__(f"{number}, {words(number)}")
        self.number = number


def _found():
    """The library, from where ./install puts it beside this file, or from where the system looks."""
    named = os.environ.get("RCST_SO")
    installed = Path(__file__).resolve().parent / "../../lib/librcst.so"
    return ctypes.CDLL(named or (str(installed) if installed.exists() else "librcst.so"))


_u32, _size = ctypes.c_uint32, ctypes.c_size_t


class _State(ctypes.Structure):
    _fields_ = [(name, _u32) for name in State._fields]


_state = ctypes.POINTER(_State)
_bytes, _number, _count = ctypes.POINTER(ctypes.c_uint8), ctypes.POINTER(_u32), ctypes.POINTER(_size)
_CALLS = {
    "fresh": [],
    "fresh_second": [],
    "convert": [_bytes, _size],
    "check": [_number],
    "state": [_state],
    "open": [],
    "insert": [_u32, _u32],
    "delete": [_u32],
    "commit": [],
    "abandon": [],
    "return": [_u32],
    "prune": [_u32],
    "lookup": [_u32, _u32, _number, _number],
    "range": [_u32, _u32, _u32, _number, _size, _count],
    "visits": [_u32, _u32, _number, _size, _count],
    "difference": [_u32, _u32, _number, _size, _count],
    "life": [_u32, _number, _size, _count],
}
_library = _found()
for _name, _words in _CALLS.items():
    _call = getattr(_library, "rcst_" + _name)
    _call.argtypes, _call.restype = [_bytes, _size, *_words], _u32


def _whole(number):
    """A number as the calls take it: ctypes would cut a larger one without a word."""
    if not 0 <= int(number) <= 0xFFFFFFFF:
        raise ValueError(f"{number} is not a number from 0 to 4,294,967,295")
    return int(number)


class Store:
    """A store in memory. `bytes(store)` is what a file of it holds."""

    def __init__(self, lent):
        self._store = bytearray(lent)

    @classmethod
    def fresh(cls, pages, edition=1):
        """A store of so many pages: version 0, no settings."""
        second = edition == 2
        store = cls(bytes((SECOND_PAGE_BYTES if second else PAGE_BYTES) * pages))
        store._done("fresh_second" if second else "fresh")
        return store

    @classmethod
    def read(cls, path):
        """The store in a file, judged: Refused if it is not sound."""
        store = cls(Path(path).read_bytes())
        store.check()
        return store

    def __bytes__(self):
        return bytes(self._store)

    def _lent(self):
        """The bytes and their number, as a call takes them."""
        length = len(self._store)
        return (ctypes.c_uint8 * length).from_buffer(self._store) if length else None, length

    def _call(self, name, *rest):
        return getattr(_library, "rcst_" + name)(*self._lent(), *rest)

    def _done(self, name, *rest):
        number = self._call(name, *rest)
        if number:
            raise Refused(number)

    def _listed(self, name, each, *rest):
        """Asks twice: once for the count, and once with a list for it."""
        count = _size()
        number = self._call(name, *rest, None, 0, ctypes.byref(count))
        if number == LIST_TOO_SHORT:
            room = each * count.value
            found = (_u32 * room)()
            number = self._call(name, *rest, found, room, ctypes.byref(count))
        else:
            found = ()
        if number:
            raise Refused(number)
        numbers = list(found)
        return [tuple(numbers[at : at + each]) for at in range(0, len(numbers), each)]

    def check(self):
        """Judges the whole store: Refused unless it is sound."""
        self._done("check", ctypes.byref(_u32()))

    def state(self):
        """What the store tells of itself."""
        told = _State()
        self._done("state", ctypes.byref(told))
        return State(*(getattr(told, name) for name in State._fields))

    @property
    def version(self):
        """The current version: the last one that was committed."""
        return self.state().current

    def open(self):
        self._done("open")

    def insert(self, key, value):
        self._done("insert", _whole(key), _whole(value))

    def delete(self, key):
        self._done("delete", _whole(key))

    def commit(self):
        self._done("commit")

    def abandon(self):
        self._done("abandon")

    def return_to(self, version):
        self._done("return", _whole(version))

    def prune(self, version):
        """Makes a committed version the oldest, in a store of edition 2: what ended at or before it is freed."""
        self._done("prune", _whole(version))

    def convert(self, pages):
        """A store of edition 2, of so many pages, whose committed versions read as those of this one, of edition 1."""
        target = type(self).fresh(pages, edition=2)
        self._done("convert", *target._lent())
        return target

    def lookup(self, key, version):
        """The key's value at the version, or None."""
        found, value = _u32(), _u32()
        self._done("lookup", _whole(key), _whole(version), ctypes.byref(found), ctypes.byref(value))
        return value.value if found.value else None

    def range(self, version, low=0, high=HIGHEST_KEY):
        """Keys and values at the version, in key order."""
        return self._listed("range", 2, _whole(low), _whole(high), _whole(version))

    def visits(self, key, version):
        """The pages by which a lookup goes, from the root down."""
        return [page for (page,) in self._listed("visits", 1, _whole(key), _whole(version))]

    def difference(self, old, new):
        """What differs from one version to another, in key order."""
        kinds = ("added", "removed", "changed")
        listed = self._listed("difference", 4, _whole(old), _whole(new))
        none = lambda kind, at, value: None if kind == at else value
        return [Difference(key, kinds[kind], none(kind, 0, was), none(kind, 1, now)) for key, kind, was, now in listed]

    def life(self, key):
        """Every stretch of committed versions in which the key held one value, oldest first."""
        listed = self._listed("life", 3, _whole(key))
        return [Stretch(start, None if end == ALIVE else end, value) for start, end, value in listed]
