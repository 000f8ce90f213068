"""The engine for Python: one file, over libcore.so.

    import core

    with core.Engine(text) as engine:
        for answer in engine.feed_lines(lines):
            print(answer.query, answer.start, answer.end, answer.positions)

Lines and texts are bytes, or str, which is taken as UTF-8. libcore.so is looked for where the
environment's CORE_LIBRARY says, else beside this file, else where the system looks. All calls on an
engine are to be made on the thread that opened it.
"""

import ctypes
import os
from collections import namedtuple
from operator import methodcaller

OK, NONE, ROOM, QUERY, EVENT, MEMORY, MISUSE = range(7)
VERSION = 1

Answer = namedtuple("Answer", "query start end positions")
Sizes = namedtuple("Sizes", "events queries nodes peak states")


class Refused(Exception):
    """A query text, or a line: its place, and why in words."""

    def __init__(self, line, column, words):
        super().__init__(words)
        self.line, self.column, self.words = line, column, words


class QueryRefused(Refused):
    """The query text has a fault, the first of which stands at this line and column."""


class LineRefused(Refused):
    """The line of this number, after those that were taken, is refused. Nothing has changed."""


class _Handle(ctypes.Structure):
    _fields_ = [("at", ctypes.c_void_p), ("full", ctypes.c_bool)]


class _Engine(ctypes.Structure):
    _fields_ = [("handle", _Handle), ("seed", ctypes.c_uint64 * 2)]


class _Fault(ctypes.Structure):
    _fields_ = [("line", ctypes.c_uint64), ("column", ctypes.c_uint64), ("words", ctypes.c_size_t)]


class _Answer(ctypes.Structure):
    _fields_ = [("query", ctypes.c_uint64), ("start", ctypes.c_uint64), ("end", ctypes.c_uint64), ("count", ctypes.c_size_t)]


class _Sizes(ctypes.Structure):
    _fields_ = [(name, ctypes.c_uint64) for name in Sizes._fields]


def _load():
    beside = os.path.join(os.path.dirname(os.path.abspath(__file__)), "libcore.so")
    path = os.environ.get("CORE_LIBRARY") or (beside if os.path.exists(beside) else "libcore.so")
    library = ctypes.CDLL(path)
    engine, size = ctypes.POINTER(_Engine), ctypes.c_size_t
    bytes_in, told = [ctypes.c_void_p, size], [ctypes.POINTER(_Fault), ctypes.c_char_p, size]
    for name, parameters in {
        "core_version": [],
        "core_open": [engine, *bytes_in, *told],
        "core_feed": [engine, *bytes_in, *told],
        "core_feed_some": [engine, *bytes_in, ctypes.POINTER(size), *told],
        "core_next": [engine, ctypes.POINTER(_Answer), ctypes.POINTER(ctypes.c_uint64), size],
        "core_hold": [engine, ctypes.c_uint64, ctypes.POINTER(ctypes.c_uint64)],
        "core_pull": [engine, ctypes.c_uint64, ctypes.POINTER(_Answer), ctypes.POINTER(ctypes.c_uint64), size],
        "core_drop": [engine, ctypes.c_uint64],
        "core_compact": [engine],
        "core_sizes": [engine, ctypes.c_uint64, ctypes.POINTER(_Sizes)],
        "core_close": [engine],
    }.items():
        getattr(library, name).argtypes = parameters
        getattr(library, name).restype = ctypes.c_int32
    if library.core_version() != VERSION:
        raise ImportError(f"{path} has another version of the calls")
    return library


_library = _load()


def _bytes(text):
    return text.encode() if isinstance(text, str) else bytes(text)


def _joined(lines):
    """The lines as bytes, with a line feed behind each; None where they are not all of one form."""
    nothing, line_feed = ("", "\n") if isinstance(lines[0], str) else (b"", b"\n")
    try:
        between = nothing if all(map(methodcaller("endswith", line_feed), lines)) else line_feed
        text = between.join(lines) + between
    except (AttributeError, TypeError):
        return None
    return _bytes(text) if text.count(line_feed) == len(lines) else None


class Engine:
    """An engine for the queries of a text. It is closed at the end of its `with`, or by close()."""

    def __init__(self, text):
        self._engine, self._fault, self._words = _Engine(), _Fault(), ctypes.create_string_buffer(512)
        self._answer, self._positions = _Answer(), (ctypes.c_uint64 * 16)()
        # No answer depends on the seed; nobody who sends events can guess it.
        self._engine.seed[0], self._engine.seed[1] = (int.from_bytes(os.urandom(8), "little") for _ in range(2))
        text = _bytes(text)
        self._see(_library.core_open(self._engine, text, len(text), *self._told()), QueryRefused)

    def __enter__(self):
        return self

    def __exit__(self, *_):
        self.close()

    def _told(self):
        return self._fault, self._words, len(self._words)

    def _see(self, status, refused=None):
        """Returns whether the call did what it was asked; raises what it could not do."""
        if status in (QUERY, EVENT):
            words = self._words.raw[: min(self._fault.words, len(self._words))].decode(errors="replace")
            raise refused(self._fault.line, self._fault.column, words.rstrip("\n"))
        if status == MEMORY:
            raise MemoryError("the engine has no memory")
        if status == MISUSE:
            raise ValueError("the engine is closed")
        return status == OK

    def feed(self, line):
        """Feeds one line, without its line feed. Its answers are given by answers()."""
        line = _bytes(line)
        return self._see(_library.core_feed(self._engine, line, len(line), *self._told()), LineRefused)

    def answers(self):
        """Gives the answers that are left at the last event, one after another."""
        return self._pulled(_library.core_next, self._engine)

    def hold(self, query):
        """Holds all answers of the query with this number, from 1, that end at the last event.

        They are given one after another, whatever is fed meanwhile, until they are closed, as at the end
        of a `with`. None where there is no such query, or no event yet. 64 may be held at a time.
        """
        cursor = ctypes.c_uint64()
        status = _library.core_hold(self._engine, query, cursor)
        if status == ROOM:
            raise MemoryError("64 are held")
        return Held(self, cursor.value) if self._see(status) else None

    def _pulled(self, call, *of):
        while True:
            status = call(*of, self._answer, self._positions, len(self._positions))
            if status == ROOM:
                self._positions = (ctypes.c_uint64 * self._answer.count)()
            elif self._see(status):
                answer = self._answer
                yield Answer(answer.query, answer.start, answer.end, tuple(self._positions[: answer.count]))
            else:
                return

    def feed_lines(self, lines):
        """Feeds the lines, and gives the answers as they come.

        The lines of a list or tuple are fed many a call, if each has a line feed at its end or none has one;
        other lines a call for each, as they come.
        """
        data = _joined(lines) if isinstance(lines, (list, tuple)) and lines else None
        if data is not None:
            yield from self.feed_bytes(data)
            return
        for line in lines:
            if self.feed(_bytes(line).rstrip(b"\n")):
                yield from self.answers()

    def feed_bytes(self, data):
        """Feeds the whole lines of the bytes, many a call, and gives the answers as they come.

        This is the fast way. Once it is at its end, `unused` has the bytes after the last line feed, which
        are to stand before what is fed next; after a LineRefused it begins with the line that is refused.
        """
        data = _bytes(data)
        room, used, at, status = ctypes.create_string_buffer(data, len(data)), ctypes.c_size_t(), 0, OK
        self.unused = data
        while status == OK:
            here = ctypes.addressof(room) + at
            status = _library.core_feed_some(self._engine, here, len(data) - at, used, *self._told())
            at += used.value
            self.unused = data[at:] if status != OK else b""
            if self._see(status, LineRefused):
                yield from self.answers()

    def compact(self):
        """Gives up what no window reaches any more."""
        self._see(_library.core_compact(self._engine))

    def sizes(self, query):
        """What is kept of the query with this number, from 1; None where there is no such query."""
        sizes = _Sizes()
        if not self._see(_library.core_sizes(self._engine, query, sizes)):
            return None
        return Sizes(*(getattr(sizes, name) for name in Sizes._fields))

    def close(self):
        """Frees what the engine has. It may be closed already."""
        _library.core_close(self._engine)


class Held:
    """The answers that an engine holds: an iterator, which is to be closed."""

    def __init__(self, engine, cursor):
        self._engine, self._cursor = engine, cursor
        self._answers = engine._pulled(_library.core_pull, engine._engine, cursor)

    def __enter__(self):
        return self

    def __exit__(self, *_):
        self.close()

    def __iter__(self):
        return self

    def __next__(self):
        return next(self._answers)

    def close(self):
        """Lets what is left go. It may be closed already."""
        self._answers.close()
        _library.core_drop(self._engine._engine, self._cursor)
