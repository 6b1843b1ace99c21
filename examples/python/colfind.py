"""Finds a pattern in text by Unicode collation (UTS #10), by the proved C library.

    table = Table(Path("allkeys_CLDR.txt").read_bytes())
    pattern = Pattern(table, "resume", strength=1)
    for start, end in pattern.search("my r\u00e9sum\u00e9"): ...

The library is the file libcolfind.so.1 beside this module, or else the one that the system finds by this name. An argument of a wrong type
or value gives a TypeError or a ValueError that names it; what is wrong with a table, a pattern or a text is a Fault.

Threads may share tables and patterns. A search that takes long lets the lock of the interpreter go, so that other threads run meanwhile. A
Search is in one call at a time: another one meanwhile is a RuntimeError."""
from __future__ import annotations

import operator
import os
from array import array
from bisect import bisect_right
from collections import deque
from collections.abc import Callable, Iterable, Iterator
from contextlib import suppress
from ctypes import (CDLL, POINTER, PyDLL, Structure, byref, c_char_p, c_int, c_size_t, c_ssize_t, c_uint8, c_uint32, c_uint64, c_void_p,
                    cast, create_string_buffer, py_object, pythonapi, string_at)
from enum import IntEnum
from hashlib import sha256
from itertools import accumulate, islice
from itertools import chain as one_by_one
from mmap import ACCESS_READ, mmap
from pathlib import Path
from threading import RLock
from typing import TYPE_CHECKING, Any, BinaryIO, Generic, TypeVar
from weakref import WeakValueDictionary

if TYPE_CHECKING:
    from concurrent.futures import Future

    from _typeshed import ReadableBuffer as Bytes

    _Some = tuple[array[int], Structure, int]
else:
    Bytes = object  # with bytes; each version of Python has another name for it

__all__ = ["Fault", "Kind", "Pattern", "Search", "Table"]
__version__ = "1.5.0"


def _struct(**fields: type) -> type[Structure]:
    return type("Struct", (Structure,), {"_fields_": list(fields.items())})


_Handle, _Range, _Status = _struct(at=c_void_p), _struct(start=c_uint64, end=c_uint64), _struct(kind=c_uint32, at=c_uint64)
_Saved, _First = _struct(status=_Status, words=c_size_t), _struct(status=_Status, is_found=c_uint32, range=_Range)
_All, _Equality = _struct(status=_Status, count=c_size_t), _struct(status=_Status, is_equal=c_uint32)
_Place = _struct(status=_Status, is_found=c_uint32, at=c_uint64)
_Buffer = _struct(buf=c_void_p, obj=c_void_p, len=c_ssize_t, itemsize=c_ssize_t, readonly=c_int, ndim=c_int, format=c_char_p,
                  shape=c_void_p, strides=c_void_p, suboffsets=c_void_p, internal=c_void_p)  # Py_buffer
Ranges = Iterator[tuple[int, int]]
_LIKE_BYTES = "bytes, or an object with bytes in one piece"
_TEXT = f"a str, {_LIKE_BYTES}"
_LEAST, _MOST = 1 << 12, 1 << 16  # the sizes of the first part of a text that is taken in parts, and of the later ones
_NEAR = 16  # how many characters are asked first for a safe one
_LONG = 1 << 12  # how many bytes a call has that lets the lock of the interpreter go: to get it back costs as much as a shorter one
_AHEAD, _MOST_JOINED = 512, 1 << 16  # how many texts are read, and searched by one call, and how many characters they have at most
_PART = 1 << 22  # the bytes of a part that one of some threads searches
_STEPS, _LEAST_STEP = 1 << 21, 1 << 16  # how many bytes some threads search at once by a call each, and how many one does at least
_MOST_HELD = 1 << 17  # how many numbers of a part a thread finds, and then those of one step more, before they are asked for
_Owning = TypeVar("_Owning", bound="_Owner")
_Given = TypeVar("_Given")
_FOLDER = Path(__file__).parent
_BESIDE = _FOLDER / "libcolfind.so.1"
_PATH = str(_BESIDE) if _BESIDE.exists() else _BESIDE.name
_C, _UNLOCKED = PyDLL(_PATH), CDLL(_PATH)  # a call by the second lets the lock of the interpreter go
_HANDLE, _BYTES = POINTER(_Handle), [c_char_p, c_size_t]
for _dll in _C, _UNLOCKED:
    for _name, _result, _types in [
        ("table", _Status, [_HANDLE, *_BYTES, *_BYTES]), ("pattern", _Status, [_HANDLE, _HANDLE, *_BYTES, c_uint8, c_uint8]),
        ("share", _Status, [_HANDLE, _HANDLE]), ("search", _Status, [_HANDLE, _HANDLE, c_uint8]),
        ("resume", _Status, [_HANDLE, _HANDLE, c_uint8, c_void_p, c_size_t]), ("feed", _Status, [_HANDLE, *_BYTES]),
        ("finish", _Status, [_HANDLE]), ("stop", _Status, [_HANDLE]), ("free", None, [_HANDLE]), ("pending", c_size_t, [_HANDLE]),
        ("take", c_size_t, [_HANDLE, c_void_p, c_size_t]), ("save", _Saved, [_HANDLE, c_void_p, c_size_t]),
        ("first_in", _First, [_HANDLE, *_BYTES, c_size_t]), ("all_in", _All, [_HANDLE, *_BYTES, c_void_p, c_size_t]),
        ("search_part", _Status, [_HANDLE, *_BYTES, c_size_t, c_size_t]),
        ("equal", _Equality, [_HANDLE, *_BYTES]), ("begins", _First, [_HANDLE, *_BYTES]), ("ends", _First, [_HANDLE, *_BYTES]),
        ("last_before", _First, [_HANDLE, *_BYTES, c_size_t]),
        ("next_safe", _Place, [_HANDLE, *_BYTES, c_size_t]), ("previous_safe", _Place, [_HANDLE, *_BYTES, c_size_t]),
        ("message", c_size_t, [_Status, c_char_p, c_size_t]),
    ]:
        try:
            _call = getattr(_dll, f"colfind_{_name}")
        except AttributeError as _fault:
            raise ImportError(f"{_PATH} is older than this module: {_fault}") from None
        _call.restype, _call.argtypes = _result, _types


def _many_texts(kind: type[CDLL]) -> CDLL | None:
    """The loops over many texts, where they were compiled for this machine."""
    try:
        many = kind(str(_FOLDER / "many_texts.so"))
    except OSError:
        return None
    many.many_first.argtypes = [c_void_p, _HANDLE, *_BYTES, c_size_t, c_int, c_void_p, c_void_p]
    many.many_all.argtypes = [*many.many_first.argtypes, c_size_t]
    many.many_first.restype = many.many_all.restype = c_size_t
    return many


_MANY, _MANY_UNLOCKED = _many_texts(PyDLL), _many_texts(CDLL)
_CALLS = (c_void_p * 2)(cast(_C.colfind_first_in, c_void_p), cast(_C.colfind_all_in, c_void_p))
# the handles of tables and patterns, and who has a search; in a process that was forked it is free
_LOCK = RLock()
os.register_at_fork(before=_LOCK.acquire, after_in_parent=_LOCK.release, after_in_child=_LOCK.release)


class Kind(IntEnum):
    """The numbers of faults, named as in colfind.h. A number that has no name here, of a newer library, is named by itself."""

    TABLE_MALFORMED_LINE = 1
    TABLE_BEYOND_UNICODE = 2
    TABLE_MAPPED_TWICE = 3
    TABLE_TOO_LONG = 4
    TABLE_BREAKS_WF1 = 5
    TABLE_BREAKS_WF2 = 6
    TABLE_BREAKS_WF3 = 7
    TABLE_BREAKS_WF4 = 8
    TABLE_BREAKS_WF5 = 9
    TABLE_BREAKS_PAIRS = 10
    TABLE_BAD_RANGE = 11
    TABLE_NO_ENTRY = 12
    TABLE_TOO_MANY_LINES = 13
    TABLE_NO_MEMORY = 14
    PATTERN_TOO_LONG = 21
    PATTERN_NO_KEY = 22
    PATTERN_LONG_RUN = 23
    PATTERN_NO_MEMORY = 24
    TEXT_ILL_FORMED = 31
    TEXT_LONG_RUN = 32
    TEXT_LONG_DECOMPOSITION = 33
    TEXT_TOO_LONG = 34
    TEXT_DECOMPOSITION_NO_MEMORY = 35
    TEXT_NO_MEMORY = 36
    STATE_MALFORMED = 51
    STATE_OF_ANOTHER = 52
    STATE_NO_MEMORY = 53
    TAILOR_MALFORMED_LINE = 61
    TAILOR_BEYOND_UNICODE = 62
    TAILOR_MAPPED_TWICE = 63
    TAILOR_TOO_LONG = 64
    TAILOR_BREAKS_WF1 = 65
    TAILOR_BREAKS_WF3 = 67
    TAILOR_BREAKS_PAIRS = 70
    TAILOR_BAD_RANGE = 71
    TAILOR_TOO_MANY_LINES = 73
    NO_MEMORY = 81
    WRONG_HANDLE = 82
    ENDED = 83
    SMALL_BUFFER = 84
    BAD_ARGUMENT = 85

    __str__ = int.__repr__

    def __format__(self, format_spec: str) -> str:
        return int.__format__(self, format_spec)

    @classmethod
    def _missing_(cls, value: object) -> Kind | None:
        if not isinstance(value, int):
            return None
        one = int.__new__(cls, value)
        one._name_, one._value_ = f"FAULT_{value}", value
        return one


class Fault(Exception):
    """A fault: its `kind`, and the line of a table or the offset in a text where it stands."""

    def __init__(self, kind: int, at: int) -> None:
        text = create_string_buffer(160)
        _C.colfind_message(_Status(kind, at), text, len(text))
        freed = "fault 82 at 0: it was freed at the end of a `with`"  # no other handle is wrong here
        super().__init__(freed if kind == Kind.WRONG_HANDLE else text.value.decode())
        self.kind, self.at = Kind(kind), at

    def __reduce__(self) -> tuple[type[Fault], tuple[Any, ...]]:
        return Fault, (int(self.kind), self.at)


_OF_CALLS = {Kind.NO_MEMORY, Kind.WRONG_HANDLE, Kind.ENDED}  # faults that no text has


def _check(status: Structure) -> None:
    if status.kind:
        raise Fault(status.kind, status.at)


def _range_of(first: Structure) -> tuple[int, int] | None:
    if first.is_found:
        return first.range.start, first.range.end
    _check(first.status)
    return None


def _then_fault(numbers: array[int], status: Structure) -> Ranges:
    yield from zip(numbers[::2], numbers[1::2])
    _check(status)


def _wrong_type(name: str, wanted: str, value: object) -> TypeError:
    return TypeError(f"{name} is {wanted}, not {type(value).__name__}")


def _typed(name: str, value: object, wanted: type) -> None:
    if not isinstance(value, wanted):
        raise _wrong_type(name, f"a {wanted.__name__}", value)


def _number(name: str, value: int) -> int:
    try:
        return operator.index(value)
    except TypeError:
        raise _wrong_type(name, "a number", value) from None


def _above_0(name: str, value: int) -> int:
    if _number(name, value) <= 0:
        raise ValueError(f"{name} is above 0, not {value}")
    return int(value)


def _offset(start: int, length: int, name: str = "start") -> int:
    if type(start) is not int:
        start = _number(name, start)
    if not 0 <= start <= length:
        raise ValueError(f"{name} is {start}, and the text has the offsets 0 to {length}")
    return start


def _offset_or_end(at: int | None, length: int) -> int:
    return length if at is None else _offset(at, length, "at")


class _View(c_char_p):
    """The bytes of an object from one on, where they are. They stay there until this is let go."""

    def __init__(self, name: str, data: Bytes, wanted: str, at: int = 0) -> None:
        self.buffer = _Buffer()
        try:
            pythonapi.PyObject_GetBuffer(py_object(data), byref(self.buffer), 0)
        except (TypeError, BufferError):
            raise _wrong_type(name, wanted, data) from None
        self.length = max(0, self.buffer.len - at)
        owner = data.obj if isinstance(data, memoryview) else data
        self.is_fixed = isinstance(owner, bytes) or isinstance(owner, mmap) and memoryview(owner).readonly  # no thread can change them
        super().__init__(self.buffer.buf + at if self.length else b"")

    def release(self, release: Any = pythonapi.PyBuffer_Release, address_of: Any = byref) -> None:
        release(address_of(self.buffer))

    __del__ = release


def _over(name: str, data: Bytes, call: Callable[[bytes | _View, int], _Given], wanted: str = _LIKE_BYTES) -> _Given:
    """What a call gives over bytes, and how many they are. They are let go then, also where it raises something."""
    if type(data) is bytes:
        return call(data, len(data))
    view = _View(name, data, wanted)
    try:
        return call(view, view.length)
    finally:
        view.release()


def _copied(name: str, data: Bytes, wanted: str = _LIKE_BYTES) -> bytes:
    """The bytes themselves, or a copy of those of another object."""
    return _over(name, data, lambda view, length: view if isinstance(view, bytes) else string_at(view, length), wanted)


def _library(data: bytes | _View, length: int) -> CDLL:
    """What a call over bytes is made by. A long one lets the lock of the interpreter go, where no other thread can change the bytes."""
    return _C if length < _LONG or isinstance(data, _View) and not data.is_fixed else _UNLOCKED


def _loops(data: bytes) -> Any:
    return _MANY if len(data) < _LONG else _MANY_UNLOCKED


def _exact(text: str) -> str:
    """A str that is nothing else: another class may say something else of its characters."""
    return text if type(text) is str else str.__str__(text)


def _encoded(text: str) -> bytes:
    return text.encode("utf-8", "surrogatepass")


def _characters_in(data: bytes) -> int:
    return len(data.decode("utf-8", "surrogatepass"))


def _characters_of(text: str, start: int) -> Callable[[int], int]:
    """The offsets of characters from those of bytes behind one character, which rise from call to call."""
    if text.isascii():
        return start.__add__
    count, part, at, end, size = start, b"", 0, 0, _LEAST  # a part of the text, the place in it, and where it ends

    def character(place: int) -> int:
        nonlocal count, part, at, end, size
        while place > end:
            count += _characters_in(part[at:])
            part, at, size = _encoded(text[count:count + size]), 0, min(2 * size, _MOST)
            end += len(part)
        begin, at = at, len(part) - (end - place)
        count += _characters_in(part[begin:at])
        return count
    return character


def _moved(fault: Fault, place: Callable[[int], int]) -> Fault:
    """A fault of a text elsewhere; one of a call stands nowhere."""
    return Fault(fault.kind, place(fault.at)) if fault.kind < Kind.TEXT_NO_MEMORY else fault


def _in_characters(text: str, ranges: Ranges, start: int = 0) -> Ranges:
    """The ranges of what stands behind a character and the fault behind them, in characters of the text instead of bytes from there."""
    start_of, end_of = _characters_of(text, start), _characters_of(text, start)
    try:
        yield from ((start_of(start), end_of(end)) for start, end in ranges)
    except Fault as fault:
        raise _moved(fault, start_of) from None


def _joined(texts: list[Any]) -> tuple[bytes, bool] | None:
    """Texts with a zero byte between two, and whether they count in characters. None where one has such a byte, or they are no texts of
    one kind."""
    try:
        try:
            text = "\0".join(texts)
        except TypeError:
            data, in_characters = b"\0".join(texts), False
        else:
            data, in_characters = _encoded(text), not text.isascii()
    except Exception:  # of an object that is no text: the call for it alone says what is wrong
        return None
    return (data, in_characters) if data.count(0) == len(texts) - 1 else None


def _fitting(texts: list[Any]) -> int:
    """How many of them, from the first on, are searched by one call: those with no more characters than it may have."""
    with suppress(Exception):  # of an object that is no text
        return bisect_right(list(accumulate(map(len, texts))), _MOST_JOINED)
    return len(texts)


def _raised(wrong: Exception) -> Any:
    raise wrong


class _Ahead(Generic[_Given]):
    """The answers of many texts, those of some at a time: `some` gives the first of them, and `one` that of each other text."""

    def __init__(self, texts: Iterator[Any], one: Callable[[Any], _Given], some: Callable[[list[Any]], list[_Given]]) -> None:
        self.texts, self.one, self.some, self.read, self.wrong = texts, one, some, list[Any](), list[Exception]()

    def __iter__(self) -> Iterator[Iterable[_Given]]:
        return self

    def __next__(self) -> Iterable[_Given]:
        self.read_on()
        if not self.read:
            if not self.wrong:
                raise StopIteration
            return map(_raised, [self.wrong.pop()])  # the texts behind it are read then
        count, answers = _fitting(self.read), list[_Given]()
        texts, self.read = self.read[:count or 1], self.read[count or 1:]
        if count:
            with suppress(Fault, MemoryError):  # of a call, as where memory is refused: those for one text say it again
                answers = self.some(texts)
        return one_by_one(answers, map(self.one, texts[len(answers):])) if len(answers) < len(texts) else answers

    def read_on(self) -> None:
        """Reads the next texts, and what the iterable raises behind them."""
        if not self.read and not self.wrong:
            try:
                self.read.extend(islice(self.texts, _AHEAD))
            except Exception as wrong:
                self.wrong.append(wrong)


def _many(texts: Iterable[Any], one: Callable[[Any], _Given], some: Callable[[list[Any]], list[_Given]]) -> Iterator[_Given]:
    if isinstance(texts, str) or not isinstance(texts, Iterable):
        raise _wrong_type("texts", "an iterable of texts", texts)
    return one_by_one.from_iterable(_Ahead(iter(texts), one, some)) if _MANY else map(one, texts)


class _Owner:
    """Holds a handle, which is freed at the end of a `with`, or when nothing refers to it. So a copy must be made anew."""

    _handle = _Handle()  # of one that was not made, as by a wrong argument

    def __init__(self) -> None:
        self._handle = _Handle()

    def __enter__(self: _Owning) -> _Owning:
        return self

    def __exit__(self, *_: object) -> None:
        with _LOCK:
            _C.colfind_free(self._handle)

    def __del__(self, library: PyDLL = _C) -> None:
        library.colfind_free(self._handle)

    def __reduce_ex__(self, _: object) -> tuple[Any, ...]:
        raise TypeError(f"a {type(self).__name__} can't be copied or pickled: save it")

    def _shared(self) -> _Owner:
        """A second handle for the table or the pattern that it holds: for a call that may be long."""
        own = _Owner()
        with _LOCK:
            _check(_C.colfind_share(self._handle, own._handle))
        return own

    def _place(self, call: Callable[..., Structure], data: bytes | _View, length: int, offset: int) -> int | None:
        with _LOCK:
            place = call(self._handle, data, length, offset)
        _check(place.status)
        return place.at if place.is_found else None

    def _next_safe(self, text: str, start: int) -> int | None:
        size = _NEAR
        while True:
            data = _encoded(text[start:start + size])
            place = self._place(_C.colfind_next_safe, data, len(data), 0)
            if place is not None:
                return start + _characters_in(data[:place])
            start, size = start + size, min(2 * size, _MOST)
            if start >= len(text):
                return None

    def _previous_safe(self, text: str, before: int) -> int | None:
        size = _NEAR
        while True:
            start = max(0, before - size)
            data = _encoded(text[start:before])
            place = self._place(_C.colfind_previous_safe, data, len(data), len(data))
            if place is not None:
                return start + _characters_in(data[:place])
            before, size = start, min(2 * size, _MOST)
            if before == 0:
                return None


class Table(_Owner):
    """The table of a file's bytes, and of a file's that tailors it.

    It keeps the bytes, 2 MB of CLDR's file, for they are what is pickled; those of another object than bytes are copied. A table that is
    sent to a process again and again is read there once, for the last four are kept, and one that is still there is taken."""

    def __init__(self, base: Bytes, tailor: Bytes = b"") -> None:
        super().__init__()
        self._files, self._digest = (_copied("base", base), _copied("tailor", tailor)), b""
        _check(_UNLOCKED.colfind_table(self._handle, self._files[0], len(self._files[0]), self._files[1], len(self._files[1])))

    def __reduce_ex__(self, _: object) -> tuple[Any, ...]:
        self._digest = self._digest or b"".join(sha256(file).digest() for file in self._files)
        if self._handle.at and type(self) is Table:
            _TABLES.setdefault(self._digest, self)
        return (_sent_table, (self._digest, *self._files)) if type(self) is Table else (type(self), self._files)

    def next_safe(self, text: str | Bytes, start: int = 0) -> int | None:
        """The nearest offset, from `start` on, from which a search with this table finds what the whole text has from there on, whatever
        stands before and behind the character there; or None. Of a str it reads, and encodes, no more than twice the way to it."""
        if not isinstance(text, str):
            return _over("text", text, lambda data, length: self._place(_C.colfind_next_safe, data, length, _offset(start, length)), _TEXT)
        text = _exact(text)
        return self._next_safe(text, _offset(start, len(text)))

    def previous_safe(self, text: str | Bytes, before: int) -> int | None:
        """The same before an offset, the last one there is. None says that a search begins at 0."""
        if not isinstance(text, str):
            return _over("text", text,
                         lambda data, length: self._place(_C.colfind_previous_safe, data, length, _offset(before, length, "before")), _TEXT)
        text = _exact(text)
        return self._previous_safe(text, _offset(before, len(text), "before"))


_TABLES: WeakValueDictionary[bytes, Table] = WeakValueDictionary()  # by their digests: those that were pickled, or came so
_SENT: deque[Table] = deque(maxlen=4)


def _sent_table(digest: bytes, base: bytes, tailor: bytes) -> Table:
    table = _TABLES.get(digest)
    if table is None or not table._handle.at:  # or it was freed
        table = _TABLES[digest] = Table(base, tailor)
        _SENT.append(table)
    return table


class Pattern(_Owner):
    """A pattern, compiled with a table at strength 1, 2 or 3. Searches that it has begun go on where it is freed. It is pickled by what it
    was made of, with its table."""

    def __init__(self, table: Table, text: str | Bytes, strength: int = 3, shifted: bool = False) -> None:
        super().__init__()
        _typed("table", table, Table)
        _typed("shifted", shifted, bool)
        if _number("strength", strength) not in (1, 2, 3):
            raise ValueError(f"strength is 1, 2 or 3, not {strength}")
        data = _encoded(_exact(text)) if isinstance(text, str) else _copied("text", text, _TEXT)
        self._made_of = table, data, int(strength), shifted
        own = table._shared()
        library = _C if len(data) < _LONG // 32 else _UNLOCKED  # a byte of a pattern takes as long as many of a text
        status = library.colfind_pattern(own._handle, self._handle, data, len(data), strength, shifted)
        if status.kind == Kind.BAD_ARGUMENT:
            raise ValueError("text is not UTF-8")
        _check(status)
        self._spare = [Search(self)], list[Search]()  # that no thread has: all ranges, and a chain

    def __exit__(self, *_: object) -> None:
        super().__exit__()
        searches, self._spare = self._spare, ([], [])
        for spare in searches:
            with suppress(IndexError):  # at its end; what another thread takes meanwhile is freed when that has used it
                while True:
                    spare.pop().__exit__()

    def __reduce_ex__(self, _: object) -> tuple[Any, ...]:
        return type(self), self._made_of

    def _lent(self, spare: list[Search], chain: bool = False) -> Search:
        """A search that no other thread has. A call gives it back to where it was taken from, which is of no pattern that was freed."""
        try:
            return spare.pop()
        except IndexError:
            return Search(self, chain)

    def search(self, text: str | Bytes, chain: bool = False) -> Ranges:
        """The ranges of a text, all or a chain that do not overlap: offsets of characters in a str, of bytes in bytes. They are given as
        they become known, and a long text is read meanwhile, in parts. A fault of the text is raised behind the ranges before it."""
        _typed("chain", chain, bool)
        if isinstance(text, str):
            text = _exact(text)
            ranges = self._at_once(_encoded(text), chain) if len(text) <= _LEAST else Search(self, chain)._through(text)
            return ranges if text.isascii() else _in_characters(text, ranges)
        is_short = _over("text", text, lambda _, length: length <= _LEAST, _TEXT)
        return self._at_once(text, chain) if is_short else Search(self, chain)._through(text)

    def _at_once(self, text: Bytes, chain: bool) -> Ranges:
        spare = self._spare[chain]
        search = self._lent(spare, chain)
        try:
            return _then_fault(*_over("text", text, search._all))
        finally:
            spare.append(search)

    def index(self, text: str | Bytes, start: int = 0) -> tuple[int, int] | None:
        """The first range at or after an offset, or None."""
        if type(text) is bytes:
            return self._first(text, len(text), _offset(start, len(text)))
        if not isinstance(text, str):
            return _over("text", text, lambda data, length: self._first(data, length, _offset(start, length)), _TEXT)
        text = _exact(text)
        start = _offset(start, len(text))
        if len(text) - start > _MOST:
            return self._first_in_parts(text, start)
        data = _encoded(text[start:])
        try:
            found = self._first(data, len(data), 0)
        except Fault as fault:
            raise _moved(fault, _characters_of(text, start)) from None
        if not found or not start and len(data) == len(text):
            return found
        place = _characters_of(text, start)
        return place(found[0]), place(found[1])

    def fullmatch(self, text: str | Bytes) -> bool:
        """Whether the whole text is equal to the pattern, by their sort keys. It stops behind the first letter that differs."""
        return bool(self._of_whole("colfind_equal", text).is_equal)

    def match(self, text: str | Bytes) -> tuple[int, int] | None:
        """The shortest match that begins where the text begins, as 0 and its end, or None. It stops where that is decided."""
        found = _range_of(self._of_whole("colfind_begins", text))
        return (0, _characters_of(_exact(text), 0)(found[1])) if found and isinstance(text, str) else found

    def ends(self, text: str | Bytes) -> tuple[int, int] | None:
        """The shortest match that ends where the text ends, as its start and the length of the text, or None. It goes back from there to a
        safe offset before a range, or before more letters than the pattern has, and what stands before costs nothing. The last fault of the
        text is raised, where no match ends behind it and no more letters stand there than the pattern has."""
        if not isinstance(text, str):
            return _over("text", text, lambda data, length: _range_of(self._asked("colfind_ends", data, length)), _TEXT)
        text = _exact(text)
        start, size = len(text), _LEAST
        while True:
            start = self._previous_safe(text, max(0, start - size)) or 0
            front = b"\xff" if start else b""  # no UTF-8: where it is told as the fault, what stands before it decides
            data = front + _encoded(text[start:])
            try:
                found = _range_of(self._asked("colfind_ends", data, len(data)))
            except Fault as fault:
                if not front or (fault.kind, fault.at) != (Kind.TEXT_ILL_FORMED, 0):
                    raise _moved(Fault(fault.kind, max(0, fault.at - len(front))), _characters_of(text, start)) from None
                size *= 2
                continue
            return (len(text) - _characters_in(data[found[0]:]), len(text)) if found else None

    def last_before(self, text: str | Bytes, at: int | None = None) -> tuple[int, int] | None:
        """The last range that ends at an offset or before it, by default the end of the text, or None. It goes back from there to a safe
        offset before a range: a fault there is raised, and what stands before costs nothing."""
        if not isinstance(text, str):
            return _over("text", text, lambda data, length: self._last(data, length, _offset_or_end(at, length)), _TEXT)
        text = _exact(text)
        at = _offset_or_end(at, len(text))
        behind, start, size = _encoded(text[at:self._next_safe(text, at)]), at, _LEAST
        while True:
            start = self._previous_safe(text, max(0, start - size)) or 0
            front, place = _encoded(text[start:at]), _characters_of(text, start)
            try:
                found = self._last(front + behind, len(front) + len(behind), len(front))
            except Fault as fault:
                raise _moved(fault, place) from None
            if found or start == 0:
                return (place(found[0]), place(found[1])) if found else None
            size *= 2

    def _last(self, data: bytes | _View, length: int, at: int) -> tuple[int, int] | None:
        return _range_of(self._asked("colfind_last_before", data, length, at))

    def _of_whole(self, name: str, text: str | Bytes) -> Structure:
        if not isinstance(text, str):
            answer = _over("text", text, lambda data, length: self._asked(name, data, length), _TEXT)
            _check(answer.status)
            return answer
        text = _exact(text)
        told = self._of_front(name, text) if len(text) > _LEAST else None
        if told is None:
            data = _encoded(text)
            told = self._asked(name, data, len(data))
        if told.status.kind:
            raise _moved(Fault(told.status.kind, told.status.at), _characters_of(text, 0))
        return told

    def _of_front(self, name: str, text: str) -> Structure | None:
        """The answer to a long text where its front decides it, up to a safe offset: else a byte there that is no UTF-8 is told."""
        front = _encoded(text[:_LEAST])
        end = self._place(_C.colfind_previous_safe, front, len(front), len(front)) or 0
        answer = self._asked(name, front[:end] + b"\xff", end + 1)
        return None if (answer.status.kind, answer.status.at) == (Kind.TEXT_ILL_FORMED, end) else answer

    def _asked(self, name: str, data: bytes | _View, length: int, *at: int) -> Structure:
        library = _library(data, length)
        call: Callable[..., Structure] = getattr(library, name)
        if library is _C:
            with _LOCK:
                return call(self._handle, data, length, *at)
        own = self._shared()
        return call(own._handle, data, length, *at)

    def _first(self, data: bytes | _View, length: int, start: int) -> tuple[int, int] | None:
        spare = self._spare[False]
        search = self._lent(spare)
        try:
            return search._first(data, length, start)
        finally:
            spare.append(search)

    def _first_in_parts(self, text: str, start: int) -> tuple[int, int] | None:
        spare = self._spare[False]
        search = self._lent(spare)
        found = next(_in_characters(text, search._through(text, start), start), None)
        with suppress(Fault):  # where it is finished
            search._first(b"", 0, 0)  # so that it is at the beginning of a text
            spare.append(search)
        return found

    def index_many(self, texts: Iterable[str | Bytes]) -> Iterator[tuple[int, int] | None]:
        """The first range of each text, or None: what `map(pattern.index, texts)` gives, at the price of calls in C. Up to 512 texts are
        read ahead, so none may change meanwhile. A fault is raised in the place of the answer of its text, and the next answer is that of
        the text behind. What is given serves one thread."""
        return _many(texts, self.index, self._firsts_of)

    def _firsts_of(self, texts: list[Any]) -> list[tuple[int, int] | None]:
        joined = _joined(texts)
        if not joined:
            return []
        spare = self._spare[False]
        search = self._lent(spare)
        try:
            count, numbers = search._many_first(*joined, len(texts))
        finally:
            spare.append(search)
        firsts: list[tuple[int, int] | None] = [None] * count
        for text, found in zip(numbers[::3], zip(numbers[1::3], numbers[2::3])):
            firsts[text] = found
        return firsts

    def search_many(self, texts: Iterable[str | Bytes], chain: bool = False) -> Iterator[list[tuple[int, int]]]:
        """A list of the ranges of each text, all or a chain. The texts are read, and faults raised, as by `index_many`."""
        _typed("chain", chain, bool)
        return _many(texts, lambda text: list(self.search(text, chain)), lambda some: self._ranges_of(some, chain))

    def _ranges_of(self, texts: list[Any], chain: bool) -> list[list[tuple[int, int]]]:
        joined = _joined(texts)
        if not joined:
            return []
        spare = self._spare[chain]
        search = self._lent(spare, chain)
        try:
            counts, numbers = search._many_all(*joined, len(texts))
        finally:
            spare.append(search)
        ranges = list(zip(numbers[::2], numbers[1::2]))
        return [ranges[end - count:end] if count else [] for count, end in zip(counts, accumulate(counts))]

    def resume(self, words: Iterable[int], chain: bool = False) -> Search:
        """The search that goes on from `Search.save`."""
        return Search(self, chain, words)

    def search_part(self, text: Bytes, start: int, end: int) -> Ranges:
        """The ranges that begin in a part of a text, as offsets from the beginning of the text. Both ends of the part are moved to the next
        safe offset, where a text may be cut; 0 and the end of the text stay. So the parts of a text that was cut anywhere have, one behind
        the other and up to the first fault, the ranges of the text. A fault is raised that stands where the part ends, or before."""
        spare = self._spare[False]
        search = self._lent(spare)
        found = _over("text", text, lambda data, length: search._between(data, length, start, end))
        spare.append(search)  # not where an error is raised: ranges may wait there
        return _then_fault(*found)

    def search_parallel(self, text: Bytes | os.PathLike[str], workers: int | None = None, chain: bool = False,
                        part_bytes: int = _PART) -> Ranges:
        """What `search` gives of bytes, or of those of a file, which is mapped, by threads: as many as there are processors, or `workers`.
        Each searches a part at a time. Ranges and a fault come in order, and at most two parts a thread are ahead of them; of a part with
        many ranges the first ones alone. What a thread raises is raised in the place of its part. Where it is interrupted or closed, it
        waits for what is being searched."""
        _typed("chain", chain, bool)
        count = len(os.sched_getaffinity(0)) if workers is None else _above_0("workers", workers)
        size, data = _above_0("part_bytes", part_bytes), _mapped(text) if isinstance(text, os.PathLike) else text
        view = _View("text", data, f"a Path, {_LIKE_BYTES}")
        if count == 1 or view.length <= size:
            return Search(self, chain)._through(data)
        ranges = _of_parts(view, Search(self), [Search(self) for _ in range(count)], size)
        return _chained(ranges) if chain else ranges


def _mapped(path: os.PathLike[str]) -> Bytes:
    """The bytes of a file. One without a size, as a pipe, is read."""
    with open(path, "rb") as file:
        return mmap(file.fileno(), 0, access=ACCESS_READ) if os.fstat(file.fileno()).st_size else file.read()


def _chained(ranges: Ranges) -> Ranges:
    """Of all ranges those that each begin at or after the end of the one before."""
    behind = 0
    for start, end in ranges:
        if start >= behind:
            yield start, end
            behind = end


def _some_of(search: Search, view: _View, start: int, end: int, step: int) -> _Some:
    """The numbers of the ranges of a part, the fault behind them, and where the part goes on: at its end, or where there are many."""
    numbers, status, at = array("Q"), _Status(0, 0), start
    try:
        while at < end and len(numbers) < _MOST_HELD and not status.kind:
            stop = search._safe(view, view.length, at + step) if at + step < end else end
            some, status = search._part(view, view.length, at, stop)
            numbers += some
            at = stop
    except Exception as wrong:
        getattr(wrong, "add_note", str)(f"of the bytes {start} to {end} of the text")
        raise
    return numbers, status, at


def _of_parts(view: _View, own: Search, searches: list[Search], size: int) -> Ranges:
    """The ranges of a text by as many threads as there are searches, from parts that begin at safe offsets. These are found by a search of
    its own, which goes on where a thread found many ranges."""
    from concurrent.futures import ThreadPoolExecutor  # which takes long to import

    def found(start: int, end: int) -> _Some:
        search = searches.pop()
        try:
            return _some_of(search, view, start, end, step)
        finally:
            searches.append(search)

    pool, most, end, step = ThreadPoolExecutor(len(searches)), 2 * len(searches), 0, max(_LEAST_STEP, _STEPS // len(searches))
    waiting: deque[tuple[Future[_Some], int]] = deque()
    try:
        while end < view.length or waiting:
            while end < view.length and len(waiting) < most:
                start, end = end, own._safe(view, view.length, min(end + size, view.length))
                waiting.append((pool.submit(found, start, end), end))
            first, behind = waiting.popleft()
            numbers, status, at = first.result()
            yield from _then_fault(numbers, status)
            while at < behind:
                numbers, status, at = _some_of(own, view, at, behind, step)
                yield from _then_fault(numbers, status)
    finally:
        pool.shutdown(cancel_futures=True)
        view.release()


class Search(_Owner):
    """A search that is fed with the bytes of a text, cut anywhere. Its ranges are in bytes from the beginning of the text. Where a call
    has both ranges and a fault, the fault is raised behind them."""

    _is_taken = _is_freed = False  # by a call; at the end of a `with`

    def __init__(self, pattern: Pattern, chain: bool = False, words: Iterable[int] | None = None) -> None:
        super().__init__()
        _typed("pattern", pattern, Pattern)
        _typed("chain", chain, bool)
        self._room = array("Q", [0])
        if words is None:
            with _LOCK:
                _check(_C.colfind_search(pattern._handle, self._handle, chain))
            return
        try:
            numbers = array("Q", list(words))
        except OverflowError:
            raise ValueError("words has a number that is not from 0 to 2^64 - 1") from None
        except TypeError:
            raise _wrong_type("words", "a list of numbers", words) from None
        held = numbers or self._room  # never nowhere
        with _LOCK:
            _check(_C.colfind_resume(pattern._handle, self._handle, chain, held.buffer_info()[0], len(numbers)))

    def __exit__(self, *_: object) -> None:
        with _LOCK:
            self._is_freed = True
            if not self._is_taken:  # else at the end of the call that has it
                _C.colfind_free(self._handle)

    def _alone(self, call: Callable[..., _Given], *words: Any) -> _Given:
        """What a call gives that has the search alone."""
        is_mine = False
        try:
            with _LOCK:
                if self._is_taken:
                    raise RuntimeError("a Search is in one call at a time, and this one is in another, as of another thread")
                self._is_taken = is_mine = True
            return call(*words)
        finally:
            if is_mine:
                self._is_taken = False
                if self._is_freed:
                    self.__exit__()

    def _taken(self, status: Structure) -> Ranges:
        if status.kind in _OF_CALLS:
            _check(status)
        numbers = self._waiting()
        return _then_fault(numbers, status) if numbers or status.kind else iter(())

    def _waiting(self) -> array[int]:
        """The numbers of the ranges that wait, which are taken."""
        count = _C.colfind_pending(self._handle)
        numbers: array[int] = array("Q", [0]) * (2 * count)
        if count:
            _C.colfind_take(self._handle, numbers.buffer_info()[0], count)
        return numbers

    def _fed(self, data: bytes | _View, length: int) -> Ranges:
        return self._taken(_library(data, length).colfind_feed(self._handle, data, length))

    def _finished(self) -> Ranges:
        return self._taken(_C.colfind_finish(self._handle))

    def _through(self, text: str | Bytes, at: int = 0) -> Ranges:
        """The ranges of a text, which is fed in parts. While they are given no part is held."""
        size, ranges = _LEAST, self._fed_part(text, at, _LEAST)
        while ranges is not None:
            yield from ranges
            at, size = at + size, min(2 * size, _MOST)
            ranges = self._fed_part(text, at, size)
        yield from self._finished()

    def _fed_part(self, text: str | Bytes, at: int, size: int) -> Ranges | None:
        if isinstance(text, str):
            data = _encoded(text[at:at + size])
        elif type(text) is bytes:
            data = text[at:at + size]
        else:
            view = _View("text", text, _TEXT, at)
            try:
                return self._fed(view, min(size, view.length)) if view.length else None
            finally:
                view.release()
        return self._fed(data, len(data)) if data else None

    def feed(self, piece: Bytes) -> Ranges:
        """Takes the next piece: the ranges that became known. Fault 81 says that memory was refused after `at` bytes of the piece: the
        next call, with the others, gives their ranges too."""
        if type(piece) is bytes:
            return self._alone(self._fed, piece, len(piece))
        return _over("piece", piece, lambda data, length: self._alone(self._fed, data, length))

    def feed_file(self, file: BinaryIO, size: int = 1 << 16) -> Ranges:
        """Takes the rest of an open file, and ends the text: the ranges as they become known."""
        return self._of_file(file, _above_0("size", size))

    def _of_file(self, file: BinaryIO, size: int) -> Ranges:
        while _over("piece", piece := file.read(size), lambda _, length: length):
            yield from self.feed(piece)
        yield from self.finish()

    def finish(self) -> Ranges:
        """Ends the text: the rest of the ranges."""
        return self._alone(self._finished)

    def stop(self) -> Ranges:
        """Gives the text up: the ranges before the end of its last whole character."""
        return self._alone(lambda: self._taken(_C.colfind_stop(self._handle)))

    def first_in(self, text: Bytes, start: int = 0) -> tuple[int, int] | None:
        """The first range of a text at or after an offset, or None. What was fed before is given up."""
        if type(text) is bytes:
            return self._alone(self._first, text, len(text), _offset(start, len(text)))
        return _over("text", text, lambda data, length: self._alone(self._first, data, length, _offset(start, length)))

    def _first(self, data: bytes | _View, length: int, start: int) -> tuple[int, int] | None:
        first = (_C if length < _LONG else _library(data, length)).colfind_first_in(self._handle, data, length, start)
        if first.is_found:
            return first.range.start, first.range.end
        _check(first.status)
        return None

    def _room_for(self, count: int) -> int:
        """Where there is room for so many numbers."""
        if len(self._room) < count:
            self._room = array("Q", bytes(8 * count))
        return self._room.buffer_info()[0]

    def _all(self, data: bytes | _View, length: int) -> tuple[array[int], Structure]:
        """The numbers of all ranges of a text, of which at most one begins at a byte, and how the call has ended."""
        found = _library(data, length).colfind_all_in(self._handle, data, length, self._room_for(2 * length), length)
        return self._room[:2 * found.count], found.status

    def _safe(self, data: bytes | _View, length: int, at: int) -> int:
        """The first safe offset at or behind one, else the end of the text."""
        found = _library(data, length - at).colfind_next_safe(self._handle, data, length, at)
        _check(found.status)
        return int(found.at) if found.is_found else length

    def _between(self, data: bytes | _View, length: int, start: int, end: int) -> tuple[array[int], Structure]:
        """The same as `_part` between the safe offsets at or behind two offsets."""
        if not 0 <= _number("start", start) <= _number("end", end) <= length:
            raise ValueError(f"start and end are {start} and {end}, and the text has the offsets 0 to {length}")
        start, end = _number("start", start), _number("end", end)
        start = self._safe(data, min(end + 3, length), start) if start else 0  # a character may stand over the end
        if 0 < end <= start:
            return array("Q"), _Status(0, 0)
        return self._part(data, length, start, self._safe(data, length, end) if end else 0)

    def _part(self, data: bytes | _View, length: int, start: int, end: int) -> tuple[array[int], Structure]:
        """The numbers of the ranges that begin in a part of a text, and how the call has ended."""
        status = _library(data, end - start).colfind_search_part(self._handle, data, length, start, end)
        return self._waiting(), status

    def _many_first(self, data: bytes, in_characters: bool, count: int) -> tuple[int, array[int]]:
        """How many texts were searched, up to one with a fault, and of each that has a range its number and the first range."""
        loops, found = _loops(data), c_size_t()
        room = self._room_for(3 * count)
        done = loops.many_first(_CALLS, self._handle, data, len(data), count, in_characters, room, byref(found))
        return done, self._room[:3 * found.value]

    def _many_all(self, data: bytes, in_characters: bool, count: int) -> tuple[array[int], array[int]]:
        """How many ranges each text has, up to one with a fault, and the ranges."""
        loops, counts = _loops(data), array("Q", bytes(8 * count))
        room = self._room_for(2 * len(data))
        done = loops.many_all(_CALLS, self._handle, data, len(data), count, in_characters, counts.buffer_info()[0], room, len(data))
        counts = counts[:done]
        return counts, self._room[:2 * sum(counts)]

    def save(self) -> list[int]:
        """The search as words, from which `Pattern.resume` goes on, in this process or another one."""
        return self._alone(self._saved)

    def _saved(self) -> list[int]:
        saved = _C.colfind_save(self._handle, self._room_for(1), len(self._room))
        if saved.status.kind == Kind.SMALL_BUFFER:
            saved = _C.colfind_save(self._handle, self._room_for(saved.words), saved.words)
        _check(saved.status)
        return self._room[:saved.words].tolist()
