"""Finds patterns in many files, on many machines, by Dask (2022.12 or later), which the module colfind does not need.

    with Client("tcp://scheduler:8786"):
        matches = bag(["/corpus/a.txt", "/corpus/b.txt"], pattern)
        print(forms(matches).compute())

A large file is searched in parts, each wherever a worker is free; together they have the matches of one search. The workers open the files
by the same paths as the caller. A pattern travels to each worker once, with its table, which a process reads once."""
from __future__ import annotations

import os
import re
import unicodedata
from collections import Counter
from collections.abc import Iterable, Iterator, Sequence
from functools import partial
from itertools import chain
from mmap import ACCESS_READ, mmap
from typing import TYPE_CHECKING, Any, NamedTuple
from uuid import uuid4

import dask
from dask.bag import Bag, Item
from dask.highlevelgraph import HighLevelGraph

from colfind import Fault, Kind, Pattern

if TYPE_CHECKING:
    from _typeshed import ReadableBuffer as Bytes

__all__ = ["FileFault", "Match", "bag", "counts", "form_of", "forms", "matches_of"]
_PART, _CONTEXT = 1 << 26, 40
_ADDED = 8  # how many tables of counts are added at once
_WITHOUT_BLANKS = re.compile(  # letters of scripts that put none between words
    "[\u0e00-\u0eff\u1000-\u109f\u1780-\u17ff\u2e80-\u31ff\u3400-\u9fff\ua9e0-\uaa7f\uf900-\ufaff\U00020000-\U0003ffff]")


class Match(NamedTuple):
    """A match amid its text, with offsets of bytes. One with words in `fault` is none: a fault stands at `start`."""

    path: str
    pattern: str
    start: int
    end: int
    before: str
    match: str
    after: str
    fault: str = ""


class FileFault(Fault):
    """A fault, and the file that has it."""

    def __init__(self, kind: int, at: int, path: str) -> None:
        super().__init__(kind, at)
        self.path, self.args = path, (f"{path}: {self}",)

    def __reduce__(self) -> tuple[type[Fault], tuple[Any, ...]]:
        return FileFault, (int(self.kind), self.at, self.path)


class _Part(NamedTuple):
    """What stands in a file between two offsets, or from one on."""

    path: str
    start: int
    end: int | None


def bag(paths: Iterable[str | os.PathLike[str]], pattern: Pattern | Sequence[Pattern], context: int = _CONTEXT, part_bytes: int = _PART,
        faults: str = "raise") -> Bag:
    """All matches of a pattern, or of some, in files, each with so many characters before and behind it. A partition is made of some
    `part_bytes`: of many files, or of a part of one.

    A fault of a text is a FileFault, and a file that can't be read an OSError. Where `faults` is "report" either is an item; then what
    stands in later parts of the file is searched all the same, each part by itself."""
    if faults not in ("raise", "report"):
        raise ValueError(f"faults is 'raise' or 'report', not {faults!r}")
    if part_bytes <= 0 or context < 0:
        raise ValueError("part_bytes is above 0, and context not below it")
    patterns = dask.delayed([pattern] if isinstance(pattern, Pattern) else list(pattern), traverse=False)
    groups, name = list(_grouped((os.fspath(path) for path in paths), part_bytes)) or [[]], f"colfind-{uuid4().hex}"
    tasks = {(name, at): (_found, group, patterns.key, context, faults == "report") for at, group in enumerate(groups)}
    return Bag(HighLevelGraph.from_collections(name, tasks, [patterns]), name, len(tasks))


def _grouped(paths: Iterable[str], size: int) -> Iterator[list[_Part]]:
    """The parts of files, those of small ones together."""
    group: list[_Part] = []
    room = size
    for path in paths:
        length = os.stat(path).st_size
        if length > size:
            yield from ([_Part(path, start, start + size if start + size < length else None)] for start in range(0, length, size))
            continue
        if length > room:
            yield group
            group, room = [], size
        group.append(_Part(path, 0, None))
        room -= length
    if group:
        yield group


def _found(group: list[_Part], patterns: list[Pattern], context: int, is_reported: bool) -> list[Match]:
    return list(chain.from_iterable(_found_in(part, patterns, context, is_reported) for part in group))


def _found_in(part: _Part, patterns: list[Pattern], context: int, is_reported: bool) -> Iterator[Match]:
    try:
        with open(part.path, "rb") as file:
            data: Bytes = mmap(file.fileno(), 0, access=ACCESS_READ) if os.fstat(file.fileno()).st_size else b""
    except OSError as wrong:
        if not is_reported:
            raise
        yield Match(part.path, "", 0, 0, "", "", "", str(wrong))
        return
    for pattern in patterns:
        try:
            yield from matches_of(data, pattern, context, part.path, part.start, part.end)
        except FileFault as fault:
            if not is_reported or fault.kind >= Kind.NO_MEMORY:
                raise
            yield Match(part.path, _sought(pattern), fault.at, fault.at, "", "", "", str(fault))


def matches_of(data: Bytes, pattern: Pattern, context: int = _CONTEXT, path: str = "", start: int = 0,
               end: int | None = None) -> Iterator[Match]:
    """The matches in a text, or in a part of it, as by `Pattern.search_part`: for tasks of one's own, over texts that are no files."""
    view, sought = memoryview(data).cast("B"), _sought(pattern)
    room = 4 * context  # a character has at most four bytes
    try:
        for at, behind in pattern.search_part(data, min(start, len(view)), len(view) if end is None else min(end, len(view))):
            before, match, after = (bytes(view[first:last]).decode("utf-8", "ignore") for first, last in (
                (max(0, at - room), at), (at, behind), (behind, behind + room)))
            yield Match(path, sought, at, behind, before[-context:] if context else "", match, after[:context])
    except Fault as fault:
        raise FileFault(fault.kind, fault.at, path) from None


def _sought(pattern: Pattern) -> str:
    return pattern._made_of[1].decode()


def counts(matches: Bag) -> Item:
    """How many matches each pattern has in each file."""
    return _counted(matches, ("path", "pattern"))


def forms(matches: Bag) -> Item:
    """How many matches of each pattern stand in each form."""
    return _counted(matches, ("pattern", "form"))


def _counted(matches: Bag, columns: tuple[str, str]) -> Item:
    """A data frame, the greatest numbers first; without pandas a list of its rows."""
    added = matches.reduction(partial(_count, columns), _sum, split_every=_ADDED)
    return added.apply(partial(_frame, (*columns, "matches")))


def _count(columns: tuple[str, str], matches: Iterable[Match]) -> Counter[tuple[str, str]]:
    good = (match for match in matches if not match.fault)
    return Counter((match.pattern, form_of(match)) if "form" in columns else (match.path, match.pattern) for match in good)


def _sum(counters: Iterable[Counter[tuple[str, str]]]) -> Counter[tuple[str, str]]:
    total: Counter[tuple[str, str]] = Counter()
    for counter in counters:
        total.update(counter)
    return total


def _frame(columns: tuple[str, ...], counter: Counter[tuple[str, str]]) -> Any:
    rows = sorted(((*key, count) for key, count in counter.items()), key=lambda row: (-row[2], row))
    try:
        from pandas import DataFrame
    except ImportError:
        return rows
    return DataFrame(rows, columns=list(columns))


def _is_of_word(character: str) -> bool:
    return (character.isalnum() or unicodedata.category(character)[0] == "M") and not _WITHOUT_BLANKS.match(character)


def form_of(match: Match) -> str:
    """The word or words that a match is in, up to the first character that is no letter, mark or digit, as far as the context goes; in
    scripts without blanks the match itself. Forms that are canonically equal are one."""
    start, end = len(match.before), 0
    if match.match and _is_of_word(match.match[0]):
        while start and _is_of_word(match.before[start - 1]):
            start -= 1
    if match.match and _is_of_word(match.match[-1]):
        while end < len(match.after) and _is_of_word(match.after[end]):
            end += 1
    words = match.before[start:] + match.match + match.after[:end]
    return unicodedata.normalize("NFC", " ".join(words.split()))
