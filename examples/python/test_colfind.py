"""Tests of colfind.py against the program. COLFIND may say its path, and REPOSITORY that of the repository, for tests of a module that is
installed."""
import _ctypes
import copy
import gc
import io
import mmap
import multiprocessing
import operator
import os
import pickle
import random
import re
import shutil
import subprocess
import sys
import tempfile
import tracemalloc
import unittest
from array import array
from concurrent.futures import ThreadPoolExecutor
from contextlib import closing, suppress
from itertools import chain as one_by_one
from pathlib import Path
from unittest.mock import patch

import colfind
from catalogue import catalogue, made_titles
from colfind import Fault, Kind, Pattern, Search, Table

ROOT = Path(os.environ.get("REPOSITORY", Path(__file__).absolute().parents[2]))
LETTERS = ROOT / "docs" / "example" / "letters.txt"
PROGRAM = os.environ.get("COLFIND", str(ROOT / "crates" / "colfind" / "out" / "colfind"))
PARTS = ["resume", "r\u00e9sum\u00e9", "re\u0301sume\u0301", "a", "aa", " ", "e", "\u00e9", "s", "\u0301", "\u6f22", "\U0001f600", "\ud800"]


def by_program(text: bytes, pattern: str, strength: int, chain: bool = False) -> tuple[list[tuple[int, int]], str]:
    """The ranges, and what stands behind `colfind: ` on standard error."""
    with tempfile.NamedTemporaryFile() as file:
        file.write(text)
        file.flush()
        words = [PROGRAM, "--table", LETTERS, "--strength", str(strength), "--select", "chain" if chain else "all", "--", pattern, file.name]
        done = subprocess.run(words, capture_output=True, text=True)
    ranges = [tuple(map(int, line.split(":"))) for line in done.stdout.split()]
    return ranges, done.stderr.removeprefix("colfind: ").rstrip("\n")


def all_of(ranges) -> tuple[list[tuple[int, int]], str]:
    """The ranges, and the message of the fault behind them up to its words."""
    found = []
    try:
        for one in ranges:
            found.append(one)
    except Fault as fault:
        return found, str(fault).split(":")[0]
    return found, ""


def answer(call):
    """What a call gives, or its fault."""
    try:
        return call()
    except Fault as fault:
        return fault.kind, fault.at, "fault"


def met_before(table: Table, pattern: Pattern, data: bytes, at: int):
    """The last range of bytes up to an offset behind the last fault before it, or else this fault, or None; by searches from the beginning
    on, and from the next safe offset behind each fault."""
    start, met = 0, None
    while start is not None and (start < at or start == 0):
        search, ranges, fault = Search(pattern), [], None
        try:
            for one in one_by_one(search.feed(data[start:]), search.finish()):
                ranges.append((start + one[0], start + one[1]))
        except Fault as wrong:
            fault = wrong.kind, start + wrong.at, "fault"
        if not fault or fault[1] >= at:
            return next((one for one in reversed(ranges) if one[1] <= at), met)
        met, start = fault, table.next_safe(data, fault[1] + 1) if fault[1] < len(data) else None
    return met


def freed(pattern: Pattern) -> Pattern:
    with copy.copy(pattern) as one:
        return one


def times_seen(pattern: Pattern) -> int:
    """How often this process was sent the table of a pattern, if it is the one that it was sent before."""
    table = pattern._made_of[0]
    table.seen = getattr(table, "seen", 0) + 1
    return table.seen


class Tests(unittest.TestCase):
    def setUp(self) -> None:
        self.table = Table(LETTERS.read_bytes())

    def in_pieces(self, rng: random.Random, pattern: Pattern, data: bytes, chain: bool):
        search = Search(pattern, chain)
        while data:
            size = rng.randrange(1, 9)
            yield from search.feed(data[:size])
            data = data[size:]
            if rng.random() < 0.3:
                search = pattern.resume(search.save(), chain)
        yield from search.finish()

    def test_random_texts(self) -> None:
        rng = random.Random(1)
        for _ in range(200):
            text = "".join(rng.choice(PARTS[:-1] if rng.random() < 0.8 else PARTS) for _ in range(rng.randrange(30)))
            data = text.encode("utf-8", "surrogatepass")
            sought, strength, chain = rng.choice(["resume", "aa", "e", "a", "\u6f22"]), rng.randrange(1, 4), rng.random() < 0.5
            least, most = (rng.randrange(1, 9), rng.randrange(1, 9)) if rng.random() < 0.8 else (4096, 65536)
            with Pattern(self.table, sought, strength) as pattern, patch.multiple(colfind, _LEAST=least, _MOST=most):
                expected, fault = by_program(data, sought, strength, chain)
                self.assertEqual(all_of(pattern.search(data, chain)), (expected, fault))
                self.assertEqual(all_of(self.in_pieces(rng, pattern, data, chain)), (expected, fault))
                characters, _ = all_of(pattern.search(text, chain))
                self.assertEqual([text[s:e] for s, e in characters], [data[s:e].decode() for s, e in expected])
                start = rng.randrange(len(text) + 1)
                expected, fault = by_program(text[start:].encode("utf-8", "surrogatepass"), sought, strength)
                if expected:
                    found = pattern.index(text, start)
                    self.assertEqual(text[found[0]:found[1]], text[start:].encode("utf-8", "surrogatepass")[slice(*expected[0])].decode())
                    self.assertGreaterEqual(found[0], start)
                elif fault:
                    self.assertRaises(Fault, pattern.index, text, start)
                else:
                    self.assertIsNone(pattern.index(text, start))

    def test_whole_texts_and_beginnings(self) -> None:
        """Beside the first range of the text between letters that stand nowhere else, for a pattern between these."""
        rng, guard, seen = random.Random(2), "\u4e01", set()
        for _ in range(400):
            sought, strength, shifted = rng.choice(["resume", "aa", "r\u00e9sum\u00e9", "\u6f22"]), rng.randrange(1, 4), rng.random() < 0.3
            around = ["", "", "\u00ad", "-", " ", "\u0301", "s", "\ud800"]
            text = rng.choice(around[:-1]) + rng.choice([sought, "re\u0301sume\u0301", "RESUME", "a"]) + rng.choice(around)
            pattern = Pattern(self.table, sought, strength, shifted)
            whole, front = (Pattern(self.table, guard + sought + end, strength, shifted) for end in (guard, ""))
            for text, guards, size in (text, guard, 1), (text.encode("utf-8", "surrogatepass"), guard.encode(), 3):
                found, _ = all_of(whole.search(guards + text + guards))
                begins, fault = all_of(front.search(guards + text))
                if fault and not found:
                    try:
                        self.assertFalse(pattern.fullmatch(text))
                    except Fault as wrong:
                        self.assertEqual(f"fault {wrong.kind} at {wrong.at + size}", fault)
                        seen.add("fault")
                else:
                    self.assertIs(pattern.fullmatch(text), bool(found))
                if begins:
                    self.assertEqual(pattern.match(text), (0, begins[0][1] - size))
                elif fault:
                    with suppress(Fault):
                        self.assertIsNone(pattern.match(text))
                else:
                    self.assertIsNone(pattern.match(text))
                seen.update([bool(found), (bool(begins), bool(found))])
        self.assertEqual(seen, {"fault", True, False, (True, True), (True, False), (False, False)})
        pattern = Pattern(self.table, "resume", 1)
        for text in "R\u00c9SUM\u00c9", "r\u00e9sum\u00e9 and more":  # of the first character the table knows no row
            self.assertEqual((pattern.fullmatch(text), pattern.match(text)), (False, None if text[0] == "R" else (0, 6)))
        with self.assertRaises(Fault) as fault:
            pattern.fullmatch("r\u00e9sum\u00e9\ud800")
        self.assertEqual((fault.exception.kind, fault.exception.at), (Kind.TEXT_ILL_FORMED, 6))
        self.assertFalse(pattern.fullmatch(b"a\xff"))  # decided before
        self.assertEqual(pattern.match(bytearray(b"resume b")), (0, 6))

    def test_last_before(self) -> None:
        """Beside searches from the beginning on, in bytes and in a str, at each offset and in parts of a few characters."""
        rng, seen = random.Random(4), set()
        for _ in range(120):
            text = "".join(rng.choice([*PARTS, "ch", "h", "\u00ad"]) for _ in range(rng.randrange(25)))
            data = text.encode("utf-8", "surrogatepass")
            pattern = Pattern(self.table, rng.choice(["resume", "aa", "e", "ch", "\u6f22"]), rng.randrange(1, 4), rng.random() < 0.3)
            wanted = [met_before(self.table, pattern, data, at) for at in range(len(data) + 1)]
            self.assertEqual([answer(lambda at=at: pattern.last_before(data, at)) for at in range(len(data) + 1)], wanted)
            places = [len(text[:at].encode("utf-8", "surrogatepass")) for at in range(len(text) + 1)]
            with patch.multiple(colfind, _LEAST=rng.choice([1, 2, 8, 1 << 12]), _NEAR=rng.choice([1, 2, 16])):
                for at, place in enumerate(places):
                    found = answer(lambda at=at: pattern.last_before(text, at))
                    if found is not None:
                        found = (found[0], places[found[1]], "fault") if len(found) == 3 else (places[found[0]], places[found[1]])
                    self.assertEqual(found, wanted[place])
                    seen.add(None if found is None else len(found))
            self.assertEqual(answer(lambda: pattern.last_before(text)), answer(lambda: pattern.last_before(text, len(text))))
            self.assertEqual(answer(lambda: pattern.last_before(bytearray(data))), wanted[-1])
        self.assertEqual(seen, {None, 2, 3})

    def test_last_before_by_hand(self) -> None:
        """It is within a character, behind marks and faults; and from call to call all ranges come, the last one first."""
        pattern, found, at = Pattern(self.table, "e", 1), [], None
        self.assertEqual([pattern.last_before("e\u00e9\u0301e".encode(), at) for at in range(7)], [None, *[(0, 1)] * 4, (1, 5), (5, 6)])
        self.assertEqual([pattern.last_before("e\u00e9\u0301e", at) for at in range(5)], [None, (0, 1), (0, 1), (1, 3), (3, 4)])
        while last := pattern.last_before("re\u0301sume\u0301, resume", at):
            found.append(last)
            at = last[1] - 1
        self.assertEqual(found, [(15, 16), (11, 12), (6, 8), (1, 3)])
        bad = "e\ud800\u00e9 a"
        self.assertEqual((pattern.last_before(bad), pattern.last_before(bad, 1)), ((2, 3), None))
        for text, at in (bad, 2), (bad.encode("utf-8", "surrogatepass"), 4):
            self.assertEqual(answer(lambda: pattern.last_before(text, at)), (Kind.TEXT_ILL_FORMED, 1, "fault"))
        self.assertIsNone(pattern.last_before(""))
        self.assertIsNone(pattern.last_before(b"", 0))

    def test_last_before_reads_the_way_back(self) -> None:
        """No more than some times of it, whatever stands before."""
        pattern, encoded = Pattern(self.table, "resume", 1), []
        text = "\u6f22" * 1_000_000 + "r\u00e9sum\u00e9 " + "\u6f22" * 100_000 + "resume " + "\ud800" * 9
        with patch.object(colfind, "_encoded", lambda part: encoded.append(len(part)) or part.encode("utf-8", "surrogatepass")):
            for at, wanted, most in [(1_100_013, (1_100_007, 1_100_013), 10_000), (1_100_012, (1_000_000, 1_000_006), 500_000)]:
                encoded.clear()
                self.assertEqual(pattern.last_before(text, at), wanted)
                self.assertLess(sum(encoded), most)
            encoded.clear()
            self.assertEqual(answer(lambda: pattern.last_before(text)), (Kind.TEXT_ILL_FORMED, 1_100_014, "fault"))
            self.assertLess(sum(encoded), 10_000)
        self.assertIsNone(pattern.last_before("\u6f22" * 100_000))

    def test_ends(self) -> None:
        """Beside the last range of the text with a letter behind it that stands nowhere else, for a pattern with this letter behind it."""
        rng, guard, seen = random.Random(5), "\u4e01", set()
        for _ in range(400):
            sought, strength, shifted = rng.choice(["resume", "aa", "r\u00e9sum\u00e9", "ch", "\u6f22"]), rng.randrange(1, 4), rng.random() < 0.3
            around = ["", "", "\u00ad", "-", " ", "\u0301", "a", "h"]
            text = rng.choice(around) + rng.choice([sought, "re\u0301sume\u0301", "RESUME", "aa"]) + rng.choice(around)
            pattern = Pattern(self.table, sought, strength, shifted)
            ranges = list(Pattern(self.table, sought + guard, strength, shifted).search(text + guard))
            wanted = (ranges[-1][0], len(text)) if ranges else None
            self.assertEqual(pattern.ends(text), wanted)
            places = [len(text[:at].encode()) for at in range(len(text) + 1)]
            self.assertEqual(pattern.ends(text.encode()), wanted and (places[wanted[0]], places[wanted[1]]))
            seen.add((wanted is None, bool(list(pattern.search(text)))))
        self.assertEqual(seen, {(True, True), (True, False), (False, True)})
        pattern = Pattern(self.table, "aa", 1)
        for text, found in ("aaa", (1, 3)), ("aa\u0301", (0, 3)), ("aa\u00ad", (0, 3)), ("aab", None), ("\ud800aa", (1, 3)), ("", None):
            self.assertEqual(pattern.ends(text), found)
        self.assertEqual(pattern.ends(b"\xff\xffaa"), (2, 4))
        for text in "aa\ud800", b"aa\xff":
            self.assertEqual(answer(lambda: pattern.ends(text)), (Kind.TEXT_ILL_FORMED, 2, "fault"))
        for count in 2, 3, 900, 5_000:
            for text in b"\xff" + b"b" * count, "\ud800" + "b" * count:
                self.assertEqual(answer(lambda: pattern.ends(text)), (Kind.TEXT_ILL_FORMED, 0, "fault") if count == 2 else None)

    def test_ends_reads_what_stands_there(self) -> None:
        """A str in parts is told as its bytes are, and no more of it is encoded than the end."""
        rng, seen = random.Random(7), set()
        for _ in range(600):
            sought, strength = rng.choice(["resume", "aa", "ch", "c", "\u6f22"]), rng.randrange(1, 4)
            text = "".join(rng.choice([*PARTS, "ch", "h", "\u00ad", "\u6f23" * 9]) for _ in range(rng.randrange(12)))
            text += rng.choice(["", sought, sought + "\u00ad", sought + "\u0301"])
            pattern, data = Pattern(self.table, sought, strength), text.encode("utf-8", "surrogatepass")
            wanted = answer(lambda: pattern.ends(data))
            if isinstance(wanted, tuple):
                places = {len(text[:at].encode("utf-8", "surrogatepass")): at for at in range(len(text) + 1)}
                wanted = (wanted[0], places[wanted[1]], *wanted[2:]) if len(wanted) == 3 else (places[wanted[0]], places[wanted[1]])
            with patch.multiple(colfind, _LEAST=rng.choice([1, 2, 8]), _NEAR=rng.choice([1, 2, 16])):
                self.assertEqual(answer(lambda: pattern.ends(text)), wanted)
            seen.add(len(wanted) if isinstance(wanted, tuple) else wanted)
        self.assertEqual(seen, {None, 2, 3})
        pattern, encoded = Pattern(self.table, "resume", 1), []
        with patch.object(colfind, "_encoded", lambda part: encoded.append(len(part)) or part.encode("utf-8", "surrogatepass")):
            for front in "\u6f22" * 1_000_000, "\ud800" + "\u6f22" * 1_000_000:
                size = len(front)
                for end, wanted in ("resume", (size, size + 6)), ("resum", None), ("resume\ud800", (Kind.TEXT_ILL_FORMED, size + 6, "fault")):
                    encoded.clear()
                    self.assertEqual(answer(lambda: pattern.ends(front + end)), wanted)
                    self.assertLess(sum(encoded), 20_000)

    def test_want_of_memory_stands_nowhere(self) -> None:
        refused = colfind._First(colfind._Status(Kind.TEXT_NO_MEMORY, 0), 0, colfind._Range(0, 0))
        with patch.object(colfind._C, "colfind_last_before", return_value=refused), patch.object(colfind._C, "colfind_ends", return_value=refused):
            for call in Pattern(self.table, "a").last_before, Pattern(self.table, "a").ends:
                self.assertEqual(answer(lambda: call("\u6f22" * 50)), (Kind.TEXT_NO_MEMORY, 0, "fault"))

    def test_the_front_of_a_long_str_decides(self) -> None:
        """No more of it is encoded where it does, and what is told is what the whole text has."""
        encoded = []
        with patch.object(colfind, "_encoded", lambda part: encoded.append(len(part)) or part.encode("utf-8", "surrogatepass")):
            pattern = Pattern(self.table, "resume", 1)
            for front, wanted in ("resume of", (False, (0, 6))), ("r\u00e9sum", (False, None)), ("\u6f22", (False, None)):
                text = front + "\u6f22" * 1_000_000
                encoded.clear()
                self.assertEqual((pattern.fullmatch(text), pattern.match(text)), wanted)
                self.assertLess(sum(encoded), 20_000)
        rng = random.Random(6)
        for _ in range(300):
            sought, strength = rng.choice(["resume", "aa", "ch", "c", "\u6f22"]), rng.randrange(1, 4)
            text = rng.choice(["", "\u00ad"]) + sought + "".join(rng.choice([*PARTS, "h", "\u00ad"]) for _ in range(rng.randrange(8)))
            pattern, data = Pattern(self.table, sought, strength), text.encode("utf-8", "surrogatepass")
            with patch.multiple(colfind, _LEAST=rng.randrange(1, 9)):
                for call in pattern.fullmatch, pattern.match:
                    found, wanted = answer(lambda: call(text)), answer(lambda: call(data))
                    if isinstance(wanted, tuple):
                        wanted = (*wanted[:1], len(data[:wanted[1]].decode("utf-8", "surrogatepass")), *wanted[2:])
                    self.assertEqual(found, wanted)

    def test_safe_offsets(self) -> None:
        """From each of them on the ranges are those of the whole text, and in a str they are those of its bytes."""
        rng, pattern, places = random.Random(3), Pattern(self.table, "resume", 1), 0
        for _ in range(150):
            text = "".join(rng.choice([*PARTS, "ch", "h", "\u00ad"]) for _ in range(rng.randrange(40)))
            data, ranges = text.encode("utf-8", "surrogatepass"), all_of(pattern.search(text))[0]
            with patch.multiple(colfind, _NEAR=rng.choice([1, 2, 16]), _MOST=rng.choice([2, 1 << 16])):
                safe = [at for at in range(len(text)) if self.table.next_safe(text, at) == at]
                for at in range(len(text) + 1):
                    after, before = [one for one in safe if one >= at], [one for one in safe if one < at]
                    self.assertEqual(self.table.next_safe(text, at), after[0] if after else None)
                    self.assertEqual(self.table.previous_safe(text, at), before[-1] if before else None)
            in_bytes = [len(text[:at].encode("utf-8", "surrogatepass")) for at in safe]
            self.assertEqual([at for at in range(len(data)) if self.table.next_safe(data, at) == at], in_bytes)
            self.assertEqual(self.table.previous_safe(data, len(data)), in_bytes[-1] if in_bytes else None)
            for at in safe:
                self.assertEqual(text[at] in "\u0301\u00adh\ud800", False)
                if "\ud800" not in text[:at]:
                    self.assertEqual([(start + at, end + at) for start, end in all_of(pattern.search(text[at:]))[0]],
                                     [one for one in ranges if one[0] >= at])
                    places += 1
        self.assertGreater(places, 500)
        self.assertEqual([at for at in range(6) if self.table.next_safe("achu\u0301", at) == at], [0, 1, 3])
        self.assertEqual((self.table.next_safe("\u0301" * 5_000 + "a"), self.table.previous_safe("a" + "\u0301" * 5_000, 5_001)), (5_000, 0))
        self.assertEqual((self.table.next_safe(""), self.table.previous_safe("", 0), self.table.previous_safe(b"\xff", 1)), (None, None, None))

    def test_file(self) -> None:
        path = ROOT / "docs" / "example" / "text.txt"
        for size in (1, 2, 3, 1 << 16):
            with path.open("rb") as file, Search(Pattern(self.table, "resume", 1)) as search:
                self.assertEqual(list(search.feed_file(file, size)), by_program(path.read_bytes(), "resume", 1)[0])

    def test_faults(self) -> None:
        pattern = Pattern(self.table, "a")
        ended = Search(pattern)
        self.assertEqual(list(ended.stop()), [])
        for kind, at, words, call in [
            (1, 1, "fault 1 at 1: a line of the table file is malformed", lambda: Table(b"nonsense\n")),
            (63, 2, "fault 63 at 2: in the tailor, the same", lambda: Table(LETTERS.read_bytes(), b"0061 ; [.1C00.0020.0002]\n" * 2)),
            (22, 0, "fault 22 at 0: the pattern has nothing", lambda: Pattern(self.table, "")),
            (31, 1, "fault 31 at 1: the text is not UTF-8", lambda: list(Search(pattern).feed(b"x\xff"))),
            (31, 1, "fault 31 at 1: ", lambda: pattern.index("\u00e9\ud800")),
            (31, 3, "fault 31 at 3: ", lambda: list(pattern.search("\u00e9xa\ud800"))),
            (51, 0, "fault 51 at 0: the words are no saved search", lambda: pattern.resume([1, 2])),
            (51, 0, "fault 51 at 0: ", lambda: pattern.resume([])),
            (52, 0, "fault 52 at 0: ", lambda: Pattern(self.table, "aa").resume(Search(pattern).save())),
            (83, 0, "fault 83 at 0: the search was finished", lambda: ended.feed(b"a")),
            (83, 0, "fault 83 at 0: ", ended.save),
        ]:
            with self.assertRaises(Fault) as fault:
                call()
            self.assertEqual((fault.exception.kind, fault.exception.at), (kind, at))
            self.assertTrue(str(fault.exception).startswith(words), str(fault.exception))
            again = pickle.loads(pickle.dumps(fault.exception))
            self.assertEqual((again.kind, again.at, str(again)), (kind, at, str(fault.exception)))
            self.assertIs(again.kind, Kind(kind))

    def test_kinds(self) -> None:
        header = re.search(r"enum colfind_kind \{(.*?)\};", (ROOT / "examples" / "c" / "colfind.h").read_text(), re.S)[1]
        named = {name: int(number) for name, number in re.findall(r"COLFIND_(\w+) = (\d+)", header)}
        self.assertEqual(named.pop("GOOD"), 0)
        self.assertEqual({kind.name: kind.value for kind in Kind}, named)
        with self.assertRaises(Fault) as fault:
            Table(b"nonsense\n")
        kind = fault.exception.kind
        self.assertIs(kind, Kind.TABLE_MALFORMED_LINE)
        self.assertEqual((kind, str(kind), f"{kind:3}", {1: "one"}[kind]), (1, "1", "  1", "one"))
        newer = Fault(99, 0).kind
        self.assertEqual((newer, newer.name, newer.value), (99, "FAULT_99", 99))
        self.assertRaises(ValueError, Kind, "31")

    def test_arguments_that_are_none(self) -> None:
        """Each gives an error that begins with the name of the argument."""
        pattern = Pattern(self.table, "a")
        search = Search(pattern)
        parts = memoryview(b"abab")[::2]
        for error, name, call in [
            (TypeError, "base", lambda: Table("letters.txt")),
            (TypeError, "base", lambda: Table(LETTERS)),
            (TypeError, "tailor", lambda: Table(b"", "german.txt")),
            (TypeError, "table", lambda: Pattern(LETTERS.read_bytes(), "a")),
            (TypeError, "text", lambda: Pattern(self.table, 1)),
            (ValueError, "text", lambda: Pattern(self.table, b"\xff")),
            (ValueError, "text", lambda: Pattern(self.table, "\ud800")),
            (ValueError, "strength", lambda: Pattern(self.table, "a", 0)),
            (ValueError, "strength", lambda: Pattern(self.table, "a", 4)),
            (ValueError, "strength", lambda: Pattern(self.table, "a", 257)),
            (ValueError, "strength", lambda: Pattern(self.table, "a", -255)),
            (TypeError, "strength", lambda: Pattern(self.table, "a", "1")),
            (TypeError, "strength", lambda: Pattern(self.table, "a", 1.0)),
            (TypeError, "shifted", lambda: Pattern(self.table, "a", 1, "shifted")),
            (TypeError, "shifted", lambda: Pattern(self.table, "a", 1, 257)),
            (TypeError, "chain", lambda: pattern.search("a", 256)),
            (TypeError, "chain", lambda: Search(pattern, "chain")),
            (TypeError, "pattern", lambda: Search("a")),
            (TypeError, "text", lambda: pattern.search(None)),
            (TypeError, "text", lambda: pattern.search(["a"])),
            (TypeError, "text", lambda: pattern.search(parts)),
            (TypeError, "text", lambda: pattern.index(None)),
            (TypeError, "start", lambda: pattern.index("a", "0")),
            *((TypeError, "text", lambda call=call: call(None))
              for call in (pattern.fullmatch, pattern.match, pattern.ends, pattern.last_before, self.table.next_safe)),
            *((ValueError, "at", lambda text=text, at=at: pattern.last_before(text, at)) for text in ("ab", b"ab") for at in (-1, 3, 2 ** 64)),
            (TypeError, "at", lambda: pattern.last_before("a", "1")),
            (TypeError, "text", lambda: self.table.previous_safe(None, 0)),
            *((ValueError, "start", lambda text=text, start=start: self.table.next_safe(text, start))
              for text in ("ab", b"ab") for start in (-1, 3, 2 ** 64)),
            *((ValueError, "before", lambda text=text, before=before: self.table.previous_safe(text, before))
              for text in ("ab", b"ab") for before in (-1, 3, 2 ** 64)),
            (TypeError, "before", lambda: self.table.previous_safe("a", "1")),
            *((ValueError, "start", lambda text=text, start=start: pattern.index(text, start))
              for text in ("ab", "\u00e9b", b"ab", bytearray(b"ab")) for start in (-1, -2, 3, 2 ** 64, 2 ** 64 + 1)),
            (ValueError, "start", lambda: search.first_in(b"ab", -1)),
            (TypeError, "text", lambda: search.first_in("ab")),
            (TypeError, "piece", lambda: search.feed("a")),
            (TypeError, "piece", lambda: search.feed(None)),
            (TypeError, "piece", lambda: list(search.feed_file(io.StringIO("a")))),
            (TypeError, "piece", lambda: list(search.feed_file(io.StringIO("")))),
            (ValueError, "size", lambda: search.feed_file(io.BytesIO(b"a"), 0)),
            (ValueError, "size", lambda: search.feed_file(io.BytesIO(b"a"), -1)),
            (TypeError, "words", lambda: pattern.resume("1")),
            (TypeError, "words", lambda: pattern.resume(7)),
            (ValueError, "words", lambda: pattern.resume([-1])),
            (ValueError, "words", lambda: pattern.resume([2 ** 64])),
        ]:
            with self.assertRaises(error) as raised:
                call()
            self.assertEqual(str(raised.exception).split()[0], name, str(raised.exception))
        self.assertEqual(list(search.feed(b"a bb")), [(0, 1)])  # none of these calls has changed it

    def test_objects_like_bytes(self) -> None:
        text = b"resume, r\xc3\xa9sum\xc3\xa9 -"
        table = Table(bytearray(LETTERS.read_bytes()), memoryview(b""))
        pattern, wanted = Pattern(table, memoryview(b"resume"), 1), [(0, 6), (8, 16)]
        with tempfile.TemporaryFile() as file:
            file.write(text)
            file.flush()
            kinds = [text, bytearray(text), memoryview(text), memoryview(bytearray(text)), memoryview(b"x" + text)[1:], array("B", text),
                     array("H", text), mmap.mmap(file.fileno(), 0, access=mmap.ACCESS_READ)]
            for data in kinds:
                self.assertEqual(list(pattern.search(data)), wanted)
                self.assertEqual((pattern.index(data), pattern.index(data, 1), pattern.index(data, len(text))), (*wanted, None))
                search = Search(pattern)
                self.assertEqual(list(search.feed(data)) + list(search.finish()), wanted)
                self.assertEqual(Search(pattern).first_in(data, 2), wanted[1])
            kinds.pop().close()  # nothing holds it
            grown = kinds[1]
            found = pattern.search(grown)
            grown += b"x"
            self.assertEqual(list(found), wanted)
        for empty in (b"", bytearray(), memoryview(b"")):
            self.assertEqual((list(pattern.search(empty)), pattern.index(empty)), ([], None))

    def test_bytes_are_not_copied(self) -> None:
        pattern, data = Pattern(self.table, "resume", 1), bytearray(b"e" * (1 << 24))
        pattern.index(data[:100])
        tracemalloc.start()
        self.assertIsNone(pattern.index(data))
        self.assertIsNone(pattern.index(memoryview(data)))
        self.assertLess(tracemalloc.get_traced_memory()[1], 1 << 20)
        tracemalloc.stop()

    def test_search_is_lazy(self) -> None:
        """Memory grows neither with the text nor with the number of ranges."""
        pattern = Pattern(self.table, "e", 1)
        for unit, count in [(b"e", 1 << 15), ("e", 1 << 15), (bytearray(b"e"), 1 << 15), ("\u00e9", 1 << 13), ("e\u6f22", 1 << 13)]:
            text, wanted = unit * count, [(start, start + 1) for start in range(0, count * len(unit), len(unit))]
            self.assertEqual(list(pattern.search(text)), wanted)
            with patch.multiple(colfind, _LEAST=64, _MOST=64):
                tracemalloc.start()
                self.assertTrue(all(map(operator.eq, pattern.search(text), wanted)))
                self.assertLess(tracemalloc.get_traced_memory()[1], 12_000)
                tracemalloc.stop()

    def test_faults_far_behind(self) -> None:
        pattern = Pattern(self.table, "resume", 1)
        for text, fault in [("r\u00e9sum\u00e9" + "\u6f22" * 70_000 + "resume, \ud800", 70_014), ("\udc00" * 9, 0),
                            ("a" * 65_536 + "\ud800", 65_536)]:
            expected, message = by_program(text.encode("utf-8", "surrogatepass"), "resume", 1)
            found, wanted = pattern.search(text), [(0, 6), (70_006, 70_012)] if "\u6f22" in text else []
            self.assertEqual([next(found) for _ in wanted], wanted)
            with self.assertRaises(Fault) as raised:
                next(found)
            self.assertEqual((raised.exception.kind, raised.exception.at), (Kind.TEXT_ILL_FORMED, fault))
            self.assertEqual(all_of(pattern.search(text.encode("utf-8", "surrogatepass"))), (expected, message))

    def test_index_reads_the_way_to_the_match(self) -> None:
        """No more than twice of it and the first part, wherever it stands, and the matches before cost nothing."""
        pattern, encoded = Pattern(self.table, "resume", 1), []
        text = "r\u00e9sum\u00e9 " + "\u6f22" * 1_000_000
        text = text + text + "re\u0301sume\u0301"
        with patch.object(colfind, "_encoded", lambda part: encoded.append(len(part)) or part.encode()):
            for start, wanted, most in [(0, (0, 6), 16_000), (1, (1_000_007, 1_000_013), 4_000_000), (1_000_006, (1_000_007, 1_000_013), 16_000),
                                        (1_999_999, (2_000_014, 2_000_022), 70_000), (2_000_015, None, 100)]:
                encoded.clear()
                self.assertEqual(pattern.index(text, start), wanted)
                self.assertLess(sum(encoded), most)
        self.assertEqual(pattern.index("a" * 100_000 + "resume, \ud800", 9), (100_000, 100_006))
        for _ in range(2):
            with self.assertRaises(Fault) as fault:
                pattern.index("\u6f22" * 100_000 + "\ud800resume", 9)
            self.assertEqual((fault.exception.kind, fault.exception.at), (Kind.TEXT_ILL_FORMED, 100_000))
            self.assertEqual(pattern.index(text), (0, 6))

    def test_a_long_index_gives_its_search_back(self) -> None:
        pattern = Pattern(self.table, "resume", 1)
        lent = pattern._spare[False][:]
        self.assertEqual(pattern.index("\u6f22" * 70_000 + "resume, " * 9), (70_000, 70_006))
        self.assertEqual(pattern._spare[False], lent)

    def test_memory_that_is_refused(self) -> None:
        """The fault comes from the call, and says how many bytes were taken: no place of the text."""
        pattern, refused, text = Pattern(self.table, "a"), colfind._Status(Kind.NO_MEMORY, 3), "\u00e9" * 5_000
        search = Search(pattern)
        with patch.object(colfind._C, "colfind_feed", return_value=refused), patch.object(colfind, "_UNLOCKED", colfind._C):
            for call in lambda: search.feed(b"a b"), lambda: next(pattern.search(text)), lambda: next(pattern.search(text.encode())):
                with self.assertRaises(Fault) as fault:
                    call()
                self.assertEqual((fault.exception.kind, fault.exception.at), (Kind.NO_MEMORY, 3))
        self.assertEqual(list(search.feed(b"a b")), [(0, 1)])

    def test_threads_that_index(self) -> None:
        """A pattern serves them all, whatever the length of the texts."""
        pattern, texts = Pattern(self.table, "resume", 1), ["\u6f22" * count + "resume" for count in (9, 70_000, 80_000, 90_000)]
        with ThreadPoolExecutor(4) as pool:
            for found, text in zip(pool.map(pattern.index, texts * 20), texts * 20):
                self.assertEqual(found, (len(text) - 6, len(text)))

    def test_a_search_that_is_dropped(self) -> None:
        """It holds neither the bytes nor a handle, and another one goes on."""
        pattern, data = Pattern(self.table, "a"), bytearray(b"a" * 100_000)
        found, other, handles = pattern.search(data), pattern.search("\u00e9a" * 100_000), []
        self.assertEqual((next(found), next(found), next(other)), ((0, 1), (1, 2), (1, 2)))
        data.clear()  # which nothing holds
        with patch.object(colfind._C, "colfind_free", handles.append):
            found.close()
            self.assertEqual(len(handles), 1)
            pattern.search("a" * 100_000)
            self.assertEqual(len(handles), 2)
        for handle in handles:
            colfind._C.colfind_free(handle)
        self.assertEqual((next(other), list(found)), ((3, 4), []))

    def test_a_search_is_not_copied(self) -> None:
        search = Search(Pattern(self.table, "a"))
        for call in (copy.copy, copy.deepcopy, pickle.dumps):
            self.assertRaisesRegex(TypeError, "a Search can't be copied or pickled: save it", call, search)
        self.assertEqual(list(search.feed(b"a bb")), [(0, 1)])

    def test_copies(self) -> None:
        """Of a table they are the table; of a pattern they are another one, which goes on where that is freed."""
        tailored = Table(bytearray(LETTERS.read_bytes()), b"0061 ; [.1C40.0020.0002]\n")
        for table, found in (self.table, None), (tailored, (0, 1)):
            for protocol in range(pickle.HIGHEST_PROTOCOL + 1):
                self.assertIs(pickle.loads(pickle.dumps(table, protocol)), table)
            self.assertIs(copy.copy(table), table)
            pattern = Pattern(table, memoryview(b"e"), 1, True)
            for one in (copy.copy(pattern), copy.deepcopy(pattern), pickle.loads(pickle.dumps(pattern))):
                self.assertIsNot(one, pattern)
                with one:
                    self.assertEqual((one.index("ae"), one.index("\u00e9")), (found or (1, 2), (0, 1)))
            self.assertEqual(pattern.index("\u00e9"), (0, 1))
        class OwnTable(Table):
            pass

        class OwnPattern(Pattern):
            pass

        own = copy.deepcopy(OwnPattern(OwnTable(LETTERS.read_bytes()), "a"))
        self.assertEqual((type(own), type(own._made_of[0]), own.index("ba")), (OwnPattern, OwnTable, (1, 2)))
        for shifted, found in (True, (1, 4)), (False, None):  # whether the hyphen counts
            self.assertEqual(copy.copy(Pattern(self.table, "ee", 1, shifted)).index(" e-e"), found)

    def test_a_hundred_pickles_read_one_table(self) -> None:
        """Also where the process has none, and where each pattern goes before the next one comes. One that was freed is read again."""
        pickles = [pickle.dumps(Pattern(Table(LETTERS.read_bytes(), b"#%d\n" % i), "a")) for i in range(6)]
        with patch.object(colfind, "_TABLES", colfind.WeakValueDictionary()), patch.object(colfind, "_SENT", colfind.deque(maxlen=4)):
            with patch.object(colfind._UNLOCKED, "colfind_table", wraps=colfind._UNLOCKED.colfind_table) as read:
                for i in range(100):
                    self.assertEqual(pickle.loads(pickles[i % 4]).index("ba"), (1, 2))
                self.assertEqual(read.call_count, 4)
                kept = pickle.loads(pickles[0])
                for one in pickles[4:] + pickles[:1]:
                    self.assertEqual(pickle.loads(one).index("ba"), (1, 2))
                self.assertEqual(read.call_count, 6)
                with kept._made_of[0]:
                    pass
                self.assertEqual(kept.index("ba"), (1, 2))
                for one in pickles[0], pickle.dumps(kept):
                    self.assertEqual(pickle.loads(one).index("ba"), (1, 2))
                self.assertEqual(read.call_count, 7)
            del kept
            gc.collect()
            self.assertEqual(len(colfind._TABLES), 4)

    def test_processes(self) -> None:
        """Of `spawn`: each is sent the table with a pattern, and reads it once."""
        pattern, texts = Pattern(self.table, "r\u00e9sum\u00e9", 1), ["my resume", "re\u0301sume\u0301", "", "a"]
        with multiprocessing.get_context("spawn").Pool(1) as pool:
            self.assertEqual(pool.map(pattern.index, texts, 1), [(3, 9), (0, 8), None, None])
            self.assertEqual([pool.apply(times_seen, (pattern,)) for _ in range(20)], list(range(1, 21)))
            with self.assertRaises(Fault) as fault:
                pool.apply(pattern.index, ("\ud800",))
            self.assertIs(fault.exception.kind, Kind.TEXT_ILL_FORMED)

    def test_bytes_are_let_go_behind_an_error(self) -> None:
        """So they can be changed where it is caught."""
        pattern, long = Pattern(self.table, "a"), b"x" * 9_000 + b"\xff"
        search = Search(pattern)
        for text, call in [
            (b"\xff", pattern.index), (long, pattern.index), (b"a", lambda data: pattern.index(data, 2)), (b"x", Table),
            (b"\xff", lambda data: list(pattern.search(data))), (long, lambda data: list(pattern.search(data))),
            (b"\xff", search.first_in), (b"a", lambda data: search.first_in(data, 2)), (b"\xff", lambda data: list(search.feed(data))),
            (b"\xff", lambda data: Pattern(self.table, data)), (b"a", freed(pattern).index), (long, freed(pattern).search),
        ]:
            data = bytearray(text)
            try:
                call(data)
                self.fail("no error")
            except (Fault, ValueError):
                data += b"longer than it was"

    def test_texts_that_lie(self) -> None:
        """What a class of one's own says of its length and characters is not believed."""
        class Bytes(bytes):
            def __len__(self):
                return 1 << 40

            def __getitem__(self, _):
                return b"longer" * 99

        class Str(str):
            __len__, __getitem__ = Bytes.__len__, Bytes.__getitem__

            def encode(self, *_):
                return Bytes(b"a")

        pattern = Pattern(Table(Bytes(LETTERS.read_bytes())), Str("resume"), 1)
        for text in Bytes(b"my resume"), Str("my resume"):
            self.assertEqual((pattern.index(text), pattern.index(text, 3), list(pattern.search(text))), ((3, 9), (3, 9), [(3, 9)]))
        for text in Bytes(b"x" * 99_999 + b"resume"), Str("x" * 99_999 + "resume"):
            self.assertEqual((pattern.index(text, 1), list(pattern.search(text))), ((99_999, 100_005), [(99_999, 100_005)]))
        self.assertEqual(list(Search(pattern).feed(Bytes(b"resume, resume, "))), [(0, 6), (8, 14)])

    def test_a_library_that_is_older(self) -> None:
        """The error says what is wrong. The library is that of another module here, which has none of the calls."""
        with tempfile.TemporaryDirectory() as folder:
            for name, path in ("colfind.py", colfind.__file__), ("libcolfind.so.1", _ctypes.__file__):
                shutil.copy(path, Path(folder) / name)
            done = subprocess.run([sys.executable, "-c", "import colfind"], cwd=folder, capture_output=True, text=True)
        self.assertRegex(done.stderr, "ImportError: .*libcolfind.so.1 is older than this module: .*undefined symbol: colfind_table\n$")

    def test_names(self) -> None:
        self.assertEqual(colfind.__all__, ["Fault", "Kind", "Pattern", "Search", "Table"])
        for name in colfind.__all__:
            for one in (getattr(colfind, name), *vars(getattr(colfind, name)).values()):
                if getattr(one, "__module__", "") == "colfind" and not getattr(one, "__name__", "_").startswith("_"):
                    self.assertTrue(one.__doc__ or sys.flags.optimize > 1, one)

    def test_freed(self) -> None:
        with Search(Pattern(self.table, "a")) as search:
            self.assertEqual(list(search.feed(b"a bb")), [(0, 1)])
        with Table(LETTERS.read_bytes()) as table, Pattern(table, "a") as pattern:
            self.assertEqual(pattern.index("ba"), (1, 2))
            going_on = pattern.search(b"aba")
            self.assertEqual(next(going_on), (0, 1))
        for call in (search.finish, search.save, lambda: search.feed(b"a"), lambda: search.first_in(b"a"), lambda: Pattern(table, "a"),
                     lambda: pattern.index("a"), lambda: pattern.index(b"a"), lambda: pattern.search("a"), lambda: pattern.resume([]),
                     lambda: pattern.match("a"), lambda: pattern.fullmatch(b"a"), lambda: pattern.ends("a"), lambda: pattern.last_before(b"a"),
                     lambda: table.next_safe(""), lambda: table.previous_safe("", 0)):
            with self.assertRaisesRegex(Fault, "^fault 82 at 0: it was freed") as fault:
                call()
            self.assertIs(fault.exception.kind, Kind.WRONG_HANDLE)
        self.assertEqual(list(going_on), [(2, 3)])
        pattern.__exit__()  # once more

    def test_a_wrong_call_has_one_error(self) -> None:
        """What was not made is let go without a word on standard error."""
        code = """if True:
            import colfind
            for call in (lambda: colfind.Pattern(1, "a", strenght=1), lambda: colfind.Pattern(1, "a"), lambda: colfind.Table(1),
                         lambda: colfind.Search(1, cain=True), lambda: colfind.Table(b"nonsense"), lambda: colfind.Table()):
                try:
                    call()
                except (TypeError, colfind.Fault):
                    print("error")
            """
        done = subprocess.run([sys.executable, "-c", code], cwd=Path(colfind.__file__).parent, capture_output=True, text=True)
        self.assertEqual((done.stdout, done.stderr, done.returncode), ("error\n" * 6, "", 0))

    def test_files_that_are_none_of_bytes(self) -> None:
        """Also where Python answers a comparison of a str with bytes by an error."""
        code = """if True:
            import colfind, io, sys
            with open(sys.argv[1], "rb") as file:
                pattern = colfind.Pattern(colfind.Table(file.read()), "a")
            for file in io.StringIO(""), io.StringIO("a"), type("Raw", (), {"read": lambda *_: None})():
                try:
                    print(list(colfind.Search(pattern).feed_file(file)))
                except TypeError as wrong:
                    print(str(wrong).split(" ")[-1])
            print(list(colfind.Search(pattern).feed_file(type("File", (), {"read": lambda *_: memoryview(b"")})())))
            """
        words = [sys.executable, "-bb", "-c", code, LETTERS]
        done = subprocess.run(words, cwd=Path(colfind.__file__).parent, capture_output=True, text=True)
        self.assertEqual((done.stdout, done.stderr, done.returncode), ("str\nstr\nNoneType\n[]\n", "", 0))

    def test_both_types_of_a_text_are_named(self) -> None:
        pattern = Pattern(self.table, "a")
        for call in (pattern.index, pattern.search, lambda text: Pattern(self.table, text)):
            self.assertRaisesRegex(TypeError, "^text is a str, bytes, or an object .*, not NoneType$", call, None)
        self.assertRaisesRegex(TypeError, "^text is bytes, or an object .*, not str$", Search(pattern).first_in, "a")

    def test_catalogue(self) -> None:
        titles = made_titles(2_000)
        ranges, _ = by_program("".join(title + "\n" for title in titles).encode(), "resume", 1)
        expected, end = [], 0
        for title in titles:
            start, end = end, end + len(title.encode()) + 1
            if any(start <= one < end for one, _ in ranges):
                expected.append(title)
        with closing(catalogue(titles, Pattern(self.table, "resume", 1))) as database:
            rows = database.execute("SELECT title FROM books WHERE found(title)")
            self.assertEqual([title for title, in rows], expected)

    def test_title_that_is_null(self) -> None:
        """It is found neither by the function nor by its opposite, as SQL has it of each comparison with NULL."""
        database = catalogue(["resume", None, "a"], Pattern(self.table, "resume", 1))
        self.addCleanup(database.close)
        for sql, rows in [
            ("SELECT found(title) FROM books", [(1,), (None,), (0,)]),
            ("SELECT title FROM books WHERE found(title)", [("resume",)]),
            ("SELECT title FROM books WHERE NOT found(title)", [("a",)]),
            ("SELECT title FROM books WHERE found(title) IS NULL", [(None,)]),
        ]:
            self.assertEqual(database.execute(sql).fetchall(), rows, sql)


if __name__ == "__main__":
    unittest.main()
