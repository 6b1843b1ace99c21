"""Tests of the calls of colfind.py for many texts, beside those for each text by itself."""
import os
import random
import unittest
from array import array
from pathlib import Path
from unittest.mock import patch

import colfind
from colfind import Fault, Kind, Pattern, Search, Table

ROOT = Path(os.environ.get("REPOSITORY", Path(__file__).absolute().parents[2]))
LETTERS = ROOT / "docs" / "example" / "letters.txt"
PARTS = ["resume", "r\u00e9sum\u00e9", "re\u0301sume\u0301", "a", "aa", " ", "e", "\u00e9", "s", "\u0301", "\u6f22", "\U0001f600", "x" * 99]


class Lying(str):
    """It says of itself what is not so."""

    def __len__(self):
        return 1

    def __getitem__(self, _):
        return ""

    def encode(self, *_):
        return b"resume" * 9


def answers_of(answers):
    """All answers, where that of a text with a fault is its kind and place."""
    given = []
    while True:
        try:
            given.append(next(answers))
        except Fault as fault:
            given.append((fault.kind, fault.at))
        except StopIteration:
            return given


class ManyTextsTest(unittest.TestCase):
    def setUp(self) -> None:
        self.table = Table(LETTERS.read_bytes())
        self.pattern = Pattern(self.table, "resume", 1)

    def each_way(self):
        """By the loops in C, if they are there, with each lock; and without them."""
        loops = colfind._MANY
        for many, long in ((loops, 1), (loops, 1 << 30), (None, 1)) if loops else ((None, 1),):
            way = patch.multiple(colfind, _MANY=many, _LONG=long)
            way.start()
            self.addCleanup(way.stop)  # also where a test fails, and so leaves this loop where it is
            with self.subTest(many=many, long=long):
                yield many

    def random_texts(self, rng: random.Random) -> list:
        kinds = [[str], [str], [str.encode], [lambda text: bytearray(text.encode()), lambda text: memoryview(text.encode()), str.encode],
                 [str, str.encode, lambda text: array("B", text.encode())]]
        kind = rng.choice(kinds)
        parts = PARTS + [["\0"], ["\udc00"], [], [], []][rng.randrange(5)]
        texts = []
        for _ in range(rng.choice([0, 1, 5, 30])):
            text = "".join(rng.choice(parts) for _ in range(rng.choice([0, 1, 8, 30])))
            texts.append(rng.choice(kind)(text if kind[-1] is str else text.replace("\udc00", "")))
        return texts

    def test_they_give_what_calls_for_each_text_give(self) -> None:
        rng = random.Random(1)
        for _ in self.each_way():
            for _ in range(150):
                texts, chain = self.random_texts(rng), rng.random() < 0.5
                pattern = Pattern(self.table, rng.choice(["resume", "e", "aa"]), 1)
                with patch.multiple(colfind, _AHEAD=rng.choice([1, 2, 3, 7, 512]), _MOST_JOINED=rng.choice([0, 20, 500, 1 << 16])):
                    self.assertEqual(answers_of(pattern.index_many(iter(texts))), answers_of(map(pattern.index, texts)))
                    wanted = answers_of(map(lambda text: list(pattern.search(text, chain)), texts))
                    self.assertEqual(answers_of(pattern.search_many(texts, chain)), wanted)

    def test_worked_answers(self) -> None:
        texts = ["my r\u00e9sum\u00e9", "", "\u6f22\u6f22re\u0301sume\u0301, resume", "none", "\u0301resume", "resum", "e"]
        for _ in self.each_way():
            self.assertEqual(list(self.pattern.index_many(texts)), [(3, 9), None, (2, 10), None, (1, 7), None, None])
            self.assertEqual(list(self.pattern.search_many(texts)), [[(3, 9)], [], [(2, 10), (12, 18)], [], [(1, 7)], [], []])
            data = [text.encode() for text in texts]
            self.assertEqual(list(self.pattern.index_many(data)), [(3, 11), None, (6, 16), None, (2, 8), None, None])
            overlapping = Pattern(self.table, "aa", 1)
            self.assertEqual(list(overlapping.search_many(["aaa", "aaaa"])), [[(0, 2), (1, 3)], [(0, 2), (1, 3), (2, 4)]])
            self.assertEqual(list(overlapping.search_many(["aaa", "aaaa"], chain=True)), [[(0, 2)], [(0, 2), (2, 4)]])

    def test_texts_are_apart(self) -> None:
        """What ends one and begins the next one is no range, nor is a mark at the front of a text one of the text before."""
        for _ in self.each_way():
            texts = ["resu", "me", "resume", "\u0301", "resume"]
            self.assertEqual(list(self.pattern.index_many(texts)), [None, None, (0, 6), None, (0, 6)])
            shifted, texts = Pattern(self.table, "resume", 1, True), ["resu", " me", "re\0sume"]
            self.assertEqual(list(shifted.index_many(texts)), list(map(shifted.index, texts)))

    def test_a_fault_is_the_answer_of_its_text(self) -> None:
        texts = ["resume", "\u00e9\ud800", "a resume", "\ud800", *["e"] * 600, "resume \udfff", "resume"]
        for _ in self.each_way():
            answers = self.pattern.index_many(texts)
            self.assertEqual(next(answers), (0, 6))
            with self.assertRaises(Fault) as fault:
                next(answers)
            self.assertEqual((fault.exception.kind, fault.exception.at), (Kind.TEXT_ILL_FORMED, 1))
            self.assertEqual(next(answers), (2, 8))
            self.assertRaises(Fault, next, answers)
            self.assertEqual([next(answers) for _ in range(600)], [None] * 600)
            self.assertEqual(list(answers), [(0, 6), (0, 6)])  # behind the first range no fault is met
            self.assertRaises(Fault, list, self.pattern.search_many(["resume", b"resume \xff"]))

    def test_texts_are_read_as_answers_are_asked_for(self) -> None:
        for many in self.each_way():
            read, given = [], ["resume"] * 2000
            answers = self.pattern.index_many(text for text in given if not read.append(text))
            self.assertEqual(read, [])
            next(answers)
            self.assertEqual(len(read), 512 if many else 1)
            self.assertEqual(sum(answer == (0, 6) for answer in answers), 1999)

    def test_an_iterable_that_fails(self) -> None:
        def texts():
            yield from ["resume", "none"]
            raise OSError("no more")
        for _ in self.each_way():
            answers = self.pattern.index_many(texts())
            self.assertEqual([next(answers), next(answers)], [(0, 6), None])
            self.assertRaisesRegex(OSError, "no more", next, answers)
            self.assertEqual(list(answers), [])

    def test_an_iterable_that_goes_on(self) -> None:
        """Its errors stand in the places of their texts, as by `map`."""
        data = [b"resume", b"\xff", b"a resume", b"\xff", b"\xff", b"none"]
        for _ in self.each_way():
            for ahead in 1, 2, 512:
                with patch.object(colfind, "_AHEAD", ahead):
                    answers = self.pattern.index_many(map(bytes.decode, data))
                    for wanted in (0, 6), UnicodeDecodeError, (2, 8), UnicodeDecodeError, UnicodeDecodeError, None:
                        if wanted is UnicodeDecodeError:
                            self.assertRaises(UnicodeDecodeError, next, answers)
                        else:
                            self.assertEqual(next(answers), wanted)
                    self.assertEqual(list(answers), [])

    def test_wrong_arguments(self) -> None:
        for _ in self.each_way():
            for call in self.pattern.index_many, self.pattern.search_many:
                for wrong in "abc", 7, None:
                    self.assertRaisesRegex(TypeError, "^texts is an iterable of texts, not ", call, wrong)
                for wrong in (["a", None], [1], [b"a", 1], [["a"]], [memoryview(b"abab")[::2]]):
                    answers = call(wrong)
                    with self.assertRaisesRegex(TypeError, "^text is a str, bytes, or an object with"):
                        list(answers)
            self.assertRaisesRegex(TypeError, "^chain", self.pattern.search_many, ["a"], 1)
            closed = memoryview(b"a")
            closed.release()
            self.assertRaisesRegex(ValueError, "released", list, self.pattern.index_many([closed]))
            with Pattern(self.table, "a") as freed:
                pass
            self.assertRaisesRegex(Fault, "^fault 82", list, freed.index_many(["a"]))

    def test_texts_that_lie(self) -> None:
        """Of themselves they say another length and other characters; what they are is searched."""
        lying = Lying("my resume")
        for _ in self.each_way():
            self.assertEqual(list(self.pattern.index_many([lying, "resume", lying])), [(3, 9), (0, 6), (3, 9)])

    def test_long_texts(self) -> None:
        texts = ["\u00e9" * 70_000 + "resume", "a", "x" * 9_000 + "resume"] * 2
        for _ in self.each_way():
            self.assertEqual(list(self.pattern.index_many(texts)), [(70_000, 70_006), None, (9_000, 9_006)] * 2)
            self.assertEqual(list(self.pattern.search_many(texts)), [[(70_000, 70_006)], [], [(9_000, 9_006)]] * 2)

    def test_texts_of_some_length(self) -> None:
        """They too are searched by few calls, whatever the lengths of their neighbours."""
        texts = ["\u6f22" * (i % 2_000) + "resume" for i in range(1_000)]
        for many in self.each_way():
            with patch.object(Pattern, "index", side_effect=self.pattern.index) as one:
                self.assertEqual(list(self.pattern.index_many(texts)), [(i, i + 6) for i in range(1_000)])
            self.assertEqual(one.call_count, 0 if many else 1_000)

    def test_a_long_neighbour(self) -> None:
        """It alone is searched by itself, and no call has more characters than it may have."""
        texts, sizes = ["x" * 70_000 + "resume", *["resume, resume"] * 600, "x" * 70_000, *["x" * 30_000 + "resume"] * 5], []

        def firsts(pattern, some):
            sizes.append(sum(map(len, some)))
            return by_calls(pattern, some)

        by_calls, wanted = Pattern._firsts_of, list(map(self.pattern.index, texts))
        for many in self.each_way():
            if many:
                with patch.object(Pattern, "index", side_effect=self.pattern.index) as one, patch.object(Pattern, "_firsts_of", firsts):
                    self.assertEqual(list(self.pattern.index_many(texts)), wanted)
                self.assertEqual(one.call_count, 2)
        self.assertLessEqual(max(sizes, default=0), 1 << 16)

    def test_memory_that_is_refused(self) -> None:
        """Then each text is asked for by itself, and what it needs is asked for again."""
        for many in self.each_way():
            if many:
                for refused in Fault(Kind.NO_MEMORY, 0), MemoryError():
                    with patch.object(Search, "_many_first", side_effect=refused), patch.object(Search, "_many_all", side_effect=refused):
                        self.assertEqual(list(self.pattern.index_many(["resume", "a"])), [(0, 6), None])
                        self.assertEqual(list(self.pattern.search_many(["resume", "a"])), [[(0, 6)], []])


if __name__ == "__main__":
    unittest.main()
