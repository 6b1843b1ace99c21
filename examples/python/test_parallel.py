"""Tests of colfind.py of one text by threads, in parts that begin at safe offsets, beside its search by one."""
import operator
import os
import random
import signal
import subprocess
import sys
import textwrap
import threading
import time
import tracemalloc
import unittest
from array import array
from mmap import ACCESS_READ, mmap
from pathlib import Path
from tempfile import NamedTemporaryFile, TemporaryDirectory
from unittest.mock import patch

import colfind
from colfind import Fault, Kind, Pattern, Search, Table

ROOT = Path(os.environ.get("REPOSITORY", Path(__file__).absolute().parents[2]))
LETTERS = ROOT / "docs" / "example" / "letters.txt"
PARTS = ["resume", "r\u00e9sum\u00e9", "re\u0301sume\u0301", "a", "aa", " ", "e", "\u00e9", "\u0301", "\u6f22", "c", "h",
         "\u00ad", "\ud800"]
SOUGHT = ["resume", "aa", "e", "a", "\u6f22", "a a", "ch", "\u00e9"]


def all_of(ranges) -> tuple[list[tuple[int, int]], tuple[int, int] | None]:
    """The ranges, and the fault behind them."""
    found = []
    try:
        for one in ranges:
            found.append(one)
    except Fault as fault:
        return found, (fault.kind, fault.at)
    return found, None


class ParallelTest(unittest.TestCase):
    def setUp(self) -> None:
        self.table = Table(LETTERS.read_bytes())
        self.pattern = Pattern(self.table, "aa", 1)

    def random_text(self, rng: random.Random, most: int) -> bytes:
        parts = PARTS[:-1] if rng.random() < 0.8 else PARTS
        return "".join(rng.choice(parts) for _ in range(rng.randrange(most))).encode("utf-8", "surrogatepass")

    def test_random_texts(self) -> None:
        """With parts of a few bytes, in each way, the ranges and the fault are those of one search."""
        rng = random.Random(1)
        for _ in range(300):
            data, chain, shifted = self.random_text(rng, 60), rng.random() < 0.5, rng.random() < 0.5
            pattern = Pattern(self.table, rng.choice(SOUGHT), rng.randrange(1, 4), shifted)
            wanted = all_of(pattern.search(data, chain))
            for workers in 1, rng.randrange(2, 5):
                self.assertEqual(all_of(pattern.search_parallel(data, workers, chain, rng.randrange(1, 30))), wanted, data)

    def test_parts_by_hand(self) -> None:
        """A text is cut anywhere, and what is found from part to part is what the text has."""
        rng = random.Random(2)
        for _ in range(200):
            data = self.random_text(rng, 40)
            pattern = Pattern(self.table, rng.choice(SOUGHT), rng.randrange(1, 4))
            places = [0, *sorted(rng.randrange(len(data) + 1) for _ in range(3)), len(data)]
            found, wanted = [], all_of(pattern.search(data))
            for start, end in zip(places, places[1:]):
                ranges, fault = all_of(pattern.search_part(data, start, end))
                found += ranges
                if fault:
                    break
            else:
                fault = None
            self.assertEqual((found, fault), wanted, data)

    def test_ends_of_parts(self) -> None:
        """They are moved behind marks, characters that are cut, and what may stand in a contraction; a part may be empty."""
        pattern, text = Pattern(self.table, "a", 1), "a\u0301hca\u00e1a".encode()
        self.assertEqual([list(pattern.search_part(text, 0, end)) for end in range(10)],
                         [[], *[[(0, 3)]] * 5, [(0, 3), (5, 6)], *[[(0, 3), (5, 6), (6, 8)]] * 2, [(0, 3), (5, 6), (6, 8), (8, 9)]])
        self.assertEqual([list(pattern.search_part(text, start, 6)) for start in range(1, 7)], [*[[(5, 6)]] * 5, []])
        self.assertEqual(list(pattern.search_part(b"h" * 9 + b"\xff", 3, 7)), [])

    def test_a_part_and_then_a_long_text(self) -> None:
        """What a part was read behind its end, or its fault, is of no account for the next text."""
        text = "b" * 70_000 + "aa" + "b" * 70_000
        for data in b"aab " * 1_000, b"aab " * 99 + b"\xff" + b"b" * 900:
            for end in 1, 200, 397:
                all_of(self.pattern.search_part(data, 0, end))
                self.assertEqual(self.pattern.index(text), (70_000, 70_002))

    def test_kinds_of_texts(self) -> None:
        """Files by their paths, mapped ones, bytes, and others, none of them copied; also empty ones, and those shorter than a part."""
        for text in b"", b"baab", b"aab " * 5_000:
            wanted = all_of(self.pattern.search(text))
            with NamedTemporaryFile() as file:
                file.write(text)
                file.flush()
                kinds = [text, bytearray(text), memoryview(text), Path(file.name), array("B", text)]
                if text:
                    kinds.append(mmap(file.fileno(), 0, access=ACCESS_READ))
                for data in kinds:
                    for size in 1_000, 1 << 22:
                        self.assertEqual(all_of(self.pattern.search_parallel(data, 2, part_bytes=size)), wanted)
                if text:
                    kinds.pop().close()  # nothing holds it
        with TemporaryDirectory() as folder:
            self.assertRaises(FileNotFoundError, self.pattern.search_parallel, Path(folder) / "none")
            os.mkfifo(pipe := Path(folder) / "pipe")
            writer = threading.Thread(target=pipe.write_bytes, args=(b"aa" * 5_000,))
            writer.start()
            self.assertEqual(len(list(self.pattern.search_parallel(pipe, 2, part_bytes=100))), 9_999)
            writer.join()

    def test_arguments_that_are_none(self) -> None:
        """Each gives an error that begins with the name of the argument, before anything is searched."""
        for error, name, call in [
            (TypeError, "text", lambda: self.pattern.search_parallel("a")), (TypeError, "text", lambda: self.pattern.search_parallel(None)),
            (TypeError, "text", lambda: self.pattern.search_parallel(memoryview(b"abab")[::2])),
            (TypeError, "workers", lambda: self.pattern.search_parallel(b"a", "2")),
            (ValueError, "workers", lambda: self.pattern.search_parallel(b"a", 0)),
            (TypeError, "chain", lambda: self.pattern.search_parallel(b"a", chain=1)),
            (TypeError, "part_bytes", lambda: self.pattern.search_parallel(b"a", part_bytes=1.5)),
            (ValueError, "part_bytes", lambda: self.pattern.search_parallel(b"a", part_bytes=0)),
            (TypeError, "text", lambda: self.pattern.search_part("a", 0, 1)),
            (TypeError, "start", lambda: self.pattern.search_part(b"a", None, 1)),
            (TypeError, "end", lambda: self.pattern.search_part(b"a", 0, 1.0)),
            *((ValueError, "start", lambda at=at: self.pattern.search_part(b"ab", *at)) for at in ((-1, 1), (0, 3), (2, 1), (3, 3))),
        ]:
            with self.assertRaises(error) as raised:
                call()
            self.assertEqual(str(raised.exception).split()[0], name, str(raised.exception))

    def test_by_as_many_threads_as_it_says(self) -> None:
        """Each has a search of its own, and all are in a call at once."""
        together, handles, call = threading.Barrier(3, timeout=60), set(), Search._part

        def of_three(search, *words):
            handles.add(id(search))
            together.wait()
            return call(search, *words)

        with patch.object(Search, "_part", of_three):
            self.assertEqual(len(list(self.pattern.search_parallel(b"aa b" * 9, 3, part_bytes=4))), 9)
        self.assertEqual(len(handles), 3)

    @unittest.skipIf(hasattr(sys, "_is_gil_enabled") and not sys._is_gil_enabled(), "this Python has no lock of the interpreter")
    def test_the_lock_is_let_go(self) -> None:
        """Unless another thread could change the bytes."""
        for kind, of_calls in (bytes, colfind._UNLOCKED), (bytearray, colfind._C):
            with patch.object(of_calls, "colfind_search_part", wraps=of_calls.colfind_search_part) as called:
                found = self.pattern.search_parallel(kind((b"aa" + b"b" * 8_998) * 4), 2, part_bytes=9_000)
                self.assertEqual(len(list(found)), 4)
            self.assertEqual(called.call_count, 4)

    def test_it_is_lazy(self) -> None:
        """Nothing is searched before the first range is asked for, then at most two parts a thread, and memory does not grow."""
        begun, call = [], Search._part
        with patch.object(Search, "_part", lambda *words: begun.append(words) or call(*words)):
            found = self.pattern.search_parallel(b"aa b" * 1_000, 2, part_bytes=40)
            self.assertEqual(begun, [])
            for ranges in range(1, 1_001):
                next(found)
                self.assertLessEqual(len(begun), (ranges - 1) // 10 + 5)
            self.assertRaises(StopIteration, next, found)
        text = b"aab " * (1 << 20)
        list(self.pattern.search_parallel(text, 2, part_bytes=1 << 14))
        tracemalloc.start()
        wanted = ((start, start + 2) for start in range(0, len(text), 4))
        self.assertTrue(all(map(operator.eq, self.pattern.search_parallel(text, 2, part_bytes=1 << 14), wanted)))
        self.assertLess(tracemalloc.get_traced_memory()[1], 2_000_000)
        tracemalloc.stop()

    def test_many_ranges_in_a_part(self) -> None:
        """A thread stops where it found some, and the one that takes them goes on: with each bound, in each way, what one search finds."""
        rng = random.Random(3)
        with patch.object(colfind, "_MOST_HELD", 4), patch.object(colfind, "_STEPS", 3), patch.object(colfind, "_LEAST_STEP", 3):
            for _ in range(200):
                data, chain = self.random_text(rng, 60) + b"aaa" * rng.randrange(9), rng.random() < 0.5
                pattern = Pattern(self.table, rng.choice(SOUGHT), rng.randrange(1, 4))
                found = pattern.search_parallel(data, rng.randrange(2, 5), chain, rng.randrange(4, 40))
                self.assertEqual(all_of(found), all_of(pattern.search(data, chain)), data)

    def test_memory_of_many_ranges(self) -> None:
        """Where each byte begins a range, those of few bytes are held, also by many threads that wait for the one that takes them."""
        code = f"""
            import colfind, resource, time
            with open({str(LETTERS)!r}, "rb") as file:
                pattern = colfind.Pattern(colfind.Table(file.read()), "a", 1)
            text, base = b"a" * (1 << 26), resource.getrusage(resource.RUSAGE_SELF).ru_maxrss
            for workers in 4, 16:
                found = pattern.search_parallel(text, workers)
                print(next(found))
                spent = -1.0
                while time.process_time() - spent > 0.01:  # until the threads wait
                    spent = time.process_time()
                    time.sleep(0.2)
                found.close()
                print(resource.getrusage(resource.RUSAGE_SELF).ru_maxrss - base)
            """
        words = [sys.executable, "-c", textwrap.dedent(code)]
        ran = subprocess.run(words, cwd=Path(colfind.__file__).parent, stdout=subprocess.PIPE, check=True, timeout=60)
        printed = ran.stdout.split(b"\n")
        self.assertEqual(printed[0], b"(0, 1)")
        self.assertLess(int(printed[1]), 200_000)
        self.assertLess(int(printed[3]), 200_000)

    def test_one_that_is_closed(self) -> None:
        """Its threads end, and the bytes can be changed."""
        before, data = threading.active_count(), bytearray(b"aa b" * 100_000)
        found = self.pattern.search_parallel(data, 4, part_bytes=1_000)
        self.assertEqual(next(found), (0, 2))
        self.assertGreater(threading.active_count(), before)
        self.assertRaises(BufferError, data.clear)
        found.close()
        self.assertEqual(threading.active_count(), before)
        data.clear()
        bad = bytearray(b"aa b" * 1_000 + b"\xff")
        try:
            list(self.pattern.search_parallel(bad, 2, part_bytes=1_000))
            self.fail("no error")
        except Fault as fault:
            self.assertEqual(fault.at, 4_000)
            bad.clear()
        never_begun = self.pattern.search_parallel(data + b"aa", 2, part_bytes=1)
        del never_begun
        self.assertEqual(threading.active_count(), before)

    def test_an_error_in_a_thread(self) -> None:
        """It stands where its part stands, and says which."""
        call = Search._part

        def fails(search, data, length, start, end):
            if start == 400:
                raise MemoryError("no more")
            return call(search, data, length, start, end)

        with patch.object(Search, "_part", fails):
            found = self.pattern.search_parallel(b"aa b" * 1_000, 3, part_bytes=40)
            self.assertEqual([next(found) for _ in range(100)], [(at, at + 2) for at in range(0, 400, 4)])
            with self.assertRaisesRegex(MemoryError, "no more") as raised:
                next(found)
            if hasattr(MemoryError, "add_note"):  # since 3.11
                self.assertEqual(raised.exception.__notes__, ["of the bytes 400 to 440 of the text"])
        self.assertEqual(threading.active_count(), 1)

    def test_memory_that_is_refused(self) -> None:
        for call in lambda: self.pattern.search_parallel(b"aa b" * 9, 2, part_bytes=4), lambda: self.pattern.search_part(b"aa b" * 99, 0, 4):
            with patch.object(colfind._C, "colfind_search_part", return_value=colfind._Status(Kind.NO_MEMORY, 0)):
                with self.assertRaises(Fault) as fault:
                    list(call())
            self.assertIs(fault.exception.kind, Kind.NO_MEMORY)
            self.assertEqual(next(call()), (0, 2))

    def test_behind_a_freed_table_and_pattern(self) -> None:
        with Table(LETTERS.read_bytes()) as table, Pattern(table, "aa") as pattern:
            begun = pattern.search_parallel(b"aa b" * 9, 2, part_bytes=4)
        self.assertEqual(len(list(begun)), 9)
        self.assertRaisesRegex(Fault, "^fault 82 at 0: it was freed", pattern.search_parallel, b"aa b" * 9, 2, False, 4)
        with Table(LETTERS.read_bytes()) as table:
            pattern = Pattern(table, "aa")
        self.assertEqual(len(list(pattern.search_parallel(b"aa b" * 9, 2, part_bytes=4))), 9)

    def test_an_interrupt(self) -> None:
        """Ctrl-C ends it, between parts, and so the program."""
        code = f"""
            import signal
            signal.signal(signal.SIGINT, signal.default_int_handler)  # as a terminal has it, also where a shell has it ignored
            import colfind
            with open({str(LETTERS)!r}, "rb") as file:
                pattern = colfind.Pattern(colfind.Table(file.read()), "aa", 1)
            text = b"aaaaaaab" * (1 << 23)
            print("begun", flush=True)
            while True:
                for _ in pattern.search_parallel(text, 2):
                    pass
            """
        words = [sys.executable, "-c", textwrap.dedent(code)]
        with subprocess.Popen(words, cwd=Path(colfind.__file__).parent, stdout=subprocess.PIPE, stderr=subprocess.PIPE) as begun:
            begun.stdout.readline()
            time.sleep(0.5)
            begun.send_signal(signal.SIGINT)
            _, said = begun.communicate(timeout=60)
        self.assertEqual((said.decode().strip().split("\n")[-1], begun.returncode), ("KeyboardInterrupt", -signal.SIGINT))


if __name__ == "__main__":
    unittest.main()
