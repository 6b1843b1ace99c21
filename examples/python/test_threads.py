"""Tests of colfind.py among threads, in processes that were forked, and at the end of the interpreter."""
import os
import subprocess
import sys
import textwrap
import threading
import unittest
from concurrent.futures import ThreadPoolExecutor
from io import BytesIO
from mmap import ACCESS_READ, mmap
from pathlib import Path
from tempfile import TemporaryFile
from unittest.mock import patch

import colfind
from colfind import Fault, Pattern, Search, Table

ROOT = Path(os.environ.get("REPOSITORY", Path(__file__).absolute().parents[2]))
LETTERS = ROOT / "docs" / "example" / "letters.txt"
TEXT = b"x" * (1 << 22) + b"resume"
IGNORED = b"\xc2\xad" * (1 << 20)
TRIES = 100  # of what one try may miss where the machine does much else


def by_another_python(code: str, *options: str) -> tuple[str, str, int]:
    """What a program prints on its two streams that has a table, a pattern and a search, and its status."""
    front = f"""
        import os, sys, threading, time
        import colfind
        with open({str(LETTERS)!r}, "rb") as file:
            table = colfind.Table(file.read())
        pattern = colfind.Pattern(table, "resume", 1)
        search = colfind.Search(pattern)
        """
    words = [sys.executable, *options, "-c", textwrap.dedent(front) + textwrap.dedent(code)]
    done = subprocess.run(words, cwd=Path(colfind.__file__).parent, capture_output=True, text=True, timeout=300)
    return done.stdout, done.stderr, done.returncode


class Blocked:
    """A call of the library that has begun, and that goes on when it may."""

    def __init__(self, name: str) -> None:
        self.call, self.has_begun, self.may_go_on = getattr(colfind._UNLOCKED, name), threading.Event(), threading.Event()

    def __call__(self, *words: object) -> object:
        self.has_begun.set()
        self.may_go_on.wait(60)  # a test that fails ends all the same
        return self.call(*words)


class ThreadsTest(unittest.TestCase):
    def setUp(self) -> None:
        self.table = Table(LETTERS.read_bytes())
        self.pattern = Pattern(self.table, "resume", 1)

    def was_seen_under_way(self, call, tries: int) -> bool:
        """Whether this thread ran between the begin and the end of a call of another one, which gives nothing up but by that call."""
        for _ in range(tries):
            said = []
            thread = threading.Thread(target=lambda: said.append("begun") or call() or said.append("ended"))
            thread.start()
            seen = said[:]
            thread.join()
            if seen == ["begun"]:
                return True
        return False

    @unittest.skipIf(hasattr(sys, "_is_gil_enabled") and not sys._is_gil_enabled(), "this Python has no lock of the interpreter")
    def test_long_calls_let_the_lock_go(self) -> None:
        """Other threads run meanwhile. Not where these could change the bytes."""
        text, texts, interval = TEXT.decode(), ["\u00e9" * 90] * 5000, sys.getswitchinterval()
        with TemporaryFile() as file:
            file.write(TEXT)
            file.flush()
            with mmap(file.fileno(), 0, access=ACCESS_READ) as mapped, mmap(file.fileno(), 0) as written, memoryview(written) as view:
                sys.setswitchinterval(1000)
                try:
                    many = [lambda: list(self.pattern.index_many(texts)), lambda: list(self.pattern.search_many(texts))]
                    for call in (lambda: self.pattern.index(TEXT), lambda: self.pattern.index(text), lambda: self.pattern.index(mapped),
                                 lambda: self.pattern.index(memoryview(TEXT)), lambda: list(self.pattern.search(text)),
                                 lambda: Search(self.pattern).feed(TEXT), lambda: Search(self.pattern).first_in(TEXT),
                                 lambda: self.pattern.fullmatch(IGNORED), lambda: self.pattern.match(IGNORED.decode()),
                                 lambda: self.pattern.ends(TEXT[:-1]), lambda: self.pattern.last_before(text, len(text) - 1),
                                 lambda: Table(LETTERS.read_bytes() + b"#" * (1 << 22)), lambda: Pattern(self.table, "a" * 65_000),
                                 *(many if colfind._MANY else ())):
                        self.assertTrue(self.was_seen_under_way(lambda: call() and None, TRIES))
                    changing = bytearray(TEXT)
                    with view.toreadonly() as read_only:
                        for data in changing, memoryview(changing), memoryview(changing).toreadonly(), written, view, read_only:
                            self.assertFalse(self.was_seen_under_way(lambda: self.pattern.index(data) and None, 3))
                finally:
                    sys.setswitchinterval(interval)

    def test_threads_find_what_one_finds(self) -> None:
        """Over one table and one pattern, by all ways, with long texts and short ones."""
        texts = [f"{'x' * size} re\u0301sume\u0301 {'aa ' * (size % 7)}" for size in (1, 5_000, 70, 100_000, 3, 9_000, 4_090)]
        ways = [self.pattern.index, lambda text: self.pattern.index(text.encode()), lambda text: list(self.pattern.search(text)),
                lambda text: list(self.pattern.search(text.encode(), True)), lambda text: list(self.pattern.index_many([text] * 9)),
                lambda text: list(self.pattern.search_many([text] * 9)), lambda text: Pattern(self.table, "aa").index(text),
                lambda text: list(Search(self.pattern).feed(text.encode())), self.pattern.last_before, self.pattern.match,
                lambda text: self.pattern.last_before(text.encode()), lambda text: self.pattern.ends(text.encode()),
                lambda text: self.pattern.fullmatch("\u00ad" * len(text) + "resume")]
        jobs = [(way, text) for text in texts for way in ways] * 5
        wanted = [way(text) for way, text in jobs]
        with ThreadPoolExecutor(4) as pool:
            self.assertEqual(list(pool.map(lambda job: job[0](job[1]), jobs)), wanted)

    def test_calls_of_a_pattern_wait_for_none(self) -> None:
        """Four threads are in a call of it at once, each with a handle of its own; the next four take the same handles."""
        handles, together, call = [], threading.Barrier(4, timeout=60), colfind._UNLOCKED.colfind_first_in

        def of_four(handle, *words):
            handles.append(handle.at)
            together.wait()
            return call(handle, *words)

        with patch.object(colfind._UNLOCKED, "colfind_first_in", of_four), ThreadPoolExecutor(4) as pool:
            for _ in range(2):
                self.assertEqual(list(pool.map(self.pattern.index, [TEXT] * 4)), [(len(TEXT) - 6, len(TEXT))] * 4)
        self.assertEqual((len(set(handles[:4])), set(handles[4:])), (4, set(handles[:4])))

    def test_a_search_is_in_one_call_at_a_time(self) -> None:
        """Another one is an error, and changes nothing. At the end of a `with` the search is freed behind the call that has it."""
        with patch.object(colfind._UNLOCKED, "colfind_feed", Blocked("colfind_feed")) as blocked, ThreadPoolExecutor(1) as pool:
            with Search(self.pattern) as search:
                found = pool.submit(search.feed, b"resume, " + b"x" * 10_000)
                blocked.has_begun.wait(60)
                for call in (search.finish, search.stop, search.save, lambda: search.feed(b"a"), lambda: search.first_in(b"a"),
                             lambda: search.feed(bytearray(b"a")), lambda: search.first_in(bytearray(b"a")),
                             lambda: next(search.feed_file(BytesIO(b"a")))):
                    self.assertRaisesRegex(RuntimeError, "^a Search is in one call at a time", call)
                self.assertEqual(list(self.pattern.search("x resume")), [(2, 8)])
            blocked.may_go_on.set()
            self.assertEqual(list(found.result()), [(0, 6)])
            self.assertRaisesRegex(Fault, "^fault 82 at 0: it was freed", search.save)

    def test_a_pattern_is_freed_while_a_thread_has_it(self) -> None:
        """The call goes on, and gives its search back to nothing."""
        for name, call in [("colfind_first_in", lambda: pattern.index(TEXT)), ("colfind_pattern", lambda: Pattern(table, "a" * 9_000))]:
            table = Table(LETTERS.read_bytes())
            pattern = Pattern(table, "resume", 1)
            with patch.object(colfind._UNLOCKED, name, Blocked(name)) as blocked, ThreadPoolExecutor(1) as pool:
                answer = pool.submit(call)
                blocked.has_begun.wait(60)
                with pattern, table:
                    pass
                blocked.may_go_on.set()
                self.assertIn(getattr(answer.result(), "_made_of", answer.result())[0], (len(TEXT) - 6, table))
            for wrong in lambda: pattern.index("a"), lambda: pattern.index(TEXT), lambda: Pattern(table, "a"):
                self.assertRaisesRegex(Fault, "^fault 82 at 0: it was freed", wrong)

    def test_bytes_stay_while_a_call_has_them(self) -> None:
        """They can be let go behind it."""
        view = memoryview(TEXT)
        with patch.object(colfind._UNLOCKED, "colfind_first_in", Blocked("colfind_first_in")) as blocked, ThreadPoolExecutor(1) as pool:
            answer = pool.submit(self.pattern.index, view)
            blocked.has_begun.wait(60)
            try:
                self.assertRaises(BufferError, view.release)
            finally:
                blocked.may_go_on.set()
            self.assertEqual(answer.result(), (len(TEXT) - 6, len(TEXT)))
        view.release()

    def test_what_is_freed_can_be_lent_to_none(self) -> None:
        """A search is taken from those that are lent before it is freed, or a thread could take it meanwhile."""
        self.pattern.index("a")
        lent, freed = self.pattern._spare[False], []
        with patch.object(Search, "__exit__", lambda search: freed.append((search, search in lent))):
            self.pattern.__exit__()
        self.assertEqual([is_lent for _, is_lent in freed], [False])

    def test_a_forked_process(self) -> None:
        """It goes on with tables and patterns that threads of its parent were calling, and has an error for a search that one was."""
        code = """
            blocked, entered, held = threading.Event(), threading.Event(), threading.Event()
            real = colfind._UNLOCKED.colfind_feed
            def feed(*words):
                entered.set()
                blocked.wait()
                return real(*words)
            def hold():
                with colfind._LOCK:
                    held.set()
                    time.sleep(0.2)
            colfind._UNLOCKED.colfind_feed = feed
            threads = [threading.Thread(target=search.feed, args=(b"x" * 10_000,)), threading.Thread(target=hold)]
            for thread in threads:
                thread.start()
            entered.wait()
            held.wait()
            child = os.fork()
            if not child:
                try:
                    search.finish()
                except RuntimeError as wrong:
                    print(str(wrong)[:37])
                print(pattern.index("my resume"), list(pattern.index_many(["a resume"])), colfind.Pattern(table, "a").index("ba"))
                sys.stdout.flush()
                os._exit(0)
            os.waitpid(child, 0)
            blocked.set()
            for thread in threads:
                thread.join()
            print(list(search.finish()), pattern.index("my resume"))
            """
        wanted = "a Search is in one call at a time, an\n(3, 9) [(2, 8)] (1, 2)\n[] (3, 9)\n"
        self.assertEqual(by_another_python(code, "-W", "ignore"), (wanted, "", 0))

    def test_a_signal_amid_a_call(self) -> None:
        """Its handler may call what the thread was calling: that is an error of a search, and nothing stops."""
        code = """
            import signal
            def handler(*_):
                try:
                    search.save()
                except RuntimeError:
                    print("one call at a time")
                print(pattern.index("my resume"))
            signal.signal(signal.SIGALRM, handler)
            real = colfind._UNLOCKED.colfind_feed
            colfind._UNLOCKED.colfind_feed = lambda *words: (signal.raise_signal(signal.SIGALRM), real(*words))[1]
            print(list(search.feed(b"resume " + b"x" * 10_000)))
            """
        self.assertEqual(by_another_python(code), ("one call at a time\n(3, 9)\n[(0, 6)]\n", "", 0))

    @unittest.skipIf(sys.version_info < (3, 10), "Python 3.9 may break off between any two steps")
    def test_an_interrupted_call_takes_nothing_along(self) -> None:
        """A search and a pattern go on behind a KeyboardInterrupt, wherever it comes."""
        code = """
            import signal
            def handler(*_):
                global may_interrupt
                if may_interrupt:
                    may_interrupt = False
                    raise KeyboardInterrupt
            may_interrupt, text = False, b"my resume"
            signal.signal(signal.SIGALRM, handler)
            signal.setitimer(signal.ITIMER_REAL, 0.001, 0.0007)
            for _ in range(300):
                try:
                    may_interrupt = True
                    while True:
                        search.first_in(text)
                        pattern.index(text)
                except KeyboardInterrupt:
                    pass
            signal.setitimer(signal.ITIMER_REAL, 0)
            print(search.first_in(text), pattern.index(text))
            """
        self.assertEqual(by_another_python(code), ("(3, 9) (3, 9)\n", "", 0))

    def test_the_end_of_the_interpreter(self) -> None:
        """Whatever is left then, also in a thread that is in a call, goes without a word."""
        code = """
            import builtins
            class Cycle:
                pass
            found, many = pattern.search("a" * 100_000), pattern.index_many(["resume"] * 2_000)
            next(found, None), next(many)
            view = colfind._View("view", bytearray(b"abc"), "")
            kept = Cycle()
            kept.itself, kept.others = kept, (table, pattern, search, found, many, view)
            builtins.kept = sys.modules["kept"] = kept
            del colfind
            threading.Thread(target=pattern.index, args=(b"x" * 50_000_000,), daemon=True).start()
            """
        for options in [], ["-W", "error", "-X", "dev"], ["-OO"], ["-bb"]:
            self.assertEqual(by_another_python(code, *options), ("", "", 0))

    @unittest.skipIf(sys.version_info[:2] == (3, 12), "other interpreters of Python 3.12 load no ctypes")
    def test_subinterpreters(self) -> None:
        """Each has a module of its own, over one library."""
        code = """
            try:
                import _interpreters as interpreters
                run = interpreters.exec
            except ImportError:
                import _xxsubinterpreters as interpreters
                run = interpreters.run_string
            one = interpreters.create()
            run(one, '''if True:
                import sys
                sys.path.insert(0, "")
                import colfind
                with open(%r, "rb") as file:
                    table = colfind.Table(file.read())
                print(colfind.Pattern(table, "resume", 1).index("my resume"), flush=True)
                ''')
            interpreters.destroy(one)
            print(pattern.index("my resume"))
            """ % str(LETTERS)
        self.assertEqual(by_another_python(code, "-W", "ignore"), ("(3, 9)\n" * 2, "", 0))


if __name__ == "__main__":
    unittest.main()
