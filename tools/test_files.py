"""Tests of files beside the built program, whose path COLFIND may say:  python3 tools/test_files.py"""

import contextlib
import importlib.machinery
import importlib.util
import io
import os
import random
import re
import resource
import shutil
import signal
import subprocess
import sys
import tempfile
import unittest
from concurrent.futures import ThreadPoolExecutor
from unittest import mock

import limited
from stream_tests import CLOSED, LARGE, SIGNALS, StreamTests, default_signals

TOOLS = os.path.dirname(os.path.abspath(__file__))
TOP = os.path.dirname(TOOLS)
FILES = os.environ.get("FILES", os.path.join(TOOLS, "files"))
COLFIND = os.path.abspath(os.environ.get("COLFIND", os.path.join(TOP, "crates", "colfind", "out", "colfind")))
LETTERS = os.path.join(TOP, "docs", "example", "letters.txt")
TABLE = ["--table", LETTERS, "--strength", "1"]
NOBODY = 65534
NOT_UTF_8 = b": the text is not UTF-8 here, or ends amid a character"


def module():
    """The script as a module."""
    loader = importlib.machinery.SourceFileLoader("files", FILES)
    made = importlib.util.module_from_spec(importlib.util.spec_from_loader("files", loader))
    loader.exec_module(made)
    return made


class FilesTest(StreamTests, unittest.TestCase):
    script = FILES
    usages = ["    colfind-files [OPTION..]", "| colfind-files --from0", "as colfind-show does"]
    def printing(self):
        path = self.write("printing", "resume\n" * 1_000)
        words = [FILES, *TABLE]
        return [
            ([*words, "resume", path], b""), ([*words, "--show", "-j2", "resume", path, path], b""),
            ([*words, "--from0", "--output=count", "resume"], path + b"\0" + path),
        ]

    def setUp(self):
        folder = tempfile.TemporaryDirectory()
        self.addCleanup(folder.cleanup)
        self.folder = os.fsencode(folder.name)
        os.chmod(self.folder, 0o755)

    def write(self, name, contents):
        path = os.path.join(self.folder, os.fsencode(name))
        with open(path, "wb") as out:
            out.write(contents if isinstance(contents, bytes) else contents.encode())
        return path

    def answer(self, *words, given=b"", **extra):
        """The status, what is printed and what is complained of."""
        ran = subprocess.run([FILES, *words], cwd=self.folder, input=given, capture_output=True, check=False, **extra)
        return ran.returncode, ran.stdout, ran.stderr

    def test_names_with_any_bytes(self):
        names = [b"a&b.txt", b"a|b.txt", b"a b.txt", b"%d%s%%.txt"]
        for name in [*names, b"a\nb.txt", b"a\\1b.txt", b"a'\"$b.txt", b"caf\xe9.txt", b"-a.txt", b"--.txt"]:
            self.write(name, "my résumé")
            for words in (["resume", "--", name], ["--", "resume", name], ["--jobs=2", "resume", b"./" + name]):
                wanted = words[-1] + b":3:11\n"
                self.assertEqual(self.answer(*TABLE, *words), (0, wanted, b""))
            self.assertEqual(self.answer(*TABLE, "--from0", "resume", given=name + b"\0"), (0, name + b":3:11\n", b""))
            shown = name + b":1:my [r\xc3\xa9sum\xc3\xa9]\n"
            self.assertEqual(self.answer(*TABLE, "--show", "-n", "resume", "--", name), (0, shown, b""))

    def test_zero_byte_behind_the_name(self):
        self.write(b"a\nb", "aresume")
        self.assertEqual(self.answer(*TABLE, "-Z", "resume", "a\nb"), (0, b"a\nb\x001:7\n", b""))

    def test_order_of_names(self):
        names = [str(number) for number in range(30)]
        for name in names:
            self.write(name, "resume" * (200 * (31 - int(name))))
        wanted = b"".join(f"{name}:{200 * (31 - int(name))}\n".encode() for name in names)
        for jobs in ("1", "4", "99"):
            self.assertEqual(self.answer(*TABLE, "-j", jobs, "--output", "count", "resume", *names), (0, wanted, b""))
        zeros = "\0".join(names).encode()
        self.assertEqual(self.answer(*TABLE, "--output=count", "--from0", "resume", given=zeros), (0, wanted, b""))

    def test_statuses(self):
        self.write("has", "resume")
        self.write("none", "nothing")
        self.assertEqual(self.answer(*TABLE, "resume", "none", "has"), (0, b"has:0:6\n", b""))
        self.assertEqual(self.answer(*TABLE, "resume", "none"), (1, b"", b""))
        self.assertEqual(self.answer(*TABLE, "--show", "resume", "none"), (1, b"", b""))
        self.assertEqual(self.answer(*TABLE, "--from0", "resume"), (1, b"", b""))

    def test_text_that_is_not_utf_8(self):
        self.write("latin1", b"resume, r\xe9sum\xe9\n")
        self.write("good", "resume\n")
        complaint = b"latin1: colfind: fault 31 at 9" + NOT_UTF_8 + b"\n"
        for jobs in ("1", "3"):
            printed = b"good:0:6\nlatin1:0:6\ngood:0:6\n"
            self.assertEqual(self.answer(*TABLE, "-j", jobs, "resume", "good", "latin1", "good"), (2, printed, complaint))
            printed = b"[resume]\n[resume], r\xe9sum\xe9\n[resume]\n"
            words = ["--show", "--no-name", "-j", jobs, "resume", "good", "latin1", "good"]
            self.assertEqual(self.answer(*TABLE, *words), (2, printed, complaint))
        self.write("bad", b"\xff")
        self.assertEqual(self.answer(*TABLE, "--show", "resume", "bad"), (2, b"", b"bad: colfind: fault 31 at 0" + NOT_UTF_8 + b"\n"))
        self.assertEqual(self.answer(*TABLE, "--output=count", "-Z", "resume", "latin1")[:2], (2, b"latin1\x001\n"))

    def test_folder_and_no_file(self):
        os.mkdir(os.path.join(self.folder, b"folder"))
        self.write("good", "resume\n")
        complaints = (b"folder: colfind: fault 41 at 0 (Is a directory)\n"
                      b"missing: colfind: fault 41 at 0 (No such file or directory)\n")
        self.assertEqual(self.answer(*TABLE, "resume", "folder", "missing", "good"), (2, b"good:0:6\n", complaints))
        self.assertEqual(self.answer(*TABLE, "--show", "resume", "folder", "missing", "good"), (2, b"good:[resume]\n", complaints))

    def test_unreadable_file(self):
        """Root may read all, and so becomes another user."""
        os.chmod(self.write("secret", "resume\n"), 0)
        self.write("good", "resume\n")
        extra = {}
        if os.geteuid() == 0:
            extra = {"user": NOBODY, "group": NOBODY, "extra_groups": [], "env": {**os.environ, "PATH": "/usr/bin:/bin"}}
            tried = subprocess.run(["/usr/bin/python3", FILES, "--help"], capture_output=True, check=False, user=NOBODY)
            if tried.returncode or not os.path.exists("/usr/bin/python3"):
                self.skipTest("no other user can read the script")
        complaint = b"secret: colfind: fault 41 at 0 (Permission denied)\n"
        for options, printed in ([], b"good:0:6\n"), (["--show"], b"good:[resume]\n"):
            self.assertEqual(self.answer(*TABLE, *options, "resume", "secret", "good", **extra), (2, printed, complaint))

    def test_faults_of_every_file(self):
        for name in "one", "two", "empty", "none":
            self.write(name, "resume" if name in ("one", "two") else "")
        for words, line in [
            (["--table", "missing", "resume"], b"missing: colfind: fault 43 at 0 (No such file or directory)\n"),
            (["--table", ".", "resume"], b".: colfind: fault 43 at 0 (Is a directory)\n"),
            (["--table", LETTERS, "--tailor", "missing", "resume"], b"missing: colfind: fault 44 at 0 (No such file or directory)\n"),
            (["--table", "one", "resume"], b"one: colfind: fault 1 at 1: a line of the table file is malformed\n"),
            (["--table", LETTERS, "--tailor=one", "resume"],
             b"one: colfind: fault 61 at 1: in the tailor, a line of the table file is malformed\n"),
            (["--table", "empty", "resume"], b"empty: colfind: fault 12 at 0: the table has no row\n"),
            (["--table", "empty", "--tailor", "none", "resume"], b"empty and none: colfind: fault 12 at 0: the table has no row\n"),
            ([*TABLE, ""], b"colfind: fault 22 at 0: the pattern has nothing that counts at this strength\n"),
        ]:
            for options in [], ["-j", "2"], ["--show"], ["--show", "-j9"]:
                self.assertEqual(self.answer(*options, *words, "one", "two"), (2, b"", line))

    def test_words_that_are_wrong(self):
        """The line says which, and does so before any file is read."""
        for words, said in [
            ([], "there is no PATTERN"), (["resume"], "there is no FILE behind the PATTERN resume"),
            (["--from0", "resume", "one"], "there is a FILE beside --from0"), (["--none", "resume", "one"], "option --none not recognized"),
            (["-j", "0", "resume", "one"], "no number of jobs: 0"), (["-n", "resume", "one"], "-n and --mark go with --show"),
            (["--show", "--output", "count", "resume", "one"], "--output does not go with --show"),
            (["--show", "--mark", "x", "resume", "one"], "no kind of mark: x"), (["--tailor"], "option --tailor requires argument"),
            (["--strength", "1", "resume", "one"], "--strength is given more than once"),
            (["--variable=none", "resume", "one"], "--variable takes non-ignorable or shifted, and not 'none'"),
            (["--select=", "resume", "one"], "--select takes all or chain, and not ''"),
            ([b"r\xe9sum\xe9", "one"], "the PATTERN is not UTF-8: r\udce9sum\udce9"),
            ([b"--tailor=\xff", "resume", "one"], "--tailor is not UTF-8: \udcff"),
        ]:
            complaint = self.complaint(f"{said} (--help says more)")
            self.assertEqual(self.answer(*TABLE, *words), (2, b"", complaint), words)
        for words, said in [
            (["resume", "one"], "there is no --table TABLE"), (["--from0", "resume"], "there is no --table TABLE"),
            (["--table=none", "--strength=4", "resume", "one"], "--strength takes 3, 2 or 1, and not '4'"),
        ]:
            self.assertEqual(self.answer(*words), (2, b"", self.complaint(f"{said} (--help says more)")), words)

    def test_names_in_complaints(self):
        """Nothing of them acts on a terminal, and each complaint is a line."""
        for name, shown in [
            (b"a\nb", "a\ufffdb"), (b"\x1b]0;x\x07\x1bc", "\ufffd]0;x\ufffdc"), (b"\xc2\x9b2J\x7f", "\ufffd2J\ufffd"),
            (b"\xff\x9b", "\udcff\ufffd"), ("\u202egpj.\u2028".encode(), "\ufffdgpj.\ufffd"),
            ("caf\u00e9 \u6f22".encode(), "caf\u00e9 \u6f22"),
        ]:
            self.write(name, b"\xff")
            shown = os.fsencode(shown)
            self.assertEqual(self.answer(*TABLE, "resume", name), (2, b"", shown + b": colfind: fault 31 at 0" + NOT_UTF_8 + b"\n"))
            lacks = b": colfind: fault 41 at 0 (No such file or directory)\n"
            for options in [], ["--show", "-j2"]:
                self.assertEqual(self.answer(*TABLE, *options, "resume", name + b"-"), (2, b"", shown + b"-" + lacks))
            complaint = b"files: no number of jobs: " + shown + b" (--help says more)\n"
            self.assertEqual(self.answer(*TABLE, "--jobs", name, "resume", "x"), (2, b"", complaint))
            if b"\xff" not in name:  # for colfind takes no such words
                malformed = b": colfind: fault 1 at 1: a line of the table file is malformed\n"
                self.assertEqual(self.answer("--table", name, "resume", name), (2, b"", shown + malformed))

    def test_lines_that_are_gone(self):
        """A file that gets shorter while it is searched, here at once, has no lines to show."""
        path, files = self.write("one", "resume"), module()
        words = files.Words([*TABLE, "--show", "resume", "one"])
        sought = files.Sought(words, files.library())

        class Search:
            @staticmethod
            def feed(_):
                os.truncate(path, 0)
                return iter([(0, 6)])
        out = mock.Mock(wraps=io.BytesIO())
        with mock.patch.object(sought, "search", Search):
            self.assertEqual(files.search_file(sought, path, out), (2, b"show: not in the file: 0:6"))
        out.write.assert_not_called()

    def test_no_library(self):
        """One line, and none of Python's own. A file that is no library stands for it, where the system has one."""
        self.write("one", "resume")
        for name in "bin", "lib/colfind":
            os.makedirs(os.path.join(self.folder, name.encode()))
        for name in "show", "files":
            shutil.copy(os.path.join(TOOLS, name), os.path.join(self.folder, b"bin", f"colfind-{name}".encode()))
        shutil.copy(os.path.join(TOP, "examples/python/colfind.py"), os.path.join(self.folder, b"lib/colfind/colfind.py"))
        self.write("lib/colfind/libcolfind.so.1", "")
        called = os.path.join(self.folder, b"bin/colfind-files")
        status, printed, complained = self.ran([called, *TABLE, "resume", "one"], cwd=self.folder)
        self.assertEqual((status, printed, complained.count(b"\n")), (2, b"", 1))
        self.assertIn(b"colfind-files: the library of colfind can't be loaded: ", complained)
        self.assertEqual(self.ran([called, "--version"])[::2], (0, b""))
        self.assertEqual(sorted(os.listdir(os.path.join(self.folder, b"lib/colfind"))), [b"colfind.py", b"libcolfind.so.1"])

    def test_much_output(self):
        self.write("a", "a" * 100_000)
        for options in [], ["-j", "4"]:
            status, printed, _ = self.answer(*TABLE, *options, "a", "a", "a", "a")
            self.assertEqual((status, printed.count(b"\n"), len(set(printed.split(b"\n")))), (0, 300_000, 100_001))

    def test_reader_that_ends(self):
        self.write("a", "a" * 300_000)
        words = [FILES, *TABLE, "a", "a", "a"]
        with subprocess.Popen(words, cwd=self.folder, stdout=subprocess.PIPE) as ran:
            self.assertEqual(ran.stdout.readline(), b"a:0:1\n")
            ran.stdout.close()
            self.assertNotIn(ran.wait(60), (0, 1))

    def test_input_that_fails(self):
        complaint = self.complaint(f"standard input: {CLOSED}")
        for options in [], ["--show"], ["-j9"]:
            words = [FILES, *TABLE, *options, "--from0", "resume"]
            self.assertEqual(self.redirected(words, "<&-"), (2, b"", complaint))
            self.assertEqual(self.redirected(words, "0> /dev/null"), (2, b"", complaint))
            self.assertEqual(self.redirected(words, "<&- >&-"), (2, b"", complaint))
            self.assertEqual(self.redirected(words, "<&- >&- 2>&-"), (2, b"", b""))

    def test_input_that_fails_behind_some_names(self):
        path = self.write("one", "resume")
        for options in [], ["-j9"]:
            answer = self.ran_on_failing_input([FILES, *TABLE, *options, "--from0", "resume"], path + b"\0" + path + b"\0" + path)
            self.assertEqual(answer, (2, (path + b":0:6\n") * 2, self.complaint("standard input: Input/output error")))

    def test_name_without_end(self):
        path = self.write("one", "resume")
        for options in [], ["-j9"]:
            answer = self.ran([FILES, *TABLE, *options, "--from0", "resume"], path + b"\0" + b"x" * 50_000_000)
            self.assertEqual(answer, (2, path + b":0:6\n", self.complaint("standard input: a name of more than 65536 bytes")))

    def test_closed_streams_that_are_not_used(self):
        path = self.write("one", "my resume")
        for options, printed in ([], b":3:9\n"), (["--show", "-j2"], b":my [resume]\n"):
            self.assertEqual(self.redirected([FILES, *TABLE, *options, "resume", path], "<&- 2>&-"), (0, path + printed, b""))
            self.assertEqual(self.redirected([FILES, *TABLE, *options, "missing", path], "<&- >&-"), (1, b"", b""))

    def test_text_that_is_a_closed_stream(self):
        """It is no empty text."""
        status, printed, complained = self.redirected([FILES, *TABLE, "resume", "/dev/stdin"], "<&-")
        self.assertEqual((status, printed, complained[:33]), (2, b"", b"/dev/stdin: colfind: fault 41 at "))

    def test_complaints_that_fail(self):
        """The other files are searched, and the status tells."""
        path, bad = self.write("one", "resume"), self.write("bad", b"\xff")
        for redirection in "2>&-", "2> /dev/full":
            for options, printed in ([], b":0:6\n"), (["--show", "-j2"], b":[resume]\n"):
                words = [FILES, *TABLE, *options, "resume", "/none", bad, path]
                self.assertEqual(self.redirected(words, redirection), (2, path + printed, b""))
                self.assertEqual(self.redirected([FILES, *options, "--table=/none", "resume", path], redirection), (2, b"", b""))

    def test_lines_longer_than_a_piece(self):
        """Each has the name before it once, and its end is where it was."""
        text = "a" * 100_000 + "\n" + "b" * 200_000 + "\na"
        self.write("long", text)
        marked = "".join("[a]" if letter == "a" else letter for letter in text).encode()
        wanted = b"".join(b"long:" + line + b"\n" for line in marked.split(b"\n") if b"a" in line)
        self.assertEqual(self.answer(*TABLE, "--show", "a", "long"), (0, wanted, b""))

    def test_temporary_file_that_fails(self):
        with ThreadPoolExecutor() as pool, self.fifo():
            pool.submit(self.write, "fifo", "my resume\n" * 10_000)
            limit = {"preexec_fn": lambda: resource.setrlimit(resource.RLIMIT_FSIZE, (1_000, 1_000))}
            answer = self.answer(*TABLE, "--show", "resume", "fifo", timeout=60, **limit)
            self.assertEqual(answer, (2, b"", self.complaint(f"temporary file: {LARGE}")))

    def test_one_line_with_many_ranges(self):
        count = 200_000
        self.write("long", "a" * count)
        self.assertEqual(self.answer(*TABLE, "--show", "-n", "a", "long"), (0, b"long:1:" + b"[a]" * count + b"\n", b""))
        lines = b"".join(b"long:[%d\nlong:]%d\n" % (at, at + 1) for at in range(count))
        self.assertEqual(self.answer(*TABLE, "--output=marks", "a", "long"), (0, lines, b""))

    def test_as_the_program(self):
        """Random texts in many files, each beside what the program prints of it."""
        rng = random.Random(1)
        parts = ["resume", "r\u00e9sum\u00e9", "re\u0301sume\u0301", "a", "aa", " ", "-", "e\u0301", "\n", "x" * 70_000, "\u6f22"]
        names = [f"text {number}" for number in range(20)]
        for name in names:
            text = "".join(rng.choice(parts) for _ in range(rng.randrange(60))).encode()
            self.write(name, text + rng.choice([b"", b"", b"", b"\xff", b"\xc3", "e\u0301".encode() + b"\xcc\x81" * 31]))
        for number in range(40):
            options = ["--table", LETTERS, f"--strength={rng.choice('123')}"]
            options += rng.choice([[], ["--output=marks"], ["--output=count"], ["--output=ranges"]])
            options += rng.choice([[], ["--select=chain"]]) + rng.choice([[], ["--variable=shifted"]])
            options += ["--", rng.choice(["resume", "aa", "r\u00e9sum\u00e9", "a", "e res"])]
            wanted, statuses, faults = b"", set(), []
            for name in names:
                with open(os.path.join(self.folder, name.encode()), "rb") as text:
                    ran = subprocess.run([COLFIND, *options], stdin=text, capture_output=True, check=False)
                wanted += b"".join(name.encode() + b":" + line + b"\n" for line in ran.stdout.splitlines())
                statuses.add(ran.returncode)
                faults += [name.encode() + b": " + line for line in ran.stderr.splitlines()]
            status, printed, complained = self.answer(*(["-j3"] if number % 2 else []), *options, *names)
            self.assertEqual((status, printed), (2 if 2 in statuses else min(statuses), wanted), options)
            self.assertEqual([re.match(rb".* at \d+", line)[0] for line in complained.splitlines()], faults)

    @contextlib.contextmanager
    def fifo(self):
        """A FIFO, and at the end of the `with` it is gone. Its other end is opened without a wait."""
        path = os.path.join(self.folder, b"fifo")
        os.mkfifo(path)
        try:
            yield path
        finally:
            os.close(os.open(path, os.O_RDWR | os.O_NONBLOCK))  # whoever waits for its other end goes on
            os.unlink(path)

    def test_fifo(self):
        for options, printed in ([], b"fifo:3:9\nfifo:10:16\n"), (["--show", "-n"], b"fifo:1:my [resume]\nfifo:2:[resume]\n"):
            for jobs in "1", "2":
                with ThreadPoolExecutor() as pool, self.fifo():
                    writer = pool.submit(self.write, "fifo", "my resume\nresume\n" + "x\n" * 100_000)
                    answer = self.answer(*TABLE, *options, "-j", jobs, "resume", "fifo", timeout=60)
                    writer.result()
                    self.assertEqual(answer, (0, printed, b""))

    def test_fifo_that_nobody_writes(self):
        self.write("one", "resume")
        for options, printed in ([], b"one:0:6\n"), (["--show"], b"one:[resume]\n"), (["-j3"], b"one:0:6\n"):
            with self.fifo():
                complaint = b"fifo: colfind: fault 41 at 0 (no process writes to it)\n"
                self.assertEqual(self.answer(*TABLE, *options, "resume", "fifo", "one", timeout=60), (2, printed, complaint))

    def test_fifo_without_a_byte(self):
        with ThreadPoolExecutor() as pool, self.fifo():
            pool.submit(self.write, "fifo", "")
            self.assertEqual(self.answer(*TABLE, "--show", "resume", "fifo", timeout=60), (1, b"", b""))

    @contextlib.contextmanager
    def waiting(self, *words, given=b"", **extra):
        """A search that reads a FIFO, and what is written there."""
        extra = {"stdout": subprocess.PIPE, "stderr": subprocess.PIPE, "preexec_fn": default_signals, **extra}
        with self.fifo() as path, subprocess.Popen([FILES, *TABLE, *words], cwd=self.folder, stdin=subprocess.DEVNULL, **extra) as child:
            with open(path, "r+b", buffering=0) as stream:  # as a reader too, so that it is opened at once
                try:
                    stream.write(given)
                    yield child, stream
                finally:
                    stream.close()
                    child.kill()

    def test_prints_as_ranges_come(self):
        for options, head in ([], b"3:9\n"), (["--show"], b"my [resume]\n"), (["-j2", "--show"], b"my [resume]\n"):
            with self.waiting(*options, "resume", "fifo", given=b"my resume\nxx") as (child, stream):
                self.assertEqual(self.line_of(child.stdout), b"fifo:" + head)
                stream.close()
                self.assertEqual((child.wait(60), child.stdout.read(), child.stderr.read()), (0, b"", b""))

    def test_interrupt(self):
        for number in SIGNALS:
            for options in [], ["--show"], ["-j3"]:
                with self.waiting(*options, "resume", "fifo", "none", given=b"resume\nxx") as (child, _):
                    self.line_of(child.stdout)
                    self.interrupted(child, number)

    def test_signals_that_are_ignored(self):
        """As nohup has SIGHUP ignored, and a shell SIGINT for what it starts in the background."""
        ignore = {"preexec_fn": lambda: [signal.signal(number, signal.SIG_IGN) for number in SIGNALS]}
        with self.waiting("resume", "fifo", given=b"resume\nxx", **ignore) as (child, stream):
            self.assertEqual(self.line_of(child.stdout), b"fifo:0:6\n")
            for number in SIGNALS:
                child.send_signal(number)
            stream.write(b" resume\n")
            stream.close()
            self.assertEqual((child.wait(60), child.stdout.read(), child.stderr.read()), (0, b"fifo:10:16\n", b""))

    def test_output_that_fails_while_others_wait(self):
        one = self.write("one", "resume\n" * 50_000)
        with open("/dev/full", "wb") as full, self.waiting("-j3", "resume", one, "fifo", one, stdout=full) as (child, _):
            complaint = self.complaint("standard output: No space left on device")
            self.assertEqual((child.wait(60), child.stderr.read()), (2, complaint))

    def test_reader_that_ends_while_others_wait(self):
        one = self.write("one", "resume\n" * 50_000)
        with self.waiting("-j3", "resume", one, "fifo", one) as (child, _):
            child.stdout.close()
            self.assertEqual((child.wait(60), child.stderr.read()), (-signal.SIGPIPE, b""))

    def test_files_that_do_not_say_their_size(self):
        with open("/proc/cpuinfo", "rb") as file:
            wanted = [line for line in file.read().splitlines() if b"processor" in line]
        status, printed, complained = self.answer("--table", LETTERS, "--show", "--mark=none", "--no-name", "processor", "/proc/cpuinfo")
        self.assertEqual((status, printed.splitlines(), complained), (0, wanted, b""))

    def events(self, *words):
        """What an answer is, and what the process did of what Python tells: the files that it opened, and the processes."""
        script = f"""
import os, runpy, sys
log = os.open({os.path.join(os.fsdecode(self.folder), 'events')!r}, os.O_WRONLY | os.O_CREAT | os.O_TRUNC)
TOLD = ("open", "subprocess.Popen", "os.fork", "os.forkpty", "os.exec", "os.posix_spawn", "os.system")
sys.addaudithook(lambda name, values: name in TOLD and os.write(log, f"{{name}} {{values[0]!r}}\\n".encode()))
sys.argv = {[FILES, *words]!r}
runpy.run_path({FILES!r}, run_name="__main__")
"""
        answer = self.ran([sys.executable, "-c", script], cwd=self.folder)
        with open(os.path.join(self.folder, b"events"), encoding="utf-8") as log:
            return answer, log.read().splitlines()

    def test_one_process_that_reads_the_table_once(self):
        for name in "one", "two", "three":
            self.write(name, "resume")
        for options in [], ["--show"], ["-j2"]:
            answer, events = self.events(*TABLE, *options, "nothing", "one", "two", "three")
            self.assertEqual(answer, (1, b"", b""))
            self.assertEqual([event for event in events if not event.startswith("open ")], [])
            self.assertEqual(len([event for event in events if LETTERS in event]), 1, events)
            self.assertTrue([event for event in events if "'three'" in event])

    def test_memory(self):
        """It does not grow with the text, nor with the ranges that are printed."""
        os.truncate(self.write("zeros", ""), 200_000_000)
        self.write("many", "a" * 2_000_000 + "\n")
        for words in ["a", "zeros"], ["--show", "a", "zeros"], ["-j2", "--output=marks", "a", "many", "many", "many"]:
            with subprocess.Popen([FILES, *TABLE, *words], cwd=self.folder, stdout=subprocess.DEVNULL) as child:
                _, status, used = os.wait4(child.pid, 0)
                child.returncode = os.waitstatus_to_exitcode(status)
            self.assertEqual(child.returncode, 0 if "many" in words else 1)
            self.assertLess(used.ru_maxrss, 90_000)  # with what the process has of this one, from which it is made


if __name__ == "__main__":
    if not os.path.exists(COLFIND):
        sys.exit(f"there is no {COLFIND}: run `rt run` in crates/colfind")
    subprocess.run([os.path.join(TOP, "examples", "python", "build")], check=True)
    limited.main()
