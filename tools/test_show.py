"""Tests of show, run over the script itself:  python3 tools/test_show.py"""

import importlib.machinery
import importlib.util
import os
import pty
import random
import signal
import subprocess
import tempfile
import unittest
from unittest import mock

import limited
from stream_tests import CLOSED, StreamTests, default_signals

TOOLS = os.path.dirname(os.path.abspath(__file__))
SHOW = os.path.join(TOOLS, "show")


def module():
    """The script as a module."""
    loader = importlib.machinery.SourceFileLoader("show", SHOW)
    made = importlib.util.module_from_spec(importlib.util.spec_from_loader("show", loader))
    loader.exec_module(made)
    return made


def common_lines(name):
    """The lines that show and tailor have in common."""
    with open(os.path.join(TOOLS, name), encoding="utf-8") as script:
        return script.read().split("# ----")[1]


class ShowTest(StreamTests, unittest.TestCase):
    script = SHOW
    usages = ["usage: colfind-show", "PATTERN FILE | colfind-show FILE\n"]

    def printing(self):
        path = self.file("ab\ncd\n" + "e" * 10_000)
        return [([SHOW, path], b"0:1\n"), ([SHOW, "-nH", path], b"0:1\n3:4\n10:20\n")]

    def setUp(self):
        self.folder = tempfile.TemporaryDirectory()
        self.addCleanup(self.folder.cleanup)

    def file(self, contents):
        path = os.path.join(self.folder.name, "text")
        with open(path, "wb") as out:
            out.write(contents if isinstance(contents, bytes) else contents.encode())
        return path

    def shown(self, contents, ranges, *options):
        """The status, what is printed and what is complained of."""
        words = [SHOW, *options, self.file(contents)]
        ran = subprocess.run(words, input=ranges.encode(), capture_output=True, check=False)
        return ran.returncode, ran.stdout, ran.stderr

    def prints(self, contents, ranges, wanted, *options):
        status, printed, complained = self.shown(contents, ranges, *options)
        self.assertEqual(printed, wanted if isinstance(wanted, bytes) else wanted.encode())
        self.assertEqual((status, complained), (0, b""))

    def test_lines_with_matches_alone(self):
        self.prints("ab\ncab\nd\nabab\n", "0:2\n4:6\n9:11\n11:13\n", "[ab]\nc[ab]\n[ab][ab]\n")

    def test_overlapping_ranges_are_one(self):
        self.prints("aaaa b\n", "0:2\n1:3\n", "[aaa]a b\n")

    def test_touching_ranges_are_two(self):
        self.prints("aaaa b\n", "0:2\n2:4\n", "[aa][aa] b\n")

    def test_range_that_spans_lines(self):
        self.prints("x\nab\n\ncd\ny\n", "3:7\n", "2:a[b\n3:\n4:c]d\n", "-n")

    def test_colour_ends_at_each_line(self):
        wanted = "a\x1b[1;31mb\x1b[m\n\x1b[1;31mc\x1b[m\n"
        self.prints("ab\nc\n", "1:4\n", wanted, "--mark", "colour")

    def test_line_of_two_ranges_that_span_lines(self):
        self.prints("ab\ncd\nef\ngh\n", "1:4\n4:7\n9:10\n", "a[b\nc][d\ne]f\n[g]h\n")

    def test_empty_ranges(self):
        self.prints("ab\ncd", "0:0\n1:1\n1:2\n5:5\n", "[]a[][b]\ncd[]\n")

    def test_range_that_ends_with_the_newline(self):
        self.prints("ab\ncd\n", "1:3\n", "a[b]\n")

    def test_other_scripts(self):
        self.prints("Ελλάς 東京\nया विद्यालय\n", "0:10\n11:14\n", "[Ελλάς] [東]京\n")

    def test_bytes_that_are_no_utf_8(self):
        self.prints(b"\xff\xfeab\x80\r\n\xc3", "2:4\n7:8\n", b"1:\xff\xfe[ab]\x80\r\n2:[\xc3]\n", "-n")

    def test_last_line_without_newline(self):
        self.prints("x\nab", "2:3\n", "[a]b\n")

    def test_line_numbers_and_name(self):
        path = self.file("")
        self.prints("x\nab\n\n\nab\n", "2:4\n7:9\n", f"{path}:2:[ab]\n{path}:5:[ab]\n", "-n", "-H")

    def test_no_marks(self):
        self.prints("xab\n", "1:3\n", "xab\n", "--mark", "none")

    def test_ranges_out_of_order(self):
        self.prints("ab\ncd\nef\n", "6:7\n0:1\n", "3:[e]f\n1:[a]b\n", "-n")

    def test_no_ranges(self):
        self.assertEqual(self.shown("ab\n", ""), (1, b"", b""))
        self.assertEqual(self.shown("", ""), (1, b"", b""))

    def test_status_for_pipefail(self):
        self.assertEqual(self.shown("ab\n", "", "--pipefail"), (0, b"", b""))
        self.assertEqual(self.shown("ab\n", "0:1\n", "--pipefail"), (0, b"[a]b\n", b""))
        self.assertEqual(self.shown("ab\n", "9:10\n", "--pipefail")[0], 2)

    def test_lines_before_a_wrong_one_are_printed(self):
        status, printed, complained = self.shown("ab\ncd\n", "0:1\n3:4\n3\n")
        self.assertEqual((status, complained), (2, b"show: not a range: 3\n"))
        self.assertEqual(printed, b"[a]b\n[c]d\n")

    def test_range_that_the_file_does_not_have(self):
        self.assertEqual(self.shown("ab\n", "1:4\n"), (2, b"", b"show: not in the file: 1:4\n"))

    def test_no_file(self):
        ran = subprocess.run([SHOW, "/none"], input=b"", capture_output=True, check=False)
        self.assertEqual((ran.returncode, ran.stdout), (2, b""))

    def test_long_file(self):
        lines = "x" * 99 + "\n"
        wanted = "30001:" + "x" * 99 + "\n"
        self.prints(lines * 40_000, "3000000:3000001\n", wanted, "-n", "--mark", "none")

    def test_prints_as_ranges_come(self):
        path = self.file("ab\ncd\n")
        with subprocess.Popen([SHOW, path], stdin=subprocess.PIPE, stdout=subprocess.PIPE) as child:
            child.stdin.write(b"0:1\n")
            child.stdin.flush()
            self.assertEqual(child.stdout.readline(), b"[a]b\n")
            with open(path, "ab") as text:
                text.write(b"ef\n")
            child.stdin.write(b"6:8\n")
            child.stdin.flush()
            self.assertEqual(child.stdout.readline(), b"[ef]\n")
            child.stdin.close()

    def test_colour_on_a_terminal(self):
        path = self.file("ab\n")
        main, terminal = pty.openpty()
        subprocess.run([SHOW, path], input=b"0:1\n", stdout=terminal, check=True)
        os.close(terminal)
        self.assertIn(b"\x1b[1;31ma\x1b[m", os.read(main, 1000))
        os.close(main)

    def test_input_that_fails(self):
        path = self.file("ab\n")
        complaint = self.complaint(f"standard input: {CLOSED}")
        self.assertEqual(self.redirected([SHOW, path], "<&-"), (2, b"", complaint))
        self.assertEqual(self.redirected([SHOW, path], "0> /dev/null"), (2, b"", complaint))
        self.assertEqual(self.redirected([SHOW, path], "<&- >&- 2>&-"), (2, b"", b""))
        self.assertEqual(self.redirected([SHOW, path], "<&- >&-"), (2, b"", complaint))
        complaint = self.complaint("standard input: Input/output error")
        self.assertEqual(self.ran_on_failing_input([SHOW, path], b"0:1\n"), (2, b"[a]b\n", complaint))

    def test_complaint_without_a_stream_is_not_printed(self):
        path = self.file("ab\n")
        self.assertEqual(self.redirected([SHOW, path], "2>&-", b"0:1\n3\n"), (2, b"[a]b\n", b""))

    def test_closed_output_that_is_not_used(self):
        self.assertEqual(self.redirected([SHOW, self.file("ab\n")], ">&-"), (1, b"", b""))

    def test_files_that_are_not_read(self):
        folder = self.folder.name
        self.assertEqual(self.ran([SHOW, folder], b"0:1\n"), (2, b"", self.complaint(f"{folder}: Is a directory")))
        self.assertEqual(self.ran([SHOW, "/none"], b"0:1\n"), (2, b"", self.complaint("/none: No such file or directory")))

    def test_names_that_would_act_on_a_terminal(self):
        """They are one line without a control; a byte that is not UTF-8 is printed as it is."""
        name = "/a\x1b]0;b\x07\n\x85\u2028\u202e\u2066\u200f\u061c\ufeff\U000e0041\udc9b\udcffb"
        wanted = b"/a\xef\xbf\xbd]0;b\xef\xbf\xbd\xffb"
        self.assertEqual(self.ran([SHOW, name]), (2, b"", self.complaint("NAME: No such file or directory").replace(b"NAME", wanted)))
        complained = self.ran([SHOW, "a", "b\x1bc\n"])[2]
        self.assertTrue(complained.endswith("unrecognized arguments: b\ufffdc\ufffd\n".encode()), complained)

    def test_file_that_gets_shorter(self):
        path = self.file("ab\n" + "x" * 500_000)
        with subprocess.Popen([SHOW, path], stdin=subprocess.PIPE, stdout=subprocess.PIPE, stderr=subprocess.PIPE) as child:
            child.stdin.write(b"0:1\n100000:500000\n")
            child.stdin.flush()
            self.assertEqual(child.stdout.readline(), b"[a]b\n")
            os.truncate(path, 100)
            child.stdin.close()
            self.assertEqual((child.wait(60), child.stderr.read()), (2, self.complaint(f"{path}: has got shorter")))

    def test_lines_that_are_no_ranges(self):
        for line in "9" * 5000 + ":1\n", "1:" + "9" * 5000, "x" * 300_000, "1:2:3", "-1:2", "1:2 ":
            self.assertEqual(self.shown("abcd\n", line), (2, b"", self.complaint("not a range: " + line.strip("\n")[:80])))

    def test_line_that_does_not_end(self):
        """It is complained of once it is longer than a range, and no more of it is held."""
        pipes = {"stdin": subprocess.PIPE, "stdout": subprocess.PIPE, "stderr": subprocess.PIPE}
        with subprocess.Popen([SHOW, self.file("ab\n")], **pipes) as child:
            child.stdin.write(b"9" * 100)
            child.stdin.flush()
            self.assertEqual((child.wait(60), child.stderr.read()), (2, self.complaint("not a range: " + "9" * 80)))

    def start(self, preexec_fn):
        """The script, which has begun and waits for ranges."""
        pipes = {"stdin": subprocess.PIPE, "stdout": subprocess.PIPE, "stderr": subprocess.PIPE}
        child = subprocess.Popen([SHOW, self.file("ab\n")], **pipes, preexec_fn=preexec_fn)
        child.stdin.write(b"0:1\n")
        child.stdin.flush()
        self.assertEqual(self.line_of(child.stdout), b"[a]b\n")
        return child

    def test_interrupt(self):
        with self.start(default_signals) as child:
            self.interrupted(child)

    def test_interrupt_that_is_ignored(self):
        with self.start(lambda: signal.signal(signal.SIGINT, signal.SIG_IGN)) as child:
            child.send_signal(signal.SIGINT)
            child.stdin.write(b"1:2\n")
            child.stdin.close()
            self.assertEqual((child.wait(60), child.stdout.read(), child.stderr.read()), (0, b"a[b]\n", b""))

    def test_lines_longer_than_a_block(self):
        first, second = "ä" * 100_000, "b" * 70_000
        ranges = "".join(f"{place}:{place + 2}\n" for place in range(0, 200_000, 20_000)) + "199998:200003\n"
        wanted = "".join("[ä]" + "ä" * 9_999 for _ in range(10))[:-1] + "[ä\n2:bb]" + "b" * 69_998 + "\n"
        self.prints(f"{first}\n{second}\nc", ranges, "1:" + wanted, "-n")
        self.prints(f"{first}\n{second}\nc", ranges.replace("199998:", "200001:"), wanted.replace("[ä\n2:bb]", "ä\n[bb]"))

    def test_lines_of_two_scripts_are_the_same(self):
        self.assertIn("def run(work):", common_lines("show"))
        self.assertEqual(common_lines("show"), common_lines("tailor"))

    def test_steps_of_a_long_line(self):
        """Each byte of a line is looked at some times, however many ranges the line has."""
        show = module()
        length, count = 40 * show.BLOCK, 2_000
        looked, written = [], []

        class Text(show.Text):
            def line_start(self, place):
                looked.append(place - (found := super().line_start(place)))
                return found

            def line_end(self, place):
                looked.append((found := super().line_end(place)) - place)
                return found

        def read(*words, pread=os.pread):
            looked.append(len(block := pread(*words)))
            return block

        text = Text(self.file("x\n" + "a" * length + "\ny\n"))
        shower = show.Shower(text, (b"", b""), b"", False)
        shower.write = written.append
        with mock.patch("os.pread", read):
            for place in range(count):
                start = place * (length // count) + 2
                shower.take(b"%d:%d" % (start, start + 3))
            shower.print()
        text.file.close()
        self.assertEqual(b"".join(written), b"a" * length + b"\n")
        self.assertLess(sum(looked), 6 * length)

    def test_sorted_ranges(self):
        """Where ranges come in order some alone are held, and what is printed is the same."""
        show, rng = module(), random.Random(1)
        for _ in range(100):
            path, end, ranges = self.file("".join(rng.choice("ab\n") for _ in range(60))), 0, []
            for start in sorted(rng.sample(range(56), rng.randrange(1, 50))):
                end = max(end, start + rng.randrange(5))
                ranges.append((start, end))
            for name, has_numbers in (b"", False), (b"name:", False), (b"name:", True):
                printed, marks = [], rng.choice([*show.MARKS.values()])
                for are_sorted in False, True:
                    text, written = show.Text(path), []
                    shower = show.Shower(text, marks, name, has_numbers, are_sorted)
                    shower.write = written.append
                    with mock.patch.object(show, "MOST_NUMBERS", 6):
                        for one in ranges:
                            shower.put(*one)
                            self.assertLessEqual(len(shower.waiting.ranges), 6 if are_sorted else 2 * len(ranges))
                        shower.print()
                    text.file.close()
                    printed.append(b"".join(written))
                self.assertEqual(printed[0], printed[1])

    def test_memory_for_a_long_line(self):
        """What the man page says: some 20 MB, and 16 bytes a range."""
        length = 200_000_000
        path = self.file("")
        os.truncate(path, length)
        with subprocess.Popen([SHOW, path], stdin=subprocess.PIPE, stdout=subprocess.DEVNULL) as child:
            child.stdin.write(b"".join(b"%d:%d\n" % (place, place + 1) for place in range(0, length, length // 100)))
            child.stdin.close()
            _, status, used = os.wait4(child.pid, 0)
            child.returncode = os.waitstatus_to_exitcode(status)
        self.assertEqual(child.returncode, 0)
        self.assertLess(used.ru_maxrss, 60_000)  # with what the process has of this one, from which it is made


if __name__ == "__main__":
    limited.main()
