"""Tests of limited.py, and that tests which send signals pass where a shell has these ignored:  python3 tools/test_limited.py"""

import os
import re
import signal
import subprocess
import sys
import tempfile
import unittest

import limited
from stream_tests import SIGNALS

TOOLS = os.path.dirname(os.path.abspath(__file__))
TOP = os.path.dirname(TOOLS)
LIMITED = os.path.join(TOOLS, "limited.py")
HANGS = """
import signal, subprocess, unittest

class Test(unittest.TestCase):
    most_seconds = 2

    def test_a_child_that_ends_by_no_signal(self):
        words = ["sh", "-c", "trap '' INT TERM; sleep 1000 & echo $$ $! | tee started; while :; do wait; done"]
        with subprocess.Popen(words, stdout=subprocess.PIPE) as child:
            child.stdout.readline()
            child.send_signal(signal.SIGINT)
            child.communicate(timeout=1)

    def test_another(self):
        self.assertEqual(subprocess.run(["true"]).returncode, 0)

    def test_itself(self):
        while True:
            pass
"""


def is_running(pid):
    try:
        with open(f"/proc/{pid}/stat", encoding="utf-8") as file:
            return file.read().rsplit(")", 1)[1].split()[0] != "Z"
    except OSError:
        return False


class LimitedTest(unittest.TestCase):
    def ran(self, folder, *words, **extra):
        """The status, and what is printed."""
        ran = subprocess.run([sys.executable, LIMITED, *words], cwd=folder, stdout=subprocess.PIPE, stderr=subprocess.STDOUT, text=True,
                             check=False, **extra)
        return ran.returncode, ran.stdout

    def test_tests_without_end(self):
        """They fail by their names, what they started is ended, and the other one passes."""
        with tempfile.TemporaryDirectory() as folder:
            with open(os.path.join(folder, "test_some.py"), "w", encoding="utf-8") as file:
                file.write(HANGS)
            status, printed = self.ran(folder)
            with open(os.path.join(folder, "started"), encoding="utf-8") as file:
                started = [int(word) for word in file.read().split()]
        self.assertEqual(re.findall(r"^FAIL: (\w+)", printed, re.M), ["test_a_child_that_ends_by_no_signal", "test_itself"])
        self.assertEqual(printed.count("NoEnd: no end in 2 seconds"), 2)
        self.assertIn("Ran 3 tests", printed)
        self.assertEqual((status, len(started), [pid for pid in started if is_running(pid)]), (1, 2, []))

    def test_part_without_end(self):
        """Of package/check and of the checks of integrations, which have their parts tried by it."""
        code = """
import subprocess, sys
sys.path.insert(0, "integrations")
import parts

def hangs():
    "It has no end."
    subprocess.run(["sh", "-c", "trap '' INT TERM; while :; do sleep 1; done"])

def passes():
    "It has one."

parts.checks.PARTS, parts.checks.MOST_SECONDS = [hangs, passes], 1
parts.checks.main()
"""
        ran = subprocess.run([sys.executable, "-c", code], cwd=TOP, stdout=subprocess.PIPE, text=True, check=False)
        wanted = ["hangs: It has no end.", "    FAILED: no end in 1 seconds", "passes: It has one.", "1 passed, 1 failed, 0 skipped"]
        self.assertEqual((ran.returncode, ran.stdout.splitlines()), (1, wanted))

    def test_signals_that_are_ignored(self):
        """As a shell has SIGINT ignored in a job that a script starts with `&`, and nohup SIGHUP."""
        ignore = {"preexec_fn": lambda: [signal.signal(number, signal.SIG_IGN) for number in SIGNALS]}
        for folder, *words in (TOOLS, "test_files", "test_show", "test_tailor"), (f"{TOP}/examples/python", "test_parallel"):
            status, printed = self.ran(folder, "-v", "-k", "interrupt", *words, **ignore)
            self.assertEqual((status, len(re.findall(r"^test_\w*interrupt.*", printed, re.M))), (0, 4 if words[1:] else 1), printed)


if __name__ == "__main__":
    subprocess.run([os.path.join(TOP, "examples", "python", "build")], check=True)
    limited.main()
