"""A limit of seconds for each test: one that has no end is ended with all that it started, fails by its name, and the others go on.

    python3 tools/limited.py [WORD..]        as `python3 -m unittest [WORD..]`, with the limit; files of tests call main()"""

import contextlib
import os
import re
import signal
import sys
import unittest

MOST_SECONDS = 180
AGAIN = 5  # seconds until what then waits is ended too


class NoEnd(AssertionError):
    """A test has no end."""


def descendants(pid):
    """The processes that a process has started, and those that they have."""
    parents = {}
    for name in filter(str.isdecimal, os.listdir("/proc")):
        with contextlib.suppress(OSError), open(f"/proc/{name}/stat", "rb") as file:
            parents[int(name)] = int(re.search(rb".*\) \S (\d+)", file.read(), re.S)[1])
    found, asked = [], [pid]
    while asked:
        asked = [child for child, parent in parents.items() if parent in asked]
        found += asked
    return found


def start(seconds):
    """From now on there are so many seconds, with 0 any. Where they are over, in whatever call, all processes are killed that this one has
    started, and the call raises NoEnd."""
    def end(*_):
        for pid in descendants(os.getpid()):
            with contextlib.suppress(ProcessLookupError):
                os.kill(pid, signal.SIGKILL)
        raise NoEnd(f"no end in {seconds} seconds")

    signal.signal(signal.SIGALRM, end)
    signal.setitimer(signal.ITIMER_REAL, seconds, AGAIN)


def stop():
    signal.setitimer(signal.ITIMER_REAL, 0)


class Result(unittest.TextTestResult):
    def startTest(self, test):
        super().startTest(test)
        start(getattr(test, "most_seconds", MOST_SECONDS))

    def stopTest(self, test):
        stop()
        super().stopTest(test)


class Runner(unittest.TextTestRunner):
    resultclass = Result


def main(module="__main__"):
    unittest.main(module, testRunner=Runner)


if __name__ == "__main__":
    sys.path[0] = os.getcwd()
    main(None)
