"""Runs colfind and ICU over a text, and takes the processor time and the memory of each."""

import os
import re
import statistics
import subprocess
import tempfile

FOLDER = os.path.dirname(os.path.abspath(__file__))
LONG = 64_000_000  # the bytes that a text is repeated to
PIPE_BLOCK = 1 << 16


class NotInTime(Exception):
    """A run took longer than it may."""


def built_icu_search(folder):
    """The program over ICU, built if it is not there or older than its source."""
    source, program = os.path.join(FOLDER, "icu_search.c"), os.path.join(folder, "icu_search")
    if not os.path.exists(program) or os.path.getmtime(program) < os.path.getmtime(source):
        libraries = ["pkg-config", "--cflags", "--libs", "icu-i18n", "icu-uc"]
        flags = subprocess.run(libraries, stdout=subprocess.PIPE, check=True, text=True).stdout.split()
        subprocess.run(["cc", "-O2", "-Wall", "-Wextra", "-o", program, source, *flags], check=True)
    return program


def repeated(data, path):
    """A file with the text often enough for LONG bytes, and how often that is."""
    times = -(-LONG // len(data))
    with open(path, "wb") as file:
        for _ in range(times):
            file.write(data)
    return times


class Colfind:
    """A build of colfind, with a table."""

    def __init__(self, program, table, folder):
        self.program, self.table, self.folder = os.path.abspath(program), table, folder

    def words(self, row):
        options = ["--strength", str(row.strength)] + (["--variable", "shifted"] if row.is_shifted else [])
        return [self.program, "--table", self.table, *options, "--", row.pattern]

    def run(self, row, path):
        """The seconds of processor time, and what was printed."""
        with open(path, "rb") as text, tempfile.TemporaryFile() as printed:
            child = subprocess.Popen(self.words(row), stdin=text, stdout=printed)
            _, status, usage = os.wait4(child.pid, 0)
            child.returncode = os.waitstatus_to_exitcode(status)
            if child.returncode > 1:
                raise SystemExit(f"{self.program} ended with status {child.returncode} on {row.name}")
            printed.seek(0)
            return usage.ru_utime + usage.ru_stime, printed.read()

    def seconds(self, row, path, times):
        """The seconds for the text once: those of a text with it many times, less those of an empty text just before."""
        empty, _ = self.run(row, os.devnull)
        whole, _ = self.run(row, path)
        return max(whole - empty, 1e-4) / times

    def matches(self, row, data):
        path = os.path.join(self.folder, "once")
        with open(path, "wb") as file:
            file.write(data)
        return self.run(row, path)[1].count(b"\n")

    def megabytes(self, row, data, times):
        """The most memory of a run over the text a number of times, through a pipe."""
        words = ["/usr/bin/time", "-f", "%M", *self.words(row)]
        with tempfile.TemporaryFile() as complained:
            child = subprocess.Popen(words, stdin=subprocess.PIPE, stdout=subprocess.DEVNULL, stderr=complained)
            for _ in range(times):
                for place in range(0, len(data), PIPE_BLOCK):
                    child.stdin.write(data[place : place + PIPE_BLOCK])
            child.stdin.close()
            child.wait()
            complained.seek(0)
            return int(complained.read().split()[-1]) / 1024


class Icu:
    """The program over ICU."""

    summary = re.compile(r"ICU (\S+), UCA (\S+), bytes \d+, matches (\d+), seconds ([0-9.]+)")

    def __init__(self, program, most_seconds):
        self.program, self.most_seconds = program, most_seconds
        self.version = None

    def words(self, row, path):
        return [self.program, "-q", *(["-s"] if row.is_shifted else []), str(row.strength), row.pattern, path]

    def run(self, row, path):
        """The seconds of processor time of the search, and the number of matches."""
        try:
            ran = subprocess.run(self.words(row, path), stderr=subprocess.PIPE, text=True, timeout=self.most_seconds, check=True)
        except subprocess.TimeoutExpired as late:
            raise NotInTime from late
        version, weights, matches, seconds = self.summary.search(ran.stderr).groups()
        self.version = f"ICU {version} (UCA {weights})"
        return float(seconds), int(matches)

    def megabytes(self, row, path):
        words = ["/usr/bin/time", "-f", "%M", *self.words(row, path)]
        ran = subprocess.run(words, stderr=subprocess.PIPE, text=True, timeout=self.most_seconds, check=True)
        return int(ran.stderr.split()[-1]) / 1024


class Speed:
    """The megabytes a second of some runs."""

    def __init__(self, size, times):
        self.best = size / 1e6 / min(times)
        self.median = size / 1e6 / statistics.median(times)


class Result:
    """What came of a row: the speed of each build, that of ICU if it ended, and the numbers of matches on the same text."""

    def __init__(self, row, builds, icu, matches, icu_matches):
        self.row, self.builds, self.icu, self.matches, self.icu_matches = row, builds, icu, matches, icu_matches


def measured(row, data, icu_data, builds, icu, rounds, folder):
    """Runs the builds and ICU over a text, in turn."""
    long, once = os.path.join(folder, "long"), os.path.join(folder, "icu")
    times = repeated(data, long)
    with open(once, "wb") as file:
        file.write(icu_data)
    seconds, icu_runs, icu_ends = [[] for _ in builds], [], True
    for _ in range(rounds):
        for build, taken in zip(builds, seconds):
            taken.append(build.seconds(row, long, times))
        try:
            if icu_ends:
                icu_runs.append(icu.run(row, once))
        except NotInTime:
            icu_ends = False
    speeds = [Speed(len(data), taken) for taken in seconds]
    matches = [build.matches(row, icu_data) for build in builds]
    if not icu_ends:
        return Result(row, speeds, None, matches, None)
    return Result(row, speeds, Speed(len(icu_data), [took for took, _ in icu_runs]), matches, icu_runs[0][1])
