"""Refuses each request for memory of the program in turn, one a run, and each of the test programs.

    python3 refused_memory.py COLFIND [TESTS ..]

COLFIND is the built program, TESTS are built test programs (crates/NAME/out/NAME_tests). The answers allowed of the program are
that of ample memory, and fault 14, 24 or 36 at 0 with nothing printed. Of the tests those are run that are made for it: all of
layer_tests that read tables, where each file is read again after a refusal, and those that name refusals. A test may pass, or be
stopped by a refusal that met the test itself, or end with its error; nothing else. The test whose letters are to be kept though the
requests of the first 4,096 were refused is run with so many requests in a row refused too, from each one on.
"""

import os
import re
import signal
import struct
import subprocess
import sys
import tempfile
import time

FOLDER = os.path.dirname(os.path.abspath(__file__))
LETTERS = os.path.join(FOLDER, "..", "..", "docs", "example", "letters.txt")
REFUSALS = {b"colfind: fault %d at 0\n" % kind for kind in (14, 24, 36)}
REFUSED_TEST = re.compile(
    rb"\s*[a-z ]+: (.*Alloc(Error|Failed).*|TableFault \{ line: 0, kind: 14 \}|PatternFault \{ kind: 24 \}|StateFault \{ kind: 53 \}"
    rb"|TextFault \{ kind: 36, offset: 0 \}|Kind\(OutOfMemory\))\n"
)
MOST_SECONDS = 60  # of one run, and of all runs of one test
PLACES_TEST = "letters::refused_places_are_asked_for_again"
PLACES_REQUESTS = 131  # of the first 4,096 letters where each is refused


class Refuser:
    """Runs programs with one request refused."""

    def __init__(self, folder):
        self.library = os.path.join(folder, "refuse.so")
        self.count = os.path.join(folder, "count")
        source = os.path.join(FOLDER, "refuse.c")
        subprocess.run(["cc", "-shared", "-fPIC", "-O1", "-o", self.library, source], check=True)
        with open(self.count, "wb") as file:
            file.write(bytes(8))

    def run(self, words, data, number, in_a_row=1):
        """The status, both outputs, and how many requests there were; so many are refused from request `number` on, none for 0."""
        extra = {"LD_PRELOAD": self.library, "REQUEST_COUNT": self.count}
        extra |= {"REFUSED_REQUEST": str(number), "REFUSED_IN_A_ROW": str(in_a_row)}
        ran = subprocess.run(
            words, input=data, capture_output=True, check=False, env={**os.environ, **extra}, timeout=MOST_SECONDS
        )
        with open(self.count, "rb") as file:
            (requests,) = struct.unpack("<Q", file.read(8))
        return (ran.returncode, ran.stdout, ran.stderr), requests


# ---- the program


def element(first, second=0x20, third=2):
    return "[.%04X.%04X.%04X]" % (first, second, third)


def long_strings():
    """Strings of 1 to 64 letters `b`, a row of 128 elements, many longer strings of one first code point, and ranges."""
    lines = ["0062 " * length + "; " + element(0x1D00 + length) for length in range(2, 65)]
    lines += ["0078 ; " + element(0x1E00) * 128, "@implicitweights 17000..18AFF; FB00"]
    lines += ["0079 %04X ; %s" % (0x4E00 + number, element(0x2000 + number)) for number in range(300)]
    return "\n".join(lines) + "\n"


def runs(folder):
    """A name, the words after `--table FILE`, and the text of standard input, of each run."""

    def file(name, contents):
        path = os.path.join(folder, name)
        with open(path, "w", encoding="utf-8", newline="") as out:
            out.write(contents)
        return path

    table = ["--table", LETTERS]
    tailored = table + ["--tailor", file("longer", long_strings())]
    text = file("text", "a b aa re\u0301sume\u0301 " * 900)
    mixed = ("a b aa re\u0301sume\u0301 \u4e00\uac01 ch-c\u00adh u\u0327\u0301 " * 300).encode()
    yield "found", table + ["--strength", "1", "resume"], "r\u00e9sum\u00e9".encode()
    yield "overlapping", table + ["aa"], b"aaa"
    yield "not found", table + ["b"], b"aaa"
    yield "empty text", table + ["b"], b""
    yield "counted", table + ["--output", "count", "aa"], b"aaa"
    yield "marked", table + ["--output", "marks", "aa"], b"aaa"
    yield "shifted", table + ["--variable", "shifted", "ab"], b"a - b"
    yield "text file", table + ["--strength", "1", "resume", text], b""
    yield "long text, ASCII and marks", table + ["--strength", "1", "resume"], mixed
    yield "long text, every a", table + ["--output", "count", "a"], mixed
    yield "no text file", table + ["a", os.path.join(folder, "none")], b""
    yield "ill-formed text", table + ["a"], b"ab \xff"
    yield "incomplete text", table + ["a"], b"ab \xe2\x82"
    yield "long run of marks", table + ["--strength", "1", "e"], b"ae" + b"\xcc\x81" * 31
    yield "words at fault", table + ["--strength", "4", "a"], b"a"
    yield "no words", [], b"a"
    yield "no table file", ["--table", os.path.join(folder, "none"), "a"], b"a"
    yield "no tailor file", table + ["--tailor", os.path.join(folder, "none"), "a"], b"a"
    yield "line of the table at fault", ["--table", file("line", "0061 ; [.1C00.0020.0002]\n61\n"), "a"], b"a"
    two = "0061 ; [.1C00.0020.0002]\n0062 ; [.0000.0000.0002]\n"
    yield "table at fault", ["--table", file("whole", two), "a"], b"a"
    yield "line of the tailor at fault", table + ["--tailor", file("tailor", "0061 ; x\n"), "a"], b"a"
    yield "overlay at fault", table + ["--tailor", file("overlay", "0301 ; [.0000.0020.0002]\n"), "a"], b"a"
    replaced = file("replaced", "0062 ; [.1C00.0020.0008]\n0061 0061 ; [.1C05.0020.0002]\n")
    yield "rows replaced", table + ["--tailor", replaced, "--strength", "2", "a"], b"ab"
    yield "pattern without keys", table + ["--", ""], b"a"
    yield "pattern too long", table + ["a" * 65537], b"a"
    yield "pattern with a long run", table + ["\u0301" * 31], b"a"
    yield "pattern of the most bytes", table + ["a" * 65536], b"a" * 65537
    yield "long strings", tailored + ["b" * 64], b"b" * 200
    yield "long row", tailored + ["--output", "count", "xx"], b"xxx" * 50 + "x\u0301".encode() * 50
    yield "ranges", tailored + ["\U00017005"], "\U00017005a\U00017005".encode()


def allows(ample, answer):
    return answer == ample or (answer[0] == 2 and answer[1] == b"" and answer[2] in REFUSALS)


def sweep_program(refuser, colfind, folder):
    refused = wrong = number_of_runs = 0
    kinds = {}
    for name, words, data in runs(folder):
        ample, requests = refuser.run([colfind] + words, data, 0)
        for number in range(1, requests + 1):
            answer, _ = refuser.run([colfind] + words, data, number)
            refused += 1
            said = "as ample" if answer == ample else answer[2].decode(errors="replace").strip()
            kinds[said] = kinds.get(said, 0) + 1
            if not allows(ample, answer):
                wrong += 1
                print(f"wrong: {name}, request {number}: {answer}, with ample memory {ample}")
        number_of_runs += 1
        print(f"{name}: {requests} requests, status {ample[0]}", flush=True)
    said = ", ".join(f"{count} times {name}" for name, count in sorted(kinds.items()))
    print(f"program: {number_of_runs} runs, {refused} requests refused ({said}), {wrong} wrong answers", flush=True)
    return wrong


# ---- tests


def judge(answer):
    status, printed, complained = answer
    if status == 0 and b"test result: ok" in printed:
        return "passed"
    is_ended = status == -signal.SIGABRT or (status == 101 and b"its result gives status" in complained)
    if is_ended and REFUSED_TEST.match(complained):
        return "ended by the refusal"
    return "wrong"


def sweep_test(refuser, program, test):
    """How many refusals had each outcome, and how many requests were left when the time was over."""
    counts = {"passed": 0, "ended by the refusal": 0, "wrong": 0}
    ample, requests = refuser.run([program, test], b"", 0)
    if judge(ample) != "passed":
        print(f"{test}: not passed with ample memory")
        return {**counts, "wrong": 1}, 0
    start = time.monotonic()
    for number in range(1, requests + 1):
        answer, _ = refuser.run([program, test], b"", number)
        outcome = judge(answer)
        counts[outcome] += 1
        if outcome == "wrong":
            print(f"wrong: {test}, request {number}: {answer}")
        if time.monotonic() - start > MOST_SECONDS:
            return counts, requests - number
    return counts, 0


def sweep_places(refuser, program):
    """How many runs were wrong. In one run all requests for places of the first 4,096 letters are refused, and in place of the four
    with ample memory there are one more than those."""
    ample, requests = refuser.run([program, PLACES_TEST], b"", 0)
    most, counts = 0, {"passed": 0, "ended by the refusal": 0, "wrong": 0}
    for number in range(1, requests + 1):
        answer, made = refuser.run([program, PLACES_TEST], b"", number, PLACES_REQUESTS)
        outcome = judge(answer)
        counts[outcome] += 1
        if outcome == "passed":
            most = max(most, made)
        elif outcome == "wrong":
            print(f"wrong: {PLACES_TEST}, {PLACES_REQUESTS} requests from {number} on: {answer}")
    more = most - requests
    said = ", ".join(f"{count} {outcome}" for outcome, count in counts.items())
    print(f"{PLACES_TEST}: {PLACES_REQUESTS} requests in a row refused from each of {requests} on: {said}; {more} more made", flush=True)
    return counts["wrong"] + (judge(ample) != "passed") + (more != PLACES_REQUESTS - 3)


def is_made_for_refusals(test):
    return test.startswith("table::") or "::refused_" in test


def sweep_tests(refuser, program):
    name = os.path.basename(program)
    listed = subprocess.run([program, "--list"], capture_output=True, check=True).stdout.decode()
    totals = {"passed": 0, "ended by the refusal": 0, "wrong": 0}
    for test in re.findall(r"^(\S+): test$", listed, re.M):
        if is_made_for_refusals(test):
            counts, left = sweep_test(refuser, program, test)
            for outcome, count in counts.items():
                totals[outcome] += count
            if left:
                print(f"{name}, {test}: {left} requests not refused for want of time")
    said = ", ".join(f"{count} {outcome}" for outcome, count in totals.items())
    print(f"{name}: {sum(totals.values())} requests refused: {said}", flush=True)
    places = sweep_places(refuser, program) if f"{PLACES_TEST}: test" in listed.splitlines() else 0
    return totals["wrong"] + places


def main():
    if len(sys.argv) < 2:
        sys.exit(__doc__)
    with tempfile.TemporaryDirectory() as folder:
        refuser = Refuser(folder)
        wrong = sweep_program(refuser, os.path.abspath(sys.argv[1]), folder)
        wrong += sum(sweep_tests(refuser, os.path.abspath(program)) for program in sys.argv[2:])
    sys.exit(1 if wrong else 0)


main()
