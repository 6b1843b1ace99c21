"""How long colfind takes over hostile tables and texts, and that it answers what it must there.

    python3 figures.py COLFIND [tables|texts]

Each figure is processor time, the best of three runs; seconds of one program beside those of another only mean something
in one run of this script. A line that begins with `wrong` is an answer that is not the one that must come.
"""

import os
import random
import subprocess
import sys
import tempfile
import unicodedata

LETTERS = os.path.join(os.path.dirname(os.path.abspath(__file__)), "..", "..", "docs", "example", "letters.txt")
MEGABYTE = 1 << 20
PLAIN_MEGABYTES = 64  # that the time of plain text is measured over
ROUNDS = 3


class Bench:
    """Runs the program over files of a folder of its own."""

    def __init__(self, colfind, folder):
        self.colfind, self.folder, self.wrong = colfind, folder, 0

    def file(self, name, contents):
        path = os.path.join(self.folder, name)
        with open(path, "wb") as out:
            out.write(contents if isinstance(contents, bytes) else contents.encode())
        return path

    def once(self, words, text):
        """The answer, and the seconds of processor time."""
        with open(text, "rb") as data, tempfile.TemporaryFile() as printed, tempfile.TemporaryFile() as complained:
            child = subprocess.Popen([self.colfind] + words, stdin=data, stdout=printed, stderr=complained)
            _, status, usage = os.wait4(child.pid, 0)
            child.returncode = os.waitstatus_to_exitcode(status)
            printed.seek(0)
            complained.seek(0)
            answer = child.returncode, printed.read(), complained.read()
        return answer, usage.ru_utime + usage.ru_stime

    def seconds(self, name, words, text, wanted):
        """The best of some runs, whose answer is compared: (status, what is printed, what is reported)."""
        times = []
        for _ in range(ROUNDS):
            answer, time = self.once(words, text)
            times.append(time)
        if answer != wanted:
            self.wrong += 1
            print(f"wrong: {name}: {answer[0]}, {answer[1][:60]}, {answer[2]}; wanted {wanted}")
        return min(times)


def counted(number):
    return (0 if number else 1), b"%d\n" % number, b""


def fault(kind, place):
    return 2, b"", b"colfind: fault %d at %d\n" % (kind, place)


def line(code_points, weight):
    return "%s ; [.%04X.0020.0002]\n" % (" ".join("%04X" % c for c in code_points), weight)


def single_rows(number):
    return [([c], 1 + c % 0x7000) for c in range(number)]


def one_first(number):
    """Strings of two code points that begin with `a`."""
    return [([0x61], 1)] + [([0x61, 0x20000 + c], 2 + c % 0x7000) for c in range(number - 1)]


def chains(number):
    """Strings of three code points that begin with `a`, a hundred for each second one."""
    rows = [([0x61], 1)]
    for second in range(number // 101):
        rows.append(([0x61, 0x20000 + second], 2))
        rows += [([0x61, 0x20000 + second, 0x30000 + third], 3 + third) for third in range(100)]
    return rows


def long_chains(number):
    """Strings of 64 code points that begin with `a` and differ in the last one alone."""
    return [([0x61] * 63 + [0x20000 + c], 1 + c % 0x7000) for c in range(number)]


def own_text(rows, size):
    """A megabyte or so of strings of the rows, picked at random."""
    choice, parts, length = random.Random(1), [], 0
    while length < size:
        string = "".join(map(chr, choice.choice(rows)[0]))
        if not any(0xD800 <= ord(c) <= 0xDFFF or unicodedata.combining(c) for c in string):
            parts.append(string.encode())
            length += len(parts[-1])
    return b"".join(parts)


def table_row(bench, name, rows, texts):
    """The seconds to read a table, and those to search each of some texts besides."""
    words = ["--table", bench.file("table", "".join(line(*row) for row in rows)), "--output", "count", "zzq"]
    read = bench.seconds(name, words, bench.file("none", b""), counted(0))
    besides = [bench.seconds(name, words, bench.file("text", text), counted(0)) - read for text in texts]
    figures = " | ".join("%.3f" % seconds for seconds in besides)
    print(f"| {name} | {len(rows):,} | {read:.3f} | {1e6 * read / len(rows):.2f} | {figures} |", flush=True)


def too_many(bench):
    none, rows = bench.file("none", b""), 1 << 20
    table = bench.file("table", "".join(line(*row) for row in single_rows(rows + 1)))
    bench.seconds("a line too many", ["--table", table, "a"], none, fault(13, rows + 1))
    ranges = "".join("@implicitweights %X..%X; FB00\n" % (c, c) for c in range(0x17000, 0x17101))
    table = bench.file("table", line([0x61], 1) + ranges)
    bench.seconds("a range too many", ["--table", table, "a"], none, fault(13, 258))


def replaced(bench, rows):
    """A tailor that replaces each row of a table."""
    contents = "".join(line(*row) for row in single_rows(rows))
    words = ["--table", bench.file("table", contents), "--tailor", bench.file("tailor", contents), "zzq"]
    seconds = bench.seconds("replaced", words, bench.file("none", b""), (1, b"", b""))
    print(f"| a tailor that replaces each row | {rows:,} | {seconds:.3f} | {1e6 * seconds / rows:.2f} | | |", flush=True)


def tables(bench):
    plain = plain_text(MEGABYTE)
    print("| table | rows | seconds to read | microseconds a row | seconds for 1 MB of plain text | of its own strings |")
    print("|---|---|---|---|---|---|")
    shapes = [("one code point a row", single_rows, [1 << n for n in (14, 16, 18, 20)])]
    shapes += [("one first code point, strings of two", one_first, [6250, 25000, 100000])]
    shapes += [("one first code point, strings of three", chains, [6250, 25000, 100000])]
    shapes += [("strings of 64 that differ in the last", long_chains, [6250, 25000, 100000])]
    for name, make, sizes in shapes:
        for size in sizes:
            rows = make(size)
            table_row(bench, name, rows, [plain, own_text(rows, MEGABYTE)])
    for rows in (1 << 16, 1 << 20):
        replaced(bench, rows)
    too_many(bench)


def repeated(part, size):
    part = part if isinstance(part, bytes) else part.encode()
    return part * (size // len(part))


def plain_text(size):
    choice = random.Random(1)
    words = ["".join(choice.choice("abcehmrsu") for _ in range(choice.randrange(1, 9))) for _ in range(1000)]
    return repeated(" ".join(words) + " ", size)


def rising_marks():
    """Thirty non-starters that are their own decomposition, each of a greater class than the one before."""
    by_class = {}
    for c in map(chr, range(0x300, 0x11000)):
        if unicodedata.combining(c) and not unicodedata.decomposition(c):
            by_class.setdefault(unicodedata.combining(c), c)
    return [by_class[combining] for combining in sorted(by_class)[:30]]


def seconds_of(bench, case, sizes):
    """The seconds for the text of a case in some sizes of megabytes; those for an empty text are taken off."""
    name, words, pattern, make, matches = case
    words = words + ["--output", "count", "--", pattern]
    start = bench.seconds(name, words, bench.file("none", b""), counted(0))
    times = []
    for megabytes in sizes:
        text = make(megabytes * MEGABYTE)
        wanted = counted(matches(text) if matches else 0)
        times.append(bench.seconds(name, words, bench.file("text", text), wanted) - start)
    return times


def texts(bench):
    letters = ["--table", LETTERS]
    b64 = ["--table", LETTERS, "--tailor", bench.file("b64", line([0x62] * 64, 0x1D00))]
    all_b = ["--table", LETTERS, "--tailor", bench.file("all_b", "".join(line([0x62] * n, 0x1D00 + n) for n in range(2, 65)))]
    b63c = ["--table", LETTERS, "--tailor", bench.file("b63c", line([0x62] * 63 + [0x63], 0x1D00))]
    row = "0078 ; " + "[.1E00.0020.0002]" * 128 + "\n"
    x128 = ["--table", LETTERS, "--tailor", bench.file("x128", row)]
    marks = rising_marks()
    pairs = "".join(line([ord(one), ord(two)], 0x1D00) for one in marks for two in marks if one < two)
    mark_pairs = ["--table", LETTERS, "--tailor", bench.file("pairs", pairs)]
    second = "".join(line([0x62, *map(ord, marks[1 : 2 * n + 1 : 2])], 0x1D00 + n) for n in range(1, 16))
    every_second = ["--table", LETTERS, "--tailor", bench.file("second", second)]
    most = 65536
    one = "--strength", "1"
    shifted = "--variable", "shifted"
    # A name, the words, the pattern, the text of a size, and how many matches there are in it, if not 0.
    cases = [
        ("plain text, no match", letters, "zz", plain_text, None),
        ("letters `a`, pattern `a`", letters, "a", lambda n: b"a" * n, len),
        ("letters `a`, pattern of 65,536 of them", letters, "a" * most, lambda n: b"a" * n, lambda t: len(t) - most + 1),
        ("the same, each 65,536th letter a `b`", letters, "a" * most, lambda n: repeated(b"a" * (most - 1) + b"b", n), None),
        ("the same, first and last letter of each changed", letters, "a" * most, lambda n: repeated(b"b" + b"a" * (most - 2) + b"b", n), None),
        ("letters `a`, pattern of 65,535 of them and `b`", letters, "a" * (most - 1) + "b", lambda n: b"a" * n, None),
        ("letters `a`, pattern of `b` and 65,535 of them", letters, "b" + "a" * (most - 1), lambda n: b"a" * n, None),
        ("`ab`, pattern of 32,768 of them", letters, "ab" * (most // 2), lambda n: repeated("ab", n), lambda t: len(t) // 2 - most // 2 + 1),
        ("discontiguous contractions, `u` 0327 0301", letters, "a", lambda n: repeated("u\u0327\u0301", n), None),
        ("the same, each a match", letters, "u\u0327\u0301", lambda n: repeated("u\u0327\u0301", n), lambda t: len(t) // 5),
        ("30 marks after each letter, one class", [*letters, *one], "u", lambda n: repeated("e" + "\u0301" * 30, n), None),
        ("30 marks after each letter, a contraction that is blocked", [*letters, *one], "e", lambda n: repeated("u" + "\u0300" * 29 + "\u0301", n), None),
        ("30 marks after each letter, classes that fall", [*letters, *one], "e", lambda n: repeated("u" + "\u0301" * 15 + "\u0327" * 15, n), None),
        ("30 marks after each letter, two classes in turn", [*letters, *one], "e", lambda n: repeated("u" + "\u0301\u0327" * 15, n), None),
        ("30 marks whose classes rise after each letter", letters, "a", lambda n: repeated("b" + "".join(marks), n), None),
        ("the same, each two of them mapped together", mark_pairs, "a", lambda n: repeated("b" + "".join(marks), n), None),
        ("the same, a contraction of every second one", every_second, "a", lambda n: repeated("b" + "".join(marks), n), None),
        ("a letter and soft hyphens", letters, "a", lambda n: b"a" + repeated("\u00ad", n), lambda t: 1),
        ("a letter, spaces and a letter, shifted", [*letters, *shifted], "ab", lambda n: b"a" + b" " * n + b"b", lambda t: 1),
        ("contractions `ch`, one amid ASCII each", letters, "ch", lambda n: repeated("ach", n), lambda t: len(t) // 3),
        ("Hangul syllables, pattern of their parts", letters, "\u1100\u1161\u11a8", lambda n: repeated("\uac01", n), lambda t: len(t) // 3),
        ("characters without a row", letters, "\u4e00", lambda n: repeated("\u4e00", n), lambda t: len(t) // 3),
        ("a string of 64 letters in its repetition", b64, "b" * 64, lambda n: repeated(b"b" * 64, n), lambda t: len(t) // 64),
        ("strings of 2 to 64 letters, the longest in its repetition", all_b, "b" * 64, lambda n: repeated(b"b" * 64, n), lambda t: len(t) // 64),
        ("a string of 64 of which 63 fit at each letter", b63c, "bbc", lambda n: b"b" * n, None),
        ("a row of 128 elements at each letter", x128, "xxx", lambda n: b"x" * n, lambda t: len(t) - 2),
        ("the same, pattern of 65,536 of them, 8,388,608 keys", x128, "x" * most, lambda n: b"x" * n, lambda t: len(t) - most + 1),
    ]
    print()
    print("| text and pattern | seconds, 1 MB | 4 MB | ratio | beside plain text |")
    print("|---|---|---|---|---|")
    plain = seconds_of(bench, cases[0], [PLAIN_MEGABYTES])[0] / PLAIN_MEGABYTES
    for case in cases:
        one, four = seconds_of(bench, case, [1, 4])
        print(f"| {case[0]} | {one:.3f} | {four:.3f} | {four / max(one, 1e-3):.1f} | {four / 4 / plain:.1f} |", flush=True)


def main():
    if len(sys.argv) < 2:
        sys.exit(__doc__)
    with tempfile.TemporaryDirectory() as folder:
        bench = Bench(os.path.abspath(sys.argv[1]), folder)
        for part in (tables, texts):
            if len(sys.argv) < 3 or sys.argv[2] == part.__name__:
                part(bench)
    print(f"\n{bench.wrong} wrong answers")
    sys.exit(1 if bench.wrong else 0)


if __name__ == "__main__":
    main()
