"""Asks the library of each line of Unicode's conformance test of CLDR's table: a short text and its weights. At strengths 1 to 3: has it a
key exactly where weights are printed, is it equal to the line before exactly where these are, is it equal to itself, as it stands and in
NFC and NFD, and is it found in itself.

    python3 conformance.py FOLDER TABLE [STEP]

FOLDER is that of colfind.py, with its library. TABLE is allkeys_CLDR.txt of unicode-cldr-core, and the test's two files stand beside it,
one for each weighting. With STEP each line is asked whose number it divides. Lines with a surrogate are left out, which no UTF-8 has.
"""

import os
import sys
import unicodedata
from collections import namedtuple

FILES = {"CollationTest_CLDR_NON_IGNORABLE.txt": (4, False), "CollationTest_CLDR_SHIFTED.txt": (5, True)}  # levels, is it shifted
LINES_LEFT_OUT = b"""\
@implicitweights 17000..18AFF; FB00 # Tangut and Tangut Components
@implicitweights 18D00..18D8F; FB00 # Tangut Supplement
@implicitweights 1B170..1B2FF; FB01 # Nushu
@implicitweights 18B00..18CFF; FB02 # Khitan Small Script
"""  # of allkeys.txt, which CLDR's table lacks
MOST_SHOWN = 20
Line = namedtuple("Line", "number text weights")


def read_line(number, line, levels):
    """Of a line as `0061 0334;<tab># (a) NAME<tab>[2075 | 0020 004A | 0002 0002 |]`: the text, and its weights of three levels."""
    points, _, rest = line.partition(";")
    text = "".join(chr(int(point, 16)) for point in points.split())
    weights = [tuple(level.split()) for level in rest.rpartition("\t[")[2].rstrip("]\n").split("|")]
    if len(weights) != levels or not text:
        raise SystemExit(f"line {number} is not of the form that is known: {line}")
    return Line(number, text, weights[:3])


def lines_to_ask(path, levels, step):
    """Each line that is asked, with the one before it or None."""
    before = None
    with open(path, encoding="utf-8") as file:
        for number, line in enumerate((line for line in file if line[0] not in "#\n"), 1):
            if number % step > 0 and (number + 1) % step > 0:
                continue
            one = read_line(number, line, levels)
            if any("\ud800" <= point <= "\udfff" for point in one.text):
                continue
            if number % step == 0:
                yield one, before
            before = one


class Questions:
    """Asks, counts, and says what is wrong."""

    def __init__(self, colfind, table, is_shifted):
        self.colfind, self.table, self.is_shifted = colfind, table, is_shifted
        self.lines = self.count = self.wrong = 0

    def ask(self, what, line, strength, answer, wanted):
        self.count += 1
        if answer != wanted:
            self.wrong += 1
            if self.wrong <= MOST_SHOWN:
                of_line = f"line {line.number}, {line.text!a}, shifted {self.is_shifted}, strength {strength}"
                print(f"{of_line}: {what}: {answer}, and not {wanted}")

    def pattern(self, text, strength):
        """None where the text has no key."""
        try:
            return self.colfind.Pattern(self.table, text, strength, self.is_shifted)
        except self.colfind.Fault as fault:
            if fault.kind != self.colfind.Kind.PATTERN_NO_KEY:
                raise
            return None

    def ask_line(self, line, before):
        self.lines += 1
        spellings = {line.text, *(unicodedata.normalize(form, line.text) for form in ("NFC", "NFD"))}
        for strength in 1, 2, 3:
            pattern = self.pattern(line.text, strength)
            self.ask("has a key", line, strength, bool(pattern), any(line.weights[:strength]))
            if not pattern:
                continue
            if before:
                is_same = line.weights[:strength] == before.weights[:strength]
                self.ask("is equal to the line before", line, strength, pattern.fullmatch(before.text), is_same)
            for spelling in spellings:
                self.ask(f"is equal to {spelling!a}", line, strength, pattern.fullmatch(spelling), True)
            self.ask("is found in itself", line, strength, bool(pattern.index(line.text)), True)


def asked(colfind, path, step, tailor=LINES_LEFT_OUT):
    """How many lines and questions there were, and how many answers were wrong."""
    counts = [0, 0, 0]
    with open(path, "rb") as file:
        table = colfind.Table(file.read(), tailor)
    for name, (levels, is_shifted) in FILES.items():
        questions = Questions(colfind, table, is_shifted)
        for line, before in lines_to_ask(os.path.join(os.path.dirname(path), name), levels, step):
            questions.ask_line(line, before)
        counts = [a + b for a, b in zip(counts, (questions.lines, questions.count, questions.wrong))]
    return counts


def main():
    if not 3 <= len(sys.argv) <= 4:
        sys.exit(__doc__)
    sys.path.insert(0, sys.argv[1])
    import colfind
    lines, questions, wrong = asked(colfind, sys.argv[2], int(sys.argv[3]) if sys.argv[3:] else 1)
    print(f"conformance: {lines:,} lines, {questions:,} questions, {wrong:,} wrong")
    sys.exit(1 if wrong else 0)


if __name__ == "__main__":
    main()
