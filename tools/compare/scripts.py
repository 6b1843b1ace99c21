"""Texts of all scripts of tools/bench over a real table, for random_searches.py and random_states.py.

A text has segments of a few words of any of the texts of tools/bench, composed, decomposed or as they are, and quiet text between them,
some of it long: characters of one of these texts whose primary weights the pattern has none of, repeated. Each repetition begins and
ends with a letter or a digit of ASCII, which is not variable. So no match reaches into quiet text, and the model is asked of each
segment between two of these letters.
"""

import os
import random
import re
import string
import sys
import unicodedata

import model

sys.path.insert(0, os.path.join(os.path.dirname(os.path.abspath(__file__)), "..", "bench"))

import texts

ROW = re.compile(r"([0-9A-F ]+);\s*((?:\[[.*][0-9A-F.]+\])+)")
ELEMENT = re.compile(r"\[([.*])([0-9A-F]+)\.([0-9A-F]+)\.([0-9A-F]+)\]")
RANGE = re.compile(r"@implicitweights ([0-9A-F]+)\.\.([0-9A-F]+); ([0-9A-F]+)")
BYTES = 30_000  # of each text
OF_OTHERS = {"composed", "decomposed"}  # forms of another text
MARKS = "\u0300\u0301\u0323\u0327\u0345\u0f71\u0f72\u05b7\u064e\u0e49\u0ec9\u093c\u3099"
QUIET_CHARACTERS = 40  # the most of quiet text that is repeated
# How long quiet text is, in bytes, and how much at most: characters of two bytes are passed in blocks behind half a megabyte.
QUIET = [0] * 8 + [20] * 4 + [60] * 4 + [300] * 3 + [2_000] * 2 + [9_000]
LONG_QUIET = 700_000


def lines_of_table(path):
    """The lines of a table file, as those of random_searches.py."""
    with open(path, encoding="utf-8") as file:
        for line in file:
            if row := ROW.match(line):
                elements = [(kind == "*", *(int(w, 16) for w in weights)) for kind, *weights in ELEMENT.findall(row[2])]
                yield "entry", tuple(int(c, 16) for c in row[1].split()), elements
            elif given := RANGE.match(line):
                yield "range", *(int(number, 16) for number in given.groups())


def read_table(path):
    (rows, ranges), fault = model.table_of(lines_of_table(path))
    if fault:
        raise SystemExit(f"{path}: fault {fault}")
    return model.LargeRows(rows), ranges


class Text:
    """A pattern, and a text as parts: quiet text, how often it is repeated, and the bytes of a segment behind it. Only the first part and
    the last one may have none."""

    def __init__(self, pattern, parts):
        self.pattern, self.parts = pattern, parts
        self.data = b"".join(quiet * times + segment for quiet, times, segment in parts)

    def answer(self, table, strength, is_shifted, is_chain):
        """As model.answer; behind a fault there is no text."""
        place, found, fault = 0, [], None
        behind = [quiet[:1] * min(times, 1) for quiet, times, _ in self.parts[1:]] + [b""]
        for (quiet, times, segment), next_letter in zip(self.parts, behind):
            before = quiet[-1:] * min(times, 1)
            place += len(quiet) * times - len(before)
            near = before + segment + next_letter
            ranges, fault = model.answer(table, strength, is_shifted, False, self.pattern.encode(), near)
            found += [(place + start, place + end) for start, end in ranges]
            if fault:
                fault = fault[0], place + fault[1]
                break
            place += len(before) + len(segment)
        return model.chain(found) if is_chain else found, fault


class Scripts:
    """The texts of tools/bench, other ones for each seed."""

    def __init__(self, table, seed):
        self.table = table
        made = {name: make for name, (make, _) in texts.TEXTS.items() if name not in OF_OTHERS}
        self.texts = {name: make(random.Random(f"{name} {seed}"), BYTES) for name, make in made.items()}
        self.counts = dict.fromkeys(self.texts, 0)

    def words(self, choice, most):
        """Some characters of one of the texts."""
        name = choice.choice(list(self.texts))
        self.counts[name] += 1
        start = choice.randrange(len(self.texts[name]))
        part = self.texts[name][start : start + choice.randrange(1, most)]
        form = choice.choice(["", "NFC", "NFD"])
        return unicodedata.normalize(form, part) if form else part

    def segment(self, choice):
        """Some words of one or two texts, some of them with marks put in anywhere."""
        made = "".join(self.words(choice, choice.choice([4, 8, 16])) for _ in range(choice.choice([1, 1, 2])))
        if choice.random() < 0.2:
            place = choice.randrange(len(made) + 1)
            made = made[:place] + "".join(choice.choice(MARKS) for _ in range(choice.randrange(1, 4))) + made[place:]
        return made

    def pattern(self, choice, segment):
        """A part of a segment, as it is, composed or decomposed, or other words."""
        if choice.random() < 0.15:
            return self.words(choice, 4)
        start = choice.randrange(len(segment))
        part = segment[start : start + choice.choice([1, 2, 2, 3, 4, 6, 10])]
        return unicodedata.normalize(choice.choice(["NFC", "NFD"]), part) if choice.random() < 0.5 else part

    def primaries(self, text):
        """All primary weights of a text, where none of them is shifted."""
        characters = [(ord(c), place) for place, c in enumerate(text)]
        return {element[0] for element in model.weights_of(self.table, False, characters) if element[0]}

    def quiet(self, choice, pattern):
        """Characters of one of the texts that have no primary weight of the pattern."""
        of_pattern = self.primaries(pattern)
        ends = [c for c in string.ascii_letters + string.digits if not self.primaries(c) & of_pattern]
        inner = [c for c in self.words(choice, QUIET_CHARACTERS) if not self.primaries(c) & of_pattern]
        made = choice.choice(ends) + "".join(inner) + choice.choice(ends)
        return made if not self.primaries(made) & of_pattern else choice.choice(ends)

    def text(self, choice, damaged, longest):
        """A text and a pattern; `damaged` gives the bytes of a segment, and quiet text is no longer than `longest`, or once as long."""
        segments = [self.segment(choice) for _ in range(choice.choice([1, 1, 2, 3]))]
        pattern, parts = self.pattern(choice, choice.choice(segments)), []
        for number, segment in enumerate([*segments, None]):
            length = LONG_QUIET if choice.random() < 0.005 else choice.choice(QUIET)
            quiet, may_be_none = self.quiet(choice, pattern).encode(), number in (0, len(segments))
            times = -(-min(length, longest) // len(quiet))
            data = damaged(choice, segment) if segment and choice.random() < 0.5 else (segment or "").encode()
            parts.append((quiet, times if may_be_none else max(times, 1), data))
        return Text(pattern, parts)
