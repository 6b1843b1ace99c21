"""Compares what libcolfind answers of whole texts, of their beginnings and ends, of matches before an offset and of safe offsets with what
model.py gives, and the parts of a text with the whole, on the random tables, patterns and texts of random_searches.py. Where a TABLE is given all questions are with that one, over
texts of all scripts of tools/bench, and Perl's Unicode::Collate is asked too whether texts without a fault, and matches, are equal.

    python3 random_questions.py FOLDER SEED QUESTIONS [TABLE]

FOLDER is that of colfind.py, with its library.
"""

import os
import random
import subprocess
import sys
import unicodedata

import model
import random_searches as searches
import scripts

PERL = os.path.join(os.path.dirname(os.path.abspath(__file__)), "perl_equal.pl")
IGNORED = ["\u00ad", "\u200b", "-", " ", "\u0301", "\u20dd"]
FAULTS = [b"\xff", b"\xc3", "a\u0301".encode() + "\u0301".encode() * 31]
# lines with letters with which contractions of CLDR's table begin, a blank among them: of Latin, Cyrillic, Arabic, Thai and Lao
FIRST_LETTERS = ["lake col\u00b7legi L\u00b7L", "\u0438\u0438\u0438\u0438\u0438 \u0439", "\u0627\u0644\u0639\u0627\u0644\u0645 \u0648\u064a\u0624\u0626\u0622",
                 "\u0e44\u0e17\u0e22 \u0e40\u0e01\u0e32\u0e30", "\u0ec3\u0e99\u0ea5\u0eb2\u0ea7 \u0ec0\u0e81"]
QUIET = "\U0002a6d6".encode()  # a letter that stands in no pattern, and in no string of a table


def spelled_again(choice, pattern):
    """The pattern, in another spelling."""
    kind = choice.randrange(4)
    made = [pattern, unicodedata.normalize("NFD", pattern), unicodedata.normalize("NFC", pattern), pattern.swapcase()][kind]
    for _ in range(choice.choice([0, 0, 0, 1, 1, 2])):
        place = choice.randrange(len(made) + 1)
        made = made[:place] + choice.choice(IGNORED) + made[place:]
    return made


def random_case(choice, words):
    """A pattern, and a text that is often equal to it or begins so."""
    pattern = words(5) or "a"
    kind = choice.random()
    text = spelled_again(choice, pattern) if kind < 0.8 else words(9)
    if kind < 0.5:
        text += words(6)
    data = text.encode()
    if choice.random() < 0.15:
        place = choice.randrange(len(data) + 1)
        data = data[:place] + choice.choice(FAULTS) + data[place:]
    return pattern, data


class Way:
    """A text to go back through: spellings of a pattern amid words and faults, and somewhere a letter so many times that no match is near.
    In `short` that stands once, and has the answers of the text."""

    def __init__(self, choice, pattern, words):
        parts = [(spelled_again(choice, pattern) if choice.random() < 0.6 else words(4)).encode() for _ in range(choice.randrange(1, 5))]
        for _ in range(choice.choice([0, 0, 0, 1, 2])):
            parts.insert(choice.randrange(len(parts) + 1), choice.choice(FAULTS))
        place = choice.randrange(len(parts) + 1)
        front, rest, times = b"".join(parts[:place]), b"".join(parts[place:]), choice.choice([1, 1, 1, 300, 1_500])
        self.short, self.data = front + QUIET + rest, front + QUIET * times + rest
        self.quiet, self.more = len(front) + len(QUIET), (times - 1) * len(QUIET)
        self.at = choice.choice([len(self.data), choice.randrange(len(self.data) + 1), choice.randrange(len(front) + 1),
                                 len(self.data) - choice.randrange(len(rest) + 1)])

    def in_short(self, at):
        return at if at < self.quiet else max(self.quiet, at - self.more)

    def more_from(self, place):
        """How many letters more stand behind a place of the short text in the whole one."""
        return self.more // len(QUIET) if place < self.quiet else 0

    def in_data(self, told):
        """An answer of the short text, with the offsets of the whole one."""
        if told and told[0] == "fault":
            return *told[:2], self.in_data(told[2:])[0]
        return told and tuple(at + self.more if at >= self.quiet else at for at in told)


class Questions:
    """Random questions of a library, beside the answers of the model."""

    def __init__(self, colfind, choice, perl):
        self.colfind, self.choice, self.perl = colfind, choice, perl
        self.asked = self.equal = self.begun = self.faults = self.safe = self.before = self.ended = self.met = self.parts = self.by_perl = 0
        self.different = 0

    def answered(self, call):
        try:
            return call()
        except self.colfind.Fault as fault:
            return "fault", int(fault.kind), fault.at

    def differ(self, *words):
        self.different += 1
        print("different:", *words, sep="\n  ")

    def ask(self, table, library_table, safe, words):
        choice = self.choice
        pattern, data = random_case(choice, words)
        strength, is_shifted = choice.choice([1, 2, 3]), choice.random() < 0.5
        if model.pattern_fault(table, strength, is_shifted, pattern.encode()):
            return
        self.asked += 1
        front = model.Front(table, strength, is_shifted, pattern.encode(), data)
        told, fault = front.equal(), front.fault and ("fault", *front.fault)
        with self.colfind.Pattern(library_table, pattern, strength, is_shifted) as compiled:
            equal, begins = self.answered(lambda: compiled.fullmatch(data)), self.answered(lambda: compiled.match(data))
            way = Way(choice, pattern, words)
            self.ask_back(table, safe, (strength, is_shifted, pattern), compiled, way)
            self.ask_parts(compiled, way.data)
        is_told, end = front.begins()
        wanted = fault if told is None else told, ((None if end is None else (0, end)) if is_told else fault)
        self.equal, self.begun, self.faults = self.equal + (equal is True), self.begun + (end is not None), self.faults + (told is None)
        if (equal, begins) != wanted:
            self.differ(table if len(table[0]) < 99 else "", strength, is_shifted, pattern, data, wanted, (equal, begins))
        if self.perl and not front.fault and told != self.perl.are_equal(strength, is_shifted, pattern, data.decode()):
            self.differ("Perl", strength, is_shifted, pattern, data, told)
        self.by_perl += self.perl is not None and not front.fault
        self.ask_safe(library_table, table, safe, data, [choice.randrange(len(data) + 1)])

    def ask_back(self, table, safe, settings, compiled, way):
        """The last match before an offset, and the one that ends the text. What each tells is equal for Perl too."""
        strength, is_shifted, pattern = settings
        back = model.Back(table, strength, is_shifted, pattern.encode(), way.short, safe.of(way.short))
        wanted = way.in_data(back.last_before(way.in_short(way.at))), way.in_data(back.ends(way.more_from))
        told = self.answered(lambda: compiled.last_before(way.data, way.at)), self.answered(lambda: compiled.ends(way.data))
        if told != wanted:
            self.differ(table if len(table[0]) < 99 else "", settings, way.short, way.more, way.at, wanted, told)
        for found in set(told):
            self.met += found is not None and found[0] == "fault"
            if self.perl and found and found[0] != "fault":
                self.by_perl += 1
                if not self.perl.are_equal(strength, is_shifted, pattern, way.data[slice(*found)].decode()):
                    self.differ("Perl", settings, way.data, found)
        self.before, self.ended = self.before + (len(told[0] or ()) == 2), self.ended + (len(told[1] or ()) == 2)

    def drawn(self, ranges):
        """Ranges, up to the fault behind them."""
        found = []
        try:
            found.extend(ranges)
        except self.colfind.Fault as fault:
            return found, (int(fault.kind), fault.at)
        return found, None

    def ask_parts(self, compiled, data):
        """The parts between any offsets, up to the first that has a fault, have together the ranges of the text, and its fault."""
        wanted, choice = self.drawn(compiled.search(data)), self.choice
        for _ in range(8):
            cuts = [0, *sorted(choice.randrange(len(data) + 1) for _ in range(choice.randrange(1, 6))), len(data)]
            ranges, fault = [], None
            for start, end in zip(cuts, cuts[1:]):
                of_part, fault = self.drawn(compiled.search_part(data, start, end))
                ranges += of_part
                if fault:
                    break
            self.parts += 1
            if (ranges, fault) != wanted:
                self.differ("parts", cuts, data, wanted, (ranges, fault))

    def ask_safe(self, library_table, table, safe, data, asked):
        """The nearest safe offset, forth and back from some offsets."""
        offsets = list(safe.of(data))
        self.safe += len(offsets)
        for at in asked:
            told = library_table.next_safe(data, at), library_table.previous_safe(data, at)
            wanted = next((one for one in offsets if one >= at), None), next((one for one in reversed(offsets) if one < at), None)
            if told != wanted:
                self.differ(table if len(table[0]) < 99 else "", data, at, offsets, wanted, told)


class Perl:
    """Perl's Unicode::Collate over the same table."""

    def __init__(self, table):
        self.process = subprocess.Popen(["perl", PERL, table], stdin=subprocess.PIPE, stdout=subprocess.PIPE, text=True)

    def are_equal(self, strength, is_shifted, one, other):
        line = " ".join([str(strength), "shifted" if is_shifted else "non-ignorable", *(",".join(str(ord(c)) for c in text) for text in (one, other))])
        self.process.stdin.write(line + "\n")
        self.process.stdin.flush()
        return self.process.stdout.readline() == "1\n"


def over_random_tables(questions, choice, most):
    while questions.asked < most:
        lines = searches.random_lines(choice, 16)
        spelled = searches.spelled_file(choice, lines).encode()
        table, fault = model.table_of(lines)
        made = questions.answered(lambda: questions.colfind.Table(spelled))
        if fault:
            if made != ("fault", *fault):
                questions.differ(lines, fault, made)
            continue
        safe = model.SafeOffsets(table)
        for _ in range(12):
            questions.ask(table, made, safe, lambda most: searches.random_text(choice, most))


def over_scripts(questions, choice, most, path, seed):
    given = scripts.Scripts(scripts.read_table(path), seed)
    safe = model.SafeOffsets(given.table)
    with open(path, "rb") as file:
        table = questions.colfind.Table(file.read())
    for line in FIRST_LETTERS:
        questions.ask_safe(table, given.table, safe, line.encode(), range(len(line.encode()) + 1))
    while questions.asked < most:
        questions.ask(given.table, table, safe, lambda most: given.words(choice, most))


def main():
    folder, seed, most = os.path.abspath(sys.argv[1]), int(sys.argv[2]), int(sys.argv[3])
    table = os.path.abspath(sys.argv[4]) if len(sys.argv) > 4 else None
    sys.path.insert(0, folder)
    import colfind

    choice = random.Random(seed)
    questions = Questions(colfind, choice, Perl(table) if table else None)
    if table:
        over_scripts(questions, choice, most, table, seed)
    else:
        over_random_tables(questions, choice, most)
    print(
        f"seed {seed}: {questions.asked} texts, {questions.equal} equal, {questions.begun} that begin so, {questions.faults} with faults that"
        f" decide, {questions.safe} safe offsets, {questions.before} matches before an offset, {questions.ended} that end a text,"
        f" {questions.met} faults met first, {questions.parts} texts in parts, {questions.by_perl} beside Perl, {questions.different} different"
    )
    sys.exit(1 if questions.different else 0)


if __name__ == "__main__":
    main()
