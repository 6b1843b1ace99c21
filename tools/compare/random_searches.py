"""Compares what colfind prints with what model.py gives, on random small tables, tailors, patterns and texts, for the whole
command: strengths, weightings, forms of output, selections, texts in files and from standard input, there in pieces of all sizes. Where
a TABLE is given all searches are with that one, over texts of all scripts of tools/bench.

    python3 random_searches.py COLFIND SEED SEARCHES [TABLE]
"""

import os
import random
import subprocess
import sys
import tempfile
import unicodedata

import model
import scripts

LETTERS = [0x61, 0x62, 0x63, 0x65, 0x68, 0x75]
MARKS = [0x300, 0x301, 0x323, 0x327, 0x345, 0xF71, 0xF72]
OTHERS = [0x20, 0x2D, 0xAD, 0xE9, 0xFA, 0x344, 0xF73, 0x1100, 0x1161, 0x11A8, 0x1EAD, 0x20DD]
OTHERS += [0x2F00, 0x4E00, 0xAC01, 0x17005, 0x1D15E]
BASES = LETTERS + [0x20, 0x2D, 0xAD, 0x1100, 0x1161, 0x20DD, 0x2F00, 0x4E00]
LONGEST = 1_000_000  # the most bytes of quiet text
LONG_DATA = 10_000  # from so many bytes on pieces are long
MALFORMED = ["61 ; [.1C00.0020.0002]", "0061 ; [.1c00.0020.0002]", "0061 ;", "0061 ; [.1C00.0020.0002"]

# ---- tables; a sane one is mostly well formed


def random_key(choice):
    kind = choice.random()
    if kind < 0.08:
        return tuple(choice.choice(LETTERS) for _ in range(choice.choice([2, 3, 3, 4, 6])))
    if kind < 0.5:
        return (choice.choice(BASES + MARKS),)
    if kind < 0.7:
        return (choice.choice(BASES + MARKS), choice.choice(BASES + MARKS))
    if kind < 0.85:
        return (choice.choice(BASES), choice.choice(MARKS))
    if kind < 0.95:
        return (choice.choice(BASES), choice.choice(MARKS + BASES), choice.choice(MARKS + BASES))
    return (choice.choice([0xE9, 0x344, 0xD800, 0x61]), choice.choice(BASES + MARKS))


def random_element(choice, is_sane):
    kind = choice.random()
    if kind < 0.1:
        return (False, 0, 0, 0)
    if kind < 0.25:
        return (True, choice.choice([0x201, 0x202, 0x203]), 0x20, 2)
    if kind < 0.4:
        return (False, 0, choice.choice([0x24, 0x25, 0x30] if is_sane else [0x20, 0x21, 0x24]), choice.choice([2, 4]))
    if kind < 0.45:
        return (False, 0, 0, choice.choice([9, 10] if is_sane else [2, 4, 9]))
    if kind < 0.5 and not is_sane:
        first = choice.choice([0, 0x202, 0x9000, 0xFB40, 0xFBC0, 0xFC00])
        return (choice.random() < 0.2, first, choice.choice([0, 0x20]), choice.choice([0, 2]))
    second = choice.choice([0x20, 0x20, 0x21] if is_sane else [0x20, 0x24])
    return (False, 0x1C00 + choice.randrange(6), second, choice.choice([2, 2, 4, 8]))


def random_row(choice, is_sane):
    row = []
    for _ in range(choice.choice([1, 1, 1, 1, 2, 2, 3])):
        if choice.random() < 0.12:
            row.append((False, choice.choice([0xFB00, 0xFB40, 0xFBC0]), 0x20, choice.choice([2, 4])))
            row.append((False, choice.choice([0x8061, 0x9100, 0xCE00]), 0, 0))
        else:
            row.append(random_element(choice, is_sane))
    return row


def random_lines(choice, most):
    is_sane = choice.random() < 0.85
    lines, keys = [], set()
    for _ in range(choice.randrange(1, most)):
        kind = choice.random()
        if kind < 0.04:
            last = 0x17000 + choice.choice([5, 0x10, 0x7FFF, 0x8000])
            lines.append(("range", 0x17000, last, choice.choice([0xFB00, 0xFB01] if is_sane else [0xFB00, 0xFB40])))
        elif kind < 0.06 and not is_sane:
            lines.append(None)
        else:
            key = random_key(choice)
            if not (is_sane and key in keys):
                keys.add(key)
                lines.append(("entry", key, random_row(choice, is_sane)))
    for line in list(lines) if is_sane else []:
        if line[0] == "entry" and len(line[1]) > 2 and line[1][:-1] not in keys and choice.random() < 0.9:
            keys.add(line[1][:-1])
            lines.append(("entry", line[1][:-1], random_row(choice, is_sane)))
    return lines


def spelled(choice, line):
    def blanks():
        return choice.choice(["", " ", "\t", "  "])

    if line is None:
        return choice.choice(MALFORMED)
    if line[0] == "range":
        parts = ["%04X" % line[1], "..", "%04X" % line[2], ";", "%04X" % line[3]]
        return "@implicitweights " + "".join(blanks() + p for p in parts) + choice.choice(["", " # x"])
    digits = choice.choice([4, 4, 5, 6])
    key = choice.choice([" ", "  ", "\t"]).join("%0*X" % (digits, c) for c in line[1])
    elements = ["[" + ".*"[e[0]] + ".".join("%04X" % w for w in e[1:]) + "]" for e in line[2]]
    return blanks() + key + blanks() + ";" + blanks() + blanks().join(elements) + choice.choice(["", "# x", "  "])


def random_tailor(choice, lines):
    """Some lines, and rows for strings that the table maps."""
    keys = [line[1] for line in lines if line and line[0] == "entry"]
    tailor = random_lines(choice, 6)
    taken = {line[1] for line in tailor if line and line[0] == "entry"}
    for key in choice.sample(keys, min(len(keys), choice.randrange(3))):
        if key not in taken:
            taken.add(key)
            tailor.append(("entry", key, random_row(choice, True)))
    return tailor


def spelled_file(choice, lines):
    end = choice.choice(["\n", "\r\n"])
    return end.join(spelled(choice, line) for line in lines) + choice.choice(["", end])


# ---- patterns and texts


def random_text(choice, most):
    kinds = [MARKS, LETTERS, LETTERS + MARKS + OTHERS]
    return "".join(chr(choice.choice(choice.choice(kinds))) for _ in range(choice.randrange(most)))


def random_runs(choice):
    """Runs of ASCII, with a few other characters between them."""
    parts = []
    for _ in range(choice.randrange(1, 5)):
        letters = choice.sample(LETTERS + [0x20, 0x2D], choice.choice([1, 2, 3, 8]))
        parts.append("".join(chr(choice.choice(letters)) for _ in range(choice.choice([0, 1, 2, 3, 5, 9]))))
        parts.append(random_text(choice, 4))
    return "".join(parts)


def random_pattern(choice, text):
    if not text or choice.random() < 0.4:
        return random_text(choice, 5)
    start = choice.randrange(len(text))
    pattern = text[start : start + choice.randrange(1, 5)]
    return unicodedata.normalize("NFD", pattern) if choice.random() < 0.3 else pattern


def random_bytes(choice, text):
    if choice.random() < 0.03:
        text += chr(0x301) * choice.randrange(26, 34) + "a"
    if choice.random() < 0.02:
        text += choice.choice(["a", "ab", "cha "]) * choice.randrange(8, 14)
    data, kind = text.encode(), choice.random()
    place = choice.randrange(len(data) + 1)
    if kind < 0.08:
        return data[:place] + bytes([choice.choice([0x80, 0xC0, 0xC3, 0xE2, 0xED, 0xF4, 0xFF])]) + data[place:]
    return data[:place] if kind < 0.12 else data


class Text:
    """A short text and a pattern."""

    def __init__(self, pattern, data):
        self.pattern, self.data = pattern, data

    def answer(self, table, strength, is_shifted, is_chain):
        return model.answer(table, strength, is_shifted, is_chain, self.pattern.encode(), self.data)


def any_text(choice):
    text = random_runs(choice) if choice.random() < 0.4 else random_text(choice, 14)
    return Text(random_pattern(choice, text), random_bytes(choice, text))


# ---- commands


class Search:
    """The settings of one search, and where its text stands."""

    def __init__(self, choice, given):
        self.strength, self.is_shifted = choice.choice([1, 2, 3]), choice.random() < 0.5
        self.output = choice.choice(["ranges", "ranges", "count", "marks"])
        self.is_chain = choice.random() < 0.5
        self.is_in_file = choice.random() < 0.3
        self.text = given.text(choice, random_bytes, LONGEST) if given else any_text(choice)
        self.pattern, self.data = self.text.pattern, self.text.data
        kind = choice.random()
        self.lacks = None if kind > 0.02 else choice.choice(["words", "table", "tailor", "text"])

    def options(self, choice, paths, has_tailor):
        """The options, in random order and spelling; those that are the default may be left out."""
        named = [("table", paths["none"] if self.lacks == "table" else paths["table"])]
        if has_tailor or self.lacks == "tailor":
            named.append(("tailor", paths["none"] if self.lacks == "tailor" else paths["tailor"]))
        settings = [
            ("strength", str(self.strength), "3"),
            ("variable", "shifted" if self.is_shifted else "non-ignorable", "non-ignorable"),
            ("output", self.output, "ranges"),
            ("select", "chain" if self.is_chain else "all", "all"),
        ]
        if self.lacks == "words":
            name, _, default = settings.pop(choice.randrange(len(settings)))
            settings.append((name, choice.choice(["", "0", "none", default + " "]), None))
        named += [(name, value) for name, value, default in settings if value != default or choice.random() < 0.5]
        choice.shuffle(named)
        words = []
        for name, value in named:
            words += [f"--{name}={value}"] if choice.random() < 0.3 else [f"--{name}", value]
        return words

    def words(self, choice, paths, has_tailor):
        words = self.options(choice, paths, has_tailor)
        names_file = self.is_in_file or self.lacks == "text"
        if self.pattern.startswith("-") or choice.random() < 0.7:
            words.append("--")
        words.append(self.pattern)
        return words + ([paths["none"] if self.lacks == "text" else paths["text"]] if names_file else [])

    def wanted(self, table, fault):
        """What the program must answer, in the order of its work."""
        if self.lacks == "words":
            return 2, "", "colfind: usage\n"
        if self.lacks in ("table", "tailor"):
            return model.fault_line({"table": 43, "tailor": 44}[self.lacks], 0)
        if fault:
            return model.fault_line(*fault)
        kind = model.pattern_fault(table, self.strength, self.is_shifted, self.pattern.encode())
        if kind or self.lacks == "text":
            return model.fault_line(kind or 41, 0)
        return model.printed(*self.text.answer(table, self.strength, self.is_shifted, self.is_chain), self.output)


def pieces(choice, data):
    """The data cut at random."""
    most = choice.choice([1, 2, 5, 40, 1000] if len(data) < LONG_DATA else [5000, len(data)])
    place = 0
    while place < len(data):
        size = choice.randrange(1, most + 1)
        yield data[place : place + size]
        place += size


def given(choice, words, data):
    """What the program answers; the data come to its standard input one piece after another."""
    pipe = subprocess.PIPE
    ran = subprocess.Popen(words, stdin=pipe, stdout=pipe, stderr=pipe, bufsize=0, close_fds=False)
    try:
        for piece in pieces(choice, data):
            ran.stdin.write(piece)
    except BrokenPipeError:
        pass
    printed, reported = ran.communicate()
    return ran.returncode, printed.decode(), reported.decode()


# ---- comparison


class Comparison:
    """Random searches by a program: over random tables, or where `given` is some texts of scripts, over their table."""

    def __init__(self, colfind, choice, folder, given=None, table=None):
        self.colfind, self.choice, self.given = colfind, choice, given
        self.paths = {name: os.path.join(folder, name) for name in ("table", "tailor", "text", "none")}
        if table:
            self.paths["table"] = table
        self.searches = self.with_matches = self.with_faults = self.different = 0

    def write(self, name, data):
        with open(self.paths[name], "wb") as file:
            file.write(data)

    def try_table(self):
        choice = self.choice
        if self.given:
            search = Search(choice, self.given)
            self.compare(search, [], None, search.wanted(self.given.table, None))
            return
        lines = random_lines(choice, 16)
        tailor = random_tailor(choice, lines) if choice.random() < 0.3 else None
        self.write("table", spelled_file(choice, lines).encode())
        self.write("tailor", spelled_file(choice, tailor or []).encode())
        table, fault = model.table_of(lines, tailor or [])
        for _ in range(1 if fault else 6):
            search = Search(choice, None)
            self.compare(search, lines, tailor, search.wanted(table, fault))

    def compare(self, search, lines, tailor, wanted):
        words = search.words(self.choice, self.paths, tailor is not None)
        self.write("text", search.data)
        # what comes to standard input beside a text file is not read
        data = self.choice.choice([b"", b"aba\xff"]) if search.is_in_file else search.data
        got = given(self.choice, [self.colfind] + words, data)
        self.searches += 1
        self.with_matches += wanted[1] not in ("", "0\n")
        self.with_faults += wanted[2] != ""
        if got != wanted:
            self.different += 1
            print("different:", lines, tailor, words, search.data, wanted, got, sep="\n  ")


def main():
    colfind, seed, most = os.path.abspath(sys.argv[1]), int(sys.argv[2]), int(sys.argv[3])
    table = os.path.abspath(sys.argv[4]) if len(sys.argv) > 4 else None
    given = scripts.Scripts(scripts.read_table(table), seed) if table else None
    with tempfile.TemporaryDirectory() as folder:
        compared = Comparison(colfind, random.Random(seed), folder, given, table)
        while compared.searches < most:
            compared.try_table()
    print(
        f"seed {seed}: {compared.searches} searches, {compared.with_matches} with matches,"
        f" {compared.with_faults} with faults, {compared.different} different"
    )
    sys.exit(1 if compared.different else 0)


if __name__ == "__main__":
    main()
