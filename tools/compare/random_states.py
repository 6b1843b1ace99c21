"""Compares what search_pieces prints with what model.py and states.py give, on random small tables, patterns and texts in pieces of
0 to 70 bytes: the ranges, when each is handed out, the words of the search after each piece, how many records these are, and the
fault of the text. Where a TABLE is given all searches are with that one, over texts of all scripts of tools/bench.

    python3 random_states.py SEARCH_PIECES SEED STATES [TABLE]
"""

import collections
import os
import random
import subprocess
import sys
import tempfile

import model
import random_searches as searches
import scripts
import states

HANGUL = [0x1100, 0x1112, 0x1161, 0x1175, 0x11A8, 0x11C2, 0xAC00, 0xAC01, 0xD7A3]
IDEOGRAPHS = [0x2F00, 0x4E00, 0x4E01, 0xFA0E, 0x3400, 0x17005, 0x20000]
LONGEST = 120  # the most bytes of quiet text
MOST_PIECES = 40


def random_part(choice, keys):
    """A run of ASCII, a mapped string, Hangul, ideographs, or characters of all kinds."""
    kind, few = choice.random(), choice.choice([1, 2, 3, 5])
    if kind < 0.35:
        letters = choice.sample(searches.LETTERS + [0x20, 0x2D, 0x7A], choice.choice([1, 2, 3, 8]))
        most = choice.choice([2, 5, 9, 20])
        return "".join(chr(choice.choice(letters)) for _ in range(choice.randrange(most)))
    if kind < 0.55:
        return "".join(chr(c) for c in choice.choice(keys) if not model.is_surrogate(c))
    if kind < 0.65:
        return "".join(chr(choice.choice(HANGUL)) for _ in range(few))
    if kind < 0.75:
        return "".join(chr(choice.choice(IDEOGRAPHS)) for _ in range(few))
    return searches.random_text(choice, 6)


def random_sizes(choice, length):
    """How many bytes each piece has; what is left is one more."""
    most = choice.choice([1, 2, 4, 12, 70])
    sizes, left = [], length
    while left > 0 and (len(sizes) < 3 or choice.random() > 0.02) and len(sizes) < MOST_PIECES:
        sizes.append(min(left, choice.randrange(most + 1)))
        left -= sizes[-1]
    return sizes


def any_text(choice, keys):
    text = "".join(random_part(choice, keys) for _ in range(choice.choice([1, 2, 3, 4, 5, 8])))
    data = searches.random_bytes(choice, text)
    pattern = random_part(choice, keys) if choice.random() < 0.2 else searches.random_pattern(choice, text)
    return searches.Text(pattern, data)


class Search:
    """The settings of one search, its pattern and its text, and how that is cut."""

    def __init__(self, choice, table, given=None):
        self.table, self.strength, self.is_shifted = table, choice.choice([1, 2, 3]), choice.random() < 0.5
        self.is_chain = choice.random() < 0.5
        self.text = given.text(choice, searches.random_bytes, LONGEST) if given else any_text(choice, list(table[0]))
        self.data, self.pattern = self.text.data, self.text.pattern
        self.sizes = random_sizes(choice, len(self.data))

    def pattern_fault(self):
        return model.pattern_fault(self.table, self.strength, self.is_shifted, self.pattern.encode())

    def words(self, paths):
        weighting, select = ("non-ignorable", "shifted")[self.is_shifted], ("all", "chain")[self.is_chain]
        named = [paths["table"], str(self.strength), weighting, select, self.pattern, paths["text"]]
        return named + [str(size) for size in self.sizes]

    def wanted(self, counts):
        """The lines that must be printed."""
        pattern, lines, handed, end = self.pattern.encode(), [], 0, 0
        ranges, fault = self.text.answer(self.table, self.strength, self.is_shifted, self.is_chain)
        keys = states.keys_of_text(self.table, self.strength, self.is_shifted, pattern)
        for size in self.sizes + [len(self.data) - sum(self.sizes)]:
            end += size
            state = states.State(self.table, self.strength, self.is_shifted, keys, self.data[:end])
            known = state.handed_out(ranges)
            lines += [f"{s}:{e}" for s, e in known[handed:]]
            lines.append("state " + " ".join(map(str, state.words(self.is_chain, ranges))))
            handed = len(known)
            count_state(counts, state)
        counts["with matches"] += bool(ranges)
        counts["with faults"] += bool(fault)
        lines += [f"{s}:{e}" for s, e in ranges[handed:]]
        return lines + [f"fault {fault[0]} at {fault[1]}"] if fault else lines


def count_state(counts, state):
    counts["states"] += 1
    if state.fault:
        counts["states after a fault"] += 1
        return
    counts["states with bytes held"] += bool(state.held)
    counts["states with points that wait"] += bool(state.waiting)
    counts["states with places of keys"] += bool(state.places)
    counts["states with a match that waits"] += bool(state.match_waits)
    counts["states after a variable element"] += bool(state.after_variable)


def has_few_records(search, lines):
    """Whether no state that was printed has more records than the bound."""
    keys = states.keys_of_text(search.table, search.strength, search.is_shifted, search.pattern.encode())
    most = states.most_records(search.table, keys, search.is_chain)
    return all(len(line.split()) - 1 <= 4 * most for line in lines if line.startswith("state "))


def given(words):
    """What the program answers."""
    ran = subprocess.run(words, stdin=subprocess.DEVNULL, capture_output=True, close_fds=False)
    return ran.returncode, ran.stdout.decode().splitlines(), ran.stderr.decode()


def write(path, data):
    with open(path, "wb") as file:
        file.write(data)


def compare(program, search, lines, paths, counts):
    """Compares one search, if its pattern has no fault."""
    if search.pattern_fault():
        return
    write(paths["text"], search.data)
    wanted, got = (0, search.wanted(counts), ""), given([program] + search.words(paths))
    counts["searches"] += 1
    if got != wanted or not has_few_records(search, got[1]):
        counts["different"] += 1
        print("different:", lines, search.words(paths), search.data, wanted, got, sep="\n  ")


def try_table(program, choice, paths, counts):
    """Some searches under one table, if it has no fault."""
    lines = searches.random_lines(choice, 16)
    table, fault = model.table_of(lines)
    if fault:
        return
    write(paths["table"], searches.spelled_file(choice, lines).encode())
    for _ in range(6):
        compare(program, Search(choice, table), lines, paths, counts)


def main():
    program, seed, most = os.path.abspath(sys.argv[1]), int(sys.argv[2]), int(sys.argv[3])
    path = os.path.abspath(sys.argv[4]) if len(sys.argv) > 4 else None
    choice, counts = random.Random(seed), collections.Counter(searches=0, different=0)
    of_scripts = scripts.Scripts(scripts.read_table(path), seed) if path else None
    with tempfile.TemporaryDirectory() as folder:
        paths = {"table": path or os.path.join(folder, "table"), "text": os.path.join(folder, "text")}
        while counts["states"] < most:
            if of_scripts:
                compare(program, Search(choice, of_scripts.table, of_scripts), [], paths, counts)
            else:
                try_table(program, choice, paths, counts)
    print(f"seed {seed}: " + ", ".join(f"{count} {name}" for name, count in counts.items()))
    sys.exit(1 if counts["different"] else 0)


main()
