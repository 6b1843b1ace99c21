"""How many instructions colfind takes over texts aimed at the ways that a search takes, beside builds that take fewer of them.

    python3 ways.py COLFIND LETTERS STEPS

LETTERS takes letters and passes nothing by; STEPS goes by steps alone. Both are made by `steps`. Each figure is millions of instructions
a megabyte, counted by callgrind over 2 MB, with those of an empty text taken off: it is the same however loud the machine is. Two numbers
of matches are compared, that of the pattern and that of two characters of the text itself. A line that begins with `wrong` is an answer, or
memory, that is not what it must be.
"""

import concurrent.futures
import os
import random
import re
import subprocess
import sys
import tempfile
import unicodedata

from figures import MEGABYTE, Bench, plain_text

CLDR = "/usr/share/unicode/cldr/common/uca/allkeys_CLDR.txt"
MEGABYTES = 2  # of each text
MOST_MEMORY = 15  # megabytes
PIECE = 4096  # the bytes that the program reads at once
SHIFTED = "--variable", "shifted"
RUSSIAN, THAI, HAN = "\u043f\u0440\u043e\u0441\u0442\u043e\u0439 ", "\u0e44\u0e17\u0e22 ", "\u4e2d\u6587\u5b57\u3002"


# ---- texts; each is repeated


def assigned():
    """All assigned characters in order."""
    return [c for c in map(chr, range(0x20, 0x30000)) if unicodedata.category(c) not in ("Cn", "Cs", "Co", "Cc")]


def with_short_runs(characters):
    """The characters with a letter behind each twenty marks in a row: thirty-one are a fault."""
    parts, run = [], 0
    for c in characters:
        run = run + 1 if unicodedata.combining(c) else 0
        parts.append(c)
        if run == 20:
            parts.append("a")
            run = 0
    return "".join(parts)


def any_marks(choice):
    """Letters with up to three marks each, in any order."""
    marks = "\u0300\u0301\u0323\u0327\u0330\u0345"
    return "".join(choice.choice("aeiou") + "".join(choice.choice(marks) for _ in range(choice.randrange(4))) for _ in range(20000))


def other_blocks(choice):
    """Han, each second character at the beginning of a block of 256."""
    blocks = "".join(map(chr, range(0x4E00, 0x9F00, 0x100)))
    return "".join(choice.choice(blocks) + chr(0x4E00 + choice.randrange(0x5000)) for _ in range(20000))


def any_code_points(choice):
    """Code points of one to four bytes, those of each length as often as the others; runs of marks stay short."""
    ranges = ((0x20, 0x80), (0x80, 0x800), (0x800, 0xD800), (0x10000, 0x110000))
    return "".join(chr(choice.randrange(*choice.choice(ranges))) for _ in range(100000))


def across_cuts(prose, string):
    """Plain text with this string across each cut between two pieces that the program reads, one byte more before it each time."""
    string = string.encode()
    text = bytearray(repeated(prose, PIECE * len(string)))
    for before in range(1, len(string)):
        place = (PIECE - 1) * before
        text[place : place + len(string)] = string
    return text.decode()


def repeated(part, size):
    """So many bytes of a text that is repeated, with spaces at the end where a character has no room."""
    part = part.encode()
    text = (part * (size // len(part) + 1))[:size].decode("utf-8", "ignore").encode()
    return text + b" " * (size - len(text))


def turns(*parts):
    """A kilobyte of each."""
    return "".join(repeated(part, 1024).decode() for part in parts)


def cases():
    """A name, the pattern, the text that is repeated, what stands in front of it once, and options."""
    choice, prose = random.Random(2), plain_text(1 << 13).decode()
    foreign = "".join("a plain text of so m" + c for c in "\u0436\u0e01\u4e2d\uac00\u05d0\u0915\u10d0\U0001f600")
    random_bytes = choice.randbytes(200000)
    pair, later, seven = "ab" + "m" * 15, "bc" + "m" * 15, "\u043c" * 7 + "m"
    prevowels = "\u0e40\u0e01\u0e41\u0e02\u0e42\u0e03\u0ec0\u0e81\u0ec1\u0e82"
    yield "plain text, no match", "zz", prose
    yield "two characters that share a place", "zz", "\u4e00\U00024e00"
    yield "pairs that share a place", "zz", prevowels
    yield "a word of ASCII, one of Thai, a smile, in turn", "zz", "words " + THAI + "\U0001f600 "
    yield "a kilobyte of ASCII, of Russian, of Thai, of Han, in turn", "zz", turns(prose, RUSSIAN, THAI, HAN)
    yield "marks in and out of order in turn", "zz", "e\u0327\u0301e\u0301\u0327"
    yield "letters with any marks", "zz", any_marks(choice)
    yield "a mark at each second character", "zz", "e\u0301"
    yield "three marks behind each letter", "zz", "e\u0327\u0323\u0301"
    yield "four marks behind each letter", "zz", "e\u0327\u0323\u0301\u0345"
    yield "a contraction at each third character", "zz", "a\u0e40\u0e01"
    yield "a contraction at each second character", "zz", "\u0e40\u0e01"
    yield "a contraction across each cut of 4,096 bytes", "zz", across_cuts(prose, "\u0e40\u0e01")
    yield "a letter and marks across each cut of 4,096 bytes", "zz", across_cuts(prose, "e\u0327\u0301")
    yield "a unit left to the steps at each second character", "zz", "a\u0f71\u0f72"
    yield "zero bytes", "zz", "\0"
    yield "the second key at each character", "ba", "a"
    yield "the second key 1,020 times, a match, 32 others, in turn", "ba", "a" * 1020 + "ba" + "m" * 32
    yield "25,000 bytes of plain text, 40,000 zero bytes, in turn", "zz", repeated(prose, 25000).decode() + "\0" * 40000
    yield "the first key at each character", "ab", "a"
    yield "the first eight keys at each character", "a" * 9 + "b", "a"
    yield "a match at each character", "a", "a"
    yield "the first two keys at each 17th byte", "abc", pair
    yield "the first two keys at each 17th byte, past ASCII", "\u0436\u0437\u0438", "\u0436\u0437" + seven
    yield "each two keys of the pattern at each 34th byte", "aba", pair + "ba" + "m" * 15
    yield "two keys that are rare in the first kilobyte, then at each 17th byte", "abc", later, pair * 61
    yield "the same past ASCII, behind a megabyte", "\u0436\u0437\u0438", "\u0437\u0438" + seven, ("\u0436\u0437" + seven) * 55000
    yield "the pattern but for its last key, again and again", "abababac", "ababab"
    yield "the same, pattern of 1,000 keys", "ab" * 500 + "c", "ab"
    yield "a character of another block at each character", "zz", other_blocks(choice)
    yield "all assigned characters in order", "zz", with_short_runs(assigned())
    yield "all assigned characters in any order", "zz", with_short_runs(choice.sample(assigned(), len(assigned())))
    yield "random bytes, without those that are ill-formed", "zz", random_bytes.decode("utf-8", "ignore")
    yield "random bytes, as Latin-1", "zz", random_bytes.decode("latin-1")
    yield "any code points", "zz", any_code_points(choice)
    yield "plain text with Thai every 20 bytes", "zz", "a plain text of so " + THAI
    yield "plain text with a letter of another script every 20 bytes", "zz", foreign
    yield "Russian with a character of Han every 20 bytes", "zz", "\u043f\u0440\u043e\u0441\u0442\u043e\u0439 \u0442\u0435\u4e2d"
    yield "letters and commas in turn, shifted", "zz", "a,", "", SHIFTED
    yield "one line of Polish, a match in each", "ksi", "Ta ksi\u0105\u017cka jest moja.\n"


# ---- runs


def own_pattern(part):
    """Two characters of a text, of which the first is a letter; that one, or else the second, is past ASCII if there are such ones. `a` where
    the text has no letter."""
    pairs = [part[place : place + 2] for place, c in enumerate(part) if c.isalpha() and part[place + 1 : place + 2] != "\0"]
    return min(pairs, key=lambda pair: (pair[0].isascii(), pair.isascii()), default="a")


def matches(bench, name, words, text, others):
    """How many matches the first program finds; the others must answer the same."""
    answer, _ = bench.once(words, text)
    for other in others:
        if other.once(words, text)[0] != answer:
            bench.wrong += 1
            print(f"wrong: {name}, {words[-1]}: {answer}, {other.once(words, text)[0]} by {other.colfind}")
    return f"{int(answer[1]):,}" if answer[1] else answer[2].decode().strip()


def instructions(bench, words, text):
    """How many instructions a run takes."""
    with open(text, "rb") as data, tempfile.NamedTemporaryFile() as counts:
        words = ["valgrind", "--tool=callgrind", f"--callgrind-out-file={counts.name}", bench.colfind, *words]
        ran = subprocess.run(words, stdin=data, capture_output=True, check=False)
    return int(re.search(rb"Collected : (\d+)", ran.stderr)[1])


def millions(benches, words, text, none):
    """The millions of instructions a megabyte of each program, which run at once."""
    with concurrent.futures.ThreadPoolExecutor() as runs:
        whole = runs.map(lambda bench: instructions(bench, words, text), benches)
        empty = runs.map(lambda bench: instructions(bench, words, none), benches)
        return [(all_of - start) / MEGABYTES / 1e6 for all_of, start in zip(whole, empty)]


def megabytes(bench, words, text):
    """The most memory of a run."""
    with open(text, "rb") as data:
        ran = subprocess.run(["/usr/bin/time", "-f", "%M", bench.colfind, *words], stdin=data, capture_output=True, check=False)
    return int(ran.stderr.split()[-1]) / 1024


def row(benches, name, pattern, part, front="", options=()):
    """Measures and prints a row: the instructions beside each of the other programs, and the megabytes."""
    bench, others = benches[0], benches[1:]
    size = MEGABYTES * MEGABYTE - len(front.encode())
    text, none = bench.file("text", front.encode() + repeated(part, size)), bench.file("none", b"")
    words = ["--table", CLDR, "--strength", "1", "--output", "count", *options, "--"]
    numbers = [matches(bench, name, words + [sought], text, others) for sought in (pattern, own_pattern(part))]
    counts, memory = millions(benches, words + [pattern], text, none), megabytes(bench, words + [pattern], text)
    if memory > MOST_MEMORY:
        bench.wrong += 1
        print(f"wrong: {name}: {memory:.1f} MB")
    beside = [counts[0] / other for other in counts[1:]]
    sought = f"`{pattern}`" if len(pattern) < 20 else f"{len(pattern):,} letters"
    figures = [f"{count:.1f}" for count in counts] + [f"{ratio:.2f}" for ratio in beside] + [f"{memory:.1f}"]
    print("| " + " | ".join([name, sought, *numbers, *figures]) + " |", flush=True)
    return [*beside, memory]


def main():
    if len(sys.argv) != 4:
        sys.exit(__doc__)
    headings = ["text", "pattern", "matches", "of two of its characters", "millions a MB", "by letters alone", "by steps alone"]
    headings += ["beside letters", "beside steps", "MB"]
    print("| " + " | ".join(headings) + " |\n|" + "---|" * len(headings))
    with tempfile.TemporaryDirectory() as folder:
        benches = [Bench(os.path.abspath(path), folder) for path in sys.argv[1:]]
        rows = [row(benches, *case) for case in cases()]
    letters, steps, memory = map(max, zip(*rows))
    print(f"\nAt most {letters:.2f} times as many as by letters alone, {steps:.2f} times as by steps alone; {memory:.1f} MB")
    print(f"\n{benches[0].wrong} wrong answers")
    sys.exit(1 if benches[0].wrong else 0)


if __name__ == "__main__":
    main()
