"""Compares the ranges that colfind prints with the matches that ICU finds, in the first megabyte of texts of several languages, at each
strength and both weightings; and in short texts where the two differ, each with what the definitions say of it.

    python3 icu.py COLFIND TABLE

TABLE is allkeys_CLDR.txt, whose weights are those of ICU's root locale. The texts and the program over ICU are those of tools/bench.
The long texts have no word of which it is known that the two differ. DIFFERENCES has such words, and README.md says why they differ.
"""

import os
import subprocess
import sys
import tempfile

BENCH = os.path.join(os.path.dirname(os.path.abspath(__file__)), "..", "bench")
sys.path.insert(0, BENCH)

import measure
import texts

MEGABYTES = 1
PATTERNS = {
    "english": ["resume", "résumé", "The", "a", "no one"],
    "mixed": ["resume", "résumé", "long", "lòng", "é", "πρό"],
    "east asian": ["검색", "一", "か", "뚪"],
    "russian": ["система", "она", "и"],
    "polish": ["książka", "zrodlo", "do"],
    "korean": ["네트워크", "있습니다"],
    "chinese": ["安装程序", "的"],
    "japanese": ["検索", "する"],
    "arabic": ["المدينة", "في"],
    "hebrew": ["ישראל", "של"],
    "hindi": ["विद्यालय", "किया"],
    "bengali": ["বার্তা", "তালিকা"],
    "tamil": ["கோவில்", "அந்த"],
    "telugu": ["సందేశం", "చేయండి", "మీరు"],
    "thai": ["ภาษา", "หนึ่ง"],
    "lao": ["ພາສາ"],
    "burmese": ["သော", "နိုင်ငံ"],
    "source code": ["example", "self.", "not in"],
}
NOT_SHIFTED = {"一"}
# A pattern, a text, strengths, whether weighting is shifted, and the ranges of colfind and of ICU.
DIFFERENCES = [
    # a non-starter with a primary weight of its own belongs to the letter before it
    ("विद", "विद्यालय", (1, 2, 3), False, [], ["0:9"]),
    ("क", "क्या", (1, 2, 3), False, [], ["0:3"]),
    ("கோவில", "கோவில்", (1, 2, 3), False, [], ["0:15"]),
    ("မြန", "မြန်မာ", (1, 2, 3), False, [], ["0:9"]),
    ("ស", "ស្រី", (1, 2, 3), False, [], ["0:3"]),
    ("ค", "คุณ", (1, 2, 3), False, [], ["0:3"]),
    ("ຄ", "ຄຸນ", (1, 2, 3), False, [], ["0:3"]),
    ("བ", "བོད", (1, 2, 3), False, [], ["0:3"]),
    ("ꦏ", "ꦏ\ua9c0", (1, 2, 3), False, [], ["0:3"]),
    ("гд", "гд\u2ded\u0487ь", (1, 2, 3), False, [], ["0:4"]),
    ("ko", "ko\u0364nig", (1, 2, 3), False, [], ["0:2"]),
    # ICU takes no match that begins inside a grapheme cluster
    ("या", "विद्यालय", (1, 2, 3), False, ["12:18"], []),
    ("\U0001f1ea\U0001f1eb", "\U0001f1e9\U0001f1ea\U0001f1eb\U0001f1f7", (1, 2, 3), False, ["4:12"], []),
    ("\U0001f4bb", "\U0001f469\u200d\U0001f4bb", (1, 2, 3), False, ["7:11"], []),
    ("\n", "a\r\n", (1, 2, 3), False, ["2:3"], []),
    ("1", "\u06dd1", (1, 2, 3), False, ["2:3"], []),
    ("\u0e33", "\u0e19\u0e49\u0e33", (1, 2, 3), False, ["6:9"], []),
    # a match takes in the marks behind it
    ("မျာ", "များ", (1,), False, ["0:12"], ["0:9"]),
    ("မျာ", "များ", (2, 3), False, [], ["0:9"]),
    ("b\n", "b\n\u0301", (1,), False, ["0:4"], ["0:2"]),
    ("b\n", "b\n\u0301", (2, 3), False, [], ["0:2"]),
    # letters without a first weight
    ("\u0628", "\u0628\ufc5e", (1,), False, ["0:5"], ["0:2"]),
    ("\u0628", "\u0628\ufc5e", (2, 3), False, [], ["0:2"]),
    ("\ufe76", "\u0628\ufe76", (2, 3), False, [], ["2:5"]),
    # and in ignored characters
    ("auto", "auto\u00admobil", (1, 2, 3), False, ["0:6"], ["0:4"]),
    ("word", "word\u200b", (1, 2, 3), False, ["0:7"], ["0:4"]),
    ("\u0643\u062a\u0627\u0628", "\u0643\u062a\u0627\u0628\u0640", (1, 2, 3), False, ["0:10"], ["0:8"]),
    ("មិន", "មិន\u200bឆ", (1, 2, 3), False, ["0:12"], ["0:9"]),
    # the table has l with a middle dot as one string
    ("col", "col\u00b7legi", (1,), False, ["0:5"], ["0:3"]),
    ("col", "col\u00b7legi", (2, 3), False, [], ["0:3"]),
    ("intel", "intel\u00b7ligent", (2, 3), False, [], ["0:5"]),
    # ICU takes some ideographs for others
    ("一", "丁", (1, 2, 3), True, [], ["0:3"]),
    # the same text, as one code point and as three: no match ends inside a code point
    ("가", "각", (1, 2, 3), False, [], []),
    ("\u1100\u1161", "\u1100\u1161\u11a8", (1, 2, 3), False, ["0:6"], ["0:6"]),
    ("\u0f42", "\u0f43", (1, 2, 3), False, [], []),
    ("\u0f42", "\u0f42\u0fb7", (1, 2, 3), False, ["0:3"], ["0:3"]),
]


def cases(patterns):
    """Each pattern at each strength, and whether weighting is shifted."""
    for pattern in patterns:
        for strength in (1, 2, 3):
            yield pattern, strength, False
            if pattern not in NOT_SHIFTED:
                yield pattern, strength, True


def lines_of(words):
    """What is printed, a line at a time; ICU gets no more than a minute."""
    ran = subprocess.run(words, stdin=subprocess.DEVNULL, capture_output=True, timeout=60, check=False)
    if ran.returncode > 1:
        raise SystemExit(f"{words}: {ran.stderr.decode()}")
    return ran.stdout.decode().splitlines()


def ranges(colfind, table, icu, path, pattern, strength, is_shifted):
    """What colfind prints, and what ICU finds."""
    weighting = "shifted" if is_shifted else "non-ignorable"
    words = ["--table", table, "--strength", str(strength), "--variable", weighting, "--", pattern, path]
    return lines_of([colfind, *words]), lines_of([icu, *(["-s"] if is_shifted else []), str(strength), pattern, path])


def compare(colfind, table, icu, path, pattern, strength, is_shifted):
    """How many matches ICU finds, and whether colfind prints the same."""
    got, wanted = ranges(colfind, table, icu, path, pattern, strength, is_shifted)
    if got == wanted:
        return len(wanted), True
    print(f"different: {pattern}, strength {strength}, shifted {is_shifted}, {path}: {len(got)} by colfind, {len(wanted)} by ICU")
    print("  colfind alone:", *sorted(set(got) - set(wanted))[:5])
    print("  ICU alone:", *sorted(set(wanted) - set(got))[:5])
    return len(wanted), False


def other_than_known(colfind, table, icu, path):
    """How many searches of DIFFERENCES there are, and how many of them have other ranges."""
    searches = different = 0
    for pattern, text, strengths, is_shifted, of_colfind, of_icu in DIFFERENCES:
        with open(path, "w", encoding="utf-8") as file:
            file.write(text)
        for strength in strengths:
            searches += 1
            got = ranges(colfind, table, icu, path, pattern, strength, is_shifted)
            if got != (of_colfind, of_icu):
                different += 1
                print(f"other than known: {pattern} in {text}, strength {strength}: {got[0]} by colfind, {got[1]} by ICU")
    return searches, different


def main():
    if len(sys.argv) != 3:
        sys.exit(__doc__)
    colfind, table = map(os.path.abspath, sys.argv[1:])
    folder = os.path.join(BENCH, "out")
    os.makedirs(folder, exist_ok=True)
    icu = measure.built_icu_search(folder)
    searches = matches = different = 0
    with tempfile.TemporaryDirectory() as given:
        for name, patterns in PATTERNS.items():
            path = os.path.join(given, name)
            with open(path, "wb") as file:
                file.write(texts.text(name, folder, MEGABYTES))
            for case in cases(patterns):
                found, is_same = compare(colfind, table, icu, path, *case)
                searches, matches, different = searches + 1, matches + found, different + (not is_same)
        known, other = other_than_known(colfind, table, icu, os.path.join(given, "short"))
    print(f"ICU: {searches} searches, {matches} matches, {different} different; {known} of known differences, {other} other than known")
    sys.exit(1 if different or other else 0)


main()
