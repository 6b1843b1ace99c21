"""What the checks of this folder have in common. A check is a list of parts, as that of package/check, whose helpers it takes: `run`,
`need`, `same`, `Failed` and `Skipped`."""

import functools
import importlib.machinery
import importlib.util
import os
import re
import signal
import sys

TOP = os.path.dirname(os.path.dirname(os.path.abspath(__file__)))
CLDR = "/usr/share/unicode/cldr/common/uca/allkeys_CLDR.txt"
LETTERS = os.path.join(TOP, "docs/example/letters.txt")
PROGRAM = os.path.join(TOP, "crates/colfind/out/colfind")
LIBRARY = os.path.join(TOP, "package/out")


def script(path):
    """A script of the repository as a module."""
    sys.dont_write_bytecode = True
    loader = importlib.machinery.SourceFileLoader(os.path.basename(path), os.path.join(TOP, path))
    module = importlib.util.module_from_spec(importlib.util.spec_from_loader(loader.name, loader))
    loader.exec_module(module)
    return module


checks = script("package/check")
run, need, same, Failed, Skipped = checks.run, checks.need, checks.same, checks.Failed, checks.Skipped


def need_file(path, package):
    """`package` of Debian has the file."""
    if not os.path.exists(path):
        raise Skipped(f"no {package}")


@functools.lru_cache(maxsize=None)
def need_built():
    """libcolfind.so.1 in package/out, of the library that is proved."""
    proved, made = (os.path.join(TOP, path) for path in ("crates/colfind_c/out/libcolfind_c.a", "package/out/libcolfind.so.1"))
    if not os.path.exists(proved):
        raise Failed(f"no {proved}: (cd crates/colfind_c && rt lib)")
    os.makedirs(LIBRARY, exist_ok=True)
    if not os.path.exists(made) or os.path.getmtime(made) < os.path.getmtime(proved):
        run("package/library", "package/out")


def same_lines(what, got, wanted):
    """The same lines in the same order."""
    same(what, *([f"{i}: {line}" for i, line in enumerate(lines, 1)] for lines in (got, wanted)))


def by_program(table, pattern, text, *words):
    """The ranges that the program finds in a text, in characters counted from 1, and the text of each."""
    printed = run(PROGRAM, "--table", table, *words, "--", pattern, given=text.encode(), wanted=None)
    ranges, data = [], text.encode()
    for start, end in re.findall(r"(\d+):(\d+)", printed):
        before, match = data[:int(start)].decode(), data[int(start):int(end)].decode()
        ranges.append((1 + len(before), 1 + len(before) + len(match), match))
    return ranges


def random_search(choice):
    """The words of a call, its selection, and what the program finds, with the small table."""
    text = "".join(choice.choice(["a", "A", "e", "u", "ch", "h", " ", "-", "\u0301", "\u0300", "é", "ú", "😀", "\u00ad"]) for _ in range(12))
    pattern, strength = choice.choice(["a", "e", "u", "aa", "ch", "h", "a e", "ea", "😀"]), choice.randint(1, 3)
    weighting, selection = choice.choice(["non-ignorable", "shifted"]), choice.choice(["all", "chain"])
    found = by_program(LETTERS, pattern, text, "--strength", str(strength), "--variable", weighting, "--select", selection)
    return f"'{text}', '{pattern}', {strength}, '{weighting}'", f"'{selection}'", found


def readme_examples(path):
    """The statements of the block ```sql of a README, and what stands behind `-- ` in their lines and those below."""
    with open(os.path.join(TOP, path), encoding="utf-8") as file:
        lines = re.search(r"```sql\n(.*?)```", file.read(), re.S)[1].splitlines()
    parted = [re.fullmatch(r"(.*?)\s*(?:-- (.*))?", line) for line in lines]
    return [part[1] for part in parted], [part[2] for part in parted if part[2]]


def main(parts, about):
    signal.signal(signal.SIGTERM, lambda *_: sys.exit(143))  # so that what was started is ended
    checks.PARTS, checks.__doc__, checks.MOST_SECONDS = parts, about, 240
    checks.main()
