"""Counts the forms of a hundred words in a corpus, by Dask: on the processors of this machine, or on all workers of a scheduler.

    python3 forms.py --megabytes 100
    python3 forms.py --megabytes 10000 --scheduler tcp://10.0.0.1:8786

The corpus is made up: each task makes its part of it, from the part's number, and keeps nothing but the counts. README.md says how to start
it on several machines. Progress is told on standard error."""
from __future__ import annotations

import argparse
import random
import sys
import time
import unicodedata
from collections import Counter
from functools import lru_cache
from pathlib import Path

from colfind_dask import form_of, matches_of
from distributed import Client, as_completed

from colfind import Pattern, Table

TABLE = Path("/usr/share/unicode/cldr/common/uca/allkeys_CLDR.txt")
PART = 1 << 25  # the bytes of the corpus that a task makes and searches
LINES, COMMON = 4_096, 20_000  # how many different lines the corpus has, and how many words stand beside the hundred
CONTEXT = 24
ALONE = {"dashboard_address": "127.0.0.1:0", "worker_dashboard_address": "127.0.0.1:0"}  # no port is open to other machines
STARTS, VOWELS = "b br c ch d f g gr h l m n p pr qu r s st t tr v".split(), "a e i o u \u00e9 \u00e8 \u00ea \u00f4 \u00e7a".split()
ENDS, ENDINGS = ["", "l", "n", "r", "s", "t", "nt"], ["", "", "", "s", "es", "er", "\u00e9"]


def word(rng: random.Random) -> str:
    return "".join(rng.choice(STARTS) + rng.choice(VOWELS) for _ in range(rng.randint(2, 3))) + rng.choice(ENDS)


@lru_cache(maxsize=1)
def words() -> list[str]:
    """A hundred words, and behind them those that stand between them."""
    rng = random.Random(1)
    made = dict.fromkeys(word(rng) for _ in range(2 * COMMON))
    return sorted(made, key=len, reverse=True)[:100] + sorted(made, key=len)[:COMMON]


def spelled(rng: random.Random, one: str) -> str:
    """A word with an ending, capital letters, or its accents apart."""
    one += rng.choice(ENDINGS)
    return rng.choice([one, one, one, one.capitalize(), one.upper(), unicodedata.normalize("NFD", one)])


@lru_cache(maxsize=1)
def lines() -> list[bytes]:
    """The lines of which each part is made, in some order: a word in thirty is one of the hundred."""
    rng, listed = random.Random(2), words()
    sought, common = listed[:100], listed[100:]
    chosen = ([sought if rng.random() < 1 / 30 else common for _ in range(10)] for _ in range(LINES))
    return [" ".join(spelled(rng, rng.choice(some)) for some in line).encode() for line in chosen]


def made(number: int, size: int) -> bytes:
    """A part of the corpus, the same in each run."""
    rng, of_all = random.Random(number), lines()
    return b"\n".join(rng.choices(of_all, k=size // (len(b"".join(of_all)) // LINES + 1)))


def counted(number: int, patterns: list[Pattern], size: int) -> tuple[int, Counter[tuple[str, str]]]:
    """What a task does: how many bytes it searched, and how often each pattern stands in each form."""
    text = made(number, size)
    return len(text), Counter((match.pattern, form_of(match)) for pattern in patterns for match in matches_of(text, pattern, CONTEXT))


def main() -> None:
    parser = argparse.ArgumentParser(description=__doc__, formatter_class=argparse.RawDescriptionHelpFormatter)
    parser.add_argument("--megabytes", type=int, default=100, metavar="N", help="how large the corpus is (100)")
    parser.add_argument("--words", type=int, default=100, metavar="N", help="how many words are sought (100)")
    parser.add_argument("--table", type=Path, default=TABLE, help="the table of weights (CLDR's, of unicode-cldr-core)")
    parser.add_argument("--workers", type=int, metavar="N", help="processes on this machine, else one for each processor")
    where = parser.add_mutually_exclusive_group()
    where.add_argument("--scheduler", metavar="ADDRESS", help="the scheduler of a cluster")
    where.add_argument("--scheduler-file", metavar="FILE", help="a file that says where it is")
    given = parser.parse_args()
    table = Table(given.table.read_bytes())
    patterns = [Pattern(table, sought, strength=1) for sought in words()[:given.words]]
    if given.scheduler or given.scheduler_file:
        client = Client(given.scheduler, scheduler_file=given.scheduler_file)
    else:
        client = Client(n_workers=given.workers, threads_per_worker=1, **ALONE)
    with client:
        run(client, patterns, given.megabytes * 1_000_000)


def run(client: Client, patterns: list[Pattern], size: int) -> None:
    from forms import counted  # by the name that the workers have for it
    client.upload_file(__file__)
    began, total, done = time.monotonic(), Counter[tuple[str, str]](), 0
    [sent] = client.scatter([patterns], broadcast=True)  # once to each worker
    parts = [client.submit(counted, at // PART, sent, min(PART, size - at)) for at in range(0, size, PART)]
    for part, (length, counter) in as_completed(parts, with_results=True):
        total.update(counter)
        done += length
        seconds = time.monotonic() - began
        said = f"{done / 1e6:,.0f} of {size / 1e6:,.0f} MB, {sum(total.values()):,} matches, {done / 1e6 / seconds:,.0f} MB/s"
        print(f"\r{said}", end="\x1b[K", file=sys.stderr)
    print(file=sys.stderr)
    for (sought, form), count in sorted(total.items(), key=lambda row: (-row[1], row)):
        print(f"{count}\t{sought}\t{form}")


if __name__ == "__main__":
    main()
