"""Finds book titles by an SQL function: `python3 catalogue.py [TABLE] [PATTERN]` makes 100,000 titles, and searches them beside LIKE."""
from __future__ import annotations

import random
import sqlite3
import sys
import time
from collections.abc import Sequence
from contextlib import closing
from pathlib import Path

from colfind import Pattern, Table

LETTERS = Path(__file__).parents[2] / "docs" / "example" / "letters.txt"
WORDS = ["resume", "R\u00e9sum\u00e9", "re\u0301sume\u0301", "Resumption", "a", "the", "my", "of", "Caf\u00e9", "garden", "history", "stories",
         "\u0421\u0438\u0441\u0442\u0435\u043c\u0430", "\u6f22\u5b57", "letters", "summer", "chess", "night"]


def made_titles(count: int) -> list[str]:
    """Titles of three to seven words, the same in each run."""
    rng = random.Random(1)
    return [" ".join(rng.choices(WORDS, k=rng.randint(3, 7))) for _ in range(count)]


def catalogue(titles: Sequence[str | None], pattern: Pattern) -> sqlite3.Connection:
    """A database of books with these titles, and the function `found(title)`, which is NULL of a title that is NULL."""

    def found(title: str | None) -> bool | None:
        return None if title is None else pattern.index(title.encode()) is not None

    database = sqlite3.connect(":memory:")
    database.execute("CREATE TABLE books (title TEXT)")
    database.executemany("INSERT INTO books VALUES (?)", ((title,) for title in titles))
    database.create_function("found", 1, found, deterministic=True)
    return database


def main() -> None:
    table = Table(Path(sys.argv[1] if len(sys.argv) > 1 else LETTERS).read_bytes())
    sought = sys.argv[2] if len(sys.argv) > 2 else "resume"
    with Pattern(table, sought, strength=1) as pattern, closing(catalogue(made_titles(100_000), pattern)) as database:
        for condition in ["found(title)", f"title LIKE '%{sought}%'"]:
            begun = time.process_time()
            rows = database.execute(f"SELECT title FROM books WHERE {condition}").fetchall()
            print(f"{condition}: {len(rows)} titles, {time.process_time() - begun:.3f} s")


if __name__ == "__main__":
    main()
