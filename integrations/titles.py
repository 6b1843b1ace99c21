"""Titles of a made catalogue, the same in each run: five languages, 58 characters, 65 percent of these not ASCII; two of a hundred have a
word that `resume` finds at strength 1, in one of five spellings. `titles.py COUNT` prints them, a line each."""
import os
import random
import re
import sys

WORDS = os.path.join(os.path.dirname(os.path.abspath(__file__)), "..", "tools", "bench", "words.txt")
LANGUAGES = ["english", "russian", "thai", "hindi", "arabic"]
FORMS = ["resume", "Resume", "r\u00e9sum\u00e9", "R\u00e9sum\u00e9", "re\u0301sume\u0301"]


def titles(count):
    with open(WORDS, encoding="utf-8") as file:
        lists = dict(re.findall(r"^(\w+):\n((?:.+\n)+)", file.read(), re.M))
    languages = [lists[name].split() for name in LANGUAGES]
    choice = random.Random(1)
    for _ in range(count):
        words, length = choice.choice(languages), choice.randint(43, 69)
        title = [choice.choice(FORMS)] if choice.random() < 0.02 else []
        while len(" ".join(title)) < length:
            title.insert(choice.randint(0, len(title)), choice.choice(words))
        yield " ".join(title)


if __name__ == "__main__":
    for one in titles(int(sys.argv[1])):
        print(one)
