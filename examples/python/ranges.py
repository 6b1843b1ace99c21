"""ranges.py TABLE PATTERN FILE: prints each match of a file, and resumes a search."""
import sys

from colfind import Fault, Pattern, Search, Table

_, table_path, sought, path = sys.argv
with open(table_path, "rb") as file:
    table = Table(file.read())
pattern = Pattern(table, sought, strength=1)
text = "r\u00e9sum\u00e9, my resume"
print([text[start:end] for start, end in pattern.search(text)], pattern.index(text, 1))  # a str: offsets of characters
titles = ["my r\u00e9sum\u00e9", "notes", "resumed"]
print([title for title, found in zip(titles, pattern.index_many(titles)) if found])  # many texts by one call
try:
    with Search(pattern) as search, open(path, "rb") as file:  # a file, in pieces: offsets of bytes
        for start, end in search.feed_file(file):
            print(start, end)
except Fault as fault:
    print(fault)  # such as: fault 31 at 9: the text is not UTF-8 here, or ends amid a character
search = Search(pattern)
print(list(search.feed(b"my res")))
words = search.save()  # numbers: the search goes on later, or elsewhere
print(list(pattern.resume(words).feed(b"ume, and so on")))
