"""Tests of check_documents, over small repositories:  python3 tools/test_check_documents.py"""

import os
import shutil
import subprocess
import tempfile
import unittest

import limited

TOOLS = os.path.dirname(os.path.abspath(__file__))
COLFIND = "#!/bin/sh\necho 0:3\necho colfind: fault 31 at 4 >&2\nexit 2\n"
FILES = {
    "crates/one/src/lib.rt": "fn first() {}\nfn known_name() {} // commented_name\nfn last() {}\n",
    "crates/one/must-fail/name_of_an_edit.edit": "file: src/lib.rt\n",
    "crates/one/README.md": "# One\n",
    "docs/example/text.txt": "abc d\n",
    "docs/GUIDE.md": "# A guide\n\n## What it has\n",
}


class CheckDocumentsTest(unittest.TestCase):
    def complaints(self, readme, *options, path="README.md"):
        """The lines printed about a README, but for the last one, and the status."""
        with tempfile.TemporaryDirectory() as top:
            for name, contents in {**FILES, path: readme, "built": COLFIND}.items():
                os.makedirs(os.path.dirname(os.path.join(top, name)), exist_ok=True)
                with open(os.path.join(top, name), "w", encoding="utf-8") as file:
                    file.write(contents)
            os.chmod(os.path.join(top, "built"), 0o755)
            os.mkdir(os.path.join(top, "tools"))
            for name in ("check_documents", "allowed_words.txt", "show"):
                shutil.copy(os.path.join(TOOLS, name), os.path.join(top, "tools"))
            subprocess.run(["git", "init", "-q", top], check=True)
            words = [os.path.join(top, "tools", "check_documents"), *options]
            ran = subprocess.run(words, stdout=subprocess.PIPE, cwd=top, text=True, check=False)
            return ran.stdout.splitlines()[:-1], ran.returncode

    def finds(self, readme, *wanted, path="README.md"):
        self.assertEqual(self.complaints(readme, path=path), (list(wanted), 1 if wanted else 0))

    def runs(self, readme, *wanted):
        self.assertEqual(self.complaints(readme, "--colfind", "built"), (list(wanted), 1 if wanted else 0))

    def test_names(self):
        self.finds("`known_name`, `one::known_name()`, `name_of_an_edit`, `an old name` and `--option`\n")
        self.finds("One\n`other_name`\n", "README.md:2: no such name: other_name")
        self.finds("`commented_name`\n", "README.md:1: no such name: commented_name")
        self.finds("`one::none_such`\n", "README.md:1: no such name: one::none_such (none_such)")

    def test_paths(self):
        self.finds("`crates/one/src/lib.rt`, `src/lib.rt`, `crates/NAME/must-fail/*.edit`, `docs/`, `/usr/none`\n")
        self.finds("`docs/none.txt`\n", "README.md:1: no such path: docs/none.txt")
        self.finds("`cat docs/none.txt`\n", "README.md:1: no such path: docs/none.txt")

    def test_links(self):
        self.finds("[a](docs/GUIDE.md), [b](docs/GUIDE.md#what-it-has), [c](https://example.org)\n")
        self.finds("[a](docs/NONE.md)\n", "README.md:1: no such file: docs/NONE.md")
        self.finds("[a](docs/GUIDE.md#none)\n", "README.md:1: no such heading: docs/GUIDE.md#none")

    def test_shown_files(self):
        self.finds("```text docs/example/text.txt\nabc d\n```\n")
        self.finds("```text docs/example/text.txt\nabc e\n```\n", "README.md:1: not what the file has: docs/example/text.txt")
        self.finds("```text docs/none.txt\nabc d\n```\n", "README.md:1: no such file: docs/none.txt")

    def test_shown_parts(self):
        shown = "```rust crates/one/src/lib.rt\n{}\n```\n".format
        self.finds(shown("fn first() {}\n\nfn last() {}"), path="crates/one/README.md")
        self.finds(shown("fn first() {"), "crates/one/README.md:1: not what the file has: crates/one/src/lib.rt", path="crates/one/README.md")
        self.finds(shown("fn first() {}"), "README.md:1: not what the file has: crates/one/src/lib.rt")

    def test_fenced_blocks_have_no_names(self):
        self.finds("```\n`other_name`\n```\n")

    def test_examples_in_one_session(self):
        self.runs("```console\n$ cd docs/example\n$ colfind\n0:3\ncolfind: fault 31 at 4\n$ echo $?\n2\n```\n")
        self.runs("```console\n$ cd docs\n```\nand\n```console\n$ cat example/text.txt |\n> cat\nabc d\n```\n")
        self.runs("```console\n$ echo 0:3 | colfind-show docs/example/text.txt\n[abc] d\n$ printf '1\\n2\\n3\\n'\n1\n...\n```\n")
        self.runs("```console\n$ printf 'e\\314\\201'\n\u00e9\n```\n")
        self.runs("```sh\n$ echo no\n```\n")

    def leaves_out(self, count, readme):
        skipped = f"skipped: {count} examples, for there is no /usr/share/none/none.txt"
        self.assertEqual(self.complaints(readme, "--colfind", "built"), ([skipped], 0))

    def test_examples_that_are_left_out(self):
        self.leaves_out(1, "```console\n$ cat /usr/share/none/none.txt\nno\n$ echo yes\nyes\n```\n")
        self.leaves_out(2, "```console\n$ alias cat-it='cat /usr/share/none/none.txt'\n$ cat-it | cat\nno\n$ echo yes > cat-it-not\n```\n")
        self.runs("```console\n$ alias say='echo yes'\n$ say && say\nyes\nyes\n```\n")

    def test_example_that_prints_something_else(self):
        found = ["README.md:3: $ echo a; echo b", "  printed:", "    a", "    b"]
        self.runs("One\n```console\n$ echo a; echo b\na\n```\n", *found)


if __name__ == "__main__":
    limited.main()
