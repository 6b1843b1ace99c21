"""Each script is read by its interpreter and each C file by the compiler, and none is run:  python3 tools/test_scripts.py

The C files of integrations/ need headers of other programs: their checks compile them."""

import os
import re
import subprocess
import unittest

import limited

TOP = os.path.dirname(os.path.dirname(os.path.abspath(__file__)))
ICU = "/usr/include/unicode/usearch.h"
READ_BY = {"sh": ["sh", "-n"], "bash": ["bash", "-n"], "perl": ["perl", "-c"]}
ENDINGS = {".py": "python3", ".sh": "sh", ".bash": "bash", ".pl": "perl", ".c": "c"}


def listed():
    """The path of each script and C file, its kind, and its text."""
    words = ["git", "-C", TOP, "ls-files", "-co", "--exclude-standard", "--", ":!crates"]
    for path in subprocess.run(words, stdout=subprocess.PIPE, check=True, text=True).stdout.splitlines():
        if os.path.isfile(os.path.join(TOP, path)):
            with open(os.path.join(TOP, path), encoding="utf-8") as file:
                text = file.read()
            called = re.match(r"#!\S*/(?:env )?(\w+)", text)
            yield path, called[1] if called else ENDINGS.get(os.path.splitext(path)[1]), text


class ScriptsTest(unittest.TestCase):
    def reads(self, *words):
        streams = {"stdin": subprocess.DEVNULL, "stdout": subprocess.PIPE, "stderr": subprocess.STDOUT}
        ran = subprocess.run(words, cwd=TOP, text=True, check=False, **streams)
        self.assertEqual(ran.returncode, 0, ran.stdout)

    def reads_c(self, uses_icu):
        for path, kind, text in listed():
            if kind == "c" and not path.startswith("integrations/") and ("#include <unicode/" in text) == uses_icu:
                with self.subTest(path):
                    self.reads("cc", "-std=gnu11", "-Wall", "-Wextra", "-Werror", "-fsyntax-only", path)

    def test_scripts(self):
        kinds = set()
        for path, kind, text in listed():
            kinds.add(kind)
            with self.subTest(path):
                if kind == "python3":
                    compile(text, path, "exec")
                elif kind in READ_BY:
                    self.reads(*READ_BY[kind], path)
                self.assertTrue(os.access(os.path.join(TOP, path), os.X_OK) or not text.startswith("#!"), "is not executable")
        self.assertLessEqual({*ENDINGS.values()}, kinds)

    def test_c(self):
        self.reads_c(False)

    @unittest.skipUnless(os.path.exists(ICU), f"there is no {ICU}")
    def test_c_beside_icu(self):
        self.reads_c(True)


if __name__ == "__main__":
    limited.main()
