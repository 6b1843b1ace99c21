"""Each hundredth line of Unicode's conformance test of CLDR's table, by the built library:  python3 tools/test_conformance.py

tools/compare/run asks all lines. That a fault would be seen is tried over a few lines, with weights, rows and answers that are wrong."""

import contextlib
import io
import os
import subprocess
import sys
import tempfile
import unicodedata
import unittest
from unittest import mock

import limited

TOP = os.path.dirname(os.path.dirname(os.path.abspath(__file__)))
PYTHON = os.path.join(TOP, "examples", "python")
sys.path[:0] = [os.path.join(TOP, "tools", "compare"), PYTHON]
CLDR = "/usr/share/unicode/cldr/common/uca/allkeys_CLDR.txt"
LETTERS = os.path.join(TOP, "docs", "example", "letters.txt")
LINES = """# 0061 is no line

0061;\t# (a) LATIN SMALL LETTER A\t[1C00 | 0020 | 0002 |]
0041;\t# ([) [A NAME]\t[1C00 | 0020 | 0008 |]
0062;\t# (b) LATIN SMALL LETTER B\t[1C10 | 0020 | 0002 |]
00C1;\t# (]) LATIN CAPITAL LETTER A WITH ACUTE\t[1C00 | 0020 0024 | 0008 0002 |]
0301;\t# (|) COMBINING ACUTE ACCENT\t[| 0024 | 0002 |]
D800 0061;\t# (x) <surrogate-D800>\t[FB1B D800 1C00 | 0020 0020 | 0002 0002 |]
00AD;\t# (;) SOFT HYPHEN\t[| | |]
00AD 00AD;\t# (x) SOFT HYPHEN\t[| | |]
"""


class ConformanceTest(unittest.TestCase):
    def setUp(self):
        import conformance
        import colfind
        self.conformance, self.colfind = conformance, colfind

    def asked(self, lines=LINES, table=None, step=1):
        """The numbers of lines, of questions and of wrong answers, of files in a folder."""
        with tempfile.TemporaryDirectory() as folder:
            with open(LETTERS, encoding="utf-8") as file:
                table = table or file.read()
            shifted = lines.replace("|]", "| FFFF |]")
            for name, contents in zip(["table", *self.conformance.FILES], [table, lines, shifted]):
                with open(os.path.join(folder, name), "w", encoding="utf-8") as file:
                    file.write(contents)
            with contextlib.redirect_stdout(io.StringIO()):
                return tuple(self.conformance.asked(self.colfind, os.path.join(folder, "table"), step))

    @unittest.skipUnless(os.path.exists(CLDR), "no unicode-cldr-core")
    def test_each_hundredth_line(self):
        words = [sys.executable, os.path.join(TOP, "tools", "compare", "conformance.py"), PYTHON, CLDR, "100"]
        ran = subprocess.run(words, stdout=subprocess.PIPE, stderr=subprocess.STDOUT, text=True, check=False)
        self.assertEqual((ran.stdout, ran.returncode), ("conformance: 3,694 lines, 44,795 questions, 0 wrong\n", 0))

    def test_few_lines(self):
        self.assertEqual(self.asked(), (14, 126, 0))
        self.assertEqual(self.asked(step=4), (4, 36, 0))

    def test_faults_are_seen(self):
        """Wrong weights of a line, another row of the table."""
        with open(LETTERS, encoding="utf-8") as file:
            table = file.read()
        for old, new in [
            ("0020 | 0008", "0020 | 0002"), ("[1C10", "[1C00"), ("[| 0024 | 0002 |]", "[| | |]"),
            ("(;) SOFT HYPHEN\t[| | |]", "\t[| | 0002 |]"),
        ]:
            self.assertIn(old, LINES)
            self.assertGreater(self.asked(LINES.replace(old, new, 1))[2], 0, old)
        for old, new in ("0041 ; [.1C00.0020.0008]", "0041 ; [.1C00.0020.0002]"), ("00AD ; [.0000.0000.0000]", "00AD ; [.1C00.0020.0002]"):
            self.assertIn(old, table)
            self.assertGreater(self.asked(table=table.replace(old, new, 1))[2], 0, old)
        self.assertRaises(SystemExit, self.asked, LINES.replace("| 0024 | 0002 |]", "| 0024 |]"))

    def test_wrong_answers_are_seen(self):
        """Of texts in NFD, of texts that are found, and of faults."""
        equal = self.colfind.Pattern.fullmatch
        for name, answer in [
            ("fullmatch", lambda self, text: unicodedata.is_normalized("NFC", text) and equal(self, text)),
            ("fullmatch", lambda self, text: True), ("fullmatch", lambda self, text: False), ("index", lambda self, text: None),
        ]:
            with mock.patch.object(self.colfind.Pattern, name, answer):
                self.assertGreater(self.asked()[2], 0)
        with self.assertRaises(self.colfind.Fault):
            self.asked(LINES + "0061" + " 0301" * 31 + ";\t# (a)\t[1C00 | 0020 | 0002 |]\n")


if __name__ == "__main__":
    subprocess.run([os.path.join(PYTHON, "build")], check=True)
    limited.main()
