"""Tests of tailor over the built program, whose path COLFIND may say:  python3 tools/test_tailor.py"""

import os
import subprocess
import sys
import tempfile
import unittest

import limited
from stream_tests import StreamTests, default_signals

TOOLS = os.path.dirname(os.path.abspath(__file__))
TOP = os.path.dirname(TOOLS)
TAILOR = os.environ.get("TAILOR", os.path.join(TOOLS, "tailor"))
COLFIND = os.path.abspath(os.environ.get("COLFIND", os.path.join(TOP, "crates", "colfind", "out", "colfind")))
LETTERS = os.path.join(TOP, "docs", "example", "letters.txt")
PUBLISHED = {
    "CLDR's": "/usr/share/unicode/cldr/common/uca/allkeys_CLDR.txt",
    "the DUCET": "/usr/share/unicode/allkeys.txt",
}
PREFIXES = ["\u0fb2\u0f71 = \u0fb2\u0f71", "\u0fb3\u0f71 = \u0fb3\u0f71"]


class TailorTest(StreamTests, unittest.TestCase):
    script = TAILOR
    usages = ["usage: colfind-tailor", "    colfind-tailor TABLE RULE"]

    def printing(self):
        return [([TAILOR, LETTERS, "ä = ae", "A\u0308=Ae"], b"")]

    def setUp(self):
        folder = tempfile.TemporaryDirectory()
        self.addCleanup(folder.cleanup)
        self.folder = folder.name

    def write(self, contents):
        path = os.path.join(self.folder, "table.txt")
        with open(path, "w", encoding="utf-8") as out:
            out.write(contents)
        return path

    def made(self, table, *rules):
        """The status, the rows and what is complained of."""
        ran = subprocess.run([TAILOR, table, *rules], capture_output=True, text=True, check=False)
        return ran.returncode, ran.stdout.split("\n")[1:-1], ran.stderr

    def found(self, table, rules, pattern, text, strength):
        """The parts of a text that match under the table with the tailor of the rules."""
        tailor = os.path.join(self.folder, "tailor.txt")
        with open(tailor, "w", encoding="utf-8") as out:
            subprocess.run([TAILOR, table, *rules], stdout=out, check=True)
        words = [COLFIND, "--table", table, "--tailor", tailor, "--strength", str(strength), "--", pattern]
        ran = subprocess.run(words, input=text.encode(), capture_output=True, check=False)
        self.assertEqual(ran.stderr, b"")
        ranges = [map(int, line.split(b":")) for line in ran.stdout.split()]
        return [text.encode()[start:end].decode() for start, end in ranges]

    def test_rows(self):
        status, rows, complained = self.made(LETTERS, "ä = ae", "A\u0308=Ae", " u\u0301b = ch ")
        self.assertEqual((status, complained), (0, ""))
        self.assertEqual(rows, [
            "0061 0308 ; [.1C00.0020.0002][.1C40.0020.0002] # a\u0308 = ae",
            "0041 0308 ; [.1C00.0020.0008][.1C40.0020.0002] # A\u0308 = Ae",
            "0075 0301 0062 ; [.1C28.0020.0002] # u\u0301b = ch",
        ])

    def test_longest_and_parted_strings(self):
        """A mark behind another one is taken into a mapped string, unless one with its class or above stands between."""
        table = self.write("0061 ; [.1C00.0020.0002]\n0061 0301 ; [.1C01.0020.0002]\n0327 ; [.0000.0030.0002]\n"
                           "0300 ; [.0000.0025.0002]\n0301 ; [.0000.0024.0002] # 0061 ; [.0000.0000.0000]\n@version 1\n")
        for right, elements in [
            ("a\u0327\u0301", "[.1C01.0020.0002][.0000.0030.0002]"),
            ("a\u0300\u0301", "[.1C00.0020.0002][.0000.0025.0002][.0000.0024.0002]"),
            ("a\u0301\u0301", "[.1C01.0020.0002][.0000.0024.0002]"),
        ]:
            self.assertEqual(self.made(table, f"x = {right}"), (0, [f"0078 ; {elements} # x = {right}"], ""))

    def test_comment_on_one_line(self):
        self.assertEqual(self.made(LETTERS, "a\nb = ch")[1], ["0061 000A 0062 ; [.1C28.0020.0002]"])

    def test_head_names_the_table(self):
        table = self.write("@version 1.2.3\n0061 ; [.1C00.0020.0002]\n")
        printed = subprocess.run([TAILOR, table, "x = a"], capture_output=True, text=True, check=True).stdout
        self.assertEqual(printed.split("\n")[0], "# a tailor for table.txt, version 1.2.3, alone")

    def test_rules_that_are_wrong(self):
        for rule, complaint in [
            ("ä", "not of the form"), ("ä =", "not of the form"), ("= ae", "not of the form"), ("ä = z", "no row for U+007A"),
        ]:
            status, rows, complained = self.made(LETTERS, rule)
            self.assertEqual((status, rows), (2, []))
            self.assertIn(complaint, complained)
        self.assertIn("a second rule", self.made(LETTERS, "ä = ae", "a\u0308 = a")[2])
        self.assertEqual(self.made("/none", "ä = ae")[:2], (2, []))

    def test_searches_with_letters(self):
        text = "bär, ba\u0308r, baer, bar"
        self.assertEqual(self.found(LETTERS, ["ä = ae"], "baer", text, 1), ["bär", "ba\u0308r", "baer"])
        self.assertEqual(self.found(LETTERS, ["ä = ae"], "bär", text, 3), ["bär", "ba\u0308r", "baer"])

    def test_searches_with_cldr(self):
        table = PUBLISHED["CLDR's"]
        if not os.path.exists(table):
            self.skipTest("CLDR's table is not installed")
        rules = ["ä = ae", "Ä = AE", "ö = oe", "Ö = OE", "ü = ue", "Ü = UE"]
        text = "bär baer BÄR Baer bar, Goethe Göthe"
        self.assertEqual(self.found(table, rules, "baer", text, 1), ["bär", "baer", "BÄR", "Baer"])
        self.assertEqual(self.found(table, rules, "baer", text, 3), ["bär", "baer"])
        self.assertEqual(self.found(table, rules, "göthe", text, 1), ["Goethe", "Göthe"])
        self.assertEqual(self.found(table, PREFIXES, "goethe", text, 1), ["Goethe"])

    def test_searches_with_the_ducet(self):
        """It lacks two rows, without which it is no table; rules give them."""
        table = PUBLISHED["the DUCET"]
        if not os.path.exists(table):
            self.skipTest("the DUCET is not installed")
        self.assertEqual(self.found(table, ["ä = ae", *PREFIXES], "baer", "bär baer", 1), ["bär", "baer"])

    def test_files_that_are_not_read(self):
        none = "No such file or directory"
        for path, cause in (self.folder, "Is a directory"), ("/none", none), ("/\x1b\n", none):
            complaint = self.complaint(f"{path}: {cause}".replace("\x1b\n", "\ufffd"))
            self.assertEqual(self.ran([TAILOR, path, "ä = ae"]), (2, b"", complaint))
            self.assertEqual(self.redirected([TAILOR, path, "ä = ae"], "<&- >&-"), (2, b"", complaint))

    def test_closed_streams_that_are_not_used(self):
        wanted = self.ran([TAILOR, LETTERS, "ä = ae"])
        self.assertEqual(wanted[0], 0)
        self.assertEqual(self.redirected([TAILOR, LETTERS, "ä = ae"], "<&- 2>&-"), wanted)

    def test_interrupt(self):
        """While it reads the table."""
        table = os.path.join(self.folder, "held")
        os.mkfifo(table)
        with subprocess.Popen([TAILOR, table, "ä = ae"], stderr=subprocess.PIPE, preexec_fn=default_signals) as child:
            with open(table, "wb"):
                self.interrupted(child)


if __name__ == "__main__":
    if not os.path.exists(COLFIND):
        sys.exit(f"there is no {COLFIND}: run `rt run` in crates/colfind")
    limited.main()
