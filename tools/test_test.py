"""Tests of tools/test, over a small repository:  python3 tools/test_test.py"""

import os
import re
import shutil
import subprocess
import tempfile
import unittest

import limited

TOOLS = os.path.dirname(os.path.abspath(__file__))
GOOD = {
    "package/check": "[ $1 = built ] && echo 1 passed, 0 failed, 0 skipped && exit\n"
                     "echo '    skipped: no zsh'\necho 5 passed, 0 failed, 1 skipped\n",
    "integrations/check": "echo skipped sqlite: no sqlite3\necho 3 passed, 0 failed, 1 skipped\n",
    "tools/check_documents": "echo skipped: 2 examples, for there is no /usr/share/none\necho 1 documents: 0 problems\n",
    "tools/program/run": "echo 19 right, 0 wrong\n",
    "examples/python/build": "[ $1 = test ]\n",
    "examples/c/Makefile": "test: ; @echo skipped: no valgrind\n",
    "tools/test_some.py": "import unittest\nclass Test(unittest.TestCase):\n    def test_it(self):\n"
                          "        '''It is not here.'''\n        self.skipTest('no table')\nunittest.main()\n",
}
SKIPPED = {
    "documents": ["skipped documents: 2 examples, for there is no /usr/share/none"],
    "test_some": ["skipped test_some: no table"], "c": ["skipped c: no valgrind"], "package": ["skipped package: no zsh"],
    "integrations": ["skipped integrations: sqlite: no sqlite3"],
}
PARTS = ["built", "documents", "test_some", "program", "c", "python", "package"]
LEFT_OUT = " (integrations/check left out)"
ALL_GOOD = [line for name in PARTS for line in (f"ok {name}", *SKIPPED.get(name, []))]


class TestTest(unittest.TestCase):
    def prints(self, wanted, status, *words, gate=None, **other):
        """`other` are files with other contents, by the last part of their path; gate is what stands in the file of --gate."""
        with tempfile.TemporaryDirectory() as top:
            for path, contents in GOOD.items():
                place, name = os.path.join(top, path), os.path.basename(path).split(".")[0]
                os.makedirs(os.path.dirname(place), exist_ok=True)
                with open(place, "w", encoding="utf-8") as file:
                    file.write(("" if "." in path or "Make" in path else "#!/bin/sh\n") + other.get(name, contents))
                os.chmod(place, 0o755)
            shutil.copy(os.path.join(TOOLS, "test"), os.path.join(top, "tools"))
            if gate is not None:
                with open(os.path.join(top, "log"), "w", encoding="utf-8") as file:
                    file.write(gate)
                words += (os.path.join(top, "log"),)
            ran = subprocess.run([os.path.join(top, "tools/test"), *words], stdout=subprocess.PIPE, text=True, check=False)
        self.assertEqual(re.sub(r" \d+ s(?=$|,)", "", ran.stdout, flags=re.M).splitlines(), wanted)
        self.assertEqual(ran.returncode, status)

    def test_all_is_good(self):
        self.prints([*ALL_GOOD, "11 passed, 0 failed, 4 skipped" + LEFT_OUT], 0)

    def test_one_part(self):
        self.prints(["ok c", *SKIPPED["c"], "1 passed, 0 failed, 1 skipped"], 0, "c")
        self.prints(["ok integrations", *SKIPPED["integrations"], "3 passed, 0 failed, 1 skipped"], 0, "integrations")

    def test_failures(self):
        self.prints(["ok built", "FAILED program", "    a: b, and not c", "1 passed, 1 failed, 0 skipped"], 1, "built", "program",
                    run="echo 'a: b, and not c'\nexit 1\n")
        counts = "3 passed, 2 failed, 1 skipped"
        self.prints(["FAILED package", "skipped package: no zsh", "        skipped: no zsh", f"    {counts}", counts], 1, "package",
                    check=f"echo '    skipped: no zsh'\necho {counts}\nexit 1\n")
        self.prints(["FAILED package", "    5 passed, 0 failed", "5 passed, 1 failed, 0 skipped"], 1, "package",
                    check="echo 5 passed, 0 failed\nexit 7\n")

    def test_nothing_is_built(self):
        left = [f"skipped {name}: nothing is built" for name in PARTS[1:]]
        self.prints(["FAILED built", "    rt: no", *left, "0 passed, 1 failed, 6 skipped" + LEFT_OUT], 1, check="echo rt: no\nexit 1\n")

    def test_build_without_end(self):
        left = [f"skipped {name}: nothing is built" for name in PARTS[1:]]
        self.prints(["FAILED built, no end in 1 seconds", "    rt: proving", *left, "0 passed, 1 failed, 6 skipped" + LEFT_OUT], 1,
                    "--build", "-5", check="echo rt: proving\nexec sleep 60\n")

    def test_gate(self):
        self.prints([*ALL_GOOD, "202 passed, 0 failed, 4 skipped" + LEFT_OUT], 0, "--gate", "0", gate="rt: ok\n191 passed, 0 failed\n")
        left = [f"skipped {name}: the gate failed" for name in PARTS]
        for status, gate, counts in [
            ("1", "rt: FAILED: x\n190 passed, 1 failed\n", "190 passed, 1 failed"),
            ("2", "191 passed, 0 failed\n", "191 passed, 1 failed"),
            ("137", "", "0 passed, 1 failed"),
            ("0", "rt: proving\n", "0 passed, 1 failed"),
        ]:
            self.prints([*left, f"{counts}, 7 skipped{LEFT_OUT}"], 1, "--gate", status, gate=gate)


if __name__ == "__main__":
    limited.main()
