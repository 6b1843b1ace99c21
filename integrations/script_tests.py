"""What the tests of colfind-mail and colfind-concordance have in common: where these are installed, what a README shows, the counts."""

import atexit
import importlib.machinery
import importlib.util
import os
import re
import subprocess
import sys
import tempfile
import unicodedata
import unittest

HERE = os.path.dirname(os.path.abspath(__file__))
TOP = os.path.dirname(HERE)
BUILT = [os.path.join(TOP, "crates", path) for path in ("colfind/out/colfind", "colfind_c/out/libcolfind_c.a")]
LETTERS = os.path.join(TOP, "docs", "example", "letters.txt")
CLDR = "/usr/share/unicode/cldr/common/uca/allkeys_CLDR.txt"
NO_CLDR = f"there is no {CLDR}: apt-get install unicode-cldr-core"
sys.path.insert(0, os.path.join(TOP, "tools"))
import limited


def installed(name):
    """The path of a script in a folder where it is installed with its module."""
    for path in BUILT:
        if not os.path.exists(path):
            sys.exit(f"there is no {path}: package/check built")
    folder = tempfile.TemporaryDirectory()
    atexit.register(folder.cleanup)
    os.chmod(folder.name, 0o755)
    for package in "libcolfind1", "colfind", name:
        words = [os.path.join(TOP, "package", "install"), f"PREFIX={folder.name}", f"PACKAGE={package}"]
        subprocess.run(words, check=True)
    return os.path.join(folder.name, "bin", name)


def environment_of(script, **more):
    """Where the script is the command of its name, with the small table of the documents."""
    known = {name: value for name, value in os.environ.items() if name not in ("PYTHONPATH", "COLFIND_TAILOR", "COLUMNS")}
    path = f"{os.path.dirname(script)}:{os.environ['PATH']}"
    return {**known, "PATH": path, "LC_ALL": "C.UTF-8", "COLFIND_TABLE": LETTERS, **more}


def as_module(script):
    """The script as a module."""
    loader = importlib.machinery.SourceFileLoader(os.path.basename(script).replace("-", "_"), script)
    made = importlib.util.module_from_spec(importlib.util.spec_from_loader(loader.name, loader))
    loader.exec_module(made)
    return made


class ReadmeTests:
    """The version is that of the repository, and each line `$ COMMAND` of a README prints what is below it, by bash in an empty folder: its
    output and then its complaints."""

    def test_version(self):
        wanted = f"{os.path.basename(self.script)} {self.contents(os.path.join(TOP, 'VERSION'))}"
        self.assertEqual(self.ran([self.script, "--version"]), (0, wanted.encode(), b""))

    @unittest.skipUnless(os.path.exists(CLDR), NO_CLDR)
    def test_readme(self):
        with open(os.path.join(os.path.dirname(os.path.abspath(sys.argv[0])), "README.md"), encoding="utf-8") as file:
            text = file.read()
        self.assertLessEqual(text.count("\n"), 60)
        blocks = re.findall(r"```sh\n(\$ .*?)```", text, re.S)
        examples = [example for block in blocks for example in re.findall(r"^\$ (.*\n(?:>.*\n)*)((?:(?!\$ ).*\n)*)", block, re.M)]
        self.assertTrue(examples)
        with tempfile.TemporaryDirectory() as folder:
            commands = [re.sub(r"\n> ?", "\n", command) for command, _ in examples]
            script = "".join(f"{{ {command}}} > {number}.out 2> {number}.err\n" for number, command in enumerate(commands))
            environment = {**self.environment, "HOME": folder, "COLFIND_TABLE": CLDR}
            subprocess.run(["bash", "-c", script], cwd=folder, env=environment, check=False, timeout=60)
            for number, (command, wanted) in enumerate(examples):
                printed = "".join(self.contents(os.path.join(folder, f"{number}.{stream}")) for stream in ("out", "err"))
                self.assertEqual(*(unicodedata.normalize("NFC", text).rstrip("\n") for text in (printed, wanted)), command)

    @staticmethod
    def contents(path):
        with open(path, encoding="utf-8") as file:
            return file.read()


def main():
    """Runs the tests of the script that was called, and counts them in the last line."""
    tests = unittest.defaultTestLoader.loadTestsFromModule(sys.modules["__main__"])
    result = limited.Runner(stream=sys.stdout, buffer=True).run(tests)
    for reason in sorted({reason for _, reason in result.skipped}):
        print(f"    skipped: {reason}")
    failed = len({test.id().split(" ")[0] for test, _ in result.failures + result.errors})
    print(f"{result.testsRun - failed - len(result.skipped)} passed, {failed} failed, {len(result.skipped)} skipped")
    sys.exit(1 if failed else 0)
