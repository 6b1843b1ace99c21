"""Tests of colfind_dask.py beside one search: in one process, and by a scheduler and three workers, one of which is killed."""
import os
import pickle
import random
import re
import shlex
import subprocess
import sys
import time
import unittest
from collections import Counter
from contextlib import ExitStack, suppress
from pathlib import Path
from tempfile import TemporaryDirectory
from unittest.mock import patch

import colfind
from colfind import Fault, Kind, Pattern, Table

try:
    import dask
    import psutil
    from distributed import Client, as_completed

    import colfind_dask
    from colfind_dask import FileFault, Match, bag, counts, form_of, forms, matches_of
except ImportError as lack:
    raise unittest.SkipTest(f"no {lack.name}") from None

ROOT = Path(os.environ.get("REPOSITORY", Path(__file__).absolute().parents[2]))
LETTERS = ROOT / "docs" / "example" / "letters.txt"
CONCORDANCE = ROOT / "integrations" / "concordance" / "colfind-concordance"
FORMS = ROOT / "examples" / "dask" / "forms.py"
WORDS = ["resume", "r\u00e9sum\u00e9", "re\u0301sume\u0301s", "chas", "a", "presumes", "\u6f22", "hush", "-", "c\u00e0\u0301"]
SOUGHT = ["resume", "ch", "\u6f22"]


def made_text(rng: random.Random, size: int) -> bytes:
    return " ".join(rng.choices(WORDS, k=size)).encode()


def slowly(matches: list) -> list:
    time.sleep(0.1)
    return matches


def tables_read() -> int:
    return len(colfind._SENT)


class Files(unittest.TestCase):
    """With a folder of files: large ones, small ones and an empty one."""

    def setUp(self) -> None:
        self.folder = TemporaryDirectory()
        self.addCleanup(self.folder.cleanup)
        rng = random.Random(1)
        self.paths = [Path(self.folder.name) / f"{number}.txt" for number in range(12)]
        for path, size in zip(self.paths, [900, 0, 3, 5_000, *range(8)]):
            path.write_bytes(made_text(rng, size))
        table = Table(LETTERS.read_bytes())
        self.patterns = [Pattern(table, sought, 1) for sought in SOUGHT]

    def wanted(self) -> set[tuple[str, str, int, int]]:
        """What one search of each file finds."""
        return {(str(path), sought, *found) for path in self.paths for sought, pattern in zip(SOUGHT, self.patterns)
                for found in pattern.search(path.read_bytes())}

    def bad_file(self) -> Path:
        bad = self.paths[0].with_name("bad.txt")
        bad.write_bytes(b"resume, resume \xff resume " + b"resume " * 9)
        return bad


class InOneProcessTest(Files):
    def setUp(self) -> None:
        super().setUp()
        setting = ExitStack()
        setting.enter_context(dask.config.set(scheduler="threads"))
        self.addCleanup(setting.close)

    def test_matches(self) -> None:
        """In parts of each size they are those of one search, each once, with their text."""
        wanted = self.wanted()
        for size in 50, 997, 1 << 26:
            found = bag(self.paths, self.patterns, 7, size).compute()
            self.assertEqual(({match[:4] for match in found}, len(found)), (wanted, len(wanted)))
            for match in found:
                data = Path(match.path).read_bytes()
                self.assertEqual(match.match, data[match.start:match.end].decode())
                self.assertTrue(data[:match.start].decode("utf-8").endswith(match.before) and len(match.before) <= 7)
                self.assertTrue(data[match.end:].decode("utf-8").startswith(match.after) and len(match.after) <= 7)
        of_one = sum(match[:2] == (str(self.paths[0]), "resume") for match in wanted)
        self.assertEqual(len(bag(self.paths[:1], self.patterns[0], 0).compute()), of_one)

    def test_small_files_stand_together(self) -> None:
        """And a large one apart, in as many parts as it has."""
        sizes = [path.stat().st_size for path in self.paths]
        self.assertEqual([bag(paths, self.patterns).npartitions for paths in (self.paths, [])], [1, 1])
        self.assertEqual(bag([], self.patterns).compute(), [])
        groups = list(colfind_dask._grouped(map(str, self.paths), 30))
        self.assertEqual(len(groups), bag(self.paths, self.patterns, part_bytes=30).npartitions)
        large = [size for size in sizes if size > 30]
        small = [group for group in groups if group[0][1:] == (0, None)]
        self.assertEqual(len(groups) - len(small), sum(-(-size // 30) for size in large))
        self.assertEqual(sum(map(len, small)), len(sizes) - len(large))
        self.assertLess(len(small), len(sizes) - len(large))
        self.assertLessEqual(max(sum(Path(part.path).stat().st_size for part in group) for group in small), 30)

    def test_counts_and_forms(self) -> None:
        """As data frames, or lists of rows where pandas is missing."""
        wanted = Counter(row[:2] for row in self.wanted())
        matches = bag(self.paths, self.patterns, 40, 999)
        all_forms = Counter((match.pattern, form_of(match)) for match in matches.compute())
        with patch.dict(sys.modules, {"pandas": None}):
            rows, of_forms = counts(matches).compute(), forms(matches).compute()
        self.assertEqual(({row[:2]: row[2] for row in rows}, {row[:2]: row[2] for row in of_forms}), (wanted, all_forms))
        self.assertEqual([row[2] for row in of_forms], sorted(all_forms.values(), reverse=True))
        self.assertGreater(all_forms["resume", "r\u00e9sum\u00e9s"], 0)
        self.assertEqual({form for sought, form in all_forms if sought == "\u6f22"}, {"\u6f22"})
        try:
            import pandas
        except ImportError:
            self.skipTest("no pandas")
        for frame, rows in (counts(matches).compute(), rows), (forms(matches).compute(), of_forms):
            self.assertIsInstance(frame, pandas.DataFrame)
            self.assertEqual(list(frame.itertuples(index=False, name=None)), rows)
        self.assertEqual(list(frame.columns), ["pattern", "form", "matches"])

    def test_forms_are_those_of_the_concordance(self) -> None:
        words = [sys.executable, CONCORDANCE, "--forms", "--format", "tsv", "--table", LETTERS, "--strength", "1", "resume", *self.paths]
        said = subprocess.run(words, capture_output=True, text=True, check=True, env={**os.environ, "PYTHONUTF8": "1"}).stdout
        with patch.dict(sys.modules, {"pandas": None}):
            rows = forms(bag(self.paths, self.patterns[0])).compute()
        self.assertEqual({f"{form}\t{count}" for _, form, count in rows}, set(said.splitlines()))

    def test_faults(self) -> None:
        """They are raised with their file, also out of another process, or reported; then other files are searched."""
        bad, none = self.bad_file(), self.paths[0].with_name("none.txt")
        with self.assertRaises(FileFault) as raised:
            bag([*self.paths, bad], self.patterns[0]).compute()
        for fault in raised.exception, pickle.loads(pickle.dumps(raised.exception)):
            self.assertEqual((fault.kind, fault.at, fault.path), (Kind.TEXT_ILL_FORMED, 15, str(bad)))
            self.assertTrue(str(fault).startswith(f"{bad}: fault 31 at 15: "), str(fault))
        self.assertIsInstance(fault, Fault)
        matches = bag([*self.paths, bad], self.patterns[0], 5, faults="report")
        found = [match for match in matches.compute() if match.path == str(bad)]
        of_bad = [(0, 6, "", "resume", ", res"), (8, 14, "ume, ", "resume", "  res"), (15, 15, "", "", "", str(fault))]
        self.assertEqual(found, [Match(str(bad), "resume", *one) for one in of_bad])
        in_parts = bag([bad], self.patterns[0], 5, 20, "report").compute()
        self.assertEqual((in_parts[:3], {match.start % 7 for match in in_parts[3:]}), (found, {3}))
        with patch.dict(sys.modules, {"pandas": None}):
            self.assertEqual(counts(bag([bad], self.patterns[0], faults="report")).compute(), [(str(bad), "resume", 2)])
        none.write_bytes(b"resume")
        for reported in "report", "raise":
            matches = bag([none, self.paths[0]], self.patterns[0], faults=reported)
            if reported == "report":
                none.unlink()
                found = [match for match in matches.compute() if match.path == str(none)]
                self.assertEqual([match[:7] for match in found], [(str(none), "", 0, 0, "", "", "")])
                self.assertIn("No such file", found[0].fault)
                none.write_bytes(b"resume")
        none.unlink()
        self.assertRaises(FileNotFoundError, matches.compute)

    def test_arguments_that_are_none(self) -> None:
        for wrong in {"faults": "ignore"}, {"part_bytes": 0}, {"context": -1}:
            self.assertRaisesRegex(ValueError, next(iter(wrong)), bag, self.paths, self.patterns, **wrong)
        self.assertRaises(FileNotFoundError, bag, ["/no such file"], self.patterns)

    def test_texts_that_are_no_files(self) -> None:
        found = list(matches_of(bytearray(b"my resume, resume"), self.patterns[0], 3, "here", 1))
        of_text = [(3, 9, "my ", "resume", ", r"), (11, 17, "e, ", "resume", "")]
        self.assertEqual(found, [Match("here", "resume", *one) for one in of_text])


class ClusterTest(Files):
    """A scheduler and three workers, each a process, on the loopback address."""

    def setUp(self) -> None:
        super().setUp()
        self.running = ExitStack()
        self.addCleanup(self.running.close)
        self.file = Path(self.folder.name) / "scheduler.json"
        self.start("scheduler", "--host", "127.0.0.1", "--port", "0", "--dashboard-address", "127.0.0.1:0", "--scheduler-file", self.file)
        self.workers = [self.start("worker", "--scheduler-file", self.file, "--host", "127.0.0.1", "--dashboard-address", "127.0.0.1:0",
                                   "--no-nanny", "--nthreads", "1", "--memory-limit", "0") for _ in range(3)]
        until = time.monotonic() + 60
        while not self.file.exists() and time.monotonic() < until:
            time.sleep(0.05)
        self.client = self.running.enter_context(Client(scheduler_file=str(self.file)))
        self.client.wait_for_workers(3, timeout=60)

    def start(self, name: str, *words: object) -> subprocess.Popen:
        """One of Dask's programs, which is ended by its process id at the end of the test."""
        places = [str(Path(__file__).parent), str(Path(colfind_dask.__file__).parent), os.environ.get("PYTHONPATH", "")]
        words = [sys.executable, "-m", f"distributed.cli.dask_{name}", *map(str, words)]
        process = subprocess.Popen(words, cwd=self.folder.name, env={**os.environ, "PYTHONPATH": ":".join(places)},
                                   stdout=subprocess.DEVNULL, stderr=subprocess.DEVNULL)
        self.running.callback(self.end, process)
        return process

    def end(self, process: subprocess.Popen) -> None:
        process.terminate()
        try:
            process.wait(20)
        except subprocess.TimeoutExpired:
            process.kill()
            process.wait()

    def test_a_worker_that_is_killed(self) -> None:
        """In mid-run: the answer is that of one search all the same. Each process has read the table once."""
        matches = bag(self.paths, self.patterns, 10, 700)
        self.assertGreater(matches.npartitions, 30)
        parts = self.client.compute(matches.map_partitions(slowly).to_delayed())
        for _, part in zip(range(6), as_completed(parts)):
            part.result()
        self.workers[0].kill()
        found = [match for part in self.client.gather(parts) for match in part]
        wanted = self.wanted()
        self.assertEqual(({match[:4] for match in found}, len(found)), (wanted, len(wanted)))
        self.assertEqual((len(self.client.scheduler_info()["workers"]), self.workers[0].wait(20)), (2, -9))
        self.assertEqual(list(self.client.run(tables_read).values()), [1, 1])

    def test_a_fault_comes_back(self) -> None:
        """With the file that has it."""
        with self.assertRaises(FileFault) as raised:
            self.client.compute(bag([*self.paths, self.bad_file()], self.patterns)).result()
        self.assertEqual((raised.exception.at, Path(raised.exception.path).name), (15, "bad.txt"))

    @unittest.skipUnless(FORMS.exists(), "no examples/dask")
    def test_the_example(self) -> None:
        """It counts the same forms by a scheduler as in one process."""
        words, said = [sys.executable, FORMS, "--megabytes", "1", "--table", LETTERS, "--words", "5"], []
        environment = {**os.environ, "PYTHONPATH": str(Path(colfind_dask.__file__).parent), "PYTHONUTF8": "1"}
        for more in ["--scheduler-file", self.file], ["--workers", "2"]:
            done = subprocess.run([*words, *more], capture_output=True, text=True, env=environment, timeout=300)
            self.assertEqual(done.returncode, 0, done.stderr)
            said.append(done.stdout)
        self.assertEqual(said[0], said[1])
        self.assertGreater(len(said[0].splitlines()), 5)


@unittest.skipUnless(FORMS.exists(), "no examples/dask")
class PortsTest(unittest.TestCase):
    """What is shown listens on the address that it names, or on this machine alone."""

    def setUp(self) -> None:
        self.folder = TemporaryDirectory()
        self.addCleanup(self.folder.cleanup)
        self.environment = {**os.environ, "PYTHONPATH": str(Path(colfind_dask.__file__).parent)}
        self.processes: list[subprocess.Popen] = []
        self.addCleanup(self.end)

    def start(self, *words: object) -> subprocess.Popen:
        streams = {"stdin": subprocess.PIPE, "stdout": subprocess.DEVNULL, "stderr": subprocess.DEVNULL}
        self.processes.append(subprocess.Popen([sys.executable, *map(str, words)], cwd=self.folder.name, env=self.environment, **streams))
        return self.processes[-1]

    def end(self) -> None:
        for process in self.processes:
            with suppress(psutil.NoSuchProcess):
                for one in psutil.Process(process.pid).children(recursive=True):
                    one.kill()
            process.kill()
            process.communicate()

    def listening(self) -> set[tuple[str, int]]:
        """Where the processes listen that run, and those that they have started."""
        found = set()
        for process in self.processes:
            with suppress(psutil.NoSuchProcess):
                for one in [psutil.Process(process.pid), *psutil.Process(process.pid).children(recursive=True)]:
                    found |= {tuple(there.laddr) for there in one.connections("inet") if there.status == psutil.CONN_LISTEN}
        return found

    def listens_alone(self, ports: int) -> None:
        """So many ports are opened, and none of them to other machines."""
        found, until = set(), time.monotonic() + 60
        while len(found) < ports and time.monotonic() < until:
            found |= self.listening()
            time.sleep(0.02)
        self.assertEqual(({address for address, _ in found}, len(found) >= ports), ({"127.0.0.1"}, True), found)

    def test_the_example(self) -> None:
        self.start(FORMS, "--megabytes", "1000", "--table", LETTERS, "--words", "5", "--workers", "2")
        self.listens_alone(8)

    def test_the_client_of_the_document(self) -> None:
        call = re.search(r"this machine: Client\((.*)\)", (ROOT / "docs" / "LARGE.md").read_text("utf-8"))[1]
        head, lines = "import sys\nfrom distributed import Client\n", f"    with Client({call}):\n        sys.stdin.read()\n"
        (Path(self.folder.name) / "alone.py").write_text(f"{head}if __name__ == '__main__':\n{lines}")
        self.start("alone.py")
        self.listens_alone(8)

    def test_the_commands_of_the_readme(self) -> None:
        """With 127.0.0.1 for each address, and any port."""
        text = re.sub(r"10\.0\.0\.\d", "127.0.0.1", FORMS.with_name("README.md").read_text("utf-8"))
        text = text.replace(":8787", ":0").replace("--port 8786", "--port 0")
        commands = dict(re.findall(r"^dask-(scheduler|worker) (.*)$", text, re.M))
        self.assertEqual(sorted(commands), ["scheduler", "worker"])
        file = Path(self.folder.name) / "scheduler.json"
        self.start("-m", "distributed.cli.dask_scheduler", *shlex.split(commands["scheduler"]), "--scheduler-file", file)
        self.listens_alone(2)
        words = commands["worker"].replace("tcp://127.0.0.1:8786", f"--scheduler-file {file}").replace("auto", "2")
        self.start("-m", "distributed.cli.dask_worker", *shlex.split(words))
        self.listens_alone(8)


if __name__ == "__main__":
    unittest.main()
