"""Tests of tools/turned, on a small repository and on this one: python3 tools/test_turned.py"""
import shutil
import subprocess
import tempfile
import unittest
from pathlib import Path

import limited

SOURCE = """//! A run.
pub trait Source {
    fn read(&mut self) -> usize
        ensures count { result ≡ 1 };
}
impl<R: Read> Source for FromRead<R> {
    fn read(&mut self) -> usize
        ensures reader { result ≡ 1 }
    {
        1
    }
}
/// A law.
pub fn runs_agree(left: &Run)
    ensures agree { left ≡ left }
{
}
pub fn run_with(out: &mut Out) -> Outcome
    ensures done { IfOk result
        (λ r. r ≡ record {
          count = 1;
        }) }
    ensures memory { result ≡ Memory → out.new ≡ out.old }
    ensures cause { result ≡ Memory }
{
    finish(out)
}
"""
GUARANTEES = """# What is proved

## Proved of a run: `run_with` in `run.rt`

It reads, as `run_with` says.

- `done`, `Done(k)`: all was read. `memory`: nothing
  was asked. As `read` does.
- `run_with` gives no fault without its cause (`cause`).

## Proved of the process and its devices

- `FromRead::read` `reader`, and `runs_agree` `agree`: the rest.

## Only tested

- `run_with` `missing`: nothing.
"""
README = """# A program

`other` is no clause.

## What is proved

Each function ends.

- **Run**, `run_with` in `crates/colfind_run/src/run.rt`, clauses `done` and `memory`: what is
  written is the output.

## What is only tested

- `run_with` `missing`: nothing.
"""
LIST = """# What is promised.

colfind_run/all_lost: all is lost
colfind_run/kept: a handle is kept
"""
MARKS = "# Wrong bodies\n\n<!-- made by tools/turned -->\n\n\n<!-- the end of what tools/turned made -->\n"


class Turned(unittest.TestCase):
    def setUp(self):
        self.top = Path(tempfile.mkdtemp())
        self.addCleanup(shutil.rmtree, self.top)
        self.put("tools/turned", (Path(__file__).parent / "turned").read_text())
        self.put("docs/GUARANTEES.md", GUARANTEES)
        self.put("README.md", README)
        self.put("tools/promised_edits.txt", LIST)
        self.put("docs/PLANTED.md", MARKS + "More.\n")
        self.put("crates/colfind_run/src/run.rt", SOURCE)
        self.put("crates/colfind_c/src/exports.rt", 'pub extern "C" fn c_free(h: &mut H)\n    ensures { h ≡ h }\n{\n}\n')
        self.put("crates/colfind_c/README.md", "| Call | Clause | What |\n|---|---|---|\n| `c_free` | | nothing |\n")
        self.edit("colfind_run/must-fail/all_lost", "run_with done, memory, cause")
        self.edit("colfind_run/must-fail/read_fails", "FromRead::read reader; Source::read count")
        self.edit("colfind_run/must-fail/kept", "c_free")
        self.edit("colfind_c/more-edits/some_lost", "run_with done")

    def put(self, name, text):
        path = self.top / name
        path.parent.mkdir(parents=True, exist_ok=True)
        path.write_text(text)

    def edit(self, name, turns):
        self.put(f"crates/{name}.edit", f"# turns: {turns}\nfile: src/run.rt\nold: 1\nnew: 2\n")

    def run_tool(self, *words):
        ran = subprocess.run(["python3", self.top / "tools/turned", *words], capture_output=True, text=True, check=False)
        return ran.returncode, ran.stdout + ran.stderr

    def assert_faults(self, *wanted):
        """That the tables are new, and these faults the only ones."""
        self.assertEqual(self.run_tool("--write"), (0, ""))
        status, printed = self.run_tool("--check")
        self.assertEqual((status, printed.split("\n")[:-2]), (int(bool(wanted)), list(wanted)))

    def test_the_table_has_each_named_clause_that_is_no_law(self):
        rows = [
            "| `run_with` `done` | `colfind_run` | `all_lost` | `some_lost` of `colfind_c` |",
            "| `run_with` `memory` | `colfind_run` | `all_lost` |  |",
            "| `run_with` `cause` | `colfind_run` | `all_lost` |  |",
            "| `FromRead::read` `reader` | `colfind_run` | `read_fails` |  |",
            "| `c_free` | `colfind_c` | `kept` of `colfind_run` |  |",
        ]
        status, printed = self.run_tool()
        self.assertEqual((status, printed.split("\n\n")[1].split("\n")[2:-1]), (0, rows))

    def test_the_first_table_has_each_edit_of_the_list(self):
        rows = ["| all is lost | `all_lost` | `colfind_run` |", "| a handle is kept | `kept` | `colfind_run` |"]
        status, printed = self.run_tool()
        self.assertEqual((status, printed.split("\n\n")[0].split("\n")[2:]), (0, rows))

    def test_a_table_that_was_written_is_not_stale(self):
        self.assertEqual(self.run_tool("--check")[1], "docs/PLANTED.md is stale: tools/turned --write\n5 clauses, 4 edits, 1 faults\n")
        self.assertEqual(self.run_tool("--write"), (0, ""))
        self.assertEqual(self.run_tool("--check"), (0, "5 clauses, 4 edits, 0 faults\n"))
        self.assertTrue((self.top / "docs/PLANTED.md").read_text().endswith("made -->\nMore.\n"))

    def test_what_is_wrong_with_an_edit_is_said(self):
        self.edit("colfind_run/must-fail/all_lost", "run_with done, missing, memory; run_without done")
        self.put("crates/colfind_run/must-fail/silent.edit", "file: src/run.rt\nold: 1\nnew: 2\n")
        self.assert_faults(
            "colfind_run/all_lost: there is no clause `missing` of `run_with`",
            "colfind_run/all_lost: there is no clause `done` of `run_without`",
            "colfind_run/silent: no line says what it turns",
            "no edit turns `run_with` `cause` of colfind_run",
        )

    def test_the_gate_turns_each_clause_that_the_readme_names(self):
        self.edit("colfind_run/must-fail/all_lost", "run_with memory")
        self.edit("colfind_c/more-edits/some_lost", "run_with done, cause")
        self.assert_faults("README.md: the gate turns no `run_with` `done` of colfind_run")

    def test_clauses_of_the_readme_that_are_not_there_are_said(self):
        self.put("README.md", README.replace("`done`", "`gone`"))
        self.assert_faults("README.md: there is no clause `gone` of `run_with`")
        self.put("README.md", README.replace("`run_with` in", "`run_on` in"))
        self.assert_faults("README.md: no clause of `run_on` is named")
        self.put("README.md", README.replace("## What is proved", "## Proofs"))
        self.assert_faults("README.md: no clause is named")

    def test_the_gate_tries_each_edit_of_the_list(self):
        self.put("tools/promised_edits.txt", LIST + "colfind_c/some_lost: some is lost\ncolfind_c/gone: nothing\n")
        untried = "tools/promised_edits.txt: the gate does not try colfind_c/"
        self.assert_faults(untried + "some_lost", untried + "gone")

    def test_a_line_of_the_list_stands_once_and_says_something(self):
        self.put("tools/promised_edits.txt", LIST + "colfind_run/kept: once more\ncolfind_run/read_fails\n")
        self.assert_faults(
            "tools/promised_edits.txt: colfind_run/kept stands there 2 times",
            "tools/promised_edits.txt: nothing says what colfind_run/read_fails does",
        )

    def test_this_repository_has_no_fault(self):
        tool = [Path(__file__).parent / "turned", "--check"]
        ran = subprocess.run(["python3", *tool], capture_output=True, text=True, check=False)
        self.assertRegex(ran.stdout, r"\A\d+ clauses, \d+ edits, 0 faults\n\Z")


if __name__ == "__main__":
    limited.main()
