"""Tests that show, files and tailor have in common: output that can't be written, readers that end, Ctrl-C."""

import os
import pty
import resource
import select
import shutil
import signal
import subprocess
import tempfile
import tty

MOST_SECONDS = 60
CLOSED, FULL, LARGE = "Bad file descriptor", "No space left on device", "File too large"
SIGNALS = (signal.SIGINT, signal.SIGTERM, signal.SIGHUP)


def default_signals():
    """For a new process: a shell may have had the signals ignored."""
    for number in SIGNALS:
        signal.signal(number, signal.SIG_DFL)


class StreamTests:
    """`script` is its path, `usages` are parts of its help when it is called colfind-NAME, and `printing` gives commands that print, each
    with its standard input."""

    environment = dict(os.environ)

    def complaint(self, words):
        return f"{os.path.basename(self.script)}: {words}\n".encode(errors="surrogateescape")

    def ran(self, words, given=b"", **extra):
        """The status, what is printed and what is complained of."""
        extra = {"stdout": subprocess.PIPE, "stderr": subprocess.PIPE, "env": self.environment, "timeout": MOST_SECONDS, **extra}
        if "stdin" not in extra:
            extra["input"] = given
        ran = subprocess.run(words, check=False, **extra)
        return ran.returncode, ran.stdout, ran.stderr

    def redirected(self, words, redirection, given=b""):
        return self.ran(["sh", "-c", f'exec "$@" {redirection}', "sh", *words], given)

    def ran_on_failing_input(self, words, given):
        """As `ran`, with standard input of which the reads fail behind what is given: a terminal whose other end is closed."""
        main, terminal = pty.openpty()
        tty.setraw(terminal)
        os.write(terminal, given)
        os.close(terminal)
        with open(main, "rb", buffering=0) as stream:
            return self.ran(words, stdin=stream)

    def interrupted(self, child, number=signal.SIGINT):
        """Ends a process by a signal: it ends so, and says nothing."""
        child.send_signal(number)
        self.assertEqual(child.wait(MOST_SECONDS), -number)
        self.assertEqual(child.stderr.read(), b"")

    def line_of(self, stream):
        """What a stream has next, which comes in bounded time."""
        self.assertTrue(select.select([stream], [], [], MOST_SECONDS)[0])
        return os.read(stream.fileno(), 1000)

    def test_output_that_fails(self):
        for words, given in [*self.printing(), ([self.script, "--help"], b"")]:
            for redirection, cause in (">&-", CLOSED), ("> /dev/full", FULL):
                complaint = self.complaint(f"standard output: {cause}")
                self.assertEqual(self.redirected(words, redirection, given), (2, b"", complaint), words)
                self.assertEqual(self.redirected(words, f"{redirection} 2>&-", given), (2, b"", b""), words)
                self.assertEqual(self.redirected(words, f"{redirection} 2> /dev/full", given), (2, b"", b""), words)

    def test_words_are_wrong_and_streams_are_closed(self):
        for redirection in "2>&-", "2> /dev/full", "<&- >&- 2>&-":
            self.assertEqual(self.redirected([self.script], redirection), (2, b"", b""))

    def test_limit_on_file_size(self):
        """Also without a buffer of Python's own, and where the shell has the signal of the limit ignored."""
        for words, given in self.printing():
            whole = self.ran(words, given)[1]
            for size, ignored, unbuffered in (0, False, ""), (len(whole) - 1, False, ""), (len(whole) - 1, True, "1"):
                with tempfile.TemporaryFile() as out:
                    answer = self.ran(
                        words, given, stdout=out, restore_signals=not ignored, env={**self.environment, "PYTHONUNBUFFERED": unbuffered},
                        preexec_fn=lambda: resource.setrlimit(resource.RLIMIT_FSIZE, (size, size)))
                    out.seek(0)
                    self.assertEqual(answer, (2, None, self.complaint(f"standard output: {LARGE}")), words)
                    self.assertEqual(out.read(), whole[:size])

    def test_reader_that_has_ended(self):
        for words, given in self.printing():
            reads, writes = os.pipe()
            os.close(reads)
            self.assertEqual(self.ran(words, given, stdout=writes), (-signal.SIGPIPE, None, b""), words)
            os.close(writes)

    def test_python_without_documentation(self):
        """Where PYTHONOPTIMIZE is 2 the script has no words on itself: the help is short, and all else is as it was."""
        bare = {**self.environment, "PYTHONOPTIMIZE": "2"}
        for words, given in self.printing():
            self.assertEqual(self.ran(words, given, env=bare), self.ran(words, given), words)
        status, _, complained = self.ran([self.script, "--help"], env=bare)
        self.assertEqual((status, complained), (0, b""))

    def test_help_names_the_command(self):
        with tempfile.TemporaryDirectory() as folder:
            for name in "show", "files", "tailor":
                shutil.copy(os.path.join(os.path.dirname(os.path.abspath(__file__)), name), os.path.join(folder, f"colfind-{name}"))
            called = os.path.join(folder, f"colfind-{os.path.basename(self.script)}")
            status, printed, complained = self.ran([called, "--help"])
        self.assertEqual((status, complained), (0, b""))
        for usage in self.usages:
            self.assertIn(usage.encode(), printed)
        self.assertNotRegex(printed, rb"(?<![-\w])(show|files|tailor) [\[A-Z-]")
