"""A program in a terminal of its own tmux, which is typed into and looked at. The checks of programs with a screen use it."""

import re
import subprocess
import time


class Terminal:
    """`with Terminal(FOLDER, ENVIRONMENT, WORD..) as terminal`: the socket of its tmux is in the folder."""

    def __init__(self, folder, environment, *words, size=(60, 12)):
        self.call, self.environment = ["tmux", "-S", f"{folder}/tmux", "-f", "/dev/null"], environment
        self.tmux("new-session", "-d", "-x", str(size[0]), "-y", str(size[1]), *words)

    def __enter__(self):
        return self

    def __exit__(self, *_):
        self.tmux("kill-server")  # of its own socket

    def tmux(self, *words):
        return subprocess.run([*self.call, *words], stdout=subprocess.PIPE, env=self.environment, check=True, text=True).stdout

    def types(self, text):
        self.tmux("send-keys", "-l", text)

    def presses(self, *keys):
        """Keys by their names, as C-s."""
        self.tmux("send-keys", *keys)

    def shows(self, *wanted, seconds=10):
        """Waits until all that is wanted stands on the screen: patterns, over what it shows with escapes and without."""
        end = time.monotonic() + seconds
        while time.monotonic() < end:
            screen = self.tmux("capture-pane", "-p", "-e") + self.tmux("capture-pane", "-p")
            if all(re.search(part, screen) for part in wanted):
                return
            time.sleep(0.05)
        raise AssertionError(f"no {wanted} on the screen\n{screen}")


def coloured(text, *codes):
    """The pattern of a text behind an escape that ends with one of these codes."""
    return rf"\x1b\[(?:\d+;)*(?:{'|'.join(codes)})m{text}\s*\x1b\["
