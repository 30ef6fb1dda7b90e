"""The shell as a process that is handed a line at a time, for the shell at a terminal (front.py) and for the page (page/)."""
import contextlib
import os
import pty
import select
import subprocess
import tty

from feed import write

PROMPT = b"> "


class Shell:
    """The shell, as a child at a terminal of its own, which neither echoes nor changes what goes by."""

    def __init__(self, path, *words):
        self.end, inner = pty.openpty()
        tty.setraw(inner)
        self.process = subprocess.Popen([path, *words], stdin=inner, stdout=inner, start_new_session=True)
        os.close(inner)
        self.is_there = True

    def answer(self):
        """What the shell prints up to its next prompt, or up to its end, part by part."""
        held = b""
        while self.is_there and (held != PROMPT or select.select([self.end], [], [], 0)[0]):
            try:
                part = os.read(self.end, 65536)
            except OSError:
                part = b""
            self.is_there = bool(part)
            # No line that it prints begins as its prompt.
            lines, end, held = (held + part).rpartition(b"\n")
            yield lines + end
        if not self.is_there:
            yield held

    def ask(self, line):
        with contextlib.suppress(OSError):
            write(self.end, line.encode(errors="surrogateescape") + b"\n")
        yield from self.answer()

    def status(self):
        """Its exit status, of which a line that could not be read is no part."""
        os.close(self.end)
        code = self.process.wait()
        return 0 if code == 1 else 128 - code if code < 0 else code
