"""Runs a program as a child on what comes from standard input, for `run`: each part is handed on as it comes, and nothing is held back.
Signals are passed on to the child, and its status is passed back."""
import contextlib
import os
import signal
import subprocess
import threading

PASSED_ON = (signal.SIGINT, signal.SIGTERM, signal.SIGHUP, signal.SIGQUIT)


class Plain:
    """Lines without the carriage returns at their ends."""

    def __init__(self):
        self.held = b""

    def see(self, part):
        part = self.held + part
        # Whether it ends a line is said by the byte behind it.
        self.held = b"\r" if part.endswith(b"\r") else b""
        return part.removesuffix(self.held).replace(b"\r\n", b"\n")

    def end(self):
        return self.held


def write(out, part):
    while part:
        part = part[os.write(out, part) :]


class Feed:
    """What hands standard input on to a program, by way of `lines`, and what went wrong with it."""

    def __init__(self, lines, out):
        self.lines, self.out, self.fault = lines, out, None

    def run(self):
        with contextlib.suppress(BrokenPipeError), self.out:
            try:
                while part := os.read(0, 65536):
                    write(self.out.fileno(), self.lines.see(part))
            except BrokenPipeError:
                raise
            except OSError as fault:
                self.fault = fault
            write(self.out.fileno(), self.lines.end())


def pass_on(child):
    """Has the child get the signals that come here."""
    for number in PASSED_ON:
        if signal.getsignal(number) != signal.SIG_IGN:
            signal.signal(number, lambda number, _: child.send_signal(number))


def die_as(child):
    """Ends as a child that a signal ended."""
    signal.signal(-child.returncode, signal.SIG_DFL)
    os.kill(os.getpid(), -child.returncode)


def fed(path, lines, *words):
    """Runs a program with these words: its status. Where standard input cannot be read that is 2."""
    child = subprocess.Popen([path, *words], stdin=subprocess.PIPE, bufsize=0)
    pass_on(child)
    feed = Feed(lines, child.stdin)
    # It may wait for a line that nobody wants any more.
    threading.Thread(target=feed.run, daemon=True).start()
    if child.wait() < 0:
        die_as(child)
    return 2 if feed.fault else child.returncode
