"""A program of lines, ./corridor or ./workshop, that is asked line by line."""
import subprocess
from pathlib import Path

ROOT = Path(__file__).resolve().parent.parent.parent


class NotStarted(Exception):
    """The program's launcher can't be run; why, in one line."""


class Ended(Exception):
    """The program ended before it had answered."""

    def __init__(self, name):
        super().__init__(name)
        self.name = name
        self.status = None


def build(name):
    """Has the program of this name built where it isn't. Gives the exit status."""
    try:
        return subprocess.run([str(ROOT / name), "--build"], stdin=subprocess.DEVNULL).returncode
    except OSError as error:
        raise NotStarted(f"the program can't be started: {ROOT / name}: {error.strerror}") from None


class Program:
    """A running program of this name; when it is left, it is ended, and `status` is its exit status."""

    def __init__(self, name):
        self.name = name
        self.status = None
        self.running = subprocess.Popen([str(ROOT / name)], stdin=subprocess.PIPE, stdout=subprocess.PIPE)

    def __enter__(self):
        return self

    def __exit__(self, kind, error, trace):
        try:
            self.running.stdin.close()
        except BrokenPipeError:
            pass  # it has ended already
        self.running.stdout.close()
        self.status = self.running.wait()
        if isinstance(error, Ended) and error.name == self.name:
            error.status = self.status

    def ask(self, line):
        """Sends a line, and waits for the line that answers it."""
        try:
            self.running.stdin.write(line.encode("utf-8") + b"\n")
            self.running.stdin.flush()
        except BrokenPipeError:
            raise Ended(self.name) from None
        answer = self.running.stdout.readline()
        if not answer:
            raise Ended(self.name)
        return answer.decode("ascii", "replace").rstrip("\n")
