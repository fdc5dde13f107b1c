"""What the scripts in this folder share: an answer of the program, and the count of what passed and failed."""
import subprocess
import sys
from dataclasses import dataclass

# The line that the program writes to standard error with a status.
ERRORS = {
    1: b"raftreplay: usage\n",
    4: b"raftreplay: read fault\n",
    5: b"raftreplay: write fault\n",
    6: b"raftreplay: no memory\n",
    7: b"raftreplay: input too long\n",
}

# The status of a program that had not ended in time, which no program can end with.
NO_END = -1000


@dataclass(frozen=True)
class Answer:
    """What the program answered: its status, and what it wrote to standard output and standard error."""

    status: int
    out: bytes
    error: bytes

    @staticmethod
    def of(status, out=b""):
        """The answer that a status has, with the one line of standard error that belongs to it."""
        return Answer(status, out, ERRORS.get(status, b""))

    def __str__(self):
        ended = "no end" if self.status == NO_END else "status %d" % self.status
        return "%s, %d bytes %r, error %r" % (ended, len(self.out), self.out[:200], self.error[:200])


def ask(program, words, data=b"", seconds=120, **how):
    """Runs the program on these words and bytes, and gives its answer."""
    try:
        done = subprocess.run([program, *words], input=data, capture_output=True, timeout=seconds, **how)
    except subprocess.TimeoutExpired:
        return Answer(NO_END, b"", b"")
    return Answer(done.returncode, done.stdout, done.stderr)


class Judge:
    """Counts the cases that pass and those that fail, and tells of each that fails."""

    def __init__(self):
        self.passed = 0
        self.failed = 0

    def compare(self, name, got, wanted):
        """One case: what came is what was wanted."""
        self.hold(name, got == wanted, "wanted %s\n  got    %s" % (wanted, got))

    def hold(self, name, holds, said):
        """One case that holds or fails, and what to say where it fails."""
        if holds:
            self.passed += 1
            return
        self.failed += 1
        print("case %s\n  %s" % (name, said), flush=True)

    def end(self):
        """Ends the script, with 'N passed, N failed' as its last line."""
        print("%d passed, %d failed" % (self.passed, self.failed))
        sys.exit(1 if self.failed else 0)
