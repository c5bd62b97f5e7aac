"""Runs of the program in tests, and what they have to come to."""
import contextlib
import dataclasses
import os
import pathlib
import pty
import re
import subprocess
from typing import Callable

TOP = pathlib.Path(__file__).resolve().parents[2]
EXAMPLES, ROWS, CERTIFICATES = TOP / "examples", TOP / "tests" / "rows", TOP / "tests" / "certificates"
WORKERS = ([], ["--workers", "2"], ["--workers", "8"], ["--workers", "64"])  # of `run`


@dataclasses.dataclass
class Case:
    """A run of the program: its arguments and standard input, and what it has to write and to end with."""

    what: str
    words: list
    given: bytes
    output: object  # bytes, or what `reader` reads of them
    error: bytes  # the first line of standard error
    status: int
    device: pathlib.Path | None = None  # what standard output is, if it isn't read
    reader: Callable | None = None  # what reads the output, where values are compared and not bytes
    named: tuple = ()  # what standard error has to name, in any line
    is_watched: bool = False  # whether standard error is a terminal

    def is_met_by(self, output, error, status):
        """Whether the run went as it has to; tells where not."""
        missing = tuple(word for word in self.named if word not in error)
        error = b"".join(error.splitlines(keepends=True)[:1])  # more lines are for the reader
        if self.reader and status == self.status:
            with contextlib.suppress(ValueError):
                output = self.reader(output)
        got, wanted = (output, error, status, missing), (self.output, self.error, self.status, ())
        if got != wanted:
            print(f"== {self.what}")
        for name, one, other in zip(("output", "error", "status", "what isn't named"), got, wanted):
            if one != other:
                print(f"-- {name} is {one!r}"[:2000])
                print(f"-- and not {other!r}"[:2000])
        return got == wanted


@dataclasses.dataclass
class ToldCase(Case):
    """A run that writes just these lines to standard error."""

    told: tuple = ()

    def is_met_by(self, output, error, status):
        if error.splitlines(keepends=True) != [*self.told]:
            print(f"== {self.what}\n-- told: {error!r}"[:4000], f"-- and not {b''.join(self.told)!r}"[:4000], sep="\n")
            return False
        return super().is_met_by(output, error, status)


# characters that set a terminal's title, its colours, clear it and turn the direction of a text; and all that do something like it
STEERING = "\x1b]0;title\x07\x1b[31m\x9b2J\u202e"
CONTROL = re.compile("[\x00-\x09\x0b-\x1f\x7f-\x9f\u061c\u200e\u200f\u2028-\u202e\u2066-\u2069]")


class SafeCase(Case):
    """A run that ends with 0, 1, 3 or 7, and writes nothing that would do something to a terminal."""

    def is_met_by(self, output, error, status):
        found = [CONTROL.findall(written.decode(errors="replace")) for written in (output, error)]
        if status not in (0, 1, 3, 7) or any(found):
            print(f"== {self.what}\n-- status {status}, control characters {found!r}")
            return False
        return True


def run_program(program, cases, imports=None):
    """How many runs of a program don't go as they have to; runs of `import` are kept in a list, each with what it came to, if there is one."""
    wrong = 0
    for case in cases:
        with open(case.device, "wb") if case.device else contextlib.nullcontext(subprocess.PIPE) as output:
            words = [*program, *case.words]
            run = run_watched if case.is_watched else run_alone
            done, error = run(words, case.given, output)
        wrong += not case.is_met_by(done.stdout or b"", error, done.returncode)
        if imports is not None and case.words[:1] == ["import"]:
            imports.append((case, (done.stdout, error, done.returncode)))
    return wrong


def run_alone(words, given, output):
    done = subprocess.run(words, input=given, stdout=output, stderr=subprocess.PIPE, timeout=120)
    return done, done.stderr


def run_watched(words, given, output):
    """The same with a terminal for standard error, which ends lines with a carriage return, too."""
    ours, theirs = pty.openpty()
    done = subprocess.run(words, input=given, stdout=output, stderr=theirs, timeout=120)
    os.write(theirs, b".")  # so that there is something to read
    os.close(theirs)
    error = b""
    while not error.endswith(b"."):
        error += os.read(ours, 65_536)
    error = error.removesuffix(b".")
    os.close(ours)
    return done, error.replace(b"\r\n", b"\n")


def built_program(is_unproved=False):
    """The program, or the one with nothing proved, built first where it isn't there, or a source is newer."""
    subprocess.run([TOP / "ibcplan", *(["--unproved"] if is_unproved else []), "--build"], check=True)
    return str(TOP / "crates" / "ibcplan" / "out" / ("ibcplan-unproved" if is_unproved else "ibcplan"))
