"""Runs of `follow`: scripts as a setup and the documents of turns, what is answered to them, and processes that are told turns."""
import contextlib
import dataclasses
import json
import os
import select
import subprocess
import time
import tomllib

from lib.program import EXAMPLES, ROWS

MARK = "---\n"
ANEW = b"# ibcplan journal 3\n"  # of a journal that was begun anew
PATIENCE = 120  # seconds


def value_text(value):
    """A value in TOML, on one line."""
    if isinstance(value, dict):
        return "{ %s }" % ", ".join(f"{json.dumps(key)} = {value_text(item)}" for key, item in value.items())
    if isinstance(value, list):
        return "[%s]" % ", ".join(map(value_text, value))
    if isinstance(value, (bool, str)):
        return json.dumps(value, ensure_ascii=False)
    if isinstance(value, int):
        return str(value)
    raise ValueError(f"no value of a script: {value!r}")


def table_text(table):
    """A table with its keys at the top; of an array of tables each stands on a line."""
    lines = []
    for key, value in table.items():
        if isinstance(value, list) and value and all(isinstance(item, dict) for item in value):
            lines += [f"{key} = [", *(f"  {value_text(item)}," for item in value), "]"]
        else:
            lines.append(f"{key} = {value_text(value)}")
    return "".join(f"{line}\n" for line in lines)


def parts_of(script):
    """A script as its setup and the documents of its turns, as bytes."""
    tables = tomllib.loads(script)
    turns = tables.pop("turn", [])
    return table_text(tables).encode(), [table_text(turn).encode() for turn in turns]


def answers_of(report):
    """The first line of a report, what each turn is answered by, and the end."""
    lines = report.splitlines(keepends=True)
    head, end, turns = lines[0], lines[-1], []
    for line in lines[1:-1]:
        if line.startswith("turn "):
            turns.append("")
        turns[-1] += line
    return head, [turn + MARK for turn in turns], end


def turns_before(journal):
    """How many turns led to the state of a journal, the first word of it; 0 where it has none."""
    text = journal.read_bytes() if journal.exists() else b""
    return int(text.split(b"'''", 1)[1].split(None, 1)[0]) if text.startswith(ANEW) else 0


def followed(report):
    """What `follow` writes where `plan` writes this report."""
    head, turns, end = answers_of(report)
    return head + "".join(turns) + end


def ended(documents):
    return b"".join(document + MARK.encode() for document in documents)


def pieces_of(given, size):
    return (given[place:place + size] for place in range(0, len(given), size))


@dataclasses.dataclass
class Ended:
    output: str
    error: str
    status: int


def run_in_pieces(words, given, size):
    """A run whose standard input gets its bytes in pieces of a size, as fast as it takes them."""
    run = subprocess.Popen(words, stdin=subprocess.PIPE, stdout=subprocess.PIPE, stderr=subprocess.PIPE)
    output, pieces, start = b"", pieces_of(given, size), time.monotonic()
    os.set_blocking(run.stdin.fileno(), False)
    piece = next(pieces, None)
    while True:
        wanted = [run.stdin] if not run.stdin.closed else []
        readable, writable, _ = select.select([run.stdout], wanted, [], PATIENCE)
        if not readable and not writable:
            run.kill()
            raise TimeoutError(f"{words}: no answer in {PATIENCE} seconds")
        if writable:
            if piece is None:
                run.stdin.close()
            else:
                try:
                    sent = os.write(run.stdin.fileno(), piece)
                    piece = piece[sent:] or next(pieces, None)
                except BlockingIOError:
                    pass
                except BrokenPipeError:
                    run.stdin.close()
        if readable:
            more = os.read(run.stdout.fileno(), 1 << 16)
            if not more:
                break
            output += more
    error = run.stderr.read().decode()
    status = run.wait(PATIENCE)
    for stream in run.stdin, run.stdout, run.stderr:
        with contextlib.suppress(OSError):
            stream.close()
    return Ended(output.decode(), error, status)


class Following:
    """A process that is told turns one by one."""

    def __init__(self, program, setup, words=(), given=None):
        self.run = subprocess.Popen([*program, "follow", str(setup), *words], stdin=subprocess.PIPE, stdout=subprocess.PIPE,
                                    stderr=subprocess.PIPE, text=True)
        if given is not None:
            self.run.stdin.write(given + MARK)
            self.run.stdin.flush()
        self.head = self.run.stdout.readline()

    def answer(self, document):
        self.run.stdin.write(document + MARK)
        self.run.stdin.flush()
        lines = []
        while (line := self.run.stdout.readline()) not in (MARK, ""):
            lines.append(line)
        return "".join(lines)

    def end(self):
        output, error = self.run.communicate(timeout=PATIENCE)
        return output, error, self.run.returncode


def check(what, got, wanted):
    """How many of these aren't as they have to be: none or one."""
    if got == wanted:
        return 0
    print(f"== {what}\n-- {got!r}\n-- and not {wanted!r}"[:4000])
    return 1


def scripts():
    """Scripts that have a report, with it."""
    for script in sorted(EXAMPLES.glob("*.toml")):
        yield script.stem, script.read_text(), script.with_suffix(".report").read_text()
    for row in sorted(path for path in ROWS.iterdir() if path.suffix == "" and path.with_name(f"{path.name}.stdout").exists()):
        report = row.with_name(f"{row.name}.stdout").read_text()
        if report.startswith("ibcplan "):
            yield row.name, row.read_text(), report
