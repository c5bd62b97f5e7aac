"""The planner ibcplan for relayers in Python: it starts the program, writes scripts, and reads reports with types. It needs Python 3.11 alone.

    planner = Planner("/usr/bin/ibcplan")
    report = planner.plan({"version": 3, "chain": [...], "client": [...], "turn": [...]})

    with planner.follow(setup, journal="turns.journal") as follower:
        turn = follower.answer({"from": "2025-03-01T12:11:00Z", "until": "2025-03-01T12:15:00Z", "event": [...]})

Scripts, setups and turns are TOML, or trees of data with the same keys. docs/FORMATS.md has the keys of both, docs/EMBEDDING.md the use.
"""
import json
import os
import subprocess
import threading
from collections.abc import Mapping, Sequence
from typing import Literal, NotRequired, Self, TypedDict, Union, cast

FORMATS = (1, 3, 4)  # of reports, that these types are for
MOST_SAID = 1 << 16  # bytes of standard error that are remembered

Data = Union[bool, int, str, Sequence["Data"], Mapping[str, "Data"]]
Script = str | Mapping[str, Data]  # as TOML, or as a tree of its keys


# ---- reports, as in "The report as JSON" of docs/FORMATS.md


class Goal(TypedDict, total=False):
    at_least: int
    exactly: int


class Label(TypedDict):
    height: int
    fee: int
    count: int


class Update(TypedDict):
    height: int
    trusted: int
    fee: int
    commits: NotRequired[int]  # with votes: how many the header has, and the addresses of those that go
    votes: NotRequired[list[str]]


class Total(TypedDict):
    fee: int
    updates: int


class Message(TypedDict):
    kind: Literal["recv", "ack", "timeout"]
    path: str
    sequence: int


class Transaction(TypedDict):
    first: int
    count: int
    gas: int


class Held(TypedDict):
    id: str
    outcome: Literal["held"]
    batch: int


class Idle(TypedDict):
    id: str
    outcome: Literal["idle"]
    next: NotRequired[str]
    left_out: NotRequired[list[Message]]  # over the gas limit alone, in version 4


class Unreachable(TypedDict):
    id: str
    outcome: Literal["unreachable"]
    goal: Goal
    beyond: NotRequired[Goal]  # asked for, and out of reach, in version 4
    labels: list[Label]
    left_out: NotRequired[list[Message]]


class Planned(TypedDict):
    id: str
    outcome: Literal["plan"]
    goal: Goal
    beyond: NotRequired[Goal]
    labels: list[Label]
    updates: list[Update]
    total: Total
    messages: list[Message]
    too_big: NotRequired[int]
    batch: NotRequired[int]  # with proof and transactions, if anything is to be sent
    proof: NotRequired[int]
    transactions: NotRequired[list[Transaction]]
    next: NotRequired[str]
    left_out: NotRequired[list[Message]]


Client = Held | Idle | Unreachable | Planned


class RefusedEvent(TypedDict):
    event: int
    number: int
    name: str


class Settlement(TypedDict):
    client: str
    batch: int
    done: int
    number: NotRequired[int]  # with name, if it is refused
    name: NotRequired[str]


class Turn(TypedDict):
    turn: NotRequired[int]  # its number, of a follower's answer
    window_back: bool
    windows_back: NotRequired[list[str]]  # hosts, in version 4
    refused: list[RefusedEvent]
    clients: list[Client]
    settlements: list[Settlement]


class Health(TypedDict):
    id: str
    expires: NotRequired[str]  # with live, if anything is stored
    live: NotRequired[bool]


class Report(TypedDict):
    ibcplan: int
    turns: list[Turn]
    clients: list[Health]


# ---- errors


class Fault(Exception):
    """A text has a fault: mend it, since the same text fails again. A follower goes on, as if it had not been told the turn."""

    def __init__(self, number: int, name: str, path: str, advice: str = "") -> None:
        super().__init__(f"fault {number} {name} at {path}")
        self.number, self.name, self.path, self.advice = number, name, path, advice

    def event(self) -> int | None:
        """The event of the turn, from 0, that the fault is in: without it the turn may be right."""
        place = self.path.removeprefix("event[").partition("]")[0]
        return int(place) if self.path.startswith("event[") and place.isdecimal() else None


class Misused(Exception):
    """The command line is wrong, or a journal is another one, damaged, or in use."""


class Failed(Exception):
    """Memory, a file or the process failed: the same call may succeed later. `status` is negative after a signal."""

    def __init__(self, status: int, said: str) -> None:
        super().__init__(f"status {status}: {said}")
        self.status, self.said = status, said


def error_of(status: int, output: str, said: str) -> Exception:
    """The error that a status, the fault on standard output and standard error tell."""
    if status == 1 and output.startswith('{"fault"'):
        fault = fault_of(json.loads(output))
        fault.advice = said.partition(f"{fault}\n")[2].strip()
        return fault
    return Misused(said.strip()) if status in (1, 2) else Failed(status, said.strip())


def fault_of(value: Mapping[str, object]) -> Fault:
    """The fault of an object of JSON."""
    return Fault(cast(int, value["fault"]), cast(str, value["name"]), cast(str, value["path"]))


# ---- scripts


def toml(value: Data) -> str:
    """A tree of data as a value of TOML, on one line."""
    if isinstance(value, bool):
        return "true" if value else "false"
    if isinstance(value, int):
        return str(value)
    if isinstance(value, str):
        # a string of JSON is one of TOML, but for DEL, and characters above U+FFFF when they are escaped
        return json.dumps(value, ensure_ascii=False).replace("\x7f", "\\u007f")
    if isinstance(value, Mapping):
        return "{%s}" % ", ".join(f"{toml(key)} = {toml(part)}" for key, part in value.items())
    if isinstance(value, Sequence):
        return "[%s]" % ", ".join(map(toml, value))
    raise TypeError(f"a script has no {type(value).__name__}")


def text_of(script: Script) -> str:
    """A script, a setup or a turn as TOML: of a tree a line for each key at its top."""
    return script if isinstance(script, str) else "".join(f"{toml(key)} = {toml(part)}\n" for key, part in script.items())


def settlements_of(turn: Turn) -> list[dict[str, Data]]:
    """What to tell by `settle` when all transactions of a turn's new batches were taken; lower `done` where fewer were."""
    batches = [client for client in turn["clients"] if client["outcome"] == "plan" and "batch" in client]
    return [{"client": client["id"], "batch": client["batch"], "done": len(client["transactions"])} for client in batches]


# ---- runs


class Planner:
    """Starts the program for each call. `program` is its path, or its name if it is on the path."""

    def __init__(self, program: str = "ibcplan") -> None:
        self.program = program

    def plan(self, script: Script, workers: int = 0) -> Report:
        """The report of a script; with workers, 1 to 64, the same one by so many threads."""
        words = ["run", "--workers", str(workers)] if workers else ["plan"]
        return report_of(self.done([*words, "--json", "-"], text_of(script)))

    def explain(self, script: Script) -> dict[str, object]:
        """Why the plans are as they are: the explanation of docs/FORMATS.md."""
        return cast(dict[str, object], json.loads(self.done(["explain", "--json", "-"], text_of(script))))

    def certify(self, script: Script, certificate: Script) -> str | None:
        """The first reason against a certificate, as `601 SourceLabel 5`; none if its updates are the plan."""
        done = self.run(["certify", "--json", "-"], document_of(text_of(script)) + text_of(certificate))
        if done.returncode not in (0, 3):
            raise error_of(done.returncode, done.stdout, done.stderr)
        verdict = json.loads(done.stdout)
        return " ".join(map(str, (verdict["number"], verdict["name"], *verdict["at"]))) if done.returncode else None

    def follow(self, setup: Script, journal: str | None = None, workers: int = 0, labels: bool = True) -> "Follower":
        """Starts a process that answers turns as they come, of a setup: a script without turns. With a journal each turn is on the disk before
        its answer, and a journal that is there is gone on with. Without labels answers are shorter, where a chain has thousands of headers."""
        return Follower(self, text_of(setup), journal, workers, labels)

    def version(self) -> str:
        """The name of the program and its version, as `ibcplan 0.1.0`."""
        return self.done(["--version"], "").strip()

    def run(self, words: list[str], given: str) -> subprocess.CompletedProcess[str]:
        return subprocess.run([self.program, *words], input=given, capture_output=True, encoding="utf-8", errors="replace")

    def done(self, words: list[str], given: str) -> str:
        """What a run writes that ends well."""
        done = self.run(words, given)
        if done.returncode:
            raise error_of(done.returncode, done.stdout, done.stderr)
        return done.stdout


def report_of(text: str) -> Report:
    report = cast(Report, json.loads(text))
    check_format(report["ibcplan"])
    return report


def check_format(number: int) -> None:
    if number not in FORMATS:
        raise Misused(f"reports of format {number} are newer than this module")


def document_of(text: str) -> str:
    """A text as the program reads it before others on standard input: a line `---` ends it."""
    if "---" in (line.rstrip("\r") for line in text.split("\n")):
        raise Misused("a line of the text is ---, which would end it")
    return f"{text}\n---\n"


def answer_of(line: str) -> Turn | Fault:
    value = json.loads(line)
    return fault_of(value) if "fault" in value else cast(Turn, value)


class Follower:
    """A process that answers turns as they come, for one thread at a time. `past` has the answers to the journal's turns, since it was begun
    anew; `turns` is how many were answered, all of the journal's too."""

    def __init__(self, planner: Planner, setup: str, journal: str | None, workers: int, labels: bool) -> None:
        self.planner, self.setup, self.journal, self.workers, self.labels = planner, setup, journal, workers, labels
        lines, self.turns = self.start()
        self.past = [cast(Turn, answer_of(line)) for line in lines]

    def answer(self, turn: Script) -> Turn:
        """The answer to a turn. After a `Fault` all is as before; after a `Failed` the process has ended: `restart`."""
        answer = answer_of(self.exchange(document_of(text_of(turn))))
        if isinstance(answer, Fault):
            raise answer
        self.turns += 1
        return answer

    def restart(self) -> Turn | None:
        """Starts the process again, which ended, by the same journal. The answer to the turn that it ended upon, if the journal has that turn;
        otherwise tell the turn again."""
        if self.journal is None:
            raise Misused("without a journal turns are lost: begin another follower")
        self.close()
        before = self.turns
        lines, self.turns = self.start()
        return cast(Turn, answer_of(lines[-1])) if self.turns > before else None

    def answer_or_restart(self, turn: Script) -> Turn:
        """The answer to a turn, by another process where one ended: with a journal no turn is lost, and none counts twice."""
        try:
            return self.answer(turn)
        except Failed:
            answer = self.restart()
        return self.answer(turn) if answer is None else answer

    def said(self) -> str:
        """The end of what the process wrote to standard error, for a log."""
        return self.tail.decode("utf-8", "replace")

    def kill(self) -> None:
        """Ends the process at once; any thread may call this while another one waits for an answer."""
        self.process.kill()

    def close(self) -> None:
        """Ends the process."""
        self.process.kill()
        self.process.wait()
        self.listener.join()
        for stream in self.process.stdin, self.process.stdout, self.process.stderr:
            assert stream
            try:
                stream.close()
            except OSError:  # what was written last didn't go out
                pass

    def __enter__(self) -> Self:
        return self

    def __exit__(self, *_: object) -> None:
        self.close()

    def start(self) -> tuple[list[str], int]:
        """Starts the process; the answers to the journal's turns, and how many were answered."""
        words = [self.planner.program, "follow", "--json", "-", *(["--journal", self.journal] if self.journal else [])]
        words += ["--workers", str(self.workers)] if self.workers else []
        words += [] if self.labels else ["--no-labels"]
        setup = document_of(self.setup)
        try:
            self.process = subprocess.Popen(words, stdin=subprocess.PIPE, stdout=subprocess.PIPE, stderr=subprocess.PIPE)
            self.tail = bytearray()
            assert self.process.stderr
            # somebody has to read standard error: the process waits where nobody does
            self.listener = threading.Thread(target=remember, args=(self.process.stderr.fileno(), self.tail), daemon=True)
            self.listener.start()
            # first comes what the process is; a number that isn't due is answered by a fault with the one that is, behind the old answers
            first = self.exchange(setup + document_of("turn = 0"))
            if "fault" in (greeting := json.loads(first)):
                raise self.ended(first)  # of the setup
            check_format(greeting["ibcplan"])
            lines, line = [], self.line()
            while not isinstance(answer_of(line), Fault):
                lines.append(line)
                line = self.line()
            due = cast(int, json.loads(line)["turn"])
        except BaseException:
            if hasattr(self, "process"):
                self.close()
            raise
        return lines, due - 1

    def exchange(self, document: str) -> str:
        """Writes a document, and reads a line."""
        assert self.process.stdin
        given = document.encode()
        try:
            self.process.stdin.write(given)
            self.process.stdin.flush()
        except (OSError, ValueError):  # the process has ended, or was closed; it said why, on standard output if the setup has a fault
            raise self.ended(self.line()) from None
        return self.line()

    def line(self) -> str:
        assert self.process.stdout
        try:
            line = self.process.stdout.readline()
        except ValueError:  # it was closed
            line = b""
        if not line.endswith(b"\n"):
            raise self.ended()
        return line.decode()

    def ended(self, line: str = "") -> Exception:
        """Why the process ended, of which this is the last line."""
        status = self.process.wait()
        self.listener.join()
        return error_of(status, line, self.said())


def remember(source: int, tail: bytearray) -> None:
    """Reads all that comes, and remembers the end of it."""
    while piece := os.read(source, 4096):
        tail += piece
        del tail[:-MOST_SAID]
