"""Texts for people: faults, and lines of the log, in which nothing from outside acts on a terminal."""
import datetime
import json
import sys
import threading
import typing


class Fault(Exception):
    """Why a command can't be done; the text is for its user, the number the status that the program ends with."""

    def __init__(self, text: str, status: int = 1) -> None:
        super().__init__(text)
        self.status = status


def shown(text: object, most: int = 300) -> str:
    """A text for a terminal: what isn't printable ASCII is escaped, and a long text is cut."""
    return "".join(c if " " <= c <= "~" else ascii(c)[1:-1] for c in str(text)[:most])


class Log:
    """A line of JSON for each event, with the moment, the level and what it is about."""

    def __init__(self, stream: typing.TextIO | None = None) -> None:
        self.stream, self.lock = stream or sys.stderr, threading.Lock()

    def write(self, level: str, event: str, about: dict[str, object]) -> None:
        moment = datetime.datetime.now(datetime.timezone.utc).isoformat(timespec="milliseconds")
        fields = {"time": moment, "level": level, "event": event} | {key: value for key, value in about.items() if value is not None}
        line = json.dumps(fields, default=shown).replace("\x7f", "\\u007f")
        with self.lock:
            print(line, file=self.stream, flush=True)

    def info(self, event: str, **about: object) -> None:
        self.write("info", event, about)

    def warn(self, event: str, **about: object) -> None:
        self.write("warn", event, about)


class Quiet(Log):
    """A log for commands whose results are lines for people: it tells warnings alone, as a line each."""

    def write(self, level: str, event: str, about: dict[str, object]) -> None:
        if level == "warn":
            words = ", ".join(f"{key} {shown(value)}" for key, value in about.items() if value is not None)
            with self.lock:
                print(f"ibcplan-relayer: {event}: {words}", file=self.stream, flush=True)
