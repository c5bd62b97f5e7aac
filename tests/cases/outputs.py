"""Runs of `plan --json`, `run --json` and `commands` on the rows and the examples; what they write is made here of the reports that are stored."""
import json
import pathlib
import shlex
import tomllib

from lib.json_reading import read_json
from lib.outputs import commands_of, fault_of, json_of, stored_texts, value_of
from lib.program import EXAMPLES, Case


def renamed_texts(script, report):
    """A script of a client zone-on-hub under identifiers that commands don't take as they stand, and its report."""
    for host, own in (("hub", "hub.c0"), ("hub", "hub.#c[0]"), ("<hub>", "c0"), ("hub", "hub"), ("hub", "hub.")):
        renamed = report.replace("client zone-on-hub", f"client {own}")
        assert renamed != report
        yield script.replace('"hub"', f'"{host}"').replace('"zone-on-hub"', f'"{own}"'), renamed


def strict_cases():
    """With `--strict` the same is written, and the status says whether something in it is refused."""
    commands = ["plan"], ["plan", "--json"], ["run"], ["run", "--workers", "2"], ["run", "--json", "--workers", "2"]
    for number, (script, report) in enumerate(stored_texts()):
        words = [*commands[number % len(commands)], "--strict", "-"]
        is_json, status = "--json" in words, 6 if "\nrefused " in report else 0
        output = json_of(script, report) if is_json else report.encode()
        what = f"{' '.join(words)} of {' '.join(report.split()[:9])}"
        yield Case(what, words, script.encode(), output, b"", status, reader=read_json if is_json else None)
    yield Case("a fault of plan --strict", ["plan", "--strict", "-"], b"version =", b"", b"fault 1001 NotToml at -\n", 1)


def turn_cases():
    """`commands --turn` and `--last`: the first and the last turn, one whose window is refused, and numbers of no turn, also of a script without turns."""
    example = EXAMPLES / "two_clients.toml"
    table, report = tomllib.loads(example.read_text()), example.with_suffix(".report").read_text()
    for number in range(1, len(table["turn"]) + 1):
        output = commands_of(table, value_of(table, report), number).encode()
        yield Case(f"commands of turn {number}", ["commands", "--turn", f"{number}", "-"], example.read_bytes(), output, b"", 0)
    yield Case("commands of the last turn", ["commands", "--last", "-"], example.read_bytes(), output, b"", 0)
    yield Case("commands of the last turn where there is none", ["commands", "--last", "-"], b"version = 1\n", b"", b"", 0)
    yield Case("commands of two turns", ["commands", "--last", "--turn", "1", "-"], b"", b"", b"error: the argument '--last' cannot be used with '--turn <N>'\n", 2)
    for number, reason in ("0", "0 is not in 1..=500"), ("5", "the last turn of standard input is 4"), ("501", "501 is not in 1..=500"), ("one", "invalid digit found in string"):
        error = f"error: invalid value '{number}' for '--turn <N>': {reason}\n".encode()
        yield Case(f"commands of turn {number}", ["commands", f"--turn={number}", "-"], example.read_bytes(), b"", error, 2)
    error = b"error: invalid value '1' for '--turn <N>': standard input has no turns\n"
    yield Case("commands of a turn where there is none", ["commands", "--turn=1", "-"], b"version = 1\n", b"", error, 2)
    window = b"[[turn]]\nfrom = '2025-03-01T13:00:00.50+01:00'\nuntil = '2025-03-01T12:00:60Z'\n"
    output = b"# turn 1: valid from 2025-03-01T12:00:00.5Z until 2025-03-01T12:00:59Z\n"
    yield Case("commands of a window as others write it", ["commands", "-"], b"version = 1\n" + window, output, b"", 0)


def output_cases():
    """The runs of `plan --json` and of `commands`."""
    stored = stored_texts()
    smallest = EXAMPLES / "smallest.toml"
    stored += renamed_texts(smallest.read_text(), smallest.with_suffix(".report").read_text())
    for script, report in stored:
        table, given, what = tomllib.loads(script), script.encode(), " ".join(report.split()[:9])
        value = value_of(table, report)
        yield Case(f"JSON of {what}", ["plan", "--json", "-"], given, json_of(script, report), b"", 0, reader=read_json)
        yield Case(f"commands of {what}", ["commands", "-"], given, commands_of(table, value).encode(), b"", 0)
    yield Case("a fault of commands", ["commands", "-"], b"version =", b"", b"fault 1001 NotToml at -\n", 1)
    yield from fault_cases()


def fault_cases():
    """With --json a fault of a text stands on standard output, too, and nothing else; its words stay on standard error. Other failures are told there alone."""
    smallest, certificate = str(EXAMPLES / "smallest.toml"), str(EXAMPLES / "smallest.certificate")
    commands = ["plan", "-"], ["plan", "--strict", "-"], ["run", "--workers", "2", "-"], ["explain", "-"], ["explain", "--last", "-"], ["certify", "-", certificate], ["certify", smallest, "-"]
    for words in commands:
        for given, fault in (b"version =", "1001 NotToml at -"), (b"", "1002 MissingKey at version"), (b"# \xff", "1001 NotToml at -"), (b'"a\\"\\\\b" = 1', '1003 UnknownKey at a"\\b'):
            error = f"fault {fault}\n"
            yield Case(f"{words}, {fault} as JSON", [words[0], "--json", *words[1:]], given, f"{json.dumps(fault_of(error))}\n".encode(), error.encode(), 1)
            yield Case(f"{words}, {fault}", words, given, b"", error.encode(), 1)
    for words in ["plan", "--json", "no/such/file"], ["certify", "--json", smallest, "no/such/file"], ["follow", "--json", "no/such/file"]:
        yield Case(f"{words}", words, b"", b"", b"device\n", 4)
    for words in ["plan", "--json", "-"], ["certify", "--json", "-", certificate]:
        yield Case(f"{words} on a full device", words, b"version =", b"", b"device\n", 4, pathlib.Path("/dev/full"), named=(b"\nstandard output: No space left on device ",))
    yield Case("a turn of explain that isn't there", ["explain", "--json", "--turn", "9", smallest], b"", b"", b"error: invalid value '9' for '--turn <N>': the last turn of " + smallest.encode() + b" is 1\n", 2)


def jq_cases(program):
    """The JSON of the examples, by a program that the shell runs, as `jq` reads and writes it."""
    line = f'{" ".join(map(shlex.quote, program))} plan --json "$0" | jq -c .'
    for example in sorted(EXAMPLES.glob("*.toml")):
        value = json_of(example.read_text(), example.with_suffix(".report").read_text())
        value = json.dumps(value, separators=(",", ":"))
        yield Case(f"JSON of {example.name} by jq", ["sh", "-c", line, str(example)], b"", f"{value}\n".encode(), b"", 0)
