"""Scripts at the limits of the format, and one above each; texts with more tables, arrays and keys than a text may have; and small scripts of the slow kinds."""
import collections
import sys

from lib.judges import reference
from lib.program import EXAMPLES, ROWS, WORKERS, Case
from lib.slow_scripts import kinds, labels

# strings of each kind, with quotes, escapes and what would begin a comment, and 2,700,000 marks
MARKED_STRINGS = b"".join((
    rb'a = "\"#[.{\\"', b"\n", rb"b = '\#[.{'", b"\n", b'c = """""', rb'#"x\"""[.{' * 300_000, b'"""""\n',
    b"d = '''''", b"#'x''[.{\n" * 600_000, b"'''''\n", b"e = ['', \"\", '''''', \"\"\"\"\"\"]\n",
))


def large_cases():
    """Scripts at the limits, and one above each, which are too large to be kept."""
    newlines, goals = b"\n" * 16_777_216, b"0," * 200_001
    times = b'from = "1970-01-01T00:00:00Z"\nuntil = "1970-01-01T00:00:00Z"\n'
    head, chain, turn = b"version = 1\n", b"[[chain]]\nid = 'a'\n", b"[[turn]]\n" + times
    goal, later = head + turn + b"goal = [", head + turn + b"settle = []\n" + turn + b"goal = [0]\nevent = [0]\nsettle = ["
    seven_keys = b"".join(b"y%d = 0\n" % number for number in range(7))
    for what, script, fault in (
        ("16,777,216 bytes", newlines, "1002 MissingKey at version"),
        ("16,777,217 bytes", newlines + b"\n", "1030 InputTooBig at -"),
        ("200,001 goals", goal + goals + b"]\n", "1018 TooManyEvents at turn[0]"),
        ("200,000 goals", goal + goals[:-2] + b"]\n", "1004 WrongType at turn[0].goal[0]"),
        ("200,001 goals, and `taken` of another type", goal.replace(b"version = 1", b"version = 3").replace(b"goal = [", b"taken = 0\ngoal = [") + goals + b"]\n", "1004 WrongType at turn[0].taken"),
        ("200,001 entries of two turns", later + goals[:-4] + b"]\n", "1018 TooManyEvents at turn[1]"),
        ("64 chains", head + chain * 64, "1008 DuplicateIdentifier at chain[1].id"),
        ("65 chains", head + chain * 65, "1017 TooManyObjects at chain"),
        ("256 clients", head + b"client = [" + b"0," * 256 + b"]\n", "1004 WrongType at client[0]"),
        ("257 clients", head + b"client = [" + b"0," * 257 + b"]\n", "1017 TooManyObjects at client"),
        ("256 paths", head + b"path = [" + b"0," * 256 + b"]\n", "1004 WrongType at path[0]"),
        ("257 paths", head + b"path = [" + b"0," * 257 + b"]\n", "1017 TooManyObjects at path"),
        ("7,200,000 marks", b"x = [" + b"[]," * 899_998 + b"]\n" + seven_keys, "1003 UnknownKey at x"),
        ("7,200,001 marks", b"x = [" + b"[]," * 899_998 + b"]\n" + seven_keys + b"z = 0\n", "1034 TooManyTables at -"),
        ("900,000 arrays", b"x = [" + b"[]," * 899_999 + b"]\n", "1034 TooManyTables at -"),
        ("900,001 points of keys", b"[x" + b".a" * 900_000 + b"]\n", "1034 TooManyTables at -"),
        ("900,001 tables, no TOML", b"{" * 900_001, "1034 TooManyTables at -"),
        ("900,000 arrays behind strings", MARKED_STRINGS + b"x = [" + b"[]," * 899_999 + b"]\n", "1034 TooManyTables at -"),
        ("marks in strings and comments", MARKED_STRINGS + b"x = '" + b"[.{" * 300_000 + b"' #" + b"[.{" * 300_000 + b"\n", "1003 UnknownKey at a"),
        ("501 turns", head + turn * 501, "1017 TooManyObjects at turn"),
    ):
        yield Case(what, ["plan", "-"], script, b"", f"fault {fault}\n".encode(), 1)
    turns = b"".join(b"turn %d\n" % number for number in range(1, 501))
    yield Case("500 turns", ["plan", "-"], head + turn * 500, b"ibcplan 1\n" + turns + b"end\n", b"", 0)
    full_book = (ROWS / "full_book").read_bytes().replace(b"version = 1", b"version = 2")
    yield Case("1,025 records in version 2", ["plan", "-"], full_book, b"ibcplan 1\nturn 1\nend\n", b"", 0)
    last_header = full_book.splitlines(keepends=True)[-2].decode()
    for last, line in (4096, b""), (4097, b"refused event 4097 406 Full\n"):
        times = ((height, f"{height // 360:02}:{height // 6 % 60:02}:{height % 6}0") for height in range(1026, last + 1))
        more = "".join(last_header.replace("1025", str(height)).replace("02:50:50", time) for height, time in times)
        script = full_book.removesuffix(b"]\n") + more.encode() + b"]\n"
        yield Case(f"{last} records", ["plan", "-"], script, b"ibcplan 1\nturn 1\n" + line + b"end\n", b"", 0)


def marked_cases(top):
    """Texts that are no scripts, with more tables, arrays and keys than a text may have; and one with as many as it may."""
    text, most = (b"x = [" + b"[]," * count + b"]\n" for count in (899_999, 899_998))
    setup, folder, smallest = top / "marked.toml", str(EXAMPLES), str(EXAMPLES / "smallest.toml")
    setup.write_bytes(text)
    for what, words in (
        ("a setup of import", ["import", "-", folder]), ("a setup of want", ["want", "-", folder]), ("a setup of follow", ["follow", str(setup)]),
        ("a configuration of Hermes", ["setup", "--hermes", "-", "zone-1:07-tendermint-3:hub-4"]), ("a certificate", ["certify", smallest, "-"]),
    ):
        yield Case(f"{what} with 900,000 arrays", words, text, b"", b"fault 1034 TooManyTables at -\n", 1)
    yield Case("a setup of import with 899,999 arrays", ["import", "-", folder], most, b"", b"fault 1003 UnknownKey at x\n", 1)


def slow_cases():
    """Small scripts of the kinds that are slow at the limits (`tests/by_hand/limits slow`): `plan` and `run` write the reference planner's report."""
    for number, kind in enumerate(kinds()):
        text, lines = kind.in_small()
        report = reference.report(reference.read_script(text.encode()))
        found = collections.Counter(line.split()[0] for line in report.splitlines())
        if lines != {word: found[word] for word in lines}:
            sys.exit(f"tests/lib/slow_scripts.py: a small script of the kind {kind.name} has other lines: {found} and not {lines}")
        for words in ["plan", "-"], ["run", *WORKERS[1 + number % 3], "-"]:
            yield Case(f"small {kind.name}, {' '.join(words)}", words, text.encode(), report.encode(), b"", 0)
    script, _ = labels(8, 8, sets=1, turns=249)  # 256 clients, of whose chain 264 records were told: 202,752 units of space a turn
    yield Case("too many labels", ["plan", "-"], script.encode(), b"", b"fault 1032 TooMuchToPlan at turn[248]\n", 1)
