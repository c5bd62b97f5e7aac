"""Scripts of which a few places are changed, each read as it stands, so that its events are read one at a time where it is plain, and behind a byte order mark, with
which no text is plain, so that the same program reads it whole: both tell the same."""
import pathlib
import random
import re
import subprocess

ROWS = pathlib.Path(__file__).resolve().parents[1] / "rows"
COUNT, LEAST = 200, 50  # how many scripts, and how many of them at least are planned, and have a fault
MARK = b"\xef\xbb\xbf"
WORD = re.compile(rb'"[^"\n]*"|[0-9A-Za-z_.:+-]+|[ \t]+|.', re.S)
# what stands between words, and what no script or no text has at some place
BETWEEN = [b" ", b"\t", b"\n", b"\r\n", b"\r", b"# [[turn]] {\n", b" # ]\n", b"\n\n", b",", b"."]
STRANGE = [b'""', b"''", b'"""\n]"""', b"'''[[turn]]'''", b'"\\u0065vent"', b'"event"', b"[]", b"{}", b"[{}]", b"{ a.b = 1 }", b"a.b = 1\n", b"[[turn]]\n", b"[turn]\n", b"[[turn]]",
           b"[ [ turn ] ]\n", b"[[ turn ]] # turn\n", b"[[chain]]\n", b"event = []\n", b"event = [\n", b"]\n", b"goal = []\n", b"taken = 1\n", b"true", b"-1", b"1e3", b"0x1F", b"nan",
           b"1_000", b"18446744073709551616", b"9223372036854775807", b"2026-11-01", b"2026-11-01T12:09:00Z", b"\x00", b"\xff", "é".encode(), b"=", b"[" * 90]


def with_words(chance: random.Random, text: bytes) -> bytes:
    """The text with a word left out, twice, in the place of another one, or with something beside it."""
    words = WORD.findall(text)
    place, other = chance.randrange(len(words)), chance.randrange(len(words))
    words[place] = chance.choice([b"", words[place] * 2, words[other], chance.choice(STRANGE), words[place] + chance.choice(BETWEEN), chance.choice(BETWEEN) + words[place]])
    return b"".join(words)


def with_values(chance: random.Random, text: bytes) -> bytes:
    """The text with a value in the place of another one of its kind, so that most of these texts are TOML."""
    words = WORD.findall(text)
    kinds = [[place for place, word in enumerate(words) if re.fullmatch(form, word)] for form in (rb'"[^"]*"', rb"[0-9]+")]
    kind = chance.choice([kind for kind in kinds if kind] or [[*range(len(words))]])
    words[chance.choice(kind)] = words[chance.choice(kind)]
    return b"".join(words)


def with_blanks(chance: random.Random, text: bytes) -> bytes:
    """The text with blanks and comments behind brackets, braces and commas, where most of them mean nothing."""
    return re.sub(rb"[\[\],{}] ", lambda found: found[0] + chance.choice([b"", b"", b"", b"\t", b"\n", b"# {\n"]), text)


def with_lines(chance: random.Random, text: bytes) -> bytes:
    """The text with a few lines left out, twice, or elsewhere."""
    lines = text.splitlines(keepends=True)
    first = chance.randrange(len(lines))
    last = min(len(lines), first + chance.choice([1, 1, 1, 2, 5]))
    moved, rest = lines[first:last], lines[:first] + lines[last:]
    place = chance.randint(0, len(rest))
    return b"".join(chance.choice([rest, lines[:last] + moved + lines[last:], rest[:place] + moved + rest[place:]]))


def told_of(program: list[str], text: bytes) -> tuple[bytes, list[bytes], int]:
    """What is told of a script: the report, the line of the fault, and the status."""
    done = subprocess.run([*program, "plan", "-"], input=text, capture_output=True, timeout=120)
    return done.stdout, done.stderr.splitlines()[:1], done.returncode


def plain_runs(program: list[str], _: pathlib.Path) -> tuple[int, int]:
    """How many changed scripts there are, and of how many not the same is told both ways."""
    rows = [path.read_bytes() for path in sorted(ROWS.iterdir()) if path.suffix == "" and 1_000 < path.stat().st_size < 20_000]
    wrong, statuses = 0, []
    for seed in range(COUNT):
        chance = random.Random(seed)
        text = chance.choice(rows)
        for _change in range(chance.choice([1, 1, 1, 2])):
            text = chance.choice([with_words, with_values, with_blanks, with_lines])(chance, text)
        one, other = told_of(program, text), told_of(program, MARK + text)
        statuses.append(one[2])
        if one != other:
            print(f"== a changed script, seed {seed}: {one!r}\n-- and read whole: {other!r}"[:4000])
            wrong += 1
    if min(statuses.count(0), statuses.count(1)) < LEAST or {*statuses} != {0, 1}:
        print(f"== changed scripts: {statuses.count(0)} are planned, {statuses.count(1)} have a fault, of {COUNT}")
        wrong += 1
    return COUNT, wrong
