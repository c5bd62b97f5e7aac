"""What the program writes as JSON, held against schema/ibcplan.schema.json; and values with one flaw each, which the schema has to refuse."""
import json
import pathlib
import random
import subprocess
import tomllib
from collections.abc import Callable, Iterator

from lib.following import ended, parts_of
from lib.json_reading import VALIDATOR
from lib.json_schema import BadSchema, Validator
from lib.program import CERTIFICATES, EXAMPLES, ROWS

MUTATED = 1000
LARGE = 20_000  # bytes of a value that isn't changed, since that would take long

Words = list[str]
Value = dict[str, object]
Place = tuple[str | int, ...]


# ---- the validator itself

# a schema, values that it takes, and values that it refuses
SMALL: list[tuple[Value, list[object], list[object]]] = [
    ({"type": "integer", "minimum": 1, "maximum": 3}, [1, 3, 2.0], [0, 4, 1.5, True, "1", None]),
    ({"type": "boolean"}, [True, False], [0, "true", None]),
    ({"type": "null"}, [None], [0, False, "", []]),
    ({"type": "string", "pattern": "^a|b+$"}, ["a", "bb", "ax", "a\n"], ["", "c", "b\n", 1]),
    ({"enum": [1, "a"]}, [1, "a"], [True, 2, "b"]),
    ({"const": "a"}, ["a"], ["b", 1]),
    ({"type": "array", "minItems": 1, "maxItems": 2, "items": {"type": "null"}}, [[None], [None, None]], [[], [None] * 3, [1], {}]),
    ({"type": "object", "required": ["a"], "properties": {"a": {"const": 1}}, "additionalProperties": False}, [{"a": 1}], [{}, {"a": 2}, {"a": 1, "b": 1}, []]),
    ({"dependentRequired": {"a": ["b"]}}, [{}, {"b": 1}, {"a": 1, "b": 1}, 5], [{"a": 1}]),
    ({"not": {"required": ["a", "b"]}}, [{}, {"a": 1}, {"b": 1}], [{"a": 1, "b": 1}, 5]),
    ({"oneOf": [{"type": "integer"}, {"minimum": 3}]}, [1, "a"], [3, 2.5]),
    ({"$ref": "#/$defs/list", "$defs": {"list": {"oneOf": [{"type": "null"}, {"type": "object", "required": ["next"], "properties": {"next": {"$ref": "#/$defs/list"}}}]}}},
     [None, {"next": None}, {"next": {"next": None}}], [{}, {"next": 1}, {"next": {"next": 1}}]),
]
# schemas that the validator doesn't read
UNREAD: list[Value] = [
    {"format": "date-time"}, {"$defs": {"unused": {"minLength": 1}}}, {"items": {"anyOf": []}}, {"properties": {"a": {"patternProperties": {}}}}, {"type": ["null", "integer"]},
    {"type": "number"}, {"pattern": "a"}, {"pattern": "^a\\$"}, {"additionalProperties": False}, {"additionalProperties": {}, "properties": {}}, {"$ref": "#/$defs/missing"}, {"$ref": "other.json"},
    {"items": True}, {"minimum": "1"}, {"required": "a"},
]


def is_read(schema: Value) -> bool:
    try:
        Validator(schema)
    except BadSchema:
        return False
    return True


def validator_runs() -> tuple[int, int]:
    """The validator takes and refuses what it has to: how many values and schemas, and how many went wrong."""
    verdicts = [(schema, value, fits) for schema, good, bad in SMALL for values, fits in ((good, True), (bad, False)) for value in values]
    amiss = [(schema, value) for schema, value, fits in verdicts if (Validator(schema).check(value) is None) != fits]
    read = [schema for schema in UNREAD if is_read(schema)]
    for schema, value in amiss:
        print(f"== the validator is wrong about {value!r} by {schema!r}")
    for schema in read:
        print(f"== the validator reads {schema!r}")
    return len(verdicts) + len(UNREAD), len(amiss) + len(read)


# ---- values with a flaw

OUTCOMES = ["held", "idle", "unreachable", "plan"]
ALONE = {"next", "turn", "too_big", "vote", "with_height", "windows_back", "left_out", "beyond", "refresh", "stays"}  # an object that lacks one of these may be another good one
FROM_ONE = {"turn", "height", "trusted", "at_least", "exactly", "sequence", "proof", "batch", "proved_from"}
NAMES = {"id", "client", "chain"}
WORDS = {"kind", "name", "answer", "reason", "stays"}
TIMES = {"expires", "next"}
OTHER_TYPES: dict[type, Callable[[object], list[object]]] = {
    bool: lambda part: [str(part).lower(), 1, None],
    int: lambda part: [str(part), [part], True, -1, 2**67, "" if part is None else 0.5],
    str: lambda part: [7, [part], None, {"text": part}],
    list: lambda part: [{}, None, "", 3],
    dict: lambda part: [[], "", 3, [part]],
    type(None): lambda part: ["null", 0.5, False, []],
}


def parts(value: object, place: Place = ()) -> Iterator[tuple[Place, object]]:
    """All parts of a value with their places, of arrays the first elements."""
    yield place, value
    inner = value.items() if isinstance(value, dict) else enumerate(value[:4]) if isinstance(value, list) else ()
    for key, part in inner:
        yield from parts(part, (*place, key))


def replaced(value: object, place: Place, other: object) -> object:
    """A value with another part at a place."""
    if not place:
        return other
    key, rest = place[0], place[1:]
    if isinstance(value, dict):
        return {name: replaced(part, rest, other) if name == key else part for name, part in value.items()}
    assert isinstance(value, list)
    return [replaced(part, rest, other) if number == key else part for number, part in enumerate(value)]


def other_objects(part: Value) -> Iterator[object]:
    """An object with a key more, less, or under another name."""
    yield part | {"more": 1}
    for key in part:
        yield {f"{name}_" if name == key else name: one for name, one in part.items()}
        if key not in ALONE:
            yield {name: one for name, one in part.items() if name != key}
    if "batch" in part and "transactions" in part:
        yield part | {"too_big": 0}
    if len(part) == 1 and part.keys() < {"at_least", "exactly"}:
        yield {"at_least": 1, "exactly": 1}


def other_texts(key: str | int, part: str) -> Iterator[object]:
    yield from ("", f"{part}\n")
    if key == "outcome":
        yield from (outcome for outcome in OUTCOMES if outcome != part)
    if key in NAMES:
        yield from ("a b", "a" * 65, "\u00e9")
    if key in WORDS or key == "outcome":
        yield from (f"{part}s", part.swapcase())
    if key in TIMES:
        yield from (part.removesuffix("Z"), part.replace("T", " "), part.replace("Z", "+00:00"), part.replace("Z", ".0Z"))
    if isinstance(key, int) and len(part) == 40:  # the address of a vote
        yield from (part[1:], f"{part}0", f"g{part[1:]}")
    elif isinstance(key, int):  # a host
        yield from ("a b", "a" * 65, "\u00e9")


def others(place: Place, part: object) -> Iterator[object]:
    """What must not stand at a place instead of its part."""
    key = place[-1] if place else ""
    yield from OTHER_TYPES[type(part)](part)
    if isinstance(part, dict):
        yield from other_objects(part)
    elif isinstance(part, list) and key == "charges":
        yield from (part[1:], [*part, 1])
    elif isinstance(part, str):
        yield from other_texts(key, part)
    elif isinstance(part, int) and key == "ibcplan":
        yield from (0, 2, 5)
    elif isinstance(part, int) and key in FROM_ONE:
        yield from (0, 2**63)


def mutants(values: list[tuple[str, str, Value]], count: int) -> Iterator[tuple[str, str, object]]:
    """So many different values with a flaw: what each is, of which kind, and the value."""
    chance, made, kinds = random.Random(1), set[str](), sorted({kind for _, kind, _ in values})
    while len(made) < count:
        kind = chance.choice(kinds)
        name, _, value = chance.choice([one for one in values if one[1] == kind])
        place, part = chance.choice(list(parts(value)))
        other = chance.choice(list(others(place, part)))
        what = f"{kind} of {name}, {other!r:.200} at {'.'.join(map(str, place))} in place of {part!r:.200}"
        if what not in made:
            made.add(what)
            yield what, kind, replaced(value, place, other)


# ---- runs


def written(program: Words, words: Words, given: bytes) -> bytes:
    return subprocess.run([*program, *words], input=given, stdout=subprocess.PIPE, stderr=subprocess.PIPE, timeout=120).stdout


def scripts() -> Iterator[tuple[str, bytes]]:
    """The rows and the examples that are scripts."""
    for row in sorted(ROWS.iterdir()):
        if row.suffix == "" and not row.with_name(f"{row.name}.args").exists():
            yield row.name, row.read_bytes()
    for example in sorted(EXAMPLES.glob("*.toml")):
        yield example.stem, example.read_bytes()


def answers_to(program: Words, script: bytes, setup: pathlib.Path) -> list[bytes]:
    """What `follow --json` answers to the turns of a script, where it can be told so."""
    try:
        first, documents = parts_of(script.decode())
    except (ValueError, tomllib.TOMLDecodeError):
        return []
    setup.write_bytes(first)
    return written(program, ["follow", "--json", str(setup)], ended([*documents, b"", b"x =", b"turn = %d\n" % (len(documents) + 1), b"turn = 0\n"])).splitlines()


def values_of(program: Words, setup: pathlib.Path) -> Iterator[tuple[str, str, bytes]]:
    """What the program writes as JSON of the rows and the examples: a name, the kind, and the text."""
    for name, script in scripts():
        for kind, command in ("report", "plan"), ("explanation", "explain"):
            text = written(program, [command, "--json", "-"], script)
            yield name, "fault" if text.startswith(b'{"fault"') else kind, text
        for number, line in enumerate(answers_to(program, script, setup)):
            first = "fault" if line.startswith(b'{"fault"') else "greeting"
            yield f"{name} {number}", "answer" if number else first, line
    for row in sorted(CERTIFICATES.glob("*.args")):
        words = ["certify", "--json", str(ROWS / row.read_text().split()[1]), "-"]
        text = written(program, words, row.with_suffix("").read_bytes())
        yield row.stem, "fault" if text.startswith(b'{"fault"') else "verdict", text


def schema_runs(program: Words, folder: pathlib.Path) -> tuple[int, int]:
    """How many values there were, and how many the schema judges wrongly."""
    runs, wrong = validator_runs()
    small, counts = [], dict.fromkeys(("report", "explanation", "greeting", "answer", "fault", "verdict"), 0)
    for name, kind, text in values_of(program, folder / "setup.toml"):
        value, runs = json.loads(text), runs + 1
        counts[kind] += 1
        flaw = VALIDATOR.check(value) or VALIDATOR.checks[kind](value)
        if flaw is not None:
            print(f"== the schema refuses the {kind} of {name}\n-- {flaw}")
            wrong += 1
        if len(text) < LARGE:
            small.append((name, "fault" if "fault" in value else kind, value))
    if min(counts.values()) < 20:
        print(f"== too little was written as JSON: {counts}")
        wrong += 1
    for what, kind, value in mutants(small, MUTATED) if small else ():
        runs += 1
        if VALIDATOR.checks[kind](value) is None:
            print(f"== the schema takes a {what}")
            wrong += 1
    return runs, wrong
