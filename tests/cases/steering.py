"""Runs on files with control characters in each key and each text, one at a time: none of them comes to an output."""
import json
import re
import shutil

from lib import answers
from lib.answer_edits import CLEARED_FILE, COMMIT_FILE, PAGE_FILE, RECEIVED_FILE, SENT_FILE, STATE_FILE, STORED_FILE, VERDICTS, judged
from lib.importing import BOTH_NAMED, CHAIN_QUERIES, in_result, setups
from lib.program import EXAMPLES, ROWS, STEERING, SafeCase

ESCAPED = "".join(f"\\u{ord(c):04x}" for c in STEERING)
BARE = STEERING[-4:]  # what TOML takes as it is: none of C0
WORD = re.compile(r'"([^"\n]*)"|([A-Za-z_]+)(?=\]+\n| *=)')
ERRORS = {"error": {"code": -32603, "message": "Internal error", "data": "height 80 is not available"}}, {"error": "out of order"}, {"code": 5, "message": "not found", "details": []}


def steered_toml(text):
    """A text in TOML with control characters before a key, or before the text of a key, of each name the first: as escapes, as they are, and as
    TOML refuses them. At last with a key that is empty, and one of these characters alone."""
    found, key = {}, ""
    for word in WORD.finditer(re.sub("#.*", lambda rest: " " * len(rest[0]), text)):
        key = key if word[1] is not None else word[2]
        found.setdefault((key, word[1] is None), word)
    for word in found.values():
        for steering in (ESCAPED, BARE, STEERING):
            yield f'{text[:word.start()]}"{steering}{word[1] or word[2]}"{text[word.end():]}'
    for key in ("", ESCAPED):
        yield f'"{key}" = 1\n{text}'


def places_in(value, path=()):
    """The places of the members and texts of a value, of arrays those of the first element."""
    if isinstance(value, dict):
        for key, inner in value.items():
            yield (*path, key), True
            yield from places_in(inner, (*path, key))
    elif isinstance(value, list):
        yield from places_in(value[0], (*path, 0)) if value else ()
    else:
        yield path, False


def steered_json(value, path, is_key):
    """A value with control characters in the member or before the text at a place."""
    value = json.loads(json.dumps(value))
    holder = value
    for step in path[:-1]:
        holder = holder[step]
    if is_key:
        holder[STEERING + path[-1]] = holder.pop(path[-1])
    else:
        holder[path[-1]] = STEERING + str(holder[path[-1]])
    return value


def answer_cases(top):
    """`import` and `want` of answers, each with control characters in one place. The setup names a counterparty in half of them."""
    whole, setup_texts = top / "steering", [mend(setups(2)[1]) for mend in (str, BOTH_NAMED)]
    answers.make(whole, 1, between=0)
    judged((1, [1], [2], 4), (80, [], [], 6))(whole)
    for number, text in enumerate(setup_texts):
        (top / f"steering-{number}.toml").write_text(text)
    found = {file: json.loads((whole / file).read_text()) for file in (COMMIT_FILE, PAGE_FILE, STATE_FILE, STORED_FILE, SENT_FILE, RECEIVED_FILE, CLEARED_FILE, VERDICTS)}
    values = [(file, steered_json(value, *place)) for file, value in found.items() for place in places_in(value)]
    values += [(COMMIT_FILE, steered_json(value, *place)) for value in (*ERRORS, *map(in_result, CHAIN_QUERIES.values())) for place in places_in(value)]
    for number, (file, value) in enumerate(values):
        folder = top / "steered" / str(number)
        shutil.copytree(whole, folder)
        answers.write(folder / file, value)
        for command in "import", "want":
            words = [command, str(top / f"steering-{number % 2}.toml"), str(folder)]
            yield SafeCase(f"{command}, control characters {number} in {file}", words, b"", b"", b"", 0)


def text_cases(top):
    """The other commands on scripts, setups and certificates, each with control characters in one place."""
    smallest, setup = EXAMPLES / "smallest.toml", top / "steering-1.toml"
    certificate, judged_script = (EXAMPLES / "smallest.certificate").read_text(), top / "steered.toml"
    texts = [(["plan", "-"], script) for path in (EXAMPLES / "two_clients.toml", ROWS / "taken_with_a_held_client") for script in steered_toml(path.read_text())]
    texts += [(["plan", "--json", "-"], script) for script in steered_toml(smallest.read_text())]
    texts += [(["commands", "-"], script) for script in steered_toml(smallest.read_text())]
    texts += [(["import", "-", str(top / "steering")], text) for text in steered_toml(setup.read_text())]
    texts += [(["want", "-", str(top / "steering")], text) for text in steered_toml(setup.read_text())]
    texts += [(["certify", str(smallest), "-"], text) for text in steered_toml(certificate)]
    for number, (words, text) in enumerate(texts):
        yield SafeCase(f"{words[0]}, control characters {number}", words, text.encode(), b"", b"", 0)


def steering_cases(top):
    yield from answer_cases(top)
    yield from text_cases(top)
