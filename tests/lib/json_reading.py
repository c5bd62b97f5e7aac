"""JSON that the program writes: every test that reads it holds it against schema/ibcplan.schema.json by `read_json`."""
import json

from lib.json_schema import Validator
from lib.program import TOP

SCHEMA = TOP / "schema" / "ibcplan.schema.json"
VALIDATOR = Validator(json.loads(SCHEMA.read_text()))


def read_json(text: str | bytes) -> object:
    """A value that the program wrote; a ValueError where the schema refuses it."""
    value = json.loads(text)
    flaw = VALIDATOR.check(value)
    if flaw is not None:
        print(f"== {SCHEMA.name} refuses {text[:200]!r}\n-- {flaw}")
        raise ValueError(flaw)
    return value
