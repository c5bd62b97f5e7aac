"""A validator of JSON Schema (draft 2020-12) for the keywords that the schema of this project has. Any other keyword is refused.

A schema is made into a function that gives the first flaw of a value as text, or none."""
import itertools
import re
from collections.abc import Callable, Iterable, Iterator

Check = Callable[[object], str | None]
Part = dict[str, object]  # a schema, or a part of one

TYPES: dict[str, Callable[[object], bool]] = {
    "null": lambda value: value is None,
    "boolean": lambda value: isinstance(value, bool),
    "integer": lambda value: isinstance(value, int) and not isinstance(value, bool) or isinstance(value, float) and value.is_integer(),
    "string": lambda value: isinstance(value, str),
    "array": lambda value: isinstance(value, list),
    "object": lambda value: isinstance(value, dict),
}
NOTES = {"$schema", "$id", "$defs", "title", "description"}  # keywords that ask nothing of a value


class BadSchema(Exception):
    """A schema that this validator doesn't read."""


def shown(value: object) -> str:
    text = repr(value)
    return text if len(text) <= 80 else f"{text[:77]}..."


def first(flaws: Iterable[str | None]) -> str | None:
    return next((flaw for flaw in flaws if flaw is not None), None)


def equal(one: object, other: object) -> bool:
    """Whether two values are one in JSON, where true isn't 1."""
    return isinstance(one, bool) == isinstance(other, bool) and one == other


class Validator:
    """Checks values against a schema or one of its definitions."""

    def __init__(self, schema: Part) -> None:
        self.definitions = part_of(schema.get("$defs", {}))
        self.checks: dict[str, Check] = {}
        self.check = self.compiled(schema)
        for name in self.definitions:
            self.definition(name)

    def definition(self, name: str) -> Check:
        """The check of a definition; definitions may name one another."""
        if name not in self.definitions:
            raise BadSchema(f"no definition {name}")
        if name not in self.checks:
            self.checks[name] = lambda value: self.checks[name](value)
            self.checks[name] = self.compiled(self.definitions[name])
        return self.checks[name]

    def compiled(self, schema: object) -> Check:
        part = part_of(schema)
        unknown = part.keys() - NOTES - KEYWORDS.keys()
        if unknown:
            raise BadSchema(f"keywords {sorted(unknown)}")
        if "additionalProperties" in part and "properties" not in part:
            raise BadSchema("additionalProperties without properties")
        checks = [keyword(self, part[name], part) for name, keyword in KEYWORDS.items() if name in part]
        return lambda value: first(check(value) for check in checks)


def part_of(schema: object) -> Part:
    if not isinstance(schema, dict):
        raise BadSchema(f"no object: {shown(schema)}")
    return schema


def list_of(value: object) -> list[object]:
    if not isinstance(value, list):
        raise BadSchema(f"no array: {shown(value)}")
    return value


def number_of(value: object) -> int:
    if not isinstance(value, int) or isinstance(value, bool):
        raise BadSchema(f"no whole number: {shown(value)}")
    return value


# ---- keywords: each makes a check of its value; the check passes what the keyword says nothing about


def by_type(_: Validator, wanted: object, __: Part) -> Check:
    if not isinstance(wanted, str) or wanted not in TYPES:
        raise BadSchema(f"type {shown(wanted)}")
    is_one = TYPES[wanted]
    return lambda value: None if is_one(value) else f"no {wanted}: {shown(value)}"


def by_enum(_: Validator, wanted: object, __: Part) -> Check:
    values = list_of(wanted)
    return lambda value: None if any(equal(value, one) for one in values) else f"none of {shown(values)}: {shown(value)}"


def by_const(_: Validator, wanted: object, __: Part) -> Check:
    return lambda value: None if equal(value, wanted) else f"not {shown(wanted)}: {shown(value)}"


def is_number(value: object) -> bool:
    return isinstance(value, (int, float)) and not isinstance(value, bool)


def by_minimum(_: Validator, wanted: object, __: Part) -> Check:
    least = number_of(wanted)
    return lambda value: f"below {least}: {value}" if is_number(value) and value < least else None  # type: ignore[operator]


def by_maximum(_: Validator, wanted: object, __: Part) -> Check:
    most = number_of(wanted)
    return lambda value: f"above {most}: {value}" if is_number(value) and value > most else None  # type: ignore[operator]


def by_pattern(_: Validator, wanted: object, __: Part) -> Check:
    if not isinstance(wanted, str) or not (wanted.startswith("^") and wanted.endswith("$")) or wanted.endswith("\\$"):
        raise BadSchema(f"a pattern that isn't of the whole text: {shown(wanted)}")
    pattern = re.compile(wanted[:-1] + r"\Z")  # where Python's `$` also comes before a last line feed
    return lambda value: f"not of the form {wanted}: {shown(value)}" if isinstance(value, str) and not pattern.search(value) else None


def by_fewest(_: Validator, wanted: object, __: Part) -> Check:
    least = number_of(wanted)
    return lambda value: f"fewer than {least} elements" if isinstance(value, list) and len(value) < least else None


def by_most(_: Validator, wanted: object, __: Part) -> Check:
    most = number_of(wanted)
    return lambda value: f"more than {most} elements" if isinstance(value, list) and len(value) > most else None


def by_required(_: Validator, wanted: object, __: Part) -> Check:
    keys = list_of(wanted)
    return lambda value: first(f"no key {key}" for key in keys if key not in value) if isinstance(value, dict) else None


def by_dependents(_: Validator, wanted: object, __: Part) -> Check:
    pairs = [(key, other) for key, others in part_of(wanted).items() for other in list_of(others)]
    return lambda value: first(f"{key} without {other}" for key, other in pairs if key in value and other not in value) if isinstance(value, dict) else None


def by_additional(_: Validator, wanted: object, schema: Part) -> Check:
    if wanted is not False:
        raise BadSchema(f"additionalProperties {shown(wanted)}")
    keys = part_of(schema["properties"]).keys()
    return lambda value: first(f"a key {shown(key)}" for key in value if key not in keys) if isinstance(value, dict) else None


def by_properties(validator: Validator, wanted: object, _: Part) -> Check:
    checks = {key: validator.compiled(schema) for key, schema in part_of(wanted).items()}

    def flaws(value: dict[str, object]) -> Iterator[str]:
        for key, part in value.items():
            if key in checks and (flaw := checks[key](part)) is not None:
                yield f"{key}: {flaw}"

    return lambda value: first(flaws(value)) if isinstance(value, dict) else None


def by_items(validator: Validator, wanted: object, _: Part) -> Check:
    check = validator.compiled(wanted)

    def flaws(value: list[object]) -> Iterator[str]:
        for place, part in enumerate(value):
            if (flaw := check(part)) is not None:
                yield f"{place}: {flaw}"

    return lambda value: first(flaws(value)) if isinstance(value, list) else None


def by_reference(validator: Validator, wanted: object, _: Part) -> Check:
    begin = "#/$defs/"
    if not isinstance(wanted, str) or not wanted.startswith(begin):
        raise BadSchema(f"$ref {shown(wanted)}")
    name = wanted.removeprefix(begin)
    validator.definition(name)
    return lambda value: validator.checks[name](value)


def by_one_of(validator: Validator, wanted: object, _: Part) -> Check:
    checks = [validator.compiled(schema) for schema in list_of(wanted)]

    def check(value: object) -> str | None:
        flaws = [check(value) for check in checks]
        fitting = sum(flaw is None for flaw in flaws)
        return None if fitting == 1 else f"{fitting} of {len(flaws)} fit ({'; '.join(itertools.islice(filter(None, flaws), 4))})"

    return check


def by_not(validator: Validator, wanted: object, _: Part) -> Check:
    check = validator.compiled(wanted)
    return lambda value: f"as it must not be: {shown(value)}" if check(value) is None else None


# in the order in which they are tried: what is cheap first
KEYWORDS: dict[str, Callable[[Validator, object, Part], Check]] = {
    "type": by_type, "const": by_const, "enum": by_enum, "minimum": by_minimum, "maximum": by_maximum, "pattern": by_pattern, "minItems": by_fewest,
    "maxItems": by_most, "required": by_required, "additionalProperties": by_additional, "dependentRequired": by_dependents, "not": by_not,
    "properties": by_properties, "items": by_items, "$ref": by_reference, "oneOf": by_one_of,
}
