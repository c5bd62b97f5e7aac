"""Objects of classes whose fields are annotated with readers, from tables of TOML or objects of JSON. A reader takes a value, or raises a `Misfit`."""
import dataclasses
import re
import typing
from collections.abc import Callable

Value = typing.TypeVar("Value")


class Misfit(ValueError):
    """What belongs at a place where something else is; the place is a path of keys."""

    def __init__(self, why: str, place: str = "") -> None:
        super().__init__(why)
        self.place = place


def checked(kind: type[Value], test: Callable[[Value], object], what: str) -> Callable[[object], Value]:
    """A reader of values of a type that pass a test."""
    def read(value: object) -> Value:
        if isinstance(value, kind) and type(value) is kind and test(value):
            return value
        raise Misfit(f"{what} belongs here")
    return read


def text(form: str) -> Callable[[object], str]:
    return checked(str, lambda value: re.fullmatch(form, value), f"a text of the form {form}")


def whole(least: int, most: int) -> Callable[[object], int]:
    return checked(int, lambda value: least <= value <= most, f"a whole number from {least} to {most}")


def number(least: float, most: float) -> Callable[[object], float]:
    read = checked(float, lambda value: least <= value <= most, f"a number from {least:g} to {most:g}")
    return lambda value: read(float(value) if type(value) is int and least <= value <= most else value)


flag = checked(bool, lambda value: True, "true or false")


def array(read: Callable[[object], Value], least: int = 0, most: int = 10**9) -> Callable[[object], tuple[Value, ...]]:
    """A reader of arrays by a reader of their items."""
    what = f"an array of {least} items{'' if least == most else ' or more'}" if least else "an array"
    whole_array = checked(list, lambda value: least <= len(value) <= most, what)
    return lambda value: tuple(read_at(f"[{place}]", read, item) for place, item in enumerate(whole_array(value)))


def mapping(read: Callable[[object], Value]) -> Callable[[object], dict[str, Value]]:
    """A reader of objects of any keys by a reader of their values."""
    table = checked(dict, lambda value: True, "a table")
    return lambda value: {key: read_at(key, read, item) for key, item in table(value).items()}


def record(kind: Callable[..., Value], **given: object) -> Callable[[object], Value]:
    """A reader of tables that become objects of a dataclass: of each field that is annotated with a reader, and with the key if that has another name. Fields with
    defaults may be left out, and no other key may be there."""
    made: typing.Any = kind
    fields = {hint.__metadata__[1] if hint.__metadata__[1:] else name: (name, hint.__metadata__[0])
              for name, hint in typing.get_type_hints(made, include_extras=True).items() if hasattr(hint, "__metadata__")}
    optional = {field.name for field in dataclasses.fields(made) if field.default is not dataclasses.MISSING}

    def read_all(value: object) -> Value:
        table = mapping(lambda item: item)(value)
        for key in table.keys() - fields.keys():
            raise Misfit("there is no such key", key)
        return kind(**given, **{name: read_at(key, read, table.get(key)) for key, (name, read) in fields.items() if key in table or name not in optional})
    return read_all


def read_at(place: str, read: Callable[[object], Value], value: object) -> Value:
    """What a reader takes at a place."""
    try:
        return read(value)
    except ValueError as error:
        inner = getattr(error, "place", "")
        raise Misfit(str(error), place + (f".{inner}" if inner and not inner.startswith("[") else inner)) from None
