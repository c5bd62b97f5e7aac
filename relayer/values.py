"""Fields of JSON that others wrote: a field of another type counts as none."""
import dataclasses
import datetime
import json
import re

TIME = re.compile(r"(\d{4}-\d\d-\d\dT\d\d:\d\d:\d\d)(?:\.(\d{1,9}))?Z", re.ASCII)
EPOCH = datetime.datetime(1970, 1, 1, tzinfo=datetime.timezone.utc)


@dataclasses.dataclass(frozen=True)
class Fields:
    """An object of JSON."""

    value: dict[str, object]

    def object(self, key: str) -> "Fields":
        found = self.value.get(key)
        return Fields(found if isinstance(found, dict) else {})

    def objects(self, key: str) -> list["Fields"]:
        found = self.value.get(key)
        return [Fields(item) for item in found if isinstance(item, dict)] if isinstance(found, list) else []

    def texts(self, key: str) -> list[str]:
        found = self.value.get(key)
        return [item for item in found if isinstance(item, str)] if isinstance(found, list) else []

    def text(self, key: str) -> str:
        """A text, empty where there is none."""
        found = self.value.get(key)
        return found if isinstance(found, str) else ""

    def number(self, key: str) -> int | None:
        """A number from 0 on, or a text of its digits."""
        found = self.value.get(key)
        if isinstance(found, str) and re.fullmatch(r"[0-9]{1,19}", found, re.ASCII):
            found = int(found)
        return found if isinstance(found, int) and not isinstance(found, bool) and 0 <= found < 2**63 else None


def fields_in(body: bytes) -> Fields:
    """The object of an answer; an empty one where there is none."""
    try:
        return unwrapped(json.loads(body))
    except (ValueError, RecursionError):
        return Fields({})


def unwrapped(value: object) -> Fields:
    """An object without the envelope of CometBFT."""
    found = Fields(value if isinstance(value, dict) else {})
    return found.object("result") if isinstance(found.value.get("result"), dict) else found


def is_tendermint(state: Fields) -> bool:
    """Whether a client's state is a Tendermint client's."""
    return state.text("@type").endswith("tendermint.v1.ClientState")


def seconds_of(period: str) -> int:
    """The seconds of a period as gateways write it; 0 where it can't be read."""
    return int(period[:-1]) if re.fullmatch(r"[0-9]{1,12}s", period, re.ASCII) else 0


def nanoseconds(stamp: str) -> int | None:
    """The nanoseconds since 1970 of a time as chains write it, of one that scripts can have."""
    if (match := TIME.fullmatch(stamp)) is None:
        return None
    try:
        moment = datetime.datetime.fromisoformat(f"{match[1]}+00:00") - EPOCH
    except ValueError:
        return None
    nanos = moment // datetime.timedelta(seconds=1) * 10**9 + int((match[2] or "").ljust(9, "0"))
    return nanos if 0 <= nanos < 10**20 else None


def stamp_of(nanos: int) -> str:
    """The time of so many nanoseconds since 1970."""
    moment = EPOCH + datetime.timedelta(seconds=nanos // 10**9)
    rest = f".{nanos % 10**9:09}".rstrip("0") if nanos % 10**9 else ""
    return f"{moment:%Y-%m-%dT%H:%M:%S}{rest}Z"
