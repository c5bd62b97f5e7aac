"""Reads the commits and the validator sets of a chain from answers of CometBFT's `/commit` and `/validators`.

An answer may have the JSON-RPC envelope or none. A `Flaw` tells what can't be read, and names the field."""
import base64
import binascii
import dataclasses
import hashlib
import json
import re
import typing
from collections.abc import Iterator
from datetime import datetime, timedelta, timezone

from canonical_votes import BlockId, Time, bytes_field, message_field, varint_field

LARGEST = 16_777_216  # bytes of an answer, as `ibcplan import` reads it
ABSENT, COMMIT, NIL = 1, 2, 3  # CometBFT's block_id_flag
ED25519, SECP256K1, BLS12_381 = "ed25519", "secp256k1", "bls12_381"
KEY_TYPES = {"tendermint/PubKeyEd25519": ED25519, "tendermint/PubKeySecp256k1": SECP256K1, "cometbft/PubKeyBls12_381": BLS12_381}
KEY_FIELDS = {ED25519: 1, SECP256K1: 2, BLS12_381: 3}  # of PublicKey in CometBFT's crypto/keys.proto
# the types of keys of which a set's hash can be made: addresses of secp256k1 keys need RIPEMD-160, which not every OpenSSL has
KNOWN_TYPES = KEY_FIELDS.keys() - (set() if "ripemd160" in hashlib.algorithms_available else {SECP256K1})
EPOCH = datetime(1970, 1, 1, tzinfo=timezone.utc)
TIME = re.compile(r"(\d{4}-\d\d-\d\d)[Tt](\d\d:\d\d:\d\d)(?:\.(\d{1,9}))?(?:[Zz]|([+-])(\d\d):(\d\d))", re.ASCII)


class Flaw(Exception):
    """Why an answer can't be used; the text names the field."""


@dataclasses.dataclass(frozen=True)
class Vote:
    """A validator's part in a commit; its time and signature are none where the answer has none that can be read."""

    flag: int
    address: bytes | None
    time: Time | None
    signature: bytes | None


@dataclasses.dataclass(frozen=True)
class Commit:
    """The votes for a block, in set order, and the hash of the set that its header names."""

    chain_id: str
    height: int
    round_number: int
    block_id: BlockId
    set_hash: bytes
    votes: tuple[Vote, ...]


@dataclasses.dataclass(frozen=True)
class Validator:
    """A validator: the type of its key (one of `KEY_FIELDS`, or else the answer's name for it), the key and its power."""

    key_type: str
    key: bytes
    power: int

    def address(self) -> bytes:
        """CometBFT's `Address` of the key: 20 bytes of SHA-256, for secp256k1 RIPEMD-160 of SHA-256."""
        digest = hashlib.sha256(self.key).digest()
        return hashlib.new("ripemd160", digest).digest() if self.key_type == SECP256K1 else digest[:20]

    def leaf(self) -> bytes:
        """The bytes that the set's hash is made of (CometBFT's `SimpleValidator`)."""
        return message_field(1, message_field(KEY_FIELDS[self.key_type], self.key)) + varint_field(2, self.power)


@dataclasses.dataclass(frozen=True)
class Page:
    """Validators of a height, and how many there are on all its pages."""

    height: int
    total: int
    validators: tuple[Validator, ...]


Sets = dict[bytes, list[Validator]]  # by their hash, each in set order


# ---- fields of JSON


class Fields:
    """An object of an answer, and the path to it."""

    def __init__(self, value: object, path: str = "") -> None:
        if not isinstance(value, dict):
            raise Flaw(f"{path or 'the answer'} is no object")
        self.value, self.path = value, path

    def name(self, key: str) -> str:
        return f"{self.path}.{key}" if self.path else key

    def flaw(self, key: str, why: str) -> Flaw:
        return Flaw(f"{self.name(key)} {why}")

    def __contains__(self, key: str) -> bool:
        return key in self.value

    def of_type(self, key: str, kind: type | tuple[type, ...], noun: str) -> typing.Any:
        value = self.value.get(key)
        if value is None:
            raise self.flaw(key, "isn't there")
        if not isinstance(value, kind) or isinstance(value, bool):
            raise self.flaw(key, f"is no {noun}")
        return value

    def text(self, key: str) -> str:
        return self.of_type(key, str, "text")

    def object(self, key: str) -> "Fields":
        return Fields(self.of_type(key, dict, "object"), self.name(key))

    def objects(self, key: str) -> list["Fields"]:
        items = self.of_type(key, list, "array")
        return [Fields(item, f"{self.name(key)}[{index}]") for index, item in enumerate(items)]

    def number(self, key: str, least: int, most: int) -> int:
        """A number, or a text of its digits, as nodes write those that may have 64 bits."""
        value = self.of_type(key, (int, str), "number")
        digits = str(value)
        if not re.fullmatch(r"[0-9]{1,19}", digits) or not least <= int(digits) <= most:
            raise self.flaw(key, f"is no number from {least} to {most}")
        return int(digits)

    def hash(self, key: str) -> bytes:
        text = self.text(key)
        if not re.fullmatch(r"[0-9A-Fa-f]{64}", text):
            raise self.flaw(key, "is no hash of 32 bytes in hexadecimal")
        return bytes.fromhex(text)

    def base64(self, key: str) -> bytes:
        data = bytes_of_base64(self.text(key))
        if data is None:
            raise self.flaw(key, "is no base64")
        return data


def bytes_of_base64(text: object) -> bytes | None:
    """The bytes of a text in base64, or none."""
    try:
        return base64.b64decode(text, validate=True) if isinstance(text, str) else None
    except (binascii.Error, ValueError):
        return None


def bytes_of_hex(text: object) -> bytes | None:
    """The bytes of a text in hexadecimal, or none."""
    is_hex = isinstance(text, str) and len(text) % 2 == 0 and re.fullmatch(r"[0-9A-Fa-f]+", text)
    return bytes.fromhex(text) if is_hex else None


def time_of(text: object) -> Time | None:
    """The moment of a text of RFC 3339 with up to nine digits of a fraction, or none."""
    match = TIME.fullmatch(text) if isinstance(text, str) else None
    if match is None:
        return None
    day, clock, fraction, sign, hours, minutes = match.groups()
    try:
        moment = datetime.fromisoformat(f"{day}T{clock}+00:00")
        ahead = timedelta(hours=int(hours or 0), minutes=int(minutes or 0))
    except ValueError:
        return None
    since = moment - EPOCH + (ahead if sign == "-" else -ahead)
    return Time(since.days * 86_400 + since.seconds, int((fraction or "").ljust(9, "0")))


# ---- answers


def parse(data: bytes) -> Fields | None:
    """The object that an answer's bytes hold, without the JSON-RPC envelope; none where they hold something else."""
    if len(data) > LARGEST:
        raise Flaw(f"it has more than {LARGEST:,} bytes")
    try:
        value = json.loads(data.decode())
    except (ValueError, RecursionError):
        raise Flaw("it is no JSON in UTF-8") from None
    if not isinstance(value, dict):
        return None
    return Fields(value["result"]) if isinstance(value.get("result"), dict) else Fields(value)


def read_commit(answer: Fields) -> Commit:
    """The commit of an answer of `/commit`."""
    signed = answer.object("signed_header")
    header, commit = signed.object("header"), signed.object("commit")
    height = commit.number("height", 1, 2**63 - 1)
    if header.number("height", 1, 2**63 - 1) != height:
        raise commit.flaw("height", "isn't the header's")
    if not header.text("chain_id").isascii():
        raise header.flaw("chain_id", "isn't ASCII")
    votes = tuple(read_vote(entry) for entry in commit.objects("signatures"))
    return Commit(header.text("chain_id"), height, commit.number("round", 0, 2**31 - 1), read_block_id(commit.object("block_id")),
                  header.hash("validators_hash"), votes)


def read_block_id(block_id: Fields) -> BlockId:
    parts = block_id.object("parts")
    return BlockId(block_id.hash("hash"), parts.number("total", 1, 2**32 - 1), parts.hash("hash"))


def read_vote(entry: Fields) -> Vote:
    flag = entry.number("block_id_flag", 1, 3)
    value = entry.value
    return Vote(flag, bytes_of_hex(value.get("validator_address")), time_of(value.get("timestamp")), bytes_of_base64(value.get("signature")))


def read_page(answer: Fields) -> Page:
    """The page of an answer of `/validators`."""
    validators = tuple(read_validator(entry) for entry in answer.objects("validators"))
    return Page(answer.number("block_height", 1, 2**63 - 1), answer.number("total", 1, 2**63 - 1), validators)


def read_validator(entry: Fields) -> Validator:
    public = entry.object("pub_key")
    name = public.text("type")
    return Validator(KEY_TYPES.get(name, name), public.base64("value"), entry.number("voting_power", 1, 2**60 - 1))


# ---- sets


def tree_hash(leaves: list[bytes]) -> bytes:
    """The hash of a Merkle tree (RFC 6962, section 2.1) of one leaf or more, as CometBFT makes it."""
    if len(leaves) == 1:
        return hashlib.sha256(b"\0" + leaves[0]).digest()
    left = 1 << (len(leaves) - 1).bit_length() - 1  # the largest power of two below their number
    return hashlib.sha256(b"\1" + tree_hash(leaves[:left]) + tree_hash(leaves[left:])).digest()


def in_set_order(validators: set[Validator]) -> list[Validator]:
    """The validators by falling power, then by rising address (CometBFT's `ValidatorSet`)."""
    return sorted(validators, key=lambda validator: (-validator.power, validator.address()))


def whole_sets(pages: list[Page]) -> Iterator[set[Validator]]:
    """The validators of each height of which all pages are there."""
    by_height: dict[int, list[Page]] = {}
    for page in pages:
        by_height.setdefault(page.height, []).append(page)
    for of_height in by_height.values():
        validators = {validator for page in of_height for validator in page.validators}
        if all(page.total == len(validators) for page in of_height):
            yield validators


def sets_by_hash(pages: list[Page]) -> Sets:
    """The sets that are whole. It leaves out a set that has no hash here: one of its keys is of another type than `KNOWN_TYPES`."""
    known = (in_set_order(validators) for validators in whole_sets(pages) if all(validator.key_type in KNOWN_TYPES for validator in validators))
    return {tree_hash([validator.leaf() for validator in validators]): validators for validators in known}


def unknown_key_types(pages: list[Page]) -> list[str]:
    """The types of keys, as the answers call them, of which a set's hash can't be made."""
    return sorted({validator.key_type for page in pages for validator in page.validators} - KNOWN_TYPES)
