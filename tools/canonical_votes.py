"""The bytes that a validator signs when it votes for a block.

Source: CometBFT, `types/vote.go` (`VoteSignBytes`), `types/canonical.go` (`CanonicalizeVote`, `CanonicalizeBlockID`)
and `proto/tendermint/types/canonical.proto` (from 1.0 on `proto/cometbft/types/v1/canonical.proto`). They are a
protobuf message behind its length:

    CanonicalVote           1 type enum, 2 height sfixed64, 3 round sfixed64, 4 block_id, 5 timestamp, 6 chain_id string
    CanonicalBlockID        1 hash bytes, 2 part_set_header
    CanonicalPartSetHeader  1 total uint32, 2 hash bytes
    Timestamp               1 seconds int64, 2 nanos int32

Fields stand in the order of their numbers. As in proto3, a number that is 0 and an empty text are left out.
`timestamp` and `part_set_header` always stand, even empty. A vote for no block (nil) has no `block_id`."""
import typing

PREVOTE, PRECOMMIT = 1, 2
VARINT, FIXED64, BYTES = 0, 1, 2  # protobuf's wire types


class BlockId(typing.NamedTuple):
    """A block: its header's hash, and the number and the hash of the parts in which it is sent."""

    hash: bytes
    total: int
    parts_hash: bytes


class Time(typing.NamedTuple):
    """A moment: whole seconds from 1970 on (negative before it), and nanoseconds from 0 to 999,999,999."""

    seconds: int
    nanos: int


ZERO_TIME = Time(-62_135_596_800, 0)  # Go's zero time: the first moment of year 1


def varint(number: int) -> bytes:
    """A number as a varint; a negative one as its 64 bits in two's complement."""
    number &= 2**64 - 1
    encoded = bytearray()
    while number > 127:
        encoded.append(number & 127 | 128)
        number >>= 7
    encoded.append(number)
    return bytes(encoded)


def tag(field: int, wire_type: int) -> bytes:
    return varint(field << 3 | wire_type)


def varint_field(field: int, number: int) -> bytes:
    return tag(field, VARINT) + varint(number) if number else b""


def sfixed64_field(field: int, number: int) -> bytes:
    return tag(field, FIXED64) + number.to_bytes(8, "little", signed=True) if number else b""


def bytes_field(field: int, data: bytes) -> bytes:
    return message_field(field, data) if data else b""


def message_field(field: int, message: bytes) -> bytes:
    return tag(field, BYTES) + varint(len(message)) + message


def block_id_message(block_id: BlockId) -> bytes:
    parts = varint_field(1, block_id.total) + bytes_field(2, block_id.parts_hash)
    return bytes_field(1, block_id.hash) + message_field(2, parts)


def time_message(time: Time) -> bytes:
    return varint_field(1, time.seconds) + varint_field(2, time.nanos)


def sign_bytes(chain_id: str, height: int, round_number: int, block_id: BlockId | None, time: Time, vote_type: int = PRECOMMIT) -> bytes:
    """The bytes that are signed; `block_id` is a `BlockId`, or None for nil."""
    vote = (varint_field(1, vote_type) + sfixed64_field(2, height) + sfixed64_field(3, round_number)
            + (message_field(4, block_id_message(block_id)) if block_id else b"")
            + message_field(5, time_message(time)) + bytes_field(6, chain_id.encode()))
    return varint(len(vote)) + vote
