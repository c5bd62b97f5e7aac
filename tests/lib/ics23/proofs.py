"""What a proof of ICS 23 is made of (proofs.proto), and its bytes as a node writes them: the fields in order, no empty one."""
import dataclasses
import hashlib
from dataclasses import dataclass, field

# the numbers of the operations
NO_HASH, SHA256 = 0, 1
VAR_PROTO = 1


@dataclass(frozen=True)
class LeafOp:
    """How a key and its value become a leaf's hash; as both specs want it, but for the prefix."""

    prefix: bytes = b""
    hash: int = SHA256
    prehash_key: int = NO_HASH
    prehash_value: int = SHA256
    length: int = VAR_PROTO


@dataclass(frozen=True)
class InnerOp:
    """What stands before and behind the child's hash. An absent suffix isn't an empty one to a decoder of Go's."""

    prefix: bytes
    suffix: bytes | None
    hash: int = SHA256


@dataclass(frozen=True)
class Existence:
    """That a key has a value: the path goes from the leaf to the root."""

    key: bytes
    value: bytes
    leaf: LeafOp | None
    path: tuple[InnerOp, ...] = field(default=())


@dataclass(frozen=True)
class NonExistence:
    """That a key has no value: the neighbours of its place."""

    key: bytes
    left: Existence | None
    right: Existence | None

    def sides(self) -> tuple[Existence, ...]:
        """The neighbours that are there."""
        return tuple(side for side in (self.left, self.right) if side)


Proof = Existence | NonExistence


def sha256(text: bytes) -> bytes:
    return hashlib.sha256(text).digest()


def varint(number: int) -> bytes:
    """A number below 2^64 in base 128, the low digits first (Protocol Buffers, encoding)."""
    digits = b""
    while number >= 128:
        digits += bytes([number % 128 + 128])
        number //= 128
    return digits + bytes([number])


def signed_varint(number: int) -> bytes:
    """A signed number: 0, -1, 1, -2 .. are 0, 1, 2, 3 .. (Go, binary.PutVarint)."""
    return varint(2 * number if number >= 0 else -2 * number - 1)


def counted(text: bytes) -> bytes:
    """Bytes behind their count."""
    return varint(len(text)) + text


def bytes_field(number: int, text: bytes | None, is_kept: bool = False) -> bytes:
    """The field of bytes or of a message. It is left out where it is empty, but a message that is there."""
    return bytes([8 * number + 2]) + counted(text or b"") if text or is_kept else b""


def number_field(number: int, value: int) -> bytes:
    return bytes([8 * number]) + varint(value) if value else b""


def leaf_bytes(leaf: LeafOp) -> bytes:
    numbers = (leaf.hash, leaf.prehash_key, leaf.prehash_value, leaf.length)
    return b"".join(number_field(at, value) for at, value in enumerate(numbers, 1)) + bytes_field(5, leaf.prefix)


def inner_bytes(step: InnerOp) -> bytes:
    return number_field(1, step.hash) + bytes_field(2, step.prefix) + bytes_field(3, step.suffix)


def existence_bytes(proof: Existence) -> bytes:
    leaf = bytes_field(3, leaf_bytes(proof.leaf), True) if proof.leaf else b""
    path = b"".join(bytes_field(4, inner_bytes(step), True) for step in proof.path)
    return bytes_field(1, proof.key) + bytes_field(2, proof.value) + leaf + path


def non_existence_bytes(proof: NonExistence) -> bytes:
    sides = ((2, proof.left), (3, proof.right))
    return bytes_field(1, proof.key) + b"".join(bytes_field(number, existence_bytes(side), True) for number, side in sides if side)


def proof_bytes(proof: Proof) -> bytes:
    """The bytes of a CommitmentProof."""
    if isinstance(proof, Existence):
        return bytes_field(1, existence_bytes(proof), True)
    return bytes_field(2, non_existence_bytes(proof), True)


def merkle_proof_bytes(proofs: tuple[bytes, ...]) -> bytes:
    """The bytes of a message's proof, a MerkleProof: field 1, once for each CommitmentProof."""
    return b"".join(bytes_field(1, proof, True) for proof in proofs)


changed = dataclasses.replace
