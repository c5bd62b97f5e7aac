"""What a light client says of the proof of a packet message: by ICS 23 for Go with its general specs (order of children, empty child), and as a decoder of
Go's reads the bytes (fields in any order, the last of two, unknown ones skipped)."""
from collections.abc import Iterator
from dataclasses import dataclass

from lib.ics23.proofs import NO_HASH, SHA256, VAR_PROTO, Existence, InnerOp, LeafOp, NonExistence, Proof, changed, counted, sha256

MOST_STEPS = 128


class Refused(Exception):
    """The proof doesn't show what it has to, or its bytes are none."""


def check(is_met: bool, reason: str) -> None:
    if not is_met:
        raise Refused(reason)


# ---- bytes


def read_varint(text: bytes) -> tuple[int, bytes]:
    """The number that begins here, and what is behind it (Go, binary.Uvarint)."""
    number = 0
    for at, digit in enumerate(text[:10]):
        number |= (digit & 127) << 7 * at
        if digit < 128:
            check(at < 9 or digit < 2, "a varint of more than 64 bits")
            return number, text[at + 1 :]
    raise Refused("a varint without an end")


def read_signed_varint(text: bytes) -> tuple[int, bytes]:
    """Go, binary.Varint."""
    number, rest = read_varint(text)
    return (number // 2 if number % 2 == 0 else ~(number // 2)), rest


def fields(text: bytes) -> Iterator[tuple[int, int | bytes]]:
    """Each field with its number: a varint as a number, the rest as bytes."""
    while text:
        key, text = read_varint(text)
        number, wire = key >> 3, key & 7
        check(number > 0 and wire in (0, 1, 2, 5), "a field of no kind")
        size = {1: 8, 5: 4}.get(wire, 0)
        if wire in (0, 2):
            size, text = read_varint(text)
        if wire == 0:
            yield number, size
            continue
        check(size <= len(text), "a field beyond the end")
        # fixed numbers have no field here, so they fit no field that is known
        yield number if wire == 2 else -number, text[:size]
        text = text[size:]


def known(text: bytes, numbers: tuple[int, ...], parts: tuple[int, ...]) -> Iterator[tuple[int, int, bytes]]:
    """The fields that are known: their number, and what they hold as a number or as bytes."""
    for number, value in fields(text):
        if abs(number) not in numbers + parts:
            continue
        check(number > 0 and isinstance(value, bytes) == (number in parts), "a field of another kind")
        yield (number, 0, value) if isinstance(value, bytes) else (number, value % 2**32, b"")


def leaf_in(text: bytes, leaf: LeafOp) -> LeafOp:
    names = {1: "hash", 2: "prehash_key", 3: "prehash_value", 4: "length"}
    for number, value, part in known(text, tuple(names), (5,)):
        leaf = changed(leaf, prefix=part) if number == 5 else changed(leaf, **{names[number]: value})
    return leaf


def inner_in(text: bytes) -> InnerOp:
    step = InnerOp(b"", None, NO_HASH)
    for number, value, part in known(text, (1,), (2, 3)):
        step = changed(step, hash=value) if number == 1 else changed(step, prefix=part) if number == 2 else changed(step, suffix=part)
    return step


def existence_in(text: bytes, proof: Existence | None = None) -> Existence:
    proof = proof or Existence(b"", b"", None)
    for number, _, part in known(text, (), (1, 2, 3, 4)):
        if number == 1:
            proof = changed(proof, key=part)
        elif number == 2:
            proof = changed(proof, value=part)
        elif number == 3:
            proof = changed(proof, leaf=leaf_in(part, proof.leaf or LeafOp(b"", NO_HASH, NO_HASH, NO_HASH, 0)))
        else:
            proof = changed(proof, path=(*proof.path, inner_in(part)))
    return proof


def non_existence_in(text: bytes) -> NonExistence:
    proof = NonExistence(b"", None, None)
    for number, _, part in known(text, (), (1, 2, 3)):
        if number == 1:
            proof = changed(proof, key=part)
        elif number == 2:
            proof = changed(proof, left=existence_in(part, proof.left))
        else:
            proof = changed(proof, right=existence_in(part, proof.right))
    return proof


def proof_in(text: bytes) -> Proof | None:
    """The proof in the bytes of a CommitmentProof; none where it is a batch or a compressed one."""
    proof: Proof | None = None
    for number, _, part in known(text, (), (1, 2, 3, 4)):
        proof = existence_in(part) if number == 1 else non_existence_in(part) if number == 2 else None
    return proof


# ---- specs


@dataclass(frozen=True)
class Spec:
    """A ProofSpec with an InnerSpec and a LeafSpec; the hashes and the lengths are the same in both."""

    is_iavl: bool
    least_prefix: int
    most_prefix: int
    child_size: int
    order: tuple[int, ...] = (0, 1)
    leaf_prefix: bytes = b"\0"
    empty_child: bytes = b""


IAVL = Spec(True, 4, 12, 33)
TENDERMINT = Spec(False, 1, 1, 32)


def check_iavl(prefix: bytes, layer: int) -> None:
    """validateIavlOps: height, size and version of a node, and in an inner one the length of a child, or a child and that length."""
    height, rest = read_signed_varint(prefix)
    size, rest = read_signed_varint(rest)
    version, rest = read_signed_varint(rest)
    check(min(height, size, version) >= 0, "a number below 0")
    check(height >= layer, "a height below the layer")
    check(not rest if layer == 0 else len(rest) in (1, 34), "what is behind the version")


def check_tendermint(step: InnerOp) -> None:
    """validateTendermintOps."""
    check(step.prefix.startswith(b"\1"), "a prefix that begins otherwise")
    check(step.suffix is None or step.prefix == b"\1", "a prefix before a suffix")


def check_leaf(spec: Spec, leaf: LeafOp) -> None:
    if spec.is_iavl:
        check_iavl(leaf.prefix, 0)
    check((leaf.hash, leaf.prehash_key, leaf.prehash_value, leaf.length) == (SHA256, NO_HASH, SHA256, VAR_PROTO), "a leaf's operation")
    check(leaf.prefix.startswith(spec.leaf_prefix), "a leaf's prefix")


def check_inner(spec: Spec, layer: int, step: InnerOp) -> None:
    check(step.hash == SHA256, "a step's hash")
    if spec.is_iavl:
        check_iavl(step.prefix, layer)
    else:
        check_tendermint(step)
    check(not step.prefix.startswith(spec.leaf_prefix), "a leaf's prefix in a step")
    check(len(step.prefix) >= spec.least_prefix, "a prefix too short")
    check(len(step.prefix) <= spec.most_prefix + (len(spec.order) - 1) * spec.child_size, "a prefix too long")
    check(len(step.suffix or b"") % spec.child_size == 0, "a suffix that is no child")


def check_against_spec(spec: Spec, proof: Existence) -> None:
    """CheckAgainstSpec."""
    if proof.leaf is None:
        raise Refused("no leaf")
    check_leaf(spec, proof.leaf)
    check(len(proof.path) <= MOST_STEPS, "a path too long")
    for layer, step in enumerate(proof.path, 1):
        check_inner(spec, layer, step)


def calculate(proof: Existence) -> bytes:
    """Calculate: the root of which the proof is."""
    leaf = proof.leaf
    if leaf is None:
        raise Refused("no leaf")
    check(bool(proof.key and proof.value), "no key or no value")
    check(leaf.hash == SHA256 and {leaf.prehash_key, leaf.prehash_value} <= {NO_HASH, SHA256} and leaf.length in (0, VAR_PROTO), "an unknown operation")
    parts = [sha256(part) if op == SHA256 else part for op, part in ((leaf.prehash_key, proof.key), (leaf.prehash_value, proof.value))]
    root = sha256(leaf.prefix + b"".join(counted(part) if leaf.length == VAR_PROTO else part for part in parts))
    for step in proof.path:
        check(step.hash == SHA256, "an unknown operation")
        root = sha256(step.prefix + root + (step.suffix or b""))
    return root


def verify(spec: Spec, root: bytes, key: bytes, value: bytes, proof: Existence) -> None:
    """ExistenceProof.Verify."""
    check_against_spec(spec, proof)
    check(proof.key == key and proof.value == value, "another key or value")
    check(calculate(proof) == root, "another root")


# ---- neighbours


def has_padding(spec: Spec, step: InnerOp, branch: int) -> bool:
    """Whether the step is from the child of this branch, by its sizes (getPadding, hasPadding)."""
    before, behind = spec.order.index(branch), len(spec.order) - 1 - spec.order.index(branch)
    size = len(step.prefix) - before * spec.child_size
    return spec.least_prefix <= size <= spec.most_prefix and len(step.suffix or b"") == behind * spec.child_size


def order_of(spec: Spec, step: InnerOp) -> int | None:
    """The branch that the step is from (orderFromPadding)."""
    return next((branch for branch in range(len(spec.order)) if has_padding(spec, step, branch)), None)


def has_empty_left(spec: Spec, step: InnerOp) -> bool:
    """leftBranchesAreEmpty."""
    count = order_of(spec, step) or 0
    start = len(step.prefix) - count * spec.child_size
    children = [step.prefix[start + at * spec.child_size :][: spec.child_size] for at in range(count)]
    return count > 0 and start >= 0 and all(child == spec.empty_child for child in children)


def has_empty_right(spec: Spec, step: InnerOp) -> bool:
    """rightBranchesAreEmpty."""
    branch, suffix = order_of(spec, step), step.suffix or b""
    count = 0 if branch is None else len(spec.order) - 1 - branch
    children = [suffix[at * spec.child_size :][: spec.child_size] for at in range(count)]
    return count > 0 and len(suffix) == count * spec.child_size and all(child == spec.empty_child for child in children)


def is_left_most(spec: Spec, path: tuple[InnerOp, ...]) -> bool:
    return all(has_padding(spec, step, spec.order[0]) or has_empty_left(spec, step) for step in path)


def is_right_most(spec: Spec, path: tuple[InnerOp, ...]) -> bool:
    return all(has_padding(spec, step, spec.order[-1]) or has_empty_right(spec, step) for step in path)


def are_neighbours(spec: Spec, left: tuple[InnerOp, ...], right: tuple[InnerOp, ...]) -> bool:
    """IsLeftNeighbor, but for its panic where one path ends with the other."""
    while left and right and (left[-1].prefix, left[-1].suffix or b"") == (right[-1].prefix, right[-1].suffix or b""):
        left, right = left[:-1], right[:-1]
    if not left or not right:
        return False
    one, other = order_of(spec, left[-1]), order_of(spec, right[-1])
    is_step = one is not None and other is not None and other == one + 1
    return is_step and is_right_most(spec, left[:-1]) and is_left_most(spec, right[:-1])


def verify_absence(spec: Spec, root: bytes, key: bytes, proof: NonExistence) -> None:
    """NonExistenceProof.Verify."""
    left, right = proof.left, proof.right
    for side in proof.sides():
        verify(spec, root, side.key, side.value, side)
    check(left is None or left.key < key, "the left neighbour is not below")
    check(right is None or key < right.key, "the right neighbour is not above")
    if left and right:
        check(are_neighbours(spec, left.path, right.path), "no neighbours")
    elif left:
        check(is_right_most(spec, left.path), "not the last key")
    elif right:
        check(is_left_most(spec, right.path), "not the first key")
    else:
        raise Refused("no neighbour")


# ---- IBC


def verify_store(app_hash: bytes, store: bytes, root: bytes, of_store: bytes) -> None:
    proof = proof_in(of_store)
    if not isinstance(proof, Existence):
        raise Refused("no proof of a store")
    verify(TENDERMINT, app_hash, store, root, proof)


def verify_membership(app_hash: bytes, store: bytes, key: bytes, value: bytes, of_key: bytes, of_store: bytes) -> None:
    """MerkleProof.VerifyMembership (ibc-go), of a key in a store."""
    proof = proof_in(of_key)
    if not isinstance(proof, Existence):
        raise Refused("no proof of a key")
    check(bool(value), "no value")
    root = calculate(proof)
    verify(IAVL, root, key, value, proof)
    verify_store(app_hash, store, root, of_store)


def verify_non_membership(app_hash: bytes, store: bytes, key: bytes, of_key: bytes, of_store: bytes) -> None:
    """MerkleProof.VerifyNonMembership (ibc-go), of a key in a store."""
    proof = proof_in(of_key)
    if not isinstance(proof, NonExistence) or not proof.sides():
        raise Refused("no proof that a key is absent")
    root = calculate(proof.sides()[0])
    verify_absence(IAVL, root, key, proof)
    verify_store(app_hash, store, root, of_store)
