"""An IAVL tree and the map of stores of the Cosmos SDK, with their roots and proofs."""
import bisect
import random
from dataclasses import dataclass

from lib.ics23.proofs import Existence, InnerOp, LeafOp, NonExistence, counted, sha256, signed_varint

VERSIONS = (1, 7, 63, 64, 8191, 8192, 3_000_000, 2**31, 25_000_000)


class Leaf:
    """A pair of a store. Its prefix has its height, its size, and the version that wrote it."""

    height, size = 0, 1

    def __init__(self, key: bytes, value: bytes, version: int) -> None:
        self.key, self.value = key, value
        self.prefix = signed_varint(self.height) + signed_varint(self.size) + signed_varint(version)
        self.hash = sha256(self.prefix + counted(key) + counted(sha256(value)))


class Node:
    """An inner node: its prefix, and the hashes of its children, each behind its length."""

    height: int
    size: int
    hash: bytes

    def __init__(self, left: "Leaf | Node", right: "Leaf | Node", version: int) -> None:
        self.left, self.right = left, right
        self.height, self.size = max(left.height, right.height) + 1, left.size + right.size
        self.prefix = signed_varint(self.height) + signed_varint(self.size) + signed_varint(version)
        self.hash = sha256(self.prefix + counted(left.hash) + counted(right.hash))


Tree = Leaf | Node


def iavl_tree(rng: random.Random, pairs: list[tuple[bytes, bytes]]) -> Tree:
    """A tree of some shape over sorted pairs, one at least."""
    if len(pairs) == 1:
        return Leaf(*pairs[0], rng.choice(VERSIONS))
    least = max(1, len(pairs) // 3)
    at = rng.randint(least, len(pairs) - least)
    return Node(iavl_tree(rng, pairs[:at]), iavl_tree(rng, pairs[at:]), rng.choice(VERSIONS))


def iavl_existence(tree: Tree, index: int) -> Existence:
    """The proof of the pair of this index, from the left."""
    steps: list[InnerOp] = []
    while isinstance(tree, Node):
        if index < tree.left.size:
            steps.append(InnerOp(tree.prefix + b"\x20", counted(tree.right.hash)))
            tree = tree.left
        else:
            steps.append(InnerOp(tree.prefix + counted(tree.left.hash) + b"\x20", None))
            index -= tree.left.size
            tree = tree.right
    return Existence(tree.key, tree.value, LeafOp(tree.prefix), tuple(reversed(steps)))


def iavl_non_existence(tree: Tree, keys: list[bytes], key: bytes) -> NonExistence:
    """The neighbours of a key that isn't among the sorted keys of the tree."""
    at = bisect.bisect_left(keys, key)
    return NonExistence(key, iavl_existence(tree, at - 1) if at else None, iavl_existence(tree, at) if at < len(keys) else None)


def split_point(count: int) -> int:
    """The greatest power of two below a count of 2 or more (RFC 6962)."""
    return int(2 ** ((count - 1).bit_length() - 1))


def map_root(leaves: list[bytes]) -> bytes:
    if len(leaves) == 1:
        return sha256(b"\0" + leaves[0])
    at = split_point(len(leaves))
    return sha256(b"\1" + map_root(leaves[:at]) + map_root(leaves[at:]))


def map_path(leaves: list[bytes], index: int) -> tuple[InnerOp, ...]:
    if len(leaves) == 1:
        return ()
    at = split_point(len(leaves))
    if index < at:
        return (*map_path(leaves[:at], index), InnerOp(b"\1", map_root(leaves[at:])))
    return (*map_path(leaves[at:], index - at), InnerOp(b"\1" + map_root(leaves[:at]), None))


@dataclass(frozen=True)
class Stores:
    """The map of stores: its root is the app hash, and each store's root has a proof."""

    app_hash: bytes
    proofs: dict[bytes, Existence]


def map_of_stores(roots: dict[bytes, bytes]) -> Stores:
    """The map of stores from their names to their roots."""
    pairs = sorted(roots.items())
    leaves = [counted(name) + counted(sha256(root)) for name, root in pairs]
    proofs = {name: Existence(name, root, LeafOp(b"\0"), map_path(leaves, at)) for at, (name, root) in enumerate(pairs)}
    return Stores(map_root(leaves), proofs)
