"""Cases of proofs: what nodes write, the same for another fact, with one thing wrong, and with each byte damaged."""
import contextlib
import random
from collections.abc import Callable, Iterator
from dataclasses import dataclass

from lib.ics23.judge import Refused, calculate, proof_in, read_varint, verify_membership, verify_non_membership
from lib.ics23.proofs import Existence, InnerOp, LeafOp, NonExistence, Proof, changed, proof_bytes, signed_varint
from lib.ics23.trees import Tree, iavl_existence, iavl_non_existence, iavl_tree, map_of_stores

SIZES = (1, 2, 3, 4, 7, 16, 60)
STORES = (b"acc", b"bank", b"staking", b"wasm")
IBC = b"ibc"


def is_as_written(text: bytes) -> bool:
    """Whether these are the bytes that a node writes of the proof in them."""
    try:
        proof = proof_in(text)
    except Refused:
        return False
    return proof is not None and proof_bytes(proof) == text


@dataclass(frozen=True)
class Case:
    """Whether a key has a value, or none, by two proofs."""

    what: str
    app_hash: bytes
    store: bytes
    key: bytes
    value: bytes | None
    of_key: bytes
    of_store: bytes

    def line(self) -> str:
        """The case as the program reads it."""
        value = [] if self.value is None else [self.value]
        words = [self.app_hash, self.store, self.key, *value, self.of_key, self.of_store]
        return " ".join(["absent" if self.value is None else "member", *(word.hex() for word in words)])

    def is_shown(self) -> bool:
        """What a light client says."""
        try:
            if self.value is None:
                verify_non_membership(self.app_hash, self.store, self.key, self.of_key, self.of_store)
            else:
                verify_membership(self.app_hash, self.store, self.key, self.value, self.of_key, self.of_store)
        except Refused:
            return False
        return True

    def is_met_by(self, answer: bool) -> bool:
        """The program says what the client says; it may also refuse bytes that no node writes."""
        shown = self.is_shown()
        return answer == shown or (shown and not (is_as_written(self.of_key) and is_as_written(self.of_store)))


# ---- one thing wrong


def with_step(rng: random.Random, proof: Existence, change: Callable[[InnerOp], InnerOp]) -> Existence:
    if not proof.path:
        return proof
    at = rng.randrange(len(proof.path))
    return changed(proof, path=(*proof.path[:at], change(proof.path[at]), *proof.path[at + 1 :]))


def with_leaf(proof: Existence, leaf: LeafOp) -> Existence:
    return changed(proof, leaf=leaf)


def steps_swapped(rng: random.Random, proof: Existence) -> Existence:
    path = list(proof.path)
    if len(path) > 1:
        at = rng.randrange(len(path) - 1)
        path[at], path[at + 1] = path[at + 1], path[at]
    return changed(proof, path=tuple(path))


def step_dropped(rng: random.Random, proof: Existence) -> Existence:
    at = rng.randrange(len(proof.path) + 1)
    return changed(proof, path=proof.path[:at] + proof.path[at + 1 :])


def step_doubled(rng: random.Random, proof: Existence) -> Existence:
    return changed(proof, path=(*proof.path, *rng.sample(proof.path, min(1, len(proof.path)))))


def many_steps(rng: random.Random, proof: Existence) -> Existence:
    """The longest path that is allowed, or a step more; its heights are high enough for an IAVL tree."""
    step = rng.choice([InnerOp(b"\1", bytes(32)), InnerOp(signed_varint(200) + b"\2\2\x20", bytes(33))])
    count = rng.choice([128, 129]) - len(proof.path)
    return changed(proof, path=(*proof.path, *[step] * count))


def no_path(_: random.Random, proof: Existence) -> Existence:
    return changed(proof, path=())


def step_hash(rng: random.Random, proof: Existence) -> Existence:
    return with_step(rng, proof, lambda step: changed(step, hash=rng.choice([0, 2, 3])))


def step_prefix(rng: random.Random, proof: Existence) -> Existence:
    def change(step: InnerOp) -> InnerOp:
        old = step.prefix
        news = [b"\0" + old, old[:-1], old + b"\x20", b"", old[1:], b"\x80" + old, bytes(46), b"\0\2\2" + old, b"\0" + old[1:]]
        return changed(step, prefix=rng.choice(news))

    return with_step(rng, proof, change)


def step_suffix(rng: random.Random, proof: Existence) -> Existence:
    def change(step: InnerOp) -> InnerOp:
        old = step.suffix or b""
        return changed(step, suffix=rng.choice([None, old * 2, old[:-1], old + b"\0", bytes(32), bytes(33)]))

    return with_step(rng, proof, change)


def suffix_in_prefix(rng: random.Random, proof: Existence) -> Existence:
    return with_step(rng, proof, lambda step: changed(step, prefix=step.prefix + (step.suffix or b""), suffix=None))


def step_height(rng: random.Random, proof: Existence) -> Existence:
    return with_step(rng, proof, lambda step: changed(step, prefix=signed_varint(rng.randint(-1, 3)) + step.prefix[1:]))


def leaf_operation(rng: random.Random, proof: Existence) -> Existence:
    name = rng.choice(["hash", "prehash_key", "prehash_value", "length"])
    return with_leaf(proof, changed(proof.leaf or LeafOp(), **{name: rng.choice([0, 1, 2, 7])}))


def leaf_prefix(rng: random.Random, proof: Existence) -> Existence:
    old = (proof.leaf or LeafOp()).prefix
    full = b"\xff" * 9
    news = [b"", b"\0", b"\1", old + b"\0", old[:-1], b"\0\2", b"\0\1\2", b"\0\2\x80\x00", b"\0" + full + b"\x01\2", b"\0\2" + full + b"\x02", b"\2\4\2"]
    return with_leaf(proof, LeafOp(rng.choice(news)))


def no_leaf(_: random.Random, proof: Existence) -> Existence:
    return changed(proof, leaf=None)


def key_changed(rng: random.Random, proof: Existence) -> Existence:
    return changed(proof, key=rng.choice([b"", proof.key + b"x", proof.key[:-1]]))


def value_changed(rng: random.Random, proof: Existence) -> Existence:
    return changed(proof, value=rng.choice([b"", proof.value + b"x", proof.value[:-1]]))


CHANGES = (
    steps_swapped,
    step_dropped,
    step_doubled,
    many_steps,
    no_path,
    step_hash,
    step_prefix,
    step_prefix,
    step_suffix,
    suffix_in_prefix,
    step_height,
    leaf_operation,
    leaf_prefix,
    no_leaf,
    key_changed,
    value_changed,
)


def changed_existence(rng: random.Random, proof: Existence) -> tuple[str, Existence]:
    change = rng.choice(CHANGES)
    return change.__name__, change(rng, proof)


def changed_absence(rng: random.Random, proof: NonExistence) -> tuple[str, NonExistence]:
    """One neighbour changed, gone or in the other's place."""
    if rng.random() < 0.3:
        left, right = proof.left, proof.right
        sides = {"left alone": (left, None), "right alone": (None, right), "sides swapped": (right, left), "right twice": (right, right), "left twice": (left, left)}
        what = rng.choice([*sides])
        return what, NonExistence(proof.key, *sides[what])
    name = rng.choice([name for name in ("left", "right") if getattr(proof, name)])
    what, side = changed_existence(rng, getattr(proof, name))
    return f"{name}: {what}", changed(proof, **{name: side})


# ---- chains and their cases


@dataclass(frozen=True)
class Chain:
    """A store with its pairs, in the map of stores."""

    pairs: dict[bytes, bytes]
    tree: Tree
    others: dict[bytes, bytes]

    @property
    def keys(self) -> list[bytes]:
        return sorted(self.pairs)

    def case(self, what: str, key: bytes, value: bytes | None, proof: Proof) -> Case:
        stores = map_of_stores(self.others | {IBC: self.tree.hash})
        return Case(what, stores.app_hash, IBC, key, value, proof_bytes(proof), proof_bytes(stores.proofs[IBC]))


def any_key(rng: random.Random) -> bytes:
    number = rng.randint(1, 10**6)
    channel = b"ports/%s/channels/channel-%d/sequences/%d" % (rng.choice([b"transfer", b"p" * 2, b"p" * 128]), number % 5, number)
    return rng.choice([b"commitments/" + channel, b"receipts/" + channel, b"%d" % number])


def any_chain(rng: random.Random, size: int) -> Chain:
    pairs: dict[bytes, bytes] = {}
    while len(pairs) < size:
        pairs[any_key(rng)] = rng.randbytes(rng.choice([1, 8, 32, 32, 200]))
    others = {name: rng.randbytes(32) for name in rng.sample(STORES, rng.randint(0, len(STORES)))}
    return Chain(pairs, iavl_tree(rng, sorted(pairs.items())), others)


def absent_key(rng: random.Random, chain: Chain) -> bytes:
    near = rng.choice(chain.keys)
    keys = [key for key in (near + b"0", near[:-1], near[:-1] + b"\xff", b"!", b"zzz") if key and key not in chain.pairs]
    return rng.choice(keys)


def other_facts(rng: random.Random, chain: Chain, present: Case, absent: Case) -> Iterator[Case]:
    """Right proofs, of another fact than the one that is asked for."""
    keys = chain.keys
    yield changed(present, what="another value", value=(present.value or b"") + b"x")
    yield changed(present, what="no value", value=b"")
    yield changed(present, what="another key", key=present.key + b"x")
    yield changed(present, what="another store", store=b"bank")
    yield changed(present, what="the store's root as the app hash", app_hash=chain.tree.hash)
    yield changed(present, what="the app hash of another height", app_hash=rng.randbytes(32))
    yield changed(present, what="proofs swapped", of_key=present.of_store, of_store=present.of_key)
    yield changed(present, what="a store's proof of absence", of_store=absent.of_key)
    yield changed(present, what="absent though there", value=None)
    yield changed(absent, what="there though absent", value=b"\1")
    yield changed(absent, what="the absent key's proof for a key", key=present.key)
    yield from (changed(absent, what="neighbours of another key", key=key) for key in (rng.choice(keys) + b"\0", b"zzzz", b"\0"))
    sides = [iavl_existence(chain.tree, rng.randrange(len(keys))) for _ in range(2)]
    yield chain.case("any two keys", absent.key, None, NonExistence(absent.key, *sides))
    for name in ("left", "right"):
        alone = NonExistence(absent.key, **{"left": None, "right": None, name: iavl_existence(chain.tree, rng.randrange(len(keys)))})
        yield chain.case(f"any key alone: {name}", absent.key, None, alone)
    yield chain.case("no neighbours", absent.key, None, NonExistence(absent.key, None, None))


def wrong_proofs(rng: random.Random, chain: Chain, proof: Existence, absence: NonExistence) -> Iterator[Case]:
    """Proofs with one thing wrong, and the same under roots made anew, so that no root gives it away."""
    stores = map_of_stores(chain.others | {IBC: chain.tree.hash})
    for _ in range(25):
        what, one = changed_existence(rng, proof)
        yield chain.case(what, proof.key, proof.value, one)
        side, two = changed_absence(rng, absence)
        yield chain.case(side, absence.key, None, two)
        store, third = changed_existence(rng, stores.proofs[IBC])
        yield changed(chain.case(f"store: {store}", proof.key, proof.value, proof), of_store=proof_bytes(third))
        with contextlib.suppress(Refused):
            yield anew(rng, f"{what}, roots made anew", chain, one.key, one.value, one, calculate(one))
        with contextlib.suppress(Refused):
            yield anew(rng, f"{side}, roots made anew", chain, absence.key, None, two, calculate((*two.sides(), Existence(b"", b"", None))[0]))


def anew(rng: random.Random, what: str, chain: Chain, key: bytes, value: bytes | None, proof: Proof, root: bytes) -> Case:
    """A case of a proof under its own root; half of the maps of stores have one thing wrong, too."""
    stores = map_of_stores(chain.others | {IBC: root})
    of_store, app_hash, store = stores.proofs[IBC], stores.app_hash, IBC
    if rng.random() < 0.5:
        change, of_store = changed_existence(rng, of_store)
        what, app_hash, store = f"{what}, store: {change}", calculate(of_store), of_store.key
    return Case(what, app_hash, store, key, value, proof_bytes(proof), proof_bytes(of_store))


def damaged(rng: random.Random, case: Case) -> Iterator[Case]:
    """Each byte of both proofs with a bit turned, and both cut short at each byte."""
    for name in ("of_key", "of_store"):
        text = getattr(case, name)
        for at in range(len(text)):
            spoiled = text[:at] + bytes([text[at] ^ 1 << rng.randrange(8)]) + text[at + 1 :]
            yield changed(case, what=f"{case.what}, {name}: byte {at}", **{name: spoiled})
            yield changed(case, what=f"{case.what}, {name}: {at} bytes", **{name: text[:at]})
        yield changed(case, what=f"{case.what}, {name}: a byte more", **{name: text + b"\0"})


def reordered(case: Case) -> Iterator[Case]:
    """Bytes of the same proof that no node writes."""
    size, rest = read_varint(case.of_key[1:])
    yield changed(case, what=f"{case.what}, twice", of_key=case.of_key * 2)
    yield changed(case, what=f"{case.what}, behind an unknown field", of_key=b"\x78\1" + case.of_key)
    yield changed(case, what=f"{case.what}, a longer count", of_key=case.of_key[:1] + bytes([size % 128 + 128, size // 128 + 128, 0]) + rest)


def cases(seed: int, rounds: int) -> Iterator[Case]:
    """The cases of a seed: a chain a round, and damage of each byte in the first two."""
    rng = random.Random(seed)
    for at in range(rounds):
        size = rng.choice(SIZES)
        chain = any_chain(rng, size)
        for _ in range(3):
            index = rng.randrange(size)
            proof = iavl_existence(chain.tree, index)
            key = absent_key(rng, chain)
            absence = iavl_non_existence(chain.tree, chain.keys, key)
            present = chain.case("a key that is there", proof.key, proof.value, proof)
            absent = chain.case("a key that is absent", key, None, absence)
            yield from (present, absent)
            yield from other_facts(rng, chain, present, absent)
            yield from wrong_proofs(rng, chain, proof, absence)
        for case in (present, absent):
            yield from reordered(case)
            if at < 2:
                yield from damaged(rng, case)
