"""Cases of packet messages: right ones over two chains, and the same with one thing wrong or damaged."""
import base64
import copy
import json
import random
from collections.abc import Iterator
from dataclasses import dataclass, replace

from lib.ics23.cases import is_as_written
from lib.ics23.judge import Refused, verify_membership, verify_non_membership
from lib.ics23.proofs import merkle_proof_bytes, sha256

from lib.packets.chains import (IBC, NO_HEIGHT, Chain, Height, Json, Packet, Snapshot, acknowledgement_key, commitment_key, eight_bytes, next_sequence_key,
                            receipt_key)

MOST_BYTES = 1_048_576
SIGNER = "cosmos1qy352eufqy352eufqy352eufqy35qqqz0kg2hh"
KEYS = {"sent": commitment_key, "acknowledged": acknowledgement_key, "unreceived": receipt_key, "awaited": next_sequence_key}
TYPES = {"sent": "MsgRecvPacket", "acknowledged": "MsgAcknowledgement", "unreceived": "MsgTimeout", "awaited": "MsgTimeout"}
PROOFS = {"sent": "proof_commitment", "acknowledged": "proof_acked", "unreceived": "proof_unreceived", "awaited": "proof_unreceived"}


@dataclass(frozen=True)
class Case:
    """A claim of a packet, and what a node answered."""

    what: str
    claim: str
    packet: Packet
    acknowledgement: bytes
    at: Height
    app_hash: bytes
    answer: bytes

    def line(self) -> str:
        """The case as the program reads it."""
        p = self.packet
        words = [self.claim, self.acknowledgement.hex(), p.sequence, *p.source, *p.dest, p.data.hex(), p.timeout_height.revision, p.timeout_height.height,
                 p.timeout_time, SIGNER, self.at.revision, self.at.height, self.app_hash.hex(), self.answer.hex()]
        return " ".join(map(str, words))

    def key(self) -> str:
        return KEYS[self.claim](self.packet).decode()

    def answered(self) -> tuple[bytes, bytes, bytes] | None:
        """The value and the two proofs that the answer has."""
        if len(self.answer) > MOST_BYTES:
            return None
        try:
            said = json.loads(self.answer)
            response = said.get("result", said)["response"]
            ops = (response["proofOps"] if "proofOps" in response else response["proof_ops"])["ops"]
            value = response.get("value")
            texts = [value if isinstance(value, str) else "", ops[0]["data"], ops[1]["data"]]
            value, of_key, of_store = (base64.b64decode(text, validate=True) for text in texts)
        except (ValueError, KeyError, IndexError, TypeError, AttributeError):
            return None
        return value, of_key, of_store

    def following(self, value: bytes) -> int:
        return int.from_bytes(value, "big") if self.claim == "awaited" else self.packet.sequence

    def is_shown(self, value: bytes, of_key: bytes, of_store: bytes) -> bool:
        """Whether a light client takes the proofs for the claim."""
        key = self.key().encode()
        try:
            if self.claim == "unreceived":
                verify_non_membership(self.app_hash, IBC, key, of_key, of_store)
                return True
            wanted = {"sent": self.packet.commitment(), "acknowledged": sha256(self.acknowledgement), "awaited": value}[self.claim]
            verify_membership(self.app_hash, IBC, key, wanted, of_key, of_store)
        except Refused:
            return False
        return self.claim != "awaited" or len(value) == 8 and self.following(value) <= self.packet.sequence

    def message(self, value: bytes, of_key: bytes, of_store: bytes) -> Json:
        """The message, by a second encoder."""
        proof = base64.b64encode(merkle_proof_bytes((of_key, of_store))).decode()
        message: Json = {"@type": f"/ibc.core.channel.v1.{TYPES[self.claim]}", "packet": self.packet.json()}
        if self.claim == "acknowledged":
            message["acknowledgement"] = base64.b64encode(self.acknowledgement).decode()
        if TYPES[self.claim] == "MsgTimeout":
            message["next_sequence_recv"] = str(self.following(value))
        return message | {PROOFS[self.claim]: proof, "proof_height": self.at.json(), "signer": SIGNER}

    def told(self) -> str:
        """The line of the program: the key, and the message, or why there is none."""
        answered = self.answered()
        shown = answered is not None and self.is_shown(*answered)
        return f"{self.key()} {json.dumps(self.message(*answered)) if answered and shown else 'NotProven' if answered else 'NoProof'}"

    def wrong(self, line: str) -> str:
        """What is wrong with a line of the program; nothing where none is."""
        wanted = self.told()
        if line == wanted:
            return ""
        answered = self.answered()
        if line == f"{self.key()} NotProven" and answered and not all(map(is_as_written, answered[1:])):
            return ""  # bytes that no node writes may be refused
        return f"told {line}\n-- and not {wanted}"


@dataclass(frozen=True)
class Right:
    """A case whose message a chain has to take at once."""

    case: Case
    taker: Chain
    other: Chain


class Pair:
    """Two chains with a channel between them, over which packets go; each message is made of a case."""

    def __init__(self, rng: random.Random, is_ordered: bool) -> None:
        ends = (("transfer", "channel-0"), (rng.choice(["transfer", "icahost", "wasm.cosmos1_x+-#[y]<z>"]), f"channel-{rng.randint(0, 900)}"))
        self.rng, self.is_ordered = rng, is_ordered
        self.source = Chain("hub-4", 4, ends[0], is_ordered, rng)
        self.dest = Chain("zone-1", 1, ends[1], is_ordered, rng)

    def blocks(self) -> None:
        """A block on each chain, and an update of both light clients."""
        for chain in (self.source, self.dest):
            chain.end_block()
        self.source.track(self.dest)
        self.dest.track(self.source)

    def send(self, timeout_height: Height, timeout_time: int) -> Packet:
        data = self.rng.choice([b'{"amount":"100","denom":"uatom"}', self.rng.randbytes(self.rng.randint(1, 300)), "\u20ac \"\\\x00".encode()])
        return self.source.send(self.dest.end, data, timeout_height, timeout_time)

    def case(self, what: str, claim: str, packet: Packet, acknowledgement: bytes = b"") -> Right:
        """The case of a claim by the newest header of the chain that proves it, answered by its node."""
        prover, taker = (self.source, self.dest) if claim == "sent" else (self.dest, self.source)
        at = Height(prover.revision, prover.height)
        answer = prover.snapshots[at.height - 1].answer(KEYS[claim](packet), at.height - 1)
        case = Case(what, claim, packet, acknowledgement, at, prover.app_hash(at.height), json.dumps(answer).encode())
        return Right(case, taker, prover)


def life(rng: random.Random, is_ordered: bool) -> Iterator[Right]:
    """Packets from their sending to their acknowledgement or timeout."""
    pair = Pair(rng, is_ordered)
    pair.blocks()
    far = pair.dest.time(10_000)
    packets = [pair.send(*timeout) for timeout in ((NO_HEIGHT, far), (Height(1, 10_000), 0), (Height(2, 1), far))]
    expiring = [pair.send(*timeout) for timeout in ((Height(1, 8), 0), (NO_HEIGHT, pair.dest.time(8)), (Height(1, 8), far))]
    pair.blocks()
    for packet in packets:
        yield pair.case("received", "sent", packet)
    acknowledgements = [b'{"result":"AQ=="}', rng.randbytes(200), b"\x01"]
    for packet, acknowledgement in zip(packets, acknowledgements):
        pair.dest.write_acknowledgement(packet, acknowledgement)
    pair.blocks()
    for packet, acknowledgement in zip(packets, acknowledgements):
        yield pair.case("acknowledged", "acknowledged", packet, acknowledgement)
    while pair.dest.height <= 8:
        pair.blocks()
    for packet in expiring[:1] if is_ordered else expiring:
        yield pair.case("timed out", "awaited" if is_ordered else "unreceived", packet)


# ---- one thing wrong


def said_in(answer: bytes) -> Json:
    said: Json = json.loads(answer)
    return said


def written(said: Json) -> bytes:
    return json.dumps(said).encode()


def of_other_facts(right: Right, rng: random.Random) -> Iterator[Case]:
    """The answer beside another packet, acknowledgement, height or claim."""
    case, packet = right.case, right.case.packet
    height = packet.timeout_height
    others = {
        "sequence": replace(packet, sequence=packet.sequence + 1), "sequence below": replace(packet, sequence=max(0, packet.sequence - 1)),
        "data": replace(packet, data=packet.data + b"x"), "no data": replace(packet, data=b""), "hash for data": replace(packet, data=sha256(packet.data)),
        "source port": replace(packet, source=("other", packet.source[1])), "source channel": replace(packet, source=(packet.source[0], "channel-99")),
        "destination port": replace(packet, dest=("other", packet.dest[1])), "destination channel": replace(packet, dest=(packet.dest[0], "channel-99")),
        "revision": replace(packet, timeout_height=Height(height.revision + 1, height.height)),
        "timeout height": replace(packet, timeout_height=Height(height.revision, height.height + 1)),
        "timeout time": replace(packet, timeout_time=packet.timeout_time + 1),
        "timeouts swapped": replace(packet, timeout_time=height.height, timeout_height=Height(height.revision, packet.timeout_time))}
    for what, other in others.items():
        yield replace(case, what=f"another {what}", packet=other)
    for what, acknowledgement in (("acknowledgement", case.acknowledgement + b"x"), ("hash for acknowledgement", sha256(case.acknowledgement))):
        yield replace(case, what=f"another {what}", acknowledgement=acknowledgement)
    for height_before in sorted(right.other.snapshots)[1:]:
        yield replace(case, what="the app hash of another height", app_hash=right.other.app_hash(height_before))
    yield replace(case, what="no app hash", app_hash=b"")
    yield replace(case, what="a random app hash", app_hash=rng.randbytes(32))
    for claim in KEYS:
        yield replace(case, what=f"claimed as {claim}", claim=claim)


def of_other_keys(right: Right) -> Iterator[Case]:
    """What the node answers of other keys of its store, and of no key."""
    case = right.case
    snapshot: Snapshot = right.other.snapshots[case.at.height - 1]
    for key in [*snapshot.keys, b"acks", b"receipts/zzz", b"zzz"]:
        yield replace(case, what=f"the answer on {key.decode()}", answer=written(snapshot.answer(key, case.at.height - 1)))


def in_other_forms(right: Right) -> Iterator[Case]:
    """The same answer in other forms, and such as are no answer."""
    case, said = right.case, said_in(right.case.answer)
    response = said["result"]["response"]
    renamed = {name: part for name, part in response.items() if name != "proofOps"} | {"proof_ops": response["proofOps"]}
    ops = response["proofOps"]["ops"]
    forms: dict[str, object] = {
        "bare": {"response": response}, "by the field's name": {"result": {"response": renamed}}, "both names": {"response": renamed | {"proofOps": {}}},
        "an empty value": {"response": response | {"value": ""}}, "a number for a value": {"response": response | {"value": 7}},
        "another value": {"response": response | {"value": base64.b64encode(eight_bytes(1)).decode()}},
        "no base64": {"response": response | {"value": "*"}}, "nothing": {}, "a list": [], "a text": "response", "a null result": {"result": None},
        "no proofs": {"response": response | {"proofOps": None}}, "no operations": {"response": response | {"proofOps": {"ops": []}}},
        "one operation": {"response": response | {"proofOps": {"ops": ops[:1]}}}, "swapped": {"response": response | {"proofOps": {"ops": ops[::-1]}}},
        "twice the first": {"response": response | {"proofOps": {"ops": ops[:1] * 2}}}, "three": {"response": response | {"proofOps": {"ops": [*ops, ops[0]]}}},
        "operations by name": {"response": response | {"proofOps": {"ops": {"0": ops[0], "1": ops[1]}}}},
        "an error": {"jsonrpc": "2.0", "id": -1, "error": {"code": -32603, "message": "Internal error", "data": "height is not available"}}}
    for what, form in forms.items():
        yield replace(case, what=what, answer=json.dumps(form).encode())
    yield replace(case, what="cut short", answer=case.answer[:-1])
    yield replace(case, what="no UTF-8", answer=case.answer.replace(b'"log": ""', b'"log": "\xff"'))
    yield replace(case, what="as long as may be", answer=case.answer.ljust(MOST_BYTES))
    yield replace(case, what="a byte too long", answer=case.answer.ljust(MOST_BYTES + 1))
    yield replace(case, what="empty", answer=b"")


def damaged(right: Right, rng: random.Random) -> Iterator[Case]:
    """Each byte of both proofs with a bit flipped, and each proof cut short somewhere."""
    case = right.case
    for place in (0, 1):
        proof = base64.b64decode(said_in(case.answer)["result"]["response"]["proofOps"]["ops"][place]["data"])
        broken = [proof[:at] + bytes([proof[at] ^ 1 << rng.randrange(8)]) + proof[at + 1:] for at in range(len(proof))]
        broken += [proof[:rng.randrange(len(proof))] for _ in range(5)] + [proof + b"\0", b""]
        for other in broken:
            said = copy.deepcopy(said_in(case.answer))
            said["result"]["response"]["proofOps"]["ops"][place]["data"] = base64.b64encode(other).decode()
            yield replace(case, what=f"proof {place} damaged", answer=written(said))


def wrong_cases(right: Right, rng: random.Random) -> Iterator[Case]:
    yield from of_other_facts(right, rng)
    yield from of_other_keys(right)
    yield from in_other_forms(right)
    yield from damaged(right, rng)
