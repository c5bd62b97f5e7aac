"""Chains with a store of IBC each, whose packet handlers take messages as ibc-go's do (classic channels): each proof is judged by ICS 23 under the
app hash that the light client has of the proof height."""
import base64
import random
from dataclasses import dataclass, field
from typing import Any

from lib.ics23.judge import fields, verify_membership, verify_non_membership
from lib.ics23.proofs import merkle_proof_bytes, proof_bytes, sha256
from lib.ics23.trees import Stores, Tree, iavl_existence, iavl_non_existence, iavl_tree, map_of_stores

IBC = b"ibc"
RECEIPT = b"\x01"
Json = dict[str, Any]


class Rejected(Exception):
    """The chain doesn't take a message."""


def check(is_met: bool, reason: str) -> None:
    if not is_met:
        raise Rejected(reason)


def eight_bytes(number: int) -> bytes:
    return number.to_bytes(8, "big")


@dataclass(frozen=True)
class Height:
    """A height and the number of its revision (ICS 2)."""

    revision: int
    height: int

    def json(self) -> Json:
        return {"revision_number": str(self.revision), "revision_height": str(self.height)}


NO_HEIGHT = Height(0, 0)


@dataclass(frozen=True)
class Packet:
    """A packet (ICS 4)."""

    sequence: int
    source: tuple[str, str]
    dest: tuple[str, str]
    data: bytes
    timeout_height: Height
    timeout_time: int

    def commitment(self) -> bytes:
        """CommitPacket."""
        timeout = eight_bytes(self.timeout_time) + eight_bytes(self.timeout_height.revision) + eight_bytes(self.timeout_height.height)
        return sha256(timeout + sha256(self.data))

    def json(self) -> Json:
        return {"sequence": str(self.sequence), "source_port": self.source[0], "source_channel": self.source[1], "destination_port": self.dest[0],
                "destination_channel": self.dest[1], "data": base64.b64encode(self.data).decode(), "timeout_height": self.timeout_height.json(),
                "timeout_timestamp": str(self.timeout_time)}


def height_in(said: Json) -> Height:
    return Height(int(said["revision_number"]), int(said["revision_height"]))


def packet_in(said: Json) -> Packet:
    """The packet that a message has."""
    return Packet(int(said["sequence"]), (said["source_port"], said["source_channel"]), (said["destination_port"], said["destination_channel"]),
                  base64.b64decode(said["data"], validate=True), height_in(said["timeout_height"]), int(said["timeout_timestamp"]))


# ---- the keys (ICS 24)


def channel_key(word: str, end: tuple[str, str]) -> bytes:
    return f"{word}/ports/{end[0]}/channels/{end[1]}".encode()


def packet_key(word: str, end: tuple[str, str], sequence: int) -> bytes:
    return channel_key(word, end) + f"/sequences/{sequence}".encode()


def commitment_key(packet: Packet) -> bytes:
    return packet_key("commitments", packet.source, packet.sequence)


def acknowledgement_key(packet: Packet) -> bytes:
    return packet_key("acks", packet.dest, packet.sequence)


def receipt_key(packet: Packet) -> bytes:
    return packet_key("receipts", packet.dest, packet.sequence)


def next_sequence_key(packet: Packet) -> bytes:
    return channel_key("nextSequenceRecv", packet.dest)


# ---- what is stored at a height


@dataclass(frozen=True)
class Snapshot:
    """The store of IBC after a block: the next header has the app hash."""

    keys: list[bytes]
    values: dict[bytes, bytes]
    tree: Tree
    stores: Stores

    def proofs(self, key: bytes) -> tuple[bytes, bytes]:
        """The two proofs of a key, with its value or without."""
        of_key = iavl_existence(self.tree, self.keys.index(key)) if key in self.values else iavl_non_existence(self.tree, self.keys, key)
        return proof_bytes(of_key), proof_bytes(self.stores.proofs[IBC])

    def answer(self, key: bytes, height: int) -> Json:
        """What a node answers to `/abci_query`."""
        of_key, of_store = (base64.b64encode(proof).decode() for proof in self.proofs(key))
        value = self.values.get(key)
        ops = [{"type": "ics23:iavl", "key": base64.b64encode(key).decode(), "data": of_key},
               {"type": "ics23:simple", "key": base64.b64encode(IBC).decode(), "data": of_store}]
        response = {"code": 0, "log": "", "info": "", "index": "0", "key": base64.b64encode(key).decode(),
                    "value": base64.b64encode(value).decode() if value else None, "proofOps": {"ops": ops}, "height": str(height), "codespace": ""}
        return {"jsonrpc": "2.0", "id": -1, "result": {"response": response}}


def snapshot_of(values: dict[bytes, bytes], rng: random.Random) -> Snapshot:
    """What is stored now, beside other stores."""
    keys = sorted(values)
    tree = iavl_tree(rng, [(key, values[key]) for key in keys])
    roots = {IBC: tree.hash} | {name: rng.randbytes(32) for name in (b"acc", b"bank", b"staking", b"wasm")[: rng.randint(0, 4)]}
    return Snapshot(keys, dict(values), tree, map_of_stores(roots))


@dataclass
class Chain:
    """A chain with one end of a channel. A block takes a second."""

    name: str
    revision: int
    end: tuple[str, str]
    is_ordered: bool
    rng: random.Random
    height: int = 1
    is_closed: bool = False
    values: dict[bytes, bytes] = field(default_factory=dict)
    snapshots: dict[int, Snapshot] = field(default_factory=dict)
    light_client: dict[int, tuple[bytes, int]] = field(default_factory=dict)  # the app hash and the time of each height of the other chain

    def __post_init__(self) -> None:
        self.values[b"clients/07-tendermint-0/clientState"] = self.name.encode()
        self.values[channel_key("nextSequenceRecv", self.end)] = eight_bytes(1)
        self.values[channel_key("nextSequenceSend", self.end)] = eight_bytes(1)

    def time(self, height: int) -> int:
        return 1_700_000_000_000_000_000 + height * 1_000_000_000

    def end_block(self) -> None:
        """What is stored now is what the next header commits to."""
        self.snapshots[self.height] = snapshot_of(self.values, self.rng)
        self.height += 1

    def app_hash(self, height: int) -> bytes:
        """The app hash of a header."""
        return self.snapshots[height - 1].stores.app_hash

    def track(self, other: "Chain") -> None:
        """Updates the light client to the newest header of the other chain."""
        self.light_client[other.height] = other.app_hash(other.height), other.time(other.height)

    def numbered(self, word: str) -> int:
        return int.from_bytes(self.values[channel_key(word, self.end)], "big")

    def send(self, dest: tuple[str, str], data: bytes, timeout_height: Height, timeout_time: int) -> Packet:
        sequence = self.numbered("nextSequenceSend")
        self.values[channel_key("nextSequenceSend", self.end)] = eight_bytes(sequence + 1)
        packet = Packet(sequence, self.end, dest, data, timeout_height, timeout_time)
        self.values[commitment_key(packet)] = packet.commitment()
        return packet

    # ---- messages

    def take(self, message: Json, other: "Chain") -> None:
        """Executes a message, or rejects it; `other` is the chain that the light client tracks."""
        kind = message["@type"].removeprefix("/ibc.core.channel.v1.")
        packet = packet_in(message["packet"])
        at = height_in(message["proof_height"])
        check(at.revision == other.revision and at.height in self.light_client, "no consensus state of the proof height")
        check(message["signer"] != "", "no signer")
        names = {"MsgRecvPacket": "proof_commitment", "MsgAcknowledgement": "proof_acked", "MsgTimeout": "proof_unreceived"}
        fields_of = {"@type", "packet", "proof_height", "signer", names[kind]}
        fields_of |= {"MsgAcknowledgement": {"acknowledgement"}, "MsgTimeout": {"next_sequence_recv"}}.get(kind, set())
        check(set(message) == fields_of, f"unknown fields: {sorted(message)}")
        proofs = proofs_in(base64.b64decode(message[names[kind]], validate=True))
        app_hash, time = self.light_client[at.height]
        if kind == "MsgRecvPacket":
            self.receive(packet, app_hash, proofs)
        elif kind == "MsgAcknowledgement":
            self.acknowledge(packet, base64.b64decode(message["acknowledgement"], validate=True), app_hash, proofs)
        else:
            self.time_out(packet, int(message["next_sequence_recv"]), at, time, app_hash, proofs)

    def receive(self, packet: Packet, app_hash: bytes, proofs: tuple[bytes, bytes]) -> None:
        check(packet.dest == self.end and not self.is_closed, "another channel")
        expiry = packet.timeout_height
        check(expiry == NO_HEIGHT or (self.revision, self.height) < (expiry.revision, expiry.height), "the timeout height has passed")
        check(packet.timeout_time == 0 or self.time(self.height) < packet.timeout_time, "the timeout time has passed")
        verify_membership(app_hash, IBC, commitment_key(packet), packet.commitment(), *proofs)
        if self.is_ordered:
            check(packet.sequence == self.numbered("nextSequenceRecv"), "out of order")
            self.values[next_sequence_key(packet)] = eight_bytes(packet.sequence + 1)
        else:
            check(receipt_key(packet) not in self.values, "received before")
            self.values[receipt_key(packet)] = RECEIPT

    def write_acknowledgement(self, packet: Packet, acknowledgement: bytes) -> None:
        self.values[acknowledgement_key(packet)] = sha256(acknowledgement)

    def check_own(self, packet: Packet) -> None:
        check(packet.source == self.end and not self.is_closed, "another channel")
        check(self.values.get(commitment_key(packet)) == packet.commitment(), "another commitment, or none")

    def acknowledge(self, packet: Packet, acknowledgement: bytes, app_hash: bytes, proofs: tuple[bytes, bytes]) -> None:
        self.check_own(packet)
        verify_membership(app_hash, IBC, acknowledgement_key(packet), sha256(acknowledgement), *proofs)
        del self.values[commitment_key(packet)]

    def time_out(self, packet: Packet, following: int, at: Height, time: int, app_hash: bytes, proofs: tuple[bytes, bytes]) -> None:
        expiry = packet.timeout_height
        is_past = expiry != NO_HEIGHT and (at.revision, at.height) >= (expiry.revision, expiry.height) or 0 < packet.timeout_time <= time
        check(is_past, "no timeout has passed at the proof height")
        check(following > 0, "a next sequence of 0")
        self.check_own(packet)
        if self.is_ordered:
            check(following <= packet.sequence, "received before")
            verify_membership(app_hash, IBC, next_sequence_key(packet), eight_bytes(following), *proofs)
            self.is_closed = True
        else:
            verify_non_membership(app_hash, IBC, receipt_key(packet), *proofs)
        del self.values[commitment_key(packet)]


def proofs_in(text: bytes) -> tuple[bytes, bytes]:
    """The two proofs of a message's proof."""
    found = [value for number, value in fields(text) if number == 1 and isinstance(value, bytes)]
    check(len(found) == 2 and merkle_proof_bytes((found[0], found[1])) == text, "no Merkle proof of two")
    return found[0], found[1]
