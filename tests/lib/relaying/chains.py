"""Simulated chains: blocks with real hashes and signatures, validator sets that change, strict light clients that verify everything, accounts, and transactions
that are included in the next block. Without python3-cryptography signatures are made up, and not verified."""
import base64
import dataclasses
import hashlib
import json
import random
import threading

from lib import answers

try:
    from lib import signed_answers
    from cryptography.exceptions import InvalidSignature
    from cryptography.hazmat.primitives.asymmetric.ed25519 import Ed25519PublicKey
except ImportError:
    signed_answers = None

SIGNED = signed_answers is not None
BEGIN = int((answers.START - answers.datetime(1970, 1, 1, tzinfo=answers.timezone.utc)).total_seconds()) * 10**9
FLAGS = {"BLOCK_ID_FLAG_ABSENT": 1, "BLOCK_ID_FLAG_COMMIT": 2, "BLOCK_ID_FLAG_NIL": 3}
HASHES = ("last_commit_hash", "data_hash", "validators_hash", "next_validators_hash", "consensus_hash", "app_hash", "last_results_hash", "evidence_hash",
          "proposer_address")


class MadeUp:
    """A validator without python3-cryptography."""

    def __init__(self, secret):
        self.public = hashlib.sha256(b"public" + secret).digest()
        self.address = hashlib.sha256(self.public).digest()[:20]

    def sign(self, message):
        return hashlib.sha512(self.public + message).digest()


def signer(secret):
    return signed_answers.Ed25519(secret) if SIGNED else MadeUp(secret)


def sign_bytes(chain, height, block, nanos):
    """The bytes of a precommit of round 0 for a block: its hash, the number of its parts and their hash."""
    seconds, rest = divmod(nanos, 10**9)
    if not SIGNED:
        return f"{chain} {height} {block} {nanos}".encode()
    return signed_answers.plain_sign_bytes(chain, height, 0, block, seconds, rest)


def is_signature(public, message, signature):
    if not SIGNED:
        return signature == hashlib.sha512(public + message).digest()
    try:
        Ed25519PublicKey.from_public_bytes(public).verify(signature, message)
        return True
    except (InvalidSignature, ValueError):
        return False


@dataclasses.dataclass
class Stored:
    """A consensus state."""

    nanos: int
    root: bytes
    next: bytes


class Refusal(Exception):
    """Why a light client or an account takes a transaction not."""


class LightClient:
    """A Tendermint client (ICS 7) that verifies everything: hashes of header and sets, signatures, powers, times."""

    def __init__(self, tracked, period, first, drift=40):
        self.tracked, self.period, self.drift = tracked, period * 10**9, drift * 10**9
        self.states, self.repeats, self.updates = {first: tracked.stored(first)}, 0, 0
        self.frozen = False

    def latest(self):
        return max(self.states)

    def update(self, written, now):
        """Takes an update, or refuses it."""
        if self.frozen:
            raise Refusal("client is frozen")
        signed, trusted = written["signed_header"], int(written["trusted_height"]["revision_height"])
        header, height = header_of(signed["header"]), int(signed["header"]["height"])
        if height in self.states:
            self.repeats += 1
            return
        base = self.states.get(trusted)
        if base is None:
            raise Refusal(f"no consensus state at {trusted}")
        own, before = members_of(written["validator_set"]), members_of(written["trusted_validators"])
        nanos = answers.nanoseconds(header["time"])
        self.check_head(header, own, before, base, nanos, now, height <= trusted)
        commit = signed["commit"]
        block = base64.b64decode(commit["block_id"]["hash"])
        if block != bytes.fromhex(answers.header_hash(header).hex()):
            raise Refusal("the block isn't the header's")
        signers = self.signers(commit, block, own)
        if 3 * sum(power for address, power, _ in own if address in signers) <= 2 * sum(power for _, power, _ in own):
            raise Refusal("not two thirds of its own set")
        if height == trusted + 1:
            if bytes.fromhex(header["validators_hash"]) != base.next:
                raise Refusal("the next header has another set")
        elif 3 * sum(power for address, power, _ in before if address in signers) <= sum(power for _, power, _ in before):
            raise Refusal("not enough trust")
        self.states[height] = Stored(nanos, bytes.fromhex(header["app_hash"]), bytes.fromhex(header["next_validators_hash"]))
        self.updates += 1

    def check_head(self, header, own, before, base, nanos, now, is_below):
        if header["chain_id"] != self.tracked.name:
            raise Refusal("another chain")
        if is_below or nanos <= base.nanos:
            raise Refusal("not above the trusted state")
        if base.nanos + self.period <= now:
            raise Refusal("the trusted state has expired")
        if nanos >= now + self.drift:
            raise Refusal("from the future")
        if hash_of(own) != bytes.fromhex(header["validators_hash"]) or hash_of(before) != base.next:
            raise Refusal("a set has another hash")

    def signers(self, commit, block, own):
        """The addresses of the members of the own set that signed for the block; each signature has to be good."""
        parts = commit["block_id"]["part_set_header"]
        found = set()
        if len(commit["signatures"]) != len(own):
            raise Refusal("another number of votes")
        for entry, (address, _, public) in zip(commit["signatures"], own):
            if FLAGS[entry["block_id_flag"]] == 1:
                continue
            if base64.b64decode(entry["validator_address"]) != address:
                raise Refusal("a vote of another validator")
            is_commit = FLAGS[entry["block_id_flag"]] == 2
            whole = (block, parts["total"], base64.b64decode(parts["hash"])) if is_commit else None
            message = sign_bytes(self.tracked.name, int(commit["height"]), whole, answers.nanoseconds(entry["timestamp"]))
            if not is_signature(public, message, base64.b64decode(entry["signature"])):
                raise Refusal("a signature isn't good")
            if is_commit:
                found.add(address)
        return found

    def expires(self):
        return self.states[self.latest()].nanos + self.period


def header_of(head):
    """A header of a message as nodes write it."""
    last = head["last_block_id"]
    return head | {name: base64.b64decode(head[name]).hex().upper() for name in HASHES} | {
        "last_block_id": {"hash": base64.b64decode(last["hash"]).hex().upper(),
                          "parts": {"total": last["part_set_header"]["total"], "hash": base64.b64decode(last["part_set_header"]["hash"]).hex().upper()}}}


def members_of(written):
    """The members of a set in a message: (address, power, key)."""
    return [(base64.b64decode(v["address"]), int(v["voting_power"]), base64.b64decode(v["pub_key"]["ed25519"])) for v in written["validators"]]


def hash_of(members):
    return answers.set_hash([(power, address, key) for address, power, key in members])


class Chain:
    """A chain whose blocks come one after another. `change` is after how many blocks a validator is replaced, `switch` the heights from which on all are."""

    def __init__(self, name, seed, size=4, change=0, switch=(), seconds=6):
        self.name, self.chance, self.size, self.change, self.switch, self.seconds = name, random.Random(f"{name} {seed}"), size, change, tuple(switch), seconds
        self.lock, self.is_halted = threading.RLock(), False
        self.keys, self.sets, self.commits = {}, {}, {}
        self.slot = BEGIN  # the moment of the latest block, up to a millisecond
        self.times, self.latest = {1: BEGIN}, 1
        self.clients, self.channels, self.connections = {}, {}, {}
        self.sequences, self.pool, self.results = {}, [], {}
        self.broadcasts, self.lowest = [], 1
        self.past_updates = []  # transactions of before (`past_update`)

    # ---- blocks

    def key(self, number):
        if number not in self.keys:
            self.keys[number] = signer(hashlib.sha256(f"{self.name} {number}".encode()).digest())
        return self.keys[number]

    def set_at(self, height):
        """(power, address, signer) in set order."""
        first = height // self.change if self.change else 0
        first += 1_000 * sum(height >= at for at in self.switch)
        if first not in self.sets:
            members = [(1_000 + number % 7, self.key(number).address, self.key(number)) for number in range(first, first + self.size)]
            self.sets[first] = sorted(members, key=lambda m: (-m[0], m[1]))
        return self.sets[first]

    def set_hash(self, height):
        return answers.set_hash([(power, address, key.public) for power, address, key in self.set_at(height)])

    def root(self, height):
        return hashlib.sha256(f"{self.name} root {height}".encode()).digest()

    def stored(self, height):
        return Stored(self.times[height], self.root(height), self.set_hash(height + 1))

    def stamp(self, height):
        seconds, rest = divmod(self.times[height], 10**9)
        moment = answers.datetime.fromtimestamp(seconds, answers.timezone.utc)
        return f"{moment:%Y-%m-%dT%H:%M:%S}" + (f".{rest:09}".rstrip("0") if rest else "") + "Z"

    def produce_until(self, nanos):
        """Makes the blocks up to a moment; the first takes the transactions that wait."""
        with self.lock:
            if self.is_halted:
                return
            while self.slot + self.seconds * 10**9 + 10**6 <= nanos:
                self.make_block()

    def make_block(self):
        """The next block, with the transactions that wait."""
        self.slot += self.seconds * 10**9
        self.latest += 1
        self.times[self.latest] = self.slot + self.chance.randrange(10**6)
        pool, self.pool = self.pool, []
        for hash_text, tx in pool:
            self.include(hash_text, tx)

    def resume(self, nanos):
        """Goes on after a halt, with a block of this moment."""
        with self.lock:
            self.is_halted = False
            self.slot = max(self.slot, nanos - self.seconds * 10**9 - 10**6)
            self.produce_until(nanos)

    def header(self, height):
        some = {name: answers.upper(answers.sha(f"{self.name} {name} {height}".encode())) for name in ("last_commit_hash", "data_hash", "consensus_hash", "last_results_hash", "evidence_hash")}
        return {"version": {"block": "11"}, "chain_id": self.name, "height": str(height), "time": self.stamp(height),
                "last_block_id": {"hash": some["data_hash"], "parts": {"total": 1, "hash": some["data_hash"]}}, **some,
                "validators_hash": answers.upper(self.set_hash(height)), "next_validators_hash": answers.upper(self.set_hash(height + 1)),
                "app_hash": answers.upper(self.root(height)), "proposer_address": answers.upper(self.set_at(height)[0][1])}

    def flags(self, height):
        """At most one validator of the set is absent or votes for no block."""
        chance = answers.sha(f"{self.name} flags {height}".encode())[0]
        flags = [2] * self.size
        if chance % 3 == 0 and self.size > 3:
            flags[chance % self.size] = 1 + 2 * (chance // 3 % 2)
        return flags

    def commit(self, height):
        """The answer of `/commit`."""
        with self.lock:
            if height not in self.commits:
                header = self.header(height)
                parts = hashlib.sha256(f"{self.name} parts {height}".encode()).digest()
                block = (answers.header_hash(header), 1, parts)
                votes = [self.vote(height, block, place, flag) for place, flag in enumerate(self.flags(height))]
                block_id = {"hash": answers.upper(block[0]), "parts": {"total": 1, "hash": answers.upper(parts)}}
                self.commits[height] = {"header": header, "commit": {"height": str(height), "round": 0, "block_id": block_id, "signatures": votes}}
            return {"jsonrpc": "2.0", "id": -1, "result": {"signed_header": self.commits[height], "canonical": height < self.latest}}

    def vote(self, height, block, place, flag):
        if flag == 1:
            return {"block_id_flag": 1, "validator_address": "", "timestamp": "0001-01-01T00:00:00Z", "signature": None}
        _, address, key = self.set_at(height)[place]
        message = sign_bytes(self.name, height, block if flag == 2 else None, self.times[height])
        return {"block_id_flag": flag, "validator_address": answers.upper(address), "timestamp": self.stamp(height),
                "signature": base64.b64encode(key.sign(message)).decode()}

    # ---- transactions

    def broadcast(self, data):
        """What a node answers to a transaction; it waits in the pool if its account's sequence is right."""
        hash_text = hashlib.sha256(data).hexdigest().upper()
        with self.lock:
            if hash_text in self.results or any(hash_text == other for other, _ in self.pool):
                return hash_text, 19, "tx already exists in cache"
            tx = json.loads(data)
            self.broadcasts.append(hash_text)
            waiting = sum(tx["signer"] == other["signer"] for _, other in self.pool)
            if tx["sequence"] != self.sequences.get(tx["signer"], 0) + waiting:
                return hash_text, 32, "account sequence mismatch"
            if 0 < int(tx["body"]["timeout_height"]) < self.latest + 1:
                return hash_text, 30, "tx timeout height"
            self.pool.append((hash_text, tx))
            return hash_text, 0, ""

    def include(self, hash_text, tx):
        """Does what a transaction says, whole or not at all."""
        if 0 < int(tx["body"]["timeout_height"]) < self.latest or tx["sequence"] != self.sequences.get(tx["signer"], 0):
            return
        self.sequences[tx["signer"]] = tx["sequence"] + 1
        code, log, before = 0, "", self.saved()
        for message in tx["body"]["messages"]:
            try:
                self.take(message)
            except Refusal as refusal:
                code, log = 8, str(refusal)
                self.restore(before)
                break
        self.results[hash_text] = {"hash": hash_text, "height": str(self.latest), "index": 0, "tx_result": {"code": code, "log": log, "gas_wanted": "1", "gas_used": "91000", "events": []}}

    def take(self, message):
        """Does what a message says, or refuses it."""
        self.clients[message["client_id"]].update(message["client_message"], self.times[self.latest])

    def saved(self):
        """What a transaction that fails leaves as it was."""
        return {name: (dict(client.states), client.updates) for name, client in self.clients.items()}

    def restore(self, before):
        for name, (states, updates) in before.items():
            self.clients[name].states, self.clients[name].updates = states, updates

    def at(self, height):
        return {"revision_number": self.name.rsplit("-", 1)[1], "revision_height": str(height)}


# ---- transactions of before


def past_update(gas, client="07-tendermint-0", code=0, messages=1):
    """A transaction as an index tells it: an update of a client, with other messages behind it."""
    told = [("update_client", "client_id", client), *[("message", "action", "/ibc.core.client.v1.MsgUpdateClient")] * messages]
    events = [{"type": kind, "attributes": [{"key": key, "value": value, "index": True}]} for kind, key, value in told]
    return {"hash": "00" * 32, "height": "5", "tx_result": {"code": code, "gas_wanted": str(2 * gas), "gas_used": str(gas), "events": events}, "tx": ""}
