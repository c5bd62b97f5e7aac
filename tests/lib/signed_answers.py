"""Made-up answers of CometBFT's `/commit` and `/validators` whose votes are signed, by keys that stand here.

The bytes that are signed are put together by hand, and sets are hashed by answers.py: no code is shared with tools/.
It needs python3-cryptography."""
import base64
import hashlib
import struct

from lib import answers
from cryptography.hazmat.primitives.asymmetric import ec, ed25519
from cryptography.hazmat.primitives.asymmetric.utils import decode_dss_signature
from cryptography.hazmat.primitives.hashes import SHA256
from cryptography.hazmat.primitives.serialization import Encoding, PublicFormat

ABSENT, COMMIT, NIL = 1, 2, 3
ORDER = 0xFFFFFFFFFFFFFFFFFFFFFFFFFFFFFFFEBAAEDCE6AF48A03BBFD25E8CD0364141  # of secp256k1's group
SECONDS, STAMP = 1_793_534_400, "2026-11-01T12:00:00"  # the moment of all votes, but for its fraction


class Ed25519:
    """A validator with a key of ed25519."""

    json_type, leaf_head = "tendermint/PubKeyEd25519", b"\x0a\x22\x0a\x20"

    def __init__(self, secret):
        self.private = ed25519.Ed25519PrivateKey.from_private_bytes(secret)
        self.public = self.private.public_key().public_bytes(Encoding.Raw, PublicFormat.Raw)
        self.address = hashlib.sha256(self.public).digest()[:20]

    def sign(self, message):
        return self.private.sign(message)


class Secp256k1:
    """A validator with a key of secp256k1."""

    json_type, leaf_head = "tendermint/PubKeySecp256k1", b"\x0a\x23\x12\x21"

    def __init__(self, secret):
        self.private = ec.derive_private_key(int.from_bytes(secret, "big"), ec.SECP256K1())
        self.public = self.private.public_key().public_bytes(Encoding.X962, PublicFormat.CompressedPoint)
        self.address = hashlib.new("ripemd160", hashlib.sha256(self.public).digest()).digest()

    def sign(self, message):
        r, s = decode_dss_signature(self.private.sign(message, ec.ECDSA(SHA256())))
        return r.to_bytes(32, "big") + min(s, ORDER - s).to_bytes(32, "big")


class Bls:
    """A validator whose key is of a type that the tool doesn't check; its key and signatures are no real ones."""

    json_type, leaf_head = "cometbft/PubKeyBls12_381", b"\x0a\x62\x1a\x60"

    def __init__(self, secret):
        self.public = b"".join(hashlib.sha256(secret + bytes([part])).digest() for part in range(3))
        self.address = hashlib.sha256(self.public).digest()[:20]

    def sign(self, message):
        return hashlib.sha512(self.public + message).digest() + bytes(32)


def sorted_set(members):
    """(validator, power) in set order."""
    return sorted(members, key=lambda member: (-member[1], member[0].address))


def set_hash(members):
    return answers.root([signer.leaf_head + signer.public + b"\x10" + answers.varint(power) for signer, power in sorted_set(members)])


def plain_sign_bytes(chain, height, round_number, block, seconds, nanos):
    """The bytes of a precommit; `block` is none, or a hash, fewer than 128 parts and their hash."""
    vote = b"\x08\x02\x11" + struct.pack("<q", height)
    if round_number:
        vote += b"\x19" + struct.pack("<q", round_number)
    if block:
        vote += b"\x22\x48\x0a\x20" + block[0] + b"\x12\x24\x08" + bytes([block[1]]) + b"\x12\x20" + block[2]
    time = b"\x08" + answers.varint(seconds) + (b"\x10" + answers.varint(nanos) if nanos else b"")
    vote += b"\x2a" + bytes([len(time)]) + time + b"\x32" + bytes([len(chain)]) + chain.encode()
    return answers.varint(len(vote)) + vote


def block_of(chain, height):
    return answers.sha(f"block {height} of {chain}".encode()), 1 + height % 100, answers.sha(f"parts {height} of {chain}".encode())


def commit_answer(chain, height, members, flags, round_number=0, signed_for=None):
    """The answer of `/commit`, whose votes are signed for this chain or another one."""
    block, signatures = block_of(chain, height), []
    for place, ((signer, _), flag) in enumerate(zip(sorted_set(members), flags)):
        nanos = 0 if place == 0 else 1_000 * place + height
        message = plain_sign_bytes(signed_for or chain, height, round_number, block if flag == COMMIT else None, SECONDS, nanos)
        stamp = STAMP + (f".{nanos:09}".rstrip("0") if nanos else "") + "Z"
        signatures.append({"block_id_flag": ABSENT, "validator_address": "", "timestamp": "0001-01-01T00:00:00Z", "signature": None}
                          if flag == ABSENT else
                          {"block_id_flag": flag, "validator_address": answers.upper(signer.address), "timestamp": stamp,
                           "signature": base64.b64encode(signer.sign(message)).decode()})
    header = {"version": {"block": "11"}, "chain_id": chain, "height": str(height), "time": STAMP + "Z",
              "validators_hash": answers.upper(set_hash(members)), "next_validators_hash": answers.upper(set_hash(members))}
    block_id = {"hash": answers.upper(block[0]), "parts": {"total": block[1], "hash": answers.upper(block[2])}}
    commit = {"height": str(height), "round": round_number, "block_id": block_id, "signatures": signatures}
    return {"jsonrpc": "2.0", "id": -1, "result": {"signed_header": {"header": header, "commit": commit}, "canonical": True}}


def page_answers(height, members, size=100):
    """The answers of `/validators`, page by page."""
    members = sorted_set(members)
    for begin in range(0, len(members), size):
        page = [{"address": answers.upper(signer.address), "voting_power": str(power), "proposer_priority": "-7",
                 "pub_key": {"type": signer.json_type, "value": base64.b64encode(signer.public).decode()}}
                for signer, power in members[begin:begin + size]]
        yield {"jsonrpc": "2.0", "id": -1, "result": {"block_height": str(height), "validators": page, "count": str(len(page)),
                                                      "total": str(len(members))}}
