"""Verifies the signature of a vote by its validator's key, with Python's `cryptography` (Debian's
python3-cryptography).

ed25519: RFC 8032, as OpenSSL verifies it. CometBFT verifies by ZIP 215, which takes all that OpenSSL takes, and some
more signatures, which a signer makes only on purpose. So what OpenSSL refuses is tried by that rule, too (zip215.py).

secp256k1: ECDSA over SHA-256. The key is a compressed point, the signature r and s in 32 bytes each, and s is at
most half the group's order (CometBFT, `crypto/secp256k1`, `VerifySignature`)."""
import zip215
from cryptography.exceptions import InvalidSignature
from cryptography.hazmat.primitives.asymmetric.ec import ECDSA, SECP256K1 as CURVE, EllipticCurvePublicKey
from cryptography.hazmat.primitives.asymmetric.ed25519 import Ed25519PublicKey
from cryptography.hazmat.primitives.asymmetric.utils import encode_dss_signature
from cryptography.hazmat.primitives.hashes import SHA256
from signed_commits import ED25519, SECP256K1

SECP256K1_ORDER = 0xFFFFFFFF_FFFFFFFF_FFFFFFFF_FFFFFFFE_BAAEDCE6_AF48A03B_BFD25E8C_D0364141


def is_valid_ed25519(key: bytes, message: bytes, signature: bytes) -> bool:
    try:
        Ed25519PublicKey.from_public_bytes(key).verify(signature, message)
        return True
    except (InvalidSignature, ValueError):
        return zip215.is_valid(key, message, signature)


def is_valid_secp256k1(key: bytes, message: bytes, signature: bytes) -> bool:
    r, s = int.from_bytes(signature[:32], "big"), int.from_bytes(signature[32:], "big")
    if len(key) != 33 or len(signature) != 64 or not 0 < r < SECP256K1_ORDER or not 0 < s <= SECP256K1_ORDER // 2:
        return False
    try:
        EllipticCurvePublicKey.from_encoded_point(CURVE(), key).verify(encode_dss_signature(r, s), message, ECDSA(SHA256()))
        return True
    except (InvalidSignature, ValueError):
        return False


RULES = {ED25519: is_valid_ed25519, SECP256K1: is_valid_secp256k1}


def is_checkable(key_type: str) -> bool:
    return key_type in RULES


def is_valid(key_type: str, key: bytes, message: bytes, signature: bytes) -> bool:
    """Whether a signature over a message is valid by a key of a type that can be checked."""
    return RULES[key_type](key, message, signature)
