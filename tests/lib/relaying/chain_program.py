"""A chain's program in tests: signs, encodes and broadcasts transactions by a simulated chain's node. What it is called with is logged to $CALLS. If
the file $DIE_FILE names a call, as `broadcast before` or `broadcast after`, its caller is killed there."""
import base64
import json
import os
import signal
import socket
import sys


def asked(node, path):
    """A node's answer, over a connection of its own."""
    host, _, port = node.removeprefix("http://").partition(":")
    with socket.create_connection((host, int(port)), timeout=300) as connection:
        connection.sendall(f"GET {path} HTTP/1.1\r\nHost: {host}\r\nConnection: close\r\n\r\n".encode())
        answer = b"".join(iter(lambda: connection.recv(65_536), b""))
    return json.loads(answer.partition(b"\r\n\r\n")[2])["result"]


def option(words, name, default=None):
    return words[words.index(name) + 1] if name in words else default


def die(moment):
    place = os.environ.get("DIE_FILE")
    if place and os.path.exists(place):
        with open(place) as file:
            wanted = file.read()
        if wanted == moment:
            os.unlink(place)
            os.kill(os.getppid(), signal.SIGKILL)
            sys.exit(9)


def transaction_bytes(words):
    with open(words[2]) as file:
        return json.dumps(json.load(file), sort_keys=True).encode()


def main(words):
    if os.environ.get("CALLS"):
        with open(os.environ["CALLS"], "a") as log:
            log.write(json.dumps(words) + "\n")
    node, what = option(words, "--node"), words[1]
    if what == "sign":
        with open(words[2]) as file:
            unsigned = json.load(file)
        signer = option(words, "--from")
        signed = unsigned | {"signer": signer, "sequence": int(asked(node, f"/sequence?signer={signer}")["sequence"]), "signatures": ["c2ln"]}
        die("sign")
        with open(option(words, "--output-document"), "w") as file:
            json.dump(signed, file)
    elif what == "encode":
        die("encode")
        print(base64.b64encode(transaction_bytes(words)).decode())
    elif what == "broadcast":
        die("broadcast before")
        found = asked(node, f"/broadcast_tx_sync?tx=0x{transaction_bytes(words).hex()}")
        die("broadcast after")
        print(json.dumps({"txhash": found["hash"], "code": found["code"], "raw_log": found["log"]}))
    elif words[:2] == ["keys", "show"]:
        die("keys")
        if {word for word in words if word.startswith("--")} - {"--address", "--keyring-backend"}:
            sys.exit("unknown flag")
        print("cosmos1qy352eufqy352eufqy352eufqy35qqqz0kg2hh")
    else:
        print("unknown", file=sys.stderr)
        sys.exit(1)


main(sys.argv[1:])
