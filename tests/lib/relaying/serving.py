"""Nodes and gateways of simulated chains over HTTP on loopback, each with a fault at will; requests are counted."""
import base64
import contextlib
import copy
import http.server
import json
import re
import socket
import socketserver
import threading
import time
import urllib.parse

from lib import answers
from lib.program import STEERING
from lib.relaying.chains import Chain
from lib.relaying.channels import PacketChain

PAGE = 1000


class Gone(Exception):
    """The connection is cut."""


class Source:
    """A node or a gateway. Its fault is a name of `FAULTS`, or none; it can change while it answers."""

    def __init__(self, chain, kind, clock):
        self.chain, self.kind, self.clock, self.fault, self.asked, self.address = chain, kind, clock, None, [], ""
        self.elsewhere, self.back, self.sent = None, 0, 0  # where it redirects to; by how many blocks it is behind; bytes of endless answers
        self.frozen_clients, self.frozen_at = {}, 0  # what a stale gateway tells, and of which block

    def answer(self, path, asked):
        """The status and the answer."""
        fault = self.fault
        if fault == "dead":
            raise Gone
        if fault == "busy":
            return 503, b"busy"
        if fault == "page":
            return 200, b"<html>" + STEERING.encode() + b"</html>"
        if fault == "list":
            return 200, b"[1]"
        if fault == "error":
            return 500, {"jsonrpc": "2.0", "id": -1, "error": {"code": -32603, "message": "Internal error", "data": STEERING + "\n$(touch here)"}}
        status, value = (node_answer if self.kind == "node" else gateway_answer)(self, path, asked)
        return status, LIES[fault](self, path, value) if fault in LIES and status == 200 else value


# ---- nodes


def error(data):
    return 500, {"jsonrpc": "2.0", "id": -1, "error": {"code": -32603, "message": "Internal error", "data": data}}


def result(value):
    return 200, {"jsonrpc": "2.0", "id": -1, "result": value}


def node_answer(source, path, asked):
    chain = source.chain
    latest = max(2, chain.latest - source.back)
    if path == "/status":
        about = {"network": chain.name, "other": {"tx_index": "on"}}
        sync = {"latest_block_height": str(latest), "latest_block_time": chain.stamp(latest), "catching_up": source.fault == "catching up"}
        return result({"node_info": about, "sync_info": sync, "validator_info": {}})
    if path == "/tx":
        found = chain.results.get(asked["hash"][0].removeprefix("0x"))
        return result(found) if found else error(f"tx ({asked['hash'][0]}) not found")
    if path == "/broadcast_tx_sync":
        hash_text, code, log = chain.broadcast(bytes.fromhex(asked["tx"][0].removeprefix("0x")))
        return result({"code": code, "log": log, "hash": hash_text})
    if path == "/sequence":
        return result({"sequence": str(chain.sequences.get(asked["signer"][0], 0))})
    if path == "/tx_search" and asked["query"] == ["\"message.action='/ibc.core.client.v1.MsgUpdateClient'\""]:
        return result({"txs": chain.past_updates[:int(asked["per_page"][0])], "total_count": str(len(chain.past_updates))})
    if path == "/tx_search":
        return chain.transfers.search(asked["query"][0])
    if path == "/abci_query":
        return chain.proof(asked)
    if path == "/block_results":
        return result(chain.block_results(int(asked.get("height", [str(latest)])[0])))
    height = int(asked.get("height", [str(latest)])[0])
    if height > latest:
        return error(f"height {height} must be less than or equal to the current blockchain height {latest}")
    if height < chain.lowest:
        return error(f"height {height} is not available, lowest height is {chain.lowest}")
    if path == "/commit":
        return 200, chain.commit(height)
    if path == "/validators":
        return validators(chain, height, int(asked.get("page", ["1"])[0]), min(100, int(asked.get("per_page", ["30"])[0])))
    return 404, {"error": "no such path"}


def validators(chain, height, page, size):
    members = chain.set_at(height)
    part = members[(page - 1) * size:page * size]
    if not part:
        return error("page should be within range")
    found = [{"address": answers.upper(address), "pub_key": {"type": "tendermint/PubKeyEd25519", "value": base64.b64encode(key.public).decode()},
              "voting_power": str(power), "proposer_priority": "-7"} for power, address, key in part]
    return result({"block_height": str(height), "validators": found, "count": str(len(part)), "total": str(len(members))})


# ---- gateways


def client_state(chain_of, client):
    none = {"revision_number": "0", "revision_height": "0"}
    return {"@type": "/ibc.lightclients.tendermint.v1.ClientState", "chain_id": chain_of.name, "trust_level": {"numerator": "1", "denominator": "3"},
            "trusting_period": f"{client.period // 10**9}s", "unbonding_period": f"{client.period * 3 // 2 // 10**9}s", "max_clock_drift": f"{client.drift // 10**9}s",
            "frozen_height": none | ({"revision_height": "1"} if client.frozen else {}), "latest_height": chain_of.at(client.latest())}


def consensus_state(chain_of, height, stored):
    seconds, rest = divmod(stored.nanos, 10**9)
    stamp = f"{answers.datetime.fromtimestamp(seconds, answers.timezone.utc):%Y-%m-%dT%H:%M:%S}" + (f".{rest:09}".rstrip("0") if rest else "") + "Z"
    return {"height": chain_of.at(height), "consensus_state": {
        "@type": "/ibc.lightclients.tendermint.v1.ConsensusState", "timestamp": stamp, "root": {"hash": base64.b64encode(stored.root).decode()},
        "next_validators_hash": answers.upper(stored.next)}}


def gateway_answer(source, path, asked):
    chain = source.chain
    is_stale = source.fault == "stale"
    clients, at = (source.frozen_clients, chain.at(source.frozen_at)) if is_stale else (chain.clients, chain.at(chain.latest))
    parts = path.strip("/").split("/")
    if path.startswith("/ibc/core/client/v1/client_states/"):
        client = clients.get(parts[-1])
        if client is None:
            return 404, {"code": 5, "message": "light client not found", "details": []}
        return 200, {"client_state": client_state(client.tracked, client), "proof": None, "proof_height": at}
    if path == "/ibc/core/client/v1/client_states":
        found = [{"client_id": name, "client_state": client_state(client.tracked, client)} for name, client in clients.items()]
        return 200, {"client_states": found, "pagination": {"next_key": None, "total": "0"}}
    if path.startswith("/ibc/core/client/v1/consensus_states/"):
        client = clients.get(parts[5])
        if client is None:
            return 404, {"code": 5, "message": "light client not found", "details": []}
        if len(parts) > 6:
            return 200, consensus_state(client.tracked, int(parts[9]), client.states[int(parts[9])])
        live = [(height, stored) for height, stored in sorted(client.states.items())]
        return 200, {"consensus_states": [consensus_state(client.tracked, height, stored) for height, stored in live], "pagination": {"next_key": None, "total": "0"}}
    if path == "/ibc/core/channel/v1/channels":
        return 200, {"channels": list(chain.channels.values()), "pagination": {"next_key": None, "total": "0"}, "height": chain.at(chain.latest)}
    if len(parts) == 8 and parts[6] == "ports":
        return 200, {"channel": chain.channels[parts[5]], "proof": None}
    if parts[5:6] == ["channel-7"] and parts[8:] == ["packet_commitments"]:  # no packets go this way
        return 200, {"commitments": [], "pagination": {"next_key": None, "total": "0"}, "height": chain.at(chain.latest)}
    if len(parts) > 8 and isinstance(chain, PacketChain):
        with chain.lock:
            return chain.answer_on(path, asked, chain.snapshots[source.frozen_at].values if is_stale else chain.values, at)
    if len(parts) > 8 and parts[6] == "ports":
        return chain.transfers.pending(path, asked)
    if path == "/ibc/core/connection/v1/connections":
        return 200, {"connections": list(chain.connections.values()), "pagination": {"next_key": None, "total": "0"}, "height": chain.at(chain.latest)}
    if path.startswith("/cosmos/bank/v1beta1/balances/"):
        return 200, {"balances": [{"denom": "u", "amount": "12345"}], "pagination": {"next_key": None, "total": "0"}}
    return 501, {"code": 12, "message": "Not Implemented", "details": []}


# ---- lies


def on_commit(change):
    def lie(source, path, value):
        if path != "/commit":
            return value
        value = copy.deepcopy(value)
        change(source, value["result"]["signed_header"])
        return value
    return lie


def other_root(_, signed):
    """A header that nobody signed, with a block id that fits."""
    signed["header"]["app_hash"] = "AB" * 32
    signed["commit"]["block_id"]["hash"] = answers.upper(answers.header_hash(signed["header"]))


def torn_header(_, signed):
    signed["header"]["app_hash"] = "CD" * 32


def bad_signatures(_, signed):
    for entry in signed["commit"]["signatures"]:
        if entry["signature"]:
            entry["signature"] = base64.b64encode(bytes(64)).decode()


def high(_, path, value):
    if path == "/status":
        value["result"]["sync_info"]["latest_block_height"] = "900000000000"
    return value


def future(_, path, value):
    if path == "/status":
        value["result"]["sync_info"]["latest_block_time"] = "2031-01-01T00:00:00Z"
    return value


def other_proofs(_, path, value):
    """A proof with a byte that is another."""
    if path == "/abci_query":
        op = value["result"]["response"]["proofOps"]["ops"][0]
        proof = bytearray(base64.b64decode(op["data"]))
        proof[-1] ^= 1
        op["data"] = base64.b64encode(proof).decode()
    return value


def no_proofs(_, path, value):
    if path == "/abci_query":
        value["result"]["response"]["proofOps"] = None
    return value


def other_packets(_, path, value):
    """Packets with other data."""
    return json.loads(re.sub(r'(?<="packet_data_hex", "value": ")[0-9a-f]{2}', "ff", json.dumps(value))) if path == "/tx_search" else value


def hidden(*kinds):
    """Empty lists in the place of commitments, of sequences that weren't received, or of transactions."""
    def lie(_, path, value):
        if path == "/tx_search" and "txs" in kinds:
            value["result"] |= {"txs": [], "total_count": "0"}
        return value | {kind: [] for kind in kinds if kind in value}
    return lie


def endless_pages(_, path, value):
    """Pages that always name another one."""
    return value | {"pagination": {"next_key": "AAAA", "total": "0"}} if "pagination" in value else value


def many_validators(_, path, value):
    """A page of validators that tells of a great many others."""
    if path == "/validators" and "result" in value:
        value["result"]["total"] = "100000"
    return value


def padded(_, path, value):
    """Answers with much that nobody wants."""
    return value | {"padding": "x" * 200_000}


def other_chain(_, path, value):
    return json.loads(json.dumps(value).replace("hub-4", "hub-5").replace("zone-1", "zone-9"))


def other_records(_, path, value):
    if "consensus_states" in path:
        for state in value["consensus_states"]:
            state["consensus_state"]["root"]["hash"] = base64.b64encode(bytes(32)).decode()
    return value


def made_up(source, path, value):
    """A chain of the node's own, with validators that it made up, over the same heights."""
    if path not in ("/commit", "/validators") or "result" not in value:
        return value
    own = source.__dict__.setdefault("own", Chain(source.chain.name, "made up", size=source.chain.size))
    own.key = lambda number: Chain.key(own, number + 10**6)
    own.times, own.latest = source.chain.times, source.chain.latest
    signed = value["result"].get("signed_header")
    if signed:
        return own.commit(int(signed["header"]["height"]))
    return validators(own, int(value["result"]["block_height"]), 1, 100)[1]


def steered(_, path, value):
    """Words that steer a terminal and a shell in each text."""
    def change(item):
        if isinstance(item, dict):
            return {key: change(inner) for key, inner in item.items()}
        if isinstance(item, list):
            return [change(inner) for inner in item]
        return STEERING + "$(touch here)`touch here`;../../here" + item if isinstance(item, str) else item
    return change(value)


LIES = {"other root": on_commit(other_root), "torn header": on_commit(torn_header), "bad signatures": on_commit(bad_signatures), "high": high, "future": future, "other chain": other_chain,
        "other records": other_records, "made up": made_up, "steered": steered, "other proofs": other_proofs, "no proofs": no_proofs, "other packets": other_packets, "no packets": hidden("txs"), "hides commitments": hidden("commitments"),
        "hides receipts": hidden("sequences"), "hides all": hidden("commitments", "sequences"), "endless pages": endless_pages, "padded": padded, "many validators": many_validators}
OF_OTHERS = ("other records", "other proofs", "no proofs", "other packets", "no packets", "hides commitments", "hides receipts", "hides all", "endless pages", "padded")  # lies of gateways, or about packets alone, and what is only much
NODE_FAULTS = ["dead", "busy", "page", "list", "error", "redirect", "drip", "endless", "catching up", *(name for name in LIES if name not in OF_OTHERS)]
GATEWAY_FAULTS = ["dead", "busy", "page", "list", "error", "redirect", "drip", "other records", "steered", "other chain", "endless pages"]


class Server(socketserver.ThreadingMixIn, http.server.HTTPServer):
    daemon_threads, request_queue_size = True, 64

    def handle_error(self, *_):
        pass


@contextlib.contextmanager
def serve(source):
    """The address of a source, while it answers."""
    class Handler(http.server.BaseHTTPRequestHandler):
        protocol_version = "HTTP/1.1"

        def setup(self):
            super().setup()
            self.connection.setsockopt(socket.IPPROTO_TCP, socket.TCP_NODELAY, 1)

        def do_GET(self):
            address = urllib.parse.urlsplit(self.path)
            if address.path == "/advance":  # the clock of another process
                source.clock.advance_to(int(urllib.parse.parse_qs(address.query)["to"][0]))
                return self.whole(200, b"{}")
            source.asked.append(self.path)
            with contextlib.suppress(ConnectionError):
                try:
                    self.respond(address)
                except Gone:
                    self.close_connection = True
                    self.connection.close()

        def respond(self, address):
            if source.fault == "redirect":
                return self.whole(302, b"", Location=f"{source.elsewhere}{self.path}")
            if source.fault in ("drip", "endless"):
                self.send_response(200)
                self.end_headers()
                self.close_connection = True
                part = b'{"":0},' * 10_000 if source.fault == "endless" else b" "
                for _ in range(3_000):
                    self.wfile.write(part)
                    source.sent += len(part)
                    time.sleep(0 if source.fault == "endless" else 0.1)
                return None
            self.close_connection = self.close_connection or self.headers.get("Connection") == "close"
            status, value = source.answer(address.path, urllib.parse.parse_qs(address.query))
            return self.whole(status, value if isinstance(value, bytes) else json.dumps(value).encode())

        def whole(self, status, body, **headers):
            self.send_response(status)
            self.send_header("Content-Length", str(len(body)))
            for name, value in headers.items():
                self.send_header(name, value)
            self.end_headers()
            self.wfile.write(body)

        def log_message(self, *_):
            pass

    server = Server(("127.0.0.1", 0), Handler)
    threading.Thread(target=server.serve_forever, args=(0.05,), daemon=True).start()
    try:
        yield f"http://127.0.0.1:{server.server_port}"
    finally:
        server.shutdown()
        server.server_close()
