"""Long made-up chains, and a node and a gateway that answer for them as CometBFT's and ibc-go's do, with pages and errors; requests are counted."""
import base64
import contextlib
import functools
import hashlib
import http.server
import json
import re
import threading
import urllib.parse
from datetime import timedelta

from lib import answers
from lib.program import STEERING, TOP

BLOCK = timedelta(seconds=6)


def number_of(*words):
    return int.from_bytes(hashlib.sha256("/".join(map(str, words)).encode()).digest()[:8], "big")


class LongChain:
    """A chain of so many blocks and validators, of one of four kinds: `quiet`, whose powers move a little; `switch`, all of whose validators change at
    once at a height; `sway`, all of whose validators change at once each so many blocks, to and fro; `churn`, one of whose validators is replaced each so
    many blocks."""

    def __init__(self, name, kind, blocks, size, change=0, lowest=1):
        self.name, self.kind, self.blocks, self.size, self.change, self.lowest = name, kind, blocks, size, change, lowest
        self.members = functools.cache(self.members)
        self.set_hash = functools.cache(self.set_hash)

    def key(self, number):
        return hashlib.sha256(f"{self.name}/{number}".encode()).digest()

    def first_member(self, height):
        if self.kind == "switch":
            return self.size if height >= self.change else 0
        if self.kind == "sway":
            return self.size * (height // self.change % 2)
        return height // self.change if self.kind == "churn" else 0

    def members(self, height):
        """(power, address, key) in set order."""
        first = self.first_member(height)
        powers = ((number + height // 7) % 5 if self.kind == "quiet" else 0 for number in range(first, first + self.size))
        return answers.in_order([(self.key(number), 1000 + power) for number, power in enumerate(powers, first)])

    def set_hash(self, height):
        return answers.set_hash(self.members(height))

    def time(self, height):
        return answers.START + BLOCK * height

    def stamp(self, height):
        return self.time(height).strftime("%Y-%m-%dT%H:%M:%S") + "Z"

    def flags(self, height):
        """3 of 100 votes are absent, and one of 100 is nil."""
        chances = (number_of(self.name, height, place) % 100 for place in range(self.size))
        return [1 if chance < 3 else 3 if chance == 3 else 2 for chance in chances]

    def root(self, height):
        return hashlib.sha256(f"{self.name} root {height}".encode()).digest()

    def commit(self, height):
        some = {name: answers.upper(answers.sha(f"{name} {height}".encode())) for name in (
            "last_commit_hash", "data_hash", "consensus_hash", "last_results_hash", "evidence_hash")}
        header = {"version": {"block": "11"}, "chain_id": self.name, "height": str(height), "time": self.stamp(height),
                  "last_block_id": {"hash": some["data_hash"], "parts": {"total": 1, "hash": some["data_hash"]}}, **some,
                  "validators_hash": answers.upper(self.set_hash(height)), "next_validators_hash": answers.upper(self.set_hash(height + 1)),
                  "app_hash": answers.upper(self.root(height)), "proposer_address": answers.upper(self.members(height)[0][1])}
        signatures = []
        for (_, address, _), flag in zip(self.members(height), self.flags(height)):
            signatures.append({"block_id_flag": 1, "validator_address": "", "timestamp": "0001-01-01T00:00:00Z", "signature": None} if flag == 1 else
                              {"block_id_flag": flag, "validator_address": answers.upper(address), "timestamp": self.stamp(height),
                               "signature": base64.b64encode(bytes(64)).decode()})
        block = {"hash": answers.upper(answers.header_hash(header)), "parts": {"total": 1, "hash": some["data_hash"]}}
        commit = {"height": str(height), "round": 0, "block_id": block, "signatures": signatures}
        return {"jsonrpc": "2.0", "id": -1, "result": {"signed_header": {"header": header, "commit": commit}, "canonical": height < self.blocks}}

    def validators(self, height, page, size):
        members = self.members(height)
        part = members[(page - 1) * size:page * size]
        if not part:
            return self.error(f"page should be within [1, {-(-len(members) // size)}] range, given {page}")
        return {"jsonrpc": "2.0", "id": -1, "result": {"block_height": str(height), "validators": [
            {"address": answers.upper(address), "pub_key": {"type": "tendermint/PubKeyEd25519", "value": base64.b64encode(key).decode()},
             "voting_power": str(power), "proposer_priority": "-7"} for power, address, key in part], "count": str(len(part)), "total": str(len(members))}}

    def status(self):
        return {"jsonrpc": "2.0", "id": -1, "result": {"node_info": {"network": self.name}, "sync_info": {"latest_block_height": str(self.blocks), "catching_up": False}}}

    def error(self, data):
        return {"jsonrpc": "2.0", "id": -1, "error": {"code": -32603, "message": "Internal error", "data": STEERING + data}}

    def at(self, height):
        return {"revision_number": self.name.rsplit("-", 1)[1], "revision_height": str(height)}

    def record(self, height):
        return {"height": self.at(height), "consensus_state": {
            "@type": "/ibc.lightclients.tendermint.v1.ConsensusState", "timestamp": self.stamp(height),
            "root": {"hash": base64.b64encode(self.root(height)).decode()}, "next_validators_hash": answers.upper(self.set_hash(height + 1))}}

    def answer(self, path, asked):
        """The status and the answer to what a node is asked."""
        height = int(asked.get("height", [str(self.blocks)])[0])
        if path == "/status":
            return 200, self.status()
        if path == "/tx_search":
            return self.transfers.search(asked["query"][0])
        if height > self.blocks:
            return 500, self.error(f"height {height} must be less than or equal to the current blockchain height {self.blocks}")
        if height < self.lowest:
            return 500, self.error(f"height {height} is not available, lowest height is {self.lowest}")
        if path == "/commit":
            return 200, self.commit(height)
        found = self.validators(height, int(asked.get("page", ["1"])[0]), min(100, int(asked.get("per_page", ["30"])[0])))
        return (500 if "error" in found else 200), found


class Transfers:
    """Packets that go over a channel, by their sequences: the block that sent one, that received it and that wrote the acknowledgement (0: none did). The
    source holds a commitment to each. It answers for the gateways and the nodes of both chains."""
    ends = ("transfer", "channel-0"), ("transfer", "channel-7")
    events = {"send_packet": (0, "src"), "recv_packet": (1, "dst"), "write_acknowledgement": (2, "dst")}

    def __init__(self, packets, page=1000):
        self.packets, self.page = packets, page

    def states(self, sequences, key=None):
        found = [{"port_id": "transfer", "channel_id": "channel-0", "sequence": str(sequence), "data": "AAAA"} for sequence in sequences]
        return {"pagination": {"next_key": key, "total": "0"}, "height": {"revision_number": "4", "revision_height": "100"}}, found

    def pending(self, path, asked):
        """The status and the answer to what a gateway is asked about an end of the channel."""
        channel, _, port, kind, *more = path.removeprefix("/ibc/core/channel/v1/channels/").split("/")
        assert (port, channel) == self.ends[0 if kind == "packet_commitments" and not more else 1], path
        if kind == "packet_acknowledgements":
            rest, found = self.states([s for s in map(int, asked["packet_commitment_sequences"]) if self.packets[s][2]])
            return 200, {"acknowledgements": found, **rest, "pagination": None}
        if more:
            assert more[1] == "unreceived_packets", path
            return 200, {"sequences": [s for s in more[0].split(",") if not self.packets[int(s)][1]], "height": {}}
        place = int(base64.b64decode(asked.get("pagination.key", ["MA=="])[0]))
        end = place + min(self.page, int(asked["pagination.limit"][0]))
        rest, found = self.states(list(self.packets)[place:end], base64.b64encode(str(end).encode()).decode() if end < len(self.packets) else None)
        return 200, {"commitments": found, **rest}

    def search(self, query):
        """The status and the answer of a node to a search for the transaction of an event on a packet; what was done at once stands in one transaction."""
        event, channel, sequence = re.fullmatch(r'"(\w+)\.packet_\w+_channel=\'([^\']*)\' AND \1\.packet_sequence=\'(\d+)\'"', query).groups()
        place, side = self.events[event]
        assert channel == self.ends[side == "dst"][1], query
        block = self.packets[int(sequence)][place]
        done = [name for name, (other, _) in self.events.items() if self.packets[int(sequence)][other] == block]
        return 200, answers.search(*[answers.transaction(block, *(answers.packet_event(name, int(sequence), 0) for name in done))] if block else [])


class Host:
    """A gateway of the chain that hosts clients of a chain, by their identifiers with the heights that they have stored."""

    def __init__(self, chain, clients, page=1000):
        self.chain, self.clients, self.page = chain, clients, page

    def store_key(self, height):
        return "{revision_number}-{revision_height}".format(**self.chain.at(height))

    def answer(self, path, asked):
        """The status and the answer to what a gateway is asked."""
        if path == "/cosmos/base/tendermint/v1beta1/blocks/latest":
            return 200, {"block": {"header": {"time": self.chain.stamp(self.chain.blocks)}}}
        if path.startswith("/ibc/core/channel/v1/"):
            return self.transfers.pending(path, asked)
        kind, client = path.rsplit("/", 2)[1:]
        stored = self.clients.get(client)
        if stored is None:
            return 404, {"code": 5, "message": "light client not found: key not found", "details": []}
        if kind == "client_states":
            return 200, answers.client_state(self.chain, max(stored))
        return 200, self.states_page(sorted(stored, key=self.store_key), min(self.page, int(asked.get("pagination.limit", ["100"])[0])), asked.get("pagination.key"))

    def states_page(self, stored, limit, key):
        """A page of a client's consensus states. As ibc-go has them, a page without a key has one state more, with which the next page begins; and a later page
        ends behind its last state, so that an empty one may follow."""
        if key is None:
            states, following = stored[:limit + 1], self.store_key(stored[limit]) if stored[limit:] else ""
        else:
            first = base64.b64decode(key[0]).decode()
            rest = [height for height in stored if self.store_key(height) >= first]
            states, following = rest[:limit], f"{self.store_key(rest[limit - 1])}/processedHeight" if rest[limit - 1:] else ""
        key = base64.b64encode(following.encode()).decode() if following else None
        return {"consensus_states": [self.chain.record(height) for height in states], "pagination": {"next_key": key, "total": "0"}}


@contextlib.contextmanager
def serve(answer, asked):
    """The address of a node or a gateway that answers by a function, while it answers; what it is asked comes to a list."""
    class Handler(http.server.BaseHTTPRequestHandler):
        def do_GET(self):
            address = urllib.parse.urlsplit(self.path)
            asked.append(self.path)
            status, value = answer(address.path, urllib.parse.parse_qs(address.query))
            self.send_response(status)
            self.end_headers()
            self.wfile.write(json.dumps(value).encode())

        def log_message(self, *_):
            pass

    server = http.server.ThreadingHTTPServer(("127.0.0.1", 0), Handler)
    threading.Thread(target=server.serve_forever, daemon=True).start()
    try:
        yield f"http://127.0.0.1:{server.server_port}"
    finally:
        server.shutdown()


def fetching(file, program, addresses):
    """The words that have the relayer save the answers for a setup, by a configuration that is written: of chains the addresses of a node and of a gateway,
    or None."""
    text = f"version = 1\nprogram = {json.dumps([str(program)])}\nverify = false\n"
    for chain, (rpc, rest) in addresses.items():
        text += f'[[chain]]\nid = "{chain}"\nnodes = {json.dumps([rpc or "http://127.0.0.1:1"])}\ngateways = {json.dumps([rest] if rest else [])}\n'
    file.write_text(text)
    return [TOP / "relayer" / "ibcplan-relayer", "--config", file, "fetch"]


# ---- the least plan


def least_fee(chain, first, last, heights, fee, numerator=1, denominator=3):
    """The least fee of a list of updates from one height to another over headers of these heights, and its heights: all members have about one power, so that
    members are counted (`quiet` and `churn` chains whose powers differ by less than they have to)."""
    base, vote, validator = fee
    heights = sorted({*heights, last} - {first})
    signed, named, commits = {}, {}, {}
    for height in [first, *heights]:
        bits = 0
        for (_, _, key), flag in zip(chain.members(height), chain.flags(height)):
            bits |= (flag == 2) << chain_number(chain, key)
        signed[height], commits[height] = bits, bits.bit_count()
        bits = 0
        for _, _, key in chain.members(height + 1):
            bits |= 1 << chain_number(chain, key)
        named[height] = bits
    least = {first: (0, [])}
    for place, height in enumerate(heights):
        if 3 * commits[height] <= 2 * chain.size:
            continue
        price, found = base + vote * commits[height] + validator * 2 * chain.size, None
        for trusted in [first, *heights[:place]]:
            if trusted not in least or (found and least[trusted][0] + price >= found[0]):
                continue
            if height == trusted + 1 or (signed[height] & named[trusted]).bit_count() * denominator > numerator * chain.size:
                found = least[trusted][0] + price, [*least[trusted][1], height]
        if found:
            least[height] = found
    return least.get(last)


@functools.cache
def numbers(chain):
    last = chain.first_member(chain.blocks + 1) + chain.size
    return {chain.key(number): number for number in range(last)}


def chain_number(chain, key):
    return numbers(chain)[key]
