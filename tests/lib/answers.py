"""Made-up answers of nodes, and a plain reading of them that shares no code with the program.

`make(folder, seed)` writes answers in the public shapes of CometBFT's RPC and of ibc-go's REST gateway for a pair of chains, whose
keys, powers, hashes of sets and headers, times and heights fit one another (signatures are random); `script_of(setup, folder)`
is the script that they make with a setup; `serve(folder)` gives them as nodes do."""
import base64
import contextlib
import hashlib
import http.server
import json
import random
import threading
import tomllib
import urllib.parse
from datetime import datetime, timedelta, timezone

START = datetime(2026, 11, 1, 12, tzinfo=timezone.utc)
LETTERS = {1: "A", 2: "C", 3: "N"}


def sha(data):
    return hashlib.sha256(data).digest()


def varint(number):
    out = b""
    while number > 127:
        out += bytes([number & 127 | 128])
        number >>= 7
    return out + bytes([number])


def root(items):
    if len(items) < 2:
        return sha(b"".join(b"\0" + item for item in items))
    split = 1
    while split * 2 < len(items):
        split *= 2
    return sha(b"\1" + root(items[:split]) + root(items[split:]))


def address_of(key):
    """Of a key of ed25519, 32 bytes, or of secp256k1, 33."""
    return sha(key)[:20] if len(key) == 32 else hashlib.new("ripemd160", sha(key)).digest()


def in_order(members):
    """(power, address, key) by falling power, then rising address."""
    return sorted(((power, address_of(key), key) for key, power in members), key=lambda m: (-m[0], m[1]))


def set_hash(members):
    return root([(b"\x0a\x22\x0a\x20" if len(key) == 32 else b"\x0a\x23\x12\x21") + key + b"\x10" + varint(power) for power, _, key in members])


def field(tag, value):
    """A field of a protocol buffer, bytes or a number, which is left out where it is empty or 0."""
    if not value:
        return b""
    return bytes([tag]) + (varint(value) if isinstance(value, int) else varint(len(value)) + value)


def header_hash(header):
    """The hash of a header as nodes write it (CometBFT, `Header.Hash`)."""
    def of(name, holder=header):
        return bytes.fromhex(holder.get(name, ""))
    version, last = header["version"], header["last_block_id"]
    second, rest = divmod(nanoseconds(header["time"]), 10**9)
    parts = field(8, last["parts"].get("total", 0)) + field(18, of("hash", last["parts"]))
    alone = [of(name) for name in ("last_commit_hash", "data_hash", "validators_hash", "next_validators_hash", "consensus_hash", "app_hash",
                                   "last_results_hash", "evidence_hash", "proposer_address")]
    return root([field(8, int(version.get("block", 0))) + field(16, int(version.get("app", 0))), field(10, header["chain_id"].encode()),
                 field(8, int(header["height"])), field(8, second) + field(16, rest),
                 field(10, of("hash", last)) + b"\x12" + varint(len(parts)) + parts, *(field(10, value) for value in alone)])


def stamp(time):
    """RFC 3339 with nanoseconds, as nodes write it."""
    return time.strftime("%Y-%m-%dT%H:%M:%S") + "." + f"{time.microsecond:06d}123".rstrip("0") + "Z"


def upper(data):
    return data.hex().upper()


def write(path, value):
    path.parent.mkdir(parents=True, exist_ok=True)
    path.write_text(json.dumps(value))


def renamed(folder, chance):
    """Gives the answers below a folder names by chance, beside a file that is no answer."""
    for path in sorted(folder.glob("*/*.json")):
        path.rename(path.with_name(f"{chance.randbytes(6).hex()}.json"))
    (folder / "hub-4" / "notes.txt").write_text("no answer")


def public_key(key):
    return {"type": f"tendermint/PubKey{'Ed25519' if len(key) == 32 else 'Secp256k1'}", "value": base64.b64encode(key).decode()}


# how a validator votes: mostly for the block
VOTES = [2] * 11 + [1, 3]


class Chain:
    """Blocks from 1 on, whose validators change every few blocks; each third key is of secp256k1."""

    def __init__(self, chance, name, blocks, size=6, page=4, every=12):
        self.name, self.chance, self.page = name, chance, page
        keys = [(b"\2" if number % 3 == 2 else b"") + chance.randbytes(32) for number in range(size * 3 // 2)]
        members = {key: chance.randint(50, 900) for key in keys[:size]}
        self.sets, self.times, self.roots = {}, {}, {}
        for height in range(1, blocks + 2):
            if height % every == 0:
                gone = chance.choice(sorted(members))
                del members[gone]
                members[chance.choice([k for k in keys if k not in members and k != gone])] = chance.randint(50, 900)
            self.sets[height] = in_order(members.items())
            self.times[height] = START + timedelta(seconds=6.4 * height, microseconds=chance.randint(0, 999_999))
            self.roots[height] = chance.randbytes(32)

    def revision(self):
        return self.name.rsplit("-", 1)[1]

    def some_hash(self):
        return upper(self.chance.randbytes(32))

    def commit(self, height, votes=VOTES):
        header = {"version": {"block": "11"}, "chain_id": self.name, "height": str(height), "time": stamp(self.times[height]),
                  "last_block_id": {"hash": self.some_hash(), "parts": {"total": 1, "hash": self.some_hash()}},
                  **{name: upper(sha(f"{name} {height}".encode())) for name in ("last_commit_hash", "last_results_hash", "evidence_hash")},
                  "validators_hash": upper(set_hash(self.sets[height])), "next_validators_hash": upper(set_hash(self.sets[height + 1])),
                  "consensus_hash": self.some_hash(), "app_hash": upper(self.roots[height]),
                  "proposer_address": upper(self.sets[height][0][1])}
        signatures = []
        for place, (_, address, _) in enumerate(self.sets[height]):
            flag = self.chance.choice(votes) if place > 1 else 2
            signatures.append({"block_id_flag": 1, "validator_address": "", "timestamp": "0001-01-01T00:00:00Z", "signature": None}
                              if flag == 1 else
                              {"block_id_flag": flag, "validator_address": upper(address), "timestamp": stamp(self.times[height]),
                               "signature": base64.b64encode(self.chance.randbytes(64)).decode()})
        header["data_hash"] = self.some_hash()
        parts = {"total": 1, "hash": upper(sha(f"parts {height}".encode()))}
        commit = {"height": str(height), "round": 0, "block_id": {"hash": upper(header_hash(header)), "parts": parts}, "signatures": signatures}
        return {"jsonrpc": "2.0", "id": -1, "result": {"signed_header": {"header": header, "commit": commit}, "canonical": True}}

    def validators(self, height):
        members = self.sets[height]
        for begin in range(0, len(members), self.page):
            page = [{"address": upper(address), "pub_key": public_key(key), "voting_power": str(power), "proposer_priority": "-7"}
                    for power, address, key in members[begin:begin + self.page]]
            yield {"jsonrpc": "2.0", "id": -1, "result": {"block_height": str(height), "validators": page, "count": str(len(page)),
                                                          "total": str(len(members))}}

    def at(self, height):
        return {"revision_number": self.revision(), "revision_height": str(height)}


def client_state(chain, latest):
    none = {"revision_number": "0", "revision_height": "0"}
    state = {"@type": "/ibc.lightclients.tendermint.v1.ClientState", "chain_id": chain.name,
             "trust_level": {"numerator": "1", "denominator": "3"}, "trusting_period": "806400s", "unbonding_period": "1209600s",
             "max_clock_drift": "40.5s", "frozen_height": none, "latest_height": chain.at(latest)}
    return {"client_state": state, "proof": None, "proof_height": none}


def consensus_states(chain, heights):
    states = [{"height": chain.at(h), "consensus_state": {
        "@type": "/ibc.lightclients.tendermint.v1.ConsensusState", "timestamp": stamp(chain.times[h]),
        "root": {"hash": base64.b64encode(chain.roots[h]).decode()}, "next_validators_hash": upper(set_hash(chain.sets[h + 1]))}}
        for h in heights]
    return {"consensus_states": states, "pagination": {"next_key": None, "total": "0"}}


def packet_event(kind, sequence, timeout, encoded=False, limit=None, ends=("channel-0", "channel-7")):
    values = {"packet_data": "{}", "packet_timeout_height": limit or ("0-0" if sequence % 2 else "1-4000"), "packet_timeout_timestamp": str(timeout),
              "packet_sequence": str(sequence), "packet_src_port": "transfer", "packet_src_channel": ends[0],
              "packet_dst_port": "transfer", "packet_dst_channel": ends[1]}
    if encoded:
        values = {base64.b64encode(k.encode()).decode(): base64.b64encode(v.encode()).decode() for k, v in values.items()}
    return {"type": kind, "attributes": [{"key": k, "value": v, "index": True} for k, v in values.items()]}


def client_packet_event(sequence):
    """The event of a packet that was sent between clients (IBC v2)."""
    values = {"packet_source_client": "07-tendermint-0", "packet_dest_client": "07-tendermint-5", "packet_sequence": str(sequence),
              "packet_timeout_timestamp": "1793541600", "encoded_packet_hex": "00"}
    return {"type": "send_packet", "attributes": [{"key": k, "value": v, "index": True} for k, v in values.items()]}


def transaction(height, *events):
    return {"hash": "00", "height": str(height), "index": 0, "tx_result": {"code": 0, "events": [
        {"type": "tx", "attributes": [{"key": "fee", "value": "500uosmo", "index": True}]}, *events]}}


def search(*txs):
    return {"jsonrpc": "2.0", "id": -1, "result": {"txs": list(txs), "total_count": str(len(txs))}}


def tx_search(found, encoded=False):
    """An answer with a transaction for each block, its kinds of events (joined by +), a sequence and a timeout."""
    return search(*(transaction(height, *(packet_event(kind, sequence, timeout, encoded) for kind in kinds.split("+")))
                    for height, kinds, sequence, timeout in found))


def make(folder, seed, between=6):
    """Writes the answers on hub-4 and zone-1, of the clients hub-on-zone and zone-on-hub and of the path transfers."""
    chance = random.Random(seed)
    hub, zone = Chain(chance, "hub-4", 80), Chain(chance, "zone-1", 60, page=chance.choice([2, 4, 100]))
    seen = {hub: [1, *sorted(chance.sample(range(2, 80), between)), 80], zone: [1, *sorted(chance.sample(range(2, 60), between // 2 + 1)), 60]}
    for chain, heights in seen.items():
        for height in heights:
            write(folder / chain.name / f"commit-{height}.json", chain.commit(height))
        for height in heights + [h + 1 for h in heights[:-1]]:
            for number, page in enumerate(chain.validators(height), 1):
                write(folder / chain.name / f"validators-{height}-{number}.json", page)
    for name, chain, stored in (("hub-on-zone", hub, seen[hub][:2]), ("zone-on-hub", zone, seen[zone][:2])):
        write(folder / name / "client_state.json", client_state(chain, stored[-1]))
        write(folder / name / "consensus_states.json", consensus_states(chain, stored))
    later = int((START + timedelta(hours=2)).timestamp()) * 10**9 + 5
    encoded = chance.random() < 0.5
    sent = [(30 + s, "send_packet", s, later if s != 3 else 0) for s in range(1, chance.randint(4, 7))]
    write(folder / "transfers" / "sent.json", tx_search(sent, encoded))
    write(folder / "transfers" / "received.json", tx_search([(35, "recv_packet+write_acknowledgement", 2, later)]))
    write(folder / "transfers" / "cleared.json", tx_search([(50, "acknowledge_packet", 2, later), (51, "timeout_packet", 1, later)], encoded))


def make_busy(folder, stored, headers, every):
    """Writes the answers on hub-4, of which these heights have a header that all signed, and of clients of it that have stored these records, by client."""
    hub = Chain(random.Random(1), "hub-4", max(headers), every=every)
    for height in headers:
        write(folder / hub.name / f"commit-{height}.json", hub.commit(height, [2]))
    for height in sorted({*headers, *range(every, max(headers) + 2, every), 1}):  # each set
        for number, page in enumerate(hub.validators(height), 1):
            write(folder / hub.name / f"validators-{height}-{number}.json", page)
    for name, heights in stored.items():
        write(folder / name / "client_state.json", client_state(hub, heights[-1]))
        write(folder / name / "consensus_states.json", consensus_states(hub, heights))


@contextlib.contextmanager
def serve(chance, shape=lambda answer: answer):
    """A node of a made-up hub-4 and a gateway of the chain that hosts a client of it: their addresses, while they answer so."""
    hub, stored = Chain(chance, "hub-4", 80), [1, 30, 52]

    def answer(path, asked):
        height = int(asked.get("height", ["0"])[0])
        if path == "/status":
            return {"result": {"sync_info": {"latest_block_height": "81"}}}
        if path == "/cosmos/base/tendermint/v1beta1/blocks/latest":
            return {"block": {"header": {"time": "2026-11-01T12:09:20Z"}}}
        if path == "/commit":
            return hub.commit(height)
        if path == "/validators":
            return list(hub.validators(height))[int(asked["page"][0]) - 1]
        if path == "/ibc/core/client/v1/client_states/hub-on-zone":
            return client_state(hub, stored[-1])
        if path == "/ibc/core/client/v1/consensus_states/hub-on-zone":  # a state a page
            place = int(base64.b64decode(asked.get("pagination.key", ["MA=="])[0]))
            page = consensus_states(hub, stored[place:place + 1])
            if place + 1 < len(stored):
                page["pagination"]["next_key"] = base64.b64encode(str(place + 1).encode()).decode()
            return page
        return {"code": 5, "message": "not found", "details": []}

    class Handler(http.server.BaseHTTPRequestHandler):
        def do_GET(self):
            address = urllib.parse.urlsplit(self.path)
            self.send_response(200)
            self.end_headers()
            self.wfile.write(json.dumps(shape(answer(address.path, urllib.parse.parse_qs(address.query)))).encode())

        def log_message(self, *_):
            pass

    server = http.server.ThreadingHTTPServer(("127.0.0.1", 0), Handler)
    threading.Thread(target=server.serve_forever, daemon=True).start()
    try:
        yield (f"http://127.0.0.1:{server.server_port}",) * 2
    finally:
        server.shutdown()


# ---- a plain reading


def nanoseconds(time):
    whole, fraction = time.rstrip("Z").split(".") if "." in time else (time.rstrip("Z"), "")
    since = datetime.strptime(whole, "%Y-%m-%dT%H:%M:%S").replace(tzinfo=timezone.utc) - datetime(1970, 1, 1, tzinfo=timezone.utc)
    return (since.days * 86400 + since.seconds) * 10**9 + int(fraction.ljust(9, "0") or "0")


def duration(text):
    whole, _, fraction = text.removesuffix("s").partition(".")
    return int(whole) * 10**9 + int(fraction.ljust(9, "0") or "0")


def answers_in(folder):
    return [json.loads(path.read_text()) for path in sorted(folder.glob("*.json"))]


def is_needed(answer):
    """Whether an answer on a chain is to one of the two queries that are needed."""
    return any(name in answer.get("result", answer) for name in ("signed_header", "validators"))


def verdicts_on(folder):
    """What verdicts.json of a chain's folder says of its commits, by height."""
    found = {}
    for verdict in json.loads((folder / "verdicts.json").read_text())["verdicts"]["commits"] if (folder / "verdicts.json").exists() else []:
        for path in folder.glob("*.json"):
            if sha(path.read_bytes()).hex() == verdict["sha256"]:
                found[int(json.loads(path.read_text())["result"]["signed_header"]["header"]["height"])] = verdict
    return found


def votes_of(signatures, bad):
    """The letters of a commit's votes, of which those at these places are bad: a bad one for the block is B."""
    return "".join("B" if place in bad and s["block_id_flag"] == 2 else LETTERS[s["block_id_flag"]] for place, s in enumerate(signatures))


def is_signed(signatures, members, verdict, verified):
    """Whether the votes for the block that count have more than two thirds of a set's power: those that aren't bad, or of verified votes those that are good."""
    places = range(len(signatures)) if verdict or not verified else []
    out = {*verdict["bad"], *(verdict["unchecked"] if verified else [])} if verdict else set()
    voted = sum(members[place][0] for place in places if signatures[place]["block_id_flag"] == 2 and place not in out)
    return 3 * voted > 2 * sum(power for power, _, _ in members)


def root_of(data):
    """The root that a script has of bytes in an answer."""
    return (data if len(data) == 32 else sha(data)).hex()


class Told:
    """What a folder tells of a chain: its headers by height, no more than 4,096, that more than two thirds of their sets signed, the heights of those of which no
    answers make the set (`bare`) and of those that too few signed (`unsigned`), its sets by their hash from low heights up, and the verdicts by height."""

    def __init__(self, folder, verified=False):
        self.headers, self.sets, self.verdicts, pages = {}, {}, verdicts_on(folder), {}
        for answer in filter(is_needed, answers_in(folder)):
            result = answer["result"]
            if "signed_header" in result:
                signed = result["signed_header"]
                self.headers[int(signed["header"]["height"])] = signed
            else:
                pages.setdefault(int(result["block_height"]), []).extend(result["validators"])
        for height in sorted(pages):
            members = in_order([(base64.b64decode(v["pub_key"]["value"]), int(v["voting_power"])) for v in pages[height]])
            self.sets.setdefault(set_hash(members).hex(), members)
        own = {height: self.sets.get(signed["header"]["validators_hash"].lower()) for height, signed in self.headers.items()}
        self.bare = sorted(height for height, members in own.items() if members is None)
        self.unsigned = sorted(height for height, members in own.items() if members is not None and not is_signed(
            self.headers[height]["commit"]["signatures"], members, self.verdicts.get(height), verified))
        rest = sorted(own.keys() - {*self.bare, *self.unsigned})[-4096:]
        self.times = {height: nanoseconds(self.headers[height]["header"]["time"]) for height in (*rest, *self.bare)}
        self.headers = {height: self.headers[height] for height in rest}


def chain_events(name, told, named):
    """The sets that headers or records name, the highest first and no more than 1,024, and the headers of them."""
    for signed in told.headers.values():
        named |= {signed["header"]["validators_hash"].lower(), signed["header"]["next_validators_hash"].lower()}
    written = [(digits, members) for digits, members in reversed(told.sets.items()) if digits in named][:1024]
    events = [{"kind": "set", "chain": name, "name": digits[:32], "validators": [[key.hex(), power] for power, _, key in members]}
              for digits, members in written]
    reference = {digits: digits[:32] for digits, _ in written}
    for height, signed in told.headers.items():
        header, commit = signed["header"], signed["commit"]
        if header["validators_hash"].lower() not in reference:
            continue
        bad = told.verdicts[height]["bad"] if height in told.verdicts else []
        events.append({"kind": "header", "chain": name, "height": height, "time": nanoseconds(header["time"]),
                       "root": root_of(bytes.fromhex(header["app_hash"])), "set": reference[header["validators_hash"].lower()],
                       "next": reference.get(header["next_validators_hash"].lower(), header["next_validators_hash"].lower()),
                       "votes": votes_of(commit["signatures"], bad)})
    return events, reference


KINDS = {"send_packet": "sent", "recv_packet": "received", "write_acknowledgement": "ack", "acknowledge_packet": "cleared",
         "timeout_packet": "cleared"}


LAST = 2**63 - 1
NO_WAITS = [0, 0, 0]


def pending_of(folder, path):
    """The sequences of a path's commitments from its first one on, where answers tell of some; else none."""
    pages = [answer["commitments"] for answer in answers_in(folder / path["id"]) if "commitments" in answer]
    return {int(state["sequence"]) for page in pages for state in page if int(state["sequence"]) >= path.get("first", 1)} if pages else None


def events_in(answers):
    """The events on packets of a channel in answers of /tx_search: of each its kind by its place in KINDS, its block, its sequence, its name and its values."""
    for answer in answers:
        for tx in answer.get("result", {}).get("txs", []):
            for event in tx["tx_result"]["events"] if tx["tx_result"]["code"] == 0 else []:
                values = {a["key"]: a["value"] for a in event["attributes"]}
                if "cGFja2V0X3NlcXVlbmNl" in values:
                    values = {base64.b64decode(k).decode(): base64.b64decode(v).decode() for k, v in values.items()}
                if event["type"] in KINDS and "packet_source_client" not in values:
                    yield list(KINDS).index(event["type"]), int(tx["height"]), int(values["packet_sequence"]), event["type"], values


def lacks(answers, events, pending):
    """What packets lack that these events or commitments tell of, by sequence: their sending (`send`), their receiving (`receive`), or an answer on whether they
    were received (`receipt`)."""
    was = {(KINDS[name], sequence) for _, _, sequence, name, _ in events}
    unreceived = [int(sequence) for answer in answers for sequence in answer.get("sequences", [])]
    tells_unreceived = any("sequences" in answer for answer in answers)
    searched = any(name == "recv_packet" for _, _, _, name, _ in events_in(answers)) or any("txs" in answer.get("result", {}) and not [*events_in([answer])] for answer in answers)
    for sequence in {sequence for _, sequence in was} | (pending or set()):
        is_received = pending is not None and tells_unreceived and sequence not in unreceived
        if ("sent", sequence) not in was:
            yield sequence, "send"
        elif ("received", sequence) not in was and (("ack", sequence) in was or is_received):
            yield sequence, "receive"
        elif not {("received", sequence), ("cleared", sequence)} & was and not (searched if pending is None else tells_unreceived):
            yield sequence, "receipt"


def packet_events(folder, path, chains):
    """The packets of a path, where answers tell of commitments those with one: of those that go to the counterparty, or else to the first sent one's
    destination, the one of the lowest block by kind and sequence; no more than the first 4,096. A block that sent or acknowledged
    one has its time, where a header of it is there, with or without its set. Left out is a packet that lacks something, on an ordered path with
    all behind it. At the end the path is closed, if it is ordered and one of them timed out."""
    answers, dest_revision = answers_in(folder / path["id"]), int(path["dest"].rsplit("-", 1)[1])
    found = [*events_in(answers)]
    source, dest = ([f"packet_{end}_{part}" for part in ("port", "channel")] for end in ("src", "dst"))
    if "port" in path:
        found = [f for f in found if [f[4][name] for name in source] == [path["port"], path["channel"]]]
    ends = [[f[4][name] for name in dest] for f in found if f[3] == "send_packet"][:1]
    if "counterparty_port" in path:
        ends = [[path["counterparty_port"], path["counterparty_channel"]]]
    pending = pending_of(folder, path)
    found = [f for f in found if pending is None or f[2] in pending]
    found = [f for f in found if f[2] >= path.get("first", 1) and [f[4][name] for name in dest] in (ends or [[f[4][name] for name in dest]])]
    is_ordered, lacking = path["order"] == "ordered", dict(lacks(answers, found, pending))
    out = {f[2] for f in found if f[2] in lacking or is_ordered and f[2] > min(lacking, default=f[2])}
    out |= {*sorted({f[2] for f in found if f[3] == "send_packet"} - out)[4096:]}
    lowest = {}
    for kind, height, sequence, name, values in found:
        key = kind, sequence
        if key not in lowest or height < lowest[key][1]:
            lowest[key] = kind, height, sequence, name, values
    for _, height, sequence, kind, values in sorted((f for f in lowest.values() if f[2] not in out), key=lambda f: f[:3]):
        event = {"kind": KINDS[kind], "path": path["id"], "seq": sequence}
        if KINDS[kind] != "cleared":
            event["height"] = height
        writer = chains[{"sent": path["source"], "ack": path["dest"]}[KINDS[kind]]] if KINDS[kind] in ("sent", "ack") else None
        if writer and height in writer.times:
            event["time"] = writer.times[height]
        if kind == "send_packet":
            revision, limit = map(int, values["packet_timeout_height"].split("-"))
            if revision > dest_revision or (revision, limit) == (0, 0):
                limit = 0
            else:
                limit = 1 if revision < dest_revision else min(max(limit, 1), LAST)
            event |= {"timeout_height": limit} if limit else {}
            time = int(values["packet_timeout_timestamp"])
            event |= {"timeout_time": time} if time else {}
        yield event
    if is_ordered and any(f[3] == "timeout_packet" for f in found):
        yield {"kind": "closed", "path": path["id"]}


def height_of(state):
    return int(state["height"]["revision_height"])


def kept(records, chains):
    """The records that a book of 4,096 has room for beside its chain's headers: the highest, and those of a header's height."""
    for chain in {client["of"] for client, _ in records}:
        headers = chains[chain].headers.keys()
        bare = sorted({height_of(state) for client, state in records if client["of"] == chain} - headers)
        gone = set(bare[:max(len(bare) + len(headers) - 4096, 0)])
        records = [(client, state) for client, state in records if client["of"] != chain or height_of(state) not in gone]
    return records


def revision_of(state):
    """The revision number of a consensus state's height, which is 0 where it isn't there."""
    height = state["height"]
    return int(height.get("revision_number", 0)) if isinstance(height, dict) else 0


def script_of(setup, folder, verified=False):
    """The script of a setup's text and of the answers, as TOML's values, its times in nanoseconds."""
    script = tomllib.loads(setup) | {"version": 4}
    script["chain"] = [{"id": chain["id"]} for chain in script["chain"]]
    records, by_chain = [], {}
    for client in script.get("client", []):
        states = answers_in(folder / client["id"])
        given = next(a["client_state"] for a in states if "client_state" in a)
        client.setdefault("period_ns", duration(given["trusting_period"]))
        client.setdefault("drift_ns", duration(given["max_clock_drift"]))
        client.setdefault("trust", [int(given["trust_level"][k]) for k in ("numerator", "denominator")])
        revision = int(client["of"].rsplit("-", 1)[1])
        stored = [s for a in states for s in a.get("consensus_states", []) if revision_of(s) >= revision]
        records += [(client, state) for state in sorted({height_of(state): state for state in stored}.values(), key=height_of)]
        by_chain.setdefault(client["of"], set())
    chains = {name: Told(folder / name, verified) for name in by_chain}
    records = kept(records, chains)
    for client, state in records:
        by_chain[client["of"]].add(state["consensus_state"]["next_validators_hash"].lower())
    events, references = [], {}
    for chain in script["chain"]:
        if chain["id"] in by_chain:
            found, references[chain["id"]] = chain_events(chain["id"], chains[chain["id"]], by_chain[chain["id"]])
            events += found
    for client, state in records:
        inner = state["consensus_state"]
        following = inner["next_validators_hash"].lower()
        events.append({"kind": "stored", "client": client["id"], "height": height_of(state),
                       "time": nanoseconds(inner["timestamp"]), "root": root_of(base64.b64decode(inner["root"]["hash"])),
                       "next": references[client["of"]].get(following, following)})
    for path in script.get("path", []):
        events += packet_events(folder, path, chains)
        path.setdefault("first", 1)
        path.setdefault("wait_ns", NO_WAITS)
        path["first"] = min(pending_of(folder, path) or [path["first"]])
    for turn in script["turn"]:
        put_numbers(turn)
    script["turn"][-1]["event"] = events
    return script


def put_numbers(turn):
    """Puts the times of a turn's windows in nanoseconds."""
    for window in (turn, *turn.get("window", [])):
        window["from"], window["until"] = nanoseconds(window["from"]), nanoseconds(window["until"])


def with_numbers(script):
    """A script's values with its times in nanoseconds, and with the waits of each path."""
    for path in script.get("path", []):
        path.setdefault("wait_ns", NO_WAITS)
    for turn in script["turn"]:
        put_numbers(turn)
        for event in turn.get("event", []):
            for key in ("time", "timeout_time"):
                if key in event:
                    event[key] = nanoseconds(event[key])
    return script


def in_toml(script):
    """The text of a script's values."""
    def text(value, key=""):
        if isinstance(value, dict):
            return "{ " + ", ".join(f"{k} = {text(v, k)}" for k, v in value.items()) + " }"
        if isinstance(value, list):
            return "[" + ", ".join(map(text, value)) + "]"
        if key in ("from", "until", "time", "timeout_time"):
            second, rest = divmod(value, 10**9)
            return f'"{datetime.fromtimestamp(second, timezone.utc):%Y-%m-%dT%H:%M:%S}.{rest:09}Z"'
        return f'"{value}"' if isinstance(value, str) else str(value)

    return "".join(f"{key} = {text(value)}\n" for key, value in script.items()).encode()
