"""Packets from their sending to their acknowledgement or timeout, for tests/run: over two simulated chains with strict light clients and packet handlers
the relayer's `fetch` saves what nodes and gateways answer, and has `messages` make transactions of it, and its shell file signs and sends them. Chains take only
what is proved; answers are damaged, and what is left out is told."""
import base64
import contextlib
import hashlib
import json
import math
import os
import pathlib
import re
import shutil
import subprocess
import sys

from lib import answers
from lib.json_reading import read_json
from lib.nodes import fetching, serve
from lib.packets import chains as handlers
from lib.relaying.chains import LightClient, Refusal
from lib.relaying.channels import PacketChain
from lib.relaying.serving import Source

CLIENT, BACK = "07-tendermint-0", "07-tendermint-3"
ENDS = {"hub-4": ("transfer", "channel-0"), "zone-1": ("transfer", "channel-7")}
MORE = {"hub-4": ("transfer", "channel-1"), "zone-1": ("transfer", "channel-8")}
SIGNERS = {"hub-4": "cosmos1qy352eufqy352eufqy352eufqy35qqqz0kg2hh", "zone-1": "zone1qy352eufqy352eufqy352eufqy35qqqz9a8b7c"}
DENOMS = {"hub-4": "uatom", "zone-1": "ibc/27394FB092D2ECCD56123C74F36E4C1F926001CEADA9CA97EA622B25F41E5EB2"}
PRICE, FACTOR = (25, 1_000), (6, 5)

# The program of a chain: it signs by adding a signature, and asks its node the rest.
PROGRAM = '''#!{python} -SE
import json, sys, urllib.parse, urllib.request
words = sys.argv[1:]
given = {{word: words[place + 1] for place, word in enumerate(words) if word.startswith("--")}}
if words[:2] == ["tx", "sign"]:
    with open(words[2]) as file:
        tx = json.load(file)
    print(json.dumps({{**tx, "signatures": [given["--from"]], "chain": given["--chain-id"]}}))
    sys.exit()
if words[:2] == ["tx", "broadcast"]:
    import os
    path = "/broadcast?file=" + urllib.parse.quote(os.path.abspath(words[2]))
else:
    path = "/query?hash=" + words[2]
with urllib.request.urlopen(given["--node"] + path) as answer:
    said = answer.read().decode()
if said == "null":
    sys.exit("not found")
print(said)
'''


class Chain(PacketChain):
    """A simulated chain without accounts."""

    def __init__(self, name, seed, **kinds):
        super().__init__(name, seed, **kinds)
        self.failed, self.account = [], SIGNERS[name]

    def include(self, hash_text, tx):
        """Does what a transaction says, whole or not at all."""
        before, self.results[hash_text] = self.saved(), 0
        for message in tx["body"]["messages"]:
            try:
                self.take(message)
            except Refusal as error:
                self.restore(before)
                self.results[hash_text] = 5
                self.failed.append(str(error))
                break

    def take(self, message):
        if message["@type"].endswith("MsgUpdateClient") and set(message) != {"@type", "client_id", "client_message", "signer"}:
            raise Refusal("other fields of an update")
        return super().take(message)


class World:
    """Two chains with a channel, whose packets go from the hub to the zone; their nodes and gateways; and the folder of a run."""

    def __init__(self, top, name, is_ordered, **kinds):
        self.top, self.is_ordered = top / name, is_ordered
        self.top.mkdir()
        self.chains = {chain: Chain(chain, name, **kinds) for chain in ("hub-4", "zone-1")}
        hub, zone = self.chains.values()
        self.blocks(3)
        zone.clients[CLIENT], hub.clients[BACK] = LightClient(hub, 86_400, 3), LightClient(zone, 86_400, 3)
        self.ends = hub.open(BACK, ENDS["hub-4"], is_ordered), zone.open(CLIENT, ENDS["zone-1"], is_ordered)
        self.ends[0].other, self.ends[1].other = self.ends[::-1]
        self.damage, self.number = lambda path, value: value, 0
        for chain in self.chains:
            program = self.top / f"program-{chain}"
            program.write_text(PROGRAM.format(python=sys.executable))
            program.chmod(0o755)

    def blocks(self, count):
        for _ in range(count):
            for chain in self.chains.values():
                chain.make_block()

    def send(self, *timeouts):
        """Sends a packet for each timeout: in how many of the zone's blocks it expires by height, by time, or not soon."""
        for number, (height, seconds) in enumerate(timeouts):
            self.chains["hub-4"].send(ENDS["hub-4"][1], f"packet {number} \u20ac".encode() + bytes([0, 255]), height, seconds)

    # ---- what is answered

    def node(self, chain):
        source = Source(chain, "node", None)

        def answer(path, asked):
            if path == "/broadcast":
                return 200, self.broadcast(chain, json.loads(pathlib.Path(asked["file"][0]).read_text()))
            if path == "/query":
                return 200, self.query(chain, asked["hash"][0])
            status, value = source.answer(path, asked)
            if path == "/abci_query" and status == 200:
                value = self.damage(bytes.fromhex(asked["data"][0].removeprefix("0x")).decode(), value)
            return (status, value) if value else (500, {"error": {"code": -32603, "message": "no"}})
        return answer

    def gateway(self, chain):
        return Source(chain, "gateway", None).answer

    def broadcast(self, chain, tx):
        """A program's answer to a signed transaction; a node's words in it must not become a command."""
        hash_text = hashlib.sha256(json.dumps(tx).encode()).hexdigest().upper()
        sound = tx["signatures"] == ["relayer"] and tx["chain"] == chain.name
        chain.pool.append((hash_text, tx))
        self.transactions.append((chain.name, tx))
        return {"height": "0", "txhash": hash_text, "codespace": "", "code": 0 if sound else 4, "data": "", "raw_log": "$(touch here)`touch here`;\"txhash\":\"x\"", "logs": []}

    def query(self, chain, hash_text):
        """That a transaction isn't in a block, which then has it."""
        if hash_text not in chain.results:
            self.blocks(1)
            return None
        return {"height": str(chain.latest), "txhash": hash_text, "code": chain.results[hash_text], "raw_log": "", "tx": {"body": {}}}

    # ---- a round

    def setup(self, limits):
        hub, zone = self.chains.values()
        now = max(chain.times[chain.latest] for chain in self.chains.values())
        begin, end = (answers.datetime.fromtimestamp(now // 10**9 + later, answers.timezone.utc) for later in (0, 300))
        keys = {chain: f'signer = "{SIGNERS[chain]}"\nfee_denom = "{DENOMS[chain]}"\ngas_price = {list(PRICE)}\n' for chain in self.chains}
        clients = "".join(f'[[client]]\nid = "{host}.{client}"\nhost = "{host}"\nof = "{of}"\nfee = [100, 1, 1]\ngas = [80_000, 3_000, 200]\nlimits = {list(limits)}\n'
                          for host, client, of in (("zone-1", CLIENT, "hub-4"), ("hub-4", BACK, "zone-1")))
        (port, channel), (other_port, other_channel) = ENDS.values()
        path = (f'[[path]]\nid = "transfers"\nsource = "hub-4"\ndest = "zone-1"\norder = "{"ordered" if self.is_ordered else "unordered"}"\n'
                f'forward = "zone-1.{CLIENT}"\nback = "hub-4.{BACK}"\ngas = [90_000, 70_000, 60_000]\nport = "{port}"\nchannel = "{channel}"\n'
                f'counterparty_port = "{other_port}"\ncounterparty_channel = "{other_channel}"\n')
        named = "".join(f'[[chain]]\nid = "{chain}"\n{keys[chain]}' for chain in self.chains)
        return (f'version = 1\n{named}{clients}{path}'
                f'[[turn]]\nfrom = "{begin:%Y-%m-%dT%H:%M:%SZ}"\nuntil = "{end:%Y-%m-%dT%H:%M:%SZ}"\n')

    def round(self, program, limits=(4_000_000, 100, 20_000), status=0, before=lambda: None):
        """Fetches, has messages made, and sends them: what goes wrong, and what was told."""
        self.number += 1
        folder, made, nodes, setup = (self.top / f"{word}-{self.number}" for word in ("answers", "messages", "nodes", "setup"))
        setup.write_text(self.setup(limits))
        self.transactions, flaws = [], []
        with contextlib.ExitStack() as stack:
            asked = [[] for _ in range(4)]
            rpc, rest = ({name: stack.enter_context(serve(answering(chain), asked[2 * number + place])) for place, (name, chain) in enumerate(self.chains.items())}
                         for number, answering in enumerate((self.node, self.gateway)))
            fetch = [*fetching(nodes, program[0], {name: (rpc[name], rest[name]) for name in self.chains}), setup, folder, made]
            done = subprocess.run(fetch, capture_output=True, timeout=600)
            if done.returncode != status:
                return [f"fetch: status {done.returncode}: {done.stdout.decode()}{done.stderr.decode()}"], done
            flaws += self.flaws_of_files(program, setup, folder, made, done.stdout.decode())
            words = {f"{word}_{place}": value for place, name in enumerate(self.chains, 1) for word, value in
                     (("PROGRAM", str(self.top / f"program-{name}")), ("OPTIONS", "--from relayer"), ("NODE", f"--node {rpc[name]}"))}
            before()
            sent = subprocess.run(["sh", made / "send.sh"], env={**os.environ, **words, "WAIT": "0"}, capture_output=True, timeout=600)
            self.sent = sent
        flaws += [f"{path} was asked twice" for paths in asked for path in {p for p in paths if paths.count(p) > 1 and not p.startswith("/query")}]
        flaws += ["a node's words were run"] * (made / "here").exists()
        return flaws, done

    def flaws_of_files(self, program, setup, folder, made, told):
        """The files, lines and fees of a folder that was made, beside the plan of the script that `import` makes."""
        script = made.with_name(f"{made.name}.toml")
        script.write_bytes(subprocess.run([*program, "import", str(setup), str(folder)], capture_output=True, check=False).stdout)
        report = read_json(subprocess.run([*program, "plan", "--json", str(script)], capture_output=True, check=True).stdout)
        old = made.with_name(f"{made.name}-old")
        lines = subprocess.run([*program, "messages", str(script), str(folder), str(old)], capture_output=True, check=True).stdout.decode()
        flaws = [] if told.startswith(lines) else ["other lines of updates than those of messages SCRIPT"]
        flaws += [f"another file {path.name}" for path in old.iterdir() if path.name != "send.sh" and path.read_bytes() != (made / path.name).read_bytes()]
        places = {path.name for path in old.iterdir()}
        rest = told.removeprefix(lines).splitlines()
        found = {}
        for client in report["turns"][-1]["clients"]:
            for number, transaction in enumerate(client.get("transactions", []) if "batch" in client else [], 1):
                found[client["id"], number] = transaction["gas"]
        for line in rest:
            name, _, client, _, number, _, count = line.split()
            places.add(name)
            tx = json.loads((made / name).read_text())
            limit = math.ceil(found[client, int(number)] * FACTOR[0] / FACTOR[1])
            host = client.split(".")[0]
            fee = {"amount": [{"denom": DENOMS[host], "amount": str(math.ceil(limit * PRICE[0] / PRICE[1]))}], "gas_limit": str(limit), "payer": "", "granter": ""}
            if tx["auth_info"] != {"signer_infos": [], "fee": fee} or tx["signatures"] or len(tx["body"]["messages"]) != int(count) or not name.endswith(f"-{host}.json"):
                flaws.append(f"{line}: {tx['auth_info']}, {len(tx['body']['messages'])} messages")
        flaws += [] if places == {path.name for path in made.iterdir()} else [f"files {places} and not {sorted(os.listdir(made))}"]
        return flaws

    def kinds(self):
        """How many messages of each kind each transaction of the round had."""
        return [(chain, "".join(message["@type"].rsplit(".Msg", 1)[1][0] for message in tx["body"]["messages"])) for chain, tx in self.transactions]

    def open(self):
        return sorted(self.chains["hub-4"].pending())


# ---- the runs


def expect(flaws, what, found, wanted):
    return flaws + ([] if found == wanted else [f"{what}: {found}, and not {wanted}"])


def life_of_packets(program, top, is_ordered, **kinds):
    """Packets that are received, acknowledged or expire; each is cleared in the end."""
    world = World(top, f"life-{is_ordered}-{len(kinds)}", is_ordered, **kinds)
    world.blocks(40)
    world.send((0, 0), (1_000, 0), (1_000, 10**6))
    world.blocks(3)
    flaws, _ = world.round(program)
    flaws = expect(flaws, "failed", world.chains["zone-1"].failed, [])
    updates = sum(kind.count("U") for _, kind in world.kinds())
    flaws = expect(flaws, "received", [(chain, kind.lstrip("U")) for chain, kind in world.kinds()], [("zone-1", "RRR")])
    world.blocks(3)
    more, _ = world.round(program)
    flaws = expect(flaws + more, "failed", world.chains["hub-4"].failed, [])
    flaws = expect(flaws, "acknowledged", [(chain, kind.lstrip("U")) for chain, kind in world.kinds()], [("hub-4", "AAA")])
    flaws = expect(flaws, "open", world.open(), [])
    world.send(*[(3, 0)] if is_ordered else [(3, 0), (0, 10), (3, 10**6)])
    world.blocks(20)
    more, _ = world.round(program)
    flaws = expect(flaws + more, "timed out", [(chain, kind.lstrip("U")) for chain, kind in world.kinds()], [("hub-4", "T" if is_ordered else "TTT")])
    flaws = expect(flaws, "open after timeouts", world.open(), [])
    return expect(flaws, "several hops", updates > 1, True) if kinds else flaws


def several_transactions(program, top):
    """A batch that is cut: each transaction stands on the one before, and behind one that fails none is sent."""
    world = World(top, "several", False)
    world.send(*[(0, 0)] * 7)
    world.blocks(5)
    flaws, _ = world.round(program, limits=(500_000, 3, 20_000))
    flaws = expect(flaws, "cut", [kind for _, kind in world.kinds()], ["URR", "RRR", "RR"])
    flaws = expect(flaws, "failed", world.chains["zone-1"].failed, [])
    failing = World(top, "failing", False)
    failing.send(*[(3, 0)] * 2, *[(0, 0)] * 7)
    failing.blocks(5)
    zone = failing.chains["zone-1"]

    def other_relayer():
        packet = handlers.Packet(6, ENDS["hub-4"], ENDS["zone-1"], b"", handlers.NO_HEIGHT, 0)
        zone.values[handlers.receipt_key(packet)] = handlers.RECEIPT
    more, _ = failing.round(program, limits=(500_000, 3, 20_000), before=other_relayer)
    flaws = expect(flaws + more, "behind a failure", failing.kinds(), [("zone-1", "URR"), ("zone-1", "RRR"), ("hub-4", "UTT")])
    flaws = expect(flaws, "why it failed", zone.failed + failing.chains["hub-4"].failed, ["MsgRecvPacket 6: Rejected('received before')"])
    return expect(flaws, "the status of send.sh", failing.sent.returncode, 1)


def damaged_proofs(program, top):
    """A proof that shows nothing leaves its message out, and on an ORDERED channel those behind it; so does a node that refuses."""
    flaws = []
    for is_ordered, what, kinds, words in ((False, "value", "URR", "NotProven"), (True, "value", "UR", "NotProven"), (False, "refused", "URR", "NodeRefused"),
                                           (True, "refused", "UR", "NodeRefused"), (False, "no proof", "URR", "NoProof")):
        world = World(top, f"damaged-{is_ordered}-{what}", is_ordered)
        world.send(*[(0, 0)] * 3)
        world.blocks(5)

        def damage(key, value, what=what):
            if not key.endswith("sequences/2"):
                return value
            if what == "refused":
                return None
            response = value["result"]["response"]
            if what == "value":
                ops = response["proofOps"]["ops"]
                proof = bytearray(base64.b64decode(ops[0]["data"]))
                proof[-1] ^= 1
                ops[0]["data"] = base64.b64encode(proof).decode()
            else:
                response["proofOps"] = None
            return value
        world.damage = damage
        more, done = world.round(program, status=7)
        told = re.sub(r"^(ibcplan-relayer: .*|why .*|notice .*|/.*)\n", "", done.stderr.decode(), flags=re.M)
        wanted = f"left out transfers recv 2: {words}\n" + "left out transfers recv 3: Behind\n" * is_ordered
        flaws = expect(flaws + more, f"damaged {what}", [kind for _, kind in world.kinds()], [kinds])
        flaws = expect(flaws, f"told of {what}", told, wanted)
        flaws = expect(flaws, "failed", world.chains["zone-1"].failed, [])
    return flaws


def damaged_acknowledgements(program, top):
    """On an ORDERED channel an acknowledgement that isn't proved leaves out those behind it, and no timeout."""
    world = World(top, "damaged-ack", True)
    world.send(*[(0, 0)] * 2)
    world.blocks(5)
    flaws, _ = world.round(program)
    world.send((3, 0))
    world.blocks(20)

    def damage(key, value):
        if "acks/" in key and key.endswith("sequences/1"):
            value["result"]["response"]["proofOps"] = None
        return value
    world.damage = damage
    more, done = world.round(program, status=7)
    flaws = expect(flaws + more, "beside a damaged acknowledgement", world.kinds(), [("hub-4", "UT")])
    told = re.findall(r"^left out .*", done.stderr.decode(), re.M)
    return expect(flaws, "told of acknowledgements", told, ["left out transfers ack 1: NoProof", "left out transfers ack 2: Behind"])


class TwoChannels(World):
    """The same with a second channel over the same clients."""

    def __init__(self, top, name, is_ordered):
        super().__init__(top, name, is_ordered)
        hub, zone = self.chains.values()
        more = hub.open(BACK, MORE["hub-4"], is_ordered), zone.open(CLIENT, MORE["zone-1"], is_ordered)
        more[0].other, more[1].other = more[::-1]

    def setup(self, limits):
        before, path, turn = re.fullmatch(r"(.*)(\[\[path\]\].*)(\[\[turn\]\].*)", super().setup(limits), re.S).groups()
        other = path.replace('"transfers"', '"others"').replace(*(f'"{ends["hub-4"][1]}"' for ends in (ENDS, MORE))).replace(*(f'"{ends["zone-1"][1]}"' for ends in (ENDS, MORE)))
        return before + path + other + turn


def two_channels(program, top):
    """What isn't proved of an ORDERED channel leaves out nothing of another one."""
    world = TwoChannels(top, "two-channels", True)
    world.send(*[(0, 0)] * 3)
    for _ in range(2):
        world.chains["hub-4"].send(MORE["hub-4"][1], b"other", 0, 0)
    world.blocks(5)

    def damage(key, value):
        if key.endswith(f"{ENDS['hub-4'][1]}/sequences/2"):
            value["result"]["response"]["proofOps"] = None
        return value
    world.damage = damage
    flaws, done = world.round(program, status=7)
    flaws = expect(flaws, "of two channels", world.kinds(), [("zone-1", "URRR")])
    told = re.findall(r"^left out .*", done.stderr.decode(), re.M)
    return expect(flaws, "told of two channels", told, ["left out transfers recv 2: NoProof", "left out transfers recv 3: Behind"])


def all_good(folder, chain):
    """Writes verdicts that call all votes of a chain's commits good."""
    commits = []
    for file in sorted((folder / chain).glob("commit-*.json")):
        signed = json.loads(file.read_text())["result"]["signed_header"]
        flags = [vote["block_id_flag"] for vote in signed["commit"]["signatures"]]
        commits.append({"height": signed["header"]["height"], "block": signed["commit"]["block_id"]["hash"], "answer": file.name,
                        "sha256": hashlib.sha256(file.read_bytes()).hexdigest(), "votes": len(flags), "good": len(flags) - flags.count(1), "bad": [], "unchecked": []})
    answers.write(folder / chain / "verdicts.json", {"verdicts": {"version": 1, "verifier": "made up", "checked": "nothing", "chain": chain, "commits": commits}})


def plain_setups(program, top):
    """A setup without those who send: as `import` and then `messages` of its script, byte for byte, also of verified votes alone, of which there are none before
    there are verdicts; and one that names no channel."""
    world = World(top, "plain", False)
    world.send(*[(0, 0)] * 2)
    world.blocks(5)
    flaws, _ = world.round(program)
    answers_folder, setup = world.top / "answers-1", world.top / "setup-1"
    text = re.sub(r"^(signer|fee_denom|gas_price) = .*\n", "", setup.read_text(), flags=re.M)
    plain, judged = world.top / "plain.toml", world.top / "judged"
    plain.write_text(text)
    shutil.copytree(answers_folder, judged)
    for chain in world.chains:
        all_good(judged, chain)
    updates = []
    for number, (words, folder) in enumerate((([], answers_folder), (["--verified"], answers_folder), (["--verified"], judged))):
        script, made, old = (world.top / f"plain-{number}-{name}" for name in ("script.toml", "made", "old"))
        imported = subprocess.run([*program, "import", *words, str(plain), str(folder)], capture_output=True, check=True)
        script.write_bytes(imported.stdout)
        both = [subprocess.run([*program, "messages", *given, str(folder), str(to)], capture_output=True, check=False) for given, to in (([*words, str(plain)], made), ([str(script)], old))]
        flaws = expect(flaws, f"status {number}", [done.returncode for done in both], [0, 0])
        flaws = expect(flaws, f"lines {number}", both[0].stdout, both[1].stdout)
        flaws = expect(flaws, f"notices {number}", both[0].stderr, imported.stderr)
        flaws = expect(flaws, f"files {number}", *({path.name: path.read_bytes() for path in to.iterdir()} for to in (made, old)))
        updates.append(both[0].stdout)
    flaws = expect(flaws, "updates of verified votes", updates[1:], [b"", updates[0]])
    shutil.rmtree(judged / "transfers")  # nobody sends packets of a script, so it takes no answers on its paths
    alone = subprocess.run([*program, "messages", str(script), str(judged), str(world.top / "alone")], capture_output=True, check=False)
    flaws = expect(flaws, "without answers on a path", (alone.returncode, alone.stdout), (0, updates[2]))
    partly = world.top / "partly"
    shutil.copytree(answers_folder, partly)
    for path in (partly / f"hub-4.{BACK}").iterdir():
        path.write_text("{}")
    rest = subprocess.run([*program, "messages", str(plain), str(partly), str(world.top / "rest")], capture_output=True, check=False)
    flaws = expect(flaws, "what is left", (rest.returncode, re.findall(r"^left out (\S+):", rest.stderr.decode(), re.M)), (7, [f"hub-4.{BACK}", "transfers"]))
    unnamed = world.top / "unnamed.toml"
    unnamed.write_text(re.sub(r"^counterparty_.*\n", "", setup.read_text(), flags=re.M))
    done = subprocess.run([*program, "messages", str(unnamed), str(answers_folder), str(world.top / "unnamed")], capture_output=True, check=False)
    flaws = expect(flaws, "no channel", (done.returncode, re.findall(r"^left out .*", done.stderr.decode(), re.M)), (7, [f"left out transfers recv {n}: NoChannel" for n in (1, 2)]))
    shutil.rmtree(answers_folder / "transfers" / "proofs")
    lacking = subprocess.run([*program, "messages", str(setup), str(answers_folder), str(world.top / "lacking")], capture_output=True, check=False)
    lines = [line.split() for line in lacking.stdout.decode().splitlines()]
    flaws = expect(flaws, "asked", (lacking.returncode, [line[:2] for line in lines], (world.top / "lacking").exists()), (7, [["get", "hub-4"]] * 2, False))
    flaws = expect(flaws, "names", [re.sub(r"-\d+\.json$", "", line[3]) for line in lines], [f"transfers/proofs/recv-{n}" for n in (1, 2)])
    for ending in (".json", ".refused"):  # what stands in the place of an answer and can't be read is no answer that isn't there
        kept = (answers_folder / lines[0][3]).with_suffix(ending)
        kept.mkdir(parents=True)
        unread = subprocess.run([*program, "messages", str(setup), str(answers_folder), str(world.top / "unread")], capture_output=True, check=False)
        flaws = expect(flaws, f"a folder {kept.name}", (unread.returncode, str(kept) in unread.stderr.decode(), (world.top / "unread").exists()), (4, True, False))
        kept.rmdir()
    kept.write_text("")
    one = subprocess.run([*program, "messages", str(setup), str(answers_folder), str(world.top / "one")], capture_output=True, check=False)
    flaws = expect(flaws, "asked beside one that is refused", one.stdout.decode().splitlines(), [" ".join(lines[1])])
    return expect(flaws, "told beside what is asked", re.findall(r"^left out .*", one.stderr.decode(), re.M), ["left out transfers recv 1: NodeRefused"])


RUNS = [
    ("unordered", life_of_packets, {"is_ordered": False}), ("ordered", life_of_packets, {"is_ordered": True}),
    ("unordered, several hops", life_of_packets, {"is_ordered": False, "change": 4}), ("ordered, several hops", life_of_packets, {"is_ordered": True, "switch": (20,)}),
    ("several transactions", several_transactions, {}), ("damaged proofs", damaged_proofs, {}),
    ("damaged acknowledgements", damaged_acknowledgements, {}), ("two channels", two_channels, {}), ("plain setups", plain_setups, {}),
]


def packet_way_runs(program, top):
    """How many runs there are, and how many go wrong."""
    wrong, top = 0, top / "packet ways"
    top.mkdir()
    for name, run, words in RUNS:
        flaws = run(program, top, **words)
        if flaws:
            print(f"== packets, {name}", *flaws, sep="\n-- ")
        wrong += bool(flaws)
    return len(RUNS), wrong
