"""Runs of the relayer over simulated chains, for tests/run."""
import contextlib
import dataclasses
import json
import random
import signal
import socket
import subprocess
import time
import tomllib
import urllib.request
from unittest import mock

from lib.program import CONTROL, STEERING
from lib.relaying.chains import BEGIN, SIGNED, Refusal, past_update
from lib.relaying.channels import PacketChain, pending, told_of
from lib.relaying.days import MOMENTS, Days
from lib.relaying.serving import GATEWAY_FAULTS, NODE_FAULTS
from lib.relaying.world import PROGRAM, RELAYER, World

from relayer import node, planner
from relayer.config import read_config
from relayer.planner import Packet
from relayer.state import Failure, Transaction, read_state
from relayer.words import Fault


def outcomes(report):
    return {outcome.client.name: outcome.word for outcome in report.clients}


def expected(report, words, what=""):
    """A flaw where a round comes to something else: a word for all clients, or one for each."""
    found = outcomes(report)
    wanted = dict.fromkeys(found, words) if isinstance(words, str) else words
    return [] if found == wanted else [f"{what}: {found}, and not {wanted}: {[(o.client.name, o.why, o.sent) for o in report.clients]}"]


def whole_round(relayer, hosts=None):
    """A round, until nothing is on its way any more."""
    report = relayer.round(hosts)
    relayer.senders.wait()
    return report


def two_chains(folder, program, refresh=600, **more):
    """Two chains with a client on each, which are due for a refresh."""
    world = World(folder, program, refresh=refresh, blocks=200, **more)
    world.between(("hub-4", "zone-1"))
    return world


def dry_round(program, folder):
    """A round without sending: what is due is told, nothing is broadcast."""
    with two_chains(folder, program) as world:
        status, told, error = world.run("once", "--dry-run")
        flaws = [] if status == 0 and told.count(": due, updates 2->200, fee") == 2 and not error else [f"status {status}: {told}{error}"]
        flaws += ["the chain's program was called"] if (world.folder / "calls").exists() else []
        return flaws + world.flaws()


def plain_rounds(program, folder):
    """Five clients are updated; then nothing is due, and little is asked for all of them and for a channel, and for those on one host."""
    with World(folder, program, names=("hub-4", "zone-1", "osmo-7"), refresh=600, blocks=200, kind=PacketChain) as world:
        world.between(("hub-4", "zone-1"), ("zone-1", "osmo-7"))
        world.client("hub-4", "osmo-7")
        world.open("hub-4", "zone-1")
        with world.relaying() as relayer:
            busy = whole_round(relayer)
            flaws = expected(busy, "updated", "first")
            flaws += [f"{name}: {client.latest()}" for name, client in world.light_clients().items() if client.latest() < 199 or client.updates != 1]
            whole_round(relayer)
            world.forward(3)
            begin = time.monotonic()
            quiet, seconds = whole_round(relayer), time.monotonic() - begin
            of_hosts = [whole_round(relayer, [host]) for host in world.chains]
        flaws += expected(quiet, "idle", "third") + [f"{quiet.requests} requests" for _ in "1" if quiet.requests > 10]
        flaws += [f"{quiet.calls} calls" for _ in "1" if quiet.calls > 4]
        flaws += [f"{report.requests} requests for a host" for report in of_hosts if report.requests > 8]
        print(f"relayer: five clients, a busy round {busy.requests} requests, {busy.calls} calls; a quiet one {quiet.requests}, {quiet.calls}, {seconds:.2f} s; of each host {[report.requests for report in of_hosts]}")
        return flaws + world.flaws()


# ---- sources that fail


UNSEEN = "bad signatures", "other root"  # what nobody sees where signatures aren't verified
SLOW = "drip"  # the fault that takes real seconds


def faulty(program, folder, kind, fault, most=40, told=""):
    """Rounds in which the first source of hub-4 of a kind has a fault: both clients are updated by the second one, once, and the first gets few requests."""
    with two_chains(folder, program, nodes=2 if kind == "node" else 1, gateways=2 if kind == "gateway" else 1) as world:
        world.answer_seconds = 4 if fault == SLOW else 600
        world.write()
        bad, elsewhere = world.sources["hub-4", kind][0], world.sources["zone-1", "node"][0]
        bad.elsewhere = elsewhere.address + "/elsewhere"
        bad.fault = fault
        with world.relaying() as relayer:
            for _ in range(30 if fault == SLOW else 3):  # on a slow machine a sound source may be late, too
                report = whole_round(relayer)
                if all(client.updates for client in world.light_clients().values()):
                    break
                world.forward(10)
        flaws = [f"{name} isn't updated: {client.latest()} {outcomes(report)} {[o.why for o in report.clients]}" for name, client in world.light_clients().items() if client.updates != 1]
        flaws += ["asked elsewhere"] if any("elsewhere" in path for path in elsewhere.asked) else []
        flaws += ["control characters are told"] if CONTROL.search(world.told.getvalue()) else []
        flaws += [f"{len(bad.asked)} requests to the bad one"] if len(bad.asked) > (70 if fault == "endless pages" else most) else []
        flaws += [f"{bad.sent} bytes of an answer"] if bad.sent > 3 * node.ANSWER_BYTES * len(bad.asked) else []
        flaws += [f"{told} isn't told: {world.told.getvalue()}"] if told not in world.told.getvalue() else []
        return [f"{kind}, {fault}: {flaw}" for flaw in flaws + world.flaws()]


def bad_nodes(program, folder):
    """Each fault of a node beside one that is right."""
    faults = [fault for fault in NODE_FAULTS if SIGNED or fault not in UNSEEN]
    return [flaw for fault in faults for flaw in faulty(program, folder / fault, "node", fault)]


def bad_gateways(program, folder):
    """Each fault of a gateway beside one that is right."""
    return [flaw for fault in GATEWAY_FAULTS for flaw in faulty(program, folder / fault, "gateway", fault)]


def costly_nodes(program, folder):
    """A node that costs more bytes or more requests than a round may, here few of them: it is left, the other one serves, and each bound holds for a round alone."""
    flaws = []
    with mock.patch.object(node, "ROUND_BYTES", 300_000):
        flaws += faulty(program, folder / "bytes", "node", "padded", most=10, told="it has cost as much as a round may")
    with mock.patch.object(node, "ROUND_REQUESTS", 8), two_chains(folder / "requests", program, nodes=5) as world, world.relaying() as relayer:
        for number in range(1, 3):
            flaws += expected(whole_round(relayer), "updated", f"round {number}")
            asked = {source.address: sum(path.startswith(("/status", "/commit", "/validators", "/tx?")) for path in source.asked) for source in world.sources["hub-4", "node"]}
            flaws += [f"{asked} requests in round {number}" for _ in "1" if max(asked.values()) > 8 * number]
            world.forward(120)
        return flaws + world.flaws()


def three_chains(folder, program, **more):
    world = World(folder, program, names=("hub-4", "zone-1", "osmo-7"), refresh=600, blocks=200, **more)
    world.between(("hub-4", "zone-1"), ("zone-1", "osmo-7"), ("hub-4", "osmo-7"))
    return world


def one_chain_down(program, folder):
    """A chain without a node or without a gateway costs its own clients alone; when it is there again they are updated."""
    flaws = []
    for kind in "node", "gateway":
        with three_chains(folder / kind, program) as world, world.relaying() as relayer:
            world.sources["hub-4", kind][0].fault = "dead"
            touched = {name for name, (host, _, of) in world.clients.items() if "hub-4" in ((host, of) if kind == "node" else (host,))}
            flaws += expected(whole_round(relayer), {name: "unknown" if name in touched else "updated" for name in world.clients}, f"no {kind}")
            world.sources["hub-4", kind][0].fault = None
            world.forward(2)
            flaws += expected(whole_round(relayer), {name: "updated" if name in touched else "idle" for name in world.clients}, f"{kind}, then")
            flaws += world.flaws()
    return flaws


def halted_chain(program, folder):
    """A host whose blocks have stopped: nothing is sent there, its clients wait, and clients of it and all others are updated; when it goes on, its own are."""
    with three_chains(folder, program) as world, world.relaying() as relayer:
        hub = world.chains["hub-4"]
        hub.is_halted = True
        world.forward(100)
        own = {name for name, (host, _, _) in world.clients.items() if host == "hub-4"}
        report = whole_round(relayer)
        flaws = expected(report, {name: "unknown" if name in own else "updated" for name in world.clients}, "halted")
        flaws += [f"{outcome.client.name}: {outcome.why}" for outcome in report.clients if ("stands still" in outcome.why) != (outcome.client.name in own)]
        flaws += ["something was broadcast there"] if hub.broadcasts or hub.pool else []
        hub.resume(world.clock.now())
        world.forward(2)
        flaws += expected(whole_round(relayer), {name: "updated" if "hub-4" in (host, of) else "idle" for name, (host, _, of) in world.clients.items()}, "then")
        return flaws + world.flaws()


def lagging_host(program, folder):
    """A host whose latest block is older than the others', and not older than a window: one plan updates the clients of all, each by its host's own time."""
    with three_chains(folder, program) as world, world.relaying() as relayer:
        world.chains["hub-4"].is_halted = True
        world.forward(20)
        world.chains["hub-4"].is_halted = False
        calls = relayer.planner.calls
        flaws = expected(whole_round(relayer), "updated", "behind")
        print(f"relayer: {relayer.planner.calls - calls} calls beside a host that is behind")
        return flaws + world.flaws()


def halts_behind_a_broadcast(program, folder):
    """A host halts while a transaction to it waits: clients of other hosts are updated as ever, in this round and in later ones. At last the transaction is
    included, or its host has forgotten it, and in the end its client is updated."""
    flaws = []
    for is_forgotten in False, True:
        with three_chains(folder / str(is_forgotten), program) as world, world.relaying() as relayer:
            hub, others = world.chains["hub-4"], ["zone-1", "osmo-7"]
            own = {name for name, (host, _, _) in world.clients.items() if host == "hub-4"}
            broadcast = hub.broadcast

            def halting(data):
                hub.is_halted = True
                return broadcast(data)

            hub.broadcast = halting
            first = relayer.round()
            relayer.senders.wait(others)
            flaws += expected(relayer.round(others), {name: "idle" for name in world.clients if name not in own}, "beside")
            flaws += [] if relayer.senders.is_busy("hub-4") else ["nobody waits"]
            relayer.senders.wait()
            flaws += [] if len(hub.broadcasts) == 1 else [f"{len(hub.broadcasts)} transactions there"]
            flaws += [f"{outcome.client.name}: {outcome.word} {outcome.sent}" for outcome in first.clients if outcome.client.name not in own and outcome.word != "updated"]
            world.forward(100)
            words = {name: "unknown" if name in own else "idle" if of == "hub-4" else "updated" for name, (_, _, of) in world.clients.items()}
            flaws += expected(whole_round(relayer), words, "halted")
            hub.broadcast, hub.pool = broadcast, [] if is_forgotten else hub.pool
            hub.resume(world.clock.now())
            for _ in range(3):
                world.forward(30)
                report = whole_round(relayer)
            flaws += [f"{name}: {client.updates} updates, {outcomes(report)}" for name, client in world.light_clients().items() if name in own and client.updates < 1]
            flaws += world.flaws()
    return flaws


def behind(program, folder):
    """A gateway that is behind an update: the client isn't updated again by what it tells. A node that is behind: another one's blocks count."""
    flaws = []
    with two_chains(folder / "gateway", program) as world, world.relaying() as relayer:
        world.freeze("hub-4")
        world.freeze("zone-1")
        whole_round(relayer)
        for source in (world.sources[name, "gateway"][0] for name in world.chains):
            source.fault = "stale"
        report = whole_round(relayer)
        flaws += [f"{len(chain.broadcasts)} transactions" for chain in world.chains.values() if len(chain.broadcasts) != 1] + expected(report, "unknown", "stale")
        flaws += world.flaws()
    with two_chains(folder / "node", program, nodes=2) as world, world.relaying() as relayer:
        world.sources["hub-4", "node"][0].back = 150
        whole_round(relayer)
        latest = world.light_clients()["zone-1.07-tendermint-0"].latest()
        return flaws + ([] if latest >= 199 else [f"updated to {latest}"]) + world.flaws()


# ---- transactions that fail


def killed(program, folder):
    """Kills of the relayer at each call of the chain's program: in the end each client is updated, and nothing is sent twice."""
    flaws = []
    for moment in MOMENTS:
        with two_chains(folder / moment, program, refresh=1_200) as world:
            (world.folder / "die").write_text(moment)
            status, _, _ = world.run("once")
            flaws += [] if status == -9 else [f"{moment}: status {status}"]
            with world.relaying() as relayer:
                for _ in range(4):
                    whole_round(relayer)
                    world.forward(20)
            flaws += [f"{moment}: {name} has {client.updates} updates" for name, client in world.light_clients().items() if client.updates != 1]
            flaws += world.flaws()
    return flaws


def transactions_fail(program, folder):
    """A transaction that a node refuses, or that fails in its block, leaves the other clients' alone; the client is asked for anew later."""
    flaws, hurt, other = [], "hub-4.07-tendermint-0", "zone-1.07-tendermint-0"
    with two_chains(folder / "frozen", program) as world, world.relaying() as relayer:
        client = world.light_clients()[hurt]
        check = client.check_head
        client.check_head = lambda *_: (_ for _ in ()).throw(Refusal("made up"))
        flaws += expected(whole_round(relayer), {hurt: "failed", other: "updated"}, "fails in its block")
        flaws += [] if relayer.seconds_left(hurt) > 5 else ["it doesn't wait"]
        flaws += expected(whole_round(relayer), {hurt: "unknown", other: "idle"}, "waits")
        client.check_head = check
        world.forward(10)
        flaws += expected(whole_round(relayer), {hurt: "updated", other: "idle"}, "again")
        flaws += [] if client.updates == 1 and not relayer.state.failures else ["not updated"]
    with two_chains(folder / "sequence", program) as world, world.relaying() as relayer:
        hub = world.chains["hub-4"]
        broadcast, hub.broadcast = hub.broadcast, lambda data: ("00", 32, STEERING)
        flaws += expected(whole_round(relayer), {hurt: "failed", other: "updated"}, "refused")
        flaws += ["control characters are told"] if CONTROL.search(world.told.getvalue()) else []
        hub.broadcast = broadcast
        world.forward(10)
        flaws += expected(whole_round(relayer), {hurt: "updated", other: "idle"}, "then")
        return flaws + world.flaws()


def plan_fails(program, folder):
    """A client whose script can't be planned costs itself alone."""
    with three_chains(folder, program) as world, world.relaying() as relayer:
        plan = relayer.planner.plan

        def failing(script):
            if "zone-1.07-tendermint-1" in script.read_text():
                raise Fault("made up")
            return plan(script)

        relayer.planner.plan = failing
        wanted = {name: "unknown" if name == "zone-1.07-tendermint-1" else "updated" for name in world.clients}
        return expected(whole_round(relayer), wanted, "one fails") + world.flaws()


def scripts_too_big(program, folder):
    """Clients whose script would be too big for one are planned for in halves."""
    with three_chains(folder, program) as world, world.relaying() as relayer:
        script_of, most = relayer.planner.script_of, []

        def bounded(setup, answers):
            text, left_out = script_of(setup, answers)
            clients = [client["id"] for client in tomllib.loads(setup.read_text())["client"]]
            most.append(len(clients))
            return text, left_out | {client: planner.Refusal("ScriptTooBig", "refused ScriptTooBig at -") for client in clients[2:]}

        relayer.planner.script_of = bounded
        flaws = expected(whole_round(relayer), "updated", "halves")
        return flaws + ([] if max(most) == len(world.clients) > 2 else [f"scripts of {most} clients"]) + world.flaws()


# ---- many rounds


def hundred_rounds(program, folder, rounds=100, blocks=60):
    """Rounds over chains whose validators change one by one, or all at once, with packets both ways, faults of sources that come and go, halts, and kills: each
    client lives, no update is refused, nothing is sent twice, and no packet is lost."""
    with World(folder, program, period=14_400, refresh=4_000, blocks=60, nodes=2, gateways=2, kind=PacketChain) as world:
        world.chains["hub-4"].change, world.chains["zone-1"].switch = 150, (1_000, 1_700, 4_000)
        world.between(("hub-4", "zone-1"), first=50)
        world.open("hub-4", "zone-1")
        days = Days(world)
        while len(days.rounds) < rounds:
            days.kill()
            days.pass_by(10, blocks)
        updates = [client.updates for client in world.light_clients().values()]
        flaws = [f"{updates} updates: {days.words}"] if min(updates) < rounds * blocks * 6 // 6_000 else []
        calm, packets = days.calm(10), sum(len(told_of(world, kind)) for kind in ("recv_packet", "timeout_packet"))
        flaws += [f"pending {pending(world)}"] if pending(world) else []
        print(f"relayer: {rounds} rounds with faults, halts and kills, {updates} updates, {packets} packets, {days.words}, {calm} calm rounds", *days.lines(), sep="\n")
        return flaws + world.flaws()


# ---- the commands


PACKETS = {5: (60, 70, 70), 8: (61, 0, 0), 7: (62, 71, 75), 6: (63, 72, 0)}  # the blocks that sent a packet, received it and wrote its acknowledgement


def begun(program, folder):
    """From `init` by Hermes' configuration, or by hand, to `check`, `pending` and a dry round, over the file that it writes."""
    flaws = []
    with two_chains(folder, program) as world:
        world.channel("hub-4", "zone-1", PACKETS)
        world.client("hub-4", "zone-1").frozen = True  # it isn't taken
        gateways = [word for name in world.chains for word in ("--gateway", f"{name}={world.sources[name, 'gateway'][0].address}")]
        nodes = {name: world.sources[name, "node"][0].address for name in world.chains}
        (world.folder / "hermes.toml").write_text("".join(f'[[chains]]\nid = "{name}"\nrpc_addr = "{address}"\nkey_name = "relayer"\ngas_price = {{ price = 0.025, denom = "u" }}\n' for name, address in nodes.items()))
        (world.folder / "relayer.toml").unlink()
        by_hand = [word for name, address in nodes.items() for word in ("--chain", f"{name}={address}")]
        # a transaction (20,000) with an update over sets of four, twice as much as is guessed; the others aren't of one update that was taken, or of a client that is known
        right = past_update(207_200)
        others = past_update(9, code=5), past_update(9, messages=2), past_update(9, client="07-tendermint-1"), {**right, "tx_result": {"gas_used": 1}}
        world.chains["hub-4"].past_updates = [others[0], right, others[1], right, *others[2:], right]
        for words in by_hand, ["--hermes", "hermes.toml"]:
            status, told, error = world.run("init", *words, *gateways)
            flaws += [] if status == 0 and "2 chains, 2 clients, 2 directions of channels" in told else [f"init: {status}: {told}{error}"]
            text = (world.folder / "relayer.toml").read_text()
            (world.folder / "relayer.toml").unlink()
            flaws += [] if text.count("\ngas = [160000, 6000, 400]  # by 3 updates\n") == 1 and text.count("\ngas = [80000, 3000, 200]  # a guess\n") == 1 else [f"gas of past updates: {text}"]
        text = text.replace('["ibcplan"]', f'["{program}"]').replace("verify = true", f"verify = {str(SIGNED).lower()}").replace('["simd"]', PROGRAM)
        (world.folder / "relayer.toml").write_text(text)
        status, _, error = world.run("init", *by_hand)
        flaws += [] if status == 1 and "is there already" in error else ["init writes over a file"]
        status, told, error = world.run("check")
        flaws += [] if status == 0 and told.count("\ngood") == 9 and told.startswith("good") else [f"check: {status}: {told}{error}"]
        world.sources["hub-4", "node"][0].fault = "catching up"
        status, told, _ = world.run("check")
        flaws += [] if status == 1 and told.count("bad ") == 1 and "it still catches up" in told else [f"check: {status}: {told}"]
        world.sources["hub-4", "node"][0].fault = None
        status, told, error = world.run("pending")
        wanted = ["hub-4.channel-0: 4 packets wait, 3 of them with a message that is due", "  8: sent at 61, 140 blocks ago, waits for receive, due", "  6: sent at 63, 138 blocks ago, waits for its acknowledgement's writing"]
        flaws += [f"pending: {status}: {told}{error}" for _ in "1" if status or not all(line in told.splitlines() for line in wanted)]
        status, told, error = world.run("once", "--dry-run")
        flaws += [] if status == 0 and told.count(": due, ") == 2 and "acknowledgements 2," in told and "receives 1," in told else [f"once: {status}: {told}{error}"]
        return flaws + world.flaws()


SOUND = """version = 1
[[chain]]
id = "hub-4"
nodes = ["http://a.example:26657"]
gateways = ["https://b.example/rest"]
program = ["simd"]
signer = "relayer"
gas_price = "0.025uatom"
[[chain]]
id = "zone-1"
nodes = ["http://c.example"]
[[client]]
host = "hub-4"
id = "07-tendermint-0"
of = "zone-1"
refresh_seconds = 1000
"""
# a change of a sound configuration, and the key that the fault names
WRONG = [("version = 1", "version = 2", "version"), ("version = 1", "version = 1\nfees = 1", "fees"), ('id = "hub-4"', 'id = ".."', "chain[0].id"), ('id = "hub-4"', 'id = "-hub"', "chain[0].id"),
         ('id = "hub-4"', 'id = "a/b"', "chain[0].id"), ('id = "zone-1"', 'id = "hub-4"', "hub-4 is there twice"), ('["http://c.example"]', "[]", "chain[1].nodes"),
         ("http://c.example", "ftp://c.example", "chain[1].nodes"), ("http://c.example", "http://c.example/?a", "chain[1].nodes"), ("http://c.example", "http://", "chain[1].nodes"),
         ('signer = "relayer"', 'signer = "--from"', "chain[0].signer"), ('signer = "relayer"\n', "", "chain[0].signer"), ('["simd"]', '["simd\\u0000"]', "chain[0].program"),
         ("0.025uatom", "1 u", "chain[0].gas_price"), ('gas_price = "0.025uatom"\n', "", "chain[0].gas_price"), ("0.025uatom", "0.0250000000uatom", "chain[0].gas_price"), ('signer = "relayer"', 'signer = "relayer"\nfee = [1, 2]', "chain[0].fee"),
         ('of = "zone-1"', 'of = "hub-4"', "client[0].of"), ('of = "zone-1"', 'of = "other"', "client[0].of"), ('host = "hub-4"', 'host = "zone-1"', "client[0]"),
         ('id = "07-tendermint-0"', 'id = "../x"', "client[0].id"), ("= 1000", "= -1", "client[0].refresh_seconds"), ("= 1000", "= 0", "client[0].refresh_seconds"),
         ("= 1000", "= 1.5", "client[0].refresh_seconds"), ("version = 1", "version = true", "version"), ("version = 1", "version = 1\nverify = 1", "verify"),
         ("version = 1", "version = 1\n\\u001b = 1", "relayer.toml")]


WITH_PATH = SOUND.replace('["http://c.example"]', '["http://c.example"]\ngateways = ["http://d.example"]') + """[[client]]
host = "zone-1"
id = "07-tendermint-9"
of = "hub-4"
[[path]]
source = "hub-4"
port = "transfer"
channel = "channel-0"
dest = "zone-1"
counterparty_port = "transfer"
counterparty_channel = "channel-7"
order = "unordered"
forward = "zone-1.07-tendermint-9"
back = "hub-4.07-tendermint-0"
gas = [3, 2, 1]
wait_seconds = [60, 0, 0]
"""
WRONG_PATHS = [("[60, 0, 0]", "[60, 0]", "path[0].wait_seconds"), ("[60, 0, 0]", "[-1, 0, 0]", "path[0].wait_seconds"), ("[3, 2, 1]", "[3, 2, 1.5]", "path[0].gas"),
               ('"unordered"', '"none"', "path[0].order"), ('forward = "zone-1.07-tendermint-9"', 'forward = "hub-4.07-tendermint-0"', "path[0].forward"),
               ('back = "hub-4.07-tendermint-0"', 'back = "hub-4.07-tendermint-1"', "path[0].back"), ('channel = "channel-0"', 'channel = "../channel-0"', "path[0].channel"),
               ('dest = "zone-1"', 'dest = "osmo-1"', "path[0].dest"), ("gas = [3, 2, 1]", "waits = 1", "path[0].waits")]


def configurations(program, folder):
    """Configurations with a fault, which names the key; no word of theirs is a path out of the folder or an option."""
    folder.mkdir(parents=True)
    file, flaws = folder / "relayer.toml", []
    for sound, wrong, clients in (SOUND, WRONG, 1), (WITH_PATH, WRONG_PATHS, 2):
        file.write_text(sound)
        flaws += [] if len(read_config(file).clients) == clients else ["the sound one is refused"]
        for old, new, key in wrong:
            assert sound.count(old) >= 1, old
            file.write_text(sound.replace(old, new, 1))
            try:
                read_config(file)
                flaws.append(f"{new!r} is taken")
            except Fault as fault:
                flaws += [] if key in str(fault) and not CONTROL.search(str(fault)) else [f"{new!r}: {fault}"]
    return flaws


def states(program, folder):
    """A state file is read as it was written; one that is damaged anywhere is refused, since it may tell of open transactions."""
    folder.mkdir(parents=True)
    file = folder / "state.json"
    before = read_state(file)
    transaction = Transaction("hub-4", "hub-4.07-tendermint-0", (5, 9), (Packet("recv", "zone-1.channel-7", 3),), 1, "AB", 70)
    before.add(transaction)
    before.add(dataclasses.replace(transaction, hash="CD"))
    before.close(transaction, 60)
    before.fail("zone-1.channel-7 3", Failure(2, 10**18, "made up"))
    flaws = [] if read_state(file) == before else [f"{read_state(file)}"]
    text = file.read_text()
    for old, new in ('"version": 1', '"version": 2'), ('"CD"', "5"), ("70", '"x"'), ("9", "null"), ("60", "-1"), ('"made up"', "[]"), ('"recv"', '""'), ("}", ""):
        assert old in text, old
        file.write_text(text.replace(old, new, 1))
        try:
            flaws.append(f"{old} as {new}: {read_state(file)}")
        except Fault as fault:
            flaws += [] if "no state file" in str(fault) else [str(fault)]
    return flaws


def free_port():
    """A port that no server of another row gets meanwhile: the ports that a system gives are higher."""
    while True:
        with socket.socket() as bound, contextlib.suppress(OSError):
            port = random.randrange(10_000, 30_000)
            bound.bind(("127.0.0.1", port))
            return port


def watching(program, folder):
    """`watch` over hours of the chains: updates go when they are due, a round is made only then, metrics are told, and a signal ends it."""
    with World(folder, program, names=("hub-4", "zone-1"), period=7_200, refresh=3_000, blocks=200) as world:
        world.between(("hub-4", "zone-1"), first=190)
        port = free_port()
        world.extra = f"metrics_port = {port}"
        world.write()
        command = [*RELAYER, "--config", str(world.folder / "relayer.toml"), "watch"]
        flaws, text = [], ""
        with open(world.folder / "log", "w") as log, subprocess.Popen(command, stderr=log, env=world.environment(), cwd=world.folder) as process:
            end, until = time.monotonic() + 900, world.clock.seconds() + 20_000  # where it hangs, or sends nothing
            while process.poll() is None and min(client.updates for client in world.light_clients().values()) < 2 and time.monotonic() < end and world.clock.seconds() < until:
                time.sleep(0.05)
            try:
                with urllib.request.urlopen(f"http://127.0.0.1:{port}/metrics", timeout=600) as answer:
                    text = answer.read().decode()
            except OSError as error:
                flaws.append(f"metrics: {error}")
            process.send_signal(signal.SIGTERM)
            try:
                status = process.wait(900)
            except subprocess.TimeoutExpired:
                process.kill()
                status = None
        lines = [json.loads(line) for line in (world.folder / "log").read_text().splitlines()]
        rounds = [line for line in lines if line["event"] == "round"]
        flaws += [] if status == 0 and lines[-1]["event"] == "stopped" else [f"status {status}: {lines[-1:]}"]
        flaws += [f"no metric {name}" for name in ('ibcplan_client_expires_timestamp_seconds{client="07-tendermint-0",chain="zone-1",host="hub-4"}', 'ibcplan_relayer_transactions_total{host="zone-1",ending="included"}', "ibcplan_relayer_round_seconds ") if name not in text]
        updates = sum(client.updates for client in world.light_clients().values())
        print(f"relayer: watch made {len(rounds)} rounds and {updates} updates in {(world.clock.now() - BEGIN) / 3600e9 - 1 / 3:.1f} hours")
        flaws += [f"{len(rounds)} rounds"] if len(rounds) > 40 else []
        return flaws + ([] if updates >= 4 else [f"{updates} updates in {len(rounds)} rounds: {lines[-5:]}"]) + world.flaws()


def processes(program, folder):
    """A process for each host, at once: each client is updated once. A second one in a folder ends at once."""
    with three_chains(folder, program) as world:
        command = [*RELAYER, "--config", str(world.folder / "relayer.toml"), "once", "--host"]
        running = [subprocess.Popen([*command, name], stdout=subprocess.PIPE, stderr=subprocess.PIPE, env=world.environment(), cwd=world.folder) for name in world.chains]
        ended = [(process.wait(900), *(stream.read().decode() for stream in (process.stdout, process.stderr))) for process in running]
        flaws = [f"{name}: {each}" for name, each in zip(world.chains, ended) if each[0] or each[1].count(": updated") != 2]
        with world.relaying():
            status, _, error = world.run("once")
            flaws += [] if status == 4 and "another relayer works in this folder" in error else [f"{status}: {error}"]
        flaws += [f"{name}: {client.updates} updates" for name, client in world.light_clients().items() if client.updates != 1]
        return flaws + world.flaws()


KINDS = [configurations, states, dry_round, plain_rounds, bad_nodes, bad_gateways, costly_nodes, one_chain_down, halted_chain, lagging_host, halts_behind_a_broadcast, behind, killed, transactions_fail, plan_fails, scripts_too_big, hundred_rounds, begun, watching, processes]
