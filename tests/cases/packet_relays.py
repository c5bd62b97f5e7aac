"""Runs of the relayer with packets over simulated chains with strict light clients and packet handlers."""
import dataclasses
import json
import random
import signal
import subprocess
import time

from lib.packets import chains as handlers
from lib.program import CONTROL
from lib.relaying.chains import BEGIN, Refusal
from lib.relaying.channels import PacketChain, pending, told_of
from lib.relaying.days import MOMENTS
from lib.relaying.world import RELAYER, World

from relayer.watch import Blocks

ORDERS = {"unordered": False, "ordered": True}


def channel_world(folder, program, is_ordered=False, refresh=0, **more):
    """Two chains with clients of each other and a channel; its names there."""
    world = World(folder, program, kind=PacketChain, refresh=refresh, blocks=40, **more)
    world.between(("hub-4", "zone-1"), first=30)
    return world, world.open("hub-4", "zone-1", is_ordered)


def whole_round(relayer):
    """A round, until nothing is on its way any more."""
    report = relayer.round()
    relayer.senders.wait()
    return report


def rounds_until_done(world, relayer, most, blocks):
    """Rounds, with so many blocks before each, until no packet is pending."""
    for _ in range(most):
        world.forward(blocks)
        whole_round(relayer)
        if not pending(world):
            return


def transactions(world):
    """How many transactions each chain has included."""
    return [len(chain.results) for chain in world.chains.values()]


def send(world, ends, counts=(3, 2), **timeout):
    """Sends packets on both ends of a channel."""
    for chain, channel, count in zip(world.chains.values(), ends, counts):
        for number in range(count):
            chain.send(channel, f"packet {number} of {chain.name} \u20ac".encode() + bytes([0, 255]), **timeout)


def lives(program, folder):
    """Packets both ways are received and acknowledged by a transaction each way for all of them; later ones time out."""
    flaws = []
    for word, is_ordered in ORDERS.items():
        world, ends = channel_world(folder / word, program, is_ordered)
        with world, world.relaying() as relayer:
            send(world, ends)
            world.forward(3)
            rounds = [whole_round(relayer)]
            flaws += [f"{word}: received {told_of(world, 'recv_packet')}"] if sorted(told_of(world, "recv_packet")) != [1, 1, 2, 2, 3] else []
            world.forward(3)
            rounds.append(whole_round(relayer))
            flaws += [f"{word}: pending {pending(world)}, {transactions(world)}"] if pending(world) or transactions(world) != [2, 2] else []
            send(world, ends, (1, 0) if is_ordered else (2, 2), blocks=3)
            send(world, ends, (0, 0) if is_ordered else (1, 0), seconds=10)
            world.forward(20)
            rounds.append(whole_round(relayer))
            flaws += [f"{word}: timed out {told_of(world, 'timeout_packet')}, pending {pending(world)}"] if pending(world) or len(told_of(world, "timeout_packet")) != (1 if is_ordered else 5) else []
            world.forward(3)
            whole_round(relayer)
            quiet = whole_round(relayer)
            words = [[outcome.word for outcome in report.clients] for report in (*rounds, quiet)]
            wanted = [["updated", "updated"], ["updated", "updated"], ["updated", "idle" if is_ordered else "updated"], ["idle", "idle"]]
            flaws += [f"{word}: {words}: {[(o.why, o.sent) for report in rounds for o in report.clients]}"] if words != wanted else []
            flaws += [f"{word}: a quiet round asks {quiet.requests} times"] if quiet.requests > 6 else []
            print(f"relayer: packets, {word}: requests {[report.requests for report in rounds]}, calls {[report.calls for report in rounds]}; quiet {quiet.requests}, {quiet.calls}")
            flaws += [f"{word}: {flaw}" for flaw in world.flaws()]
    return flaws


def fails_alone(program, folder):
    """A packet that its chain never takes: the others go one by one, on an ORDERED channel those before it. After three failures it waits long, and the rest goes
    with others again. A new process knows of it; when the chain takes it, it goes."""
    flaws = []
    for word, is_ordered in ORDERS.items():
        world, ends = channel_world(folder / word, program, is_ordered)
        with world:
            zone, tried = world.chains["zone-1"], []
            take = zone.ends[ends[1]].take

            def failing(message, other):
                if message["packet"]["sequence"] == "2" and message["@type"].endswith("RecvPacket"):
                    tried.append(world.clock.now())
                    raise Refusal("made up \x1b[31m")
                return take(message, other)

            zone.ends[ends[1]].take = failing
            send(world, ends, (5, 0))
            world.forward(3)
            for _ in range(3):  # each by another process
                with world.relaying() as relayer:
                    for _ in range(2):
                        whole_round(relayer)
                        world.forward(10)
                    told = world.told.getvalue()
                    failure = relayer.state.failures["hub-4.channel-0 2"]
            received, wanted = sorted(told_of(world, "recv_packet")), [1] if is_ordered else [1, 3, 4, 5]
            flaws += [f"{word}: {failure} at {world.clock.now()}"] if failure.count != 3 or failure.until < world.clock.now() + 600 * 10**9 else []
            flaws += [f"{word}: received {received}"] if received != wanted else []
            flaws += [f"{word}: {len(tried)} tries"] if not 4 <= len(tried) <= 5 else []  # together once, then alone
            flaws += [f"{word}: control characters are told"] if CONTROL.search(told) else []
            status, lines, _ = world.run("pending")
            flaws += [f"{word}: pending: {lines}"] if "hub-4.channel-0 2: failed " not in lines or "made up" not in lines else []
            send(world, ends, (1, 0))
            before = len(zone.results)
            world.forward(3)
            with world.relaying() as relayer:
                whole_round(relayer)
                flaws += [f"{word}: a new packet beside it: {len(zone.results) - before} transactions, {told_of(world, 'recv_packet')}"] if not is_ordered and 6 not in told_of(world, "recv_packet") else []
                zone.ends[ends[1]].take = take
                rounds_until_done(world, relayer, 8, 100)
            flaws += [f"{word}: pending {pending(world)}, failures {relayer.state.failures}"] if pending(world) or relayer.state.failures else []
            flaws += [f"{word}: {flaw}" for flaw in world.flaws() if "made up" not in flaw]
    return flaws


def malformed_packet(program, folder):
    """A packet whose events can't be read, whoever is asked: it is set aside, the others go, and no source is left for it."""
    world, ends = channel_world(folder, program)
    with world, world.relaying() as relayer:
        send(world, ends, (4, 0))
        world.forward(3)
        [attribute] = [each for _, kind, number, _, event in world.chains["hub-4"].events if (kind, number) == ("send_packet", 2)
                       for each in event["attributes"] if each["key"] == "packet_timeout_timestamp"]
        before, attribute["value"] = attribute["value"], "soon \x1b[31m"
        whole_round(relayer)
        flaws = [f"received {told_of(world, 'recv_packet')}, {relayer.state.failures}"] if sorted(told_of(world, "recv_packet")) != [1, 3, 4] else []
        flaws += ["control characters are told"] if CONTROL.search(world.told.getvalue()) else []
        flaws += [f"{source.address} is left" for source in relayer.sources.all() if not source.is_usable()]
        attribute["value"] = before
        rounds_until_done(world, relayer, 5, 10)
        flaws += [f"pending {pending(world)}, {relayer.state.failures}"] if pending(world) or relayer.state.failures else []
        return flaws + world.flaws()


def other_relayer(program, folder):
    """Another relayer's messages come first: the client is asked for anew, and what is left goes."""
    world, ends = channel_world(folder, program)
    with world, world.relaying() as relayer:
        zone, hub = world.chains["zone-1"], world.chains["hub-4"]
        send(world, ends, (3, 0))
        world.forward(3)
        broadcast = zone.broadcast

        def later(data):
            zone.broadcast = broadcast
            tx = json.loads(data)
            for message in tx["body"]["messages"]:
                if message["@type"].endswith("UpdateClient") or message["packet"]["sequence"] == "2":
                    zone.take(message)
            return broadcast(data)

        zone.broadcast = later
        words = [[outcome.word for outcome in whole_round(relayer).clients]]
        rounds_until_done(world, relayer, 5, 5)
        flaws = [f"{words}, received {told_of(world, 'recv_packet')}, {relayer.state.failures}"] if words != [["idle", "failed"]] or sorted(told_of(world, "recv_packet")) != [1, 2, 3] or relayer.state.failures else []
        flaws += [f"pending {pending(world)}, {len(hub.results)} transactions to the hub"] if pending(world) or len(hub.results) > 2 else []
        return flaws + [flaw for flaw in world.flaws() if "received before" not in flaw and "updates to stored" not in flaw]


LYING = "other proofs", "other packets", "no proofs", "no packets"


def lying_nodes(program, folder):
    """A node with wrong proofs, with other data in packets, or without proofs or packets, beside one that is right: the packets go, and nothing fails."""
    flaws = []
    for fault in LYING:
        world, ends = channel_world(folder / fault, program, nodes=2)
        with world, world.relaying() as relayer:
            for name in world.chains:
                world.sources[name, "node"][0].fault = fault
            send(world, ends)
            rounds_until_done(world, relayer, 8, 5)
            flaws += [f"{fault}: pending {pending(world)}, {relayer.state.failures}"] if pending(world) else []
            flaws += [f"{fault}: {flaw}" for flaw in world.flaws()]
    return flaws


def hiding_gateways(program, folder):
    """A gateway of each chain that hides packets beside one that is right, in another place of its list: the packets go within some rounds."""
    flaws = []
    for fault in "hides commitments", "hides receipts", "hides all":
        world, ends = channel_world(folder / fault, program, gateways=2)
        with world, world.relaying() as relayer:
            for place, name in enumerate(world.chains):
                world.sources[name, "gateway"][place].fault = fault
            send(world, ends)
            random.seed(fault)
            rounds_until_done(world, relayer, 30, 5)
            flaws += [f"{fault}: pending {pending(world)}, {relayer.state.failures}"] if pending(world) else []
            flaws += [f"{fault}: {flaw}" for flaw in world.flaws()]
    return flaws


def stale_gateways(program, folder):
    """Gateways that are behind what was included: nothing goes again."""
    world, ends = channel_world(folder, program)
    with world, world.relaying() as relayer:
        send(world, ends)
        world.forward(3)
        for name in world.chains:
            world.freeze(name)
        whole_round(relayer)
        for name in world.chains:
            world.sources[name, "gateway"][0].fault = "stale"
        before = transactions(world)
        for _ in range(3):
            world.forward(3)
            whole_round(relayer)
        flaws = [f"{before}, then {transactions(world)} transactions"] if transactions(world) != before else []
        for name in world.chains:
            world.sources[name, "gateway"][0].fault = None
        world.forward(20)
        whole_round(relayer)
        return flaws + ([f"pending {pending(world)}"] if pending(world) else []) + world.flaws()


def killed_with_packets(program, folder):
    """Kills of the relayer at each call of a chain's program: each packet goes once."""
    flaws = []
    for moment in MOMENTS:
        world, ends = channel_world(folder / moment, program)
        with world:
            send(world, ends)
            world.forward(3)
            (world.folder / "die").write_text(moment)
            status, _, _ = world.run("once")
            flaws += [] if status == -9 else [f"{moment}: status {status}"]
            with world.relaying() as relayer:
                rounds_until_done(world, relayer, 8, 10)
            flaws += [f"{moment}: pending {pending(world)}"] if pending(world) else []
            flaws += [f"{moment}: {flaw}" for flaw in world.flaws()]
    return flaws


def new_blocks(program, folder):
    """What `watch` notices of new blocks, once it can be proved: packets, also by older nodes, by a second node where the first fails, and behind many blocks."""
    world, ends = channel_world(folder, program, nodes=2)
    with world, world.relaying() as relayer:
        blocks, hub, flaws = Blocks(relayer.config, relayer.sources), world.chains["hub-4"], []

        def look(what, count, wanted):
            world.forward(count)
            found = blocks.look()
            flaws.extend([] if found == wanted else [f"{what}: {found}, and not {wanted}"])

        look("the first", 1, set())
        hub.send(ends[0], b"")
        look("sent", 1, set())
        look("provable", 2, {"zone-1"})
        look("after that", 1, set())
        hub.is_old = True
        hub.send(ends[0], b"")
        look("by an older node", 3, {"zone-1"})
        world.sources["hub-4", "node"][0].fault = "dead"
        hub.send(ends[0], b"")
        look("by no node", 3, set())
        look("by the second node", 0, {"zone-1"})
        other = handlers.Packet(1, ("transfer", "channel-99"), ("transfer", "channel-98"), b"", handlers.NO_HEIGHT, 1)
        hub.tell("send_packet", other)
        hub.tell("acknowledge_packet", dataclasses.replace(other, source=("transfer", ends[0])))
        look("other channels and events", 3, set())
        look("many blocks", 100, set())
        look("after many", 2, {"hub-4", "zone-1"})
        return flaws


def watching_packets(program, folder):
    """`watch` wakes for packets and acknowledgements in new blocks, and makes few rounds else."""
    world, ends = channel_world(folder, program)
    with world:
        world.extra = "poll_seconds = 5\nround_seconds = 3600"
        world.write()
        chance, sent, end = random.Random(1), 0, time.monotonic() + 900  # where it hangs
        with open(world.folder / "log", "w") as log, subprocess.Popen([*RELAYER, "--config", str(world.folder / "relayer.toml"), "watch"], stderr=log, env=world.environment(),
                                                                       cwd=world.folder) as process:
            while process.poll() is None and (done := len(told_of(world, "acknowledge_packet"))) < 6 and time.monotonic() < end:
                if sent == done and (world.folder / "log").read_text().count('"round"') > done:
                    chain = chance.choice([*world.chains.values()])
                    chain.send(next(iter(chain.ends)), b"packet")
                    sent += 1
                time.sleep(0.01)
            process.send_signal(signal.SIGTERM)
            status = process.wait(900)
        begins, ends = (sorted(chain.times[block] for chain in world.chains.values() for block, event, *_ in chain.events if event == kind) for kind in ("send_packet", "acknowledge_packet"))
        took = [(end - begin) / 10**9 for begin, end in zip(begins, ends)]  # one was on its way at a time
        lines = [json.loads(line) for line in (world.folder / "log").read_text().splitlines()]
        rounds = sum(line["event"] == "round" for line in lines)
        print(f"relayer: watch had {len(took)} packets acknowledged within {[round(seconds) for seconds in took]} s, by {rounds} rounds in {(world.clock.now() - BEGIN) / 3600e9:.1f} hours")
        flaws = [f"status {status}, {len(took)} packets: {lines[-5:]}"] if status != 0 or len(took) < 6 else []
        flaws += [f"a packet took {max(took):.0f} s"] if took and max(took) > 300 else []
        return flaws + world.flaws()


def fleet(program, folder):
    """Three processes over three chains, each for one host, at once: each packet goes once."""
    world = World(folder, program, names=("hub-4", "zone-1", "osmo-7"), kind=PacketChain, blocks=40)
    world.between(("hub-4", "zone-1"), ("zone-1", "osmo-7"), ("hub-4", "osmo-7"), first=30)
    channels = [(pair, world.open(*pair)) for pair in (("hub-4", "zone-1"), ("zone-1", "osmo-7"), ("hub-4", "osmo-7"))]
    with world:
        flaws = []
        for turn in range(2):
            for pair, ends in channels:
                for name, channel in zip(pair, ends):
                    world.chains[name].send(channel, f"{turn}".encode())
            for _ in range(2 + turn):
                world.forward(3)
                command = [*RELAYER, "--config", str(world.folder / "relayer.toml"), "once", "--host"]
                running = [subprocess.Popen([*command, name], stdout=subprocess.PIPE, stderr=subprocess.PIPE, env=world.environment(), cwd=world.folder) for name in world.chains]
                for process in running:
                    output, error = process.communicate(timeout=900)
                    flaws += [f"status {process.returncode}: {output.decode()}{error.decode()}"] if process.returncode else []
        received = sorted(told_of(world, "recv_packet"))
        print(f"relayer: three processes over three chains: {len(received)} packets, {transactions(world)} transactions")
        flaws += [f"received {received}, pending {pending(world)}"] if received != sorted([1, 2] * 6) or pending(world) else []
        return flaws + world.flaws()


PACKET_KINDS = [lives, fails_alone, malformed_packet, other_relayer, lying_nodes, hiding_gateways, stale_gateways, killed_with_packets, new_blocks, watching_packets, fleet]
