"""The way from nodes that README shows, for tests/run: `setup --hermes`, the relayer's `fetch`, `import`, `plan`, `messages` and `commands` in a row, each of which
reads what the one before wrote, over made-up nodes. What each writes is made a second time; and at the end the messages and the commands send the plan's updates."""
import contextlib
import re
import subprocess
import tomllib

from lib import answers, hermes, nodes
from lib.encoding import run_messages, sent_in
from lib.json_reading import read_json
from lib.judges import reference
from lib.long_chains import BACK, CLIENT, PACKETS, PATH
from lib.nodes import Host, LongChain, serve
from lib.outputs import commands_of

HUB, ZONE = f"zone-1.{CLIENT}", f"hub-4.{BACK}"  # the clients of the hub and of the zone, as `setup` names them
WORDS = [f"zone-1:{CLIENT}:hub-4", f"hub-4:{BACK}:zone-1"]
CHANNEL = PATH[PATH.index("[[path]]"):].replace(f'"{CLIENT}"', f'"{HUB}"').replace(f'"{BACK}"', f'"{ZONE}"')

# what the way is for, the hub's chain, the heights that both clients have stored, what is written into the setup before its turn and behind it, how many updates the
# plan has for each client, and which packets the commands name
WAYS = [
    ("goals", LongChain("hub-4", "switch", 1_000, 30, 572), [400, 500], "",
     f'goal = [{{ client = "{HUB}", at_least = 900 }}, {{ client = "{ZONE}", at_least = 999 }}]\n', {HUB: 2, ZONE: 1}, []),
    ("packets", LongChain("hub-4", "quiet", 100, 6), [40], CHANNEL + "\n", "", {HUB: 1, ZONE: 1},
     ["hermes tx packet-recv --dst-chain zone-1 --src-chain hub-4 --src-port transfer --src-channel channel-0 --packet-sequences 8",
      "hermes tx packet-ack --dst-chain hub-4 --src-chain zone-1 --src-port transfer --src-channel channel-7 --packet-sequences 5,7"]),
]


def config_of(addresses):
    """A configuration of Hermes for chains at these addresses of their nodes."""
    return "".join(f'[[chains]]\nid = "{chain}"\nrpc_addr = "{address}"\nmax_gas = 4_000_000\ngas_price = {{ price = 0.025, denom = "u" }}\n' for chain, address in addresses.items())


def written_by(program, *words):
    """What a command writes; why it fails, where it does."""
    done = subprocess.run([*program, *map(str, words)], capture_output=True, timeout=600)
    return done.stdout.decode(), [] if done.returncode == 0 else [f"{words[0]}: status {done.returncode}: {done.stderr.decode()}"]


def way_flaws(program, folder, hub, stored, before, behind, updates, packets):
    """What is wrong with a run of the whole way."""
    folder.mkdir()
    zone = LongChain("zone-1", "quiet", hub.blocks, 6)
    gateways = {"hub-4": Host(zone, {BACK: stored}), "zone-1": Host(hub, {CLIENT: stored})}
    for host in (hub, zone, *gateways.values()):
        host.transfers = nodes.Transfers(PACKETS)
    asked, saved = {host: [] for chain in gateways for host in (chain, f"the gateway of {chain}")}, folder / "answers"
    with contextlib.ExitStack() as stack:
        rpc = {chain.name: stack.enter_context(serve(chain.answer, asked[chain.name])) for chain in (hub, zone)}
        rest = {chain: stack.enter_context(serve(gateway.answer, asked[f"the gateway of {chain}"])) for chain, gateway in gateways.items()}
        (folder / "config.toml").write_text(config_of(rpc))
        text, flaws = written_by(program, "setup", "--hermes", folder / "config.toml", *WORDS)
        flaws += [] if text == hermes.setup_of(config_of(rpc), WORDS) else [f"another setup: {text}"]
        # by hand: the window, the goals or the channel, and the gateways
        begin, end = (f"{hub.time(hub.blocks) + later:%Y-%m-%dT%H:%M:%SZ}" for later in (nodes.BLOCK, 50 * nodes.BLOCK))
        text = text.replace("FROM", begin).replace("UNTIL", end).replace("[[turn]]", f"{before}[[turn]]") + behind
        (folder / "setup.toml").write_text(text)
        lines = re.findall(r"^# (\S+) (http\S+) -$", text, re.M)
        words = nodes.fetching(folder / "relayer.toml", program[0], {chain: (address, rest[chain]) for chain, address in lines})
        done = subprocess.run([*words, folder / "setup.toml", saved], capture_output=True, timeout=600)
    flaws += [] if done.returncode == 0 else [f"fetch: status {done.returncode}: {done.stderr.decode()}"]
    flaws += [f"twice asked: {path} of {host}" for host, paths in asked.items() for path in {path for path in paths if paths.count(path) > 1}]
    files, requests = sum(path.is_file() for path in saved.glob("*/*")), sum(map(len, asked.values()))
    flaws += [] if files == requests else [f"{files} answers to {requests} requests"]
    script, failed = written_by(program, "import", folder / "setup.toml", saved)
    if failed:
        return flaws + failed
    (folder / "script.toml").write_text(script)
    table = tomllib.loads(script)
    headers = {(event["chain"], event["height"]) for event in table["turn"][-1]["event"] if event["kind"] == "header"}
    fetched = {(path.parent.name, int(path.stem.partition("-")[2])) for path in saved.glob("*/commit-[0-9]*.json")}
    flaws += [] if headers == fetched else [f"fetched were the headers {sorted(fetched)}, and imported {sorted(headers)}"]
    wanted = answers.script_of(text, saved)
    wanted["turn"][-1].setdefault("goal", [])
    flaws += [] if answers.with_numbers(tomllib.loads(script)) == wanted else ["import writes another script"]
    plan, failed = written_by(program, "plan", folder / "script.toml")
    flaws += failed + ([] if plan == reference.report(reference.read_script(script.encode())) else [f"another plan: {plan}"])
    report = read_json(written_by(program, "plan", "--json", folder / "script.toml")[0])
    sent = [*sent_in(table, report)]
    counts = {client: sum(name == client for name, *_ in sent) for client in updates}
    flaws += [] if counts == updates else [f"updates: {counts}, and not {updates}"]
    # `messages` over these answers, whose files, lines and shell file are made a second time: one for each update of the plan
    count, _, is_good = run_messages(program, folder, folder / "setup.toml", saved, "messages", False)
    flaws += [] if is_good and count == len(sent) and (folder / "messages.toml").read_text() == script else [f"messages: {count} for {len(sent)} updates"]
    # of the setup itself the same lines and files are made
    of_setup, failed = written_by(program, "messages", folder / "setup.toml", saved, folder / "of setup")
    of_script, more = written_by(program, "messages", folder / "script.toml", saved, folder / "of script")
    both = [{path.name: path.read_bytes() for path in (folder / name).glob("*")} for name in ("of setup", "of script")]
    flaws += failed + more + ([] if of_setup == of_script and both[0] == both[1] else ["messages of a setup makes others than of its script"])
    told, failed = written_by(program, "commands", "--last", folder / "script.toml")
    flaws += failed + ([] if told == commands_of(table, report, len(table["turn"])) else [f"other commands: {told}"])
    lines = [line for line in told.splitlines() if line.startswith("hermes ")]
    wanted = [f"hermes update client --host-chain {client.split('.')[0]} --client {client.split('.')[1]} --height {height} --trusted-height {trusted}" for client, _, height, trusted in sent]
    return flaws + ([] if sorted(lines) == sorted(wanted + packets) else [f"the commands send {lines}, and not {wanted + packets}"])


def way_runs(program, top):
    """How many runs of the whole way there are, and how many go wrong."""
    wrong = 0
    for name, *way in WAYS:
        flaws = way_flaws(program, top / f"way with {name}", *way)
        if flaws:
            print(f"== from nodes to messages and commands, with {name}", *flaws, sep="\n-- ")
        wrong += bool(flaws)
    return len(WAYS), wrong
