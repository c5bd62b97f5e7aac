"""Runs of `want` over folders that are made step by step, and of the relayer's `fetch` over made-up nodes: how many requests it makes, none of them twice,
and whether what it saves plans as well as all heights would."""
import contextlib
import json
import re
import shutil
import subprocess
import tomllib
import urllib.parse

from lib import answers, nodes
from lib.judges import reference
from lib.long_chains import BACK, CLIENT, FEE, HEAD, PACKETS, PATH, setup_of
from lib.nodes import Host, LongChain, fetching, least_fee, serve
from lib.program import CONTROL, Case

GATEWAY = "/ibc/core/client/v1"


def hosted(text, host):
    """The setup whose window is the one that its turn gives this host; the common one comes years later."""
    before, turn = text.split("[[turn]]\n")
    own = ", ".join(turn.splitlines()[:2])
    return f'{before}[[turn]]\n{turn.replace("2026-", "2036-")}window = [{{ host = "{host}", {own} }}]\n'


def get(path, file, chain="hub-4"):
    return f"get {chain} {path} {file}\n"


def commit(height, chain="hub-4"):
    return get(f"/commit?height={height}", f"{chain}/commit-{height}.json", chain)


def validators(height, page=1, size=100):
    return get(f"/validators?height={height}&per_page={size}&page={page}", f"hub-4/validators-{height}-{page}.json")


STATE = get(f"{GATEWAY}/client_states/{CLIENT}", f"{CLIENT}/client_state.json", "zone-1")
STATUS = get("/status", "hub-4/status")


def records(page=1, key=""):
    return get(f"{GATEWAY}/consensus_states/{CLIENT}?pagination.limit=1000{key}", f"{CLIENT}/consensus_states-{page}.json", "zone-1")


def filled(folder, chain, lines, stored=(1, 30, 52)):
    """Saves the answers that lines ask for, which the node or the gateway gives."""
    host = Host(chain, {CLIENT: list(stored)}, page=2)
    for line in lines.splitlines():
        _, asked, path, file = line.split()
        address, _, words = path.partition("?")
        query = dict((name, [nodes.urllib.parse.unquote(value)]) for name, value in (word.split("=", 1) for word in words.split("&") if word))
        status, value = (chain if asked == "hub-4" else host).answer(address, query)
        assert status == 200, value
        answers.write(folder / file, value)


def want_cases(top):
    """What is asked for, by what is there: state, records, status; then the newest final height; then by halves."""
    chain, setup = LongChain("hub-4", "switch", 100, 6, 70), top / "want.toml"
    whole = STATE + records() + STATUS
    second = whole + records(2, "&pagination.key=NC01Mg%3D%3D")
    first = validators(53) + commit(99) + validators(99)
    half = "".join(commit(height) + validators(height) for height in (75, 63))
    why = f"why {CLIENT} from 52: "
    none = "0 of 6000 signed, more than 2000 needed"
    for number, (goal, there, wanted, told) in enumerate((
        ("", "", whole, b""),
        ("", STATE, records() + STATUS, b""),
        ("", whole, records(2, "&pagination.key=NC01Mg%3D%3D"), b""),
        ("", second, first + why + "nothing judged yet\n", b""),
        ("", second + first, commit(75) + validators(75) + why + f"99 refused ({none})\n", b""),
        ("", second + first + half, commit(69) + validators(69) + why + f"63 accepted, 75 refused ({none})\n", b""),
        ("exactly = 52", second, "", b""),
        ("at_least = 50", second, "", b""),
        ("at_least = 53", second, first + why + "nothing judged yet\n", b""),
        ("at_least = 60", second + first + half, "", b""),
        ("exactly = 63", second + first + half, "", b""),
        ("exactly = 64", second + first + half, commit(64) + validators(64) + why + "nothing judged yet\n", b""),
        ("at_least = 100", second, "", f"end {CLIENT}: its goal is 100, and the votes of no height above 99 are final\n".encode()),
    )):
        folder = top / f"want-{number}"
        filled(folder, chain, there)
        path = top / f"want-{number}.toml"
        path.write_text(setup_of(chain, goal))
        yield Case(f"want {number}", ["want", str(path), str(folder)], b"", wanted.encode(), told, 0)
    for host, told in ("zone-1", b""), ("hub-4", f"end {CLIENT}: nothing goes on from 52: 99 refused (Expired)\n".encode()):
        text = hosted(setup_of(chain, "at_least = 60"), host)
        yield Case(f"want in the window of {host}", ["want", "-", str(top / "want-9")], text.encode(), b"", told, 0)
    yield Case("want of no setup", ["want", "-", str(top)], b"version = 2\n", b"", b"fault 1005 BadVersion at version\n", 1)
    setup.write_text(setup_of(chain, ""))
    folder = top / "want-refused"
    filled(folder, chain, second + first)
    (folder / "hub-4" / "commit-75.refused").write_text("")
    yield Case("want, a height refused", ["want", str(setup), str(folder)], b"", (commit(87) + validators(87) + why + f"99 refused ({none})\n").encode(), b"", 0)
    folder = top / "want-next-refused"
    filled(folder, chain, second + first)
    (folder / "hub-4" / "validators-53-1.json").rename(folder / "hub-4" / "validators-53-1.refused")
    yield Case("want, the next set refused", ["want", str(setup), str(folder)], b"", b"", f"end {CLIENT}: nothing goes on from 52: 99 not judged: the node doesn't give its header, its validators or those of 53\n".encode(), 0)
    for name, error, status in ("hub-4", b"device\n", 4), ("zone-1", b"", 0):  # no client tracks the second
        folder = top / f"want-file-{name}"
        filled(folder, chain, second)
        shutil.rmtree(folder / name, ignore_errors=True)
        (folder / name).write_text("")
        output = b"" if status else (first + why + "nothing judged yet\n").encode()
        yield Case(f"want, a file in the place of the folder of {name}", ["want", str(setup), str(folder)], b"", output, error, status)
    folder, path = top / "want-revision", top / "want-revision.toml"
    filled(folder, chain, second)
    states = folder / CLIENT / "consensus_states-1.json"
    held = json.loads(states.read_text())
    held["consensus_states"].append(held["consensus_states"][0] | {"height": {"revision_number": "3", "revision_height": "35"}})
    states.write_text(json.dumps(held))
    path.write_text(setup_of(chain, "exactly = 40"))
    asked = validators(31) + commit(40) + validators(40) + f"why {CLIENT} from 30: nothing judged yet\n"
    yield Case("want, a record of an earlier revision", ["want", str(path), str(folder)], b"", asked.encode(), b"", 0)
    folder = top / "want-frozen"
    filled(folder, chain, whole)
    state = folder / CLIENT / "client_state.json"
    state.write_text(state.read_text().replace('"revision_height": "0"', '"revision_height": "7"', 1))
    yield Case("want, a frozen client", ["want", str(setup), str(folder)], b"", b"", f"end {CLIENT}: it is frozen, or no Tendermint client\n".encode(), 0)


def about(end, rest, file):
    """The line that asks the gateway of an end of the channel."""
    chain, (port, channel) = (("hub-4", "zone-1")[end], nodes.Transfers.ends[end])
    return get(f"/ibc/core/channel/v1/channels/{channel}/ports/{port}/{rest}", f"transfers/{file}.json", chain)


def commitments(page=1, key=""):
    return about(0, f"packet_commitments?pagination.limit=1000{key}", f"commitments-{page}")


def parts(sequences, part=1):
    """The lines that ask which of these packets weren't received, and of which the acknowledgement was written."""
    words = "&".join(f"packet_commitment_sequences={sequence}" for sequence in sequences)
    return (about(1, f"packet_commitments/{','.join(map(str, sequences))}/unreceived_packets", f"unreceived-{part}") +
            about(1, f"packet_acknowledgements?{words}", f"acknowledgements-{part}"))


def done(what, sequence):
    """The line that asks for the transaction which did this with a packet."""
    event, side, chain, channel = {"sent": ("send_packet", "src", "hub-4", "channel-0"), "received": ("recv_packet", "dst", "zone-1", "channel-7"),
                                   "written": ("write_acknowledgement", "dst", "zone-1", "channel-7")}[what]
    query = f"%22{event}.packet_{side}_channel='{channel}'%20AND%20{event}.packet_sequence='{sequence}'%22"
    return get(f"/tx_search?query={query}&per_page=100", f"transfers/{what}-{sequence}.json", chain)


class OnceCase(Case):
    """A run that writes one line to standard error."""

    def is_met_by(self, output, error, status):
        lines = error.splitlines()
        if len(lines) > 1:
            print(f"== {self.what}", *lines, sep="\n-- and not in one line: ")
        return super().is_met_by(output, error, status) and len(lines) < 2


def want_path_cases(top):
    """What is asked for of a path, whose clients have what they need: its commitments, which of these packets weren't received and which acknowledgements were
    written; the transactions that sent, received and acknowledged them; and, where messages may wait, the headers of the blocks since which they do."""
    hub, zone = LongChain("hub-4", "quiet", 100, 6), LongChain("zone-1", "quiet", 100, 6)
    goals = f'client = "{CLIENT}", exactly = 52 }}, {{ client = "{BACK}", exactly = 52'
    turn = setup_of(hub, "").removeprefix(HEAD) + f"goal = [{{ {goals} }}]\n"
    second, known = commitments(2, "&pagination.key=Mg%3D%3D"), commitments() + parts(PACKETS)
    sent, received = ("".join(done(what, sequence) for sequence in sequences) for what, sequences in (("sent", PACKETS), ("received", (5, 7, 6))))
    many = {sequence: (60, 0, 0) for sequence in range(1, 102)}
    both = parts(range(1, 101)) + parts([101], 2)
    # packets of which some may wait: those with an even sequence have a timeout height
    waiting = {5: (60, 70, 70), 8: (61, 0, 0), 7: (62, 71, 75), 9: (64, 0, 0), 11: (64, 0, 0), 13: (65, 0, 0)}
    seen = commitments() + parts(waiting) + "".join(done("sent", sequence) for sequence in waiting)
    whole = seen + done("received", 5) + done("received", 7) + done("written", 7)
    sent_blocks, written_blocks = commit(64) + commit(65), commit(70, "zone-1") + commit(75, "zone-1")

    def waits(*times):
        return lambda text: text.replace("gas = [5, 5, 5]", f"gas = [5, 5, 5]\nwait_ns = {list(times)}")
    for number, (packets, page, edit, there, wanted, told) in enumerate((
        (PACKETS, 1000, str, "", commitments(), b""),
        (PACKETS, 2, str, commitments(), second, b""),
        (PACKETS, 1000, str, commitments(), parts(PACKETS) + sent, b""),
        (PACKETS, 2, str, commitments() + second, parts(PACKETS) + sent, b""),
        (PACKETS, 1000, str, known, "".join(done("sent", s) + (done("received", s) if s != 8 else "") for s in PACKETS), b""),
        (PACKETS, 1000, str, known + sent, received, b""),
        (PACKETS, 1000, str, known + sent + received, done("written", 7), b""),
        (PACKETS, 1000, str, known + sent + received + done("written", 7), "", b""),
        (PACKETS, 1000, lambda text: text.replace("gas = [5, 5, 5]", "gas = [5, 5, 5]\nfirst = 7"), known, done("sent", 8) + done("sent", 7) + done("received", 7), b""),
        ({}, 1000, str, commitments(), "", b""),
        (many, 1000, str, commitments(), both + "".join(done("sent", sequence) for sequence in range(1, 31)), b""),
        (many, 1000, str, commitments() + both + "".join(done("sent", sequence) for sequence in range(1, 101)), done("sent", 101), b""),
        (PACKETS, 1000, lambda text: text.replace('counterparty_port = "transfer"\ncounterparty_channel = "channel-7"\n', ""), "", "", b""),
        (waiting, 1000, waits(0, 0, 9), whole, "", b""),
        (waiting, 1000, waits(9, 0, 0), whole, sent_blocks, b""),
        (waiting, 1000, waits(0, 9, 0), whole, written_blocks, b""),
        (waiting, 1000, waits(9, 9, 0), whole, written_blocks + sent_blocks, b""),
        (waiting, 1000, waits(9, 9, 0), seen, done("received", 5) + done("received", 7) + sent_blocks, b""),
        (waiting, 1000, lambda text: waits(9, 9, 0)(text).replace("gas = [5, 5, 5]", "gas = [5, 5, 5]\nfirst = 10"), whole, sent_blocks, b""),
        (waiting, 1000, waits(9, 9, 0), whole + commit(64) + commit(75, "zone-1"), commit(70, "zone-1") + commit(65), b""),
    )):
        folder, setup = top / f"want-path-{number}", top / f"want-path-{number}.toml"
        setup.write_text(edit(HEAD + PATH + turn))
        hub.transfers = zone.transfers = transfers = nodes.Transfers(packets, page)
        for chain, client in (hub, CLIENT), (zone, BACK):
            answers.write(folder / chain.name / "status", chain.status())
            answers.write(folder / client / "client_state.json", Host(chain, {client: [52]}).answer(f"{GATEWAY}/client_states/{client}", {})[1])
            answers.write(folder / client / "consensus_states-1.json", Host(chain, {client: [52]}).answer(f"{GATEWAY}/consensus_states/{client}", {})[1])
        for line in there.splitlines():
            _, chain, path, file = line.split()
            address, _, words = path.partition("?")
            asked = nodes.urllib.parse.parse_qs(words)
            if address == "/commit":
                answer = (hub if chain == "hub-4" else zone).answer(address, asked)
            else:
                answer = transfers.search(asked["query"][0]) if address == "/tx_search" else transfers.pending(address, asked)
            answers.write(folder / file, answer[1])
        yield Case(f"want of a path {number}", ["want", str(setup), str(folder)], b"", wanted.encode(), told, 0)
    few, many_sent = parts(PACKETS).splitlines(True), "".join(done("sent", sequence) for sequence in range(1, 31))
    for number, names, chain, wanted in (
        (2, ["commitments-1"], b"hub-4", ""),
        (2, ["unreceived-1"], b"zone-1", few[1] + sent),
        (2, ["unreceived-1", "acknowledgements-1"], b"zone-1", sent),
        (10, ["unreceived-1", "acknowledgements-1", "unreceived-2", "acknowledgements-2"], b"zone-1", many_sent),
    ):
        refused = ", ".join(names)
        folder = top / f"want-path-{number}-{'-'.join(names)}"
        shutil.copytree(top / f"want-path-{number}", folder)
        for name in names:
            (folder / "transfers" / f"{name}.json").unlink(missing_ok=True)
            (folder / "transfers" / f"{name}.refused").write_text("")
        told = b"end transfers: the gateway of %s doesn't give which of its packets are pending\n" % chain
        yield OnceCase(f"want of a path, {refused} refused", ["want", str(top / f"want-path-{number}.toml"), str(folder)], b"", wanted.encode(), told, 0)


def fetched_path(program, folder, packets, edit=str):
    """What is wrong with a run of the relayer's `fetch` for a setup with a path over which these packets go, its text, and the script that `import` makes of what it
    saves."""
    folder.mkdir()
    hub, zone = LongChain("hub-4", "quiet", 100, 6), LongChain("zone-1", "quiet", 100, 6)
    hub.transfers = zone.transfers = transfers = nodes.Transfers(packets, 3)
    gateways = {"hub-4": Host(zone, {BACK: [40]}), "zone-1": Host(hub, {CLIENT: [40]})}
    for gateway in gateways.values():
        gateway.transfers = transfers
    text = edit(HEAD + PATH + setup_of(hub, "").removeprefix(HEAD) + "goal = []\n")
    hosts = [host for chain in (hub, zone) for host in (chain, gateways[chain.name])]
    asked = [[] for _ in hosts]
    (folder / "setup.toml").write_text(text)
    with contextlib.ExitStack() as stack:
        served = [stack.enter_context(serve(host.answer, paths)) for host, paths in zip(hosts, asked)]
        words = fetching(folder / "relayer.toml", program, {chain.name: pair for chain, *pair in zip((hub, zone), served[::2], served[1::2])})
        fetched = subprocess.run([*words, folder / "setup.toml", folder / "answers"], capture_output=True, timeout=600)
    flaws = [] if fetched.returncode == 0 else [f"status {fetched.returncode}: {fetched.stderr.decode()}"]
    flaws += [f"twice asked: {path}" for paths in asked for path in {path for path in paths if paths.count(path) > 1}]
    script = subprocess.run([program, "import", folder / "setup.toml", folder / "answers"], capture_output=True).stdout
    return flaws, text, script


def time_flaws(program, folder):
    """What is wrong with the times of packets that wait, of which `want` asks for the blocks: each has that of its block, but one with a timeout height, which
    doesn't wait; and none where nothing waits."""
    folder.mkdir()
    chain, packets = LongChain("hub-4", "quiet", 100, 6), {5: (60, 70, 70), 8: (61, 0, 0), 7: (62, 71, 75), 9: (64, 0, 0)}
    found = []
    for name, waits in ("none", "[0, 0, 9]"), ("both", "[9, 9, 0]"):
        flaws, _, script = fetched_path(program, folder / name, packets, lambda text: text.replace("gas = [5, 5, 5]", f"gas = [5, 5, 5]\nwait_ns = {waits}"))
        found += [f"{name}: {flaw}" for flaw in flaws]
        events = answers.with_numbers(tomllib.loads(script.decode()))["turn"][-1]["event"] if script else []
        times = {(event["kind"], event["seq"]): event["time"] for event in events if event["kind"] in ("sent", "ack") and "time" in event}
        blocks = {("sent", 9): 64, ("ack", 5): 70, ("ack", 7): 75} if name == "both" else {}
        wanted = {event: answers.nanoseconds(chain.stamp(height)) for event, height in blocks.items()}
        found += [] if times == wanted else [f"{name}: other times: {times}"]
    return found


def packet_flaws(program, folder):
    """What is wrong with a run of the relayer's `fetch` for a setup with a path, and with `import`, `plan` and `commands` over what it saves: the plan is the
    second planner's, and the commands name all pending packets that can be proved."""
    flaws, text, script = fetched_path(program, folder, PACKETS)
    given = answers.with_numbers(tomllib.loads(script.decode()))
    flaws += [] if given == answers.script_of(text, folder / "answers") else ["import writes another script"]
    report = reference.report(reference.read_script(script)) if script else ""
    planned, told = (subprocess.run([program, command, "-"], input=script, capture_output=True).stdout.decode() for command in ("plan", "commands"))
    flaws += [] if planned == report else [f"another plan: {planned}"]
    sent = [line for line in told.splitlines() if line.startswith("hermes tx ")]
    wanted = ["hermes tx packet-recv --dst-chain zone-1 --src-chain hub-4 --src-port transfer --src-channel channel-0 --packet-sequences 8",
              "hermes tx packet-ack --dst-chain hub-4 --src-chain zone-1 --src-port transfer --src-channel channel-7 --packet-sequences 5,7"]
    return flaws + ([] if sent == wanted else [f"other commands: {sent}"])


# a name, a chain, the heights that the client has stored, a goal, the height that has to be reached, the most requests, and how many updates the plan has
# (0: as many as it takes, at most 3 % above the least over all heights)
FETCHES = [
    ("quiet", LongChain("hub-4", "quiet", 100_000, 180), [20_000, 20_500], "", 99_999, 12, 1),
    ("all change at once", LongChain("hub-4", "switch", 100_000, 180, 57_122), [19_000, 20_000], "", 99_999, 60, 2),
    ("all change at once, to a goal", LongChain("hub-4", "switch", 100_000, 180, 57_122), [20_000], "at_least = 60_000", 60_000, 60, 2),
    ("all change at once, pruned", LongChain("hub-4", "switch", 100_000, 180, 57_122, lowest=20_001), [20_000], "", 99_999, 60, 2),
    ("steady change", LongChain("hub-4", "churn", 2_000, 30, 22), [1], "", 1_999, 120, 0),
    ("pages of records", LongChain("hub-4", "quiet", 1_000, 30), list(range(1, 900, 2)), "", 999, 40, 1),
]


PAGE, ROUNDS = 40, re.compile(rb"fetched: requests \d+, rounds (\d+)")


def fetched(folder, chain, stored, goal, program, page=1000):
    """The requests of a run of the relayer's `fetch`, and what it ends with."""
    folder.mkdir()
    (folder / "setup.toml").write_text(setup_of(chain, goal))
    asked, host = [], Host(chain, {CLIENT: stored}, page)
    with serve(chain.answer, asked) as rpc, serve(host.answer, asked) as rest:
        words = fetching(folder / "relayer.toml", program, {"hub-4": (rpc, None), "zone-1": (None, rest)})
        done = subprocess.run([*words, folder / "setup.toml", folder / "answers"], capture_output=True, timeout=600)
    return asked, done


STORED = (1, 2, 3, 40, 52)  # three pages, the first and the second of which have one in common
# what is lost, what want asks for then, and after that is there
LOSSES = [
    *(([f"hub-4/validators-{height}-{page}"], [validators(height, page)]) for height in (53, 99) for page in (1, 2, 3)),
    (["hub-4/validators-53-1", "hub-4/validators-53-3"], [validators(53, 1), validators(53, 3)]),
    (["hub-4/validators-99-2", "hub-4/validators-99-3"], [validators(99, 2), validators(99, 3)]),
    *(([f"{CLIENT}/consensus_states-{page}"], [page]) for page in (1, 2, 3)),
    *(([f"{CLIENT}/consensus_states-{page}" for page in pages], pages) for pages in ([1, 2], [1, 3], [2, 3])),
]


def lost_page_flaws(program, folder):
    """What is wrong with `want` where pages are lost: it asks for each by its number, and for no page that is there; then the script is as before the loss."""
    chain = LongChain("hub-4", "quiet", 100, 201)
    folder.mkdir()
    setup, whole = folder / "setup.toml", folder / "whole"
    setup.write_text(setup_of(chain, ""))

    def asked_in(answered):
        return "".join(line for line in done_by("want", answered).splitlines(True) if line.startswith("get "))

    def done_by(command, answered):
        done = subprocess.run([program, command, setup, answered], capture_output=True, timeout=600)
        return done.stdout.decode() if done.returncode == 0 else f"status {done.returncode}: {done.stderr.decode()}"

    while lines := asked_in(whole):
        flaws = [f"asks for what is there: {line}" for line in lines.splitlines() if (whole / line.rpartition(" ")[2]).exists()]
        if flaws:
            return flaws
        filled(whole, chain, lines, STORED)
    script, states = done_by("import", whole), {}
    for path in (whole / CLIENT).glob("consensus_states-*.json"):
        page = int(path.stem.partition("-")[2])
        before = json.loads((whole / CLIENT / f"consensus_states-{page - 1}.json").read_text())["pagination"]["next_key"] if page > 1 else None
        states[page] = records(page, f"&pagination.key={urllib.parse.quote(before, safe='')}" if before else "")
    flaws = [] if not script.startswith("status") and sorted(states) == [1, 2, 3] else [f"no script of three pages of states: {script}"]
    for number, (lost, wanted) in enumerate(LOSSES):
        some = folder / str(number)
        shutil.copytree(whole, some)
        kept = {path: path.read_bytes() for path in some.rglob("*.json") if str(path.relative_to(some).with_suffix("")) not in lost}
        for name in lost:
            (some / f"{name}.json").unlink()
        for line in [states[page] if isinstance(page, int) else page for page in wanted]:
            asked = asked_in(some)
            flaws += [] if asked == line else [f"{lost} lost, asks for {asked} and not for {line}"]
            filled(some, chain, asked, STORED)
        flaws += [] if not asked_in(some) else [f"{lost} lost, goes on with {asked_in(some)}"]
        flaws += [f"{lost} lost, {path} is overwritten" for path, content in kept.items() if path.read_bytes() != content]
        flaws += [] if done_by("import", some) == script else [f"{lost} lost, another script"]
    return flaws


def renamed_page_flaws(program, folder):
    """What is wrong with `want` where a page is in a file of another name, which may be any page, or is lost beside one that was refused."""
    chain = LongChain("hub-4", "quiet", 100, 201)
    folder.mkdir()
    (folder / "setup.toml").write_text(setup_of(chain, ""))
    first = STATE + records() + STATUS + records(2, "&pagination.key=NC01Mg%3D%3D") + commit(99) + "".join(validators(99, page) for page in (1, 2, 3))
    flaws = []
    for number, (there, rename, wanted) in enumerate((
        ((1, 2, 3), {1: "a.json"}, ""),
        ((1, 2), {2: "page.json"}, validators(53, 3)),
        ((1, 3), {1: "a.json"}, validators(53, 2)),
        ((2,), {2: "validators-53-3.refused"}, validators(53, 1)),
        ((2, 3), {3: "validators-53-3.refused"}, validators(53, 1)),
        ((1, 2, 3), {1: "validators-53-1.refused"}, ""),
    )):
        some = folder / str(number)
        filled(some, chain, first + "".join(validators(53, page) for page in there))
        for page, name in rename.items():
            (some / "hub-4" / f"validators-53-{page}.json").rename(some / "hub-4" / name)
        done = subprocess.run([program, "want", folder / "setup.toml", some], capture_output=True, timeout=600)
        asked = "".join(line for line in done.stdout.decode().splitlines(True) if line.startswith("get "))
        flaws += [] if asked == wanted else [f"pages {there}, {rename}: asks for {asked} and not for {wanted}: {done.stderr.decode()}"]
    return flaws


def refusal_flaws(program, folder):
    """What is wrong with a run of the relayer's `fetch` whose node refuses a height, in words with control characters."""
    _, done = fetched(folder, LongChain("hub-4", "switch", 100, 6, 70, lowest=60), [52], "", program)
    told = done.stderr.decode()
    flaws = [] if done.returncode == 0 else [f"status {done.returncode}: {told}"]
    flaws += ["control characters are told"] if CONTROL.search(told) else []
    return flaws + ([] if "height 53 is not available" in told else [f"not told that a height isn't available, but {told}"])


def shared_flaws(program, folder):
    """What is wrong with a run of the relayer's `fetch` for two clients of one chain, which ask for the same heights at its change: none is asked for twice."""
    folder.mkdir()
    chain, other = LongChain("hub-4", "switch", 100_000, 60, 57_122), "07-tendermint-4"
    text = setup_of(chain, "")
    second = text[text.index("[[client]]"):text.index("[[turn]]")].replace(CLIENT, other)
    (folder / "setup.toml").write_text(text.replace("[[turn]]", second + "[[turn]]"))
    asked, host = [], Host(chain, {CLIENT: [20_000], other: [20_000]})
    with serve(chain.answer, asked) as rpc, serve(host.answer, asked) as rest:
        words = fetching(folder / "relayer.toml", program, {"hub-4": (rpc, None), "zone-1": (None, rest)})
        done = subprocess.run([*words, folder / "setup.toml", folder / "answers"], capture_output=True, timeout=600)
    flaws = [] if done.returncode == 0 else [f"status {done.returncode}: {done.stderr.decode()}"]
    flaws += [f"twice asked: {path}" for path in {path for path in asked if asked.count(path) > 1}]
    own = [path for path in asked if CLIENT in path or other in path]
    flaws += [] if len(own) == 4 else [f"asked of the clients: {own}"]
    return flaws + ([f"{len(asked)} requests, and not at most 60"] if len(asked) > 60 else [])


def busy_flaws(program, folder):
    """What is wrong with a run of the relayer's `fetch` whose node is busy at times, and has pruned heights: what may pass is tried again, what can't is asked once."""
    folder.mkdir()
    chain = LongChain("hub-4", "switch", 100, 6, 70, lowest=60)
    (folder / "setup.toml").write_text(setup_of(chain, ""))
    asked, host, busy = [], Host(chain, {CLIENT: [52]}), {"/status"}

    def answer(path, words):
        if path in busy:
            busy.remove(path)
            return 503, {"error": "busy"}
        return chain.answer(path, words)

    with serve(answer, asked) as rpc, serve(host.answer, asked) as rest:
        words = fetching(folder / "relayer.toml", program, {"hub-4": (rpc, None), "zone-1": (None, rest)})
        done = subprocess.run([*words, folder / "setup.toml", folder / "answers"], capture_output=True, timeout=600)
    flaws = [] if done.returncode == 0 else [f"status {done.returncode}: {done.stderr.decode()}"]
    twice = sorted({path for path in asked if asked.count(path) > 1})
    flaws += [] if twice == ["/status"] and asked.count("/status") == 2 else [f"twice asked: {twice}"]
    return flaws + ([] if (folder / "answers" / "hub-4" / "commit-99.json").exists() else ["height 99 isn't saved"])


def missing_flaws(program, folder):
    """What is wrong with runs of the relayer's `fetch` without a node, or without a gateway: that is told, and the other answers are saved."""
    folder.mkdir()
    chain, flaws = LongChain("hub-4", "quiet", 100, 6), []
    host = Host(chain, {CLIENT: [52]})
    (folder / "setup.toml").write_text(setup_of(chain, ""))
    with serve(chain.answer, []) as rpc, serve(host.answer, []) as rest:
        for name, kind, addresses, saved in (("hub-4", "node", {"hub-4": (None, None), "zone-1": (None, rest)}, f"{CLIENT}/client_state.json"),
                                             ("zone-1", "gateway", {"hub-4": (rpc, None), "zone-1": (None, None)}, "hub-4/status")):
            words = fetching(folder / f"{kind}.toml", program, addresses)
            done = subprocess.run([*words, folder / "setup.toml", folder / kind], capture_output=True, timeout=600)
            is_told = f"nobody answers: chain {name}, kind {kind}" in done.stderr.decode()
            flaws += [] if done.returncode == 1 and is_told and (folder / kind / saved).exists() else [f"no {kind}: status {done.returncode}: {done.stderr.decode()}"]
    return flaws


def run_fetches(program, top):
    """Runs of the relayer's `fetch` with this program: how many there were, and how many didn't go as they have to."""
    wrong = 0
    for name, chain, stored, goal, height, most, updates in FETCHES:
        folder = top / f"fetch {name}"
        asked, done = fetched(folder, chain, stored, goal, program, page=PAGE)
        flaws = [] if done.returncode == 0 else [f"status {done.returncode}: {done.stderr.decode()}"]
        flaws += [f"{len(asked)} requests, and not at most {most}"] if len(asked) > most else []
        # a round for each page of consensus states; from each trusted height one for each page of the set of a height that halves the gap, and of the first
        questions = 1 + (height - max(stored) - 1).bit_length()
        rounds, bound = int((ROUNDS.search(done.stderr) or (b"", b"0"))[1]), 1 + -(-len(stored) // PAGE) + updates * questions * -(-chain.size // 100)
        flaws += [f"{rounds} rounds, and not at most {bound}"] if updates and rounds > bound else []
        flaws += [f"twice asked: {path}" for path in {path for path in asked if asked.count(path) > 1}]
        heights = sorted(int(path.stem.partition("-")[2]) for path in (folder / "answers" / "hub-4").glob("commit-*.json"))
        last = max(heights) if goal else height
        plan = least_fee(chain, max(stored), last, heights, FEE) if chain.kind != "quiet" else (0, [last])
        flaws += ["no plan"] if not plan else [f"{len(plan[1])} updates, and not {updates}"] if updates and len(plan[1]) != updates else []
        flaws += [f"{last} isn't saved"] if last not in heights else []
        if plan and chain.kind == "switch":  # only heights at the change can be in a least plan, beside the last one
            least = least_fee(chain, max(stored), last, [*range(chain.change - 3, chain.change + 4), *range(max(stored) + 1, last, 997)], FEE)
            flaws += [f"{plan[0]} for {plan[1]}, and {least[0]} for {least[1]} at the change"] if plan[0] > least[0] else []
        if plan and not updates:
            least = least_fee(chain, max(stored), last, range(1, chain.blocks), FEE)
            flaws += [f"{plan[0]} for {plan[1]}, and {least[0]} for {least[1]} over all heights"] if plan[0] > 1.03 * least[0] else []
            name += f", {plan[0] / least[0] - 1:.2%} above the least"
        if flaws:
            print(f"== fetch, {name}: {len(asked)} requests, {len(plan[1]) if plan else 'no'} updates", *flaws, sep="\n-- ")
        wrong += bool(flaws)
        shutil.rmtree(folder)
    for name, flaws_of in ("a height refused", refusal_flaws), ("two clients of one chain", shared_flaws), ("a busy node", busy_flaws), ("packets", packet_flaws), ("times", time_flaws), \
            ("lost pages", lost_page_flaws), ("renamed pages", renamed_page_flaws), ("missing sources", missing_flaws):
        flaws = flaws_of(program, top / f"fetch, {name}")
        if flaws:
            print(f"== fetch, {name}", *flaws, sep="\n-- ")
        wrong += bool(flaws)
    return len(FETCHES) + 8, wrong
