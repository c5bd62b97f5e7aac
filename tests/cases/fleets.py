"""Runs of `import` over fleets in which answers of some chains, clients and paths are refused, each in another way: the others are
written as if those weren't in the setup, and a line tells of each client and each path that is left out."""
import random
import shlex
import shutil

from lib import answers
from lib.answer_edits import COMMIT, CONSENSUS, HEADER, STATE, edited, moved, removed, removed_folder, written
from lib.importing import CLIENT, HEAD, ONE, TURN, values_of
from lib.json_paths import gone, put
from lib.notices import NOTHING_FRESH, UNVERIFIED_COMMITS
from lib.program import Case

PATH = '[[path]]\nid = "%s"\nsource = "hub-4"\ndest = "zone-1"\norder = "unordered"\nforward = "%s"\nback = "zone-on-hub"\ngas = [5, 5, 5]\n'
PAGE = '\n<html>502 Bad Gateway</html>\n'
COMMITS, STATES, RECORDS = "%s/commit-20.json", "%s/client_state.json", "%s/consensus_states.json"
# by chain: what happens to its answers, and the words of the refusal
CHAINS = {
    "page-1": (written(COMMITS % "page-1", PAGE), "refused ErrorPage at -"),
    "void-1": (removed_folder("void-1"), "device"),
    "short-1": (edited("short-1/validators-20-2.json", put("result.total", "5")), "refused OtherTotal at short-1 20"),
    "forged-1": (edited(COMMITS % "forged-1", put(f"{HEADER}.data_hash", "00" * 32)), "refused OtherHeader at forged-1 20"),
    "other-1": (edited(COMMITS % "other-1", put(f"{HEADER}.chain_id", "hub-9")), "refused OtherChain at other-1 20"),
    "cut-1": (edited(COMMITS % "cut-1", gone(f"{COMMIT}.signatures[5]")), "refused SignatureCount at cut-1 20"),
}
# the same by client, each of hub-4 on zone-1
CLIENTS = {
    "frozen": (edited(STATES % "frozen", put(f"{STATE}.frozen_height.revision_height", "1")), f"refused FrozenClient at {STATE}.frozen_height"),
    "wasm": (edited(STATES % "wasm", put(f"{STATE}.@type", "/ibc.lightclients.wasm.v1.ClientState")), f"refused UnsupportedClient at {STATE}.@type"),
    "no-json": (written(STATES % "no-json", '{"client_state": {},}'), "refused NotJson at -"),
    "empty": (written(RECORDS % "empty", ""), "refused Empty at -"),
    "refused": (written(STATES % "refused", '{"code": 5, "message": "client not found", "details": []}'), "refused NodeError at -"),
    "gone": (removed_folder("gone"), "device"),
    "elsewhere": (edited(STATES % "elsewhere", put(f"{STATE}.chain_id", "hub-9")), "refused OtherChain at elsewhere"),
    "upgraded": (edited(STATES % "upgraded", put(f"{STATE}.latest_height.revision_number", "5")), "refused OtherRevision at upgraded"),
    "twice": (moved(STATES % "twice", "twice/again.json", copy=True), "refused TwoAnswers at twice"),
    "stateless": (removed(STATES % "stateless"), "refused MissingClientState at stateless"),
    "recordless": (removed(RECORDS % "recordless"), "refused MissingConsensusStates at recordless"),
    "forged": (edited(RECORDS % "forged", put(f"{CONSENSUS}.consensus_state.root.hash", "A" * 43 + "=")), "refused OtherRecord at forged 1"),
    "mixed": (moved("hub-4/commit-80.json", "mixed/commit-80.json", copy=True), "refused WrongFolder at mixed"),
}
# the same by path, each from hub-4 to zone-1
PATHS = {
    "cut-short": (written("cut-short/sent.json", '{"result": {"txs": ['), "refused CutShort at -"),
    "no-folder": (removed_folder("no-folder"), "device"),
    "counted": (edited("counted/received.json", put("result.total_count", "7")), "refused MissingTransactions at counted 7"),
    "last-block": (edited("last-block/received.json", put("result.txs[0].height", "9223372036854775807")), "refused BadNumber at result.txs[0].height"),
}
MOST_BYTES = 16_777_216
OF_FILES = ("ErrorPage", "FrozenClient", "UnsupportedClient", "NotJson", "Empty", "NodeError", "CutShort", "BadNumber", "device")


def make(folder):
    """Writes the answers of a fleet: of a sound part, as `answers.make` does, and of the chains, clients and paths above."""
    answers.make(folder, 1, between=0)
    for name in CHAINS:
        chain = answers.Chain(random.Random(name), name, 20)
        for height in (1, 20):
            answers.write(folder / name / f"commit-{height}.json", chain.commit(height))
            for number, page in enumerate(chain.validators(height), 1):
                answers.write(folder / name / f"validators-{height}-{number}.json", page)
        for client in (f"first-of-{name}", f"second-of-{name}"):
            answers.write(folder / (STATES % client), answers.client_state(chain, 20))
            answers.write(folder / (RECORDS % client), answers.consensus_states(chain, [1, 20]))
    for name in CLIENTS:
        shutil.copytree(folder / "hub-on-zone", folder / name)
    for name in (*PATHS, *(f"served-by-{name}" for name in CLIENTS)):
        shutil.copytree(folder / "transfers", folder / name)
    for change, _ in (*CHAINS.values(), *CLIENTS.values(), *PATHS.values()):
        change(folder)


def setup_of(chains=(), clients=(), paths=(), is_sound=True):
    """The setup of the sound part, if it is wanted, in the middle of two clients of each of these chains, these clients, each with a path,
    and these paths. All chains are there; each client has a goal and a settlement."""
    pairs = [(f"{which}-of-{chain}", chain) for chain in chains for which in ("first", "second")]
    tables = {client: CLIENT % (client, "hub-4", chain) for client, chain in pairs} | {client: CLIENT % (client, "zone-1", "hub-4") for client in clients}
    served = [PATH % (f"served-by-{client}", client) for client in clients if is_sound] + [PATH % (path, "hub-on-zone") for path in paths]
    if is_sound:
        sound = {"hub-on-zone": ONE + "refresh_ns = 1_000_000\n", "zone-on-hub": CLIENT % ("zone-on-hub", "hub-4", "zone-1")}
        half = len(tables) // 2
        tables = dict([*tables.items()][:half]) | sound | dict([*tables.items()][half:])
        served.insert(len(served) // 2, PATH % ("transfers", "hub-on-zone"))
    goals = ", ".join('{ client = "%s", at_least = %d }' % (client, len(client)) for client in tables)
    settled = ", ".join('{ client = "%s", batch = 1, done = %d }' % (client, len(client)) for client in tables)
    head = HEAD.replace("[{", "[" + "".join('{ id = "%s" }, ' % chain for chain in CHAINS) + "{")
    before, after = ((TURN % second).partition("goal")[0] + f"goal = [{goals}]\n" for second in (10, 20))
    return f"{head}{''.join(tables.values())}{''.join(served)}{before}settle = [{settled}]\n{after}"


def told_of(chains=(), clients=(), paths=(), is_sound=True):
    """What the first lines tell of those that are left out, in the order of the refusals: of a file first, of what is between answers then."""
    objects = [((f"first-of-{name}", f"second-of-{name}"), CHAINS[name][1]) for name in chains]
    objects += [((name, f"served-by-{name}") if is_sound else (name,), CLIENTS[name][1]) for name in clients]
    objects += [((name,), PATHS[name][1]) for name in paths]
    return [f"left out {name}: {words}\n".encode() for is_read in (True, False) for names, words in objects
            if any(word in words for word in OF_FILES) == is_read for name in names]


def fleet_case(top, what, status, *words, **parts):
    """The import of a setup with these parts, where nothing or the sound part is written."""
    setup, folder, told = top / f"fleet-{what}.toml", top / "fleet", [*told_of(**parts), NOTHING_FRESH.encode(), *((UNVERIFIED_COMMITS % chain).encode() for chain in ("hub-4", "zone-1"))]
    setup.write_text(setup_of(**parts))
    words = ["import", *words, str(setup), str(folder)]
    if status in (0, 7):
        return Case(f"a fleet, {what}", words, b"", answers.script_of(setup_of(), folder), told[0], status, reader=values_of, named=tuple(told))
    return Case(f"a fleet, {what}", words, b"", b"", told[0].split(b": ", 1)[1], status)


def fleet_cases(top):
    """The whole fleet, its parts beside the sound part, and its parts alone."""
    whole = {"chains": [*CHAINS], "clients": [*CLIENTS], "paths": [*PATHS]}
    make(top / "fleet")
    yield fleet_case(top, "sound", 0)
    yield fleet_case(top, "whole", 7, **whole)
    yield fleet_case(top, "all or nothing", 1, "--all-or-nothing", **whole)
    yield fleet_case(top, "nothing sound", 1, chains=[*CHAINS], clients=[*CLIENTS], is_sound=False)
    for kind, names in whole.items():
        for name in names:
            status = 4 if told_of(**{kind: [name]})[0].endswith(b": device\n") else 1
            yield fleet_case(top, name, 7, **{kind: [name]})
            yield fleet_case(top, f"{name}, all or nothing", status, "--all-or-nothing", **{kind: [name]})
            if kind != "paths":
                yield fleet_case(top, f"{name} alone", status, **{kind: [name]}, is_sound=False)
    # a file that is there and can't be read is no refusal of answers
    (top / "fleet" / "barred" / "file.json").mkdir(parents=True)
    setup = top / "fleet-barred.toml"
    setup.write_text(setup_of(clients=["barred", *CLIENTS]))
    yield Case("a fleet with a file that can't be read", ["import", str(setup), str(top / "fleet")], b"", b"", b"device\n", 4)
    # of such a file and a flawed answer the first is told
    for barred, flawed, error, status in ("a", "b", b"device\n", 4), ("b", "a", b"refused Empty at -\n", 1):
        folder, setup = top / "fleet" / f"barred-{barred}", top / f"fleet-barred-{barred}.toml"
        (folder / f"{barred}.json").mkdir(parents=True)
        (folder / f"{flawed}.json").write_text("")
        setup.write_text(setup_of(clients=[folder.name, *CLIENTS]))
        yield Case(f"a fleet with a file {barred} that can't be read", ["import", "--all-or-nothing", str(setup), str(top / "fleet")], b"", b"", error, status)


def bloated_rows(top, words):
    """A commit with so many objects beside it: where they are more than an answer may have, or there is no memory for them, the client of its chain is left out, and
    the other one is written as if it were alone."""
    second, turn = CLIENT % ("zone-on-hub", "hub-4", "zone-1"), (TURN % 20).replace("hub-on-zone", "zone-on-hub").replace("80", "60")
    for name, count, memory, refusal in (("16 MB of objects", MOST_BYTES // 7, 2_000_000, "TooManyValues"), ("too many objects for little memory", 399_000, 200_000, "OutOfMemory")):
        folder, setup = top / f"bloated-{memory}", top / f"bloated-{memory}.toml"
        answers.make(folder, 1, between=0)
        file = folder / "hub-4" / "commit-80.json"
        head, tail = f'{file.read_text()[:-1]}, "more": [', "0]}"
        file.write_text(head + '{"":0},' * min(count, (MOST_BYTES - len(head) - len(tail)) // 7) + tail)
        setup.write_text(HEAD + ONE + second + turn)
        line = f'ulimit -v {memory}; exec {words} import "$0" "$1"'
        script, told = answers.script_of(HEAD + second + turn, folder), f"left out hub-on-zone: refused {refusal} at -\n".encode()
        yield Case(f"{name} beside a commit", ["sh", "-c", line, str(setup), str(folder)], b"", script, told, 7, reader=values_of, named=(f"{file}: ".encode(),))


def fleet_rows(top, program):
    """What is written of the whole fleet and of its sound part by a shell: the same bytes, and the same notices behind the lines of what is left out."""
    words = " ".join(map(shlex.quote, program))
    yield from bloated_rows(top, words)
    line = (f'{words} import "$0-whole.toml" "$0" > "$0.whole" 2> "$0.told"; [ $? = 7 ] && {words} import "$0-sound.toml" "$0" 2> "$0.notices" | cmp - "$0.whole" && '
            'tail -c "$(wc -c < "$0.notices")" "$0.told" | cmp - "$0.notices" && grep -c "^left out" "$0.told"')
    count = len(CHAINS) * 2 + len(CLIENTS) * 2 + len(PATHS)
    yield Case("a fleet and its sound part", ["sh", "-c", line, str(top / "fleet")], b"", b"%d\n" % count, b"", 0)
