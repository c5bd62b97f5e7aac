"""Runs of `import` over answers that somebody made up: headers that nobody signed, clients with as many consensus states as there is room for, and more packets than
a script has events. Each costs what it is about alone."""
import base64
import json
import random
import shlex
import shutil
import subprocess
import sys

from lib import answers
from lib.answer_edits import COMMIT_FILE, edited, hashed, in_turn, judged
from lib.importing import CLIENT, ENDS, HEAD, ONE, PATH, TURN, import_case, setups
from lib.json_paths import put
from lib.notices import MISSING_HEADERS, MORE_PACKETS, TOO_MANY_PACKETS
from lib.program import TOP, Case

try:
    from lib import signed_answers
except ImportError:  # without python3-cryptography nobody signs
    signed_answers = None

FAR = 9 * 10**18
TWO = CLIENT % ("zone-on-hub", "hub-4", "zone-1")
MOST_BYTES = 16_777_216


def forged(folder, chain, height, moment=None):
    """Adds a header of a chain that has no vote: of its highest header's set, for a height and perhaps a time of its own."""
    file = max((folder / chain).glob("commit-*.json"), key=lambda path: int(path.stem.partition("-")[2]))
    value = json.loads(file.read_text())

    def edit(value):
        signed = value["result"]["signed_header"]
        signed["header"]["height"] = signed["commit"]["height"] = str(height)
        signed["header"]["time"] = moment or signed["header"]["time"]
        for vote in signed["commit"]["signatures"]:
            vote |= {"block_id_flag": 1, "validator_address": "", "signature": None}

    hashed(edit)(value)
    answers.write(folder / chain / f"commit-{height}.json", value)


def folder_in(top, name, change, between=0):
    folder = top / f"hostile-{name}"
    answers.make(folder, 1, between=between)
    change(folder)
    return folder


def verified_cases(top):
    """`--verified`: headers without a good verdict for more than two thirds of their sets are left out."""
    text = setups(2)[0]
    for number, (change, lines) in enumerate((
        (lambda folder: None, [MISSING_HEADERS]),
        (judged((1, [], [], 6), (80, [], [], 6)), []),
        (judged((1, [], [], 6), (80, [5], [], 5)), []),
        (judged((80, [], [], 6)), []),
        (judged((1, [], [], 6), (80, [0, 1, 2], [], 3)), []),
        (judged((1, [], [], 6), (80, [], [0, 1, 2], 3)), []),
        (judged((1, [0, 1, 2, 3, 4, 5], [], 0), (80, [], [0, 1, 2, 3, 4, 5], 0)), [MISSING_HEADERS]),
        (in_turn(judged((1, [], [], 6), (80, [], [], 6)), edited(COMMIT_FILE, put("id", 7))), []),
    )):
        folder, setup = folder_in(top, f"verified-{number}", change), top / f"verified-{number}.toml"
        setup.write_text(text)
        for words in ["--verified"], []:
            case = import_case(f"verdicts {number} {words}", [*words, str(setup), str(folder)], text, folder, lines if words else [])
            yield case


def forged_cases(top):
    """A header without votes at a great height, and one of the destination behind all timeouts: the script is as if they weren't there."""
    text = setups(1)[1]
    for number, change in enumerate((
        lambda folder: forged(folder, "hub-4", FAR), lambda folder: forged(folder, "zone-1", FAR),
        lambda folder: forged(folder, "zone-1", 61, "2026-11-02T12:00:00Z"),
        lambda folder: (forged(folder, "hub-4", FAR), forged(folder, "zone-1", FAR, "2026-11-09T12:00:00Z")),
    )):
        folder, setup = folder_in(top, f"forged-{number}", change), top / f"forged-{number}.toml"
        setup.write_text(text)
        case = import_case(f"headers without votes {number}", [str(setup), str(folder)], text, folder)
        assert case.output == answers.script_of(text, folder_in(top, f"sound-{number}", lambda folder: None))
        yield case


class SignedChain(answers.Chain):
    """A chain whose validators sign their votes."""

    def __init__(self, chance, name, blocks):
        super().__init__(chance, name, blocks)
        signers = {key: signed_answers.Ed25519(key[-32:]) for members in self.sets.values() for _, _, key in members}
        self.sets = {height: answers.in_order([(signers[key].public, power) for power, _, key in members]) for height, members in self.sets.items()}
        self.signers = {signer.address: signer for signer in signers.values()}

    def signed(self, height):
        value = self.commit(height)
        commit = value["result"]["signed_header"]["commit"]
        block = commit["block_id"]
        name = bytes.fromhex(block["hash"]), block["parts"]["total"], bytes.fromhex(block["parts"]["hash"])
        for vote in commit["signatures"]:
            if vote["block_id_flag"] != 1:
                seconds, nanos = divmod(answers.nanoseconds(vote["timestamp"]), 10**9)
                message = signed_answers.plain_sign_bytes(self.name, height, 0, name if vote["block_id_flag"] == 2 else None, seconds, nanos)
                vote["signature"] = base64.b64encode(self.signers[bytes.fromhex(vote["validator_address"])].sign(message)).decode()
        return value


def signed_cases(top):
    """Two headers that their validators signed, and a later one with votes for the block by nobody: the last is left out once verdicts tell of it."""
    chain, text = SignedChain(random.Random(4), "hub-4", 85), setups(2)[0]
    for name, words in ("signed", []), ("signed and judged", []), ("signed and verified", ["--verified"]):
        folder = folder_in(top, name, lambda folder: shutil.rmtree(folder / "hub-4"))
        for height in (1, 80, 85):
            answers.write(folder / "hub-4" / f"commit-{height}.json", chain.commit(height) if height == 85 else chain.signed(height))
            for number, page in enumerate(chain.validators(height), 1):
                answers.write(folder / "hub-4" / f"validators-{height}-{number}.json", page)
        for number, page in enumerate(chain.validators(2), 1):
            answers.write(folder / "hub-4" / f"validators-2-{number}.json", page)
        answers.write(folder / "hub-on-zone" / "client_state.json", answers.client_state(chain, 80))
        answers.write(folder / "hub-on-zone" / "consensus_states.json", answers.consensus_states(chain, [1, 80]))
        if name != "signed":
            done = subprocess.run([sys.executable, str(TOP / "tools" / "verify_commits"), str(folder)], capture_output=True, timeout=120)
            assert done.returncode == 5, done.stderr
        told = answers.Told(folder / "hub-4", bool(words))
        assert [*told.headers] == ([1, 80, 85] if name == "signed" else [1, 80])
        (top / "signed.toml").write_text(text)
        yield import_case(f"headers, {name}", [*words, str(top / "signed.toml"), str(folder)], text, folder)


# ---- what takes much memory or room


def crowded_row(top, words):
    """A gateway that tells of 21 clients of as many chains that each has as many consensus states as a light store has room for, and one with two: the largest are
    left out until the rest fits, and those are planned."""
    chain, folder, setup = answers.Chain(random.Random(3), "hub-4", 4_095, every=5_000), top / "crowded", top / "crowded.toml"
    stored, names = answers.consensus_states(chain, range(1, 4_091)), [f"large-{number:02}" for number in range(21)]
    small = {"consensus_states": stored["consensus_states"][::4_089], "pagination": {}}
    tracked = {name: f"chain{name[-2:]}-4" for name in names} | {"small": "hub-4"}
    for name, chain.name in tracked.items():
        for height in (1, 4_095):
            answers.write(folder / chain.name / f"commit-{height}.json", chain.commit(height))
        for number, page in enumerate(chain.validators(1), 1):
            answers.write(folder / chain.name / f"validators-1-{number}.json", page)
        answers.write(folder / name / "client_state.json", answers.client_state(chain, 4_090))
        answers.write(folder / name / "consensus_states.json", small if name == "small" else stored)
    head = HEAD.replace("[{", "[" + "".join('{ id = "%s" }, ' % tracked[name] for name in names) + "{")
    setup.write_text(head + "".join(CLIENT % (name, "zone-1", tracked[name]) for name in [*names[:9], "small", *names[9:]]) + (TURN % 20).partition("goal")[0])
    line = (f'{words} import "$0" "$1" > "$1.script" 2> "$1.told"; echo "$?"; grep -c "^left out large-[0-9]*: refused ScriptTooBig at large-" "$1.told"; '
            f'grep -c "^left out" "$1.told"; grep -c "client = \\"small\\"" "$1.script"; {words} plan "$1.script" > "$1.report"; echo "$?"; grep -c "^client " "$1.report"; '
            'wc -c < "$1.script"')

    def read(output):
        """Whether so many clients are left out as have to be, and what else is written."""
        status, too_big, left_out, small, planned, clients, size = map(int, output.split())
        return status, too_big == left_out == 22 - clients, small, planned, size <= MOST_BYTES < size * clients // (clients - 1)

    yield Case("21 clients with 4,090 consensus states each", ["sh", "-c", line, str(setup), str(folder)], b"", (7, True, 2, 0, True), b"", 0, reader=read)


def many_sends_row(top, words):
    """210,000 packets sent on one path, which are more events than a script has: the first 4,096 are planned."""
    folder, setup = folder_in(top, "many-sends", lambda folder: None), top / "many-sends.toml"
    setup.write_text(HEAD + ONE + TWO + PATH + ENDS + (TURN % 20).partition("goal")[0])
    shutil.rmtree(folder / "transfers")
    event = answers.packet_event("send_packet", 0, 0, limit="0-0")
    attributes = [{"key": a["key"], "value": a["value"]} for a in event["attributes"] if a["key"] != "packet_data"]
    attributes = [a | {"value": "SEQUENCE"} if a["key"] == "packet_sequence" else a for a in attributes]
    one = json.dumps({"type": "send_packet", "attributes": attributes}, separators=(",", ":"))
    for number, first in enumerate(range(1, 210_001, 35_000)):
        events = ",".join(one.replace("SEQUENCE", str(sequence)) for sequence in range(first, first + 35_000))
        text = f'{{"result":{{"txs":[{{"height":"30","tx_result":{{"code":0,"events":[{events}]}}}}],"total_count":"1"}}}}'
        assert len(text) <= MOST_BYTES
        (folder / "transfers").mkdir(exist_ok=True)
        (folder / "transfers" / f"sent-{number}.json").write_text(text)
    answers.write(folder / "transfers" / "received.json", answers.search())
    line = (f'{words} import "$0" "$1" > "$1.script" 2> "$1.told"; echo "$?"; grep -c "^left out" "$1.told"; grep -c "kind = \\"sent\\"" "$1.script"; '
            f'{words} plan "$1.script" > "$1.report"; echo "$?"; grep -c "^client " "$1.report"; grep "^notice TooManyPackets" "$1.told"')
    told = TOO_MANY_PACKETS % (210_000 - 4_096, 4_097, 210_000 - 4_095, 210_000 - 4_095)
    yield Case("210,000 packets of a path", ["sh", "-c", line, str(setup), str(folder)], b"", f"0\n0\n4096\n0\n2\n{told}".encode(), b"", 0)


def unseen_sends_row(top, words):
    """390,000 commitments to packets of whose sending no answer tells: the first 100 are told one by one, the others in a line."""
    folder, setup = folder_in(top, "unseen-sends", lambda folder: None), top / "unseen-sends.toml"
    setup.write_text(HEAD + ONE + TWO + PATH + ENDS + (TURN % 20).partition("goal")[0])
    shutil.rmtree(folder / "transfers")
    states = ",".join(f'{{"sequence":"{sequence}"}}' for sequence in range(1, 390_001))
    text = f'{{"commitments":[{states}],"pagination":{{"next_key":null}},"height":{{"revision_number":"4","revision_height":"80"}}}}'
    assert len(text) <= MOST_BYTES
    (folder / "transfers").mkdir()
    (folder / "transfers" / "commitments-1.json").write_text(text)
    line = (f'{words} import "$0" "$1" > "$1.script" 2> "$1.told"; echo "$?"; grep -c "^left out" "$1.told"; grep -c "^notice MissingSend at transfers" "$1.told"; '
            'grep -c "kind = \\"sent\\"" "$1.script"; grep "^notice MorePackets" "$1.told"')
    yield Case("390,000 commitments to packets that nobody saw sent", ["sh", "-c", line, str(setup), str(folder)], b"", f"0\n0\n100\n0\n{MORE_PACKETS % (101, 389_900)}".encode(), b"", 0)


def hostile_cases(top):
    yield from verified_cases(top)
    yield from forged_cases(top)
    if signed_answers:
        yield from signed_cases(top)


def hostile_rows(top, program):
    words = " ".join(map(shlex.quote, program))
    yield from crowded_row(top, words)
    yield from many_sends_row(top, words)
    yield from unseen_sends_row(top, words)
