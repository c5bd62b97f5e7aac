"""Runs of `messages`, for tests/run: over made-up answers it writes what a second encoder makes of them (lib/encoding.py), with all votes and with those that the
second planner needs; and answers of which it makes no messages."""
import itertools
import json
import shutil
import subprocess
import tomllib

from lib import answers
from lib.encoding import relayer_of, run_messages, senders_in, sent_in
from lib.json_reading import read_json
from lib.nodes import Host, LongChain
from lib.program import Case, run_program

CLIENT = "hub-on-zone"


def setup_of(chain, goal):
    return f'''version = 1
chain = [{{ id = "hub-4" }}, {{ id = "zone-1" }}]
client = [{{ id = "zone-1.{CLIENT}", host = "zone-1", of = "hub-4", fee = [100, 1, 1], gas = [80_000, 3_000, 200], limits = [900_000, 2, 20_000] }}]
turn = [{{ from = "{chain.stamp(chain.blocks)}", until = "{chain.stamp(chain.blocks + 5)}", goal = [{{ client = "zone-1.{CLIENT}", at_least = {goal} }}] }}]
'''


def saved_chain(folder, chain, heights, stored):
    """Saves answers on a chain, and those of a client of it."""
    for height in heights:
        answers.write(folder / chain.name / f"commit-{height}.json", chain.commit(height))
    for height in sorted({*heights, *(h + 1 for h in [*heights, *stored])}):
        answers.write(folder / chain.name / f"validators-{height}.json", chain.validators(height, 1, 100))
    host = Host(chain, {CLIENT: stored})
    answers.write(folder / f"zone-1.{CLIENT}" / "client_state.json", answers.client_state(chain, max(stored)))
    answers.write(folder / f"zone-1.{CLIENT}" / "consensus_states.json", host.answer(f"/ibc/core/client/v1/consensus_states/{CLIENT}", {"pagination.limit": ["1000"]})[1])


def refusal_cases(top, script, folder):
    """Answers of which no messages are made, and folders that can't be made: nothing is written then."""
    def spoiled(name, change):
        made = top / f"spoiled-{name}"
        shutil.copytree(folder, made)
        change(made / "hub-4")
        return str(made)

    def without(pattern):
        def change(path):
            for file in path.glob(pattern):
                if '"signed_header"' in file.read_text() or "validators" in pattern:
                    file.unlink()
        return change

    def edited(change):
        def write(path):
            file = path / "commit-80.json"
            value = json.loads(file.read_text())
            change(value["result"]["signed_header"])
            file.write_text(json.dumps(value))
        return write

    def cut(signed):
        signed["commit"]["signatures"][0]["signature"] = "AAAA"

    def turned(signed):
        signed["commit"]["round"] = 2**31

    def bare(signed):
        del signed["commit"]["block_id"]["parts"]

    def other(signed):
        signed["header"]["app_hash"] = "00" * 32
        signed["commit"]["block_id"]["hash"] = answers.upper(answers.header_hash(signed["header"]))

    def misfit(signed):
        signed["header"]["app_hash"] = "00" * 32

    for name, change, error in (
        ("no-header", without("commit-80.json"), b"refused MissingHeader at hub-4 80\n"),
        ("cut-signature", edited(cut), b"refused BadBase64 at result.signed_header.commit.signatures[0].signature\n"),
        ("round", edited(turned), b"refused WrongType at result.signed_header.commit.round\n"),
        ("no-parts", edited(bare), b"refused MissingField at result.signed_header.commit.block_id.parts\n"),
        ("other-header", edited(other), b"refused OtherHeader at hub-4 80\n"),
        ("misfit", edited(misfit), b"refused OtherHeader at hub-4 80\n"),
        ("no-sets", without("validators-*.json"), b"refused MissingHeader at hub-4 80\n"),
    ):
        made = top / f"none-{name}"
        yield Case(f"messages, {name}", ["messages", str(script), spoiled(name, change), str(made)], b"", b"", error, 1), made
    for what, words in (("no answers", [str(script), str(top / "nothing"), str(top / "none-1")]), ("a folder that is there", [str(script), str(folder), str(folder)]),
                        ("a folder in none", [str(script), str(folder), str(top / "none" / "made")]), ("no script", [str(top / "nothing"), str(folder), str(top / "none-2")])):
        yield Case(f"messages, {what}", ["messages", *words], b"", b"", b"device\n", 4), top / "none"


def lacking_cases(program, top, folder):
    """Commits that were fetched anew and lack votes, each with the folder of its messages and whether this is made: not where an update needs one of these
    votes, which is told by its validator, and not where two thirds of the set signed the header or fewer, which is then left out."""
    def spoiled(name, change):
        copy = top / f"spoiled-{name}"
        shutil.copytree(folder, copy)
        file = copy / "hub-4" / "commit-80.json"
        value = json.loads(file.read_text())
        commit = value["result"]["signed_header"]["commit"]
        commit["signatures"] = [change(s) for s in commit["signatures"]]
        file.write_text(json.dumps(value))
        return copy, f"{copy}/hub-4/commit-80.json: ".encode()

    absent = {"block_id_flag": 1, "validator_address": "", "timestamp": "0001-01-01T00:00:00Z", "signature": None}
    needing, sending = top / "seed-1-needed.toml", top / "seed-1-all.toml"
    report = read_json(subprocess.run([*program, "plan", "--json", str(needing)], stdout=subprocess.PIPE, check=True).stdout)
    trusted = next(t for _, _, height, t in sent_in(tomllib.loads(needing.read_text()), report) if height == 80)
    senders = {a.hex().upper() for a in senders_in(relayer_of(needing.read_text()), CLIENT, 80, trusted)}
    output = subprocess.run([*program, "messages", str(needing), str(folder), str(top / "whole")], stdout=subprocess.PIPE, check=True).stdout
    error, unsigned = b"refused MissingVotes at hub-4 80\n", b"refused MissingHeader at hub-4 80\n"
    for number, sender in enumerate(sorted(senders)):
        for what, lacking in (("absent", absent), ("nil", None)):
            copy, file = spoiled(f"{what}-{number}", lambda s: s if s["validator_address"] != sender else lacking or s | {"block_id_flag": 3})
            named, made, is_signed = (file, f"the validator {sender}, ".encode()), top / f"none-{what}-{number}", 80 in answers.Told(copy / "hub-4").headers
            refusal = (b"", error, 1) if is_signed else (b"", unsigned, 1)
            yield Case(f"messages, a needed vote {what}", ["messages", str(needing), str(copy), str(made)], b"", *refusal, named=named if is_signed else ()), made, False
            sent = (output, b"", 0) if is_signed else refusal
            yield Case(f"messages, all votes, one {what}", ["messages", str(sending), str(copy), f"{made}-all"], b"", *sent), top / f"{made.name}-all", is_signed
    copy, _ = spoiled("others", lambda s: s if s["validator_address"] in senders else absent)
    made = top / "made-others"
    yield Case("messages, the needed votes alone", ["messages", str(needing), str(copy), str(made)], b"", output, b"", 0), made, True
    copy, _ = spoiled("none", lambda s: absent)
    made = top / "none-none"
    yield Case("messages, no votes", ["messages", str(needing), str(copy), str(made)], b"", b"", unsigned, 1), made, False


def message_runs(program, top):
    """How many runs of `messages` there are, and how many go wrong."""
    folder, runs, sent, few, wrong = top / "sending", 0, 0, 0, 0
    folder.mkdir()
    made = {}
    for seed in range(1, 7):
        answers.make(folder / f"seed-{seed}", seed)
        made[f"seed-{seed}"] = program_setup()
    for kind, change in (("quiet", 0), ("switch", 900), ("churn", 40)):
        chain = LongChain("hub-4", kind, 1200, 12, change)
        saved_chain(folder / kind, chain, [100, 300, 500, 700, 899, 1000, 1199, 1200], [1, 90])
        made[kind] = setup_of(chain, 1199)
    for (what, text), needed in itertools.product(made.items(), (False, True)):
        setup = folder / f"{what}.setup"
        setup.write_text(text)
        count, fewer, good = run_messages(program, folder, setup, folder / what, f"{what}-{'needed' if needed else 'all'}", needed)
        runs, sent, few, wrong = runs + 1, sent + count, few + fewer, wrong + (not good)
    refusals = ((case, made, False) for case, made in refusal_cases(folder, folder / "seed-1-all.toml", folder / "seed-1"))
    for case, folder_made, is_made in itertools.chain(refusals, lacking_cases(program, folder, folder / "seed-1")):
        runs, wrong = runs + 1, wrong + run_program(program, [case]) + (folder_made.exists() != is_made)
    if sent < 24 or few < 8:
        print(f"== messages: only {sent} updates were sent, {few} with fewer votes")
        wrong += 1
    return runs, wrong


def program_setup():
    """The setup of the clients that `answers.make` has answers of."""
    return '''version = 1
chain = [{ id = "hub-4" }, { id = "zone-1" }]
client = [
    { id = "hub-on-zone", host = "zone-1", of = "hub-4", fee = [100, 1, 1], gas = [80_000, 3_000, 200], limits = [10_000_000, 50, 20_000] },
    { id = "zone-on-hub", host = "hub-4", of = "zone-1", fee = [100, 1, 1], gas = [80_000, 3_000, 200], limits = [150_000, 50, 20_000] },
]
turn = [{ from = "2026-11-01T12:09:20Z", until = "2026-11-01T12:09:30Z", goal = [{ client = "hub-on-zone", at_least = 80 }, { client = "zone-on-hub", at_least = 60 }] }]
'''
