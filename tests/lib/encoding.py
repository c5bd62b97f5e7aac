"""The messages of updates by a second encoder, and runs of `messages` that are held against it: what it writes is read back by `import`, the step rule accepts it, the
hashes of its headers and sets are made anew, and the shell file is run with a program that writes down what it is called with."""
import base64
import json
import os
import shutil
import subprocess
import tomllib

from lib import answers
from lib.json_reading import read_json
from lib.judges import reference

FLAGS = {1: "BLOCK_ID_FLAG_ABSENT", 2: "BLOCK_ID_FLAG_COMMIT", 3: "BLOCK_ID_FLAG_NIL"}
LETTERS = {"BLOCK_ID_FLAG_ABSENT": "A", "BLOCK_ID_FLAG_COMMIT": "C", "BLOCK_ID_FLAG_NIL": "N"}
KINDS = {32: "ed25519", 33: "secp256k1"}
TYPES = {"ed25519": "tendermint/PubKeyEd25519", "secp256k1": "tendermint/PubKeySecp256k1"}
ABSENT = {"block_id_flag": FLAGS[1], "validator_address": "", "timestamp": "0001-01-01T00:00:00Z", "signature": ""}
HASHES = ("last_commit_hash", "data_hash", "validators_hash", "next_validators_hash", "consensus_hash", "app_hash", "last_results_hash", "evidence_hash",
          "proposer_address")


def based(digits):
    return base64.b64encode(bytes.fromhex(digits or "")).decode()


def block_id(block):
    return {"hash": based(block["hash"]), "part_set_header": {"total": block["parts"]["total"], "hash": based(block["parts"]["hash"])}}


def validator(member):
    power, address, key = member
    return {"address": base64.b64encode(address).decode(), "pub_key": {KINDS[len(key)]: base64.b64encode(key).decode()}, "voting_power": str(power),
            "proposer_priority": "0"}


def validator_set(members, proposer):
    first = next((member for member in members if member[1] == proposer), members[0])
    return {"validators": [validator(member) for member in members], "proposer": validator(first), "total_voting_power": str(sum(power for power, _, _ in members))}


def sets_in(found):
    """The sets of answers, each by its hash."""
    pages = {}
    for answer in found:
        result = answer.get("result", answer)
        if "validators" in result:
            pages.setdefault(result["block_height"], []).extend(
                (base64.b64decode(v["pub_key"]["value"]), int(v["voting_power"])) for v in result["validators"])
    return {answers.set_hash(answers.in_order(members)): answers.in_order(members) for members in pages.values()}


def entry(signature, senders):
    """A validator's part in a commit; where not all votes are sent, only the commit votes of these senders stand in it."""
    if senders is not None and (signature["block_id_flag"] != 2 or bytes.fromhex(signature["validator_address"]) not in senders):
        return ABSENT
    return {"block_id_flag": FLAGS[signature["block_id_flag"]], "validator_address": based(signature["validator_address"]),
            "timestamp": signature["timestamp"], "signature": signature["signature"] or ""}


def message(folder, chain, height, trusted, named, senders):
    """The message of an update to a height, made of the answers on a chain; the trusted record names a set by its hash."""
    found = answers.answers_in(folder / chain)
    sets = sets_in(found)
    signed = next(s for s in (a.get("result", a).get("signed_header") for a in found) if s and s["header"]["height"] == str(height))
    head, commit = signed["header"], signed["commit"]
    proposer = bytes.fromhex(head["proposer_address"])
    header = {"version": {"block": head["version"].get("block", "0"), "app": head["version"].get("app", "0")}, "chain_id": head["chain_id"],
              "height": head["height"], "time": head["time"], "last_block_id": block_id(head["last_block_id"])}
    header |= {name: based(head[name]) for name in HASHES}
    signatures = [entry(s, senders) for s in commit["signatures"]]
    return {"@type": "/ibc.lightclients.tendermint.v1.Header",
            "signed_header": {"header": header, "commit": {"height": commit["height"], "round": commit["round"], "block_id": block_id(commit["block_id"]),
                                                           "signatures": signatures}},
            "validator_set": validator_set(sets[bytes.fromhex(head["validators_hash"])], proposer),
            "trusted_height": {"revision_number": chain.rsplit("-", 1)[1], "revision_height": str(trusted)},
            "trusted_validators": validator_set(sets[named], proposer)}


def digits(text):
    return base64.b64decode(text).hex().upper()


def header_of(written):
    """A header of a message as nodes write it."""
    head, last = written["signed_header"]["header"], written["signed_header"]["header"]["last_block_id"]
    return head | {name: digits(head[name]) for name in HASHES} | {
        "last_block_id": {"hash": digits(last["hash"]), "parts": {"total": last["part_set_header"]["total"], "hash": digits(last["part_set_header"]["hash"])}}}


def commit_of(written):
    """A commit of a message as nodes write it."""
    commit = written["signed_header"]["commit"]
    last = commit["block_id"]
    flags = {name: number for number, name in FLAGS.items()}
    signatures = [s | {"block_id_flag": flags[s["block_id_flag"]], "validator_address": digits(s["validator_address"]), "signature": s["signature"] or None} for s in commit["signatures"]]
    block = {"hash": digits(last["hash"]), "parts": {"total": last["part_set_header"]["total"], "hash": digits(last["part_set_header"]["hash"])}}
    return commit | {"block_id": block, "signatures": signatures}


def set_answer(height, written):
    """A set of a message as the answer of a node for a height."""
    members = [v | {"address": digits(v["address"]), "pub_key": {"type": TYPES[kind], "value": key}}
               for v in written["validators"] for kind, key in v["pub_key"].items()]
    return {"jsonrpc": "2.0", "id": -1, "result": {"block_height": str(height), "validators": members, "count": str(len(members)), "total": str(len(members))}}


def read_back(program, setup, folder, made, sent):
    """The script that `import` makes of messages, which are made into the answers of nodes again; each of a chain, a height and a trusted height."""
    back = made.with_name(f"{made.name}-back")
    chains = {chain for _, chain, _, _ in sent}
    shutil.copytree(folder, back, ignore=shutil.ignore_patterns("commit-*", "validators-*"))
    for chain in chains:
        shutil.rmtree(back / chain)
    for name, chain, height, trusted in sent:
        written = json.loads((made / name).read_text())
        both = {"header": header_of(written), "commit": commit_of(written)}
        answers.write(back / chain / f"commit-{height}.json", {"jsonrpc": "2.0", "id": -1, "result": {"signed_header": both, "canonical": True}})
        answers.write(back / chain / f"validators-{height}.json", set_answer(height, written["validator_set"]))
        if trusted + 1 != height:
            answers.write(back / chain / f"validators-{trusted + 1}.json", set_answer(trusted + 1, written["trusted_validators"]))
    done = subprocess.run([*program, "import", str(setup), str(back)], stdout=subprocess.PIPE, stderr=subprocess.PIPE)
    return done.stdout.decode() if done.returncode in (0, 7) else ""


def headers_in(script):
    """The headers of a script, by chain and height; a next set whose members aren't there has its whole hash for a name."""
    return {(event["chain"], event["height"]): event | {"next": event["next"][:32]} for event in script["turn"][-1].get("event", []) if event["kind"] == "header"}


def hash_of_set(written):
    return answers.set_hash([(int(v["voting_power"]), b"", base64.b64decode(key)) for v in written["validators"] for key in v["pub_key"].values()])


def is_whole(written, named):
    """Whether the hashes of a message are those of its parts."""
    head = written["signed_header"]["header"]
    return (answers.header_hash(header_of(written)) == base64.b64decode(written["signed_header"]["commit"]["block_id"]["hash"])
            and hash_of_set(written["validator_set"]) == base64.b64decode(head["validators_hash"])
            and hash_of_set(written["trusted_validators"]) == named)


def named_by(script, client, height):
    """The hash of the set that the record of a height names in a script of `import`, whose sets have the first digits of their hashes for names."""
    of = next(c["of"] for c in script["client"] if c["id"] == client)
    for event in script["turn"][-1]["event"]:
        if event.get("height") == height and (event["kind"] == "header" and event["chain"] == of or event["kind"] == "stored" and event["client"] == client):
            return event["next"]
    raise KeyError(height)


def sent_in(script, report):
    """The updates that the last turn of a report sends, each with its client and transaction."""
    for client in report["turns"][-1]["clients"]:
        for place, update in enumerate(client.get("updates", []) if "batch" in client else []):
            number = 1 + sum(t["first"] <= place for t in client["transactions"][1:])
            yield client["id"], number, update["height"], update["trusted"]


def relayer_of(text):
    """The second planner after a script's turns."""
    relayer = reference.Relayer(reference.read_script(text.encode()))
    for turn in relayer.script.turns:
        relayer.turn(turn)
    return relayer


def senders_in(relayer, client, height, trusted):
    """The addresses whose votes the second planner sends; None where all are sent."""
    client = relayer.script.clients[client]
    return {v["address"] for v in reference.sent_votes(relayer.books[client.of], client, trusted, height)} if client.votes == "needed" else None


def accepts(relayer, client, height, trusted):
    """Whether the step rule accepts an update in the window, by the second planner."""
    client = relayer.script.clients[client]
    return all(reference.accepts(relayer.books[client.of], client, trusted, height, now) for now in relayer.window)


def with_needed(text):
    """The script whose clients send only the votes that an update needs."""
    return text.replace("version = 1\n", "version = 3\n", 1).replace("[[client]]\n", '[[client]]\nvotes = "needed"\n')


def run_messages(program, top, setup, folder, what, needed):
    """Runs `import` and `messages` over answers: whether all is as it has to be."""
    script, made, log = top / f"{what}.toml", top / f"{what}-messages", top / f"{what}.log"
    done = subprocess.run([*program, "import", str(setup), str(folder)], stdout=subprocess.PIPE, stderr=subprocess.DEVNULL)
    script.write_text(with_needed(done.stdout.decode()) if needed else done.stdout.decode())
    table, relayer = tomllib.loads(script.read_text()), relayer_of(script.read_text())
    report = read_json(subprocess.run([*program, "plan", "--json", str(script)], stdout=subprocess.PIPE, check=True).stdout)
    told = subprocess.run([*program, "messages", str(script), str(folder), str(made)], stdout=subprocess.PIPE, stderr=subprocess.PIPE)
    lines, calls, files, wrong = [], [], [], [] if told.returncode == 0 else [told.stderr]
    clients, chains, letters, few = {c["id"]: c for c in table["client"]}, [c["id"] for c in table["chain"]], {}, 0
    for number, (client, transaction, height, trusted) in enumerate(sent_in(table, report), 1):
        name, chain = f"{number}-{trusted}-{height}.json", clients[client]["of"]
        prefix = named_by(table, client, trusted)
        named = next(h for h in sets_in(answers.answers_in(folder / chain)) if h.hex().startswith(prefix))
        written = json.loads((made / name).read_text()) if (made / name).exists() else {}
        wanted = message(folder, chain, height, trusted, named, senders_in(relayer, client, height, trusted))
        if written != wanted or not is_whole(written, named):
            wrong.append(name)
        letters[chain, height] = "".join(LETTERS[s["block_id_flag"]] for s in wanted["signed_header"]["commit"]["signatures"])
        lines.append(f"{name} client {client} transaction {transaction}\n")
        files.append((name, chain, height, trusted, client))
        host = clients[client]["host"]
        calls.append(f"{chains.index(host) + 1} tx ibc client update {client.removeprefix(host + '.')} {name} --yes\n")
    if told.stdout.decode() != "".join(lines):
        wrong.append(told.stdout)
    if sorted(os.listdir(made)) != sorted([line.split()[0] for line in lines] + ["send.sh"]):
        wrong.append("other files")
    if "tx sign" in (made / "send.sh").read_text():
        wrong.append("a shell file that signs transactions, where there are none")
    if files and not wrong:
        back = read_back(program, setup, folder, made, [file[:4] for file in files])
        headers = headers_in(table)
        few = sum(headers[place]["votes"] != votes for place, votes in letters.items())
        if not back or headers_in(tomllib.loads(back)) != {place: headers[place] | {"votes": votes} for place, votes in letters.items()}:
            wrong.append(back)
        else:
            again = relayer_of(back)
            wrong += [f"refused {name}" for name, _, height, trusted, client in files if not accepts(again, client, height, trusted)]
    for number in range(1, len(chains) + 1):
        (top / f"program-{number}").write_text(f'#!/bin/sh\necho {number} "$@" >> "$LOG"\n')
        (top / f"program-{number}").chmod(0o755)
    log.write_text("")
    words = {f"PROGRAM_{n}": str(top / f"program-{n}") for n in range(1, len(chains) + 1)} | {f"OPTIONS_{n}": "--yes" for n in range(1, len(chains) + 1)}
    sent = subprocess.run(["sh", str(made / "send.sh")], env={**os.environ, **words, "WAIT": "0", "LOG": str(log)}, stderr=subprocess.PIPE)
    if sent.returncode or log.read_text() != "".join(calls):
        wrong += [sent.stderr, log.read_text(), calls]
    if wrong:
        print(f"== messages of {what}\n-- {wrong!r}"[:3000])
    return len(lines), few, not wrong
