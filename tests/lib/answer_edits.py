"""Changes of a folder of answers and of a setup's text, which tests of `import` make: answers that are spoiled in one place, that are lacking, that come on other pages."""
import hashlib
import json
import random
import shutil

from lib import answers

SIGNED, HEADER, COMMIT = "result.signed_header", "result.signed_header.header", "result.signed_header.commit"
SIGNATURE, FIRST = f"{COMMIT}.signatures[0]", "result.validators[0]"
STATE, CONSENSUS, TX, PACKET = "client_state", "consensus_states[0]", "result.txs[0]", "result.txs[0].tx_result.events[1].attributes"
COMMIT_FILE, PAGE_FILE, STATE_FILE, STORED_FILE = "hub-4/commit-80.json", "hub-4/validators-80-1.json", "hub-on-zone/client_state.json", "hub-on-zone/consensus_states.json"
VERDICTS = "hub-4/verdicts.json"
SENT_FILE, RECEIVED_FILE, CLEARED_FILE = "transfers/sent.json", "transfers/received.json", "transfers/cleared.json"


def hashed(edit):
    """The edit of a commit's answer, after which the commit is for the block of the header's hash."""
    def change(value):
        edit(value)
        signed = value["result"]["signed_header"]
        signed["commit"]["block_id"]["hash"] = answers.upper(answers.header_hash(signed["header"]))
    return change


def moved(first, second, copy=False):
    return lambda folder: (shutil.copy if copy else shutil.move)(folder / first, folder / second)


def written(file, text):
    return lambda folder: (folder / file).write_text(text)


def padded(file, size):
    """The change that brings an answer to so many bytes by spaces."""
    return lambda folder: (folder / file).write_text((folder / file).read_text().ljust(size))


def removed(*files):
    return lambda folder: [(folder / file).unlink() for file in files]


def removed_folder(name):
    return lambda folder: shutil.rmtree(folder / name)


def edited(file, edit):
    def change(folder):
        value = json.loads((folder / file).read_text())
        edit(value)
        (folder / file).write_text(json.dumps(value))
    return change


def earlier(value):
    """The edit that adds a record of an earlier revision, of the first one's height."""
    first = json.loads(json.dumps(value["consensus_states"][0]))
    first["height"]["revision_number"] = "3"
    first["consensus_state"]["next_validators_hash"] = "00" * 32
    value["consensus_states"].insert(0, first)


def upgraded(value):
    """The edit that adds a record of an earlier revision, which an upgrade wrote."""
    earlier(value)
    value["consensus_states"][0]["consensus_state"]["root"]["hash"] = answers.base64.b64encode(b"sentinel_root").decode()


def earlier_with(edit):
    """The edit that adds a record of an earlier revision, edited so that it couldn't be read: the rest of it isn't."""
    def added(value):
        earlier(value)
        edit(value)
    return added


def paged(*pages):
    """The change after which a client's consensus states stand in these pages, each of these places among them."""
    def change(folder):
        value = json.loads((folder / STORED_FILE).read_text())
        (folder / STORED_FILE).unlink()
        for number, places in enumerate(pages, 1):
            states, key = [value["consensus_states"][place] for place in places], "AAAA" if pages[number:] else None
            answers.write(folder / f"hub-on-zone/consensus_states-{number}.json", {"consensus_states": states, "pagination": {"next_key": key, "total": "0"}})
    return change


def many(value):
    """The edit that adds thirty records whose next sets no answer has."""
    for height in range(2, 32):
        state = json.loads(json.dumps(value["consensus_states"][0]))
        state["height"]["revision_height"] = str(height)
        state["consensus_state"]["next_validators_hash"] = f"{height:064x}"
        value["consensus_states"].append(state)


def votes_for(least):
    """The edit of a commit after which the validators at no place behind this one vote for the block."""
    def edit(value):
        for vote in value["result"]["signed_header"]["commit"]["signatures"][least + 1:]:
            vote |= {"block_id_flag": 1, "validator_address": "", "signature": None}
    return edit


def judged(*verdicts, chain="hub-4", lists=None, **more):
    """The change that adds verdicts on the commits of hub-4 at some heights, with the places of bad and unchecked votes and the number of good ones."""
    def change(folder):
        commits = []
        for height, bad, unchecked, good in verdicts:
            data = (folder / f"hub-4/commit-{height}.json").read_bytes()
            count = len(json.loads(data)["result"]["signed_header"]["commit"]["signatures"])
            commits.append({"height": str(height), "block": "00" * 32, "answer": f"commit-{height}.json", "sha256": hashlib.sha256(data).hexdigest(),
                            "votes": count, "good": good, "bad": bad, "unchecked": unchecked})
        head = {"version": 1, "verifier": "verify_commits 1 (made up)", "checked": "nothing", "chain": chain}
        edit = lists or (lambda value: None)
        value = {"verdicts": head | {"commits": commits} | more}
        edit(value)
        answers.write(folder / "hub-4" / "verdicts.json", value)
    return change


def in_turn(*changes):
    return lambda folder: [change(folder) for change in changes]


def swapped(old, new):
    """The change of a setup's text in its last turn, or in its client where nothing of it stands in a turn."""
    def mend(text):
        before, _, after = text.rpartition(old)
        return before + new + after
    return mend


def seen_alone(height):
    """Saves the header of a block of hub-4 whose validators are in no answer."""
    def change(folder):
        chain = answers.Chain(random.Random(height), "hub-4", 80)
        answers.write(folder / "hub-4" / f"commit-{height}.json", chain.commit(height))
    return change


def saved(*txs):
    """The change that adds an answer of /tx_search with these transactions."""
    return written("transfers/more.json", json.dumps(answers.search(*txs)))


def packet_txs(ends, *found):
    """A transaction for each block, kind of event and sequence."""
    return [answers.transaction(height, answers.packet_event(kind, sequence, LATER, ends=ends)) for height, kind, sequence in found]


def pending(*pages, unreceived=None, acknowledged=None):
    """The change that adds answers on pending packets: the sequences on pages of commitments; of the packets that weren't received, and of those of which
    the acknowledgement was written."""
    state = lambda sequence: {"port_id": "transfer", "channel_id": "channel-0", "sequence": str(sequence), "data": "AAAA"}
    found = {f"commitments-{number}": {"commitments": [state(s) for s in page], "pagination": {"next_key": "AAAA" if pages[number:] else None, "total": "0"}}
             for number, page in enumerate(pages, 1)}
    found |= {"unreceived-1": {"sequences": [str(s) for s in unreceived]}} if unreceived is not None else {}
    found |= {"acknowledgements-1": {"acknowledgements": [state(s) for s in acknowledged], "pagination": None}} if acknowledged is not None else {}
    at = {"height": {"revision_number": "4", "revision_height": "80"}}
    return in_turn(*(written(f"transfers/{name}.json", json.dumps(value | at)) for name, value in found.items()))


def sent_until(*limits):
    """Transactions of packets from 20 on, sent with these timeout heights."""
    return [answers.transaction(40, answers.packet_event("send_packet", sequence, 0, limit=limit)) for sequence, limit in enumerate(limits, 20)]


LATER = 1793541600000000005
FORWARDED = (20, "send_packet", 2), (36, "send_packet", 900)
OURS, OTHER = ("channel-0", "channel-7"), ("channel-0", "channel-3")
