"""Runs of `import` over made-up answers, compared with a plain reading of them (answers.py), and over answers that are spoiled.

For each seed the script that `import` writes has the values of the plain reading, for one client, and for two clients, a path
and two turns; `plan` of that script is what the reference planner says. Where headers or next sets are missing, the script is written,
and a line tells each. Then each answer that is spoiled in one place has its error, which names the file, and with --all-or-nothing nothing is written."""
import gzip
import json
import random
import re
import shlex
import shutil
import subprocess
from datetime import timedelta

from lib import answers
from lib.answer_edits import (CLEARED_FILE, COMMIT, COMMIT_FILE, CONSENSUS, FIRST, FORWARDED, HEADER, LATER, OTHER, OURS, PACKET, PAGE_FILE, RECEIVED_FILE,
                              SENT_FILE, SIGNATURE, SIGNED, STATE, STATE_FILE, STORED_FILE, TX, VERDICTS, earlier, earlier_with, edited, hashed, in_turn,
                              judged, many, moved, packet_txs, padded, paged, pending, removed, removed_folder, saved, seen_alone, sent_until, swapped,
                              upgraded, votes_for, written)
from lib.importing import (BOTH_NAMED, CHAIN_QUERIES, CLIENT, COUNTERPARTY, ENDS, FROM, HEAD, MISNAMED, NAMED, ONE, PATH_GAS, SETTING, SOURCE, TURN,
                           import_case, in_result, setups, told_by, values_of)
from lib.json_paths import gone, put
from lib.judges import reference
from lib.nodes import fetching
from lib.notices import (FUTURE_HEADERS, INTO, LEFT_NEXT_SETS, MISSING_HEADERS, MISSING_LATEST, MISSING_NEXT_SET, MISSING_SEARCHES, MISSING_STATES,
                         MORE_PACKETS, NOTHING_FRESH, NOTHING_TRUSTED, NOT_CANONICAL, OTHER_CHANNEL, PASSED_OVER, SEVERAL_COUNTERPARTIES, TOO_MANY_HEADERS,
                         TOO_MANY_PACKETS, TOO_MANY_RECORDS, TOO_MANY_SETS, UNSEEN_GOAL, lacking)
from lib.program import EXAMPLES, Case, ToldCase

EXAMPLE = EXAMPLES / "import"


def seed_cases(top, seed):
    """The scripts of a seed's answers, and the plan of the one with one client."""
    folder = top / f"seed-{seed}"
    answers.make(folder, seed)
    answers.renamed(folder, random.Random(seed))
    for number, text in enumerate(setups(seed)):
        setup = top / f"setup-{seed}-{number}.toml"
        setup.write_text(text)
        yield import_case(f"import of seed {seed}, setup {number}", [str(setup), str(folder)], text, folder)
        if number == 0:
            toml = answers.in_toml(answers.script_of(text, folder))
            yield Case(f"plan of seed {seed}", ["plan", "-"], toml, reference.report(reference.read_script(toml)).encode(), b"", 0)


def example_cases():
    """The answers that the README speaks of, with packets and without, and their reports."""
    for name in ("setup", "packets"):
        setup, folder = EXAMPLE / f"{name}.toml", EXAMPLE / "answers"
        yield import_case(f"the example's import of {name}", [str(setup), str(folder)], setup.read_text(), folder)
        script = answers.in_toml(answers.script_of(setup.read_text(), folder))
        yield Case(f"the example's plan of {name}", ["plan", "-"], script, setup.with_suffix(".report").read_bytes(), b"", 0)


def notice_cases(top):
    """Answers that lack something, or have what can't be used: each line tells one, and the script is written."""
    for number, (which, mend, change, lines) in enumerate(NOTICES):
        folder, setup, text = top / f"lacking-{number}", top / f"lacking-{number}.toml", mend(setups(2)[which])
        setup.write_text(text)
        answers.make(folder, 1, between=0)
        change(folder)
        yield import_case(f"lacking answers {number}", [str(setup), str(folder)], text, folder, lines)


def ordered_cases(top):
    """The example's path as an ordered one: its receives are planned, but none once a packet has timed out, which closed its channel."""
    setup, text = top / "ordered.toml", (EXAMPLE / "packets.toml").read_text().replace('"unordered"', '"ordered"')
    setup.write_text(text)
    for name, found in ("open", []), ("closed", [(47, "timeout_packet", 4, LATER)]):
        folder = top / name
        shutil.copytree(EXAMPLE / "answers", folder)
        answers.write(folder / "transfers" / "more.json", answers.tx_search(found))
        script = answers.script_of(text, folder)
        toml = answers.in_toml(script)
        report = reference.report(reference.read_script(toml))
        assert ("recv transfers 5" in report) == (name == "open")
        yield import_case(f"an ordered path, {name}", [str(setup), str(folder)], text, folder)
        yield Case(f"plan of an ordered path, {name}", ["plan", "-"], toml, report.encode(), b"", 0)


def busy_cases(top):
    """Clients with more records than a book of version 1 holds, of which the newest alone hasn't expired, and more sets than any book does;
    and with more records than any book holds. Then more headers, and more sets of headers, than any book holds."""
    two = CLIENT % ("again-on-zone", "zone-1", "hub-4")
    for most, every, first, setup, others, lines in (
        (1500, 1, 1505, HEAD + ONE, {}, [TOO_MANY_SETS % (482, 0)]),
        (4100, 12, 4100, HEAD + ONE + two, {"again-on-zone": [2, 3, 7, 4100]}, [TOO_MANY_RECORDS % ("hub-on-zone", 6), TOO_MANY_RECORDS % ("again-on-zone", 2)]),
    ):
        folder, path = top / f"busy-{most}", top / f"busy-{most}.toml"
        answers.make_busy(folder, {"hub-on-zone": range(1, most + 1), **others}, [first, most + 10, most + 30], every)
        begin, end = (f"{answers.START + timedelta(seconds=most * 6.4 + later):%Y-%m-%dT%H:%M:%SZ}" for later in (300, 310))
        turn = f'[[turn]]\nfrom = "{begin}"\nuntil = "{end}"\ngoal = [{{ client = "hub-on-zone", at_least = {most + 30} }}]\n'
        text = setup.replace("fee", "period_ns = 313_000_000_000\nfee") + turn
        path.write_text(text)
        yield import_case(f"{most} records", [str(path), str(folder)], text, folder, lines)
        if most < 4096:  # the reference planner takes long for more
            exact = path.with_name("busy-exact.toml")  # a goal below which all next sets are left out
            exact.write_text(text.replace(f"at_least = {most + 30}", "exactly = 400"))
            yield import_case("records without next sets below a goal", [str(exact), str(folder)], exact.read_text(), folder, [lines[0], LEFT_NEXT_SETS % 399])
            toml = answers.in_toml(answers.script_of(text, folder))
            report = reference.report(reference.read_script(toml))
            assert f" from {most} " in report and f"\nupdate {most + 30} " in report
            yield Case(f"plan of {most} records", ["plan", "-"], toml, report.encode(), b"", 0)
    for most, every, stored, lines in ((1030, 1, [1], [TOO_MANY_SETS % (7, 7), LEFT_NEXT_SETS % 1]), (4100, 12, [1, 4100], [TOO_MANY_HEADERS % 4, TOO_MANY_RECORDS % ("hub-on-zone", 1)])):
        folder, path, text = top / f"many-{most}", top / f"many-{most}.toml", HEAD + ONE + (TURN % 20).replace("-01T12:09", "-02T12:09")
        answers.make_busy(folder, {"hub-on-zone": stored}, range(1, most + 1), every)
        path.write_text(text)
        yield import_case(f"{most} headers", [str(path), str(folder)], text, folder, lines)
        if most < 4096:
            toml = answers.in_toml(answers.script_of(text, folder))
            report = reference.report(reference.read_script(toml))
            assert "refused" not in report
            yield Case(f"plan of {most} headers", ["plan", "-"], toml, report.encode(), b"", 0)


# ---- spoiled answers


BIG, HIGHEST, LONG = "9223372036854775808", "9223372036854775807", "9223372037s"
# fields of a header that only its hash needs
HASHES = ["last_commit_hash", "data_hash", "consensus_hash", "app_hash", "last_results_hash", "evidence_hash"]
# by file the fields that are needed: where they stand, how a flaw names them (None: as they stand), and what is out of their range
FIELDS = {
    "hub-4/commit-80.json": [
        (HEADER, None, None, None), (COMMIT, None, None, None), (f"{COMMIT}.signatures", None, None, None),
        (f"{HEADER}.chain_id", None, "hub 4", "BadIdentifier"), (f"{HEADER}.height", None, BIG, "BadNumber"),
        (f"{HEADER}.time", None, "1969-12-31T23:59:59Z", "BadTime"),
        (f"{HEADER}.version", None, None, None), (f"{HEADER}.last_block_id", None, None, None), (f"{HEADER}.last_block_id.parts", None, None, None),
        (f"{HEADER}.proposer_address", None, "00" * 32, "BadHex"),
        (f"{COMMIT}.block_id", None, None, None), (f"{COMMIT}.block_id.hash", None, "00" * 33, "BadHex"),
        (f"{COMMIT}.block_id.parts.hash", f"{COMMIT}.block_id.hash", "00" * 31, "BadHex"),
        (f"{HEADER}.validators_hash", None, "00" * 31, "BadHex"), (f"{HEADER}.next_validators_hash", None, "0x" + "00" * 31, "BadHex"),
        (f"{COMMIT}.height", None, "0", "BadNumber"), (f"{SIGNATURE}.block_id_flag", None, 4, "BadFlag"),
        (f"{SIGNATURE}.validator_address", None, "00" * 32, "BadHex"), (f"{SIGNATURE}.timestamp", None, "1969-12-31T23:59:59Z", "BadTime"),
        (f"{SIGNATURE}.signature", None, "AAAA", "BadBase64")],
    "hub-4/validators-80-1.json": [
        ("result.block_height", None, "0", "BadNumber"), ("result.total", None, "18446744073709551616", "BadNumber"),
        (f"{FIRST}.pub_key.type", f"{FIRST}.type", "cometbft/PubKeyBls12_381", "ForeignKey"),
        (f"{FIRST}.pub_key.value", f"{FIRST}.value", "AAAA", "BadBase64"),
        (f"{FIRST}.voting_power", None, "1152921504606846976", "BadPower")],
    "hub-on-zone/client_state.json": [
        (f"{STATE}.trust_level", None, None, None), (f"{STATE}.latest_height", None, None, None),
        (f"{STATE}.@type", None, "/ibc.lightclients.wasm.v1.ClientState", "UnsupportedClient"), (f"{STATE}.chain_id", None, "a" * 65, "BadIdentifier"),
        (f"{STATE}.trust_level.numerator", None, "-1", "BadNumber"), (f"{STATE}.trust_level.denominator", None, "1.5", "BadNumber"),
        (f"{STATE}.trusting_period", None, LONG, "BadDuration"), (f"{STATE}.max_clock_drift", None, LONG, "BadDuration")],
    "hub-on-zone/consensus_states.json": [
        (f"{CONSENSUS}.height.revision_height", f"{CONSENSUS}.revision_height", "0", "BadNumber"),
        (f"{CONSENSUS}.consensus_state.timestamp", f"{CONSENSUS}.timestamp", "yesterday", "BadTime"),
        (f"{CONSENSUS}.consensus_state.root.hash", f"{CONSENSUS}.hash", "=" * 44, "BadBase64"),
        (f"{CONSENSUS}.consensus_state.next_validators_hash", f"{CONSENSUS}.next_validators_hash", "g" * 64, "BadHex")],
    "transfers/received.json": [
        ("result.total_count", None, "many", "BadNumber"), (f"{TX}.height", None, "-1", "BadNumber"), (f"{TX}.tx_result.code", f"{TX}.code", None, None),
        (f"{TX}.tx_result.events", f"{TX}.events", None, None), (f"{TX}.tx_result.events[0].type", f"{TX}.type", None, None),
        (PACKET, f"{TX}.attributes", None, None)],
}
# by file the fields that may be left out: where they stand, how a flaw names them (None: as they stand), and what is out of their range
LEFT_OUT = {
    "hub-4/commit-80.json": [
        (f"{HEADER}.version.block", None, "-1", "BadNumber"), (f"{HEADER}.version.app", None, "18446744073709551616", "BadNumber"),
        (f"{HEADER}.last_block_id.hash", None, "0", "BadHex"), (f"{HEADER}.last_block_id.parts.hash", None, "00" * 65, "BadHex"),
        (f"{HEADER}.last_block_id.parts.total", None, "1", "WrongType"),
        (f"{COMMIT}.round", None, 2**31, "WrongType"), (f"{COMMIT}.block_id.parts.total", f"{COMMIT}.block_id.total", "1", "WrongType"),
        *((f"{HEADER}.{name}", None, "0x", "BadHex") for name in HASHES)],
    "hub-on-zone/client_state.json": [
        (f"{STATE}.frozen_height", None, None, None), (f"{STATE}.latest_height.revision_number", None, "four", "BadNumber"),
        (f"{STATE}.latest_height.revision_height", None, "-1", "BadNumber"),
        (f"{STATE}.frozen_height.revision_number", None, "", "BadNumber"), (f"{STATE}.frozen_height.revision_height", None, "-0", "BadNumber")],
    "hub-on-zone/consensus_states.json": [
        (f"{CONSENSUS}.height.revision_number", f"{CONSENSUS}.revision_number", "-4", "BadNumber"), ("pagination", None, None, None)],
}
# file, edit of its value, and the line that tells it (None: it is taken)
DAMAGES = [
    # what an answer is known by, and objects inside
    (COMMIT_FILE, put("result", True), "UnknownShape at -"),
    (COMMIT_FILE, put(SIGNED, True), f"WrongType at {SIGNED}"),
    (COMMIT_FILE, put(f"{COMMIT}.signatures[0]", True), f"MissingField at {SIGNATURE}.block_id_flag"),
    (COMMIT_FILE, put(f"{SIGNATURE}.block_id_flag", -1), f"WrongType at {SIGNATURE}.block_id_flag"),
    (COMMIT_FILE, put(f"{SIGNATURE}.signature", None), f"WrongType at {SIGNATURE}.signature"),
    (COMMIT_FILE, gone(f"{COMMIT}.block_id.parts"), f"MissingField at {COMMIT}.block_id.parts"),
    (COMMIT_FILE, put(f"{COMMIT}.block_id.parts", True), f"MissingField at {COMMIT}.block_id.hash"),
    (PAGE_FILE, gone("result.validators"), "UnknownShape at -"),
    (PAGE_FILE, put("result.validators", True), "WrongType at result.validators"),
    (PAGE_FILE, gone(f"{FIRST}.pub_key"), f"MissingField at {FIRST}.pub_key"),
    (PAGE_FILE, put(f"{FIRST}.pub_key", True), f"MissingField at {FIRST}.type"),
    (PAGE_FILE, put(f"{FIRST}.pub_key", {"type": "tendermint/PubKeyEd25519", "value": "A" * 44}), f"BadBase64 at {FIRST}.value"),
    (PAGE_FILE, put(f"{FIRST}.pub_key", {"type": "tendermint/PubKeySecp256k1", "value": "A" * 43 + "="}), f"BadBase64 at {FIRST}.value"),
    (STATE_FILE, gone(STATE), "UnknownShape at -"),
    (STATE_FILE, put(STATE, True), f"WrongType at {STATE}"),
    (STATE_FILE, put(f"{STATE}.trust_level.numerator", BIG), f"BadNumber at {STATE}.trust_level.numerator"),
    (STATE_FILE, put(f"{STATE}.trust_level.denominator", BIG), f"BadNumber at {STATE}.trust_level.denominator"),
    (STORED_FILE, gone("consensus_states"), "UnknownShape at -"),
    (STORED_FILE, put("consensus_states", True), "WrongType at consensus_states"),
    (STORED_FILE, gone(f"{CONSENSUS}.height"), f"MissingField at {CONSENSUS}.height"),
    (STORED_FILE, put(f"{CONSENSUS}.height", True), f"MissingField at {CONSENSUS}.revision_height"),
    (STORED_FILE, put(f"{CONSENSUS}.height", {"revision_number": "3"}), f"MissingField at {CONSENSUS}.revision_height"),
    (STORED_FILE, put(f"{CONSENSUS}.height", {"revision_number": "4"}), f"MissingField at {CONSENSUS}.revision_height"),
    (STORED_FILE, put(f"{CONSENSUS}.height", {"revision_number": "5"}), f"MissingField at {CONSENSUS}.revision_height"),
    (STORED_FILE, gone(f"{CONSENSUS}.consensus_state"), f"MissingField at {CONSENSUS}.consensus_state"),
    (STORED_FILE, put(f"{CONSENSUS}.consensus_state", True), f"MissingField at {CONSENSUS}.timestamp"),
    (STORED_FILE, gone(f"{CONSENSUS}.consensus_state.root"), f"MissingField at {CONSENSUS}.root"),
    (STORED_FILE, put(f"{CONSENSUS}.consensus_state.root", True), f"MissingField at {CONSENSUS}.hash"),
    # roots of no byte and of 65 bytes
    (STORED_FILE, put(f"{CONSENSUS}.consensus_state.root.hash", ""), f"BadBase64 at {CONSENSUS}.hash"),
    (STORED_FILE, put(f"{CONSENSUS}.consensus_state.root.hash", "A" * 87 + "="), f"BadBase64 at {CONSENSUS}.hash"),
    (COMMIT_FILE, put(f"{HEADER}.app_hash", "00" * 65), f"BadHex at {HEADER}.app_hash"),
    (RECEIVED_FILE, gone("result.txs"), "UnknownShape at -"),
    (RECEIVED_FILE, put("result.txs", True), "WrongType at result.txs"),
    (RECEIVED_FILE, gone(f"{TX}.tx_result"), f"MissingField at {TX}.tx_result"),
    (RECEIVED_FILE, put(f"{TX}.tx_result", True), f"MissingField at {TX}.code"),
    (RECEIVED_FILE, put(f"{TX}.tx_result.code", -1), f"WrongType at {TX}.code"),
    (RECEIVED_FILE, gone(f"{PACKET}[4]"), f"MissingField at {TX}.packet_src_port"),
    (RECEIVED_FILE, gone(f"{PACKET}[5]"), f"MissingField at {TX}.packet_src_channel"),
    (RECEIVED_FILE, gone(f"{PACKET}[6]"), f"MissingField at {TX}.packet_dst_port"),
    (RECEIVED_FILE, gone(f"{PACKET}[7]"), f"MissingField at {TX}.packet_dst_channel"),
    (RECEIVED_FILE, put(f"{PACKET}[3].value", BIG), f"BadNumber at {TX}.packet_sequence"),
    # a packet has a sequence from 1 on, and stands in a block whose next height is a height, too
    (RECEIVED_FILE, put(f"{PACKET}[3].value", "0"), f"BadNumber at {TX}.packet_sequence"),
    (RECEIVED_FILE, put(f"{TX}.height", HIGHEST), f"BadNumber at {TX}.height"),
    (RECEIVED_FILE, put(f"{PACKET}[3].value", 2), f"MissingField at {TX}.packet_sequence"),
    (SENT_FILE, gone(f"{PACKET}[1]"), f"MissingField at {TX}.packet_timeout_height"),
    (SENT_FILE, gone(f"{PACKET}[2]"), f"MissingField at {TX}.packet_timeout_timestamp"),
    (SENT_FILE, put(f"{PACKET}[1]", {"key": "packet_timeout_height", "value": "1/4000"}), f"BadNumber at {TX}.packet_timeout_height"),
    (SENT_FILE, put(f"{PACKET}[2]", {"key": "packet_timeout_timestamp", "value": "18446744073709551616"}), f"BadNumber at {TX}.packet_timeout_timestamp"),
    # what doesn't fit
    ("hub-4/commit-80.json", gone("result"), "UnknownShape at -"),
    ("hub-4/commit-80.json", gone(SIGNED), "UnknownShape at -"),
    ("hub-4/commit-80.json", put("error", {"code": -32603, "message": "height 80 is not available"}), "NodeError at -"),
    ("hub-4/commit-80.json", put(f"{HEADER}.height", "79"), f"OtherHeight at {COMMIT}.height"),
    ("hub-4/commit-80.json", hashed(put(f"{HEADER}.validators_hash", "00" * 32)), "OtherSet at hub-4 80"),
    # a header of which one field is another, or isn't there, and a commit for another block
    *(("hub-4/commit-80.json", edit, "OtherHeader at hub-4 80") for edit in (
        put(f"{HEADER}.version.block", "10"), put(f"{HEADER}.version.app", "1"), gone(f"{HEADER}.version.block"), put(f"{HEADER}.time", "2026-11-01T12:08:32Z"),
        put(f"{HEADER}.last_block_id.hash", ""), put(f"{HEADER}.last_block_id.parts.total", 2), put(f"{HEADER}.last_block_id.parts.hash", "00" * 32),
        put(f"{HEADER}.validators_hash", "00" * 32), put(f"{HEADER}.next_validators_hash", "00" * 32), put(f"{COMMIT}.block_id.hash", "00" * 32),
        put(f"{HEADER}.proposer_address", "00" * 20), *(put(f"{HEADER}.{name}", "00" * 20) for name in HASHES), *(gone(f"{HEADER}.{name}") for name in HASHES))),
    ("hub-4/commit-80.json", put(f"{SIGNATURE}.validator_address", "00" * 20), "OtherSigner at hub-4 80"),
    ("hub-4/commit-80.json", gone(f"{COMMIT}.signatures[5]"), "SignatureCount at hub-4 80"),
    ("hub-4/validators-80-1.json", put("result.total", "5"), "OtherTotal at hub-4 80"),
    ("hub-4/validators-80-1.json", put(f"{FIRST}.voting_power", "0"), f"BadPower at {FIRST}.voting_power"),
    ("hub-4/validators-80-1.json", put(f"{FIRST}.voting_power", "-3"), f"BadNumber at {FIRST}.voting_power"),
    ("hub-4/validators-80-1.json", put(f"{FIRST}.voting_power", "1"), "OtherSet at hub-4 80"),
    ("hub-on-zone/client_state.json", put(f"{STATE}.latest_height.revision_number", "5"), "OtherRevision at hub-on-zone"),
    ("hub-on-zone/client_state.json", put(f"{STATE}.trust_level.denominator", "4"), f"BadTrust at {STATE}.trust_level"),
    ("hub-on-zone/client_state.json", put(f"{STATE}.trusting_period", "336h"), f"BadDuration at {STATE}.trusting_period"),
    ("hub-on-zone/client_state.json", put(f"{STATE}.max_clock_drift", "0.0000000001s"), f"BadDuration at {STATE}.max_clock_drift"),
    ("hub-on-zone/client_state.json", put(f"{STATE}.frozen_height.revision_height", "1"), f"FrozenClient at {STATE}.frozen_height"),
    ("hub-on-zone/consensus_states.json", put(f"{CONSENSUS}.height.revision_number", "5"), "OtherRevision at hub-on-zone 1"),
    ("hub-on-zone/consensus_states.json", put("consensus_states[1].height.revision_height", "1"), "TwoAnswers at hub-on-zone 1"),
    ("hub-on-zone/consensus_states.json", put("pagination.next_key", "AAAA"), "MissingConsensusStates at hub-on-zone"),
    (STORED_FILE, put(f"{CONSENSUS}.consensus_state.timestamp", "2026-11-01T12:00:06Z"), "OtherRecord at hub-on-zone 1"),
    (STORED_FILE, put(f"{CONSENSUS}.consensus_state.root.hash", "A" * 43 + "="), "OtherRecord at hub-on-zone 1"),
    (STORED_FILE, put(f"{CONSENSUS}.consensus_state.next_validators_hash", "00" * 32), "OtherRecord at hub-on-zone 1"),
    (STORED_FILE, put("consensus_states[1].consensus_state.next_validators_hash", "00" * 32), "OtherRecord at hub-on-zone 80"),
    ("hub-on-zone/consensus_states.json", put("code", 5), None),
    ("transfers/received.json", put("result.total_count", "7"), "MissingTransactions at transfers 7"),
    ("transfers/received.json", put("result.total_count", "0"), "MissingTransactions at transfers 0"),
    ("transfers/received.json", gone(f"{PACKET}[3]"), f"MissingField at {TX}.packet_sequence"),
    ("transfers/received.json", put(f"{PACKET}[3].value", "two"), f"BadNumber at {TX}.packet_sequence"),
    (STORED_FILE, put(f"{CONSENSUS}.consensus_state.@type", "/ibc.lightclients.wasm.v1.ConsensusState"), f"UnsupportedClient at {CONSENSUS}.@type"),
    (STORED_FILE, put(f"{CONSENSUS}.consensus_state.@type", "/ibc.lightclients.tendermint.v1.ConsensusState"), None),
]


ADVICE = "the node answered an error; ask it again, or another node"

# changes of the folder, the line that tells them, the status, and the files that are named
CHANGES = [
    (written(COMMIT_FILE, '{"result": true]'), "refused CutShort at -", 1, [f"{COMMIT_FILE}: it begins with '{{' and doesn't end with '}}': was it cut short? ask the node again\n"]),
    (written(COMMIT_FILE, ' {"result": {"signed_header": '), "refused CutShort at -", 1, [COMMIT_FILE]),
    (written(COMMIT_FILE, '{"result": true,}'), "refused NotJson at -", 1, [f"{COMMIT_FILE}: this is no JSON in UTF-8; save the node's answer as it came\n"]),
    (written(COMMIT_FILE, "too many requests"), "refused NotJson at -", 1, [COMMIT_FILE]),
    (written(COMMIT_FILE, ""), "refused Empty at -", 1, [f"{COMMIT_FILE}: it is empty; ask the node again\n"]),
    (written(COMMIT_FILE, " \t\r\n"), "refused Empty at -", 1, [COMMIT_FILE]),
    (written(COMMIT_FILE, "\n<html><head><title>502 Bad Gateway</title></head></html>\n"), "refused ErrorPage at -", 1, [
        f"{COMMIT_FILE}: it begins with '<': an error page? what stands before the node may answer so; ask it again, or another node\n"]),
    (lambda folder: (folder / COMMIT_FILE).write_bytes(gzip.compress((folder / COMMIT_FILE).read_bytes())), "refused Compressed at -", 1, [
        f"{COMMIT_FILE}: it is compressed with gzip; unpack it (gunzip), or save it as `curl --compressed` does\n"]),
    (lambda folder: (folder / COMMIT_FILE).write_bytes(b"\x1f"), "refused NotJson at -", 1, [COMMIT_FILE]),
    # bounds of what is read: objects, and values of all kinds
    (written(COMMIT_FILE, "[" + "{}," * 400_001 + "0]"), "refused TooManyValues at -", 1, [f"{COMMIT_FILE}: an answer has at most 400,000 of the byte {{ and 1,200,000 of "]),
    (written(COMMIT_FILE, "[" + "{}," * 400_000 + "0]"), "refused UnknownShape at -", 1, [COMMIT_FILE]),
    (written(COMMIT_FILE, "[" + "1," * 1_200_000 + "0]"), "refused TooManyValues at -", 1, [COMMIT_FILE]),
    (written(COMMIT_FILE, "[" + "1," * 1_199_999 + "0]"), "refused UnknownShape at -", 1, [COMMIT_FILE]),
    (padded(COMMIT_FILE, 2**24 + 1), "refused TooBig at -", 1, [f"{COMMIT_FILE}: an answer has at most 16,777,216 bytes; ask for fewer of them on a page (per_page=20)\n"]),
    (written("hub-4/status.json", "{}"), "refused UnknownShape at -", 1, ["hub-4/status.json"]),
    (edited(STATE_FILE, put(f"{STATE}.@type", "/ibc.lightclients.wasm.v1.ClientState")), f"refused UnsupportedClient at {STATE}.@type", 1, ['; this one is "/ibc.lightclients.wasm.v1.ClientState"\n']),
    (written("hub-on-zone/gateway.json", '{"code": 5, "message": "client not found", "details": []}'), "refused NodeError at -", 1, [f'gateway.json: {ADVICE}; it said "client not found"\n']),
    (edited(COMMIT_FILE, put("error", {"code": -32603, "message": "Internal error", "data": "height 80 is not available, lowest height is 100"})),
     "refused NodeError at -", 1, [f'{COMMIT_FILE}: {ADVICE}; it said "Internal error: height 80 is not available, lowest height is 100"\n']),
    (edited(COMMIT_FILE, put("error", {"message": 5, "data": "\x1b[1m \"\u00e9\\\n~" + "x" * 300})), "refused NodeError at -", 1, ['; it said "?[1m ????~' + "x" * 190 + '"\n']),
    (edited(COMMIT_FILE, put(f"{COMMIT}.block_id.hash", "0A" * 32)), "refused OtherHeader at hub-4 80", 1, [
        f"{COMMIT_FILE}: the hash of the header's fields isn't that of the block", f", and not {'0A' * 32}); fetch /commit?height=80 again, from another node if it stays\n"]),
    (edited(COMMIT_FILE, put("error", "out of order")), "refused NodeError at -", 1, [f'{COMMIT_FILE}: {ADVICE}; it said "out of order"\n']),
    (edited(COMMIT_FILE, put("error", 5)), "refused NodeError at -", 1, [f"{COMMIT_FILE}: {ADVICE}\n"]),
    (written(COMMIT_FILE, '{"message": "API rate limit exceeded"}'), "refused NodeError at -", 1, [f'{COMMIT_FILE}: {ADVICE}; it said "API rate limit exceeded"\n']),
    (moved(COMMIT_FILE, "hub-4/again.json", copy=True), "refused TwoAnswers at hub-4 80", 1, [COMMIT_FILE, "hub-4/again.json"]),
    (written("hub-4/\x1b[1m.json", "{"), "refused CutShort at -", 1, [r"hub-4/\u{1b}[1m.json: "]),
    (moved(COMMIT_FILE, "hub-4/again\n.json", copy=True), "refused TwoAnswers at hub-4 80", 1, [COMMIT_FILE, r"hub-4/again\u{a}.json"]),
    (moved(PAGE_FILE, "hub-4/again.json", copy=True), "refused TooManyValidators at hub-4 80", 1, ["hub-4/again.json", "one is there twice, perhaps under another name; keep each page once\n"]),
    (edited(COMMIT_FILE, put(f"{HEADER}.chain_id", "hub-5")), "refused OtherChain at hub-4 80", 1, [f"{COMMIT_FILE}: the answer is on another chain, hub-5; fetch it"]),
    (edited(STATE_FILE, put(f"{STATE}.chain_id", "hub-5")), "refused OtherChain at hub-on-zone", 1, [f"{STATE_FILE}: the answer is on another chain, hub-5; this client follows, or"]),
    (removed(STATE_FILE), "refused MissingClientState at hub-on-zone", 1, [f"client_states/ID{INTO}hub-on-zone\n"]),
    (moved(STATE_FILE, "hub-on-zone/again.json", copy=True), "refused TwoAnswers at hub-on-zone", 1, [STATE_FILE, "again.json"]),
    (removed("hub-on-zone/consensus_states.json"), "refused MissingConsensusStates at hub-on-zone", 1, [f"consensus_states/ID, all of its pages,{INTO}hub-on-zone\n"]),
    (edited(RECEIVED_FILE, put("result.total_count", "3")), "refused MissingTransactions at transfers 3", 1, [f"fetch all pages of /tx_search{INTO}transfers\n"]),
    (moved(STATE_FILE, "hub-4/client_state.json", copy=True), "refused WrongFolder at hub-4", 1, ["hub-4/client_state.json", "move the file, or give the chain, the client and the path different identifiers\n"]),
    (moved(COMMIT_FILE, "hub-on-zone/commit.json", copy=True), "refused WrongFolder at hub-on-zone", 1, ["hub-on-zone/commit.json"]),
    (moved(COMMIT_FILE, "transfers/commit.json", copy=True), "refused WrongFolder at transfers", 1, ["transfers/commit.json"]),
    (edited("transfers/received.json", put(f"{PACKET}[5].value", "channel-9")), "refused TwoChannels at transfers 2", 1, ["received.json", "cleared.json"]),
    (saved(answers.transaction(99, answers.packet_event("send_packet", 3, 0))), "refused TwoAnswers at transfers 3", 1, ["more.json", "sent.json"]),
    (saved(answers.transaction(33, answers.packet_event("send_packet", 3, 0, limit="1-7"))), "refused TwoAnswers at transfers 3", 1, ["more.json", "sent.json"]),
    (saved(answers.transaction(33, answers.packet_event("send_packet", 3, LATER))), "refused TwoAnswers at transfers 3", 1, ["more.json", "sent.json"]),
    # a consensus state that ends a page and begins the next one, which says something else there
    *((in_turn(paged([0, 1], [1]), edited("hub-on-zone/consensus_states-2.json", put(f"{CONSENSUS}.{field}", value))), "refused TwoAnswers at hub-on-zone 80", 1,
       ["consensus_states-1.json", "consensus_states-2.json"]) for field, value in (
        ("consensus_state.root.hash", "A" * 43 + "="), ("consensus_state.next_validators_hash", "00" * 32), ("consensus_state.timestamp", "2026-11-01T12:00:00Z"))),
    # packets that are pending, and what lacks of them
    (in_turn(pending([3], [2]), removed("transfers/commitments-2.json")), "refused MissingCommitments at transfers", 1, [f"of the path's source, all of its pages,{INTO}transfers\n"]),
    (in_turn(pending([3]), moved("transfers/commitments-1.json", "hub-4/commitments.json")), "refused WrongFolder at hub-4", 1, ["hub-4/commitments.json"]),
    (in_turn(pending([3]), moved("transfers/commitments-1.json", "hub-on-zone/commitments.json")), "refused WrongFolder at hub-on-zone", 1, ["hub-on-zone/commitments.json"]),
    *((in_turn(pending([3, 4], unreceived=[3, 4], acknowledged=[2, 4]), edited(f"transfers/{file}-1.json", edit)), f"refused {flaw}", 1, [f"{file}-1.json"])
      for file, edit, flaw in (
          ("commitments", put("commitments", {}), "WrongType at commitments"), ("commitments", gone("commitments[1].sequence"), "MissingField at commitments[1].sequence"),
          ("commitments", put("commitments[1].sequence", 4), "WrongType at commitments[1].sequence"), ("commitments", put("commitments[0].sequence", BIG), "BadNumber at commitments[0].sequence"),
          ("commitments", put("pagination", []), "WrongType at pagination"),
          ("acknowledgements", put("acknowledgements[1].sequence", "x"), "BadNumber at acknowledgements[1].sequence"),
          ("unreceived", put("sequences", "3"), "WrongType at sequences"), ("unreceived", put("sequences[1]", 4), "BadNumber at sequences"), ("unreceived", put("sequences[1]", "-4"), "BadNumber at sequences"),
          ("commitments", put("commitments[0].sequence", "0"), "BadNumber at commitments[0].sequence"), ("unreceived", put("sequences[1]", "0"), "BadNumber at sequences"),
          ("acknowledgements", put("acknowledgements[1].sequence", "0"), "BadNumber at acknowledgements[1].sequence"))),
    # verdicts that don't fit, or are none
    (in_turn(judged((80, [0], [], 3)), moved(VERDICTS, "hub-on-zone/verdicts.json", copy=True)), "refused WrongFolder at hub-on-zone", 1, ["hub-on-zone/verdicts.json"]),
    (in_turn(judged((80, [0], [], 3)), moved(VERDICTS, "transfers/verdicts.json", copy=True)), "refused WrongFolder at transfers", 1, ["transfers/verdicts.json"]),
    (judged((80, [0], [], 3), chain="hub-5"), "refused OtherChain at hub-4", 1, [f"{VERDICTS}: the answer is on another chain, hub-5; "]),
    (judged(version=2), "refused BadVersion at verdicts.version", 1, [VERDICTS]),
    (judged(lists=gone("verdicts.version")), "refused BadVersion at verdicts.version", 1, [VERDICTS]),
    (judged(lists=gone("verdicts.verifier")), "refused MissingField at verdicts.verifier", 1, [VERDICTS]),
    (judged(lists=gone("verdicts.chain")), "refused MissingField at verdicts.chain", 1, [VERDICTS]),
    (judged(lists=put("verdicts.commits", {})), "refused WrongType at verdicts.commits", 1, [VERDICTS]),
    (judged(lists=put("verdicts", [])), "refused WrongType at verdicts", 1, [VERDICTS]),
    *((judged((1, [], [], 6), (80, bad, unchecked, 3)), f"refused BadPlace at verdicts.commits[1].{name}", 1, [VERDICTS])
      for bad, unchecked, name in (([6], [], "bad"), ([1, 1], [], "bad"), ([2, 1], [], "bad"), ([-1], [], "bad"), (["0"], [], "bad"), ([0], [4, 2**64], "unchecked"))),
    (judged((80, [], [], 6), lists=put("verdicts.commits[0].sha256", "00")), "refused BadHex at verdicts.commits[0].sha256", 1, [VERDICTS]),
    (judged((80, [], [], 6), lists=put("verdicts.commits[0].votes", 7)), "refused OtherVerdict at hub-4 80", 1, [f"{COMMIT_FILE}: the verdict on this commit tells of another"]),
    (removed_folder("hub-4"), "device", 4, ["hub-4"]),
    (removed_folder("transfers"), "device", 4, ["transfers"]),
]


def unseen(count):
    """The change that adds so many packets with commitments, from 1001 on, of whose sending no answer tells, and the lines that tell of the first 100, and of the others."""
    sequences = range(1001, 1001 + count)
    lines = [lacking("MissingSend", sequence, "commitments-1") for sequence in sequences[:100]]
    return pending([3, *sequences], unreceived=[3, *sequences]), lines + ([MORE_PACKETS % (1101, count - 100)] if count > 100 else [])


WARNING = "# Signatures were not verified: headers and votes stand as the nodes gave them.\n"
ORDERED = swapped('"unordered"', '"ordered"')
NO_RECORD = edited(STORED_FILE, put("consensus_states", []))
NOTHING_FOUND = written(RECEIVED_FILE, '{"result": {"txs": [], "total_count": "0"}}')
# the setup by its number, its change and that of the folder, after which the script is written all the same, and the lines that tell why updates
# may be missed; header 80 is of 12:08:32.803238123
NOTICES = [
    (0, str, in_turn(removed("hub-4/commit-1.json"), edited(STORED_FILE, put(f"{CONSENSUS}.consensus_state.next_validators_hash", "00" * 32))), [MISSING_NEXT_SET % (1, 2)]),
    (0, str, lambda folder: [file.unlink() for file in (folder / "hub-4").glob("*.json")], [MISSING_HEADERS]),
    # of the pages of consensus states that `want` names one is lost; files of other names count as pages
    (0, str, moved(STORED_FILE, "hub-on-zone/consensus_states-3.json"), [MISSING_STATES % 1]),
    (0, str, in_turn(moved(STORED_FILE, "hub-on-zone/consensus_states-1.json", copy=True), moved(STORED_FILE, "hub-on-zone/consensus_states-3.json")), [MISSING_STATES % 2]),
    (0, str, moved(STORED_FILE, "hub-on-zone/consensus_states-2.json", copy=True), []),
    # a header whose set no height's pages make is left out, alone; with it a goal goes, and what would be sent from the record below it
    (0, str, removed("hub-4/validators-80-2.json"), []),
    (0, str, removed(PAGE_FILE, "hub-4/validators-80-2.json"), []),
    (0, str, edited(PAGE_FILE, put("result.block_height", "79")), []),
    (0, str, lambda folder: [file.unlink() for file in (folder / "hub-4").glob("validators-*.json")], [MISSING_HEADERS]),
    (0, str, in_turn(removed("hub-4/validators-80-2.json"), edited(STORED_FILE, gone("consensus_states[1]"))), [UNSEEN_GOAL % (80, "at or above the goal's", 80, 80), MISSING_LATEST % 80]),
    # all pages of another height make the set of a header of which a page isn't there
    (0, str, in_turn(*(step for page in (1, 2) for step in (
        moved(f"hub-4/validators-80-{page}.json", f"hub-4/validators-60-{page}.json", copy=True),
        edited(f"hub-4/validators-60-{page}.json", put("result.block_height", "60")))), removed("hub-4/validators-80-2.json")), []),
    # headers that not more than two thirds of their sets signed, or nobody
    (0, str, edited(COMMIT_FILE, votes_for(0)), []),
    (0, str, edited(COMMIT_FILE, votes_for(-1)), []),
    (0, str, in_turn(*(edited(f"hub-4/commit-{height}.json", votes_for(-1)) for height in (1, 80))), [MISSING_HEADERS]),
    # both: of the lower header no height has the set, and nobody signed the higher one
    *((number, str, in_turn(lambda folder: [file.unlink() for file in (folder / "hub-4").glob("validators-[12]-*.json")], edited(COMMIT_FILE, votes_for(-1))), lines)
      for number, lines in ((0, [MISSING_HEADERS]), (1, [MISSING_HEADERS]))),
    (0, str, edited(STORED_FILE, many), [MISSING_NEXT_SET % (30, 32)]),
    (0, str, edited(STATE_FILE, put(f"{STATE}.latest_height.revision_height", "79")), [MISSING_LATEST % 79]),
    (0, str, in_turn(edited(STORED_FILE, many), edited(STATE_FILE, put(f"{STATE}.latest_height.revision_height", "81"))), [MISSING_NEXT_SET % (30, 32), MISSING_LATEST % 81]),
    (0, str, edited(COMMIT_FILE, put("result.canonical", False)), [NOT_CANONICAL % (80, 1, 80)]),
    (0, str, in_turn(*(edited(f"hub-4/commit-{height}.json", put("result.canonical", False)) for height in (1, 80))), [NOT_CANONICAL % (80, 2, 80)]),
    (0, str, edited("hub-4/commit-1.json", put("result.canonical", False)), [NOT_CANONICAL % (1, 1, 1)]),
    (0, str, edited(COMMIT_FILE, gone("result.canonical")), []),
    (0, swapped("at_least = 80", "at_least = 81"), removed(), [UNSEEN_GOAL % (81, "at or above the goal's", 81, 81)]),
    (0, swapped("at_least = 80", "exactly = 79"), removed(), [UNSEEN_GOAL % (79, "at the goal's", 79, 79)]),
    (0, str, removed(COMMIT_FILE), []),  # height 80 is stored
    (0, str, padded(COMMIT_FILE, 2**24), []),
    # the lowest set is the highest one again: it stands where it was seen first
    (0, str, in_turn(*(step for page in (1, 2) for step in (
        moved(f"hub-4/validators-1-{page}.json", f"hub-4/validators-90-{page}.json", copy=True),
        edited(f"hub-4/validators-90-{page}.json", put("result.block_height", "90"))))), []),
    (0, str, in_turn(removed(COMMIT_FILE), edited(STORED_FILE, gone("consensus_states[1]"))), [UNSEEN_GOAL % (80, "at or above the goal's", 80, 80), MISSING_LATEST % 80]),
    (0, swapped(SETTING, SETTING + "period_ns = 1\n"), removed(), [NOTHING_TRUSTED % "all 2 stored consensus states have expired at the window's end"]),
    (0, swapped(SETTING, SETTING + "period_ns = 563_000_000_000\n"), removed(), []),  # record 80 is trusted until 12:17:55.8
    # record 80 is trusted to the window's end, and a nanosecond longer
    (0, swapped(SETTING, SETTING + "period_ns = 57_196_761_877\n"), removed(), [NOTHING_TRUSTED % "all 2 stored consensus states have expired at the window's end", NOTHING_FRESH]),
    (0, swapped(SETTING, SETTING + "period_ns = 57_196_761_878\n"), removed(), [NOTHING_FRESH]),
    (0, swapped(SETTING, SETTING + "period_ns = 1\n"), edited(STORED_FILE, gone("consensus_states[0]")), [NOTHING_TRUSTED % "its stored consensus state has expired at the window's end"]),
    (0, str, NO_RECORD, [NOTHING_TRUSTED % "it has stored no consensus state", MISSING_LATEST % 80]),
    (0, swapped(FROM, "12:08:32Z"), removed(), [FUTURE_HEADERS % (80, 1)]),
    (0, swapped(FROM, "12:00:01Z"), removed(), [FUTURE_HEADERS % (1, 2)]),
    (0, swapped(FROM, "12:08:33Z"), removed(), []),
    # at the window's end header 80 is 57.2 seconds old
    (0, swapped(SETTING, SETTING + "refresh_ns = 57_000_000_000\n"), removed(), [NOTHING_FRESH]),
    (0, swapped(SETTING, SETTING + "refresh_ns = 58_000_000_000\n"), removed(), []),
    (0, swapped(SETTING, SETTING + "refresh_ns = 1\n"), NO_RECORD, [NOTHING_TRUSTED % "it has stored no consensus state", MISSING_LATEST % 80]),
    (1, str, saved(*packet_txs(OURS, *((40, "send_packet", sequence) for sequence in range(100, 4195)))), [TOO_MANY_PACKETS % (2, 4193, 3, 3)]),
    (1, str, edited(RECEIVED_FILE, put(f"{TX}.tx_result.code", 11)), []),  # what failed did nothing
    # of one packet several events: both searches saved, and messages that were relayed once more, before and after
    (1, str, moved(RECEIVED_FILE, "transfers/acknowledged.json", copy=True), []),
    (1, str, in_turn(*(moved(file, file.replace(".", "-again."), copy=True) for file in (SENT_FILE, RECEIVED_FILE, CLEARED_FILE))), []),
    (1, str, saved(*packet_txs(OURS, (57, "recv_packet", 2), (57, "write_acknowledgement", 2), (58, "acknowledge_packet", 2), (59, "timeout_packet", 1))), []),
    (1, str, saved(*packet_txs(OURS, (34, "write_acknowledgement", 2), (33, "recv_packet", 2))), []),
    # the block that sent packet 3 has its time, though no step can use its header
    (1, str, seen_alone(33), []),
    # packets of another chain whose channel has the name of the source's
    (1, str, saved(*packet_txs(OTHER, (20, "recv_packet", 2), (36, "recv_packet", 3), (36, "write_acknowledgement", 3), (37, "recv_packet", 900))), []),
    (1, NAMED, saved(*packet_txs(OTHER, (20, "recv_packet", 2), (36, "recv_packet", 3), (37, "recv_packet", 900)), *packet_txs(("channel-4", "channel-7"), (38, "recv_packet", 4))), []),
    # packets that the destination's chain sent on its own channel of that name, in files before and after those of the path's; and on another one
    (1, BOTH_NAMED, saved(*packet_txs(OTHER, *FORWARDED)), []),
    (1, str, saved(*packet_txs(OTHER, *FORWARDED)), [SEVERAL_COUNTERPARTIES % ("channel-3", "channel-7")]),
    # a channel whose name steers a terminal, and one of a long name
    (1, str, saved(*packet_txs(("channel-0", "\x1b[1m\x00\u202e\x7f"), *FORWARDED)), [SEVERAL_COUNTERPARTIES % ("\\u{1b}[1m\\u{0}\\u{202e}\\u{7f}", "channel-7")]),
    (1, NAMED, written("transfers/zone.json", json.dumps(answers.search(*packet_txs(OTHER, *FORWARDED)))), [SEVERAL_COUNTERPARTIES % ("channel-7", "channel-3")]),
    (1, NAMED, in_turn(removed(RECEIVED_FILE), saved(*packet_txs(OTHER, *FORWARDED))), [
        lacking("MissingReceipt", 2, "more"), lacking("MissingReceipt", 900, "more"), MISSING_SEARCHES % "recv_packet", SEVERAL_COUNTERPARTIES % ("channel-3", "channel-7")]),
    (1, NAMED, saved(*packet_txs(("channel-4", "channel-3"), *FORWARDED)), []),
    # pending packets alone are written, and `first` is the least of them; searches for others needn't be there
    (1, BOTH_NAMED, in_turn(pending([3], unreceived=[3], acknowledged=[]), removed(RECEIVED_FILE, CLEARED_FILE)), []),
    (1, str, pending([2], [3], unreceived=[3], acknowledged=[2]), []),
    (1, NAMED, pending([], unreceived=[]), []),
    (1, swapped(PATH_GAS, PATH_GAS + "first = 3\n" + ENDS), pending([3, 2, 1], unreceived=[3]), []),
    (1, str, in_turn(pending([3]), removed(RECEIVED_FILE)), [lacking("MissingReceipt", 3, "sent"), MISSING_SEARCHES % "recv_packet"]),
    (1, str, in_turn(pending([3]), NOTHING_FOUND), [lacking("MissingReceipt", 3, "sent")]),
    # a path that has no packet with a commitment lacks no search
    (1, str, in_turn(pending([]), removed(SENT_FILE, RECEIVED_FILE, CLEARED_FILE)), []),
    (1, ORDERED, in_turn(pending([]), removed(SENT_FILE, RECEIVED_FILE, CLEARED_FILE)), []),
    (1, str, in_turn(pending([]), removed(RECEIVED_FILE)), []),
    (1, swapped(PATH_GAS, PATH_GAS + "first = 4\n"), in_turn(pending([2, 3]), removed(RECEIVED_FILE)), []),
    # a node's index of transactions that is some blocks late: of an unordered path the packet alone is left out, of an ordered one those behind it, too
    *((1, order, in_turn(pending([20, 21, 22], unreceived=[20, 21, 22]), saved(*packet_txs(OURS, (40, "send_packet", 20), (43, "send_packet", 22)))),
       [lacking("MissingSend", 21, "commitments-1")]) for order in (str, ORDERED)),
    *((1, order, in_turn(pending([20, 21, 22], unreceived=[21, 22], acknowledged=[20]), saved(*packet_txs(OURS, *((40, "send_packet", s) for s in (20, 21, 22))))),
       [lacking("MissingReceive", 20, "commitments-1")]) for order in (str, ORDERED)),
    *((1, order, in_turn(pending([20, 21, 22]), saved(*packet_txs(OURS, *((40, "send_packet", s) for s in (20, 21, 22)), (41, "recv_packet", 20)))),
       [lacking("MissingReceipt", s, "more") for s in ((21, 22) if order is str else (21,))]) for order in (str, ORDERED)),
    (1, str, removed(SENT_FILE), [lacking("MissingSend", 1, "cleared"), lacking("MissingSend", 2, "received"), MISSING_SEARCHES % "send_packet"]),
    (1, ORDERED, removed(SENT_FILE), [lacking("MissingSend", 1, "cleared"), MISSING_SEARCHES % "send_packet"]),
    (1, str, edited(RECEIVED_FILE, gone(f"{TX}.tx_result.events[1]")), [
        lacking("MissingReceive", 2, "received"), lacking("MissingReceipt", 3, "sent"), MISSING_SEARCHES % "recv_packet"]),
    (1, str, edited(RECEIVED_FILE, put(f"{PACKET}[3].value", "9")), [lacking("MissingReceive", 2, "received"), lacking("MissingSend", 9, "received")]),
    (1, str, saved(answers.transaction(36, answers.packet_event("recv_packet", 9, 0))), [lacking("MissingSend", 9, "more")]),
    (1, str, pending([3, 77]), [lacking("MissingReceipt", 3, "sent"), lacking("MissingSend", 77, "commitments-1")]),
    (1, str, pending([3, 77], unreceived=[3, 77]), [lacking("MissingSend", 77, "commitments-1")]),
    (1, str, pending([2, 3], unreceived=[]), [lacking("MissingReceive", 3, "commitments-1")]),
    # of an unordered path that leaves out many packets the first 100 are told one by one, the others by their number; of an ordered one the first
    *((1, str, *unseen(count)) for count in (99, 100, 101, 102, 1_000)),
    *((1, ORDERED, change, lines[:1]) for change, lines in (unseen(101),)),
    (1, ORDERED, edited(RECEIVED_FILE, gone(f"{TX}.tx_result.events[1]")), [lacking("MissingReceive", 2, "received"), MISSING_SEARCHES % "recv_packet"]),
    (1, str, in_turn(pending([1, 2], unreceived=[1]), saved(*packet_txs(OURS, (58, "acknowledge_packet", 2)))), []),
    # a setup that names another source than that of the packets; and such answers that tell of none, or of one from it
    (1, MISNAMED, removed(), [OTHER_CHANNEL]),
    (1, MISNAMED, in_turn(removed(SENT_FILE, CLEARED_FILE), NOTHING_FOUND), [MISSING_SEARCHES % "send_packet, recv_packet, acknowledge_packet or timeout_packet"]),
    (1, MISNAMED, saved(*packet_txs(("channel-9", "channel-7"), (38, "send_packet", 4))), []),
    # timeout heights of other revisions than the destination's, and above all heights
    (1, str, saved(*sent_until("1-18446744073709551615", "1-9223372036854775808", "1-9223372036854775807", "2-4000", "18446744073709551615-1", "0-4000", "1-0", "1-1")), []),
    # a packet between clients, and a record from before an upgrade, which has another set's hash
    (1, str, saved(answers.transaction(40, answers.client_packet_event(1), answers.packet_event("send_packet", 20, 0))), []),
    (0, str, edited(STORED_FILE, earlier), []),
    (0, str, edited(STORED_FILE, upgraded), []),
    *((0, str, edited(STORED_FILE, earlier_with(edit)), []) for edit in (
        put(f"{CONSENSUS}.consensus_state", True), gone(f"{CONSENSUS}.consensus_state"), put(f"{CONSENSUS}.consensus_state.timestamp", "yesterday"),
        put(f"{CONSENSUS}.consensus_state.root.hash", "="), put(f"{CONSENSUS}.consensus_state.next_validators_hash", ""),
        gone(f"{CONSENSUS}.height.revision_number"))),
    (1, str, removed(RECEIVED_FILE), [lacking("MissingReceipt", 3, "sent"), MISSING_SEARCHES % "recv_packet"]),
    (1, str, removed(SENT_FILE, RECEIVED_FILE, CLEARED_FILE), [MISSING_SEARCHES % "send_packet, recv_packet, acknowledge_packet or timeout_packet"]),
    (1, str, in_turn(removed(SENT_FILE, CLEARED_FILE), NOTHING_FOUND), [MISSING_SEARCHES % "send_packet, recv_packet, acknowledge_packet or timeout_packet"]),
    (1, str, NOTHING_FOUND, []),
]


VERDICTS_ELSEWHERE = "1 of verdicts (they count only in verdicts.json)"
CLIENT_QUERIES = {"consensus_states/ID/heights": {"consensus_state_heights": [], "pagination": {}}, "client_status/ID": {"status": "Active"},
                  "consensus_states/ID/revision/R/height/H": {"consensus_state": {}, "proof": None, "proof_height": {}}}


def beside(queries, folder, copies=1, wrap=lambda answer: answer):
    """The change that adds so many answers to each of these queries."""
    return in_turn(*(written(f"{folder}/beside-{number}-{copy}.json", json.dumps(wrap(answer)))
                     for number, answer in enumerate(queries.values()) for copy in range(copies)))


# as NOTICES: verdicts, with the line that the script begins with; and answers that aren't needed
OPENINGS = [
    (judged((1, [], [], 6), (80, [], [], 6)), "# signatures: 2 of 2 commits verified: 12 good, 0 bad, 0 not checkable; by verify_commits 1 (made up)\n", []),
    (judged((1, [4], [5], 2), (80, [5], [], 4)), "# signatures: 2 of 2 commits verified: 6 good, 2 bad, 1 not checkable; by verify_commits 1 (made up)\n", []),
    (judged((1, [4], [5], 2), (80, [0, 1, 2, 3, 4, 5], [], 0)), "# signatures: 1 of 1 commits verified: 2 good, 1 bad, 1 not checkable; by verify_commits 1 (made up)\n", []),
    (judged((80, [5], [], 5)), "# signatures: 1 of 2 commits verified: 5 good, 1 bad, 0 not checkable; by verify_commits 1 (made up)\n", []),
    (judged((80, [5], [], 5), lists=put("verdicts.commits[0].sha256", "00" * 32)), "# signatures: 0 of 2 commits verified: 0 good, 0 bad, 0 not checkable; by verify_commits 1 (made up)\n", []),
    (in_turn(judged((80, [5], [], 5)), edited(COMMIT_FILE, put("id", 7))), "# signatures: 0 of 2 commits verified: 0 good, 0 bad, 0 not checkable; by verify_commits 1 (made up)\n", []),
    (judged((1, [], [], 6), (80, [], [], 6), verifier="\n[[turn]]\n\x1b[1m\u202e\"" + "x" * 300),
     "# signatures: 2 of 2 commits verified: 12 good, 0 bad, 0 not checkable; by ?[[turn]]??[1m??" + "x" * 300, []),
    # verdicts count in their file alone
    (in_turn(judged((1, [], [], 6), (80, [], [], 6)), moved(VERDICTS, "hub-4/again.json", copy=True)),
     "# signatures: 2 of 2 commits verified: 12 good, 0 bad, 0 not checkable; by verify_commits 1 (made up)\n", [PASSED_OVER % ("hub-4", VERDICTS_ELSEWHERE)]),
    (in_turn(judged((1, [], [], 6), (80, [], [], 6)), moved(VERDICTS, "hub-4/again.json")), WARNING, [PASSED_OVER % ("hub-4", VERDICTS_ELSEWHERE)]),
    (in_turn(judged((1, [], [], 6), (80, [0, 1, 2, 3, 4, 5], [], 0)), moved(VERDICTS, "hub-4/commit-79.json")), WARNING, [PASSED_OVER % ("hub-4", VERDICTS_ELSEWHERE)]),
    (beside(CHAIN_QUERIES, "hub-4", wrap=in_result), WARNING, [PASSED_OVER % ("hub-4", ", ".join(f"1 of {name}" for name in CHAIN_QUERIES))]),
    (beside(CHAIN_QUERIES, "hub-4", copies=2), WARNING, [PASSED_OVER % ("hub-4", ", ".join(f"2 of {name}" for name in CHAIN_QUERIES))]),
    (beside(CLIENT_QUERIES, "hub-on-zone"), WARNING, [
        PASSED_OVER % ("hub-on-zone", "1 of consensus_states/ID/heights, 1 of consensus_states/ID/revision/R/height/H, 1 of client_status/ID")]),
]


def opening_cases(top):
    """Verdicts on signatures, and answers that aren't needed: the script, the line that it begins with, and the notices."""
    for number, (change, opening, lines) in enumerate(OPENINGS):
        folder, setup, text = top / f"opening-{number}", top / f"opening-{number}.toml", setups(2)[0]
        setup.write_text(text)
        answers.make(folder, 1, between=0)
        change(folder)
        # 200 characters of words stand behind the line's beginning
        first = (opening[:len("# signatures: ") + 200].rstrip("\n") + "\n").encode()
        case = import_case(f"opening {number}", [str(setup), str(folder)], text, folder, lines)
        case.output, case.reader = (first, case.output), lambda output: (output.splitlines(keepends=True)[0], values_of(output))
        yield case


def files_of(file, line):
    """The files that a refusal of a spoiled file names: of a header and its set both, of a record and a header both, of a page that isn't
    there none."""
    name = line.split()[0]
    if name in ("OtherSet", "OtherSigner", "SignatureCount"):
        return [COMMIT_FILE, PAGE_FILE]
    if name == "OtherRecord":
        return [f"{file} and ", f"hub-4/commit-{line.split()[-1]}.json: ", "if it stays, the client may have been given a forged header: ", "and submit its misbehaviour\n"]
    return [] if name == "MissingConsensusStates" else [file]


def changes():
    """The changes of a folder that make it refused: the line that tells them, the status, and the files that are named."""
    for file, fields in FIELDS.items():
        for path, told, bad, name in fields:
            yield edited(file, gone(path)), f"refused MissingField at {told or path}", 1, [file]
            yield edited(file, put(path, True)), f"refused WrongType at {told or path}", 1, [file]
            if name:
                yield edited(file, put(path, bad)), f"refused {name} at {told or path}", 1, [file]
    for file, fields in LEFT_OUT.items():
        for path, told, bad, name in fields:
            yield edited(file, put(path, True)), f"refused WrongType at {told or path}", 1, [file]
            if name:
                yield edited(file, put(path, bad)), f"refused {name} at {told or path}", 1, [file]
    for file, edit, line in DAMAGES:
        if line:
            yield edited(file, edit), f"refused {line}", 1, files_of(file, line)
    yield from CHANGES


SENDER = 'signer = "cosmos1qy352euf", fee_denom = "ibc/27394FB0", gas_price = [25, 1000]'

# the fault of a setup whose second chain has these keys, too
SENDER_FAULTS = [
    ("1002 MissingKey at chain[1].signer", 'gas_factor = [6, 5]'), ("1002 MissingKey at chain[1].signer", 'client_message = "header"'),
    ("1002 MissingKey at chain[1].fee_denom", 'signer = "a"'), ("1002 MissingKey at chain[1].gas_price", 'signer = "a", fee_denom = "u"'),
    ("1004 WrongType at chain[1].signer", SENDER.replace('"cosmos1qy352euf"', "1")), ("1007 BadIdentifier at chain[1].signer", SENDER.replace("cosmos1", "cosmos/")),
    ("1007 BadIdentifier at chain[1].signer", SENDER.replace("cosmos1qy352euf", "")), ("1007 BadIdentifier at chain[1].signer", SENDER.replace("cosmos1", "c" * 128)),
    ("1007 BadIdentifier at chain[1].signer", SENDER.replace("cosmos1", "cosm\\\"s")), ("1007 BadIdentifier at chain[1].fee_denom", SENDER.replace("ibc/", "ibc'")),
    ("1004 WrongType at chain[1].gas_price", SENDER.replace("[25, 1000]", "0.025")), ("1004 WrongType at chain[1].gas_price", SENDER.replace("[25, 1000]", "[25]")),
    ("1004 WrongType at chain[1].gas_price[1]", SENDER.replace("1000]", '"u"]')), ("1006 OutOfRange at chain[1].gas_price[0]", SENDER.replace("[25,", "[-1,")),
    ("1006 OutOfRange at chain[1].gas_price[1]", SENDER.replace("1000]", "0]")), ("1006 OutOfRange at chain[1].gas_factor[1]", SENDER + ", gas_factor = [1, -5]"),
    ("1004 WrongType at chain[1].client_message", SENDER + ", client_message = 6"), ("1013 BadKind at chain[1].client_message", SENDER + ', client_message = "Header"'),
    ("1003 UnknownKey at chain[1].gas", SENDER + ", gas = 1"),
]


def with_sender(text, keys):
    """A setup whose second chain says who sends transactions to it."""
    return swapped('{ id = "zone-1" }', f'{{ id = "zone-1", {keys} }}')(text)


def spoiled_cases(top):
    """Answers that are spoiled in one place, and such as look it; setups with a fault."""
    whole, setup, text = top / "whole", top / "setup.toml", setups(2)[1]
    answers.make(whole, 1, between=0)
    setup.write_text(text)
    for number, (change, line, status, named) in enumerate(changes()):
        folder = top / f"spoiled-{number}"
        shutil.copytree(whole, folder)
        change(folder)
        words = ["import", "--all-or-nothing", str(setup), str(folder)]
        yield Case(line, words, b"", b"", f"{line}\n".encode(), status, named=tuple(file.encode() for file in named))
    for file, edit, line in DAMAGES:
        if line is None:
            edited(file, edit)(whole)
    yield import_case("fields that aren't needed", [str(setup), str(whole)], text, whole)
    for fault, keys in SENDER_FAULTS:
        yield Case(fault, ["import", "-", str(whole)], with_sender(text, keys).encode(), b"", f"fault {fault}\n".encode(), 1)
    for number, keys in enumerate((SENDER, f'{SENDER}, gas_factor = [13, 10], client_message = "header"')):
        sender = top / f"sender-{number}.toml"
        sender.write_text(with_sender(text, keys))
        yield import_case("a sender", [str(sender), str(whole)], sender.read_text(), whole)
    for fault, script in ((b"fault 1002 MissingKey at turn\n", HEAD + ONE), (b"fault 1003 UnknownKey at client[0].colour\n", HEAD + ONE + "colour = 1\n" + TURN % 20),
                          (b"fault 1003 UnknownKey at turn[0].event\n", HEAD + ONE + TURN % 20 + "event = []\n"),
                          (b"fault 1002 MissingKey at path[0].channel\n", swapped(PATH_GAS, PATH_GAS + 'port = "transfer"\n')(text)),
                          (b"fault 1007 BadIdentifier at path[0].channel\n", swapped(PATH_GAS, PATH_GAS + 'port = "transfer"\nchannel = "channel/0"\n')(text)),
                          (b"fault 1007 BadIdentifier at path[0].port\n", swapped(PATH_GAS, PATH_GAS + f'port = "{"a" * 129}"\nchannel = "channel-0"\n')(text)),
                          (b"fault 1002 MissingKey at path[0].port\n", swapped(PATH_GAS, PATH_GAS + COUNTERPARTY)(text)),
                          (b"fault 1002 MissingKey at path[0].counterparty_port\n", swapped(PATH_GAS, PATH_GAS + SOURCE + 'counterparty_channel = "channel-7"\n')(text)),
                          (b"fault 1002 MissingKey at path[0].counterparty_channel\n", swapped(PATH_GAS, PATH_GAS + SOURCE + 'counterparty_port = "transfer"\n')(text))):
        yield Case(fault.decode(), ["import", "-", str(whole)], script.encode(), b"", fault, 1)


def without_envelope(answer):
    return answer.get("result", answer)


def bare(folder):
    """Answers of a chain without JSON-RPC's envelope."""
    for file in (folder / "hub-4").glob("*.json"):
        file.write_text(json.dumps(without_envelope(json.loads(file.read_text()))))


def in_camel_case(folder):
    """A client's answers as protojson writes them, which leaves out what is empty or 0, and writes bytes in base64."""
    def camel(value, key=""):
        if isinstance(value, dict):
            return {re.sub("_(.)", lambda found: found[1].upper(), k): camel(v, k) for k, v in value.items() if v not in (None, "", "0")}
        if isinstance(value, list):
            return [camel(v) for v in value]
        return answers.base64.b64encode(bytes.fromhex(value)).decode() if key == "next_validators_hash" else value
    for file in (folder / "hub-on-zone").glob("*.json"):
        file.write_text(json.dumps(camel(json.loads(file.read_text()))))


def rooted(root, commit=True):
    """The change that gives the header of height 80 and its record this root."""
    changes = [edited(STORED_FILE, put("consensus_states[1].consensus_state.root.hash", answers.base64.b64encode(root).decode()))]
    if commit:
        changes.append(edited(COMMIT_FILE, hashed(put(f"{HEADER}.app_hash", root.hex()))))
    return in_turn(*changes)


# changes of the folder after which the script is the same, since nodes answer so, too
TAKEN = [
    bare, in_camel_case, in_turn(bare, in_camel_case),
    # ibc-go's first page has one consensus state more than it is asked for, which the next page has, too; a page may be empty
    paged([0], [1]), paged([0, 1], [1]), paged([0], [0, 1]), paged([0, 1], [1], []), paged([0, 1], [1, 0], [0, 0, 1]),
    edited(STORED_FILE, put("pagination.next_key", "")), edited(STORED_FILE, put("pagination", {})), edited(STORED_FILE, gone("pagination")),
    edited(STATE_FILE, put(f"{STATE}.frozen_height", {})), edited(STATE_FILE, gone(f"{STATE}.frozen_height")),
    edited(COMMIT_FILE, gone(f"{COMMIT}.round")), edited(COMMIT_FILE, gone(f"{COMMIT}.block_id.parts.total")),
    edited(COMMIT_FILE, hashed(put(f"{HEADER}.version.app", "7"))), edited(COMMIT_FILE, hashed(gone(f"{HEADER}.version.block"))),
    edited(COMMIT_FILE, hashed(put(f"{HEADER}.last_block_id", {"hash": "", "parts": {"total": 0, "hash": ""}}))),
    *(edited(COMMIT_FILE, hashed(edit)) for name in HASHES if name != "app_hash" for edit in (put(f"{HEADER}.{name}", ""), put(f"{HEADER}.{name}", "0b" * 64), gone(f"{HEADER}.{name}"))),
]
# changes after which a root is another: that of an upgraded client's record where there is no header, and those of headers
ROOTS = [
    in_turn(removed(COMMIT_FILE), rooted(b"sentinel_root", commit=False)), rooted(b"sentinel_root"), rooted(bytes(1)), rooted(bytes(31)), rooted(bytes(33)), rooted(bytes(64)),
    in_turn(edited(STORED_FILE, gone("consensus_states[1]")), edited(STATE_FILE, put(f"{STATE}.latest_height.revision_height", "1")),
            edited(COMMIT_FILE, hashed(put(f"{HEADER}.app_hash", "")))),
]


def taken_cases(top):
    """Answers in other shapes of nodes' answers."""
    setup, text = top / "taken.toml", setups(2)[0]
    setup.write_text(text)
    for number, change in enumerate(TAKEN + ROOTS):
        folder = top / f"taken-{number}"
        answers.make(folder, 1, between=0)
        case = import_case(f"taken answers {number}", [str(setup), str(folder)], text, folder)
        change(folder)
        yield import_case(case.what, case.words[1:], text, folder) if change in ROOTS else case


def import_cases(top, seeds):
    """The runs of `import`; the files that they read are written below a folder."""
    for seed in range(1, seeds + 1):
        yield from seed_cases(top, seed)
    yield from example_cases()
    yield from ordered_cases(top)
    yield from notice_cases(top)
    yield from busy_cases(top)
    yield from spoiled_cases(top)
    yield from taken_cases(top)
    yield from opening_cases(top)


def chain_cases(top, program):
    """`import` and `plan` in a row by a shell; at last over what the relayer's `fetch` got of made-up nodes, also of one without JSON-RPC's envelope."""
    words = " ".join(map(shlex.quote, program))
    folders = [(top / f"seed-{seed}", top / f"setup-{seed}-0.toml", []) for seed in range(1, 21)]
    folders += [(top / "fetched", top / "setup-4-0.toml", []), (top / "busy-1500", top / "busy-1500.toml", [TOO_MANY_SETS % (482, 0)])]
    folders.append((top / "fetched-bare", top / "setup-4-0.toml", []))
    for name, shape in ("fetched-bare", without_envelope), ("fetched", lambda answer: answer):
        with answers.serve(random.Random(7), shape) as (rpc, rest):
            fetch = fetching(top / f"{name}.toml", program[0], {"hub-4": (rpc, None), "zone-1": (None, rest)})
            subprocess.run([*fetch, top / "setup-4-0.toml", top / name], check=True, capture_output=True)
    for folder, setup, lines in folders:
        enveloped = top / "fetched" if folder.name == "fetched-bare" else folder
        toml = answers.in_toml(answers.script_of(setup.read_text(), enveloped))
        report = reference.report(reference.read_script(toml)).encode()
        line = f'{words} import "$0" "$1" | {words} plan -'
        told = told_by(setup.read_text(), enveloped, lines)
        yield ToldCase(f"import and plan of {folder.name}", ["sh", "-c", line, str(setup), str(folder)], b"", report, b"".join(told[:1]), 0, told=told)
