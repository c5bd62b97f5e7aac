"""Setups for the answers of lib/answers.py, and runs of `import` over them: the script and the notices of a plain reading."""
import tomllib

from lib import answers
from lib.answer_edits import swapped
from lib.notices import MISSING_SETS, UNVERIFIED_COMMITS, UNSIGNED_HEADERS, NOT_VERIFIED
from lib.program import ToldCase

HEAD = 'version = 1\nchain = [{ id = "hub-4" }, { id = "zone-1" }]\n'
CLIENT = '[[client]]\nid = "%s"\nhost = "%s"\nof = "%s"\nfee = [100, 1, 1]\ngas = [100, 1, 1]\nlimits = [100000, 100, 0]\n'
ONE = CLIENT % ("hub-on-zone", "zone-1", "hub-4")
PATH = ('[[path]]\nid = "transfers"\nsource = "hub-4"\ndest = "zone-1"\norder = "unordered"\nforward = "hub-on-zone"\n'
        'back = "zone-on-hub"\ngas = [5, 5, 5]\n')
SOURCE = 'port = "transfer"\nchannel = "channel-0"\n'
COUNTERPARTY = 'counterparty_port = "transfer"\ncounterparty_channel = "channel-7"\n'
ENDS = SOURCE + COUNTERPARTY
TURN = '[[turn]]\nfrom = "2026-11-01T12:09:%02dZ"\nuntil = "2026-11-01T12:09:30Z"\ngoal = [{ client = "hub-on-zone", at_least = 80 }]\n'
GIVEN = ["", "period_ns = 800000000000000\n", "drift_ns = 7\ntrust = [2, 3]\n", "period_ns = 900000000000000\ndrift_ns = 7\ntrust = [1, 2]\n"]
# a line of the client in the setups of seed 2, and when their last turn begins
SETTING, FROM = "drift_ns = 7\n", "12:09:20Z"
PATH_GAS = "gas = [5, 5, 5]\n"
NAMED, BOTH_NAMED, MISNAMED = (swapped(PATH_GAS, PATH_GAS + ends) for ends in (SOURCE, ENDS, SOURCE.replace("channel-0", "channel-9")))
CHAIN_QUERIES = {"/status": {"node_info": {}, "sync_info": {"latest_block_height": "81"}}, "/block_results": {"height": "80", "txs_results": None},
                 "/blockchain": {"last_height": "80", "block_metas": []}, "/block": {"block_id": {}, "block": {"header": {}}}, "/header": {"header": {}},
                 "/tx": {"hash": "00", "height": "7", "tx_result": {"code": 0}}}


def setups(seed):
    """The setup of one client, which is planned, and one of two clients, a path and two turns."""
    one = HEAD + ONE + GIVEN[seed % 4] + TURN % 20
    two = CLIENT % ("zone-on-hub", "hub-4", "zone-1") + "refresh_ns = 5_000_000_000_000\n"
    path = PATH + (ENDS if seed % 4 == 1 else SOURCE if seed % 2 else "") + ("first = 2\n" if seed % 3 == 0 else "")
    path += "wait_ns = [600_000_000_000, 0, 9223372036854775807]\n" if seed % 5 == 2 else ""
    turns = TURN % 10 + 'settle = [{ client = "hub-on-zone", batch = 1, done = 2 }]\n' + TURN % 20
    return one, HEAD + ONE + two + path + turns


def told_by(text, folder, lines=(), verified=False):
    """All lines of notices: these, and those that a plain reading makes: of chains with headers that are left out, and of chains without verdicts."""
    setup = tomllib.loads(text)
    tracked = {client["of"] for client in setup["client"]}
    chains = {chain["id"]: answers.Told(folder / chain["id"], verified) for chain in setup["chain"] if chain["id"] in tracked}
    before = [line for line in lines if line.startswith("notice MissingHeaders ")]
    before += [MISSING_SETS % (name, told.bare[-1], len(told.bare), told.bare[-1], name) for name, told in chains.items() if told.bare]
    before += [UNSIGNED_HEADERS % (name, told.unsigned[-1], len(told.unsigned), told.unsigned[-1]) for name, told in chains.items() if told.unsigned]
    unjudged = {name: len(told.headers.keys() - told.verdicts.keys()) for name, told in chains.items() if (folder / name / "verdicts.json").exists()}
    after = [NOT_VERIFIED % (name, count) for name, count in unjudged.items() if count]
    after += [UNVERIFIED_COMMITS % name for name, told in chains.items() if told.headers and name not in unjudged]
    passed = [line for line in lines if line.startswith("notice PassedOver ")]
    rest = [line for line in lines if line not in before + passed]
    return tuple(line.replace("{folder}", str(folder)).encode() for line in before + rest + after + passed)


def import_case(what, words, text, folder, lines=(), **more):
    """A run of `import` that writes the script of the plain reading and tells these notices, and those that the plain reading makes, and nothing else."""
    verified = "--verified" in words
    told = told_by(text, folder, lines, verified)
    return ToldCase(what, ["import", *words], b"", answers.script_of(text, folder, verified), b"".join(told[:1]), 0, reader=values_of, told=told, **more)


def values_of(output):
    """The values of a script that was written."""
    return answers.with_numbers(tomllib.loads(output.decode()))


def in_result(answer):
    return {"jsonrpc": "2.0", "id": -1, "result": answer}
