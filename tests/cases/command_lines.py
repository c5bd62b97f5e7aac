"""Command lines that are wrong, files and outputs that fail, what is told a person then, and the program as a shell runs it."""
import pathlib

from lib.importing import setups
from lib.json_reading import read_json
from lib.outputs import json_of
from lib.program import CERTIFICATES, EXAMPLES, ROWS, Case


def command_line_cases():
    """Command lines that are wrong, and files and outputs that fail."""
    smallest, folder = str(EXAMPLES / "smallest.toml"), str(EXAMPLES)
    for what, words, given, error, status in (
        ("no command", [], b"", b"Plans the cheapest light-client updates of an IBC relayer\n", 2),
        ("no script", ["plan"], b"", b"error: the following required arguments were not provided:\n", 2),
        ("an unknown command", ["plans"], b"", b"error: unrecognized subcommand 'plans'\n", 2),
        ("an unknown option", ["plan", "--fast", "-"], b"", b"error: unexpected argument '--fast' found\n", 2),
        ("two scripts", ["plan", "-", "-"], b"", b"fault 1002 MissingKey at version\n", 1),
        ("three scripts", ["plan", "-", "-", "-"], b"", b"error: unexpected argument '-' found\n", 2),
        ("four files", ["certify", "-", "-", "-", "-"], b"", b"error: unexpected argument '-' found\n", 2),
        ("no thread", ["run", "--workers", "0", "-"], b"", b"error: invalid value '0' for '--workers <K>': 0 is not in 1..=64\n", 2),
        ("65 threads", ["run", "--workers=65", "-"], b"", b"error: invalid value '65' for '--workers <K>': 65 is not in 1..=64\n", 2),
        ("threads that are no number", ["run", "--workers", "two", "-"], b"", b"error: invalid value 'two' for '--workers <K>': invalid digit found in string\n", 2),
        ("strict commands", ["commands", "--strict", "-"], b"", b"error: unexpected argument '--strict' found\n", 2),
        ("a turn of plan", ["plan", "--turn", "1", "-"], b"", b"error: unexpected argument '--turn' found\n", 2),
        ("threads of plan", ["plan", "--workers", "2", "-"], b"", b"error: unexpected argument '--workers' found\n", 2),
        ("standard input twice", ["certify", "-", "-"], b"", b"error: only one of <SCRIPT> and <CERT> can be standard input\n", 2),
        ("a setup and a certificate on standard input", ["certify", "-", folder, "-"], b"", b"error: only one of <SCRIPT> and <CERT> can be standard input\n", 2),
        ("verified votes of a script", ["plan", "--verified", smallest], b"", b"error: the following required arguments were not provided:\n", 2),
        ("verified votes of a script that is judged", ["certify", "--verified", smallest, "-"], b"", b"error: the following required arguments were not provided:\n", 2),
        ("all answers of a script", ["health", "--all-or-nothing", smallest], b"", b"error: the following required arguments were not provided:\n", 2),
        ("no certificate", ["certify", smallest], b"", b"error: the following required arguments were not provided:\n", 2),
        ("no certificate behind a script", ["certify", "-"], (EXAMPLES / "smallest.toml").read_bytes(), b"fault 1002 MissingKey at version\n", 1),
        ("three texts", ["certify", "-"], (EXAMPLES / "smallest.toml").read_bytes() + b"---\n---\n---\n", b"fault 1001 NotToml at -\n", 1),
        ("a path that is no UTF-8", ["plan", b"\xff"], b"", b"error: the command line isn't UTF-8\n", 2),
        ("a missing file", ["plan", "no/such/file"], b"", b"device\n", 4),
        ("a missing certificate", ["certify", smallest, "no/such/file"], b"", b"device\n", 4),
        ("a folder", ["plan", folder], b"", b"device\n", 4),
        ("no UTF-8", ["plan", "-"], b"version = 1\n# \xff\n", b"fault 1001 NotToml at -\n", 1),
    ):
        yield Case(what, words, given, b"", error, status)
    lost, counted = EXAMPLES / "lost_client.toml", b"refused events: 3; their lines in the report begin with 'refused event'\n"
    for script, error, status in (lost, counted, 6), (pathlib.Path(smallest), b"", 0):
        report = script.with_suffix(".report").read_bytes()
        yield Case(f"{script.name}, watched", ["plan", str(script)], b"", report, error, 0, is_watched=True)
        yield Case(f"{script.name}, strict and watched", ["run", "--strict", str(script)], b"", report, error, status, is_watched=True)
    yield Case("one refused event, watched", ["plan", str(ROWS / "bad_vote")], b"", (ROWS / "bad_vote.stdout").read_bytes(), counted.replace(b"3", b"1"), 0, is_watched=True)
    yield from message_cases()
    yield from setup_cases()
    setup, answers, certificate = str(EXAMPLES / "import" / "setup.toml"), str(EXAMPLES / "import" / "answers"), str(EXAMPLES / "smallest.certificate")
    quiet = b'[[turn]]\nfrom = "1970-01-01T00:00:00Z"\nuntil = "1970-01-01T00:00:00Z"\n'
    yield Case("a long report on a full device", ["plan", "-"], (ROWS / "one_step").read_bytes() + quiet * 499, b"", b"device\n", 4, pathlib.Path("/dev/full"), named=(b"\nstandard output: No space left on device ",))
    set_up = (ROWS / "one_step").read_bytes().partition(b"[[turn]]")[0]
    idle = b"".join(b"turn %d\nclient c0 idle\n" % turn for turn in range(1, 131))
    report = b"ibcplan 1\n" + idle + b"end\n"
    lines = b"".join(b"# turn %d: valid from 1970-01-01T00:00:00Z until 1970-01-01T00:00:00Z\n# turn %d client c0: idle\n" % (turn, turn) for turn in range(1, 131))
    for words, output, reader in (["plan", "-"], report, None), (["run", "-"], report, None), (["commands", "-"], lines, None), (["plan", "--json", "-"], json_of((set_up + quiet * 130).decode(), report.decode()), read_json):
        yield Case(f"130 turns, {words}, watched", words, set_up + quiet * 130, output, b"plans so far: 64\n", 0, reader=reader, named=(b"plans so far: 128\n",), is_watched=True)
    for words in (["plan", smallest], ["plan", "--strict", str(lost)], ["plan", "--json", "--strict", str(lost)], ["run", "--workers", "2", smallest], ["plan", "--json", smallest], ["commands", smallest], ["explain", smallest], ["explain", "--json", smallest], ["picture", smallest],
                  ["import", setup, answers], ["certify", smallest, certificate], ["certify", str(ROWS / "cheap_detour"), str(CERTIFICATES / "fewer_updates")], ["--help"]):
        yield Case(f"{words} on a full device", words, b"", b"", b"device\n", 4, pathlib.Path("/dev/full"), named=(b"\nstandard output: No space left on device ",))


def setup_cases():
    """Setups without a folder, and scripts with one, of each command; the script stays a script where it could be a setup, too."""
    folder = EXAMPLES / "import"
    setup, answers, script, certificate = (str(file) for file in (folder / "setup.toml", folder / "answers", EXAMPLES / "smallest.toml", EXAMPLES / "smallest.certificate"))
    lone, other = "it is a setup: give the folder of the answers of nodes behind it, or the script that import makes of both", "it is a script, which has its events: leave the folder out"
    for words in ["plan"], ["plan", "--json"], ["run"], ["explain"], ["picture"], ["health"], ["commands"], ["certify"]:
        behind = [certificate] if words == ["certify"] else []
        yield Case(f"{words} of a setup alone", [*words, setup, *behind], b"", b"", f"error: invalid value '{setup}' for '<SCRIPT>': {lone}\n".encode(), 2)
        yield Case(f"{words} of a script and a folder", [*words, script, answers, *behind], b"", b"", f"error: invalid value '{script}' for '<SCRIPT>': {other}\n".encode(), 2)
    yield Case("messages of a setup that isn't one", ["messages", "-", answers, "no"], setups(2)[1].replace("[[client]]", "[[client]]\ncolour = 1", 1).encode(), b"", b"fault 1003 UnknownKey at client[0].colour\n", 1)
    plain = b"version = 1\n"
    yield Case("a script of version 1 without events", ["plan", "-"], plain, b"ibcplan 1\nend\n", b"", 0)
    yield Case("the same as a setup", ["plan", "-", answers], plain, b"", b"fault 1002 MissingKey at turn\n", 1)


def message_cases():
    """What stands on standard error after the first line, for a person."""
    smallest, setup, refused = str(EXAMPLES / "smallest.toml"), str(EXAMPLES / "import" / "setup.toml"), str(ROWS / "no_value")
    setup_text = setups(2)[1].encode()
    for what, words, given, error, status, named in (
        ("no name", ["plan", ""], b"", b"device\n", 4, b"'' (an empty name): "),
        ("no name of a setup", ["import", "", str(EXAMPLES)], b"", b"device\n", 4, b"'' (an empty name): "),
        ("a name with control characters", ["plan", "no\nsuch\x1b[1m\x7f\u0085"], b"", b"device\n", 4, rb"no\u{a}such\u{1b}[1m\u{7f}\u{85}: "),
        ("a name that turns the direction of a text", ["plan", "no\u202esuch\u2066"], b"", b"device\n", 4, rb"no\u{202e}such\u{2066}: "),
        ("a folder with control characters", ["import", setup, "no\nsuch"], b"", b"device\n", 4, rb"no\u{a}such/"),
        ("a word with control characters", ["plan", "--no\x1b[1m\u202esuch", smallest], b"", b"error: unexpected argument '--no\\u{1b}[1m\\u{202e}such' found\n", 2, b"\nUsage: "),
        ("a long key", ["plan", "-"], b"k" * 1_000_000 + b" = 1", b"fault 1003 UnknownKey at <1000000 bytes>\n", 1, b"standard input: there is no such key"),
        ("an empty key", ["plan", "-"], b'"" = 1\n', b'fault 1003 UnknownKey at ""\n', 1, b"standard input: there is no such key here; a script has "),
        ("an empty key of a chain", ["plan", "-"], b'version = 1\nchain = [{ "" = 1 }]\n', b'fault 1003 UnknownKey at chain[0].""\n', 1, b"standard input: a chain has id and, from version 2 on, defaults; "),
        ("an empty key of a certificate", ["certify", smallest, "-"], b'"" = 1\n', b'fault 1003 UnknownKey at ""\n', 1, b" a certificate version, turn, client, answer, updates and labels; "),
        ("an empty key of a setup", ["import", "-", "no"], b'"" = 1\n', b'fault 1003 UnknownKey at ""\n', 1, b"standard input: there is no such key here; a setup has version, chain, client, path and turn; goal and settle belong "),
        ("a setup's chain", ["want", "-", "no"], setup_text.replace(b'id = "zone-1"', b'id = "zone-1", name = 1'), b"fault 1003 UnknownKey at chain[1].name\n", 1, b"standard input: a chain of a setup has id and, for transactions, signer, fee_denom, "),
        ("a setup's client", ["import", "-", "no"], setup_text.replace(b"[[client]]", b"[[client]]\nchain = 1"), b"fault 1003 UnknownKey at client[0].chain\n", 1, b"standard input: a client has id, host, of, "),
        ("a setup's path", ["import", "-", "no"], setup_text.replace(b"[[path]]", b"[[path]]\nport_id = 1"), b"fault 1003 UnknownKey at path[0].port_id\n", 1, b"standard input: a path of a setup has id, source, dest, order, first, forward, back, gas, wait_ns, port, channel, "),
        ("a setup's turn", ["import", "-", "no"], setup_text.replace(b"[[turn]]", b"[[turn]]\nevent = []"), b"fault 1003 UnknownKey at turn[0].event\n", 1, b"standard input: a turn of a setup has from, until, goal and settle; "),
        ("a key after [[chain]]", ["plan", "-"], b"version = 1\n[[chain]]\nid = 'a'\nturns = 1\n", b"fault 1003 UnknownKey at chain[0].turns\n", 1, b"a key that stands after [[chain]]"),
        ("a client's keys", ["plan", "-"], b"version = 1\n[[client]]\nname = 'a'\n", b"fault 1003 UnknownKey at client[0].name\n", 1, b"a client has id, host, of, "),
        ("a time without quotes", ["plan", "-"], b"version = 1\n[[turn]]\nfrom = 2026-11-22T10:00:00Z\n", b"fault 1004 WrongType at turn[0].from\n", 1, b"a time in quotes belongs here, as '2026-11-22T10:00:00Z'; what stands there is a date-time without quotes ("),
        ("a version in quotes", ["plan", "-"], b"version = '1'\n", b"fault 1004 WrongType at version\n", 1, b"a whole number without quotes belongs here, above the first [[..]]: TOML puts a key that stands after [[chain]] into that chain; what stands there is a text in quotes ("),
        ("nothing", ["plan", "-"], b" \n", b"fault 1002 MissingKey at version\n", 1, b"standard input: there is nothing in it; did the command fail"),
        ("no version", ["plan", "-"], b"# no version\n", b"fault 1002 MissingKey at version\n", 1, b"standard input: this key is missing; a whole number without quotes belongs here, above the first [[..]]: TOML puts a key that stands after [[chain]] into that chain ("),
        ("a period in words", ["plan", "-"], b"version = 2\n[[chain]]\nid = 'a'\n[chain.defaults]\nperiod_ns = '14days'\n", b"fault 1004 WrongType at chain[0].defaults.period_ns\n", 1, b"a whole number of nanoseconds without quotes belongs here, as 1_209_600_000_000_000 (two weeks); what stands there is a text in quotes ("),
        ("a goal above the turns", ["plan", "-"], b"version = 1\n[[goal]]\nclient = 'c'\n", b"fault 1003 UnknownKey at goal\n", 1, b"goal, event and settle belong into a turn, as [[turn.goal]] ("),
        ("a table with one bracket, twice", ["plan", "-"], b"version = 1\n[chain]\nid = 'a'\n[chain]\nid = 'b'\n", b"fault 1001 NotToml at -\n", 1, b"has two brackets, as [[chain]] or [[turn.event]]."),
        ("no host", ["plan", "-"], b"version = 1\n[[client]]\nid = 'c'\n", b"fault 1002 MissingKey at client[0].host\n", 1, b"standard input: this key is missing; a text in quotes belongs here ("),
        ("no period", ["plan", "-"], b"version = 1\n[[chain]]\nid = 'a'\n[[chain]]\nid = 'b'\n[[client]]\nid = 'c'\nhost = 'a'\nof = 'b'\n", b"fault 1002 MissingKey at client[0].period_ns\n", 1, b"in [chain.defaults] of the chain that the client follows; only a setup"),
        ("no kind", ["plan", "-"], b"version = 1\n[[turn]]\nfrom = '2025-03-01T12:00:00Z'\nuntil = '2025-03-01T12:00:00Z'\nevent = [{}]\n", b"fault 1002 MissingKey at turn[0].event[0].kind\n", 1, b"an event's kind is 'set', 'header', "),
        ("fees of two", ["plan", "-"], b"version = 2\n[[chain]]\nid = 'a'\n[chain.defaults]\nfee = [1, 2]\n", b"fault 1004 WrongType at chain[0].defaults.fee\n", 1, b"three numbers belong here, as [100, 1, 1]: of an update, of each commit vote, of each validator of the two sets ("),
        ("a fee that is a float", ["plan", "-"], b"version = 2\n[[chain]]\nid = 'a'\ndefaults = { fee = [1, 2.5, 3] }\n", b"fault 1004 WrongType at chain[0].defaults.fee[1]\n", 1, b"a whole number belongs here, so take a smaller unit where it has decimals; what stands there is a float ("),
        ("`taken` as a number", ["plan", "-"], b"version = 3\n[[turn]]\nfrom = '2025-03-01T12:00:00Z'\nuntil = '2025-03-01T12:00:00Z'\ntaken = 1\n", b"fault 1004 WrongType at turn[0].taken\n", 1, b"true or false belongs here, without quotes; what stands there is a whole number ("),
        ("`taken` in version 2", ["plan", "-"], b"version = 2\n[[turn]]\nfrom = '2025-03-01T12:00:00Z'\nuntil = '2025-03-01T12:00:00Z'\ntaken = true\n", b"fault 1003 UnknownKey at turn[0].taken\n", 1, b"a turn has from, until, goal, event, settle and, from version 3 on, taken ("),
        ("a wait for two kinds", ["plan", "-"], (ROWS / "waits_to_the_nanosecond").read_bytes().replace(b"[60000000000, 0, 0]", b"[60000000000, 0]"), b"fault 1004 WrongType at path[0].wait_ns\n", 1, b"how long a receive, an acknowledgement and a timeout may wait ("),
        ("a wait below 0", ["plan", "-"], (ROWS / "waits_to_the_nanosecond").read_bytes().replace(b"[60000000000, 0, 0]", b"[60000000000, -1, 0]"), b"fault 1006 OutOfRange at path[0].wait_ns[1]\n", 1, b"a wait is from 0 to 2^63 - 1 nanoseconds ("),
        ("a key that is a number", ["plan", "-"], b"version = 1\nchain = [{ id = 'a' }]\n[[turn]]\nfrom = '2025-03-01T12:00:00Z'\nuntil = '2025-03-01T12:00:00Z'\nevent = [{ kind = 'set', chain = 'a', name = 's', validators = [[1, 2]] }]\n", b"fault 1004 WrongType at turn[0].event[0].validators[0][0]\n", 1, b"and a power without belong here ("),
        ("a certificate whose update is a table", ["certify", smallest, "-"], b"version = 1\nturn = 1\nclient = 'c'\nanswer = 'plan'\nupdates = [{}]\n", b"fault 1004 WrongType at updates[0]\n", 1, b"what stands there is a table ("),
        ("no TOML", ["plan", "-"], b"version = 1\n[[chain]\n", b"fault 1001 NotToml at -\n", 1, b"standard input: TOML parse error at line 2, column "),
        ("a setup that is no TOML", ["import", "-", "no"], b"version", b"fault 1001 NotToml at -\n", 1, b"standard input: TOML parse error at line 1, column "),
        ("a script that is no TOML", ["certify", refused, "-"], b"version", b"fault 1001 NotToml at -\n", 1, f"{refused}: TOML parse error at line ".encode()),
        ("a certificate that is no TOML", ["certify", smallest, "-"], b"version", b"fault 1001 NotToml at -\n", 1, b"standard input: TOML parse error at line 1, "),
        ("a script with another version", ["certify", str(ROWS / "version_9"), "-"], b"version = 9", b"fault 1005 BadVersion at version\n", 1, b"version_9: the version of a script, and of the setup of follow, is from 1 to 4, of a setup of import and of a certificate 1 ("),
        ("a certificate with another version", ["certify", smallest, "-"], b"version = 9", b"fault 1005 BadVersion at version\n", 1, b"standard input: "),
    ):
        yield Case(what, words, given, b"", error, status, named=(named,))


def shell_cases(program):
    """The program as a shell runs it: with little memory, and with closed streams."""
    hostile = b"".join(b"[b%d.%sc]\n" % (number, b"a." * 76) for number in range(10_000))
    for what, line, given, error, status, named in (
        ("tables in little memory", 'ulimit -v 500000; exec "$@"', hostile, b"no memory\n", 4, (b"ulimit -v",)),
        ("tables", 'exec "$@"', hostile, b"fault 1003 UnknownKey at b0\n", 1, (b"standard input: ",)),
        ("closed standard input", 'exec "$@" <&-', b"", b"device\n", 4, (b"standard input: ", b"redirect a file")),
        ("a folder as standard input", 'exec "$@" </', b"", b"device\n", 4, (b"standard input: ", b"redirect a file")),
    ):
        yield Case(what, ["sh", "-c", line, "sh", *program, "plan", "-"], given, b"", error, status, named=named)
    for size, votes in (150, 76), (10_000, 5_032):
        script, report = turned_powers(size, votes)
        yield Case(f"a plan over {size} validators in 256 KB of stack", ["sh", "-c", 'ulimit -s 256; exec "$@"', "sh", *program, "plan", "-"], script.encode(), report.encode(), b"", 0)


def turned_powers(size, votes):
    """A script with a step between two sets of the same validators, the strongest of one the weakest of the other, for a client that sends the needed votes, which
    are so many; and its report."""
    sets = (", ".join(f'["{number:064x}", {power}]' for number, power in enumerate(powers)) for powers in (range(1, size + 1), range(size, 0, -1)))
    old, new = (f'{{ kind = "set", chain = "a", name = "{name}", validators = [{members}] }}' for name, members in zip(("old", "new"), sets))
    fee = 100 + votes + 2 * size
    report = f"""ibcplan 3
turn 1
client c goal at_least 5
label 1 0 0
label 5 {fee} 1
update 5 from 1 fee {fee} votes {votes} of {size}
total {fee} updates 1
batch 1 proof 5
tx 1 first 0 count 1 gas {fee}
end
"""
    script = f"""version = 3
chain = [{{ id = "a" }}, {{ id = "b" }}]
client = [{{ id = "c", host = "b", of = "a", period_ns = 1_000_000_000_000, drift_ns = 0, fee = [100, 1, 1], gas = [100, 1, 1], limits = [1_000_000, 100, 0], votes = "needed" }}]
[[turn]]
from = "1970-01-01T00:00:10Z"
until = "1970-01-01T00:00:20Z"
goal = [{{ client = "c", at_least = 5 }}]
event = [
{old},
{new},
{{ kind = "stored", client = "c", height = 1, time = "1970-01-01T00:00:01Z", next = "old" }},
{{ kind = "header", chain = "a", height = 5, time = "1970-01-01T00:00:05Z", set = "new", next = "new", votes = "{"C" * size}" }},
]
"""
    return script, report
