"""Runs of `import` over setups whose turns give hosts windows of their own, for tests/run.

The script has each window in its turn, `plan` of it is what the reference planner says, and a notice on a client goes by the window of its host.
A window that a script can't have is a fault of the setup. Where a client is left out, the windows stay."""
import shutil

from lib import answers
from lib.answer_edits import swapped
from lib.importing import CLIENT, FROM, HEAD, ONE, SETTING, TURN, import_case, setups, values_of
from lib.judges import reference
from lib.notices import FUTURE_HEADERS, NOTHING_FRESH, NOTHING_TRUSTED
from lib.program import Case

ALL_EXPIRED = NOTHING_TRUSTED % "all 2 stored consensus states have expired at the window's end"
TWO = CLIENT % ("zone-on-hub", "hub-4", "zone-1")


def window(host, begin, end):
    return f'{{ host = "{host}", from = "2026-11-01T{begin}", until = "2026-11-01T{end}" }}'


def with_windows(turn, *given):
    """A turn that gives hosts windows."""
    before, _, after = turn.partition("goal")
    return f"{before}window = [{', '.join(given)}]\ngoal{after}"


def given(*windows):
    """The change of a setup of one turn: it gives hosts windows."""
    def mend(text):
        before, _, after = text.partition("[[turn]]")
        return before + with_windows("[[turn]]" + after, *windows)
    return mend


def later(begin):
    return swapped(FROM, begin)


def set_to(words):
    return swapped(SETTING, SETTING + words)


# the changes of a setup of one client on zone-1, whose window is from 12:09:20 until 12:09:30, and the notices. Header 80 and record 80 are of
# 12:08:32.803238123, the clock drift is 7 ns; record 80 is trusted until 12:09:30 and a nanosecond where the period is 57_196_761_878 ns
NOTICES = [
    ([given(window("zone-1", "12:08:32Z", "12:09:30Z"))], [FUTURE_HEADERS % (80, 1)]),
    ([later("12:08:32Z"), given(window("zone-1", "12:08:33Z", "12:09:30Z"))], []),
    ([later("12:08:32Z"), given(window("hub-4", "12:08:33Z", "12:09:30Z"))], [FUTURE_HEADERS % (80, 1)]),
    ([given(window("hub-4", "12:00:01Z", "12:09:30Z"), window("zone-1", "12:08:33Z", "12:09:30Z"))], []),
    ([set_to("period_ns = 57_196_761_878\n"), given(window("zone-1", "12:09:20Z", "12:09:30.000000001Z"))], [ALL_EXPIRED, NOTHING_FRESH]),
    ([set_to("period_ns = 57_196_761_877\n"), given(window("zone-1", "12:09:20Z", "12:09:29.999999999Z"))], [NOTHING_FRESH]),
    ([set_to("period_ns = 57_196_761_877\n"), given(window("hub-4", "12:09:20Z", "12:09:29.999999999Z"))], [ALL_EXPIRED, NOTHING_FRESH]),
    ([set_to("refresh_ns = 58_000_000_000\n"), given(window("zone-1", "12:09:20Z", "12:09:31Z"))], [NOTHING_FRESH]),
    ([set_to("refresh_ns = 57_000_000_000\n"), given(window("zone-1", "12:09:20Z", "12:09:29Z"))], []),
]
# the windows that two turns give zone-1, until then: the last one is in force
IN_TURNS = [(["12:09:31Z"], [], [NOTHING_FRESH]), ([], ["12:09:31Z"], [NOTHING_FRESH]), (["12:09:21Z"], ["12:09:31Z"], [NOTHING_FRESH]), (["12:09:31Z"], ["12:09:21Z"], [])]
BAD = [
    ("1002 MissingKey at turn[1].window[0].host", '{ from = "2026-11-01T12:09:20Z", until = "2026-11-01T12:09:30Z" }'),
    ("1002 MissingKey at turn[1].window[0].until", '{ host = "zone-1", from = "2026-11-01T12:09:20Z" }'),
    ("1003 UnknownKey at turn[1].window[0].of", '{ host = "zone-1", of = "hub-4" }'),
    ("1004 WrongType at turn[1].window[0]", "1"),
    ("1007 BadIdentifier at turn[1].window[0].host", window("zone 1", "12:09:20Z", "12:09:30Z")),
    ("1009 UnknownIdentifier at turn[1].window[0].host", window("hub-on-zone", "12:09:20Z", "12:09:30Z")),
    ("1011 BadTime at turn[1].window[0].from", window("zone-1", "noon", "12:09:30Z")),
    ("1008 DuplicateIdentifier at turn[1].window[1]", window("zone-1", "12:09:20Z", "12:09:30Z"), window("zone-1", "12:09:20Z", "12:09:30Z")),
    ("1023 BadWindow at turn[1].window[1]", window("hub-4", "12:09:20Z", "12:09:30Z"), window("zone-1", "12:09:30Z", "12:09:20Z")),
]


def written_cases(top, folder):
    """Two hosts, of which zone-1 stands at 12:08:33: its client is planned in its window, where the common one would be too late for it."""
    halted, running = window("zone-1", "12:08:33Z", "12:08:34Z"), window("hub-4", "12:09:21Z", "12:09:40Z")
    common = HEAD + ONE + "period_ns = 20_000_000_000\n" + TWO + TURN % 10 + TURN % 20
    text = HEAD + ONE + "period_ns = 20_000_000_000\n" + TWO + with_windows(TURN % 10, halted) + with_windows(TURN % 20, running, halted)
    setup = top / "windows.toml"
    setup.write_text(text)
    yield import_case("windows of hosts", [str(setup), str(folder)], text, folder)
    scripts = [answers.in_toml(answers.script_of(one, folder)) for one in (text, common)]
    report, other = (reference.report(reference.read_script(script)) for script in scripts)
    assert report != other and answers.script_of(text, folder)["turn"][1]["window"][1]["host"] == "zone-1"
    yield Case("plan of windows of hosts", ["plan", "-"], scripts[0], report.encode(), b"", 0)


def window_cases(top):
    """The runs; the files that they read are written below a folder."""
    folder = top / "of-hosts"
    answers.make(folder, 1, between=0)
    yield from written_cases(top, folder)
    one, two = setups(2)
    for number, (changes, lines) in enumerate(NOTICES):
        text, setup = one, top / f"of-hosts-{number}.toml"
        for change in changes:
            text = change(text)
        setup.write_text(text)
        yield import_case(f"windows of hosts, notices {number}", [str(setup), str(folder)], text, folder, lines)
    for number, (first, second, lines) in enumerate(IN_TURNS):
        turns = [with_windows(TURN % begin, *(window("zone-1", "12:09:20Z", end) for end in ends)) if ends else TURN % begin for begin, ends in ((10, first), (20, second))]
        text, setup = HEAD + ONE + SETTING + "refresh_ns = 58_000_000_000\n" + "".join(turns), top / f"of-turns-{number}.toml"
        setup.write_text(text)
        yield import_case(f"windows of turns {number}", [str(setup), str(folder)], text, folder, lines)
    for fault, *windows in BAD:
        text = HEAD + ONE + TURN % 10 + with_windows(TURN % 20, *windows)
        yield Case(fault, ["import", "-", str(folder)], text.encode(), b"", f"fault {fault}\n".encode(), 1)
    # the only client on zone-1 is left out: both windows stay, and the other client keeps its own
    rest = top / "of-hosts-rest"
    shutil.copytree(folder, rest)
    shutil.rmtree(rest / "hub-on-zone")
    turn = with_windows((TURN % 20).replace("hub-on-zone", "zone-on-hub").replace("80", "60"), window("zone-1", "12:08:33Z", "12:08:34Z"), window("hub-4", "12:09:21Z", "12:09:40Z"))
    setup = top / "of-hosts-rest.toml"
    setup.write_text(HEAD + ONE + TWO + turn)
    script, told = answers.script_of(HEAD + TWO + turn, rest), b"left out hub-on-zone: device\n"
    yield Case("windows of hosts, a client left out", ["import", str(setup), str(rest)], b"", script, told, 7, reader=values_of)
