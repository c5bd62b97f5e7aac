"""A light store of as many validator sets as there may be.

A record names the last of the sets, and no vote for the header is of that set; the header is one above a second record, whose set signs
it. The plan goes by the second record. A certificate that takes the step from the first record, too, is refused there."""
import sys

from lib.judges import reference, scripts
from lib.outputs import certificates_of
from lib.program import Case
from lib.script_text import LATER, a_set, chains, client, goal, header, key, members, stored, turn

SETS = 1024


def script():
    own = scripts.ValidatorSet([(bytes.fromhex(key(0)), 1)]).hash
    others = {scripts.ValidatorSet([(bytes.fromhex(key(1)), power)]).hash: power for power in range(1, SETS)}
    last = max(others)
    if last < own:
        sys.exit("tests/cases/full_store.py: the header's own set is the last one of its chain")
    sets = [(own, a_set("own", members([0])))] + [(each, a_set(f"s{power}", members([1], lambda _: power))) for each, power in others.items()]
    events = [text for _, text in sorted(sets)] + [stored("c", 1, f"s{others[last]}"), stored("c", 2, "own"), header(3, "C", "own", "own")]
    return chains(2) + client("c", "a1", "a0") + turn(LATER, events, [goal("c", 3)])


def full_store_cases(top):
    """The plan of the script, which is written into the folder, and its certificate with and without that step."""
    text, file = script(), top / "full_store"
    file.write_text(text)
    report = reference.report(reference.read_script(text.encode())).encode()
    yield Case("a full light store", ["plan", str(file)], b"", report, b"", 0)
    certificate = next(certificates_of(report))
    for more, verdict, status in (b"", b"yes\n", 0), (b", [3, 1]", b"no 603 PlanNotAccepted 1\n", 3):
        judged = certificate.replace(b"updates = [[3, 2]", b"updates = [[3, 2]" + more)
        yield Case(f"a full light store, {verdict.decode().strip()}", ["certify", str(file), "-"], judged, verdict, b"", status)
