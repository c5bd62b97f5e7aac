"""What `ibcplan follow` forgets from version 3 on: its answers are those of a planner that forgets nothing and has no limits, and events that
speak of what was forgotten are refused."""
import datetime
import os
import subprocess
import sys
import threading

from lib.following import MARK, answers_of, check, ended, followed, run_in_pieces, turns_before
from lib.json_reading import read_json
from lib.program import TOP

CHAINS = """version = %d

[[chain]]
id = "hub"

[[chain]]
id = "zone"
"""
CLIENT = """
[[client]]
id = "%s"
host = "%s"
of = "%s"
period_ns = %d_000_000_000
drift_ns = 10_000_000_000
fee = [100, 1, 1]
gas = [100, 1, 1]
limits = [1_000_000_000, 10_000, 0]
"""
PATH = """
[[path]]
id = "path"
source = "hub"
dest = "zone"
order = "%s"
first = %d
forward = "on-zone"
back = "on-hub"
gas = [10, 10, 10]
"""
KEY = "bd41528ee123bb3f91ae011c7ba91831832ff4b844689b9f8521ad2b3fdaf0cd"
FIRST = 11  # the first sequence of the path
FORGOTTEN = "fault 1033 Forgotten at event[%d]\n" + MARK


# ---- scripts

def time_of(height):
    """The time of a header: ten seconds after the one before."""
    return (datetime.datetime(2026, 11, 1) + datetime.timedelta(seconds=10 * height)).strftime("%Y-%m-%dT%H:%M:%SZ")


def a_set(chain, name, more=""):
    return f'{{ kind = "set", chain = "{chain}", name = "{name}", validators = [["{KEY}", 10]{more}] }}'


def header(chain, height, own="only", following="only", votes="C"):
    return f'{{ kind = "header", chain = "{chain}", height = {height}, time = "{time_of(height)}", set = "{own}", next = "{following}", votes = "{votes}" }}'


def stored(client, height, following="only"):
    return f'{{ kind = "stored", client = "{client}", height = {height}, time = "{time_of(height)}", next = "{following}" }}'


def packet(kind, sequence, keys=""):
    return f'{{ kind = "{kind}", path = "path", seq = {sequence}{keys} }}'


def turn_at(height, events, keys=""):
    """A turn in the second of a header."""
    return f'from = "{time_of(height)}"\nuntil = "{time_of(height)}"\n{keys}event = [{", ".join(events)}]\n'


def script_of(setup, turns):
    return (setup + "".join(f"\n[[turn]]\n{turn}" for turn in turns)).encode()


def planned(program, setup, turns):
    """The first line of the report of `plan`, what each turn is answered by, and the end."""
    return answers_of(run_in_pieces([*program, "plan", "-"], script_of(setup, turns), 4096).output)


def first_full(answers):
    """The place of the first answer in which an event is refused for want of room; how many there are if there is none."""
    return next((place for place, answer in enumerate(answers) if " 406 Full\n" in answer), len(answers))


def told(program, path, setup, documents, words=()):
    """What `follow` answers to documents."""
    path.write_text(setup)
    return run_in_pieces([*program, "follow", str(path), *words], ended([document.encode() for document in documents]), 4096)


def check_told(what, done, wanted):
    """Shows the answers from the first on that isn't as it has to be."""
    same = os.path.commonprefix([done.output, wanted]) if done.output != wanted else ""
    begun = same.rfind(MARK) + 1
    return check(what, (done.output[begun:], done.error, done.status), (wanted[begun:], "", 0))


def unrefreshed(version):
    """A client's key so that it is never refreshed, in a version in which it is otherwise."""
    return "refresh_ns = 0\n" if version == 4 else ""


# ---- heights that expire

def expiring_setup(version, has_dead_client):
    names = ["living", "dead"] if has_dead_client else ["living"]
    return CHAINS % version + "".join(CLIENT % (name, "hub", "zone", 1000) + unrefreshed(version) for name in names)


def expiring_turns(has_dead_client):
    """Turns with a header each, of which a client trusts the last hundred, with a stored height in each twentieth, and with batches that stay
    open for fifteen turns. A set of the first turn is named by no header."""
    batches = 0
    for height in range(1, 491):
        events = [a_set("zone", "only"), a_set("zone", "early", f', ["{"e1" * 32}", 1]')] if height == 1 else []
        events.append(header("zone", height))
        if height == 1 or height % 20 == 0:
            events.append(stored("living", height))
        if height == 1 and has_dead_client:
            events.append(stored("dead", height))
        keys = ""
        if height % 50 == 35:
            batches += 1
            keys = f'goal = [{{ client = "living", at_least = {height} }}]\n'
        elif height % 50 == 0 and batches:
            keys = f'settle = [{{ client = "living", batch = {batches}, done = 1 }}]\n'
        yield turn_at(height, events, keys)


def height_runs(program, folder):
    """Heights that expire: `follow` writes what `plan` does, and from version 3 on refuses events about them; the next document is then the turn
    that the refused one would have been. A client all of whose stored heights have expired keeps its chain whole."""
    path, wrong = folder / "setup.toml", 0
    late = (
        (turn_at(491, [header("zone", 491), header("zone", 2)]), 1),
        (turn_at(491, [stored("living", 2)], 'goal = [{ client = "living", at_least = 491 }]\n'), 0),
        (turn_at(491, [a_set("zone", "late"), header("zone", 491), header("zone", 3, "late"), header("zone", 2)]), 2),
    )
    events = [a_set("zone", "late", f', ["{"a1" * 32}", 1]'), header("zone", 491, "early", "late", "CC")]
    last = turn_at(491, events, 'goal = [{ client = "living", at_least = 491 }]\n')
    cases = ((3, False, ()), (3, False, ("--workers", "2")), (4, False, ()), (1, False, ()), (2, False, ()), (3, True, ()))
    for version, has_dead_client, words in cases:
        setup, turns = expiring_setup(version, has_dead_client), list(expiring_turns(has_dead_client))
        forgets = version >= 3 and not has_dead_client
        accepted = [*turns, last] if forgets else [*turns, *(document for document, _ in late[:2]), last]
        head, answers, end = planned(program, setup, accepted)
        given = [*turns, *(document for document, _ in late), last] if forgets else accepted
        if forgets:
            answers[-1:-1] = [FORGOTTEN % place for _, place in late]
        wrong += check_told(f"heights that expire {version, has_dead_client, words}", told(program, path, setup, given, words), head + "".join(answers) + end)
    path.write_text(expiring_setup(3, False))
    given = ended([document.encode() for document in (*expiring_turns(False), late[0][0])])
    lines = run_in_pieces([*program, "follow", "--json", str(path)], given, 4096).output.splitlines()
    wrong += check("a height that is forgotten, as JSON", read_json(lines[-1]), {"fault": 1033, "name": "Forgotten", "path": "event[1]"})
    return len(cases) + 1, wrong


# ---- heights that stay needed when all stored heights below have expired

def needed_setup(what):
    clients = (("on-zone", "zone", "hub"), ("on-hub", "hub", "zone"))
    path = PATH % ("unordered" if what == "unordered" else "ordered", FIRST) + "wait_ns = [0, 5_000_000_000_000, 0]\n"
    return CHAINS % 3 + "".join(CLIENT % (*client, 4500) for client in clients) + ("" if what == "batch" else path)


def needed_turns(what):
    """Ninety turns with ten headers each. A client trusts 450 heights, and has stored 1, 300 and at last 880. A batch with an update to 500 is open from
    turn 50 to 89; or a packet has expired at height 600, and no timeout of it is taken; or the second packet of an ORDERED path was acknowledged in block 400,
    and the first one only in block 895, so that both acknowledgements wait."""
    for turn in range(1, 91):
        events = [a_set("zone", "only")] if turn == 1 else []
        events += [header("zone", height) for height in range(10 * turn - 9, 10 * turn + 1)]
        if turn in (1, 30, 88):
            events.append(stored("on-hub", {1: 1, 30: 300, 88: 880}[turn]))
        keys = ""
        if what == "batch":
            keys = f'goal = [{{ client = "on-hub", at_least = {10 * turn} }}]\n' if turn in (50, 90) else ""
            keys += 'settle = [{ client = "on-hub", batch = 1, done = 1 }]\n' if turn == 89 else ""
        elif what == "acks":
            if turn == 40:
                events += [packet(kind, sequence, ", height = 390") for kind in ("sent", "received") for sequence in (FIRST, FIRST + 1)]
                events.append(packet("ack", FIRST + 1, ", height = 400"))
            events += [packet("ack", FIRST, ", height = 895")] if turn == 90 else []
        else:
            expiry = f'timeout_time = "{time_of(600)}"' if what == "unordered" else "timeout_height = 600"
            events += [packet("sent", FIRST, f", height = 5, {expiry}")] if turn == 1 else []
            batch = turn - 59 if 60 <= turn < 75 else turn - 72 if turn >= 88 else 0  # between these nothing that is stored is live
            keys = f'settle = [{{ client = "on-hub", batch = {batch}, done = 0 }}]\n' if batch else ""
        yield turn_at(10 * turn, events, keys)


def lost_turns():
    """Turns with ten headers of both chains each, of which clients trust a hundred and store each tenth. Both chains have forgotten heights when a packet is
    sent at a height below, so that nothing more of its source can go, and then the destination forgets more."""
    for turn in range(1, 66):
        events = [a_set("hub", "only"), a_set("zone", "only")] if turn == 1 else []
        events += [header(chain, height) for height in range(10 * turn - 9, 10 * turn + 1) for chain in ("hub", "zone")]
        events += [stored("on-zone", 10 * turn), stored("on-hub", 10 * turn)]
        events += [packet("sent", FIRST, ", height = 5")] if turn == 46 else []
        yield turn_at(10 * turn, events)


def needed_runs(program, folder):
    """Heights of an open batch, of a packet that has expired, and of acknowledgements that wait stay: `follow` writes what `plan` does, and has forgotten the
    heights below. Heights that a chain has forgotten stay so, whatever it needs later."""
    path, wrong = folder / "setup.toml", 0
    lost = CHAINS % 3 + CLIENT % ("on-zone", "zone", "hub", 1000) + CLIENT % ("on-hub", "hub", "zone", 1000) + PATH % ("ordered", FIRST)
    for what, seen, chain, below in (
        ("batch", "label 500 0 0\n", "zone", 299),
        ("unordered", "goal at_least 600\n", "zone", 599),
        ("ordered", "goal at_least 600\n", "zone", 599),
        ("acks", f"next {time_of(901)}\n", "zone", 299),
        ("lost", "client on-zone held 1\n", "hub", 259),
    ):
        setup, turns = (lost, list(lost_turns())) if what == "lost" else (needed_setup(what), list(needed_turns(what)))
        head, answers, end = planned(program, setup, turns)
        wrong += check(f"a height that is needed ({what}), by `plan`", seen in answers[-1], True)
        given = [*turns, turn_at(10 * len(turns), [header(chain, below)])]
        wrong += check_told(f"a height that is needed ({what})", told(program, path, setup, given), head + "".join([*answers, FORGOTTEN % 0]) + end)
    return 10, wrong


# ---- version 4: a halted host keeps what its clients have stored

HALTED = {**dict.fromkeys(range(20, 25), 195), **dict.fromkeys(range(57, 65), 562)}  # by turn, the height in whose second the host's window stays
BACK = 30  # the turn that gives the host a window before the one it has
WINDOW_TURNS, FREED = 72, 65  # turns; the turn in which the host goes on
STILL = 490  # a height that only the halted host's client needs


def window_setup(order):
    clients = ("on-zone", "zone", "hub"), ("on-hub", "hub", "zone")
    return CHAINS % 4 + "".join(CLIENT % (*client, 1000) for client in clients) + PATH % (order, FIRST) + "wait_ns = [40_000_000_000, 60_000_000_000, 0]\n"


def told_packets(order, turn):
    """Two packets that a turn sends, and the outcomes of those of three turns before. Times of their blocks are told, of each fourth that of a block some
    way above, later than the lowest header that proves it. On an UNORDERED path each fifth expires."""
    block = 10 * turn - 6
    for sequence in (FIRST + 2 * turn - 2, FIRST + 2 * turn - 1):
        expiry = f', timeout_time = "{time_of(block + 25)}"' if order == "unordered" and sequence % 5 == 0 else ""
        yield packet("sent", sequence, f', height = {block}, time = "{time_of(block + 5 * (sequence % 4 == 0))}"{expiry}')
    for sequence in (FIRST + 2 * turn - 8, FIRST + 2 * turn - 7):
        if sequence >= FIRST and (order == "ordered" or sequence % 5):
            yield packet("received", sequence, f", height = {block}")
            yield packet("ack", sequence, f', height = {block + 1}, time = "{time_of(block + 1)}"')


def window_turns(order):
    """Turns with ten headers of both chains each, of which clients trust a hundred. One host has windows of its own: it halts twice, once while the chains
    forget; its window goes back once, which is refused. Clients are refreshed by gain and take what messages want; most batches are taken whole."""
    for turn in range(1, WINDOW_TURNS + 1):
        events = [a_set("hub", "only"), a_set("zone", "only")] if turn == 1 else []
        events += [header(chain, height) for height in range(10 * turn - 9, 10 * turn + 1) for chain in ("hub", "zone")]
        events += [stored("on-zone", 10), stored("on-hub", 10)] if turn == 1 else []
        events += told_packets(order, turn)
        events += [header("hub", STILL)] if turn == FREED else []
        ends = time_of(HALTED.get(turn, 10 * turn) - 100 * (turn == BACK))
        keys = f'window = [{{ host = "zone", from = "{ends}", until = "{ends}" }}]\n' if turn >= min(HALTED) else ""
        keys += f'goal = [{{ client = "on-zone", at_least = {10 * turn - 2} }}]\n' if turn % 7 == 0 else ""
        keys += "taken = true\n" if turn % 11 else ""
        yield turn_at(10 * turn, events, keys)


def window_runs(program, folder):
    """Windows of hosts, and times of blocks: `follow` writes what `plan` does, and so does the reference planner. The client of a halted host keeps what is
    live in its own window; of the other chain more was forgotten by then."""
    path, wrong = folder / "setup.toml", 0
    cases = ("unordered", ()), ("ordered", ()), ("unordered", ("--workers", "2"))
    for order, words in cases:
        what, setup, turns = f"windows of hosts {order, words}", window_setup(order), list(window_turns(order))
        head, answers, end = planned(program, setup, turns)
        wrong += check(f"{what}: a window that goes back, by `plan`", [place for place, answer in enumerate(answers, 1) if "WindowBack" in answer], [BACK])
        late = turn_at(10 * WINDOW_TURNS, [header("hub", 2)])
        wrong += check_told(what, told(program, path, setup, [*turns, late], words), head + "".join(answers) + FORGOTTEN % 0 + end)
        early = [*turns[:FREED], turn_at(10 * FREED, [header("zone", STILL)])]
        wrong += check_told(f"{what}: the other chain", told(program, path, setup, early, words), head + "".join(answers[:FREED]) + FORGOTTEN % 0 + end)
        if not words:
            reference = [sys.executable, str(TOP / "tests" / "reference" / "reference.py"), "plan", "-"]
            done = subprocess.run(reference, input=script_of(setup, turns), stdout=subprocess.PIPE, check=True)
            wrong += check(f"{what}: by the reference planner", followed(done.stdout.decode()), head + "".join(answers) + end)
    return 3 * len(cases) + 2, wrong


# ---- more heights, and more validator sets, than a light store holds

def long_header(height, has_sets):
    return header("zone", height, f"s{height}", f"s{height + 1}", "CC") if has_sets else header("zone", height)


def long_turns(turns, headers, has_sets):
    """Turns with so many headers each, the last of which a client is brought to; with a set for each, which have a validator in common."""
    numbered = lambda height: a_set("zone", f"s{height}", f', ["{height:064x}", 1]')
    for turn in range(1, turns + 1):
        events = [numbered(1) if has_sets else a_set("zone", "only")] if turn == 1 else []
        for height in range((turn - 1) * headers + 1, turn * headers + 1):
            events += [numbered(height + 1)] if has_sets else []
            events.append(long_header(height, has_sets))
        if turn == 1:
            events.append(stored("living", 1, "s2" if has_sets else "only"))
        yield turn_at(turn * headers, events, f'goal = [{{ client = "living", at_least = {turn * headers} }}]\ntaken = true\n')


def set_again(height):
    """A turn with a header of a set that went, which is refused, and with one of the same set, which is given again by another name."""
    again = a_set("zone", "again", f', ["{5:064x}", 1]')
    return turn_at(height, [header("zone", height, "s5", "s5", "CC"), again, header("zone", height, "again", "again", "CC")])


def long_answer(turn, headers, fee):
    """What each turn but the first is answered by: one update to its last header, from that of the turn before."""
    first, last = (turn - 1) * headers, turn * headers
    labels = "".join(f"label {height} {fee} 1\n" for height in range(first + 1, last + 1))
    return (f"turn {turn}\nclient living goal at_least {last}\nlabel {first} 0 0\n{labels}update {last} from {first} fee {fee}\ntotal {fee} updates 1\n"
            f"batch {turn} proof {last}\ntx 1 first 0 count 1 gas {fee}\nsettled living {turn} 1\n{MARK}")


def store_runs(program, folder):
    """More heights and more sets of a chain than a light store holds: `follow` goes on where `plan` says Full."""
    path, wrong = folder / "setup.toml", 0
    cases = ((False, 1000, 7, 103, ()), (True, 250, 7, 106, ()), (True, 250, 7, 106, ("--workers", "2")))
    for has_sets, headers, count, fee, words in cases:
        what = f"{count * headers} headers {has_sets, words}"
        setup = CHAINS % 3 + CLIENT % ("living", "hub", "zone", 15 * headers)  # the heights of one turn and a half
        turns = list(long_turns(count, headers, has_sets))
        head, answers, end = planned(program, setup, turns)
        full = first_full(answers)
        wrong += check(f"{what}: where `plan` says Full", 2 < full < count, True)
        wanted = answers[:1] + [long_answer(turn, headers, fee) for turn in range(2, count + 1)]
        wrong += check(f"{what}: what `plan` says before", answers[:full], wanted[:full])
        last = count * headers
        refused = "refused event 0 401 UnknownSet\n" if has_sets else ""
        wanted += [FORGOTTEN % 0, f"turn {count + 1}\n{refused}client living idle\n{MARK}"]
        given = [*turns, turn_at(last, [long_header(2, has_sets)]), set_again(last + 1) if has_sets else turn_at(last, [])]
        wrong += check_told(what, told(program, path, setup, given, words), head + "".join(wanted) + end)
    return 3 * len(cases), wrong


# ---- more packets than a path holds

SENDS, PACKET_TURNS = 100, 46  # packets a turn, turns
LEFT = 256  # packets that are over and stay


def expires(order, sequence):
    return order == "unordered" and sequence % 20 == 7


def packet_setup(version, order):
    clients = ("on-zone", "zone", "hub"), ("on-hub", "hub", "zone")
    return CHAINS % version + "".join(CLIENT % (*client, 1000) + unrefreshed(version) for client in clients) + PATH % (order, FIRST)


def sequences_of(turn):
    return range(FIRST + (turn - 1) * SENDS, FIRST + turn * SENDS)


def sent(order, turn, sequence):
    expiry = f", timeout_height = {10 * turn}" if expires(order, sequence) else ""
    return packet("sent", sequence, f", height = {10 * turn - 5}{expiry}")


def outcomes(order, turn):
    """What is seen of the packets of the turn before: they were received and acknowledged, and those of each third turn were cleared, too. Those that
    expired are cleared already, since their timeouts were taken. Late comes the clearing of the first of the packets that are over and stay."""
    block = f", height = {10 * turn - 7}"
    if turn > 4 and LEFT:
        yield packet("cleared", sequences_of(turn - 1).start - LEFT)
    for sequence in sequences_of(turn - 1):
        if not expires(order, sequence):
            yield packet("received", sequence, block)
            yield packet("ack", sequence, block)
        if turn % 3 == 0:
            yield packet("cleared", sequence)


def packet_turns(version, order):
    """Turns with a hundred packets each, all of which are over a turn later. Batches are taken whole."""
    for turn in range(1, PACKET_TURNS + 1):
        events = [a_set("hub", "only"), a_set("zone", "only")] if turn == 1 else []
        events += [header("hub", 10 * turn), header("zone", 10 * turn)]
        if turn == 1:
            events += [stored("on-zone", 10), stored("on-hub", 10)]
        else:
            events += outcomes(order, turn)
        events += [sent(order, turn, sequence) for sequence in sequences_of(turn)]
        settled = ", ".join(f'{{ client = "{client}", batch = {turn}, done = 1 }}' for client in ("on-zone", "on-hub"))
        yield turn_at(10 * turn, events, "taken = true\n" if version >= 3 else f"settle = [{settled}]\n")


def shifted(answer, turns, batches):
    """An answer as it is so many turns later, where a client's batches have numbers above by so much. From the eleventh turn on, when the first heights
    have expired, the turns are alike: three by three, as the packets are cleared."""
    lines, client, by = [], None, lambda number, more: str(int(number) + more)
    for line in answer.splitlines():
        words = line.split()
        if words[0] == "turn":
            words[1] = by(words[1], turns)
        elif words[0] == "client":
            client = words[1]
            words[4:] = [by(height, 10 * turns) for height in words[4:]]
        elif words[0] in ("label", "update"):
            words[1] = by(words[1], 10 * turns)
            words[3:4] = [by(words[3], 10 * turns)] if words[0] == "update" else words[3:4]
        elif words[0] in ("recv", "ack", "timeout"):
            words[2] = by(words[2], SENDS * turns)
        elif words[0] == "batch":
            words[1], words[3] = by(words[1], batches[client]), by(words[3], 10 * turns)
        elif words[0] == "settled":
            words[2] = by(words[2], batches[words[1]])
        lines.append(" ".join(words))
    return "".join(f"{line}\n" for line in lines)


def free_answers(order, answers, count):
    """The answers to so many turns, if a path has room for all packets: `plan` gave the first ones."""
    cycle = {"on-zone": 3, "on-hub": 3 if order == "unordered" else 2}  # nothing is told to the hub where all packets are cleared
    while len(answers) < count:
        answers = [*answers, shifted(answers[-3], 3, cycle)]
    return answers


def late_packets():
    """Documents that speak of the first packets again, behind the last turn, and the place of the first event that does."""
    block, at = f", height = {10 * PACKET_TURNS - 5}", 10 * PACKET_TURNS
    for kind, keys in ("sent", block), ("received", block), ("ack", block), ("cleared", ""):
        yield turn_at(at, [packet("cleared", FIRST - 1), header("hub", at), packet(kind, FIRST, keys), packet(kind, FIRST + 1, keys)]), 2


def last_packets():
    """A turn that speaks of a packet below the first ones, and of the last ones that are over, which are there; what it is answered by."""
    block, at, end = f", height = {10 * PACKET_TURNS - 5}", 10 * PACKET_TURNS, sequences_of(PACKET_TURNS).start
    events = [packet("sent", FIRST - 1, block), header("hub", at)]
    for sequence in (end - LEFT, end - 1) if LEFT else ():
        events += [packet("sent", sequence, block), packet("received", sequence, block), packet("ack", sequence, block), packet("cleared", sequence)]
    refused = "".join(f"refused event {place} 804 Repeat\n" for place in range(2, len(events)))
    answer = f"turn {PACKET_TURNS + 1}\nrefused event 0 805 OutOfOrder\n{refused}client on-zone idle\nclient on-hub idle\n{MARK}"
    return turn_at(at, events), answer


def packet_runs(program, folder):
    """More packets of a path than it holds, all of which are over a turn later: `follow` goes on where `plan` says Full, and refuses events of packets
    that went. In version 2 it does as `plan`."""
    path, late, (last, answer), wrong = folder / "setup.toml", list(late_packets()), last_packets(), 0
    cases = (3, "unordered", ()), (3, "ordered", ()), (3, "unordered", ("--workers", "2")), (4, "unordered", ()), (4, "ordered", ()), (2, "unordered", ())
    for version, order, words in cases:
        what, setup, turns = f"{PACKET_TURNS * SENDS} packets {version, order, words}", packet_setup(version, order), list(packet_turns(version, order))
        given = [*turns, *(document for document, _ in late), last]
        head, answers, end = planned(program, setup, given)
        full = first_full(answers)
        wrong += check(f"{what}: where `plan` says Full", full, 4096 // SENDS)
        if version >= 3:
            wrong += check(f"{what}: turns that are alike", free_answers(order, answers[:full - 6], full), answers[:full])
            answers = [*free_answers(order, answers[:full], PACKET_TURNS), *(FORGOTTEN % place for _, place in late), answer]
        wrong += check_told(what, told(program, path, setup, given, words), head + "".join(answers) + end)
    return 3 * len(cases), wrong


def front_turns(order):
    """Two turns of 701 packets, all but the last of which are cleared. The hundred and first isn't sent before the second turn; on an ORDERED path it expires
    in the first one, and its timeout is taken. So it ends the front of the path, and nothing goes."""
    gap, sequences = FIRST + 100, range(FIRST, FIRST + 701)
    events = [a_set("zone", "only"), header("zone", 10), stored("on-hub", 10)]
    events += [packet("sent", sequence, ", height = 5" + (", timeout_height = 10" if sequence == gap else "")) for sequence in sequences if order == "ordered" or sequence != gap]
    events += [packet("cleared", sequence) for sequence in sequences[:-1] if sequence != gap]
    yield turn_at(10, events, "taken = true\n")
    again = [packet("sent", gap, ", height = 6"), packet("cleared", gap), packet("sent", FIRST, ", height = 5"), packet("received", sequences[-1], ", height = 9")]
    yield turn_at(10, again, "taken = true\n")


def front_runs(program, folder):
    """Packets behind a gap, or behind one whose timeout closed the path, don't go: `follow` writes what `plan` does."""
    path, wrong = folder / "setup.toml", 0
    for order, refused in ("unordered", (2,)), ("ordered", (0, 1, 2, 3)):
        setup, turns = packet_setup(3, order), list(front_turns(order))
        head, answers, end = planned(program, setup, turns)
        found = tuple(place for place in range(4) if f"refused event {place} " in answers[1])
        wrong += check(f"packets behind a gap {order}, by `plan`", found, refused)
        wrong += check_told(f"packets behind a gap {order}", told(program, path, setup, turns), head + "".join(answers) + end)
    return 4, wrong


# ---- journals of such turns

def journal_runs(program, folder):
    """A journal with more packets than a path holds, or more sets than a light store: `follow` goes on from it, by another number of workers, too, and
    behind a kill; it forgets what it forgot before. Where it was begun anew it answers the turns since then."""
    path, journal, wrong = folder / "setup.toml", folder / "journal.toml", 0
    long_setup = CHAINS % 3 + CLIENT % ("living", "hub", "zone", 15 * 250)
    for what, setup, turns, late in (
        ("packets", packet_setup(3, "unordered"), list(packet_turns(3, "unordered")), next(late_packets())),
        ("sets", long_setup, list(long_turns(7, 250, True)), (turn_at(7 * 250, [long_header(2, True)]), 0)),
    ):
        head, answers, end = answers_of(told(program, path, setup, turns).output.replace(MARK, ""))
        half = len(turns) * 2 // 3
        begun = head + "".join(answers[:half])
        journal.unlink(missing_ok=True)
        run = subprocess.Popen([*program, "follow", str(path), "--journal", str(journal)], stdin=subprocess.PIPE, stdout=subprocess.PIPE, text=True)
        feeder = threading.Thread(target=lambda: (run.stdin.write("".join(turn + MARK for turn in turns[:half])), run.stdin.flush()))
        feeder.start()
        got = run.stdout.read(len(begun))
        feeder.join()
        run.kill()
        run.communicate()
        wrong += check(f"{what}: answers before a kill", got, begun)
        again = [*program, "follow", "--journal", str(journal), "--workers", "2"]
        given = ended([document.encode() for document in (*turns[half:], late[0])])
        first = turns_before(journal)
        done = run_in_pieces(again, given, 4096)
        wrong += check_told(f"{what}: gone on from a journal", done, head + "".join(answers[first:]) + FORGOTTEN % late[1] + end)
        first, stored = turns_before(journal), journal.read_bytes()
        done = run_in_pieces(again[:-2], ended([late[0].encode()]), 4096)
        wrong += check_told(f"{what}: once more", done, head + "".join(answers[first:]) + FORGOTTEN % late[1] + end)
        plan = run_in_pieces([*program, "plan", "-"], script_of(setup, turns), 4096).output
        done = run_in_pieces([*program, "plan", str(journal)], b"", 4096)
        wrong += check(f"{what}: the plan of a journal", (done.output, journal.read_bytes(), "406 Full" in plan), ("" if first else plan, stored, True))
    return 8, wrong


# ---- more entries than a script may have

def entry_runs(program, folder):
    """Turns with 400 headers each, 204,000 in all, of which a client trusts a hundred: in version 3 there is no room from the 499th turn on, in version 4 all are
    answered."""
    path, wrong, count = folder / "setup.toml", 0, 510
    documents = [turn_at(top, [*([a_set("zone", "only")] if top == 400 else []), *(header("zone", height) for height in range(top - 399, top + 1)), stored("living", top)])
                 for top in range(400, 400 * count + 1, 400)]
    for version, most in (3, 498), (4, count):
        done = told(program, path, expiring_setup(version, False), documents, ["--no-labels"])
        answers = done.output.split(MARK)
        full = sum(answer == "fault 1018 TooManyEvents at -\n" for answer in answers)
        wrong += check(f"{count} turns of 401 entries in version {version}", (full, "refused" in done.output, done.output.count("\nturn "), done.status), (count - most, False, most, 0))
    return 2, wrong


FORGETS = height_runs, needed_runs, window_runs, store_runs, packet_runs, front_runs, entry_runs, journal_runs
