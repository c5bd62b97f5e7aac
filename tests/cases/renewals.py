"""Journals of `ibcplan follow` that are begun anew: what was forgotten goes, and no answer changes, however the process ends."""
import hashlib
import itertools
import re
import shutil
import subprocess

from cases.forgets import CHAINS, CLIENT, FIRST, PATH, a_set, header, stored, time_of, told_packets, turn_at
from lib.following import ANEW, MARK, PATIENCE, answers_of, check, ended, run_in_pieces, turns_before

END = b"# ---\n"
TURNS = 140
MOST = 480_000  # bytes of a journal that is begun anew when it has to be; one that isn't has more


def setup_of(order):
    clients = ("on-zone", "zone", "hub"), ("on-hub", "hub", "zone")
    return CHAINS % 4 + "".join(CLIENT % (*client, 1000) for client in clients) + PATH % (order, FIRST)


def busy_turns(order, count=TURNS):
    """Turns with ten headers of both chains each, of which clients trust a hundred, and with packets. Batches stay open for one turn, or for three; one
    host has windows of its own; sets get new names."""
    for turn in range(1, count + 1):
        events = [a_set("hub", "only"), a_set("zone", "only")] if turn == 1 else []
        events += [a_set("hub", f"s{turn}", f', ["{turn:064x}", 1]')] if turn % 20 == 0 else []
        events += [header(chain, height) for height in range(10 * turn - 9, 10 * turn + 1) for chain in ("hub", "zone")]
        events += [stored("on-zone", 10), stored("on-hub", 10)] if turn == 1 else []
        events += told_packets(order, turn)
        keys = f'window = [{{ host = "zone", from = "{time_of(10 * turn)}", until = "{time_of(10 * turn + 1)}" }}]\n' if turn % 9 == 0 else ""
        keys += f'goal = [{{ client = "on-zone", at_least = {10 * turn - 2} }}]\n' if turn % 7 == 0 else ""
        keys += "taken = true\n" if turn % 4 == 0 or turn % 24 > 14 else ""
        yield turn_at(10 * turn, events, keys).encode()


class Busy:
    """A run without a journal: its setup, documents and answers."""

    def __init__(self, program, folder, order, *words):
        self.program, self.words = program, words
        self.setup, self.journal, self.new = folder / "setup.toml", folder / "journal.toml", folder / "journal.toml.new"
        self.setup.write_text(setup_of(order))
        self.forget()
        self.documents = list(busy_turns(order))
        self.plain = run_in_pieces([*program, "follow", str(self.setup), *words], ended(self.documents), 4096)
        lines = self.plain.output.replace(MARK, "")
        self.head, self.answers, self.end = answers_of(lines)

    def forget(self):
        self.journal.unlink(missing_ok=True)
        self.new.unlink(missing_ok=True)

    def command(self):
        return [*self.program, "follow", str(self.setup), "--journal", str(self.journal), *self.words]

    def told(self, first, last):
        """Tells some turns, and all that is written then."""
        return run_in_pieces(self.command(), ended(self.documents[first:last]), 4096)

    def wanted(self, first, last):
        return self.head + "".join(self.answers[first:last]) + self.end


def held_before(answer):
    """The batches that are open from before in an answer."""
    return re.findall(r"^client (\S+) held (\d+)$", answer, re.M)


def whole_runs(program, folder):
    """A run in one go: its answers are those without a journal, and the journal doesn't grow; then a restart after each few turns, each of which answers the
    turns since the state. Each batch that is open then was planned in one of these."""
    runs = wrong = 0
    for order, words in (("unordered", ()), ("ordered", ("--workers", "2"))):
        busy, what = Busy(program, folder, order, *words), f"{order, words}"
        wrong += check(f"{what}: without a journal", (busy.plain.error, busy.plain.status, len(busy.answers)), ("", 0, TURNS))
        done = busy.told(0, TURNS)
        wrong += check(f"{what}: with a journal", (done.output, done.error, done.status), (busy.plain.output, "", 0))
        size = busy.journal.stat().st_size
        wrong += check(f"{what}: it was begun anew", (busy.journal.read_bytes().startswith(ANEW), size < MOST, busy.new.exists()), (True, True, False))
        busy.forget()
        begun, taken, held = set(), 0, 0
        while taken < TURNS:
            more, first = min(5 + taken % 7, TURNS - taken), turns_before(busy.journal)
            done = busy.told(taken, taken + more)
            wrong += check(f"{what}: {taken} turns, and {more} more", (done.output, done.error, done.status), (busy.wanted(first, taken + more), "", 0))
            begun.add(first)
            for client, number in held_before(busy.answers[taken]):
                held += first > 0
                planned = any(re.search(rf"^client {client} (?!held).*?^batch {number} ", answer, re.M | re.S) for answer in busy.answers[first:taken])
                wrong += check(f"{what}: batch {number} of {client} is told behind {taken} turns", planned, True)
                runs += 1
            taken += more
            runs += 1
        wrong += check(f"{what}: states, and batches that were open", (len(begun) > 2, held > 2, busy.journal.stat().st_size < MOST), (True, True, True))
        runs += 4
    return runs, wrong


def last_before(busy):
    """A journal that is begun anew with the next document, and how many turns it has."""
    busy.forget()
    anew = False
    for taken in range(TURNS):
        before = busy.journal.read_bytes() if taken else b""
        busy.told(taken, taken + 1)
        if busy.journal.read_bytes().startswith(ANEW) and not before.startswith(ANEW):
            return before, taken
    raise AssertionError("the journal wasn't begun anew")


def kill_runs(program, folder):
    """A process that is killed, or whose calls fail, at each call that begins a journal anew: the old file or the new one is there, whole."""
    if not shutil.which("strace"):
        return 0, 0
    busy, runs, wrong = Busy(program, folder, "unordered"), 0, 0
    before, taken = last_before(busy)
    for call, how in itertools.product(("openat", "ftruncate", "write", "fsync", "rename,renameat,renameat2"), ("signal=KILL", "error=EIO")):
        for number in range(1, 40):
            busy.forget()
            busy.journal.write_bytes(before)
            words = ["strace", "-f", "-o", "/dev/null", "-e", f"trace={call}", "-P", str(busy.new), "-P", str(busy.journal), "-P", str(folder), "-e", f"inject={call}:{how}:when={number}"]
            got = run_in_pieces([*words, *busy.command()], ended(busy.documents[taken:taken + 2]), 4096)
            if got.status == 0 and "not begun anew" not in got.error:
                break
            what, answered = f"{call} {number} {how}", got.output.count(MARK)
            wrong += check(what, busy.wanted(turns_before(busy.journal), taken + 2).startswith(got.output.removesuffix(busy.end)) or busy.wanted(0, taken + 2).startswith(got.output.removesuffix(busy.end)), True)
            wrong += check(f"{what}: the file", before in busy.journal.read_bytes() or busy.journal.read_bytes().startswith(ANEW), True)
            again, first = run_in_pieces(busy.command(), b"", 4096), turns_before(busy.journal)
            stored = first + again.output.count(MARK)
            wrong += check(f"{what}: again", (again.output, again.status, max(taken, answered) <= stored <= taken + 2), (busy.wanted(first, stored), 0, True))
            done = busy.told(stored, stored + 9)
            wrong += check(f"{what}: gone on", (done.output.endswith(busy.wanted(stored, stored + 9)[len(busy.head):]), done.status), (True, 0))
            runs += 4
    return runs, wrong


def ending(part):
    return part + b"# " + hashlib.sha256(part).hexdigest().encode() + b"\n" + END


def damage_runs(program, folder):
    """States that were damaged, cut or changed, or are of another setup: nothing is answered, and the file stays. A state that can't be put in its place
    leaves the journal as it is."""
    busy, runs, wrong = Busy(program, folder, "ordered"), 0, 0
    busy.told(0, TURNS)
    whole = busy.journal.read_bytes()
    size = whole.index(END) + len(END)
    for bit in sorted({*range(0, 8 * size, 40_009), *range(8 * 17, 8 * 40, 29), *range(8 * (size - 90), 8 * size, 31)}):
        flipped = bytearray(whole)
        flipped[bit // 8] ^= 1 << bit % 8
        busy.journal.write_bytes(flipped)
        done = run_in_pieces(busy.command(), b"", 4096)
        found = "part at byte 0 isn't as it was written" in done.error or "isn't a journal" in done.error
        wrong += check(f"a state with bit {bit} flipped", (done.output, found, done.status, busy.journal.read_bytes() == flipped), ("", True, 2, True))
        runs += 1
    second = whole.index(END, size) + len(END)
    for place in (len(ANEW), size // 2, size - 1, size, size + 1, second - 1):
        busy.journal.write_bytes(whole[:place])
        done = run_in_pieces(busy.command(), b"", 4096)
        wrong += check(f"a journal cut at byte {place} of a state of {size}", (done.output, done.status, busy.journal.read_bytes() == whole[:place]), ("", 2, True))
        runs += 1
    body = whole[:size - 73]
    numbers = list(re.finditer(rb"(?<= )\d+(?=[ \n])", body))[1:]  # the first is the journal's form
    changed = [body[:found.start()] + b"0" + body[found.start():] for found in numbers[:3]]
    changed += [body[:found.start()] + str(int(found[0]) + 1).encode() + body[found.end():] for found in numbers[2:60:7]]
    changed += [body.replace(b" yes", b" no", 1), body.replace(b"'''\n", b"'''\n 1", 1), body[:-4] + b" 1\n'''\n"]
    for number, part in enumerate(changed):
        busy.journal.write_bytes(ending(part) + whole[size:])
        done = run_in_pieces(busy.command(), b"", 4096)
        is_refused = (done.output, done.error.splitlines()[:1], done.status) == ("", ["device"], 4)
        is_another = done.status == 4 or done.output != busy.plain.output
        wrong += check(f"a state that was changed {number}: {done.error[:200]}", is_refused if number < 3 or number > len(changed) - 3 else is_another, True)
        runs += 1
    other = Busy(program, folder, "unordered")
    other.journal.write_bytes(whole)
    done = run_in_pieces(other.command(), b"", 4096)
    wrong += check("a state of another setup", (done.output, "begun with another setup" in done.error, done.status), ("", True, 2))
    busy = Busy(program, folder, "unordered")
    busy.new.mkdir()
    done = busy.told(0, TURNS)
    wrong += check("no file beside it", (done.output, "not begun anew" in done.error, done.error.count("\n") < 8, done.status), (busy.plain.output, True, True, 0))
    wrong += check("the journal stays then", busy.journal.read_bytes().startswith(b"# ibcplan journal 2\n"), True)
    busy.new.rmdir()
    busy.journal.write_bytes(whole)
    plan = subprocess.run([*program, "plan", str(busy.journal)], capture_output=True, text=True, timeout=PATIENCE)
    wrong += check("`plan` of a journal with a state", (plan.stdout, plan.stderr.splitlines()[:1], plan.returncode), ("", ["fault 1003 UnknownKey at state"], 1))
    return runs + 4, wrong


RENEWALS = whole_runs, damage_runs, kill_runs
