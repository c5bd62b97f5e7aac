"""The journal of `ibcplan follow`: what it has after a crash, however and whenever that comes."""
import contextlib
import hashlib
import itertools
import os
import re
import resource
import shutil
import signal
import subprocess
import time
import tomllib

from lib.following import MARK, PATIENCE, answers_of, check, ended, followed, parts_of, run_in_pieces, scripts, value_text
from lib.program import EXAMPLES

END = b"# ---\n"


def ending(part):
    """A part with its digest and the line that ends it."""
    return part + b"# " + hashlib.sha256(part).hexdigest().encode() + b"\n" + END


def words_of(program, setup, journal, *more):
    return [*program, "follow", *([str(setup)] if setup else []), "--journal", str(journal), *more]


class Two:
    """The worked script of two clients: its setup, documents and answers."""

    def __init__(self, folder):
        self.report = (EXAMPLES / "two_clients.report").read_text()
        self.bytes, self.documents = parts_of((EXAMPLES / "two_clients.toml").read_text())
        self.head, self.answers, self.end = answers_of(self.report)
        self.setup, self.journal = folder / "setup.toml", folder / "journal.toml"
        self.setup.write_bytes(self.bytes)
        self.journal.unlink(missing_ok=True)

    def text(self, count):
        """What is written where so many turns were taken, without the end."""
        return self.head + "".join(self.answers[:count])


def planned(program, journal):
    """What `plan` writes for a journal."""
    return subprocess.run([*program, "plan", str(journal)], capture_output=True, text=True, timeout=PATIENCE)


def whole_runs(program, folder):
    """Each fourth script with a journal: what is written is as without one, and `plan` of the journal writes the report; then all of it again."""
    runs = wrong = 0
    for name, script, report in itertools.islice(scripts(), 0, None, 4):
        try:
            setup, documents = parts_of(script)
        except ValueError:
            continue
        path, journal = folder / "setup.toml", folder / "journal.toml"
        path.write_bytes(setup)
        journal.unlink(missing_ok=True)
        done = run_in_pieces(words_of(program, path, journal), ended(documents), 4096)
        wrong += check(f"{name} with a journal", (done.output, done.error, done.status), (followed(report), "", 0))
        again = planned(program, journal)
        wrong += check(f"{name}, the plan of its journal", (again.stdout, again.returncode), (report, 0))
        before = journal.read_bytes()
        done = run_in_pieces(words_of(program, None, journal), b"", 4096)
        wrong += check(f"{name}, gone on from its journal", (done.output, done.status), (followed(report), 0))
        wrong += check(f"{name}, a journal without news", journal.read_bytes(), before)
        runs += 4
    return runs, wrong


def cut_runs(program, folder):
    """A journal that is cut at many bytes: its whole turns are there, and the others can be told again."""
    two = Two(folder)
    run_in_pieces(words_of(program, two.setup, two.journal), ended(two.documents), 4096)
    whole = two.journal.read_bytes()
    ends = [place + len(END) for place in range(len(whole)) if whole.startswith(END, place)]
    wrong = runs = 0
    places = sorted({*range(0, len(whole), 97), *(end + by for end in ends for by in (-1, 0, 1) if end + by <= len(whole))})
    for place in places:
        two.journal.write_bytes(whole[:place])
        count = sum(end <= place for end in ends) - 1
        done = run_in_pieces(words_of(program, two.setup, two.journal), ended(two.documents[max(count, 0):]), 4096)
        is_cut = count >= 0 and place not in ends
        wrong += check(f"a journal cut at byte {place}", (done.output, done.status, "left out" in done.error), (followed(two.report), 0, is_cut))
        wrong += check(f"a journal cut at byte {place} and gone on with", two.journal.read_bytes(), whole)
        runs += 2
    return runs, wrong


def flip_runs(program, folder):
    """A journal with a flipped bit: each is found, nothing is answered, and the file stays."""
    two, wrong = Two(folder), 0
    run_in_pieces(words_of(program, two.setup, two.journal), ended(two.documents), 4096)
    whole = two.journal.read_bytes()
    bits = sorted({*range(0, 8 * len(whole), 61), *range(8 * (len(whole) - 100), 8 * len(whole), 3)})
    for bit in bits:
        flipped = bytearray(whole)
        flipped[bit // 8] ^= 1 << bit % 8
        two.journal.write_bytes(flipped)
        done = run_in_pieces(words_of(program, None, two.journal), b"", 4096)
        found = "isn't as it was written" in done.error or "isn't a journal" in done.error
        wrong += check(f"a journal with bit {bit} flipped", (done.output, found, done.status, two.journal.read_bytes() == flipped), ("", True, 2, True))
    second = whole.index(END) + len(END)
    two.journal.write_bytes(whole[:second] + whole[second:].replace(b"from", b"form", 1))
    done = run_in_pieces(words_of(program, two.setup, two.journal), b"", 4096)
    wrong += check("the byte of a damaged part", (done.output, f"part at byte {second} " in done.error, done.status), ("", True, 2))
    return len(bits) + 1, wrong


def plain_runs(program, folder):
    """A journal of the first form, without digests: it is read, and gone on with as it is; a part with another key is refused."""
    two, wrong = Two(folder), 0
    run_in_pieces(words_of(program, two.setup, two.journal), ended(two.documents), 4096)
    whole = re.sub(rb"# [0-9a-f]{64}\n", b"", two.journal.read_bytes()).replace(b"# ibcplan journal 2\n", b"# ibcplan journal\n")
    two.journal.write_bytes(whole)
    done = run_in_pieces(words_of(program, two.setup, two.journal), b"", 4096)
    wrong += check("a journal without digests", (done.output, done.status, two.journal.read_bytes() == whole), (followed(two.report), 0, True))
    first = whole.index(END) + len(END)
    for end, documents in ((whole.index(END, first) + len(END), two.documents[1:]), (first, two.documents), (first - 9, two.documents), (len(b"# ibcplan journal\n"), two.documents)):
        two.journal.write_bytes(whole[:end])
        done = run_in_pieces(words_of(program, two.setup, two.journal), ended(documents), 4096)
        wrong += check(f"{end} bytes of it, gone on with", (done.output, done.status, two.journal.read_bytes() == whole), (followed(two.report), 0, True))
    for old, new in ((b"[[turn.event]]", b"[[tuzn.event]]"), (b"[[turn.goal]]", b"[[turl.goal]]")):
        two.journal.write_bytes(whole.replace(old, new, 1))
        done = run_in_pieces(words_of(program, two.setup, two.journal), b"", 4096)
        wrong += check(f"a part with {new.decode()}", (done.output, "a part of it isn't a turn" in done.error, done.status), ("", True, 2))
    return 7, wrong


def kill_runs(program, folder):
    """A process that is killed after each answer, and at any moment: no answered turn is lost."""
    two, wrong, runs = Two(folder), 0, 0
    for count in range(len(two.documents) + 1):
        two.journal.unlink(missing_ok=True)
        run = subprocess.Popen(words_of(program, two.setup, two.journal), stdin=subprocess.PIPE, stdout=subprocess.PIPE, stderr=subprocess.DEVNULL)
        got, wanted = b"", two.text(count).encode()
        run.stdin.write(ended(two.documents[:count]) + (two.documents[count] if count < len(two.documents) else b""))
        run.stdin.flush()
        while len(got) < len(wanted):
            more = os.read(run.stdout.fileno(), 1 << 16)
            if not more:
                break
            got += more
        run.kill()
        run.communicate()
        wrong += check(f"answers before a kill behind {count}", got, wanted)
        done = run_in_pieces(words_of(program, None, two.journal), ended(two.documents[count:]), 4096)
        wrong += check(f"killed behind {count} answers", (done.output, done.status), (followed(two.report), 0))
        runs += 2
    for moment in range(12):
        two.journal.unlink(missing_ok=True)
        run = subprocess.Popen(words_of(program, two.setup, two.journal), stdin=subprocess.PIPE, stdout=subprocess.PIPE, stderr=subprocess.DEVNULL)
        with contextlib.suppress(BrokenPipeError):
            run.stdin.write(ended(two.documents))
            run.stdin.flush()
        time.sleep(moment / 600)
        run.kill()
        got = run.communicate()[0].decode()
        answered = got.count(MARK)
        done = run_in_pieces(words_of(program, two.setup, two.journal), b"", 4096)
        stored = done.output.count(MARK)
        wrong += check(f"killed after moment {moment}", (stored >= answered, done.output.startswith(got), done.status), (True, True, 0))
        done = run_in_pieces(words_of(program, two.setup, two.journal), ended(two.documents[stored:]), 4096)
        wrong += check(f"gone on after moment {moment}", (done.output, done.status), (followed(two.report), 0))
        runs += 2
    return runs, wrong


def write_runs(program, folder):
    """A process that is killed at the entry and at the end of each call that changes the file, or answers."""
    if not shutil.which("strace"):
        return 0, 0
    two, wrong, runs = Two(folder), 0, 0
    for call in "write", "fdatasync", "fsync", "ftruncate":
        for number in range(1, 24):
            two.journal.unlink(missing_ok=True)
            words = ["strace", "-f", "-o", "/dev/null", "-e", f"trace={call}", "-e", f"inject={call}:signal=KILL:when={number}", *words_of(program, two.setup, two.journal)]
            got = run_in_pieces(words, ended(two.documents), 4096)
            if got.status == 0:
                break
            done = run_in_pieces(words_of(program, two.setup, two.journal), b"", 4096)
            stored = done.output.count(MARK)
            wrong += check(f"killed at {call} {number}", (done.output.startswith(got.output.removesuffix(two.end)), done.status), (True, 0))
            done = run_in_pieces(words_of(program, two.setup, two.journal), ended(two.documents[stored:]), 4096)
            wrong += check(f"gone on behind {call} {number}", (done.output, done.status), (followed(two.report), 0))
            runs += 2
    for call in "write", "fdatasync":
        for number in range(1, 12):
            two.journal.unlink(missing_ok=True)
            words = ["strace", "-f", "-o", "/dev/null", "-e", f"trace={call}", "-P", str(two.journal), "-e", f"inject={call}:error=ENOSPC:when={number}", *words_of(program, two.setup, two.journal)]
            got = run_in_pieces(words, ended(two.documents), 4096)
            if got.status == 0:
                break
            count = got.output.count(MARK)
            wrong += check(f"{call} {number} of the journal fails", (got.output in ("", two.text(count)), got.error.splitlines()[:1], got.status), (True, ["device"], 4))
            done = run_in_pieces(words_of(program, two.setup, two.journal), b"", 4096)
            stored = done.output.count(MARK)
            wrong += check(f"gone on behind {call} {number} that failed", (stored >= count, done.status), (True, 0))
            done = run_in_pieces(words_of(program, two.setup, two.journal), ended(two.documents[stored:]), 4096)
            wrong += check(f"more behind {call} {number} that failed", (done.output, done.status), (followed(two.report), 0))
            runs += 3
    return runs, wrong


def full_runs(program, folder):
    """A file that may have no more bytes, as on a full disk: the turn isn't answered, and those before are there."""
    two, wrong, runs = Two(folder), 0, 0
    run_in_pieces(words_of(program, two.setup, two.journal), ended(two.documents), 4096)
    whole = two.journal.read_bytes()
    ends = [place + len(END) for place in range(len(whole)) if whole.startswith(END, place)]
    for most in sorted({1, ends[0] - 1, ends[0], ends[0] + 1, *(end + by for end in ends[1:] for by in (-1, 0, 40)), (ends[0] + ends[1]) // 2}):
        two.journal.unlink(missing_ok=True)

        def bounded(most=most):
            signal.signal(signal.SIGXFSZ, signal.SIG_IGN)
            resource.setrlimit(resource.RLIMIT_FSIZE, (most, most))

        done = subprocess.run(words_of(program, two.setup, two.journal), input=ended(two.documents), capture_output=True, preexec_fn=bounded, timeout=PATIENCE)
        count = sum(end <= most for end in ends) - 1
        if most >= len(whole):
            wanted = (followed(two.report).encode(), [], 0)
        else:
            wanted = (two.text(count).encode() if count >= 0 else b"", [b"device"], 4)
        wrong += check(f"a file of at most {most} bytes", (done.stdout, done.stderr.splitlines()[:1], done.returncode), wanted)
        again = run_in_pieces(words_of(program, two.setup, two.journal), ended(two.documents[max(count, 0):]), 4096)
        wrong += check(f"room again behind {most} bytes", (again.output, again.status, two.journal.read_bytes() == whole), (followed(two.report), 0, True))
        runs += 2
    return runs, wrong


def refusal_runs(program, folder):
    """Faults, files that are no journals, setups that differ, and two processes at once."""
    two, wrong = Two(folder), 0
    words = words_of(program, two.setup, two.journal)
    given = ended([two.documents[0], b"from = 1\n", *two.documents[1:]])
    done = run_in_pieces(words, given, 4096)
    wanted = two.head + two.answers[0] + f"fault 1004 WrongType at from\n{MARK}" + "".join(two.answers[1:]) + two.end
    wrong += check("a fault with a journal", (done.output, done.status), (wanted, 0))
    wrong += check("a fault isn't stored", planned(program, two.journal).stdout, two.report)
    before = two.journal.read_bytes()
    other, none = folder / "other.toml", folder / "none.toml"
    other.write_bytes(b"# the same, with a remark\n" + two.bytes)
    done = run_in_pieces(words_of(program, other, two.journal), b"", 4096)
    wrong += check("the same setup in other words", (done.output, done.status), (followed(two.report), 0))
    other.write_bytes(two.bytes.replace(b"version = ", b"version =  ").replace(b'"hub"', b'"hab"'))
    script = folder / "script.toml"
    script.write_bytes((EXAMPLES / "two_clients.toml").read_bytes())
    bad, broken = folder / "bad.toml", folder / "broken.toml"
    bad.write_bytes(b"version = 9\n")
    broken.write_bytes(before + ending(b"\n[[turn]]\nfrom = 1\n"))
    marked = folder / "marked.toml"
    marked.write_bytes(before + ending(b"\nversion = 1\n"))
    none.unlink(missing_ok=True)
    fresh = folder / "fresh.toml"
    fresh.unlink(missing_ok=True)
    for what, case, first, status in (
        ("another setup", words_of(program, other, two.journal), "error: invalid value", 2),
        ("a script that is no journal", words_of(program, two.setup, script), "error: invalid value", 2),
        ("a script that is no journal, alone", words_of(program, None, script), "error: invalid value", 2),
        ("no file and no setup", words_of(program, None, none), "device", 4),
        ("a folder", words_of(program, two.setup, folder), "device", 4),
        ("a device", words_of(program, two.setup, "/dev/full"), "error: invalid value", 2),
        ("a setup with a fault", words_of(program, bad, fresh), "fault 1005 BadVersion at version", 1),
        ("a part that is no turn", words_of(program, None, marked), "error: invalid value", 2),
    ):
        done = run_in_pieces(case, b"", 4096)
        wrong += check(what, (done.output, done.error[:len(first)], done.status), ("", first, status))
    wrong += check("no file is made for them", (none.exists(), fresh.exists()), (False, False))
    wrong += check("and none is changed", (two.journal.read_bytes(), script.read_bytes()), (before, (EXAMPLES / "two_clients.toml").read_bytes()))
    late = b'from = "2035-03-01T12:00:00Z"\nuntil = "2035-03-01T12:00:00Z"\n'
    done = run_in_pieces(words_of(program, None, broken), ended([late]), 4096)
    told = done.error.splitlines()
    wrong += check("a turn that is refused", (told[:1], told[-1:] and told[-1].startswith("Go on with the release"), done.status), (["device"], True, 4))
    run = subprocess.Popen(words, stdin=subprocess.PIPE, stdout=subprocess.PIPE, stderr=subprocess.PIPE)
    run.stdout.readline()
    done = run_in_pieces(words, b"", 4096)
    wrong += check("two processes", (done.output, "another process has it" in done.error, done.status), ("", True, 2))
    run.communicate()
    done = run_in_pieces(words, b"", 4096)
    wrong += check("one after the other", (done.output, done.status), (followed(two.report), 0))
    return 17, wrong


LONGEST = 1 << 24  # bytes of a text


def short_text(value):
    """A value in TOML, without a space."""
    if isinstance(value, dict):
        return "{%s}" % ",".join(f"{key}={short_text(item)}" for key, item in value.items())
    return "[%s]" % ",".join(map(short_text, value)) if isinstance(value, list) else value_text(value)


def long_turn(document):
    """The turn as short as it goes, which is longer printed anew, with a zone in brackets behind its first time, which changes nothing, so that
    it is a longest text."""
    lines = "".join(f"{key}={short_text(value)}\n" for key, value in tomllib.loads(document.decode()).items())
    text = b"# one\r\n\n# ---\n# |\n" + lines.encode()
    return text.replace(b'Z"', b"Z[" + b"A" * (LONGEST - len(text) - 2) + b']"', 1)


def long_runs(program, folder):
    """Turns whose texts are longest: below `[[turn]]` a script has no room for them. They are answered and stored, and so are the turns behind."""
    two, wrong, runs = Two(folder), 0, 0
    for number, digests in (1, True), (3, True), (0, False):
        documents = list(two.documents)
        documents[number] = long_turn(documents[number])
        two.journal.unlink(missing_ok=True)
        if not digests:
            run_in_pieces(words_of(program, two.setup, two.journal), b"", 4096)
            begun = re.sub(rb"# [0-9a-f]{64}\n", b"", two.journal.read_bytes()).replace(b"# ibcplan journal 2\n", b"# ibcplan journal\n")
            two.journal.write_bytes(begun)
        done = run_in_pieces(words_of(program, two.setup, two.journal), ended(documents), 1 << 16)
        wrong += check(f"a longest turn {number + 1}", (done.output, done.error, done.status), (followed(two.report), "", 0))
        whole = two.journal.read_bytes()
        lines = b"|" + documents[number].replace(b"\n", b"\n|") + b"\n"
        wrong += check("its part has its lines behind bars", (ending(lines) if digests else lines + END) in whole, True)
        again = run_in_pieces(words_of(program, None, two.journal), b"", 4096)
        wrong += check("gone on from it", (again.output, again.status, two.journal.read_bytes() == whole), (followed(two.report), 0, True))
        refused = planned(program, two.journal)
        wrong += check("no script has it", (refused.stdout, refused.stderr.splitlines()[:1], refused.returncode), ("", ["fault 1030 InputTooBig at -"], 1))
        start = whole.find(b"# ---\n|# one") + len(END)
        two.journal.write_bytes(whole[:start + LONGEST // 2])
        cut = run_in_pieces(words_of(program, None, two.journal), ended(documents[number:]), 1 << 16)
        wrong += check("cut within it", (cut.output, "left out" in cut.error, cut.status), (followed(two.report), True, 0))
        runs += 5
        if digests:
            flipped = bytearray(whole)
            flipped[start + LONGEST // 2] ^= 1
            two.journal.write_bytes(flipped)
            found = run_in_pieces(words_of(program, None, two.journal), b"", 4096)
            wrong += check("a bit of it flipped", (found.output, f"part at byte {start} " in found.error, found.status), ("", True, 2))
            runs += 1
    return runs, wrong


def gone_runs(program, folder):
    """A reader that is gone: the turn is in the journal, and its answer comes first then."""
    two, wrong = Two(folder), 0
    run = subprocess.Popen(words_of(program, two.setup, two.journal), stdin=subprocess.PIPE, stdout=subprocess.PIPE, stderr=subprocess.PIPE)
    run.stdout.readline()
    run.stdout.close()
    with contextlib.suppress(BrokenPipeError):
        run.stdin.write(ended(two.documents))
        run.stdin.close()
    error, status = run.stderr.read().decode(), run.wait(PATIENCE)
    wrong += check("a reader that is gone", (error.splitlines()[:1], status), (["device"], 4))
    done = run_in_pieces(words_of(program, None, two.journal), b"", 4096)
    wrong += check("the turn that wasn't read", (done.output, done.status), (two.text(1) + two.end, 0))
    return 2, wrong


def client_runs(program, folder):
    """The example of a client with a journal: once, and again, which tells nothing new."""
    two, wrong, journals = Two(folder), 0, []
    follow = EXAMPLES / "follow"
    words = ["python3", *map(str, (follow / "client.py", program[0], follow / "setup.toml", follow / "turns.txt", two.journal))]
    wanted = (follow / "client.output").read_text()
    for which in "first", "second":
        done = subprocess.run(words, capture_output=True, text=True, timeout=PATIENCE)
        wrong += check(f"the {which} run of a client", (done.stdout, done.stderr, done.returncode), (wanted, "", 0))
        journals.append(two.journal.read_bytes())
    return 3, wrong + check("the client's journal", journals[1], journals[0])


JOURNALS = refusal_runs, long_runs, gone_runs, full_runs, whole_runs, cut_runs, flip_runs, plain_runs, kill_runs, write_runs, client_runs
