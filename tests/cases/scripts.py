"""Runs of `plan`, `run` and `certify` on the rows, the changes, the certificates and the examples, of which the reports and verdicts are stored, on every beginning of a
row, and with outputs that take so many bytes and no more."""
import pathlib
import resource
import signal
import subprocess
import sys
import tomllib

from lib.json_reading import read_json
from lib.judges import reference
from lib.outputs import certificates_of, fault_of, verdict_of
from lib.program import CERTIFICATES, EXAMPLES, ROWS, TOP, WORKERS, Case

CHANGES = TOP / "tests" / "changes"


def lines_of(name):
    """A file of lines `name: line`."""
    entries = (line.split(": ", 1) for line in (TOP / "tests" / name).read_text().splitlines())
    return {row: f"{line}\n".encode() for row, line in entries}


def rows_in(folder):
    return sorted(p for p in folder.iterdir() if p.suffix == "")


def words_of(path):
    """The arguments that are stored beside a row, in which a row is named by its name; `plan -` where there are none."""
    stored = path.with_name(f"{path.name}.args")
    words = stored.read_text().split() if stored.exists() else ["plan", "-"]
    return [str(ROWS / word) if (ROWS / word).is_file() else word for word in words]


def script_cases(script, words, report, fault=None):
    if fault is not None:
        yield Case(script.name, words, script.read_bytes(), b"", fault, 1)
        return
    yield Case(script.name, words, script.read_bytes(), report, b"", 0)
    for certificate in certificates_of(report):
        words = ["certify", str(script), "-"]
        yield Case(f"{script.name}, certified", words, certificate, b"yes\n", b"", 0)


def row_cases():
    faults = lines_of("faults.txt")
    for row in rows_in(ROWS):
        report = row.with_name(f"{row.name}.stdout").read_bytes()
        yield from script_cases(row, words_of(row), report, faults.get(row.name))


def run_cases():
    """`run` on the rows, by one thread and by several: it writes what `plan` writes."""
    faults = lines_of("faults.txt")
    for number, row in enumerate(rows_in(ROWS)):
        words = ["run", *WORKERS[number % len(WORKERS)], "-"]
        report, fault = row.with_name(f"{row.name}.stdout").read_bytes(), faults.get(row.name, b"")
        yield Case(f"{row.name}, {' '.join(words)}", words, row.read_bytes(), report, fault, 1 if fault else 0)
    row = ROWS / "kept_tables"
    for workers in WORKERS:
        words = ["run", *workers, str(row)]
        yield Case(f"{row.name}, {' '.join(words[:-1])}", words, b"", row.with_suffix(".stdout").read_bytes(), b"", 0)


def certificate_cases():
    faults = lines_of("certificate_faults.txt")
    for certificate in rows_in(CERTIFICATES):
        verdict = certificate.with_name(f"{certificate.name}.stdout").read_bytes()
        fault = faults.get(certificate.name, b"")
        status = 1 if fault else 0 if verdict == b"yes\n" else 3
        what = f"certificate {certificate.name}"
        yield Case(what, words_of(certificate), certificate.read_bytes(), verdict, fault, status)
        output = fault_of(fault.decode()) if fault else verdict_of(verdict.decode())
        script = pathlib.Path(words_of(certificate)[1]).read_bytes()
        both = script + b"\n---\n" + certificate.read_bytes()
        yield Case(f"{what} behind its script", ["certify", "-"], both, verdict, fault, status)
        yield Case(f"{what} behind its script, with a line after it", ["certify", "-"], both + b"\n---\n", verdict, fault, status)
        yield Case(f"{what} as JSON", [*words_of(certificate), "--json"], certificate.read_bytes(), output, fault, status, reader=read_json)


def change_cases():
    """Scripts and a certificate of which words are changed: the fault that is told, or the report that stays as it was."""
    for file in sorted(CHANGES.glob("*.toml")):
        text, changes = tomllib.loads(file.read_text()).values()
        words = ["certify", str(EXAMPLES / "smallest.toml"), "-"] if file.stem == "certificate" else ["plan", "-"]
        stays = [change for change in changes if "fault" not in change]
        report = reference.report(reference.read_script(text.encode())).encode() if stays else b""
        for change in changes:
            old, new = change["old"], change["new"]
            if old not in text:
                sys.exit(f"tests/changes: {file.name} has no such words: {old}")
            output, error = (b"", f"fault {change['fault']}\n".encode()) if "fault" in change else (report, b"")
            yield Case(f"{file.name}, {old!r} as {new!r}", words, text.replace(old, new, 1).encode(), output, error, 1 if error else 0)


def run_cut(program, folder):
    """Runs whose standard output takes so many bytes and no more, up to the whole report: how many there were, and how many
    didn't write just these and then say `device`."""
    runs, wrong, file = 0, 0, folder / "cut"

    def limit(size):
        signal.signal(signal.SIGXFSZ, signal.SIG_IGN)
        resource.setrlimit(resource.RLIMIT_FSIZE, (size, size))

    for script in EXAMPLES / "smallest.toml", EXAMPLES / "packets.toml", ROWS / "settled_in_part":
        report = (script.with_suffix(".report") if script.suffix else script.with_suffix(".stdout")).read_bytes()
        for size in range(len(report) + 1):
            with open(file, "wb") as output:
                done = subprocess.run([*program, "plan", str(script)], stdout=output, stderr=subprocess.PIPE, preexec_fn=lambda: limit(size), timeout=120)
            got = file.read_bytes(), done.stderr.splitlines()[:1], done.returncode
            wanted = report[:size], *(([b"device"], 4) if size < len(report) else ([], 0))
            if got != wanted:
                print(f"== {script.name}, of whose report {size} bytes are taken\n-- {got!r}\n-- and not {wanted!r}")
            runs, wrong = runs + 1, wrong + (got != wanted)
    return runs, wrong


def example_cases():
    for script in sorted(EXAMPLES.glob("*.toml")):
        yield from script_cases(script, ["plan", str(script)], script.with_suffix(".report").read_bytes())
    for certificate in sorted(EXAMPLES.glob("*.certificate")):
        words = ["certify", str(certificate.with_suffix(".toml")), str(certificate)]
        yield Case(certificate.name, words, b"", b"yes\n", b"", 0)


def refresh_script(version):
    """An hour of turns, one a minute, each of which sees ten headers more, and of a client whose record is to be refreshed after ten minutes."""
    time = lambda second: f"1970-01-01T{second // 3600:02}:{second // 60 % 60:02}:{second % 60:02}Z"
    text = f'version = {version}\nchain = [{{ id = "a" }}, {{ id = "b" }}]\n[[client]]\nid = "c"\nhost = "b"\nof = "a"\n'
    text += f"period_ns = {700 * 10**9}\ndrift_ns = {10**9}\nrefresh_ns = {600 * 10**9}\nfee = [1, 0, 0]\ngas = [1, 0, 0]\nlimits = [1, 1, 0]\n"
    for turn in range(1, 61):
        events = [f'{{ kind = "header", chain = "a", height = {h}, time = "{time(6 * h)}", set = "s", next = "s", votes = "C" }},\n'
                  for h in range(10 * turn - 9, 10 * turn + 1)]
        if turn == 1:
            events.insert(0, f'{{ kind = "set", chain = "a", name = "s", validators = [["{"a1" * 32}", 1]] }},\n')
            events.append('{ kind = "stored", client = "c", height = 1, time = "1970-01-01T00:00:06Z", next = "s" },\n')
        taken = "taken = true" if version > 2 else f'settle = [{{ client = "c", batch = {max(turn - 10, 1)}, done = 1 }}]'
        text += f'[[turn]]\nfrom = "{time(60 * turn)}"\nuntil = "{time(60 * turn)}"\n{taken}\nevent = [\n{"".join(events)}]\n'
    return text.encode()


def refresh_cases():
    """Where headers are dense, how many updates refreshes take: one in each turn from the eleventh on, and from version 3 on one in ten turns."""
    count = lambda report: report.count(b"\nupdate ")
    for version, updates in (2, 50), (3, 5):
        yield Case(f"an hour of refreshes in version {version}", ["plan", "-"], refresh_script(version), updates, b"", 0, reader=count)


def beginning_cases(row, first):
    """Every eighth beginning of a row from this one on: a fault and nothing else, or the report of the shorter script."""
    script = (ROWS / row).read_bytes()
    for length in range(first, len(script), 8):
        try:
            output, error, status = reference.report(reference.read_script(script[:length])).encode(), b"", 0
        except reference.Fault as fault:
            output, error, status = b"", f"{fault}\n".encode(), 1
        yield Case(f"the first {length} bytes", ["plan", "-"], script[:length], output, error, status)
