"""Work of the program: scripts and certificates at the limits."""
import pathlib
import subprocess
import sys
import tempfile

import inputs
import measure
from relays import Relay

TOP = pathlib.Path(__file__).resolve().parent.parent
PROGRAM = TOP / "crates" / "ibcplan" / "out" / "ibcplan"

MOST = 2**63 - 1
MOST_BYTES = 16_777_216


class Folder:
    """A folder for the inputs."""

    def __init__(self, path):
        self.path = pathlib.Path(path)

    def file(self, name, text):
        if len(text) > MOST_BYTES:
            sys.exit(f"{name} has {len(text)} bytes")
        path = self.path / name
        path.write_text(text)
        return path

    def plan(self, name, text):
        """A line of a table: the plan of a script."""
        path = self.file(name.replace(" ", "-"), text)
        return f"{name}, {len(text) / 1e6:.1f} MB", [PROGRAM, "plan", path]

    def certify(self, name, script, text):
        """A line of a table: the verdict on a certificate, which it names."""
        words = [PROGRAM, "certify", script, self.file(name.replace(" ", "-"), text)]
        _, verdict, status = measure.run(words)
        if status not in (0, 3):
            sys.exit(f"{name}: status {status}")
        return f"{name}, {len(text) / 1e6:.1f} MB: {verdict.strip()}", words


def print_plans(folder):
    lines = [folder.plan(f"900 headers a chain, chains: {chains}", inputs.chains_script(chains)) for chains in (1, 4, 15)]
    measure.print_group("plan: many chains, 1,000 validators each", lines)
    counts = (256, 512, 1024)
    lines = [folder.plan(f"{n} headers", inputs.headers_script(n)) for n in counts]
    measure.print_group("plan: one set of 100 validators", lines)
    lines = [folder.plan(f"{n} headers, 64 a set", inputs.headers_script(n, lasts=64)) for n in counts]
    measure.print_group("plan: a set of 100 validators lasts 64 headers", lines)
    lines = [folder.plan(f"{n} headers, 1 a set", inputs.headers_script(n, validators=20, lasts=1)) for n in counts]
    measure.print_group("plan: another set of 20 validators at each header", lines)
    lines = [folder.plan(f"{n} names of sets", inputs.names_script(n)) for n in (20_000, 40_000, 80_000)]
    measure.print_group("plan: names of sets", lines)


def heights_between(labels, step):
    """Labels of heights that no header has, below those that a header has."""
    return [(h, 0, 0) for h in range(labels[0][0] + 1, labels[-1][0]) if h % step]


def print_certificates(folder):
    step = 1000
    script = folder.file("script", inputs.headers_script(1024, step=step))
    _, report, _ = measure.run([PROGRAM, "plan", script])
    updates, labels = inputs.answer_of(report)
    honest = inputs.certificate(updates, labels)
    between = sorted(labels + heights_between(labels, step))
    repeated = updates[:1] * 1_000_000 + updates
    beyond = [(MOST - place, MOST, MOST) for place in range(250_000, -1, -1)]
    lines = [
        folder.certify("the report's own", script, honest),
        folder.certify(f"{len(between)} labels", script, inputs.certificate(updates, between)),
        folder.certify(f"{len(repeated)} updates", script, inputs.certificate(repeated, labels)),
        folder.certify(f"{len(beyond)} labels at the limits", script, inputs.certificate(updates, labels + beyond)),
        folder.certify("labels without a plan", script, inputs.certificate([], between, "unreachable")),
    ]
    measure.print_group("certify: 1,024 headers, one set of 100 validators", lines, statuses=(0, 3))


def print_relays(folder):
    def line(name, **sizes):
        return folder.plan(name, Relay(**sizes).text())

    lines = [line(f"{n} turns", turns=n, headers=n, packets=n) for n in (125, 250, 500)]
    measure.print_group("plan: turns with a header of each chain and a packet", lines)
    lines = [line(f"{n} chains", zones=n - 1, turns=4, headers=64, packets=16) for n in (16, 32, 64)]
    measure.print_group("plan: a hub and its zones, a pair of clients each", lines)
    lines = [line(f"{2 * n} clients", pairs=n, headers=512, packets=1) for n in (32, 64, 128)]
    measure.print_group("plan: clients of two chains of 512 headers", lines)
    lines = [line(f"{n} packets a path", pairs=8, turns=4, headers=16, packets=n) for n in (1024, 2048, 4096)]
    measure.print_group("plan: packets of 8 paths", lines)
    lines = [line(f"{n} packets a path", zones=63, pairs=2, turns=10, headers=100, packets=n) for n in (135, 270, 540)]
    measure.print_group("plan: 64 chains, 252 clients, 126 paths, 10 turns; 200,000 entries at last", lines)


def print_reading(folder):
    """Reading alone: scripts of which the last turn is refused, and the same without a version, of which only the TOML is read."""
    read, parsed = [], []
    for packets, validators in (135, 95), (270, 190), (540, 380):
        text = Relay(zones=63, pairs=2, turns=10, headers=100, packets=packets, validators=validators).text() + "[[turn]]\n"
        read.append(folder.plan(f"{packets} packets a path, read", text))
        parsed.append(folder.plan(f"{packets} packets a path, parsed", text.replace("version = 1\n", "", 1)))
    measure.print_group("plan: a fault at the end", read, statuses=(1,))
    measure.print_group("plan: a fault at the beginning, after the TOML was read", parsed, statuses=(1,))


def print_workers(folder):
    """The same report by `plan` and by workers, where planning takes the time and where reading does."""
    kinds = [
        ("clients of two chains of 512 headers: 256", dict(pairs=128, headers=512, packets=1)),
        ("64 chains of 1,000 headers, 252 clients, 60 turns", dict(zones=63, pairs=2, turns=60, headers=1000, packets=60)),
        ("64 chains, 252 clients, 126 paths, 10 turns", dict(zones=63, pairs=2, turns=10, headers=100, packets=540)),
    ]
    for name, sizes in kinds:
        script = folder.file(name.replace(" ", "-"), Relay(**sizes).text())
        lines = [("plan", [PROGRAM, "plan", script])]
        lines += [(f"run --workers {number}", [PROGRAM, "run", "--workers", number, script]) for number in (1, 2, 4)]
        measure.print_group(f"plan and run: {name}", lines)


def print_tables():
    """Builds the program where it isn't, by ./ibcplan, and prints its tables."""
    subprocess.run([TOP / "ibcplan", "--build"], check=True, stdout=subprocess.DEVNULL)
    with tempfile.TemporaryDirectory() as path:
        folder = Folder(path)
        print_plans(folder)
        print_relays(folder)
        print_workers(folder)
        print_reading(folder)
        print_certificates(folder)
