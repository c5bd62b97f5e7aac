"""The proved program: `want`, `import`, `plan` and `messages`, called with lists of arguments, and what they write."""
import dataclasses
import fractions
import os
import pathlib
import re
import subprocess
import tomllib
import typing
from collections.abc import Mapping

import ibcplan
from relayer.config import Chain, Client, Config, Path
from relayer.records import text, whole
from relayer.values import Fields, nanoseconds, stamp_of
from relayer.words import Fault, shown

SECONDS = 600  # that a call may take
GET = re.compile(r"get (\S+) (/\S+) ([A-Za-z0-9][A-Za-z0-9._+#\[\]<>-]{0,63}(?:/proofs)?)/([a-z_]+(?:-[0-9]+)*)(\.json)?")
TRANSACTION = re.compile(r"(tx-[0-9]+-[A-Za-z0-9._+#\[\]<>-]+\.json) client (\S+) transaction ([0-9]+) messages [0-9]+")
LOST = re.compile(r"left out (\S+) (recv|ack|timeout) ([0-9]+): ([A-Za-z]+)")
LEFT_OUT = re.compile(r"(?:left out (\S+): )?(refused (\S+) .*|device.*)")
DONE, REFUSED, IN_PART = 0, 1, 7


@dataclasses.dataclass(frozen=True)
class Request:
    """An answer that `want` or `messages` asks for: whom to ask, the path, and the folder and the file for it."""

    chain: str
    path: str
    folder: str
    name: str
    ending: str

    @property
    def file(self) -> str:
        return f"{self.folder}/{self.name}{self.ending}"

    @property
    def kind(self) -> str:
        """The name of the request without its numbers."""
        return self.name.partition("-")[0]

    @property
    def number(self) -> int:
        """The first number of the request's name: the height of a commit or of validators, the page of a query."""
        return int(self.name.split("-")[1]) if "-" in self.name else 0


@dataclasses.dataclass(frozen=True)
class Refusal:
    """Why a client or a path is left out: the name of the refusal, all of its line, and the files that it names."""

    name: str
    words: str
    files: list[str] = dataclasses.field(default_factory=list)


@dataclasses.dataclass(frozen=True)
class Packet:
    """A message on a packet: its kind, its path and its sequence."""

    kind: typing.Annotated[str, text(".+")]
    path: typing.Annotated[str, text(".+")]
    sequence: typing.Annotated[int, whole(0, 2**63 - 1)]

    @property
    def name(self) -> str:
        """The packet's name among what failed."""
        return f"{self.path} {self.sequence}"

    def __str__(self) -> str:
        return f"{self.kind} {self.name}"


@dataclasses.dataclass(frozen=True)
class ClientPlan:
    """What a report says of a client in its last turn, with the updates and the packet messages of each transaction; times are nanoseconds since 1970."""

    outcome: str
    next: int | None
    expires: int | None
    is_live: bool
    updates: list[ibcplan.Update]
    packets: list[Packet]
    transactions: list[tuple[list[ibcplan.Update], list[Packet]]]
    fee: int
    is_too_big: bool

    @property
    def is_due(self) -> bool:
        return bool(self.updates or self.packets)


class Planner:
    """The program of a configuration."""

    def __init__(self, config: Config) -> None:
        self.words, self.calls = config.program, 0
        self.verified = ["--verified"] if config.verify else []

    def run(self, *words: str, statuses: tuple[int, ...] = (DONE,)) -> tuple[int, str, str]:
        """The status of a call, and what it writes to both outputs."""
        self.calls += 1
        try:
            done = subprocess.run([*self.words, *words], stdin=subprocess.DEVNULL, capture_output=True, timeout=SECONDS, env={**os.environ, "LC_ALL": "C"},
                                  encoding="utf-8", errors="replace")
        except (OSError, subprocess.TimeoutExpired) as error:
            raise Fault(f"{shown(self.words[0])} {words[0]}: {shown(error)}", 4) from None
        if done.returncode not in statuses or done.returncode == REFUSED and done.stderr.startswith("fault "):
            raise Fault(f"ibcplan {words[0]} ended with status {done.returncode}: {shown(done.stderr, 1000)}", 4)
        return done.returncode, done.stdout, done.stderr

    def want(self, setup: pathlib.Path, folder: pathlib.Path) -> tuple[list[Request], dict[str, str]]:
        """What to ask for, and why no more is asked for a client or a path."""
        _, output, error = self.run("want", str(setup), str(folder))
        return requests_in(output), dict(line.removeprefix("end ").split(": ", 1) for line in error.splitlines() if line.startswith("end ") and ": " in line)

    def script_of(self, setup: pathlib.Path, folder: pathlib.Path) -> tuple[str, dict[str, Refusal]]:
        """The script of answers, empty where nothing is left, and what is left out of it; the whole has the name ""."""
        status, output, error = self.run("import", *self.verified, str(setup), str(folder), statuses=(DONE, REFUSED, IN_PART))
        return output if status != REFUSED else "", left_out_in(error, folder)

    def plan(self, script: pathlib.Path) -> dict[str, ClientPlan]:
        """What the report says of each client."""
        try:
            report = ibcplan.report_of(self.run("plan", "--json", str(script))[1])
        except ibcplan.Misused as error:
            raise Fault(str(error), 4) from None
        ends = {end["id"]: end for end in report["clients"]}
        return {client["id"]: plan_of(client, ends[client["id"]]) for client in report["turns"][-1]["clients"]}

    def messages(self, setup: pathlib.Path, folder: pathlib.Path, made: pathlib.Path) -> tuple[int, str, str]:
        """Makes the updates and the transactions of a setup's batches, or asks for the proofs that it needs before."""
        return self.run("messages", *self.verified, str(setup), str(folder), str(made), statuses=(DONE, IN_PART))


# ---- what the program writes


def made_in(made: pathlib.Path, output: str, error: str) -> tuple[dict[tuple[str, int], pathlib.Path], dict[Packet, str]]:
    """What `messages` made in a folder, by what it wrote to both outputs: the files of transactions by their client and their number; and the packet messages
    that it left out, with the reason."""
    return ({(match[2], int(match[3])): made / match[1] for line in output.splitlines() if (match := TRANSACTION.fullmatch(line))},
            {Packet(match[2], match[1], int(match[3])): match[4] for line in error.splitlines() if (match := LOST.fullmatch(line))})


def requests_in(output: str) -> list[Request]:
    """The requests in the lines of `want` or `messages`."""
    lines = [GET.fullmatch(line) for line in output.splitlines() if line.startswith("get ")]
    if not all(lines):
        raise Fault("ibcplan asks in a line of another form: is it of another version?", 4)
    return [Request(*match.groups("")) for match in lines if match]


def plan_of(client: ibcplan.Client, end: ibcplan.Health) -> ClientPlan:
    outcome, expires, is_live = client["outcome"], nanoseconds(end.get("expires", "")), end.get("live", False)
    upcoming = nanoseconds(client.get("next", "")) if client["outcome"] == "idle" or client["outcome"] == "plan" else None
    if client["outcome"] != "plan":
        return ClientPlan(outcome, upcoming, expires, is_live, [], [], [], 0, False)
    updates = client["updates"]
    packets = [Packet(each["kind"], each["path"], each["sequence"]) for each in client["messages"]]
    spans = [(each["first"], each["first"] + each["count"]) for each in client.get("transactions", [])]
    transactions = [(updates[first:end], packets[max(first - len(updates), 0):max(end - len(updates), 0)]) for first, end in spans]
    return ClientPlan(outcome, upcoming, expires, is_live, updates, packets, transactions, client["total"]["fee"], "too_big" in client)


def left_out_in(error: str, folder: pathlib.Path) -> dict[str, Refusal]:
    """What is left out by the lines of `import`: `left out ID: ` or nothing, `refused NAME at PLACE`, then lines with the files, whose names are the
    relayer's own."""
    files = re.compile(re.escape(f"{folder}/") + r"([A-Za-z0-9._+#\[\]<>-]+/[a-z_]+(?:-[0-9]+)*\.json)")
    found: dict[str, Refusal] = {}
    latest = Refusal("", "")
    for line in error.splitlines():
        if match := LEFT_OUT.fullmatch(line):
            latest = found[match[1] or ""] = Refusal(match[3] or "device", match[2])
        elif line.startswith("notice "):
            latest = Refusal("", "")
        else:
            latest.files.extend(dict.fromkeys(files.findall(line)))
    return found


# ---- packets


@dataclasses.dataclass(frozen=True)
class Waiting:
    """A packet that waits: where it was sent, how many blocks ago, and for what it waits."""

    path: str
    sequence: int
    height: int
    age_blocks: int
    waits_for: str
    is_due: bool


def packets_in(script: str, heights: Mapping[str, int], due: Mapping[tuple[str, int], str]) -> list[Waiting]:
    """The packets that a script tells of, and that aren't cleared; beside the heights of the paths' sources, and the kinds of the messages that are due."""
    by_kind: dict[str, dict[tuple[str, int], int]] = {kind: {} for kind in ("sent", "received", "ack", "cleared")}
    for event in Fields(tomllib.loads(script)).objects("turn")[-1].objects("event"):
        by_kind.setdefault(event.text("kind") or "", {})[event.text("path") or "", event.number("seq") or 0] = event.number("height") or 0
    found = []
    for key, height in by_kind["sent"].items():
        if key not in by_kind["cleared"]:
            waits_for = "acknowledgement" if key in by_kind["ack"] else "its acknowledgement's writing" if key in by_kind["received"] else "receive"
            found.append(Waiting(*key, height, max(heights.get(key[0], 0) - height, 0), "timeout" if due.get(key) == "timeout" else waits_for, key in due))
    return found


# ---- setups


def chain_data(chain: Chain, account: str) -> dict[str, ibcplan.Data]:
    """A chain, with how transactions to it are paid where there is an account."""
    if not account:
        return {"id": chain.id}
    price, denom = chain.price
    factor = fractions.Fraction(str(chain.gas_factor))
    return {"id": chain.id, "signer": account, "fee_denom": denom, "gas_price": price.as_integer_ratio(), "gas_factor": factor.as_integer_ratio()}


def client_data(client: Client, host: Chain, is_alone: bool) -> dict[str, ibcplan.Data]:
    """A client, of whose messages each gets a transaction of its own where that is asked for."""
    gas, messages, own = host.limits
    refresh: dict[str, ibcplan.Data] = {"refresh_ns": client.refresh_seconds * 10**9} if client.refresh_seconds else {}
    return {"id": client.name, "host": client.host, "of": client.of, **refresh, "fee": host.fee, "gas": host.gas, "limits": (gas, 1 if is_alone else messages, own)}


def path_data(path: Path) -> dict[str, ibcplan.Data]:
    data: dict[str, ibcplan.Data] = {"id": path.name, **dataclasses.asdict(path), "wait_ns": [seconds * 10**9 for seconds in path.wait_seconds]}
    return {key: value for key, value in data.items() if key != "wait_seconds"}


def setup_text(config: Config, clients: list[Client], paths: list[Path], begins: dict[str, int], accounts: dict[str, str], alone: set[str]) -> str:
    """The setup of clients and paths, for what arrives in windows from the latest blocks of the clients' hosts on; of those that send alone, each message has
    its transaction."""
    chains = list(dict.fromkeys(name for client in clients for name in (client.host, client.of)))
    windows = {host: {"from": stamp_of(begin), "until": stamp_of(begin + config.window_nanos)} for host, begin in begins.items()}
    turn: dict[str, ibcplan.Data] = {"window": [{"host": host, **window} for host, window in windows.items()]}
    turn |= windows[min(begins, key=lambda host: begins[host])]
    return ibcplan.text_of({"version": 1, "chain": [chain_data(config.chain(name), accounts.get(name, "")) for name in chains],
                            "client": [client_data(client, config.chain(client.host), client.name in alone) for client in clients],
                            "path": [path_data(path) for path in paths], "turn": [turn]})
