"""A round: each host's window by its own block time, answers fetched and verified, imported and planned by the proved program, and transactions sent."""
import dataclasses
import fcntl
import pathlib
import shutil
import threading
import typing

from relayer.answers import PAGES, AnswerFolder
from relayer.clock import Clock
from relayer.config import Client, Config, Path
from relayer.fetch import SEARCH, Fetcher
from relayer.metrics import Metrics
from relayer.node import LONGEST_PAUSE, Kind, pause_after
from relayer.planner import ClientPlan, Packet, Planner, Refusal, Waiting, made_in, packets_in, setup_text
from relayer.send import Ending, Failed, Senders, Sent, Step, account_of, told_of
from relayer.sources import Sources, Standing
from relayer.state import Failure, Transaction, read_state
from relayer.values import stamp_of
from relayer.verify import Doubt
from relayer.words import Fault, Log, shown

IMPORTS = 4  # tries to import answers of which some are refused
PLANS = 3  # tries to plan without packets whose messages can't be made
SET_ASIDE = 3  # failures after which a packet waits for long
BEHIND = "Behind"  # of a message behind another one that can't be made
LONGEST = 86_400  # seconds that a packet waits at most
TOO_BIG = "ScriptTooBig"  # of a client: without it the script of the others fits
STUCK = "nothing goes on"  # of an end that `want` tells: no header leads the client further
# refusals that tell of the client or the configuration, and not of a source
BLAMELESS = {"FrozenClient", "UnsupportedClient", "ForeignKey", "OtherRevision", TOO_BIG, "MissingClientState", "MissingConsensusStates", "MissingCommitments"}


@dataclasses.dataclass
class Outcome:
    """What a round came to for a client: what was planned, what was sent, or why nothing was."""

    client: Client
    plan: ClientPlan | None = None
    until: int = 0  # the last moment of its host's blocks that the plan is for
    sent: list[Sent] = dataclasses.field(default_factory=list)
    why: str = ""

    @property
    def word(self) -> str:
        if self.plan is None:
            return "unknown"
        endings = {sent.ending for sent in self.sent}
        if Ending.FAILED in endings:
            return "failed"
        if Ending.OPEN in endings or Ending.LAPSED in endings:
            return "open"
        if self.plan.is_due:
            return "due" if Ending.INCLUDED not in endings else "updated" if self.plan.updates else "relayed"
        return self.plan.outcome


@dataclasses.dataclass
class Report:
    """A round: its clients, its seconds, the requests and calls that it took, the standings of the chains, the packets that wait, and why those of a path
    aren't known."""

    clients: list[Outcome]
    seconds: float
    requests: int
    calls: int
    standings: dict[str, Standing]
    waiting: list[Waiting]
    unknown: dict[str, str]


def locked(folder: pathlib.Path) -> typing.IO[bytes]:
    """A lock on a relayer's folder: two relayers in one would send twice."""
    folder.mkdir(parents=True, exist_ok=True)
    lock = open(folder / "lock", "ab")
    try:
        fcntl.flock(lock, fcntl.LOCK_EX | fcntl.LOCK_NB)
    except BlockingIOError:
        raise Fault(f"{folder}: another relayer works in this folder", 4) from None
    return lock


class Relayer:
    """The parts of a relayer that last from round to round."""

    def __init__(self, config: Config, log: Log, clock: Clock) -> None:
        self.config, self.log, self.clock, self.stop = config, log, clock, threading.Event()
        self.lock = locked(config.folder)
        self.sources, self.planner, self.metrics = Sources(config, log, clock), Planner(config), Metrics()
        self.folder = AnswerFolder(config.folder / "answers")
        self.fetcher = Fetcher(self.planner, self.sources, self.folder, config, log)
        self.state = read_state(config.folder / "state.json")
        self.senders = Senders(config, self.sources, self.state, clock, self.stop, log, self.tell)
        self.outcomes: dict[str, Outcome] = {}  # of the clients' last rounds
        self.accounts: dict[str, str] = {}  # of hosts: the addresses that sign

    def close(self) -> None:
        self.senders.wait()
        self.sources.close()
        self.lock.close()

    def round(self, hosts: list[str] | None = None, is_dry: bool = False) -> Report:
        """A round for the clients of some hosts, or of all; a chain without a source costs its own clients alone. Transactions may be on their way at its end."""
        begin, requests, calls = self.clock.seconds(), self.sources.requests(), self.planner.calls
        hosts = self.config.hosts() if hosts is None else hosts
        self.settle_open(hosts)
        outcomes = {client.name: Outcome(client) for client in self.config.clients if client.host in hosts}
        self.outcomes |= outcomes
        paths = [path for path in self.config.paths if not set(path.clients).isdisjoint(outcomes)]
        names = {*outcomes, *(name for path in paths for name in path.clients)}
        clients = [client for client in self.config.clients if client.name in names]
        chains = list(dict.fromkeys(name for client in clients for name in (client.host, client.of)))
        for source in self.sources.all():
            source.begin_round()
        for chain in dict.fromkeys(name for path in paths for name in path.chains):
            self.sources.shuffle(chain)
        self.folder.begin_round(chains, [client.name for client in clients], [path.name for path in paths])
        self.fetcher.begin_round(chains, self.state.blocks)
        found = Round(self, outcomes, paths)
        found.make(is_dry)
        for host in [] if is_dry else hosts:
            found.send(host)
        return Report([*outcomes.values()], self.clock.seconds() - begin, self.sources.requests() - requests, self.planner.calls - calls,
                      dict(self.fetcher.standings), [*found.waiting.values()], found.unknown)

    # ---- transactions

    def settle_open(self, hosts: list[str]) -> None:
        """Asks what became of transactions that nobody waits for any more."""
        for transaction in (each for host in hosts if not self.senders.is_busy(host) for each in self.state.of_host(host)):
            sent = self.senders.settle(transaction)
            if sent.ending is not Ending.OPEN:
                self.tell(sent)

    def account(self, host: str) -> str:
        """The address that signs for a host; without a program none."""
        chain = self.config.chain(host)
        if host not in self.accounts and chain.program:
            self.accounts[host] = account_of(chain)
        return self.accounts.get(host, "")

    def seconds_left(self, name: str) -> float:
        """How many seconds a client or a packet waits that failed."""
        failure = self.state.failures.get(name)
        return max(failure.until - self.clock.now(), 0) / 10**9 if failure else 0

    def fail(self, name: str, why: str, longest: int = 0) -> None:
        """Lets a client or a packet wait for a while, which grows with each failure; a packet for long from its third one on."""
        before = self.state.failures.get(name)
        count = before.count + 1 if before else 1
        seconds = pause_after(count + 1) if count < SET_ASIDE or not longest else min(LONGEST_PAUSE * 2 ** (count - SET_ASIDE), longest)
        self.state.fail(name, Failure(count, self.clock.now() + int(seconds * 10**9), why or "-"))

    def set_aside(self, packet: Packet, why: str) -> None:
        """Lets a packet wait whose message failed alone, or can't be made."""
        self.log.warn("packet failed", packet=str(packet), why=why)
        self.fail(packet.name, f"{packet.kind}: {why}", LONGEST)
        for chain in (name for path in self.config.paths if path.name == packet.path for name in path.chains):
            self.sources.prefer_another(chain, Kind.NODE)  # the one that told of it may lie

    def tell(self, sent: Sent) -> None:
        """Tells what became of a transaction; after one that failed its client waits for a while, or the packet if it is that one's alone."""
        transaction, is_included = sent.transaction, sent.ending is Ending.INCLUDED
        if outcome := self.outcomes.get(transaction.client):
            outcome.sent.append(sent)
        say = self.log.warn if sent.ending is Ending.FAILED else self.log.info
        say("transaction", **told_of(transaction), ending=sent.ending.value, words=sent.words or None, gas_used=sent.gas_used or None)
        self.metrics.add("ibcplan_relayer_transactions_total", 1, host=transaction.host, ending=sent.ending.value)
        for labels in [client.labels for client in self.config.clients if client.name == transaction.client and is_included]:
            self.metrics.add("ibcplan_relayer_updates_total", len(transaction.heights), **labels)
            self.metrics.add("ibcplan_relayer_fees_total", transaction.fee, **labels)
        if sent.has_failed_alone:
            self.set_aside(transaction.packets[0], sent.words)
        elif sent.ending is Ending.FAILED:
            self.fail(transaction.client, sent.words)
        if is_included:
            self.state.fail(transaction.client, None)
            for packet in transaction.packets:
                self.metrics.add("ibcplan_relayer_packets_total", 1, path=packet.path, kind=packet.kind)
                self.state.fail(packet.name, None)
            if transaction.heights:
                self.folder.drop_all(transaction.client, PAGES)


class Round:
    """The plans of a round, and the steps that they take at each host."""

    def __init__(self, relayer: Relayer, outcomes: dict[str, Outcome], paths: list[Path]) -> None:
        self.relayer, self.config, self.outcomes, self.paths = relayer, relayer.config, outcomes, paths
        self.fetcher, self.planner, self.folder, self.standings = relayer.fetcher, relayer.planner, relayer.folder, relayer.fetcher.standings
        self.place = relayer.config.folder / "round"
        self.steps: dict[str, list[Step]] = {}
        self.asked: set[tuple[str, str]] = set()  # files about clients, and the addresses that gave them
        self.accounts: dict[str, str] = {}  # of hosts
        self.whys: dict[str, str] = {}  # why nothing is sent to hosts
        self.waiting: dict[tuple[str, int], Waiting] = {}
        self.unknown: dict[str, str] = {}

    def make(self, is_dry: bool) -> None:
        """Plans for the clients of which nothing speaks against it, of all hosts together: each host has a window of its own. If it isn't dry, it makes
        transactions to the hosts that have a program."""
        shutil.rmtree(self.place, ignore_errors=True)
        for outcome in self.outcomes.values():
            outcome.why = self.why_not(outcome.client)
        clients = [outcome.client for outcome in self.outcomes.values() if not outcome.why]
        for host in [] if is_dry else dict.fromkeys(client.host for client in clients):
            try:
                if account := self.relayer.account(host):
                    self.accounts[host] = account
            except Failed as failed:
                self.whys[host] = str(failed)
        if clients:
            self.make_for(clients)
        stuck = {outcome.client.of for outcome in self.outcomes.values() if outcome.why.startswith(STUCK) or outcome.plan and outcome.plan.outcome == "unreachable"}
        for chain in stuck:
            self.fetcher.leave_headers(chain)

    def why_not(self, client: Client) -> str:
        """Why a client isn't planned for; empty where it is."""
        for chain in client.host, client.of:
            if chain not in self.standings:
                return f"no node of {chain} answers"
        host = self.standings[client.host]
        if self.relayer.sources.is_still(host):
            return f"{client.host} stands still, its last block is of {stamp_of(host.nanos)}"
        if any(transaction.client == client.name for transaction in self.relayer.state.of_host(client.host)):
            return "the inclusion of a transaction is open"
        return "it waits after a transaction that failed" if self.relayer.seconds_left(client.name) else ""

    def make_for(self, clients: list[Client]) -> None:
        """Plans for clients together. Where that fails they are planned for in halves, so that a fault costs the client alone that brings it."""
        try:
            self.plan(clients)
        except Fault as fault:
            if len(clients) == 1:
                self.relayer.log.warn("no plan", client=clients[0].name, why=str(fault))
                self.outcomes[clients[0].name].why = f"no plan: {fault}"
                return
            middle = len(clients) // 2
            self.make_for(clients[:middle])
            self.make_for(clients[middle:])

    def plan(self, clients: list[Client]) -> None:
        """Plans for clients, and makes their transactions. Packets whose messages can't be made are set aside, and it plans anew."""
        for number in range(PLANS):
            place = self.place / clients[0].name / f"{len(clients)}-{number}"
            place.mkdir(parents=True)
            text, left_out, since = self.script_for(clients, place / "setup.toml")
            if len(clients) > 1 and any(refusal.name == TOO_BIG for refusal in left_out.values()):
                raise Fault("the script of so many clients would be too big")
            if not text:
                return
            script = place / "script.toml"
            script.write_text(text)
            plans = self.planner.plan(script)
            planned = [client for client in clients if client.name not in left_out]
            files, lost = dict[tuple[str, int], pathlib.Path](), dict[Packet, str]()
            if any(plans[client.name].is_due and not plans[client.name].is_too_big and client.host in self.accounts for client in planned):
                files, lost = made_in(place / "messages", *self.fetcher.messages(place / "setup.toml", place / "messages")[1:])
            for packet, why in lost.items():
                if why != BEHIND:
                    self.relayer.set_aside(packet, why)
            if not lost:
                break
        for client in planned:
            plan = self.outcomes[client.name].plan = plans[client.name]
            self.outcomes[client.name].until = since[client.host].nanos + self.config.window_nanos
            for number, (updates, packets) in enumerate(plan.transactions, 1):
                if file := files.get((client.name, number)):
                    transaction = Transaction(client.host, client.name, tuple(update["height"] for update in updates), tuple(packet for packet in packets if packet not in lost),
                                              sum(update["fee"] for update in updates))
                    self.steps.setdefault(client.host, []).append(Step(transaction, file.read_bytes(), since[client.host]))
        self.note_waiting(clients, text, plans)

    def note_waiting(self, clients: list[Client], script: str, plans: dict[str, ClientPlan]) -> None:
        """Notes the packets that wait, and forgets failures of those that are over."""
        paths = self.paths_of(clients)
        due = {(packet.path, packet.sequence): packet.kind for plan in plans.values() for packet in plan.packets}
        waiting = packets_in(script, {path.name: self.standings[path.source].height for path in paths}, due)
        self.waiting |= {(each.path, each.sequence): each for each in waiting}
        for path in (path for path in paths if path.name not in self.unknown):
            for sequence in set(self.failed(path)).difference(self.aside(path), (each.sequence for each in waiting if each.path == path.name)):
                self.relayer.state.fail(f"{path.name} {sequence}", None)

    # ---- answers

    def script_for(self, clients: list[Client], setup: pathlib.Path) -> tuple[str, dict[str, Refusal], dict[str, Standing]]:
        """The script of the answers, what is left out of it, and where the hosts stand. Sources of refused answers are left, and others asked, a few times;
        likewise a node that told of a block that isn't there."""
        text, left_out, standings = "", dict[str, Refusal](), dict[str, Standing]()
        for _ in range(IMPORTS):
            for name in {client.host for client in clients} - self.standings.keys():
                raise Fault(f"no node of {name} answers")
            paths = self.paths_of(clients)
            names = {client.name for client in clients} | {name for path in paths for name in path.clients}
            all_clients = [client for client in self.config.clients if client.name in names]
            standings = {host: self.standings[host] for host in dict.fromkeys(client.host for client in all_clients)}
            accounts = {host: self.accounts[host] for host in {client.host for client in clients} & self.accounts.keys()}
            aside = [(path.name, sequence) for path in paths for sequence in self.aside(path)]
            self.fetcher.aside = {f"{name}/sent-{sequence}" for name, sequence in aside}
            for name, sequence in aside:
                self.folder.drop_packet(name, sequence)
            begins, alone = {host: standing.nanos for host, standing in standings.items()}, {client.name for client in clients if self.is_alone(client)}
            setup.write_text(setup_text(self.config, all_clients, paths, begins, accounts, alone))
            ends = self.fetcher.fetch(setup, [path.name for path in paths])
            for client in clients:
                self.outcomes[client.name].why = ends.get(client.name, "")
            self.unknown |= {path.name: "a node of its chains doesn't answer" for path in self.paths if path not in paths}
            self.unknown |= {path.name: ends[path.name] for path in paths if path.name in ends}
            if standings != {host: self.standings.get(host) for host in standings}:
                continue
            text, left_out = self.planner.script_of(setup, self.folder.folder)
            if not self.doubted(left_out):
                break
        self.unknown |= {path.name: left_out[path.name].words for path in self.paths if path.name in left_out}
        for client in clients:
            refusal, outcome = left_out.get(client.name) or left_out.get(""), self.outcomes[client.name]
            if (client.host, Kind.GATEWAY) in self.fetcher.down and refusal:
                outcome.why = f"no gateway of {client.host} answers"
            elif refusal:
                outcome.why = outcome.why or shown(refusal.words)
        return text, left_out, standings

    def paths_of(self, clients: list[Client]) -> list[Path]:
        """The paths that clients serve and of whose chains nodes answer."""
        return [path for path in self.paths if any(client.name in path.clients for client in clients) and self.standings.keys() >= {*path.chains}]

    def failed(self, path: Path) -> list[int]:
        """The packets of a path of which messages failed."""
        return [int(name.rpartition(" ")[2]) for name in [*self.relayer.state.failures] if name.rpartition(" ")[0] == path.name]

    def aside(self, path: Path) -> list[int]:
        """Those that wait."""
        return [sequence for sequence in self.failed(path) if self.relayer.seconds_left(f"{path.name} {sequence}")]

    def is_alone(self, client: Client) -> bool:
        """Whether each message of a client gets a transaction of its own: after one of its transactions failed, and where a packet is tried again."""
        of_client = [path for path in self.paths if client.name in path.clients]
        return client.name in self.relayer.state.failures or any(len(self.failed(path)) > len(self.aside(path)) for path in of_client)

    def doubted(self, left_out: dict[str, Refusal]) -> bool:
        """Whether answers were dropped, so that others are to be asked: those that can't be, whose sources are left, and those by which a client is frozen
        or no Tendermint client, until all gateways have said so. A search that can't be used is left out."""
        is_dropped = False
        for refusal in left_out.values():
            for file in refusal.files:
                source = self.folder.origins.get(file)
                if SEARCH.fullmatch(file):
                    self.fetcher.leave_search(file)
                elif refusal.name not in BLAMELESS:
                    self.fetcher.doubt(Doubt(file, f"import refuses it, {shown(refusal.name, 40)}"))
                    self.folder.drop_all(file.partition("/")[0], PAGES)
                elif source is not None and (file, source.address) not in self.asked:
                    self.asked.add((file, source.address))
                    self.folder.drop(file)
                    self.relayer.sources.move(source, -1)
                else:
                    continue
                is_dropped = True
        return is_dropped

    # ---- transactions

    def send(self, host: str) -> None:
        """Begins to send a host's steps, or tells why they don't go."""
        why = self.whys.get(host, "") if self.config.chain(host).program else f"the configuration has no program for {host}"
        if self.relayer.state.of_host(host):  # the account's next transaction would stand behind it
            why = f"the inclusion of a transaction to {host} is open"
        if why:
            for outcome in self.outcomes.values():
                if outcome.client.host == host and outcome.plan is not None and outcome.plan.is_due:
                    outcome.why = why
        elif host in self.steps:
            self.relayer.senders.start(host, self.steps[host])
