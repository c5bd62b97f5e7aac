"""Rounds until the relayer is stopped, each for the hosts of which a client is to be looked at."""
import base64
import functools
import signal
import threading

from relayer.config import Config
from relayer.lines import outcome_value
from relayer.metrics import serve
from relayer.node import Kind, Refused, SourceFailure
from relayer.rounds import Outcome, Relayer
from relayer.send import Ending
from relayer.sources import Sources
from relayer.values import Fields

BLOCK_SECONDS = 5.0  # after which a host's next block is there
RETRY_SECONDS = 60.0  # until a client without a plan is looked at again
MOST_BLOCKS = 20  # of a chain that are read at once; with more its hosts are looked at anyway
FINAL_BLOCKS = 2  # after which a header proves what a block wrote, and has its votes


def stop_by_signals(stop: threading.Event) -> None:
    """Sets an event at SIGTERM or SIGINT. Programs that are started ignore both, so that a signal to all processes ends none of them in a transaction."""
    signals = {signal.SIGTERM, signal.SIGINT}
    signal.pthread_sigmask(signal.SIG_BLOCK, signals)

    def wait() -> None:
        signal.sigwait(signals)
        stop.set()

    threading.Thread(target=wait, daemon=True).start()


class Blocks:
    """New blocks of chains with channels: a packet that one sends, or an acknowledgement that it writes, is something to do for a host."""

    def __init__(self, config: Config, sources: Sources) -> None:
        self.sources = sources
        self.heights: dict[str, int] = {}  # of chains: the block that was read last
        self.found: set[tuple[str, int, str]] = set()  # a chain, one of its blocks, and the host that has to do something
        self.ends: dict[str, list[tuple[str, str, str, str]]] = {}  # of chains: an event, the name and the value of its attribute, and the host
        for path in config.paths:
            for (chain, _, channel), event, side, other in (path.ends[0], "send_packet", "src", path.dest), (path.ends[1], "write_acknowledgement", "dst", path.source):
                if other in config.hosts():
                    self.ends.setdefault(chain, []).append((event, f"packet_{side}_channel", channel, other))

    def look(self) -> set[str]:
        """The hosts that have something to do by now."""
        self.sources.together([functools.partial(self.read_new, chain) for chain in self.ends])
        ready = {each for each in self.found if self.heights.get(each[0], 0) >= each[1] + FINAL_BLOCKS}
        self.found -= ready
        return {host for _, _, host in ready}

    def read_new(self, chain: str) -> None:
        """Reads the blocks of a chain since the last time."""
        results = self.results(chain, "")
        latest, last = results.number("height") or 0, self.heights.get(chain, 0)
        for height in range(max(last + 1, latest - MOST_BLOCKS), latest) if last else ():
            self.read(chain, height, self.results(chain, f"?height={height}"))
        if 0 < last < latest - MOST_BLOCKS - 1:
            self.found |= {(chain, latest, host) for _, _, _, host in self.ends[chain]}
        if latest > last:
            self.read(chain, latest, results)
            self.heights[chain] = latest

    def read(self, chain: str, height: int, results: Fields) -> None:
        events = [event for result in results.objects("txs_results") for event in result.objects("events")]
        events += [event for key in ("begin_block_events", "end_block_events", "finalize_block_events") for event in results.objects(key)]
        for event in events:
            values = {(each.text("key"), each.text("value")) for each in event.objects("attributes")}
            for name, key, value, host in self.ends[chain]:
                if event.text("type") == name and not values.isdisjoint({(key, value), (encoded(key), encoded(value))}):
                    self.found.add((chain, height, host))

    def results(self, chain: str, query: str) -> Fields:
        """What the first node tells of a block; nothing where it fails, and then it is asked last from now on."""
        for source in self.sources.usable(chain, Kind.NODE)[:1]:
            try:
                return source.ask(f"/block_results{query}").fields
            except Refused:
                pass
            except SourceFailure:
                self.sources.move(source, -1)
        return Fields({})


def encoded(text: str) -> str:
    """A text as older nodes write it."""
    return base64.b64encode(text.encode()).decode()


class Watch:
    """Rounds of a relayer. Between them it waits for what the plans tell, for packets in new blocks, or for what becomes of transactions."""

    def __init__(self, relayer: Relayer) -> None:
        self.relayer, self.config, self.log, self.clock, self.metrics = relayer, relayer.config, relayer.log, relayer.clock, relayer.metrics
        self.looks = dict.fromkeys(self.config.hosts(), self.clock.seconds())  # when hosts are looked at next
        self.blocks, self.wanted = Blocks(self.config, self.relayer.sources), set[str]()  # hosts that have something to do for packets

    def run(self) -> None:
        server = serve(self.metrics, self.config.metrics_port) if self.config.metrics_port else None
        self.log.info("watching", clients=len(self.config.clients), hosts=self.config.hosts(), metrics_port=self.config.metrics_port or None)
        try:
            while not self.relayer.stop.is_set():
                if hosts := self.due():
                    self.round(hosts)
                self.measure()
                self.clock.wait(self.relayer.stop, self.config.poll_seconds)
            self.relayer.senders.wait()
        finally:
            if server is not None:
                server.shutdown()
        self.log.info("stopped", open=len(self.relayer.state.open) or None)

    def due(self) -> list[str]:
        """The hosts that are to be looked at: those whose time has come, that have something to do for packets, or to which what was sent isn't on its way any
        more."""
        self.wanted |= self.blocks.look()
        ended = self.relayer.senders.ended()
        ended &= {outcome.client.host for outcome in self.relayer.outcomes.values() if outcome.sent and outcome.sent[-1].ending is not Ending.HELD}
        free = [host for host in self.config.hosts() if not self.relayer.senders.is_busy(host)]
        is_open = {host for host in free if self.relayer.state.of_host(host)}
        self.relayer.settle_open(free)
        ended |= {host for host in is_open if not self.relayer.state.of_host(host)}
        return [host for host in free if host in ended | self.wanted or self.clock.seconds() >= self.looks[host]]

    def round(self, hosts: list[str]) -> None:
        """A round for some hosts, logged and counted."""
        self.wanted.difference_update(hosts)
        report = self.relayer.round(hosts)
        for outcome in report.clients:
            say = self.log.warn if outcome.word in ("unknown", "failed", "unreachable") else self.log.info
            say("client", **outcome_value(outcome))
        aside = [left + 1 for name in [*self.relayer.state.failures] if " " in name and (left := self.relayer.seconds_left(name))]  # of packets
        for host in hosts:
            times = [self.seconds_until(outcome) for outcome in report.clients if outcome.client.host == host]
            self.looks[host] = self.clock.seconds() + min(*aside, *times, self.config.round_seconds)
        self.log.info("round", hosts=hosts, seconds=round(report.seconds, 3), requests=report.requests, calls=report.calls)
        for path in self.config.paths:
            if {path.forward, path.back} & {outcome.client.name for outcome in report.clients} and path.name not in report.unknown:
                self.metrics.put("ibcplan_path_pending_packets", sum(packet.path == path.name for packet in report.waiting), path=path.name)
        self.metrics.add("ibcplan_relayer_rounds_total", 1)
        self.metrics.put("ibcplan_relayer_round_seconds", report.seconds)
        for name, standing in report.standings.items():
            self.metrics.put("ibcplan_relayer_chain_height", standing.height, chain=name)

    def seconds_until(self, outcome: Outcome) -> float:
        """In how many seconds a client is to be looked at again, if no transaction ends before: when something is due by its plan, soon where that didn't go."""
        plan = outcome.plan
        if plan is None or plan.is_due or plan.outcome == "unreachable":
            return max(self.relayer.seconds_left(outcome.client.name), RETRY_SECONDS)
        if plan.next is None:
            return self.config.round_seconds
        return min(max((plan.next - outcome.until) / 10**9, 0.0) + BLOCK_SECONDS, self.config.round_seconds)

    def measure(self) -> None:
        """Puts what is now into the metrics."""
        outcomes = list(self.relayer.outcomes.values())
        self.metrics.forget("ibcplan_relayer_clients")
        self.metrics.forget("ibcplan_client_next_timestamp_seconds")
        for outcome in outcomes:
            self.metrics.add("ibcplan_relayer_clients", 1, outcome=outcome.word)
            plan = outcome.plan
            for name, nanos in ("expires", plan.expires if plan else None), ("next", plan.next if plan else None):
                if nanos is not None:
                    self.metrics.put(f"ibcplan_client_{name}_timestamp_seconds", nanos / 10**9, **outcome.client.labels)
        self.metrics.put("ibcplan_relayer_open_transactions", len(self.relayer.state.open))
        self.metrics.put("ibcplan_relayer_failures", len(self.relayer.state.failures))
        for source in self.relayer.sources.all():
            labels = {"chain": source.chain, "kind": source.kind.value, "address": source.address}
            self.metrics.put("ibcplan_relayer_requests_total", source.requests, **labels)
            self.metrics.put("ibcplan_relayer_source_failures", source.failures, **labels)
