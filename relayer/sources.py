"""The nodes and the gateways of all chains. They fail singly: one that fails is left for another of the same chain."""
import concurrent.futures
import dataclasses
import functools
import random
import threading
from collections.abc import Callable, Iterable

from relayer.clock import Clock
from relayer.config import Config
from relayer.node import Answer, Kind, Refused, Source, SourceFailure
from relayer.values import Fields, nanoseconds, stamp_of
from relayer.words import Log

WORKERS = 16
BUSY_PAUSES = (0.2, 1.0)  # seconds before a source that failed is asked a second and a third time, where there is no other


class Unavailable(Exception):
    """No source of a chain answers."""


@dataclasses.dataclass(frozen=True)
class Standing:
    """What a node says of itself: its chain, the height and the time of its latest block, and whether it still catches up and has an index."""

    chain: str
    height: int
    nanos: int
    is_catching_up: bool
    has_index: bool


def standing_in(status: Fields) -> Standing | None:
    """The standing that an answer to `/status` tells."""
    about, sync = status.object("node_info"), status.object("sync_info")
    height, nanos = sync.number("latest_block_height"), nanoseconds(sync.text("latest_block_time"))
    if height is None or nanos is None:
        return None
    return Standing(about.text("network"), height, nanos, sync.value.get("catching_up") is True, about.object("other").text("tx_index") == "on")


class Sources:
    """All sources of a configuration, in the order in which they are asked."""

    def __init__(self, config: Config, log: Log, clock: Clock) -> None:
        self.window_nanos, self.log, self.clock, self.lock = config.window_nanos, log, clock, threading.Lock()
        self.never = threading.Event()
        self.lists = {(chain.id, kind): [Source(chain.id, kind, address, config.answer_seconds, clock) for address in addresses]
                      for chain in config.chains for kind, addresses in ((Kind.NODE, chain.nodes), (Kind.GATEWAY, chain.gateways))}
        self.pool = concurrent.futures.ThreadPoolExecutor(WORKERS, "fetch")

    def all(self) -> Iterable[Source]:
        return (source for found in self.lists.values() for source in found)

    def requests(self) -> int:
        """How many requests were made in all."""
        return sum(source.requests for source in self.all())

    def usable(self, chain: str, kind: Kind) -> list[Source]:
        with self.lock:
            return [source for source in self.lists.get((chain, kind), []) if source.is_usable()]

    def fail(self, source: Source, reason: str) -> None:
        if source.is_usable():
            source.fail()
            self.log.warn("source left", chain=source.chain, kind=source.kind.value, address=source.address, why=reason, failures=source.failures)

    def move(self, source: Source, place: int) -> None:
        """Asks a source before (0) or after (-1) all others of its chain from now on."""
        with self.lock:
            found = self.lists[source.chain, source.kind]
            found.remove(source)
            found.insert(0 if place == 0 else len(found), source)

    def prefer_another(self, chain: str, kind: Kind) -> bool:
        """Asks the first source of a chain after all others from now on, if there are others."""
        usable = self.usable(chain, kind)
        if len(usable) > 1:
            self.move(usable[0], -1)
        return len(usable) > 1

    def shuffle(self, chain: str) -> None:
        """Asks the gateways of a chain in an order by chance from now on: of a packet that one of them hides, another one tells sooner or later."""
        with self.lock:
            random.shuffle(self.lists[chain, Kind.GATEWAY])

    def ask(self, chain: str, kind: Kind, path: str, is_whole: Callable[[Answer], bool] = lambda answer: True) -> Answer:
        """The answer of the first source of a chain that gives one that is whole, else of the first that gives one; `Refused` where some refuse it and none
        gives it."""
        found, refusals = list[Answer](), list[Refused]()
        for source in self.usable(chain, kind):
            try:
                answer = self.ask_patiently(source, path)
                if is_whole(answer):
                    return answer
                found.append(answer)
            except Refused as refused:
                refusals.append(refused)
            except SourceFailure as failure:
                self.fail(source, str(failure))
        if found:
            return found[0]
        if refusals:
            raise refusals[-1]
        raise Unavailable(f"no {kind.value} of {chain} answers")

    def ask_patiently(self, source: Source, path: str) -> Answer:
        """The answer of a source. One that is the last of its chain is asked again after a failure that may pass."""
        pauses = () if len(self.usable(source.chain, source.kind)) > 1 else BUSY_PAUSES
        for pause in pauses:
            try:
                return source.ask(path)
            except SourceFailure as failure:
                if not failure.may_pass:
                    raise
                self.clock.wait(self.never, pause)
        return source.ask(path)

    def together(self, calls: list[Callable[[], None]]) -> None:
        """Makes calls side by side, and waits for all."""
        for future in [self.pool.submit(call) for call in calls]:
            future.result()

    # ---- standings

    def flaw(self, chain: str, standing: Standing | None) -> str:
        """Why nothing goes by a node's standing; empty where something may."""
        if standing is None:
            return "its status can't be read"
        if standing.chain != chain:
            return "it is a node of another chain"
        if standing.is_catching_up:
            return "it still catches up"
        return f"its block of {stamp_of(standing.nanos)} is ahead of this system's time" if standing.nanos > self.clock.now() + self.window_nanos else ""

    def standing(self, source: Source) -> tuple[Standing, Answer] | None:
        """What a node says of itself, with the answer; a node that tells nothing of use is left."""
        try:
            answer = source.ask("/status")
            found = standing_in(answer.fields)
            flaw = self.flaw(source.chain, found)
            if found and not flaw:
                return found, answer
            self.fail(source, flaw)
        except (Refused, SourceFailure) as failure:
            self.fail(source, str(failure))
        return None

    def is_still(self, standing: Standing) -> bool:
        """Whether no block has come for as long as a window is: then none of the moments that a plan is for would come."""
        return standing.nanos + self.window_nanos < self.clock.now()

    def best_standings(self, chains: list[str]) -> dict[str, tuple[Standing, Answer]]:
        """Where chains stand by the highest of their nodes, which are asked side by side, of those with a late block if there are some. That one is asked
        first from now on."""
        found: dict[Source, tuple[Standing, Answer]] = {}

        def ask(source: Source) -> None:
            if standing := self.standing(source):
                found[source] = standing

        nodes = {chain: self.usable(chain, Kind.NODE) for chain in chains}
        self.together([functools.partial(ask, source) for usable in nodes.values() for source in usable])
        best = {}
        for chain, usable in nodes.items():
            if answered := [source for source in usable if source in found]:
                top = max(answered, key=lambda source: (not self.is_still(found[source][0]), found[source][0].height))  # of several the first
                self.move(top, 0)
                best[chain] = found[top]
        return best

    def close(self) -> None:
        self.pool.shutdown(wait=False, cancel_futures=True)
        for source in self.all():
            source.close()
