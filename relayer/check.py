"""`check`: whether each node, gateway, client, account and channel is as it has to be, a line for each."""
import dataclasses
import enum

from relayer.clock import Clock
from relayer.config import Chain, Client, Config
from relayer.node import Kind, Refused, Source, SourceFailure
from relayer.send import Failed, account_of
from relayer.sources import Sources, Standing, Unavailable, standing_in
from relayer.values import Fields, is_tendermint, nanoseconds, seconds_of, stamp_of
from relayer.words import Log, shown

LAG_BLOCKS = 20
SOON = 3 * 86_400 * 10**9


class Mark(enum.IntEnum):
    """How a line is meant; its number is the status that it gives."""

    GOOD = 0
    BAD = 1
    WARNING = 3


@dataclasses.dataclass(frozen=True)
class Line:
    mark: Mark
    about: str
    words: str

    def text(self) -> str:
        return shown(f"{self.mark.name.lower():7} {self.about}: {self.words}", 1_000)

    def value(self) -> dict[str, str]:
        return {"mark": self.mark.name.lower(), "about": shown(self.about), "words": shown(self.words, 1_000)}


class Check:
    """The lines about a configuration."""

    def __init__(self, config: Config, log: Log, clock: Clock) -> None:
        self.config, self.sources, self.clock = config, Sources(config, log, clock), clock
        self.standings: dict[str, Standing] = {}
        self.lines: list[Line] = []

    def run(self) -> list[Line]:
        for chain in self.config.chains:
            self.nodes(chain)
            for source in self.sources.lists[chain.id, Kind.GATEWAY]:
                if self.asked(source, source.address, "/ibc/core/client/v1/client_states?pagination.limit=1"):
                    self.add(Mark.GOOD, source.address, f"a gateway of {chain.id}")
            if chain.id in self.config.hosts():
                self.account(chain)
        for client in self.config.clients:
            self.client(client)
        for chain_id, port, channel in dict.fromkeys(end for path in self.config.paths for end in path.ends):
            about = f"{chain_id} {port}/{channel}"
            if answer := self.asked(chain_id, about, f"/ibc/core/channel/v1/channels/{channel}/ports/{port}"):
                state = answer.object("channel").text("state")
                self.add(Mark.GOOD if state == "STATE_OPEN" else Mark.BAD, about, "open" if state == "STATE_OPEN" else f"its state is {shown(state or '-', 40)}")
        self.sources.close()
        return self.lines

    def add(self, mark: Mark, about: str, words: str) -> None:
        self.lines.append(Line(mark, about, words))

    def asked(self, whom: Source | str, about: str, path: str, mark: Mark = Mark.BAD) -> Fields | None:
        """The answer of a source, or of a chain's gateways; without one, a line tells why."""
        try:
            return whom.ask(path).fields if isinstance(whom, Source) else self.sources.ask(whom, Kind.GATEWAY, path).fields
        except (SourceFailure, Refused, Unavailable) as error:
            self.add(mark, about, str(error))
            return None

    def nodes(self, chain: Chain) -> None:
        """A line for each node of a chain; the highest tells where the chain stands."""
        found: dict[str, Standing] = {}
        for source in self.sources.lists[chain.id, Kind.NODE]:
            if status := self.asked(source, source.address, "/status"):
                standing = standing_in(status)
                if flaw := self.sources.flaw(chain.id, standing):
                    self.add(Mark.BAD, source.address, flaw)
                elif standing:
                    found[source.address] = standing
        for address, standing in found.items():
            top = self.standings[chain.id] = max(found.values(), key=lambda each: each.height)
            words = f"{chain.id} at height {standing.height}, block of {stamp_of(standing.nanos)}"
            if top.height - standing.height > LAG_BLOCKS:
                self.add(Mark.BAD, address, f"{words}, {top.height - standing.height} blocks behind another node")
            elif self.sources.is_still(standing):
                self.add(Mark.BAD, address, f"{words}, standing still by this system's time")
            elif not standing.has_index:
                self.add(Mark.WARNING, address, f"{words}, without an index of transactions: inclusions are known by the clients' states alone")
            else:
                self.add(Mark.GOOD, address, words)

    def account(self, chain: Chain) -> None:
        """The balance of the signer, whose address the chain's program tells."""
        if not chain.program:
            self.add(Mark.WARNING, chain.id, "no program signs, so that nothing is sent")
            return
        about = f"{chain.id} account {chain.signer}"
        try:
            answer = self.asked(chain.id, about, f"/cosmos/bank/v1beta1/balances/{account_of(chain)}", Mark.WARNING)
        except Failed as failed:
            self.add(Mark.WARNING, about, str(failed))
            return
        if answer is not None:
            coins = [f"{coin.text('amount')}{coin.text('denom')}" for coin in answer.objects("balances")]
            self.add(Mark.GOOD if coins else Mark.BAD, about, " ".join(coins[:5]) or "it has no coins")

    def client(self, client: Client) -> None:
        if answer := self.asked(client.host, client.name, f"/ibc/core/client/v1/client_states/{client.id}"):
            state = answer.object("client_state")
            height = state.object("latest_height")
            place = f"revision/{height.number('revision_number')}/height/{height.number('revision_height')}"
            if latest := self.asked(client.host, client.name, f"/ibc/core/client/v1/consensus_states/{client.id}/{place}"):
                mark, words = client_words(client, state, latest.object("consensus_state"), self.standings.get(client.host))
                self.add(mark, client.name, words)


def client_words(client: Client, state: Fields, latest: Fields, host: Standing | None) -> tuple[Mark, str]:
    """How a client is by its state, its latest consensus state and where its host stands."""
    if not is_tendermint(state):
        return Mark.BAD, "it is no Tendermint client"
    if state.text("chain_id") != client.of:
        return Mark.BAD, f"it tracks {shown(state.text('chain_id') or '-', 64)}, and not {client.of}"
    if state.object("frozen_height").number("revision_height"):
        return Mark.BAD, "it is frozen"
    stamp, length = nanoseconds(latest.text("timestamp")), seconds_of(state.text("trusting_period")) * 10**9
    if stamp is None or not length or host is None:
        return Mark.WARNING, "when it expires isn't known"
    expiry = stamp + length
    if expiry <= host.nanos:
        return Mark.BAD, f"it has expired, {stamp_of(expiry)}"
    mark = Mark.WARNING if expiry - host.nanos < min(SOON, length // 4) else Mark.GOOD
    return mark, f"height {state.object('latest_height').number('revision_height')}, expires {stamp_of(expiry)}"
