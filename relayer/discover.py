"""`init`: a configuration by Hermes' one, or by chains with their addresses; clients and channels are asked for at the gateways, and past updates at the nodes."""
import dataclasses
import json
import pathlib
import re
import statistics
import tomllib
import urllib.parse

from relayer import config
from relayer.clock import Clock
from relayer.config import Chain, Client, Config, Path, Three
from relayer.node import Kind, Refused
from relayer.records import Misfit
from relayer.sources import Sources, Unavailable
from relayer.values import Fields, is_tendermint, seconds_of
from relayer.words import Fault, Log, shown

LIMIT, MOST_PAGES = 1_000, 60  # of a page, and of a query
UPDATES = "\"message.action='/ibc.core.client.v1.MsgUpdateClient'\""
LATEST = 30  # transactions with updates that are looked at
FACTORS = (0.2, 20.0)  # what a guess of gas is scaled by at the least and at the most: beyond these the gas isn't an update's
HEAD = """# Written by `ibcplan-relayer init`. Gas and fees are guesses but where it says how many updates they are by (docs/OPERATING.md).
{notes}version = 1
program = ["ibcplan"]
folder = "relayer"  # answers, plans and the state file, beside this file
window_seconds = 300
poll_seconds = 5
round_seconds = 600
verify = true
metrics_port = 0  # 0: none
"""
NOTES = {"nodes": "several, as they come", "program": "signs and broadcasts", "options": 'as "--keyring-backend", "test"',
         "gas_factor": "by which gas limits are above the plan's gas", "open_blocks": "in so many a transaction can be included",
         "first": "the sequence of the first packet", "wait_seconds": "for others"}


# ---- chains


def by_chain(words: list[str], option: str) -> dict[str, tuple[str, ...]]:
    """The addresses of chains, of words ID=ADDRESS."""
    found: dict[str, tuple[str, ...]] = {}
    for word in words:
        name, _, address = word.partition("=")
        try:
            found[config.identifier(name)] = *found.get(name, ()), config.address(address)
        except ValueError:
            raise Fault(f"{option} {shown(word)}: ID=http://.. or ID=https://.. belongs here", 2) from None
    return found


def read_hermes(file: pathlib.Path, gateways: dict[str, tuple[str, ...]]) -> list[Chain]:
    """The chains of Hermes' configuration; it has no gateways (REST), which come from the command line."""
    try:
        chains = [hermes_chain(table, gateways) for table in Fields(tomllib.loads(file.read_text())).objects("chains")]
    except ValueError as error:
        raise Fault(f"{file}: {shown(error)}") from None
    if not chains:
        raise Fault(f"{file}: [[chains]] of Hermes' configuration belongs here")
    return chains


def hermes_chain(table: Fields, gateways: dict[str, tuple[str, ...]]) -> Chain:
    try:
        name, node = config.identifier(table.value.get("id")), config.address(table.value.get("rpc_addr"))
    except ValueError as error:
        raise Misfit(f"id or rpc_addr of {shown(table.text('id'))}: {error}") from None
    price, signer = table.object("gas_price").value.get("price"), table.text("key_name")
    amount = price if isinstance(price, (int, float)) and price > 0 else 0
    gas_price = f"{amount:.9f}".rstrip("0").rstrip(".") + table.object("gas_price").text("denom")
    limits = table.number("max_gas") or 400_000, table.number("max_msg_num") or 30, 20_000
    chain = chain_by_hand(name, (node,), gateways)
    return dataclasses.replace(chain, signer=signer if re.fullmatch(config.SIGNER, signer) else chain.signer, fee=fee_of(amount), limits=limits,
                               gas_price=gas_price if re.fullmatch(config.GAS_PRICE, gas_price) else chain.gas_price)


def fee_of(price: float) -> Three:
    """Gas times the price in millionths, in the least power of ten that makes the greatest at most 10^9, as `ibcplan setup --hermes` has it."""
    millionths, unit = int(price * 1_000_000) or 1, 1
    while Chain.gas[0] * millionths // unit > 10**9:
        unit *= 10
    base, vote, validator = (gas * millionths // unit for gas in Chain.gas)
    return base, vote, validator


def chain_by_hand(name: str, nodes: tuple[str, ...], gateways: dict[str, tuple[str, ...]]) -> Chain:
    """A chain by its addresses."""
    return Chain(name, nodes, gateways.get(name, ()), ("simd",), "relayer", gas_price="0.025stake")


# ---- what the sources tell


class Discovery:
    """Clients and channels between chains, by the answers of their gateways, and the gas of past updates."""

    def __init__(self, chains: list[Chain], sources: Sources) -> None:
        self.chains, self.sources = chains, sources
        self.clients: dict[str, Client] = {}
        self.days: dict[str, float] = {}  # of clients: the trusting period
        self.sizes: dict[str, int] = {}  # of chains: how many validators the present set has
        self.notes: list[str] = []

    def find(self) -> tuple[list[Client], list[Path]]:
        """The clients below open channels between the chains, or all clients where no channel is told of; and the directions of these channels."""
        with_gateways = [chain.id for chain in self.chains if chain.gateways]
        for name in with_gateways:
            for each in self.pages(name, "/ibc/core/client/v1/client_states", "client_states"):
                self.take_client(name, each)
        paths = {path.ends: path for name in with_gateways for path in self.channels(name)}
        both = [path for path in paths.values() if (other := paths.get(path.ends[::-1])) and other.clients == path.clients[::-1] and other.order == path.order]
        used = {path.back for path in both}
        return [client for name, client in self.clients.items() if name in used or not paths], both

    def pages(self, chain: str, path: str, key: str) -> list[Fields]:
        """The objects of all pages of a query."""
        found: list[Fields] = []
        query = f"pagination.limit={LIMIT}"
        for _ in range(MOST_PAGES):
            try:
                answer = self.sources.ask(chain, Kind.GATEWAY, f"{path}?{query}").fields
            except (Refused, Unavailable) as error:
                self.notes.append(f"{chain}: {path} isn't answered: {shown(error)}")
                return found
            found += answer.objects(key)
            following = answer.object("pagination").text("next_key")
            if not following:
                return found
            query = f"pagination.limit={LIMIT}&pagination.key={urllib.parse.quote(following[:1_000], safe='')}"
        self.notes.append(f"{chain}: {path} has more than {MOST_PAGES} pages, and the rest isn't looked at")
        return found

    def take_client(self, host: str, told: Fields) -> None:
        """Takes a Tendermint client that tracks another of the chains, unless it is frozen."""
        state = told.object("client_state")
        client = Client(host, told.text("client_id"), state.text("chain_id"))
        is_live = is_tendermint(state) and not state.object("frozen_height").number("revision_height")
        is_named = re.fullmatch(config.IDENTIFIER, client.id) and len(client.name) <= 64
        if is_live and is_named and client.of in {chain.id for chain in self.chains} - {host}:
            self.clients[client.name] = client
            self.days[client.name] = seconds_of(state.text("trusting_period")) / config.DAY

    def channels(self, chain: str) -> list[Path]:
        """The open channels of a chain over its clients, as the directions from there."""
        connections = {each.text("id"): each for each in self.pages(chain, "/ibc/core/connection/v1/connections", "connections")}
        found = []
        for each in self.pages(chain, "/ibc/core/channel/v1/channels", "channels"):
            hops, other = each.texts("connection_hops"), each.object("counterparty")
            connection = connections.get(hops[0], Fields({})) if len(hops) == 1 else Fields({})
            port, channel, other_port, other_channel = words = [end.text(key) for end in (each, other) for key in ("port_id", "channel_id")]
            client = self.clients.get(f"{chain}.{connection.text('client_id')}")
            if client and {each.text("state"), connection.text("state")} == {"STATE_OPEN"} and all(re.fullmatch(config.END_WORD, word) for word in words):
                order = "ordered" if each.text("ordering") == "ORDER_ORDERED" else "unordered"
                forward = f"{client.of}.{connection.object('counterparty').text('client_id')}"
                found.append(Path(chain, port, channel, client.of, other_port, other_channel, order, forward, client.name))
        return found

    def measured(self, chain: Chain) -> tuple[Chain, int]:
        """The chain with gas and fees scaled by the latest transactions that are one update each, and how many these are."""
        try:
            path = f"/tx_search?query={urllib.parse.quote(UPDATES)}&per_page={LATEST}&order_by=%22desc%22"
            found = self.sources.ask(chain.id, Kind.NODE, path).fields.objects("txs")
            factors = [factor for each in found if (factor := self.factor_of(chain, each.object("tx_result"))) > 0]
        except (Refused, Unavailable):
            factors = []
        factor = min(max(statistics.median(factors or [1]), FACTORS[0]), FACTORS[1])
        return dataclasses.replace(chain, fee=scaled(chain.fee, factor), gas=scaled(chain.gas, factor)), len(factors)

    def factor_of(self, chain: Chain, result: Fields) -> float:
        """How the gas of an update, which is a transaction's alone, compares with a guess by the present set of the chain that its client tracks; 0 of any other
        transaction."""
        told = [(event.text("type"), each.text("key"), each.text("value")) for event in result.objects("events") for each in event.objects("attributes")]
        clients = [self.clients.get(f"{chain.id}.{value}") for kind, key, value in told if (kind, key) == ("update_client", "client_id")]
        if result.number("code") or len(clients) != 1 or clients[0] is None or sum(each[:2] == ("message", "action") for each in told) != 1:
            return 0
        if (of := clients[0].of) not in self.sizes:
            self.sizes[of] = self.sources.ask(of, Kind.NODE, "/validators?per_page=1").fields.number("total") or 0
        base, vote, validator = chain.gas
        return ((result.number("gas_used") or 0) - chain.limits[2]) / (base + (vote + 2 * validator) * self.sizes[of])


def scaled(values: Three, factor: float) -> Three:
    base, vote, validator = (max(1, round(value * factor)) for value in values)
    return base, vote, validator


# ---- writing


def table(kind: str, record: Chain | Client | Path, note: str, **notes: str) -> str:
    """A table of the configuration: a line for each key, with what there is to say of it. JSON's texts, numbers and arrays are TOML's."""
    lines = [f"\n[[{kind}]]  # {note}"]
    for key, value in dataclasses.asdict(record).items():
        if value != 0:  # a refresh by the trusting period
            words = {**NOTES, **notes}.get(key, "")
            lines.append(f"{key} = {json.dumps(value)}{words and '  # '}{words}")
    return "\n".join(lines) + "\n"


def write_config(chains: list[Chain], file: pathlib.Path, log: Log, clock: Clock) -> tuple[int, int]:
    """Writes the configuration of chains; how many clients and directions of channels are in it."""
    if file.exists():
        raise Fault(f"{file}: it is there already; name another file with --config")
    sources = Sources(Config(1, tuple(chains)), log, clock)
    discovery = Discovery(chains, sources)
    try:
        clients, paths = discovery.find()
        measured = [discovery.measured(chain) for chain in chains]
    finally:
        sources.close()
    tables = []
    for chain, updates in measured:
        gateways = "several, as they come" if chain.gateways else "write the address of a gateway (ibc-go's REST), as https://rest.example"
        tables.append(table("chain", chain, chain.id, gateways=gateways, gas=f"by {updates} updates" if updates else "a guess"))
    for client in clients:
        tables.append(table("client", client, f"{client.of} on {client.host}, trusted for {discovery.days[client.name]:.1f} days"))
    for path in paths:
        words = f"{path.port} of {path.source} to {path.counterparty_port} of {path.dest}"
        tables.append(table("path", path, words, gas="of a receive, an acknowledgement, a timeout"))
    file.write_text(HEAD.format(notes="".join(f"# {note}\n" for note in discovery.notes)) + "".join(tables))
    for note in discovery.notes:
        log.warn("not asked", why=note)
    return len(clients), len(paths)
