"""The configuration, `relayer.toml`: chains with their nodes and gateways, clients, and the directions of channels."""
import dataclasses
import fractions
import pathlib
import re
import tomllib
import typing
import urllib.parse
from collections.abc import Callable

from relayer.records import Misfit, array, flag, number, record, text, whole
from relayer.words import Fault, shown

IDENTIFIER = r"[A-Za-z0-9][A-Za-z0-9._+#\[\]<>-]{0,63}"  # of a chain, and of a client as ICS 24 has it; a folder may have this name
END_WORD = r"[A-Za-z0-9._+#\[\]<>-]{1,128}"  # a port or a channel
SIGNER = r"[A-Za-z0-9][A-Za-z0-9._@-]{0,127}"
GAS_PRICE = r"([0-9]{1,9}(?:\.[0-9]{1,9})?)([a-zA-Z][a-zA-Z0-9/:._-]{1,127})"
DAY = 86_400
Three = tuple[int, int, int]


# ---- readers


def address(value: object) -> str:
    """The address of a node or a gateway, without the bar at its end."""
    parts = urllib.parse.urlsplit(text(r"[!-~]+")(value))
    if parts.scheme not in ("http", "https") or not parts.hostname or parts.port == 0 or parts.query or parts.fragment:
        raise Misfit("an address has the form http://HOST or https://HOST, with a port and a path at will")
    return parts.geturl().rstrip("/")


def three(most: int) -> Callable[[object], Three]:
    def read(value: object) -> Three:
        first, second, third = array(whole(0, most), 3, 3)(value)
        return first, second, third
    return read


def place(value: object) -> pathlib.Path:
    return pathlib.Path(word(value))


identifier, end_word, word = text(IDENTIFIER), text(END_WORD), text(r"[^\x00-\x1f\x7f-\x9f]+")
words, addresses = array(word), array(address)
Text = typing.Annotated[str, identifier]
EndWord = typing.Annotated[str, end_word]
Words = typing.Annotated[tuple[str, ...], words]
Threes = typing.Annotated[Three, three(10**9)]


# ---- what a configuration has


@dataclasses.dataclass(frozen=True)
class Chain:
    """A chain, the addresses of its nodes (CometBFT) and of its gateways (ibc-go). How transactions get there: the words of the chain's program, the account,
    options that its signing takes, the price of gas, the part by which the gas limit is above the plan's gas, and in how many blocks they can be included.
    Fees and limits of updates (docs/FORMATS.md)."""

    id: Text
    nodes: typing.Annotated[tuple[str, ...], array(address, 1)]
    gateways: typing.Annotated[tuple[str, ...], addresses] = ()
    program: Words = ()
    signer: typing.Annotated[str, text(SIGNER)] = ""
    options: Words = ()
    gas_price: typing.Annotated[str, text(GAS_PRICE)] = ""
    gas_factor: typing.Annotated[float, number(1, 10)] = 1.2
    open_blocks: typing.Annotated[int, whole(5, 10_000)] = 50
    fee: Threes = (80_000, 3_000, 200)
    gas: Threes = (80_000, 3_000, 200)
    limits: typing.Annotated[Three, three(10**15)] = (4_000_000, 30, 20_000)

    @property
    def price(self) -> tuple[fractions.Fraction, str]:
        """The price of gas and its coin."""
        match = re.fullmatch(GAS_PRICE, self.gas_price)
        assert match is not None
        return fractions.Fraction(match[1]), match[2]


@dataclasses.dataclass(frozen=True)
class Client:
    """A light client on `host` that tracks `of`, and the age at which it is refreshed; 0 is a third of its trusting period."""

    host: Text
    id: Text
    of: Text
    refresh_seconds: typing.Annotated[int, whole(1, 10**9)] = 0

    @property
    def name(self) -> str:
        """The client's name in setups and reports."""
        return f"{self.host}.{self.id}"

    @property
    def labels(self) -> dict[str, str]:
        """The labels of its metrics."""
        return {"client": self.id, "chain": self.of, "host": self.host}


@dataclasses.dataclass(frozen=True)
class Path:
    """A direction of a channel. Receives go by the client `forward` at the destination, acknowledgements and timeouts by `back` at the source. The gas of
    the three, and how many seconds they may wait for others."""

    source: Text
    port: EndWord
    channel: EndWord
    dest: Text
    counterparty_port: EndWord
    counterparty_channel: EndWord
    order: typing.Annotated[str, text("ordered|unordered")]
    forward: Text
    back: Text
    first: typing.Annotated[int, whole(1, 2**63 - 1)] = 1
    gas: Threes = (200_000, 150_000, 150_000)
    wait_seconds: Threes = (0, 0, 0)

    @property
    def name(self) -> str:
        return f"{self.source}.{self.channel}"[:64]

    @property
    def chains(self) -> tuple[str, str]:
        return self.source, self.dest

    @property
    def clients(self) -> tuple[str, str]:
        return self.forward, self.back

    @property
    def ends(self) -> tuple[tuple[str, str, str], tuple[str, str, str]]:
        """The chain, the port and the channel of both ends."""
        return (self.source, self.port, self.channel), (self.dest, self.counterparty_port, self.counterparty_channel)


@dataclasses.dataclass(frozen=True)
class Config:
    """All of a relayer's configuration. With `only` it is for the clients on this host alone."""

    version: typing.Annotated[int, whole(1, 1)]
    chains: typing.Annotated[tuple[Chain, ...], array(record(Chain)), "chain"] = ()
    clients: typing.Annotated[tuple[Client, ...], array(record(Client)), "client"] = ()
    paths: typing.Annotated[tuple[Path, ...], array(record(Path)), "path"] = ()
    folder: typing.Annotated[pathlib.Path, place] = pathlib.Path("relayer")
    program: typing.Annotated[tuple[str, ...], array(word, 1)] = ("ibcplan",)
    window_seconds: typing.Annotated[int, whole(1, DAY)] = 300
    poll_seconds: typing.Annotated[float, number(0.01, 3600)] = 5.0
    round_seconds: typing.Annotated[float, number(1, DAY)] = 600.0
    answer_seconds: typing.Annotated[float, number(0.1, 600)] = 10.0
    verify: typing.Annotated[bool, flag] = True
    metrics_port: typing.Annotated[int, whole(0, 65_535)] = 0
    only: str = ""

    @property
    def window_nanos(self) -> int:
        return self.window_seconds * 10**9

    def chain(self, name: str) -> Chain:
        return next(chain for chain in self.chains if chain.id == name)

    def hosts(self) -> list[str]:
        """The chains that host clients, in the configuration's order; one alone with `--host`."""
        return [chain.id for chain in self.chains if self.only in ("", chain.id) and any(client.host == chain.id for client in self.clients)]

    def limited_to(self, host: str) -> "Config":
        """The configuration for the clients of one host alone, with the other clients of its channels, which are read and never sent to."""
        if host not in self.hosts():
            raise Fault(f"--host {shown(host)}: the configuration has no client on this chain", 2)
        paths = tuple(path for path in self.paths if host in path.chains)
        clients = tuple(client for client in self.clients if client.host == host or any(client.name in path.clients for path in paths))
        names = {name for client in clients for name in (client.host, client.of)}
        return dataclasses.replace(self, chains=tuple(chain for chain in self.chains if chain.id in names), clients=clients, paths=paths, folder=self.folder / host, only=host)


# ---- reading


def check(config: Config) -> None:
    """What the parts of a configuration ask of one another."""
    names = [chain.id for chain in config.chains] + [client.name for client in config.clients] + [path.name for path in config.paths]  # each names a folder
    for name in names:
        if names.count(name) > 1:
            raise Misfit(f"{name} is there twice")
    chains, clients = {chain.id: chain for chain in config.chains}, {client.name: client for client in config.clients}
    places = [(f"client[{number}].{key}", name) for number, client in enumerate(config.clients) for key, name in (("host", client.host), ("of", client.of))]
    places += [(f"path[{number}].{key}", name) for number, path in enumerate(config.paths) for key, name in (("source", path.source), ("dest", path.dest))]
    for place, name in places:
        if name not in chains:
            raise Misfit("no chain of the configuration has this id", place)
    for number, chain in enumerate(config.chains):
        if chain.program and not chain.signer:
            raise Misfit("the account that signs belongs here", f"chain[{number}].signer")
        if chain.program and not chain.gas_price:
            raise Misfit("what gas costs belongs here, as 0.025uatom", f"chain[{number}].gas_price")
    for number, client in enumerate(config.clients):
        if client.host == client.of:
            raise Misfit("a client tracks another chain than its host", f"client[{number}].of")
        if not chains[client.host].gateways:
            raise Misfit(f"{client.host} has no gateway, and one has to tell of its clients", f"client[{number}].host")
        if len(client.name) > 64:
            raise Misfit("HOST.ID has more than 64 characters", f"client[{number}].id")
    for number, path in enumerate(config.paths):
        for key, name, host, of in ("forward", path.forward, path.dest, path.source), ("back", path.back, path.source, path.dest):
            if name not in clients or (clients[name].host, clients[name].of) != (host, of):
                raise Misfit(f"a client of the configuration belongs here, as HOST.ID, on {host}, that tracks {of}", f"path[{number}].{key}")


def read_config(file: pathlib.Path) -> Config:
    """The configuration of a file; a fault names the key."""
    try:
        config = record(Config)(tomllib.loads(file.read_text()))
        check(config)
    except ValueError as error:
        place = getattr(error, "place", "")
        raise Fault(f"{file}: {shown(place)}{place and ': '}{shown(error)}") from None
    return dataclasses.replace(config, folder=file.resolve().parent / config.folder)
