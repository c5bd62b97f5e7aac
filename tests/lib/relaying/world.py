"""A world of simulated chains with their nodes, gateways and clients, and runs of the relayer in it."""
import contextlib
import copy
import io
import json
import os
import subprocess
import sys

from lib.nodes import Transfers
from lib.program import TOP
from lib.relaying import chains
from lib.relaying.chains import Chain, LightClient
from lib.relaying.serving import Source, serve

sys.path[:0] = [str(TOP), str(TOP / "clients" / "python")]
from relayer.config import read_config
from relayer.rounds import Relayer
from relayer.words import Log
from lib.relaying.clock import WorldClock

RELAYER = [sys.executable, str(TOP / "tests" / "lib" / "relaying" / "started.py")]
PROGRAM = json.dumps([sys.executable, "-SE", str(TOP / "tests" / "lib" / "relaying" / "chain_program.py")])


class World:
    """Chains by name, clients (host, id, tracked chain), and sources of each chain: several nodes and gateways."""

    def __init__(self, folder, program, names=("hub-4", "zone-1"), nodes=1, gateways=1, period=86_400, refresh=0, blocks=30, kind=Chain, **kinds):
        self.folder, self.period, self.refresh, self.program = folder, period, refresh, program
        folder.mkdir(parents=True)
        self.chains = {name: kind(name, 1, **kinds) for name in names}
        self.clock = WorldClock(folder / "time", chains.BEGIN + blocks * 6 * 10**9 + 10**6, self.chains.values())
        self.clients, self.paths, self.answer_seconds = {}, [], 600
        self.sources = {(name, kind): [Source(chain, kind, self.clock) for _ in range(count)]
                        for name, chain in self.chains.items() for kind, count in (("node", nodes), ("gateway", gateways))}
        self.extra, self.stack = "", contextlib.ExitStack()

    def client(self, host, of, first=2, **more):
        """A client on a host that tracks another chain, by its identifier."""
        name = f"07-tendermint-{len(self.chains[host].clients)}"
        self.chains[host].clients[name] = LightClient(self.chains[of], self.period, first, **more)
        self.clients[f"{host}.{name}"] = (host, name, of)
        return self.chains[host].clients[name]

    def between(self, *pairs, first=2):
        """Clients in both directions."""
        return [self.client(host, of, first) for pair in pairs for host, of in (pair, pair[::-1])]

    def channel(self, source, dest, packets):
        """An open channel with packets (nodes.Transfers) between two chains that have a client of each other."""
        transfers = Transfers(packets)
        for chain, other, mine, its in (source, dest, 0, 1), (dest, source, 1, 0):
            own, others = (next(name for host, name, of in self.clients.values() if (host, of) == pair) for pair in ((chain, other), (other, chain)))
            (port, channel), (other_port, other_channel) = transfers.ends[mine], transfers.ends[its]
            self.chains[chain].transfers = transfers
            self.chains[chain].connections["connection-3"] = {"id": "connection-3", "client_id": own, "state": "STATE_OPEN", "counterparty": {"client_id": others, "connection_id": "connection-3"}}
            self.chains[chain].channels[channel] = {"state": "STATE_OPEN", "ordering": "ORDER_UNORDERED", "counterparty": {"port_id": other_port, "channel_id": other_channel},
                                                    "connection_hops": ["connection-3"], "version": "ics20-1", "port_id": port, "channel_id": channel}

    def open(self, source, dest, is_ordered=False, **more):
        """A channel between two chains with channels (relaying.channels) that have a client of each other, and both of its directions."""
        ends = []
        for chain, other in (source, dest), (dest, source):
            client = next(name for host, name, of in self.clients.values() if (host, of) == (chain, other))
            ends.append(self.chains[chain].open(client, ("transfer", f"channel-{10 * [*self.chains].index(chain) + len(self.chains[chain].ends)}"), is_ordered))
        for end, other in (ends, ends[::-1]):
            end.other = other
            self.paths.append({"source": end.own.name, "port": end.end[0], "channel": end.end[1], "dest": other.own.name, "counterparty_port": other.end[0],
                               "counterparty_channel": other.end[1], "order": "ordered" if is_ordered else "unordered", "forward": f"{other.own.name}.{other.client}",
                               "back": f"{end.own.name}.{end.client}", **more})
        self.write()
        return [end.end[1] for end in ends]

    def __enter__(self):
        for sources in self.sources.values():
            for source in sources:
                source.address = self.stack.enter_context(serve(source))
        self.write()
        return self

    def __exit__(self, *_):
        self.stack.close()

    def write(self):
        """Writes the configuration."""
        verify = "true" if chains.SIGNED else "false"
        text = f'version = 1\nprogram = {json.dumps([self.program])}\nfolder = "state"\nverify = {verify}\nanswer_seconds = {self.answer_seconds}\n{self.extra}\n'
        for name in self.chains:
            nodes, gateways = ([source.address for source in self.sources[name, kind]] for kind in ("node", "gateway"))
            text += f'[[chain]]\nid = "{name}"\nnodes = {json.dumps(nodes)}\ngateways = {json.dumps(gateways)}\n'
            text += f'program = {PROGRAM}\nsigner = "relayer"\noptions = ["--keyring-backend", "test", "--sign-mode", "direct"]\ngas_price = "0.025uatom"\n\n'
        for host, name, of in self.clients.values():
            text += f'[[client]]\nhost = "{host}"\nid = "{name}"\nof = "{of}"\n' + (f"refresh_seconds = {self.refresh}\n" if self.refresh else "")
        text += "".join("[[path]]\n" + "".join(f"{key} = {json.dumps(value)}\n" for key, value in path.items()) for path in self.paths)
        (self.folder / "relayer.toml").write_text(text)

    # ---- runs

    def environment(self):
        return {**os.environ, "CALLS": str(self.folder / "calls"), "DIE_FILE": str(self.folder / "die"), "WORLD_TIME": str(self.folder / "time"),
                "WORLD_ADDRESS": next(iter(self.sources.values()))[0].address}

    def run(self, *words, timeout=900):
        """A run of the relayer: its status and what it writes."""
        done = subprocess.run([*RELAYER, "--config", str(self.folder / "relayer.toml"), *words], capture_output=True, timeout=timeout, env=self.environment(), cwd=self.folder)
        return done.returncode, done.stdout.decode(), done.stderr.decode()

    def relayer(self):
        """A relayer in this process, by the configuration."""
        self.told = io.StringIO()
        return Relayer(read_config(self.folder / "relayer.toml"), Log(self.told), self.clock)

    @contextlib.contextmanager
    def relaying(self):
        """A relayer in this process, while it is of use."""
        relayer = self.relayer()
        with self.variables():
            try:
                yield relayer
            finally:
                relayer.close()

    @contextlib.contextmanager
    def variables(self):
        before = dict(os.environ)
        os.environ.update(self.environment())
        try:
            yield
        finally:
            os.environ.clear()
            os.environ.update(before)

    def forward(self, count=1):
        self.clock.advance(6 * count)

    def freeze(self, name):
        """What a stale gateway of a chain tells from now on."""
        for source in self.sources[name, "gateway"]:
            source.frozen_at = self.chains[name].latest - 1
            source.frozen_clients = {client: copy.copy(found) for client, found in self.chains[name].clients.items()}
            for found in source.frozen_clients.values():
                found.states = dict(found.states)

    def light_clients(self):
        return {name: self.chains[host].clients[own] for name, (host, own, _) in self.clients.items()}

    # ---- what has to hold of each run

    def flaws(self):
        """What is wrong with all that was done: an update refused, one sent twice, a client that has expired, or words of nodes that did something."""
        found = []
        for name, chain in self.chains.items():
            found += [f"{name}: {result['tx_result']['log']}" for result in chain.results.values() if result["tx_result"]["code"]]
            found += [f"{name}: {text} was broadcast twice" for text in set(chain.broadcasts) if chain.broadcasts.count(text) > 1]
        for name, client in self.light_clients().items():
            host = self.chains[self.clients[name][0]]
            found += [f"{name}: {client.repeats} updates to stored heights"] if client.repeats else []
            found += [f"{name} has expired"] if client.expires() <= host.times[host.latest] else []
        for end, other in ((end, end.other) for chain in self.chains.values() for end in getattr(chain, "ends", {}).values()):
            told = [(kind, number) for _, kind, number, source, _ in end.own.events + other.own.events if source == end.end[1]]
            found += [f"{end.own.name}: {each} twice" for each in set(told) if told.count(each) > 1]
        return found + [f"{path} was made" for path in self.folder.rglob("here")]
