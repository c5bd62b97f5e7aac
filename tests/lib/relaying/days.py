"""Many rounds over simulated chains: sources with faults that come and go, hosts that halt, validators that change, and kills of the relayer."""
import random
import time

from lib.relaying.serving import GATEWAY_FAULTS, NODE_FAULTS

FAULTS = [fault for fault in NODE_FAULTS if fault not in ("drip", "endless")]  # without those that take real seconds
MOMENTS = "keys", "sign", "encode", "broadcast before", "broadcast after"


class Days:
    """Rounds in a world: for each whether something was sent, the requests and the seconds; and how often each outcome came."""

    def __init__(self, world, seed=1):
        self.world, self.chance, self.rounds, self.words, self.halted = world, random.Random(seed), [], {}, None

    def change(self):
        """Some of the first sources get faults, others lose theirs; now and then a chain halts for a round."""
        for (_, kind), sources in self.world.sources.items():
            faults, part = (FAULTS, 0.2) if kind == "node" else (GATEWAY_FAULTS[:5], 0.1)
            sources[0].fault = self.chance.choice(faults) if self.chance.random() < part else None
        if self.halted:
            self.halted.resume(self.world.clock.now())
        self.halted = self.chance.choice([*self.world.chains.values()]) if self.chance.random() < 0.1 else None
        if self.halted:
            self.halted.is_halted = True

    def send(self):
        """Packets on some ends of channels, of which a few expire soon."""
        for chain in self.world.chains.values():
            for channel in getattr(chain, "ends", ()):
                for _ in range(self.chance.choice((0, 0, 0, 2))):
                    chain.send(channel, self.chance.randbytes(20), seconds=self.chance.choice((0, 0, 0, 90)))

    def calm(self, rounds, blocks=30):
        """Rounds without faults and without new packets, until none is pending; how many there were."""
        for sources in self.world.sources.values():
            sources[0].fault = None
        if self.halted:
            self.halted.resume(self.world.clock.now())
        with self.world.relaying() as relayer:
            for number in range(rounds):
                if not any(chain.pending() for chain in self.world.chains.values()):
                    return number
                self.world.forward(blocks)
                relayer.round()
                relayer.senders.wait()
        return rounds

    def kill(self):
        """A relayer that is killed in the midst of a transaction, if it sends one."""
        (self.world.folder / "die").write_text(self.chance.choice(MOMENTS))
        self.world.run("once")
        (self.world.folder / "die").unlink(missing_ok=True)

    def pass_by(self, rounds, blocks, take=lambda script: None):
        """Rounds of one relayer, with so many blocks before each; a function takes the scripts of those that send."""
        with self.world.relaying() as relayer:
            for _ in range(rounds):
                self.change()
                self.send()
                self.world.forward(blocks)
                begin = time.monotonic()
                report = relayer.round()
                relayer.senders.wait()
                self.rounds.append((any(outcome.sent for outcome in report.clients), report.requests, time.monotonic() - begin))
                for script in relayer.config.folder.glob("round/*/*/script.toml") if self.rounds[-1][0] else ():
                    take(script)
                for outcome in report.clients:
                    self.words[outcome.word] = self.words.get(outcome.word, 0) + 1

    def lines(self):
        """What quiet and busy rounds cost."""
        for is_busy, what in (False, "quiet"), (True, "busy"):
            requests, seconds = (sorted(column) for column in zip(*([row[1:] for row in self.rounds if row[0] == is_busy] or [(0, 0)])))
            yield f"a {what} round: {requests[len(requests) // 2]} requests in the median, at most {requests[-1]}; {seconds[len(seconds) // 2]:.2f} s, at most {seconds[-1]:.2f}"
