"""Scripts of a hub and zones for the benches: many chains, clients, paths, packets and turns, the same at every run."""
from inputs import OPTIONS, key, time_at

CLIENT = f"""[[client]]
id = "%s"
host = "%s"
of = "%s"
{OPTIONS}
"""
PATH = """[[path]]
id = "%s"
source = "hub"
dest = "%s"
order = "unordered"
forward = "%s"
back = "%s"
gas = [5, 5, 5]

"""
TURN = """[[turn]]
from = "2025-01-02T00:00:00Z"
until = "2025-01-02T00:00:00Z"
"""


def halves(count, parts):
    """Of so many things the numbers that each of some parts gets, in order."""
    ends = [count * part // parts for part in range(parts + 1)]
    return [range(begin, end) for begin, end in zip(ends, ends[1:])]


class Relay:
    """A hub and so many zones; between the hub and each zone so many pairs of clients, each with a path from the hub. Each
    chain has so many headers over one set, and each path so many packets, both spread over the turns. A packet of a turn is
    received and acknowledged in the next one, and all batches are taken in the turn that opens them."""

    def __init__(self, zones=1, pairs=1, turns=1, headers=8, packets=0, validators=4):
        self.chains = ["hub", *(f"z{zone}" for zone in range(zones))]
        self.paths = [(f"p{zone}-{pair}", f"z{zone}", f"h{zone}-{pair}", f"c{zone}-{pair}") for zone in range(zones) for pair in range(pairs)]
        self.turns, self.packets, self.validators = turns, halves(packets, turns), validators
        self.headers = halves(headers, turns)
        self.votes = "C" * validators
        self.batches = {}

    def first_events(self):
        members = [f'["{key(place)}", 10]' for place in range(self.validators)]
        for chain in self.chains:
            yield f'{{ kind = "set", chain = "{chain}", name = "s", validators = [{", ".join(members)}] }}'
        for _, _, *clients in self.paths:
            for client in clients:
                yield f'{{ kind = "stored", client = "{client}", height = 1, time = "{time_at(1)}", next = "s" }}'

    def header_events(self, turn):
        for place in self.headers[turn]:
            height = place + 2
            for chain in self.chains:
                yield (f'{{ kind = "header", chain = "{chain}", height = {height}, time = "{time_at(height)}", set = "s", next = "s", '
                       f'votes = "{self.votes}" }}')

    def packet_events(self, turn):
        """Packets of the block before the last known one; those of the turn before were received since."""
        block = max(1, self.headers[turn].stop)
        for path, *_ in self.paths:
            for packet in self.packets[turn]:
                yield f'{{ kind = "sent", path = "{path}", seq = {packet + 1}, height = {block} }}'
            for packet in self.packets[turn - 1] if turn else ():
                yield f'{{ kind = "received", path = "{path}", seq = {packet + 1}, height = {block} }}'
                yield f'{{ kind = "ack", path = "{path}", seq = {packet + 1}, height = {block} }}'

    def settlements(self, turn):
        """What was taken: the batches of those clients that have messages in this turn."""
        for _, _, forward, back in self.paths:
            for client, has_messages in (forward, self.packets[turn]), (back, turn and self.packets[turn - 1]):
                if has_messages:
                    self.batches[client] = self.batches.get(client, 0) + 1
                    yield f'{{ client = "{client}", batch = {self.batches[client]}, done = 1 }}'

    def text(self):
        text = "version = 1\nchain = [" + ", ".join(f'{{ id = "{chain}" }}' for chain in self.chains) + "]\n\n"
        for _, zone, forward, back in self.paths:
            text += CLIENT % (forward, zone, "hub") + CLIENT % (back, "hub", zone)
        for path, zone, forward, back in self.paths:
            text += PATH % (path, zone, forward, back)
        for turn in range(self.turns):
            events = [*(self.first_events() if turn == 0 else ()), *self.header_events(turn), *self.packet_events(turn)]
            text += TURN + "event = [\n" + "".join(f"{event},\n" for event in events) + "]\n"
            text += "settle = [" + ", ".join(self.settlements(turn)) + "]\n\n"
        return text
