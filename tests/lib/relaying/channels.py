"""Simulated chains whose headers commit to the packets of their channels, which the handlers of tests/lib/packets take with their proofs."""
import base64
import hashlib
import random
import re

from lib import answers
from lib.ics23.judge import Refused
from lib.packets import chains as handlers
from lib.packets.chains import NO_HEIGHT, Height, Rejected
from lib.relaying.chains import Chain, Refusal

ACCOUNT = "cosmos1qy352eufqy352eufqy352eufqy35qqqz0kg2hh"
MESSAGES = {"MsgRecvPacket": "recv_packet", "MsgAcknowledgement": "acknowledge_packet", "MsgTimeout": "timeout_packet"}


class End(handlers.Chain):
    """The packet handler of an end of a channel: its blocks are its chain's, and its light client is one of these."""

    own = client = other = None
    height = property(lambda self: self.own.latest, lambda self, _: None)
    light_client = property(lambda self: {height: (stored.root, stored.nanos) for height, stored in self.own.clients[self.client].states.items()}, lambda self, _: None)

    def time(self, height):
        return self.own.times[height]


class PacketChain(Chain):
    """A chain with channels."""

    def __init__(self, name, seed, **kinds):
        super().__init__(name, seed, **kinds)
        self.values, self.ends, self.snapshots, self.events, self.mixing = {b"a": b"a"}, {}, {}, [], random.Random(f"{name} {seed} stores")
        self.is_old = False  # whether its nodes tell events in base64
        self.transfers, self.sending, self.account = self, [], ACCOUNT  # what tells of packets; those that the next block sends; who signs

    def open(self, client, end, is_ordered):
        """An end of a channel over a client."""
        opened = End(self.name, int(self.name.rsplit("-", 1)[1]), end, is_ordered, self.mixing, values=self.values)
        opened.own, opened.client = self, client
        self.ends[end[1]] = opened
        return opened

    def root(self, height):
        return self.snapshots[height - 1].stores.app_hash if height - 1 in self.snapshots else super().root(height)

    def make_block(self):
        before = self.snapshots.get(self.latest - 1)
        self.snapshots[self.latest] = before if before and before.values == self.values else handlers.snapshot_of(self.values, self.mixing)
        super().make_block()
        sending, self.sending = self.sending, []
        for packet in sending:
            self.send_now(*packet)

    # ---- packets

    def send(self, channel, data, blocks=0, seconds=0):
        """Sends a packet with the next block; it expires after so many blocks of the other chain, after so many seconds, or not soon."""
        end = self.ends[channel]
        height = Height(end.other.revision, end.other.height + blocks) if blocks else NO_HEIGHT
        until = self.times[self.latest] + 10**9 * (seconds or 10**6) if seconds or not blocks else 0
        with self.lock:
            self.sending.append((end, data, height, until))

    def send_now(self, end, data, height, until):
        packet = end.send(end.other.end, data, height, until)
        self.tell("send_packet", packet, packet_data_hex=data.hex(), packet_timeout_height=f"{height.revision}-{height.height}", packet_timeout_timestamp=str(until))

    def tell(self, kind, packet, **more):
        (source_port, source), (dest_port, dest) = packet.source, packet.dest
        values = {"packet_sequence": str(packet.sequence), "packet_src_port": source_port, "packet_src_channel": source, "packet_dst_port": dest_port,
                  "packet_dst_channel": dest} | more
        self.events.append((self.latest, kind, packet.sequence, source, {"type": kind, "attributes": [{"key": k, "value": v, "index": True} for k, v in values.items()]}))

    def take(self, message):
        if message["signer"] != self.account:
            raise Refusal("another signer")
        kind = message["@type"].rsplit(".", 1)[1]
        if kind == "MsgUpdateClient":
            return super().take(message)
        packet = handlers.packet_in(message["packet"])
        end = self.ends[(packet.dest if kind == "MsgRecvPacket" else packet.source)[1]]
        try:
            end.take(message, end.other)
        except (Rejected, Refused, ValueError, KeyError, AssertionError) as error:
            raise Refusal(f"{kind} {packet.sequence}: {error!r}") from None
        self.tell(MESSAGES[kind], packet)
        if kind == "MsgRecvPacket":
            written = b'{"result":"AQ=="}' if packet.sequence % 2 else hashlib.sha512(packet.data).digest()
            end.write_acknowledgement(packet, written)
            self.tell("write_acknowledgement", packet, packet_ack_hex=written.hex())
        return None

    def saved(self):
        return super().saved(), dict(self.values), list(self.events), {name: end.is_closed for name, end in self.ends.items()}

    def restore(self, before):
        clients, values, self.events, closed = before
        super().restore(clients)
        self.values.clear()
        self.values.update(values)
        for name, is_closed in closed.items():
            self.ends[name].is_closed = is_closed

    def pending(self, channel=None):
        """The sequences of packets that a channel, or all, have commitments to."""
        ends = [self.ends[channel]] if channel else self.ends.values()
        return [sequence for end in ends for sequence in sequences(self.values, handlers.channel_key("commitments", end.end))]

    # ---- what nodes and gateways answer

    def proof(self, asked):
        """The status and the answer to `/abci_query`."""
        height, key = int(asked["height"][0]), bytes.fromhex(asked["data"][0].removeprefix("0x"))
        if asked["path"] != ['"store/ibc/key"'] or asked["prove"] != ["true"] or height not in self.snapshots or height < self.lowest:
            return 500, {"jsonrpc": "2.0", "id": -1, "error": {"code": -32603, "message": "Internal error", "data": "height is not available"}}
        return 200, self.snapshots[height].answer(key, height)

    def block_results(self, height):
        told = [event for block, _, _, _, event in self.events if block == height]
        if self.is_old:  # before CometBFT 0.37
            told = [{"type": each["type"], "attributes": [{name: base64.b64encode(pair[name].encode()).decode() for name in ("key", "value")} for pair in each["attributes"]]} for each in told]
        return {"height": str(height), "txs_results": [{"code": 0, "events": [event]} for event in told] or None}

    def search(self, query):
        event, side, channel, sequence = re.fullmatch(r'"(\w+)\.packet_(src|dst)_channel=\'([^\']*)\' AND \1\.packet_sequence=\'(\d+)\'"', query).groups()
        source = channel if side == "src" else self.ends[channel].other.end[1]
        of_packet = [(block, kind, told) for block, kind, number, sent_by, told in self.events if (number, sent_by) == (int(sequence), source)]
        block = next((block for block, kind, _ in of_packet if kind == event), None)
        return 200, answers.search(*[answers.transaction(block, *(told for other, _, told in of_packet if other == block))] if block else [])

    def answer_on(self, path, asked, values, at):
        """The status and the answer of a gateway to what it is asked about an end of a channel, by what is stored."""
        channel, _, _, kind, *more = path.removeprefix("/ibc/core/channel/v1/channels/").split("/")
        end = self.ends[channel].end

        def state(sequence):
            return {"port_id": end[0], "channel_id": end[1], "sequence": str(sequence), "data": "AAAA"}
        if kind == "packet_commitments" and not more:
            found = sequences(values, handlers.channel_key("commitments", end))
            return 200, {"commitments": [*map(state, found)], "pagination": {"next_key": None, "total": "0"}, "height": at}
        if kind == "packet_acknowledgements":
            found = sequences(values, handlers.channel_key("acks", end))
            return 200, {"acknowledgements": [state(s) for s in map(int, asked["packet_commitment_sequences"]) if s in found], "pagination": None, "height": at}
        following = int.from_bytes(values[handlers.channel_key("nextSequenceRecv", end)], "big")
        received = range(1, following) if self.ends[channel].is_ordered else sequences(values, handlers.channel_key("receipts", end))
        return 200, {"sequences": [s for s in more[0].split(",") if int(s) not in received], "height": at}


def sequences(values, prefix):
    """The sequences of the keys below a channel's key."""
    return [int(key.rsplit(b"/", 1)[1]) for key in values if key.startswith(prefix + b"/")]


def pending(world):
    """The packets that have commitments."""
    return {name: chain.pending() for name, chain in world.chains.items() if chain.pending()}


def told_of(world, kind):
    """The sequences of an event's packets, as chains told of them."""
    return [number for chain in world.chains.values() for _, event, number, _, _ in chain.events if event == kind]
