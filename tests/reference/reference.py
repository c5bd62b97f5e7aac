#!/usr/bin/env python3
"""A slow reference planner, written from the definitions alone and sharing no code with the proved program.

    reference.py plan SCRIPT            prints the report of a script, or `fault ..` on standard error (exit 1)
    reference.py certificate SCRIPT     prints the certificate that the script's report amounts to
    reference.py certify SCRIPT CERT    prints the verdict on a certificate (exit 0, 3 or 1)

`-` stands for standard input.

The least list is looked for among all lists of updates, best first: by fee, then number of updates, then the pairs of
height and trusted height from the last update back. Lists that store the same heights are continued alike, and what is
put to the end of both keeps their order, so only the first of them is continued. That is exponential in the number of
headers; where more than EXHAUSTIVE heights can be stored, heights are labelled upwards instead. Where the first search
is made, the second is made too, and a difference ends the program with an error.

In scripts of version WAITING and later messages may wait for one another, and a refresh goes as high as can be reached.
From version JOINING on a client's goal is joined of all that it needs, it is refreshed by gain, messages that can't go are
left out, hosts may have windows of their own, and of equally cheap lists the one of the higher heights is taken.
"""
import heapq
import sys
from datetime import datetime, timedelta

sys.dont_write_bytecode = True
from scripts import FAULTS, LAST_MOMENT, Fault, need, read_certificate, read_script

EXHAUSTIVE = 11
WAITING = 3
JOINING = 4
KINDS = "recv", "ack", "timeout"
MAX_SETS, MAX_ADDRESSES, MAX_PACKETS = 1024, 65_536, 4096
NAMES = FAULTS | {
    401: "UnknownSet", 402: "WrongVerdictCount", 403: "BadVote", 404: "Conflict", 405: "TimeOrder", 406: "Full", 407: "HashClash",
    601: "SourceLabel", 602: "LabelTooHigh", 603: "PlanNotAccepted", 604: "PlanNotTight", 605: "NotTheTie", 606: "GoalLabelled",
    607: "GoalMissed", 804: "Repeat", 805: "OutOfOrder", 806: "WindowBack",
}


# ---- books


class Refused(Exception):
    pass


class Book:
    """Sets by hash, records, their times and headers by height; a record is (time, root, next), a header (record, set, votes)."""

    def __init__(self, limit):
        self.limit = limit  # of records
        self.sets, self.records, self.headers, self.times = {}, {}, {}, {}

    def add_set(self, members):
        if members.hash in self.sets:
            return
        addresses = {m[0] for known in [*self.sets.values(), members] for m in known.members}
        if len(self.sets) >= MAX_SETS or len(addresses) > MAX_ADDRESSES:
            raise Refused(406)
        self.sets[members.hash] = members

    def add_record(self, at, record):
        if self.records.get(at, record) != record:
            raise Refused(404)
        if at in self.records:
            return
        if any(self.records[h][0] >= record[0] for h in self.records if h < at):
            raise Refused(405)
        if any(self.records[h][0] <= record[0] for h in self.records if h > at):
            raise Refused(405)
        if len(self.records) >= self.limit:
            raise Refused(406)
        self.records[at], self.times[at] = record, record[0]

    def add_header(self, at, record, own, given):
        if own not in self.sets:
            raise Refused(401)
        if len(given) != len(self.sets[own].members):
            raise Refused(402)
        if "B" in given:
            raise Refused(403)
        header = (record, own, given)
        if self.headers.get(at, header) != header:
            raise Refused(404)
        self.add_record(at, record)
        self.headers[at] = header


# ---- the step rule, at one moment


def signed_power(trusted, own, given):
    signers = {member[0] for member, vote in zip(own.members, given) if vote == "C"}
    return sum(power for address, power, _ in trusted.members if address in signers)


def exceeds(power, total, n, d):
    return power * d > total * n


def accepts(book, client, t, h, now):
    """Whether the step from the record at t to the header at h is accepted at a moment."""
    time, _, following = book.records[t]
    record, own, given = book.headers[h]
    if not (h > t and time + client.period > now and record[0] > time and record[0] < now + client.drift):
        return False
    if following not in book.sets:
        return False
    trusted, own = book.sets[following], book.sets[own]
    if h == t + 1:
        if own.hash != trusted.hash:
            return False
    elif not exceeds(signed_power(trusted, own, given), trusted.total, *client.trust):
        return False
    return exceeds(signed_power(own, own, given), own.total, 2, 3)


# ---- the votes that an update sends, if only those go that its step needs


def least_power(total, n, d):
    """The least power that is more than a fraction of a total."""
    return total * n // d + 1


def falling(voters, key):
    """The voters by power falling, ties in their order."""
    return sorted(voters, key=lambda v: -v[key])


def fewest(voters, key, needed):
    """The shortest beginning of the falling voters that has the power."""
    chosen = []
    for voter in falling(voters, key):
        if needed <= sum(v[key] for v in chosen):
            break
        chosen.append(voter)
    return chosen


def fewest_then(voters, key, needed, other, more):
    first = fewest(voters, key, needed)
    rest = falling(voters, key)[len(first):]
    return first + fewest(rest, other, more - sum(v[other] for v in first))


def thinned(chosen, needed):
    """From the last back each goes without which the others still pass both tests."""
    for voter in reversed(chosen):
        others = [v for v in chosen if v is not voter]
        if all(needed[key] <= sum(v[key] for v in others) for key in needed):
            chosen = others
    return chosen


def sent_votes(book, client, t, h):
    """The voters whose commit votes are sent for the step from t to h."""
    _, own, given = book.headers[h]
    own, trusted = book.sets[own], book.sets.get(book.records[t][2])
    powers = {address: power for address, power, _ in trusted.members} if trusted else {}
    voters = [{"place": place, "address": address, "own": power, "trusted": powers.get(address, 0)}
              for place, (address, power, _) in enumerate(own.members) if given[place] == "C"]
    needed = {"own": least_power(own.total, 2, 3), "trusted": least_power(trusted.total, *client.trust) if trusted and h != t + 1 else 0}
    by_own = thinned(fewest_then(voters, "own", needed["own"], "trusted", needed["trusted"]), needed)
    by_trusted = thinned(fewest_then(voters, "trusted", needed["trusted"], "own", needed["own"]), needed)
    return by_own if len(by_own) <= len(by_trusted) else by_trusted


class View:
    """A client in a window: the steps that are accepted at every moment of it, and their fees."""

    def __init__(self, book, client, stored, begin, end, higher):
        self.book, self.client, self.end = book, client, end
        self.turn = -1 if higher else 1  # of equally cheap lists that of the higher heights, or of the lower ones
        self.sent = {}  # how many votes are sent for a step
        self.live = {h for h in stored if book.records[h][0] + client.period > end}
        # acceptance can only begin later and end sooner as moments go by, so both ends of the window tell
        self.steps = {h: [t for t in sorted(book.records) if t < h and self.accepts(t, h, begin, end)] for h in sorted(book.headers)}

    def accepts(self, t, h, begin, end):
        return accepts(self.book, self.client, t, h, begin) and accepts(self.book, self.client, t, h, end)

    def votes(self, t, h):
        """How many votes an update is charged for."""
        if self.client.votes == "needed":
            if (t, h) not in self.sent:
                self.sent[t, h] = len(sent_votes(self.book, self.client, t, h))
            return self.sent[t, h]
        given = self.book.headers[h][2]
        return given.count("C") if self.client.votes == "commit" else len(given) - given.count("A")

    def charge(self, table, t, h):
        base, signature, validator = table
        own = self.book.headers[h][1]
        sizes = len(self.book.sets[own].members) + len(self.book.sets[self.book.records[t][2]].members)
        return base + signature * self.votes(t, h) + validator * sizes

    def update_line(self, t, h):
        line = f"update {h} from {t} fee {self.fee(t, h)}"
        if self.client.votes == "needed":
            line += f" votes {self.votes(t, h)} of {self.book.headers[h][2].count('C')}"
        return line

    def fee(self, t, h):
        return self.charge(self.client.fee, t, h)

    def gas(self, t, h):
        return self.charge(self.client.gas, t, h)


def wants(goal, h):
    return h == goal[1] if goal[0] == "exactly" else h >= goal[1]


# ---- the least list: over all lists, and by labels


def all_lists(view, goal):
    """Labels and the least list, by going through the lists of updates in their order. A list that ends in the same stored
    heights as an earlier one is not continued."""
    labels, least, seen = {}, None, set()
    queue = [(0, 0, (), frozenset(view.live))]
    while queue:
        fee, count, backwards, stored = heapq.heappop(queue)
        if stored in seen:
            continue
        seen.add(stored)
        for h in stored:
            labels[h] = min(labels.get(h, (fee, count)), (fee, count))
        if least is None and any(wants(goal, h) for h in stored):
            least = [(view.turn * t, view.turn * h) for h, t in reversed(backwards)]
        for h, trusted in view.steps.items():
            if h in stored:
                continue  # storing a height again stores nothing new: dropping that update gives a list before this one
            for t in trusted:
                if t in stored:
                    step = view.turn * h, view.turn * t
                    heapq.heappush(queue, (fee + view.fee(t, h), count + 1, (step,) + backwards, stored | {h}))
    return labels, least


def labels_of(view):
    """The least pair of fee and number of updates of each height, upwards."""
    labels = {h: (0, 0) for h in view.live}
    for h, trusted in view.steps.items():
        sums = [(labels[t][0] + view.fee(t, h), labels[t][1] + 1) for t in trusted if t in labels]
        if sums and h not in labels:
            labels[h] = min(sums)
    return labels


def by_labels(view, goal):
    """The same as of all lists by the labels, and a walk back."""
    labels = labels_of(view)
    reached = [(labels[h], view.turn * h) for h in labels if wants(goal, h)]
    if not reached:
        return labels, None
    h = view.turn * min(reached)[1]
    updates = []
    while h not in view.live:
        tight = [t for t in view.steps[h] if t in labels and (labels[t][0] + view.fee(t, h), labels[t][1] + 1) == labels[h]]
        t = min(tight, key=lambda t: view.turn * t)
        updates.insert(0, (t, h))
        h = t
    return labels, updates


def plan(view, goal):
    labels, least = by_labels(view, goal)
    if len(labels.keys() - view.live) <= EXHAUSTIVE:
        if (labels, least) != all_lists(view, goal):
            sys.exit(f"reference: the two searches differ: {(labels, least)} and {all_lists(view, goal)}")
    return labels, least


# ---- transactions, by trying all runs


def least_cut(gas, limit):
    """The runs' lengths: the fewest runs, and among those the longest first, and so on; or the message that is too big."""
    most_gas, most, own = limit
    for i, g in enumerate(gas):
        if g + own > most_gas:
            return None, i
    fewest = {len(gas): 0}
    choice = {}
    for i in reversed(range(len(gas))):
        ends = [k for k in range(i + 1, len(gas) + 1) if k - i <= most and sum(gas[i:k]) + own <= most_gas]
        fewest[i] = 1 + min(fewest[k] for k in ends)
        choice[i] = max(k for k in ends if 1 + fewest[k] == fewest[i])
    runs, i = [], 0
    while i < len(gas):
        runs.append((i, choice[i] - i))
        i = choice[i]
    return runs, None


def least_cut_apart(gas, updates, limit):
    """The runs of so many updates, and behind them those of the other messages."""
    front, big = least_cut(gas[:updates], limit)
    if front is None:
        return None, big
    back, big = least_cut(gas[updates:], limit)
    return (None, updates + big) if back is None else (front + [(updates + first, count) for first, count in back], None)


# ---- packets


class Packet:
    """A packet as it was sent, where it was seen, and what of its messages was taken."""

    def __init__(self, block, time, timeout_height, timeout_time):
        self.block, self.time, self.timeout_height, self.timeout_time = block, time, timeout_height, timeout_time
        self.received = self.written = self.written_time = None
        self.seen_cleared = self.receive_settled = self.end_settled = False

    def is_finished(self):
        return self.received is not None or self.seen_cleared or self.receive_settled

    def is_cleared(self):
        return self.seen_cleared or self.end_settled

    def timeouts(self, times):
        """The heights of the destination that prove that it expired: `times` are the times of its records by height."""
        found = []
        if times and self.timeout_height and max(times) >= self.timeout_height:
            found.append(self.timeout_height)
        if times and self.timeout_time and times[max(times)] >= self.timeout_time:
            found.append(min(h for h in times if times[h] >= self.timeout_time))
        return found


class Channel:
    """What is known of a path: its packets by sequence, and whether it is closed."""

    def __init__(self, path):
        self.path, self.packets, self.closed = path, {}, False

    def sent(self, seq, block, time, timeout_height, timeout_time):
        if seq < self.path.first:
            raise Refused(805)
        if seq in self.packets:
            raise Refused(804)
        if len(self.packets) >= MAX_PACKETS:
            raise Refused(406)
        self.packets[seq] = Packet(block, time, timeout_height, timeout_time)

    def known(self, seq):
        if seq not in self.packets:
            raise Refused(805)
        return self.packets[seq]

    def received(self, seq, block):
        packet = self.known(seq)
        if self.path.order == "ordered" and self.least(Packet.is_finished) < seq:
            raise Refused(805)
        if packet.received is not None:
            raise Refused(804)
        packet.received = block

    def ack(self, seq, block, time):
        packet = self.known(seq)
        if packet.received is None or block < packet.received:
            raise Refused(805)
        if packet.written is not None:
            raise Refused(804)
        packet.written, packet.written_time = block, time

    def cleared(self, seq):
        packet = self.known(seq)
        if packet.is_cleared():
            raise Refused(804)
        packet.seen_cleared = True

    def close(self):
        if self.closed:
            raise Refused(804)
        self.closed = True

    def least(self, is_done):
        """The least sequence from the first on whose packet isn't done."""
        seq = self.path.first
        while seq in self.packets and is_done(self.packets[seq]):
            seq += 1
        return seq

    def settled(self, kind, seq):
        """Takes in that a message of this kind was taken."""
        if kind == "recv":
            self.packets[seq].receive_settled = True
        else:
            self.packets[seq].end_settled = True
        if kind == "timeout" and self.path.order == "ordered":
            self.closed = True

    def table(self, times):
        """The messages that the packets want, by kind: the floor of each by its sequence."""
        found = {kind: {} for kind in KINDS}
        for seq, packet in sorted(self.packets.items()):
            expired = packet.timeouts(times)
            if packet.written is not None and not packet.is_cleared():
                found["ack"][seq] = packet.written + 1
            if packet.is_finished() or packet.is_cleared():
                continue
            if expired:
                found["timeout"][seq] = min(expired)
            else:
                found["recv"][seq] = packet.block + 1
        return found

    def owed(self, times):
        """The messages that are owed: kind, sequence and floor."""
        if self.closed:
            return []
        table = self.table(times)
        if self.path.order == "ordered":
            table["recv"] = run_from(self.least(Packet.is_finished), table["recv"])
            table["ack"] = run_from(self.least(Packet.is_cleared), table["ack"])
            first = self.least(Packet.is_finished)
            table["timeout"] = {first: table["timeout"][first]} if first in table["timeout"] else {}
        return [(kind, seq, table[kind][seq]) for kind in KINDS for seq in sorted(table[kind])]

    def ready(self, times, reach, can):
        """The owed messages that can go and that a greatest labelled height lets go out; in a run of an ordered path none after one
        that has to wait or can't go."""
        found, waiting, barred = [], set(), set()
        for kind, seq, floor in self.owed(times):
            if not can(kind, seq):
                barred.add(kind)
                continue
            if self.path.order == "ordered" and kind in barred:
                continue
            if reach is None or floor > reach:
                waiting.add(kind)
            elif self.path.order == "unordered" or kind not in waiting:
                found.append((kind, seq, floor))
        return found


def run_from(seq, floors):
    """Of floors by sequence those of consecutive sequences from this one on."""
    found = {}
    while seq in floors:
        found[seq] = floors[seq]
        seq += 1
    return found


# ---- turns and reports


class Batch:
    """A batch that is open: its number, how many transactions it has, and in each the updates and messages."""

    def __init__(self, number, transactions):
        self.number, self.transactions = number, transactions


class Relayer:
    """What is known after some events, and what was sent."""

    def __init__(self, script):
        self.script = script
        self.books = {chain: Book(script.limit) for chain in script.chains}
        self.stored = {client: set() for client in script.clients}
        self.channels = {name: Channel(path) for name, path in script.paths.items()}
        self.window, self.windows, self.asked = None, {}, {}  # the common window, and those of hosts
        self.joins = script.version >= JOINING
        self.batches = {client: 0 for client in script.clients}  # how many were opened
        self.open = {}  # the open batch of a client

    # what happens: each call is an event, or is refused and changes nothing

    def enter(self, begin, end):
        if self.window and (begin < self.window[0] or end < self.window[1]):
            raise Refused(806)
        self.window = begin, end

    def enter_host(self, host, begin, end):
        """A window of the clients on a host."""
        before = self.windows.get(host, self.window)
        if before and any(client.host == host for client in self.script.clients.values()) and (begin < before[0] or end < before[1]):
            raise Refused(806)
        self.windows[host] = begin, end

    def window_of(self, client):
        return self.windows.get(client.host, self.window)

    def see(self, kind, name, *rest):
        if kind == "set":
            self.books[name].add_set(*rest)
        elif kind == "header":
            self.books[name].add_header(*rest)
        elif kind == "stored":
            self.books[self.script.clients[name].of].add_record(*rest)
            self.stored[name].add(rest[0])
        elif kind == "closed":
            self.channels[name].close()
        else:
            getattr(self.channels[name], kind)(*rest)

    def settle(self, client, number, done):
        batch = self.open.get(client)
        if number <= self.batches[client] and not (batch and batch.number == number):
            raise Refused(804)
        if not batch or batch.number != number or done > len(batch.transactions):
            raise Refused(805)
        del self.open[client]
        for message in [m for transaction in batch.transactions[:done] for m in transaction]:
            if message[0] == "update":
                self.stored[client].add(message[1])
            else:
                kind, path, seq = message
                self.channels[path].settled(kind, seq)

    # what is planned

    def view(self, client):
        return View(self.books[client.of], client, self.stored[client.id], *self.window_of(client), self.joins)

    def is_too_big(self, client, name, kind):
        """Whether a message is over the gas limit alone."""
        most_gas, _, own = client.limits
        return self.channels[name].path.gas[KINDS.index(kind)] + own > most_gas

    def can_go(self, client, name):
        """Which messages of a path can go: by kind and sequence."""
        def can(kind, seq):
            late = self.channels[name].packets[seq].timeout_time
            is_late = kind == "recv" and late and late <= self.window_of(client)[1]
            return not self.joins or not (self.is_too_big(client, name, kind) or is_late)

        return can

    def too_big(self, client):
        """The lines of the messages that are left out since they are over the gas limit alone."""
        lines = []
        for name, channel in self.channels.items():
            for kind, seq, _ in channel.owed(self.books[channel.path.dest].times):
                if (channel.path.forward if kind == "recv" else channel.path.back) == client.id:
                    if self.joins and self.is_too_big(client, name, kind):
                        lines.append(f"toobig {kind} {name} {seq}")
        return lines

    def ready(self, client, reach):
        """The client's ready messages, path by path: kind, path, sequence and floor."""
        found = []
        for name, channel in self.channels.items():
            for kind, seq, floor in channel.ready(self.books[channel.path.dest].times, reach, self.can_go(client, name)):
                if (channel.path.forward if kind == "recv" else channel.path.back) == client.id:
                    found.append((kind, name, seq, floor))
        return found

    def due(self, client, updates=()):
        """The time at which the client's newest record is due for a refresh, if it ever is, once some updates are taken."""
        heights = self.stored[client.id] | {h for _, h in updates}
        return self.books[client.of].times[max(heights)] + client.refresh if client.refresh and heights else None

    @staticmethod
    def urgent_gain(client):
        """An urgent refresh makes the client newer by more than this."""
        return min(client.refresh, client.period) // 100

    def gain(self, client, reach):
        """The height that a refresh by gain has to reach, if one is needed: where the newest record has the refresh age, and the greatest in
        reach is newer by more than half of it, the lowest that is newer by the whole of it, or that greatest one, and no more than that age
        older than this; from two thirds of the trusting period on the greatest in reach, if it is newer by more than a hundredth."""
        times = self.books[client.of].times
        if not client.refresh or not self.stored[client.id] or reach is None:
            return None
        newest, until = times[max(self.stored[client.id])], self.window_of(client)[1]
        if newest + client.period - client.period // 3 <= until:
            needed = times[reach] if newest + self.urgent_gain(client) < times[reach] else None
        elif newest + client.refresh <= until and newest + client.refresh // 2 < times[reach]:
            needed = max(min(newest + client.refresh, times[reach]), times[reach] - client.refresh)
        else:
            needed = None
        return None if needed is None else min(h for h in times if times[h] >= needed)

    def refresh(self, client, reach):
        """The height that a refresh has to reach, if it is time for one and there is such a height."""
        due, times = self.due(client), self.books[client.of].times
        fresh = [h for h in times if times[h] + client.refresh > self.window[1]]
        if due is None or self.window[1] < due or not fresh:
            return None
        return reach if self.script.version >= WAITING and reach in fresh else min(fresh)

    def press(self, client, message):
        """The earliest end of a window in which a message presses that is ready and not near."""
        kind, name, seq, floor = message
        times, channel = self.books[client.of].times, self.channels[name]
        wait, packet = channel.path.waits[KINDS.index(kind)], channel.packets[seq]
        if not wait or (kind == "recv" and packet.timeout_height):
            return 0
        told = {"recv": packet.time, "ack": packet.written_time, "timeout": None}[kind]
        lowest = times[min(h for h in times if h >= floor)]
        since = lowest if told is None else min(told, lowest)
        if kind == "recv" and packet.timeout_time:
            return min(since + wait, packet.timeout_time - wait)
        return since + wait

    def near_and_far(self, client, view, reach):
        """Of the ready messages those that the stored heights prove, and the others."""
        ready, near = self.ready(client, reach), self.ready(client, max(view.live, default=None))
        return near, [message for message in ready if message not in near]

    def going(self, client, view, reach):
        """The messages that go where no height was asked for: all that are ready, or the near ones if none of the others presses."""
        near, far = self.near_and_far(client, view, reach)
        is_pressed = any(self.press(client, message) <= self.window_of(client)[1] for message in far)
        return self.ready(client, reach) if is_pressed else near

    def goal(self, client, view):
        """The client's goal, if it has one, and the messages that go with it."""
        if client.id in self.asked:
            return self.asked[client.id], []
        reach = max(labels_of(view), default=None)
        going = self.going(client, view, reach)
        if going:
            return ("at_least", max(floor for *_, floor in going)), [message[:3] for message in going]
        height = self.refresh(client, reach)
        return (("at_least", height) if height else None), []

    def joined(self, client, view):
        """The client's goal, if it has one: exactly the height that was asked for so and is in reach; else at least the greatest that
        anything needs; else what was asked for out of reach."""
        asked, reach = self.asked.get(client.id), max(labels_of(view), default=None)
        is_in_reach = asked is not None and reach is not None and asked[1] <= reach
        if is_in_reach and asked[0] == "exactly":
            return asked
        needs = [floor for *_, floor in self.going(client, view, reach)] + ([asked[1]] if is_in_reach else [])
        height = self.gain(client, reach)
        needs += [height] if height is not None else []
        return ("at_least", max(needs)) if needs else asked

    def next_joined(self, client, view, updates):
        """The line on when a goal arises next, once these updates and all that they prove are taken."""
        reach, times = max(labels_of(view), default=None), self.books[client.of].times
        proof = max(view.live | {h for _, h in updates}, default=None)
        sent = self.ready(client, proof)
        moments = [self.press(client, message) for message in self.ready(client, reach) if message not in sent]
        heights = self.stored[client.id] | {h for _, h in updates}
        if client.refresh and heights and reach is not None:
            newest = times[max(heights)]
            urgent = client.period - client.period // 3
            if newest + client.refresh // 2 < times[reach]:
                moments.append(newest + min(client.refresh, urgent))
            elif newest + self.urgent_gain(client) < times[reach]:
                moments.append(newest + urgent)
        moments = [max(moment, self.window_of(client)[1]) for moment in moments if moment <= LAST_MOMENT]
        return [f"next {stamp(min(moments))}"] if moments else []

    def next_lines(self, client, view, updates):
        """The line on when a goal arises next, as far as is known once these updates are taken."""
        _, far = self.near_and_far(client, view, max(labels_of(view), default=None))
        moments = [min((self.press(client, message) for message in far), default=0)]
        times, due = self.books[client.of].times, self.due(client, updates)
        if due is not None and due - client.refresh < max(times.values()):  # else there is nothing to refresh it to
            moments.append(due)
        later = [moment for moment in moments if self.window[1] < moment <= LAST_MOMENT]
        return [f"next {stamp(min(later))}"] if later and self.script.version >= WAITING else []

    def take_in(self, turn):
        """A turn's window, goals and observations; the lines of those that are refused."""
        lines = []
        for host, window in turn.windows.items():
            try:
                self.enter_host(host, *window)
            except Refused as refusal:
                lines.append(refused_line(f"window {host}", refusal))
        try:
            self.enter(turn.begin, turn.end)
        except Refused as refusal:
            lines.append(refused_line("window", refusal))
        self.asked |= turn.asked
        for i, event in enumerate(turn.events):
            try:
                self.see(*event)
            except Refused as refusal:
                lines.append(refused_line(f"event {i}", refusal))
        return lines

    def send(self, client, view, updates, messages, apart):
        """Opens the batch of these, if there is one; the lines on it."""
        script = self.script
        gas = [view.gas(t, h) for t, h in updates]
        gas += [script.paths[path].gas[KINDS.index(kind)] for kind, path, _ in messages]
        if not gas:
            return []
        runs, big = least_cut_apart(gas, len(updates), client.limits) if apart else least_cut(gas, client.limits)
        if runs is None:
            return [f"toobig {big}"]
        sent = [("update", h) for _, h in updates] + messages
        self.batches[client.id] += 1
        number = self.batches[client.id]
        self.open[client.id] = Batch(number, [sent[first:first + count] for first, count in runs])
        lines = [f"batch {number} proof {max(view.live | {h for _, h in updates})}"]
        for n, (first, count) in enumerate(runs):
            lines.append(f"tx {n + 1} first {first} count {count} gas {sum(gas[first:first + count]) + client.limits[2]}")
        return lines

    def plan(self, client):
        """A client's lines."""
        if client.id in self.open:
            return [f"client {client.id} held {self.open[client.id].number}"]
        view = self.view(client)
        if self.joins:
            return self.plan_joined(client, view)
        goal, messages = self.goal(client, view)
        self.asked.pop(client.id, None)
        if goal is None:
            return [f"client {client.id} idle", *self.next_lines(client, view, [])]
        labels, updates = plan(view, goal)
        lines = [f"client {client.id} goal {goal[0]} {goal[1]}"]
        lines += [f"label {h} {labels[h][0]} {labels[h][1]}" for h in sorted(labels)]
        if updates is None:
            return lines + ["unreachable"]
        lines += [view.update_line(t, h) for t, h in updates]
        lines.append(f"total {sum(view.fee(t, h) for t, h in updates)} updates {len(updates)}")
        lines += [f"{kind} {path} {seq}" for kind, path, seq in messages]
        after = self.next_lines(client, view, updates)
        return lines + self.send(client, view, updates, messages, False) + after

    def plan_joined(self, client, view):
        """A client's lines where its goal is joined of all that it needs."""
        goal, asked, left = self.joined(client, view), self.asked.pop(client.id, None), self.too_big(client)
        if goal is None:
            return [f"client {client.id} idle", *self.next_joined(client, view, []), *left]
        labels, updates = plan(view, goal)
        lines = [f"client {client.id} goal {goal[0]} {goal[1]}"]
        lines += [f"beyond {asked[0]} {asked[1]}"] if asked and goal[1] < asked[1] else []
        lines += [f"label {h} {labels[h][0]} {labels[h][1]}" for h in sorted(labels)]
        if updates is None:
            return lines + ["unreachable", *left]
        lines += [view.update_line(t, h) for t, h in updates]
        lines.append(f"total {sum(view.fee(t, h) for t, h in updates)} updates {len(updates)}")
        messages = [message[:3] for message in self.ready(client, max(view.live | {h for _, h in updates}))]
        lines += [f"{kind} {path} {seq}" for kind, path, seq in messages]
        after = self.next_joined(client, view, updates)
        apart = self.gain(client, max(labels_of(view), default=None)) is not None
        return lines + self.send(client, view, updates, messages, apart) + after + left

    def settle_all(self, settlements):
        lines = []
        for i, (client, number, done) in enumerate(settlements):
            try:
                self.settle(client, number, done)
                lines.append(f"settled {client} {number} {done}")
            except Refused as refusal:
                lines.append(refused_line(f"settle {i}", refusal))
        return lines

    def all_open(self):
        """The settlements that take all open batches whole, in script order."""
        return [(client, self.open[client].number, len(self.open[client].transactions)) for client in self.script.clients if client in self.open]

    def turn(self, turn):
        lines = self.take_in(turn)
        for client in self.script.clients.values():
            lines += self.plan(client)
        lines += self.settle_all(turn.settlements)
        return lines + (self.settle_all(self.all_open()) if turn.taken else [])


def stamp(moment):
    """A time as it is written: to the second, or with as many digits as it needs."""
    seconds, rest = divmod(moment, 10**9)
    whole = datetime(1970, 1, 1) + timedelta(seconds=seconds)
    return whole.isoformat() + (f".{rest:09}".rstrip("0") if rest else "") + "Z"


def refused_line(what, refusal):
    return f"refused {what} {refusal.args[0]} {NAMES[refusal.args[0]]}"


def report(script):
    relayer, lines = Relayer(script), [f"ibcplan {script.version if script.version >= WAITING else 1}"]
    for number, turn in enumerate(script.turns, 1):
        lines += [f"turn {number}", *relayer.turn(turn)]
    return "\n".join(lines + ["end", ""])


def planned(script, place):
    """Of each client that is planned in a turn its id, and its goal and view."""
    relayer = Relayer(script)
    for turn in script.turns[:place]:
        relayer.turn(turn)
    relayer.take_in(script.turns[place])
    found = {}
    for client in script.clients.values():
        view = relayer.view(client)
        goal = relayer.joined(client, view) if relayer.joins else relayer.goal(client, view)[0]
        if goal and client.id not in relayer.open:
            found[client.id] = goal, view
    return found


# ---- certificates


def certificates(script):
    """The certificates of all that is planned: turn, client and text."""
    for place in range(len(script.turns)):
        for client, (goal, view) in planned(script, place).items():
            yield place + 1, client, certificate_text(place + 1, client, *plan(view, goal))


def certificate_text(turn, client, labels, updates):
    rows = [f"  [{h}, {labels[h][0]}, {labels[h][1]}]," for h in sorted(labels)]
    pairs = ", ".join(f"[{h}, {t}]" for t, h in updates or [])
    answer = "unreachable" if updates is None else "plan"
    lines = ["version = 1", f"turn = {turn}", f'client = "{client}"', f'answer = "{answer}"']
    return "\n".join(lines + ([f"updates = [{pairs}]"] if updates else []) + ["labels = [", *rows, "]", ""])


def certificate(script):
    """The certificate of the first client with a goal."""
    return next(text for _, _, text in certificates(script))


def first_reason(view, goal, answer, updates, labels):
    for h in sorted(view.live):
        if labels.get(h) != (0, 0):
            return 601, h
    step = lambda t, h: (labels[t][0] + view.fee(t, h), labels[t][1] + 1)
    for h, trusted in view.steps.items():
        for t in trusted:
            if t in labels and (h not in labels or labels[h] > step(t, h)):
                return 602, t, h
    if answer == "unreachable":
        reached = [h for h in sorted(labels) if wants(goal, h)]
        return (606, reached[0]) if reached else None
    held = set(view.live)
    for i, (t, h) in enumerate(updates):
        if t not in held or t not in view.steps.get(h, []):
            return 603, i
        held.add(h)
    if not any(wants(goal, h) for h in held):
        return (607,)
    total = 0
    for i, (t, h) in enumerate(updates):
        total += view.fee(t, h)
        if labels.get(h) != (total, i + 1):
            return 604, i
    if not updates:
        return None
    last = len(updates) - 1
    if any(wants(goal, h) and (label, view.turn * h) < ((total, last + 1), view.turn * updates[last][1]) for h, label in labels.items()):
        return 605, last
    for i in reversed(range(len(updates))):
        t, h = updates[i]
        if any(view.turn * s < view.turn * t and s in labels and step(s, h) == labels[h] for s in view.steps[h]):
            return 605, i
    return None


def certify(script, source):
    turn, client, answer, updates, labels = read_certificate(source)
    need(turn <= len(script.turns), 1026, "turn")
    need(client in script.clients, 1009, "client")
    found = planned(script, turn - 1)
    need(client in found, 1028, "client")
    goal, view = found[client]
    reason = first_reason(view, goal, answer, updates, labels)
    return "yes" if reason is None else " ".join(["no", str(reason[0]), NAMES[reason[0]], *map(str, reason[1:])])


def read_file(name):
    if name == "-":
        return sys.stdin.buffer.read()
    with open(name, "rb") as file:
        return file.read()


def main():
    words = sys.argv[1:]
    try:
        if words[:1] == ["plan"] and len(words) == 2:
            sys.stdout.write(report(read_script(read_file(words[1]))))
        elif words[:1] == ["certificate"] and len(words) == 2:
            sys.stdout.write(certificate(read_script(read_file(words[1]))))
        elif words[:1] == ["certify"] and len(words) == 3:
            verdict = certify(read_script(read_file(words[1])), read_file(words[2]))
            print(verdict)
            sys.exit(0 if verdict == "yes" else 3)
        else:
            sys.stderr.write(__doc__)
            sys.exit(2)
    except Fault as fault:
        print(fault, file=sys.stderr)
        sys.exit(1)


if __name__ == "__main__":
    main()
