"""Valid scripts that cost a planner the most, each kind from a small one up to the limits of the format.

There is a function for each kind. Its first argument is a size, by default that of the script at the limits. Sets, clients and turns grow
with the size, unless the function says otherwise; the number of chains doesn't. Its value is the script's text, and how many lines of
the report begin with which word."""
import collections
import dataclasses
import functools
import hashlib
import random
from typing import Callable

from lib.judges import scripts
from lib.script_text import LATER, a_set, chain, follower, goal, header, key, members, packet, path, settled, stored, turn

SECOND = 10**9  # nanoseconds
FAR = 10**9  # a height above all others
TIGHT = "[1, 1, 0]"  # limits of a transaction that takes a message of gas 1
OWN_HOST = '[[chain]]\nid = "host"\n'
VERSION, VERSION_3 = "version = 2\n", "version = 3\n"
NEEDED = 'votes = "needed"\n'


def share(whole, size, full, least=1):
    """What a script of this size has, where the one at the limits has the whole."""
    return max(least, whole * size // full)


def lines(turns, **others):
    return {"turn": turns, "refused": 0, "end": 1, **others}


def hub(ids, refresh=SECOND):
    """A host, and a client on it of each of these chains, which is due for a refresh as soon as it has a record."""
    return VERSION + OWN_HOST + "".join(chain(c, refresh) for c in ids) + "".join(follower(c, "host", c) for c in ids)


def names(count, letter="a"):
    return [f"{letter}{n}" for n in range(count)]


def power_of(number):
    return 7 * number + 1


def single(number, chain):
    """A set of one member, whose power tells it from the others of its chain."""
    return a_set(f"s{number}", members([0], lambda _: power_of(number)), chain)


# ---- tables of steps


def falling(size=500, chains=8):
    """Eight headers a turn for each chain, from the highest down: each comes below all that stand in the table, and its next set is
    one that no record below it names, so that each row gets a cell more."""
    ids, sets, per = names(chains), share(1024, size, 500), 8
    top = per * size + 1
    text = hub(ids)
    for number in range(size):
        events = []
        if number == 0:
            events += [single(n, c) for c in ids for n in range(sets)] + [stored(c, 1, "s0") for c in ids]
            events += [header(FAR, "A", "s0", "s0", c, LATER) for c in ids]
        for h in range(top - per * number, top - per * (number + 1), -1):
            events += [header(h, "C" if h < top else "A", "s0", f"s{h % sets}", c) for c in ids]
        text += turn(LATER, events)
    return text, lines(size, client=chains * size, label=chains * per * size * (size + 1) // 2, unreachable=chains * size, update=0)


def set_hash(number):
    return scripts.ValidatorSet([(bytes.fromhex(key(0)), power_of(number))]).hash.hex()


def tables(size=1024, chains=28, late="", turns=1):
    """Each chain has so many sets and records that name them, and three times as many headers, each signed by the member of all sets.
    The sets come first; or in a second turn, by `falling` or `rising` hash, when the table has been made."""
    ids, heads = names(chains), 3 * size
    hashes = [set_hash(n) for n in range(size)]
    first, second = [], []
    for c in ids:
        refs = [hashes[n] if late and n else f"s{n}" for n in range(size)]
        order = range(size) if not late else sorted(range(1, size), key=hashes.__getitem__, reverse=late == "falling")
        first += [single(0, c)] if late else []
        (second if late else first).extend(single(n, c) for n in order)
        first += [stored(c, 1, refs[0])] + [stored(c, n + 1, refs[n]) for n in range(1, size)]
        first += [header(size + n, "A" if n == heads else "C", "s0", "s0", c) for n in range(1, heads + 1)]
    turns = [first, second] if late else [first] + [[]] * (turns - 1)
    text = hub(ids) + "".join(turn(size + heads, events) for events in turns)
    plans = chains * len(turns)
    return text, lines(len(turns), client=plans, label=plans * (size + heads - 1), unreachable=plans, update=0)


def alike(count, tries):
    """So many keys whose addresses begin with different pairs of bytes, and more keys with these beginnings, all from so many tries."""
    numbers = [b"m%031d" % number for number in range(tries)]
    begins = [hashlib.sha256(number).digest()[:2] for number in numbers]
    common = {begin for begin, _ in collections.Counter(begins).most_common(count)}
    found = [(begin, number.hex()) for begin, number in zip(begins, numbers) if begin in common]
    first = {begin: k for begin, k in reversed(found)}
    return [*first.values()], [k for begin, k in found if first[begin] != k]


def collide_late(size=4077, turns=2, votes=""):
    """Eighteen sets come after the headers were planned. None of their members is in the headers' own set, but each member's address begins with
    the same two bytes as one there. They are sets of 10,000 in the script at the limits, and the own set has 500 members. Updates carry the
    votes that are given, if they are (version 3)."""
    chance, own, sets = random.Random(5), share(500, size, 4077, least=3), 18
    mine, others = alike(own, share(1_000_000, size, 4077, least=50_000))
    large = min(share(10_000, size, 4077), len(others))
    of_keys = lambda keys, power: "[%s]" % ",".join(f'["{k}",{power()}]' for k in keys)
    first = [a_set("o", of_keys(mine, lambda: 1), "a")]
    first += [a_set(f"s{n}", of_keys(chance.sample(others, large), lambda: chance.randint(1, 9)), "a") for n in range(sets)]
    first += [header(sets + 1 + n, "C" * own, "o", "o", "a") for n in range(1, size + 1)]
    second, top = [stored("c", n + 1, f"s{n}") for n in range(sets)], sets + 1 + size
    text = (VERSION_3 if votes else VERSION) + '[[chain]]\nid = "b"\n' + chain("a") + follower("c", "b", "a") + votes
    text += "".join(turn(top, events, [goal("c", top)]) for events in [first, second] + [[]] * (turns - 2))
    return text, lines(turns, client=turns, label=(turns - 1) * sets, unreachable=turns)


def needed_votes(size=172, full=172, sets=500, width=200):
    """Headers whose updates carry the votes that they need, and sets, each trusted at a stored height. A set has the members of the headers' own
    set, with powers of its own, and for each of these one more, of little power, whose address begins with the same two bytes. The members of the
    greatest powers in the own set have too little of a trusted set."""
    chance, sets, width = random.Random(7), share(sets, size, full), share(width, size, full, least=3)
    mine, others = alike(width, 300 * width)
    begin_of = lambda k: hashlib.sha256(bytes.fromhex(k)).digest()[:2]
    weak = ",".join(f'["{k}",1]' for k in {begin_of(k): k for k in others}.values())
    of_keys = lambda: ",".join(f'["{k}",{chance.randint(2, 10**6)}]' for k in mine)
    events = [a_set("o", f"[{of_keys()}]", "a")] + [a_set(f"s{n}", f"[{of_keys()},{weak}]", "a") for n in range(sets)]
    events += [stored("c", n + 1, f"s{n}") for n in range(sets)] + [header(sets + n, "C" * width, "o", "o", "a") for n in range(1, size + 1)]
    text = VERSION_3 + '[[chain]]\nid = "b"\n' + chain("a") + follower("c", "b", "a") + NEEDED + "trust = [9, 10]\n"
    return text + turn(sets + size, events, [goal("c", sets + size)]), lines(1, client=1, label=sets + size, update=1, total=1)


def reverse_headers(size=4096, chains=40, late=False):
    """Headers of each chain from the highest down; late: in a second turn, when each chain has a table."""
    ids = names(chains)
    events = [a_set("s", members([0]), c) for c in ids]
    events += [header(h, "C", chain=c) for h in range(size, 0, -1) for c in ids]
    turns = [[], events] if late else [events]
    return hub(ids) + "".join(turn(LATER, some) for some in turns), lines(len(turns), client=chains * len(turns), label=0)


def growing(size=500, chains=40):
    """Eight headers a turn for each chain, each above those that stand in the table."""
    ids, per, text = names(chains), 8, hub(names(chains))
    for number in range(size):
        events = []
        if number == 0:
            events += [a_set("s", members([0]), c) for c in ids] + [stored(c, 1) for c in ids]
            events += [header(FAR, "A", chain=c, at=LATER) for c in ids]
        events += [header(2 + per * number + n, "C", chain=c) for n in range(per) for c in ids]
        text += turn(LATER, events)
    return text, lines(size, client=chains * size, label=chains * sum(1 + per * n for n in range(1, size + 1)), unreachable=chains * size)


def large_sets(size=200, headers=3890, width=1000):
    """So many turns, in each of which a large set comes, all but one of whose members were in the one before, and a stored height below all
    headers that names it: a sum over its members for each header, or the table anew."""
    text = hub(["a"])
    for number in range(size + 1):
        if number:
            events = [a_set(f"s{number}", members(range(number, number + width)), "a"), stored("a", number + 1, f"s{number}")]
        else:
            events = [single(0, "a"), stored("a", 1, "0" * 64)] + [header(size + 2 + n, "C", "s0", "s0", "a") for n in range(headers)]
            events.append(header(FAR, "A", "s0", "s0", "a", LATER))
        text += turn(LATER, events)
    plans = size + 1
    return text, lines(plans, client=plans, label=plans * (plans + 1) // 2, unreachable=plans, update=0)


# ---- plans that are made anew each turn


def ladder(size=4095, clients=256, turns=500):
    """Each header is accepted on the word of the record before it (or of one lower by a multiple of the number of sets), so that a list
    has nearly as many updates as there are sets. Each update is over the gas limit: no batch is opened, and each turn asks for it again."""
    ids, turns = names(share(clients, size, 4095), "c"), share(turns, size, 4095, least=2)
    sets = share(1024, size, 4095, least=2)
    events = [a_set(f"s{n}", members([n]), "a") for n in range(sets)] + [stored(c, 1, "s0") for c in ids]
    events += [header(2 + n, "C", f"s{n % sets}", f"s{(n + 1) % sets}", "a") for n in range(size)]
    goals = [goal(c, size + 1, "exactly") for c in ids]
    text = VERSION + '[[chain]]\nid = "b"\n' + chain("a", gas="[2, 0, 0]") + "".join(follower(c, "b", "a", TIGHT) for c in ids)
    text += "".join(turn(LATER, events if n == 0 else [], goals) for n in range(turns))
    plans = len(ids) * turns
    return text, lines(turns, client=plans, label=plans * (size + 1), update=plans * ((size - 1) % sets + 1), toobig=plans)


def labels(size=4095, full=4095, sets=1024, clients=256, turns=500, met=False):
    """Each turn each client of one chain is planned, and sent nothing: for a refresh that it can't reach, or (met) for a height that
    it has. All labels stand in each of its answers."""
    ids, turns = names(share(clients, size, full, least=2), "c"), share(turns, size, full, least=2)
    sets = share(sets, size, full)
    events = [single(n, "a") for n in range(sets)] + [stored(c, 1, "s0") for c in ids]
    events += [header(2 + n, "C", f"s{n % sets}", f"s{(n + 1) % sets}", "a") for n in range(size - 1)]
    events.append(header(size + 1, "A", "s0", "s0", "a", LATER))
    goals = [goal(c, 1) for c in ids] if met else []
    text = VERSION + '[[chain]]\nid = "b"\n' + chain("a", SECOND) + "".join(follower(c, "b", "a") for c in ids)
    text += "".join(turn(LATER, events if n == 0 else [], goals) for n in range(turns))
    plans = len(ids) * turns
    return text, lines(turns, client=plans, label=plans * size, **({"total": plans} if met else {"unreachable": plans}))


# ---- packets


def channel(ids, gas="[1, 1, 1]", limits=("[1_000_000_000_000_000, 10_000, 0]",) * 2):
    """Two chains, a client of each on the other, and unordered paths of these names from `a` to `b`."""
    text = VERSION + chain("a") + chain("b") + follower("c", "b", "a", limits[0]) + follower("d", "a", "b", limits[1])
    return text + "".join(path(p, "a", "b", "c", "d", gas=gas) for p in ids)


def packets(size=150_000, full=150_000, too_big=True, width=1, turns=500):
    """Packets that wait, 4,096 a path, and are planned anew each turn: over the gas limit; or each in a transaction of its own, of
    which none is taken. Identifiers of paths have this width at least."""
    turns, ids = share(turns, size, full, least=2), [f"p{n}".ljust(width, "x") for n in range(-(-size // 4096))]
    events = [a_set("s", members([0]), "a"), stored("c", 9)]
    events += [packet("sent", ids[n // 4096], n % 4096 + 1) for n in range(size)]
    limits = TIGHT if too_big else "[1_000_000_000_000_000, 1, 0]"
    text = channel(ids, "[2, 2, 2]" if too_big else "[1, 1, 1]", [limits] * 2)
    for number in range(turns):
        text += turn(LATER, events if number == 0 else [], settled=[] if too_big else [settled("c", number + 1, 0)])
    all_lines = lines(turns, client=2 * turns, label=turns, recv=size * turns, total=turns)
    return text, all_lines | ({"toobig": turns} if too_big else {"tx": size * turns, "batch": turns, "settled": turns})


def scans(size=4096, each=0):
    """Each turn each of two chains has a record more, so that all paths between them are scanned anew: 256 paths at the limits, each with
    so many packets that nothing proves, and 500 turns."""
    ids, turns, zeros = names(share(256, size, 4096), "p"), share(500, size, 4096, least=2), "0" * 64
    of_height = lambda h: [stored(c, h, zeros) for c in "cd"]
    first = [event for h in range(1, size - turns + 2) for event in of_height(h)]
    first += [packet("sent", p, n + 1, 2**63 - 2) for n in range(share(each, size, 4096, least=min(each, 1))) for p in ids]
    text = channel(ids) + turn(LATER, first)
    text += "".join(turn(LATER, of_height(h)) for h in range(size - turns + 2, size + 1))
    return text, lines(turns, client=2 * turns, label=0, recv=0)


def reverse_packets(size=4096, paths=48):
    """Packets of so many paths, sequences falling."""
    ids = names(paths, "p")
    return channel(ids) + turn(LATER, [packet("sent", p, n) for n in range(size, 0, -1) for p in ids]), lines(1, client=2, recv=0)


# ---- all kinds


@dataclasses.dataclass
class Kind:
    """A kind of script, the size of the one at the limits, and a size, with fewer of other things, that a slow planner plans, too. Where the one at the
    limits asks for too much at a turn, there is one besides that asks for as much as a script may, or nearly."""

    name: str
    make: Callable
    full: int
    small: int
    few: dict = dataclasses.field(default_factory=dict)
    too_much_at: int | None = None
    most: dict = dataclasses.field(default_factory=dict)

    @property
    def fault(self):
        return "" if self.too_much_at is None else too_much(self.too_much_at)

    def at_limit(self):
        return self.make(self.full)

    def at_most(self):
        return self.make(**{"size": self.full} | self.most)

    def in_small(self):
        return self.make(self.small, **self.few)


def too_much(turn):
    return f"fault 1032 TooMuchToPlan at turn[{turn}]"


def kinds():
    part = functools.partial
    return [
        Kind("falling", falling, 500, 3, {"chains": 2}, 124, {"size": 194}),
        Kind("late_18", part(tables, chains=18, late="falling"), 1024, 6, {"chains": 3}, 1, {"chains": 5}),
        Kind("late_18_rising", part(tables, chains=18, late="rising"), 1024, 6, {"chains": 3}, 1, {"chains": 5}),
        Kind("late_1", part(tables, chains=1, late="falling"), 1024, 16),
        Kind("collide_late", collide_late, 4077, 40),
        Kind("collide_turns", part(collide_late, turns=100, votes=NEEDED), 4077, 40, {"turns": 3}, 0, {"size": 1280, "turns": 3}),
        Kind("needed_votes", needed_votes, 172, 12, {}, 0, {"size": 171, "full": 171}),
        Kind("large_sets", large_sets, 200, 3, {"headers": 20, "width": 40}, 126, {"size": 125}),
        Kind("reverse_headers", reverse_headers, 4096, 20, {"chains": 3}, 0, {"size": 3650}),
        Kind("reverse_headers_late", part(reverse_headers, late=True), 4096, 20, {"chains": 3}, 1, {"size": 3650}),
        Kind("growing", growing, 500, 4, {"chains": 2}, 280, {"size": 280}),
        Kind("goals_long_small", part(ladder, clients=16, turns=20), 4095, 30, {}, 7, {"turns": 7}),
        Kind("goals_long", ladder, 4095, 30, {}, 0, {"clients": 62, "turns": 2}),
        Kind("goals_full", part(labels, met=True), 4095, 25, {}, 0, {"clients": 62, "turns": 2}),
        Kind("labels_full", labels, 4095, 25, {}, 0, {"clients": 62, "turns": 2}),
        Kind("labels_small", part(labels, clients=16, turns=40), 4095, 25, {}, 7, {"turns": 7}),
        Kind("labels_1set", part(labels, sets=1), 4095, 25, {}, 15, {"turns": 15}),
        Kind("labels_v1size", part(labels, full=1023), 1023, 15, {"clients": 150, "turns": 200}, 1, {"clients": 200, "turns": 2}),
        Kind("packets_toobig", packets, 150_000, 300, {}, 25, {"turns": 25}),
        Kind("packets_tx", part(packets, full=100_000, too_big=False, width=64), 100_000, 60, {}, 38, {"turns": 38}),
        Kind("scans", scans, 4096, 60, {}, 328, {"size": 3514}),
        Kind("scans_packets", part(scans, each=700), 4096, 60, {}, 21, {"size": 1427}),
        Kind("reverse_packets", reverse_packets, 4096, 10, {"paths": 8}),
        Kind("tables_28", tables, 1024, 6, {"chains": 3}, 0, {"chains": 5}),
        Kind("tables_often", part(tables, chains=5, turns=40), 1024, 6, {"chains": 3, "turns": 3}, 24, {"turns": 24}),
    ]
