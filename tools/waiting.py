#!/usr/bin/env python3
"""Tells what waiting saves: a planner plans a day of packets several times, each time with another wait.

    waiting.py [OPTION..]                     made-up packets; --help lists the options
    waiting.py --sends FOLDER [OPTION..]      packets of saved answers: /tx_search tells what was sent, /commit when blocks were

Each turn sees the newest header of the chain, and the packets of the blocks below it. `ibcplan plan` says which updates and receives
go, and all of them are taken. The table has a line for each wait:

    wait          how long a receive may wait
    updates, fee  how many updates the plans have, and what these cost
    least fee     the least that turns cost which send each packet in time, if all packets and headers are known beforehand
    mean delay    the time from a packet's block to the turn in which it goes, in the mean; `greatest` is the longest such time
    left          how many packets had not gone after the last turn

The tool plans receives, which all go by one client; acknowledgements go by another. One validator set signs all headers. The tool makes
up which of its members sign, so that fees differ. A script holds 500 turns at most, so the tool plans a day in parts: each begins
with the newest stored height, the headers above it, and the packets that have not gone."""
import argparse
import base64
import bisect
import itertools
import json
import pathlib
import random
import re
import subprocess
import sys
from collections import namedtuple
from datetime import datetime, timedelta
from xml.sax.saxutils import escape

sys.dont_write_bytecode = True
TOP = pathlib.Path(__file__).resolve().parent.parent
SECOND, MINUTE, DAY = 10**9, 60 * 10**9, 86_400 * 10**9
BEGIN = 1_793_534_400 * SECOND  # 2026-11-01T12:00:00Z, the first moment of made-up packets
PART, REFERENCE_PART, PACKETS = 400, 20, 4000  # how many turns a script has, for the program or the reference planner, and packets a channel

Send = namedtuple("Send", "block channel seq timeout_height timeout_time")  # a packet; no timeout is 0
Header = namedtuple("Header", "height time votes")
Traffic = namedtuple("Traffic", "clock sends begin end")  # packets by their blocks, and the moments between which turns are
Replay = namedtuple("Replay", "first moments headers sends validators fee")  # the block before all, the turns' moments and newest headers, and what updates cost
Result = namedtuple("Result", "wait updates fee least gone left")


# ---- packets: made up, or of saved answers


class Clock:
    """The times of blocks. Some are known; between two of these the times rise evenly, and elsewhere a block comes each `spacing` nanoseconds."""

    def __init__(self, known, spacing):
        self.heights, self.times, self.spacing = [h for h, _ in known], [t for _, t in known], spacing

    def time_of(self, height):
        place = bisect.bisect_right(self.heights, height)
        if 0 < place < len(self.heights):
            (low, high), (begin, end) = self.heights[place - 1:place + 1], self.times[place - 1:place + 1]
            return begin + (end - begin) * (height - low) // (high - low)
        nearest = max(place - 1, 0)
        return self.times[nearest] + (height - self.heights[nearest]) * self.spacing

    def height_at(self, moment):
        """The highest block that isn't after a moment."""
        low, high = 0, self.heights[-1] + max(0, moment - self.times[-1]) // self.spacing + 1
        while high - low > 1:
            middle = (low + high) // 2
            low, high = (middle, high) if self.time_of(middle) <= moment else (low, middle)
        return low


def made_up(chance, options):
    """Packets at random moments, so many a minute, each on one of the channels."""
    clock, end = Clock([(1, BEGIN)], round(options.block * SECOND)), BEGIN + round(options.hours * 60 * MINUTE)
    moment, sends, last = BEGIN, [], [0] * options.channels
    while True:
        moment += round(chance.expovariate(options.packets) * MINUTE)
        if moment >= end:
            return Traffic(clock, sends, BEGIN, end)
        channel = chance.randrange(options.channels)
        last[channel] += 1
        timeout = moment + round(options.timeout * MINUTE) if options.timeout else 0
        sends.append(Send(clock.height_at(moment) + 1, f"channel-{channel}", last[channel], 0, timeout))


def attributes(event):
    """An event's values by their keys, which older nodes give in base64."""
    values = {a["key"]: a["value"] or "" for a in event["attributes"]}
    if "cGFja2V0X3NlcXVlbmNl" in values:  # packet_sequence
        values = {base64.b64decode(k).decode(): base64.b64decode(v).decode() for k, v in values.items()}
    return values


def sends_in(answer):
    """The packets between channels that an answer of /tx_search tells of."""
    for tx in answer["result"].get("txs", []):
        for event in tx["tx_result"]["events"] if tx["tx_result"].get("code", 0) == 0 else []:
            values = attributes(event) if event["type"] == "send_packet" else {}
            if "packet_src_channel" in values:
                limit = int(values.get("packet_timeout_height", "0-0").split("-")[1])
                sequence, timeout = int(values["packet_sequence"]), int(values.get("packet_timeout_timestamp", 0))
                yield Send(int(tx["height"]), values["packet_src_channel"], sequence, limit, timeout)


def moment_of(time):
    """Nanoseconds since 1970 of a header's time."""
    whole, _, fraction = time.rstrip("Z").partition(".")
    seconds = (datetime.fromisoformat(whole) - datetime(1970, 1, 1)) // timedelta(seconds=1)
    return seconds * SECOND + int(fraction.ljust(9, "0") or "0")


def saved(folder, options):
    """The packets of saved answers, from the first one on."""
    answers = [json.loads(path.read_text()) for path in sorted(folder.rglob("*.json"))]
    results = [answer for answer in answers if isinstance(answer, dict) and isinstance(answer.get("result"), dict)]
    headers = [answer["result"]["signed_header"]["header"] for answer in results if "signed_header" in answer["result"]]
    headers = [header for header in headers if options.chain in (None, header["chain_id"])]
    sends = sorted({(send.channel, send.seq): send for answer in results for send in sends_in(answer)}.values())
    if not headers or not sends:
        sys.exit(f"waiting.py: {folder}: there is no answer of {'/tx_search that tells of a packet' if headers else '/commit'}")
    chains = sorted({header["chain_id"] for header in headers})
    if len(chains) > 1:
        sys.exit(f"waiting.py: {folder}: there are headers of {' and '.join(chains)}; which chain sent the packets, say by --chain")
    known = sorted({int(header["height"]): moment_of(header["time"]) for header in headers}.items())
    clock = Clock(known, round(options.block * SECOND))
    return Traffic(clock, sends, clock.time_of(sends[0].block), clock.time_of(sends[-1].block) + round(options.turn * SECOND))


def replay_of(chance, traffic, options):
    """The turns, and the newest header in each of them. Up to a quarter of the validators are absent from a header."""
    every = round(options.turn * SECOND)
    moments = range(traffic.begin + every, traffic.end + every, every)
    height = traffic.clock.height_at(traffic.begin)
    first, headers = Header(height, traffic.clock.time_of(height), ""), []
    for moment in moments:
        height, absent = traffic.clock.height_at(moment), chance.randint(0, options.validators // 4)
        header = Header(height, traffic.clock.time_of(height), "C" * (options.validators - absent) + "A" * absent)
        headers.append(headers[-1] if headers and headers[-1].height == height else header)
    return Replay(first, moments, headers, traffic.sends, options.validators, options.fee)


# ---- scripts, each a part of the turns


def stamp(moment):
    seconds, rest = divmod(moment, SECOND)
    return f"{(datetime(1970, 1, 1) + timedelta(seconds=seconds)).isoformat()}.{rest:09}Z"


def set_up(replay, wait):
    """A script's chains, clients and paths: a path for each channel, the client of the receives, and the client back, which paths need."""
    terms = f"period_ns = {14 * DAY}\ndrift_ns = {10 * SECOND}\nfee = {list(replay.fee)}\ngas = [1, 0, 0]\nlimits = [{10**9}, 10000, 0]\n"
    text = 'version = 3\nchain = [{ id = "source" }, { id = "host" }]\n\n'
    for name, host, of in ("client", "host", "source"), ("back", "source", "host"):
        text += f'[[client]]\nid = "{name}"\nhost = "{host}"\nof = "{of}"\n{terms}\n'
    for channel in sorted({send.channel for send in replay.sends}):
        text += (f'[[path]]\nid = "{channel}"\nsource = "source"\ndest = "host"\norder = "unordered"\nforward = "client"\nback = "back"\n'
                 f"gas = [1, 1, 1]\nwait_ns = [{wait}, 0, 0]\n\n")
    return text


def set_event(replay):
    members = ", ".join(f'["{number:064x}", 10]' for number in range(1, replay.validators + 1))
    return f'{{ kind = "set", chain = "source", name = "all", validators = [{members}] }}'


def record_event(kind, header):
    """That a header was seen, or that its record is stored."""
    of, votes = ('chain = "source"', f', set = "all", votes = "{header.votes}"') if kind == "header" else ('client = "client"', "")
    return f'{{ kind = "{kind}", {of}, height = {header.height}, time = "{stamp(header.time)}", next = "all"{votes} }}'


def send_event(send):
    late = f", timeout_height = {send.timeout_height}" if send.timeout_height else ""
    late += f', timeout_time = "{stamp(send.timeout_time)}"' if send.timeout_time else ""
    return f'{{ kind = "sent", path = "{send.channel}", seq = {send.seq}, height = {send.block}{late} }}'


def turn_text(moment, events):
    rows = "".join(f"  {event},\n" for event in events)
    return f'[[turn]]\nfrom = "{stamp(moment)}"\nuntil = "{stamp(moment)}"\ntaken = true\nevent = [\n{rows}]\n\n'


class Relay:
    """A relayer whose receives may wait so many nanoseconds. It knows its turn, the newest stored block, the headers above that, the packets
    that wait, the fees of its updates by turn, and in which turn each packet went. At first the client has stored a block before all packets."""

    def __init__(self, replay, wait):
        self.replay, self.wait, self.turn = replay, wait, 0
        self.stored, self.headers = replay.first, []
        self.waiting, self.later = {}, list(reversed(replay.sends))
        self.updates, self.gone = {}, []

    def seen_in(self, turn):
        """What is new in a turn: its header, if that is new, and the packets of blocks below it."""
        header, known = self.replay.headers[turn], self.headers[-1] if self.headers else self.stored
        new = [header] if header.height > known.height else []
        sends = []
        while self.later and self.later[-1].block < header.height:
            sends.append(self.later.pop())
        self.headers += new
        self.waiting |= {(send.channel, send.seq): send for send in sends}
        return [record_event("header", h) for h in new] + [send_event(send) for send in sends]

    def part(self, turns):
        """The script of the next turns, as many as these or as its packets let it have."""
        events = [set_event(self.replay), record_event("stored", self.stored)]
        events += [record_event("header", h) for h in self.headers] + [send_event(send) for send in self.waiting.values()]
        text, begin = set_up(self.replay, self.wait), self.turn
        while self.turn < len(self.replay.moments) and self.turn < begin + turns and (self.turn == begin or len(self.waiting) < PACKETS):
            text += turn_text(self.replay.moments[self.turn], events + self.seen_in(self.turn))
            events, self.turn = [], self.turn + 1
        return text, begin

    def take_in(self, begin, report):
        """What a report says of the turns from one on."""
        stored = [self.stored.height]
        for turn, (heights, fee, gone) in enumerate(told(report), begin):
            if heights:
                self.updates[turn] = fee
            stored += heights
            for packet in gone:
                self.gone.append((turn, self.waiting.pop(packet)))
        newest = [h for h in self.headers if h.height == max(stored)]
        self.stored = newest[0] if newest else self.stored
        self.headers = [h for h in self.headers if h.height > self.stored.height]

    def play(self, plan, turns):
        while self.turn < len(self.replay.moments):
            text, begin = self.part(turns)
            self.take_in(begin, plan(text))


def told(report):
    """Of each turn of a report the heights of the updates, what they cost, and the packets that are received."""
    if re.search("^(refused|unreachable|toobig)", report, re.M):
        sys.exit("waiting.py: the planner refuses a part of a script, or can't reach or send what it wants")
    for turn in re.split(r"^turn \d+\n", report, flags=re.M)[1:]:
        updates = re.findall(r"^update (\d+) from \d+ fee (\d+)$", turn, re.M)
        gone = [(channel, int(seq)) for channel, seq in re.findall(r"^recv (\S+) (\d+)$", turn, re.M)]
        yield [int(height) for height, _ in updates], sum(int(fee) for _, fee in updates), gone


# ---- the least fee with hindsight


def fee_in(replay, turn):
    """What an update to a turn's header costs."""
    base, signature, validator = replay.fee
    return base + signature * replay.headers[turn].votes.count("C") + validator * 2 * replay.validators


def press_turn(replay, wait, send, ready):
    """The last turn in which a packet goes in time, if its proof is there from the turn `ready` on."""
    if not wait or send.timeout_height:
        return ready
    moment = replay.headers[ready].time + wait
    if send.timeout_time:
        moment = min(moment, send.timeout_time - wait)
    return max(ready, bisect.bisect_left(replay.moments, moment))


def limits_of(replay, wait):
    """The first and the last turn in which a packet goes in time, for each packet whose last turn is one of the script's."""
    heights = [header.height for header in replay.headers]
    readies = ((send, bisect.bisect_right(heights, send.block)) for send in replay.sends)
    pairs = [(ready, press_turn(replay, wait, send, ready)) for send, ready in readies if ready < len(heights)]
    return [(ready, last) for ready, last in pairs if last < len(heights)]


def least_fee(limits, fees):
    """The least total fee of a choice of turns, if each pair of a first and a last turn has one of the choice between them."""
    latest = [-1] * (len(fees) + 1)  # by turn, the greatest first turn of a pair that ends before it
    for first, last in limits:
        latest[last + 1] = max(latest[last + 1], first)
    latest = list(itertools.accumulate(latest, max))
    totals = [0]  # the empty choice's, and by turn that of the least choice which ends with it
    for turn, fee in enumerate([*fees, 0]):
        totals.append(fee + min(totals[latest[turn] + 1:]))
    return totals[-1]


def result_of(replay, wait, plan, turns):
    """What comes of a wait."""
    relay = Relay(replay, wait)
    relay.play(plan, turns)
    return Result(wait, len(relay.updates), sum(relay.updates.values()),
                  least_fee(limits_of(replay, wait), [fee_in(replay, turn) for turn in range(len(replay.moments))]),
                  relay.gone, len(relay.waiting) + len(relay.later))


# ---- what is shown


def delays_of(replay, clock, result):
    """How many minutes a packet took in the mean, and at most."""
    took = [(replay.moments[turn] - clock.time_of(send.block)) / MINUTE for turn, send in result.gone]
    return (sum(took) / len(took), max(took)) if took else (0, 0)


HEAD = f"{'wait':>9}{'updates':>9}{'fee':>16}{'least fee':>16}{'mean delay':>13}{'greatest':>11}{'left':>6}"


def row_of(result, mean, greatest):
    """A line of the table."""
    return f"{result.wait / MINUTE:>5g} min{result.updates:>9,}{result.fee:>16,}{result.least:>16,}{mean:>9.1f} min{greatest:>7.1f} min{result.left:>6}"


WIDTH, HEIGHT, LEFT, BOTTOM, EDGE = 640, 360, 80, 50, 40
GREY, BLUE, ORANGE = "#787878", "#2f7fd0", "#c05f1a"  # each of them can be read on white and on black


def label(x, y, words, anchor="middle", fill=GREY):
    return f'<text x="{x:.1f}" y="{y:.1f}" text-anchor="{anchor}" fill="{fill}">{escape(words)}</text>'


def line(points, fill, width, dashes=""):
    """A line with a dot at each point."""
    path = " ".join(f"{x:.1f},{y:.1f}" for x, y in points)
    dots = "".join(f'<circle cx="{x:.1f}" cy="{y:.1f}" r="{width * 1.5}" fill="{fill}"/>' for x, y in points)
    return f'<polyline points="{path}" fill="none" stroke="{fill}" stroke-width="{width}"{dashes}/>{dots}'


def entry(y, words, fill, width, dashes=""):
    """What a line is of, at the chart's right edge, behind a piece of the line."""
    right = WIDTH - EDGE
    piece = f'<path d="M{right - 30} {y - 4}H{right}" stroke="{fill}" stroke-width="{width}"{dashes}/>'
    return label(right - 38, y, words, "end", fill) + piece


def round_step(most):
    """A round number, of which four or five, or a few more, reach the most."""
    step = 10.0 ** (len(f"{int(most)}") - 1) if most >= 1 else 0.1
    while most / step < 4:
        step /= 2 if most / step < 2 else 2.5 if step in (10, 100) else 2
    return step


def chart(rows, title):
    """Fee over mean delay as SVG: what was planned, and the least with hindsight."""
    most_delay, most_fee = max(mean for _, mean, _ in rows) or 1, max(result.fee for result, *_ in rows) or 1
    across = lambda delay: LEFT + delay / most_delay * (WIDTH - LEFT - 2 * EDGE)
    up = lambda fee: HEIGHT - BOTTOM - fee / most_fee * (HEIGHT - BOTTOM - 2 * EDGE)
    parts = [label(WIDTH / 2, 20, title)]
    for fee in ticks(most_fee):
        parts.append(f'<path d="M{LEFT} {up(fee):.1f}H{WIDTH - EDGE}" stroke="{GREY}" stroke-opacity="0.3"/>{label(LEFT - 6, up(fee) + 4, f"{fee:,.0f}", "end")}')
    for delay in ticks(most_delay):
        parts.append(label(across(delay), HEIGHT - BOTTOM + 18, f"{delay:g}"))
    parts.append(label(WIDTH / 2, HEIGHT - 10, "mean minutes from a packet's block to its turn"))
    of_updates, of_least = (BLUE, 3), (ORANGE, 1.5, ' stroke-dasharray="6 4"')  # the least fee is close to the fee, and stands over it
    parts.append(line([(across(mean), up(result.fee)) for result, mean, _ in rows], *of_updates))
    parts.append(line([(across(mean), up(result.least)) for result, mean, _ in rows], *of_least))
    for result, mean, _ in rows:
        parts.append(label(across(mean) + 6, up(result.fee) - 8, f"{result.wait / MINUTE:g} min", "start", BLUE))
    parts += [entry(40, "fee of the updates, by wait", *of_updates), entry(56, "least fee with hindsight", *of_least)]
    head = f'<svg xmlns="http://www.w3.org/2000/svg" viewBox="0 0 {WIDTH} {HEIGHT}" font-family="sans-serif" font-size="12">'
    return "\n".join([head, *parts, "</svg>", ""])


def ticks(most):
    """Round numbers from 0 to the most."""
    step = round_step(most)
    return [number * step for number in range(int(most / step) + 1)]


# ---- planners


def by_program(words):
    """A planner that is a program, which reads a script as `plan -`."""
    def plan(text):
        done = subprocess.run([*words, "plan", "-"], input=text.encode(), capture_output=True)
        if done.returncode:
            sys.exit(f"waiting.py: {words[0]}: {done.stderr.decode().strip() or f'status {done.returncode}'}")
        return done.stdout.decode()

    return plan


def by_reference():
    """The reference planner, which takes labels alone here, since it is slow."""
    sys.path.insert(0, str(TOP / "tests" / "reference"))
    import reference
    reference.EXHAUSTIVE = 0
    return lambda text: reference.report(reference.read_script(text.encode()))


def read_options():
    parser = argparse.ArgumentParser(description=__doc__, formatter_class=argparse.RawDescriptionHelpFormatter)
    parser.add_argument("--waits", type=float, nargs="+", default=[0, 1, 2, 5, 10, 15, 30], metavar="MINUTES", help="how long receives wait, one after the other")
    parser.add_argument("--packets", type=float, default=1, metavar="NUMBER", help="packets a minute (1)")
    parser.add_argument("--channels", type=int, default=3, metavar="NUMBER", help="channels of the client (3)")
    parser.add_argument("--hours", type=float, default=24, metavar="HOURS", help="how long packets come (24)")
    parser.add_argument("--timeout", type=float, default=0, metavar="MINUTES", help="how long after its block a packet expires; 0 is never (0)")
    parser.add_argument("--sends", type=pathlib.Path, metavar="FOLDER", help="saved answers in the place of made-up packets")
    parser.add_argument("--chain", metavar="ID", help="the chain that sent them, where the answers have headers of several")
    parser.add_argument("--turn", type=float, default=60, metavar="SECONDS", help="from one turn to the next (60)")
    parser.add_argument("--block", type=float, default=6, metavar="SECONDS", help="from one block to the next (6), where answers don't tell")
    parser.add_argument("--validators", type=int, default=10, metavar="NUMBER", help="members of the set (10); in each header up to a quarter is absent")
    parser.add_argument("--fee", type=int, nargs=3, default=[1000, 100, 10], metavar=("BASE", "VOTE", "MEMBER"), help="what an update costs (1000 100 10)")
    parser.add_argument("--seed", type=int, default=1, metavar="NUMBER", help="what chance begins with (1)")
    parser.add_argument("--svg", type=pathlib.Path, metavar="FILE", help="where a chart of fee over delay is written")
    parser.add_argument("--planner", nargs="+", default=[str(TOP / "ibcplan")], metavar="WORD", help="the planner (./ibcplan)")
    parser.add_argument("--reference", action="store_true", help="take the reference planner, which is slow, for the planner")
    return parser.parse_args()


def main():
    options = read_options()
    chance = random.Random(options.seed)
    traffic = saved(options.sends, options) if options.sends else made_up(chance, options)
    replay = replay_of(chance, traffic, options)
    plan, turns = (by_reference(), REFERENCE_PART) if options.reference else (by_program(options.planner), PART)
    minutes = (traffic.end - traffic.begin) / MINUTE
    length = f"{minutes / 60:g} hours" if minutes % 60 == 0 else f"{minutes:.1f} minutes"
    channels = len({send.channel for send in traffic.sends})
    title = f"{len(traffic.sends):,} packets on {channels} channel{'s' * (channels != 1)} in {length}, a turn each {options.turn:g} s"
    print(f"{title}\n{HEAD}", flush=True)
    rows = []
    for wait in options.waits:
        result = result_of(replay, round(wait * MINUTE), plan, turns)
        rows.append((result, *delays_of(replay, traffic.clock, result)))
        print(row_of(*rows[-1]), flush=True)
    if options.svg:
        options.svg.write_text(chart(rows, title))


if __name__ == "__main__":
    main()
