#!/usr/bin/env python3
"""Tells how many clients expire in 30 days, by the refreshes of versions 3 and 4, where nodes lag, turns are missed and transactions fail.

    keeping.py [OPTION..]            --help lists the options

A chain has a header each six seconds. Turns come evenly, and a window begins and ends at its turn's moment. Each turn is missed with
a chance. It sees the headers that are older than its lag, which is drawn anew, and those that turns before it saw. The transaction of
an update fails with a chance: then nothing is stored, and the next turn plans anew. Where a message is stuck, each turn of a client
has a receive that its stored states prove, and that the chain never takes. The columns of the table:

    turns, missed, lag, failing    the premises; a turn's lag is from 0 to so much, evenly
    version 3, version 4           how many clients expired, and how many updates the others sent, in the mean; the refresh age is a third
                                   of the trusting period
    a sixth                        version 4 with a sixth of the period for the refresh age
    each turn                      an update in each turn to the newest header: who expires here can't be saved

The rules stand in this file, each in a few lines; fees are all one. `--check` lets a planner decide as well, by a script of one turn
for each decision, and ends with an error where it decides otherwise. That is the reference planner, or a program with its words:

    keeping.py --clients 1 --check
    keeping.py --clients 1 --check ./ibcplan plan -"""
import argparse
import pathlib
import random
import subprocess
import sys
from collections import namedtuple
from datetime import datetime, timedelta

sys.dont_write_bytecode = True
SECOND, HOUR, DAY = 10**9, 3600 * 10**9, 86_400 * 10**9
BEGIN = 1_793_534_400 * SECOND  # 2026-11-01T12:00:00Z
BLOCK = 6 * SECOND
KEY = "bd41528ee123bb3f91ae011c7ba91831832ff4b844689b9f8521ad2b3fdaf0cd"

Row = namedtuple("Row", "turns missed lag failing stuck refresh")  # between turns and the greatest lag as parts of the period; whether refresh_ns is there
Moment = namedtuple("Moment", "until reach fails")  # a turn: its moment, its newest header's time, and whether its update's transaction fails
Client = namedtuple("Client", "period refresh")
Result = namedtuple("Result", "is_lost updates")

ROWS = [
    Row(1 / 48, 0, 0.01, 0, False, True),
    Row(1 / 48, 0, 0.01, 0, False, False),
    Row(1 / 48, 0, 0.01, 0, True, True),
    Row(1 / 48, 0.5, 0.5, 0.5, False, True),
    Row(1 / 48, 0.5, 0.5, 0.5, True, True),
    Row(1 / 3, 0, 0.3, 0, False, True),
    Row(1 / 3, 0, 0.6, 0, False, True),
    Row(1 / 8, 0.1, 0.1, 0.1, False, True),
    Row(1 / 8, 0.3, 0.3, 0.3, False, True),
    Row(1 / 8, 0.3, 0.3, 0.3, True, True),
    Row(1 / 8, 0.3, 0.6, 0.3, False, True),
    Row(1 / 4, 0.1, 0.3, 0.1, False, True),
]


# ---- the rules


def height_of(time):
    return (time - BEGIN) // BLOCK + 1


def by_version_3(client, stored, turn, stuck):
    """Whether the client is refreshed: where it is as old as the refresh age, to the newest header, if that is younger. A near message goes instead."""
    is_due = client.refresh and stored + client.refresh <= turn.until
    return bool(is_due and not stuck and turn.reach + client.refresh > turn.until)


def by_version_4(client, stored, turn, _stuck):
    """Where it is as old as the refresh age, and more than half of that is won; from two thirds of the period on a hundredth of it is enough."""
    refresh = client.period // 3 if client.refresh is None else client.refresh
    if stored + client.period - client.period // 3 <= turn.until:
        return stored + min(refresh, client.period) // 100 < turn.reach
    return stored + refresh <= turn.until and stored + refresh // 2 < turn.reach


def each_turn(_client, stored, turn, _stuck):
    return stored < turn.reach


# ---- runs


def turns_of(chance, row, period, days):
    """The turns that come, with their newest headers."""
    found, reach = [], BEGIN
    for until in range(BEGIN + HOUR, BEGIN + days * DAY, round(row.turns * period)):
        is_missed, lag, fails = chance.random() < row.missed, chance.random() * row.lag, chance.random() < row.failing
        if not is_missed:
            reach = max(reach, (until - round(lag * period)) // BLOCK * BLOCK)
            found.append(Moment(until, reach, fails))
    return found


def run(rule, client, turns, stuck, check=None):
    """The client's updates, until it expires. At first it has stored the first header."""
    stored, updates = BEGIN, 0
    for turn in turns:
        if stored + client.period <= turn.until:
            return Result(True, updates)
        goes = rule(client, stored, turn, stuck)
        if check:
            check(client, stored, turn, stuck, goes)
        updates += goes
        if goes and not turn.fails:
            stored = turn.reach
    return Result(stored + client.period <= turns[-1].until, updates)


# ---- a planner beside the rules


def stamp(moment):
    return f"{(datetime(1970, 1, 1) + timedelta(seconds=moment // SECOND)).isoformat()}.{moment % SECOND:09}Z"


def script_of(version, client, stored, turn, stuck):
    refresh = f"refresh_ns = {client.refresh}\n" if client.refresh else ""
    terms = f"period_ns = {client.period}\ndrift_ns = 0\n{refresh}fee = [1, 0, 0]\ngas = [1, 0, 0]\nlimits = [9, 9, 0]\n\n"
    text = f'version = {version}\nchain = [{{ id = "a" }}, {{ id = "b" }}]\n\n'
    for name, host, of in ("client", "b", "a"), ("back", "a", "b"):
        text += f'[[client]]\nid = "{name}"\nhost = "{host}"\nof = "{of}"\n{terms}'
    text += '[[path]]\nid = "p"\nsource = "a"\ndest = "b"\norder = "unordered"\nforward = "client"\nback = "back"\ngas = [1, 1, 1]\n\n'
    record = lambda time: f'height = {height_of(time) + 1}, time = "{stamp(time)}", next = "s"'
    events = [f'kind = "set", chain = "a", name = "s", validators = [["{KEY}", 1]]', f'kind = "stored", client = "client", {record(stored)}']
    events += [f'kind = "header", chain = "a", {record(turn.reach)}, set = "s", votes = "C"'] if stored < turn.reach else []
    events += ['kind = "sent", path = "p", seq = 1, height = 1'] if stuck else []
    rows = "".join(f"  {{ {event} }},\n" for event in events)
    return text + f'[[turn]]\nfrom = "{stamp(turn.until)}"\nuntil = "{stamp(turn.until)}"\nevent = [\n{rows}]\n'


def planner_by(words):
    """What plans a script: a program, or without words the reference planner."""
    if words:
        return lambda script: subprocess.run(words, input=script, text=True, stdout=subprocess.PIPE, check=True).stdout
    sys.path.insert(0, str(pathlib.Path(__file__).resolve().parent.parent / "tests" / "reference"))
    import reference
    return lambda script: reference.report(reference.read_script(script.encode()))


def checked_by(planner, version):
    """Asks a planner whether an update goes."""
    def check(client, stored, turn, stuck, goes):
        script = script_of(version, client, stored, turn, stuck)
        report = planner(script)
        if ("\nupdate " in report) != goes:
            sys.exit(f"keeping.py: version {version}: the planner decides otherwise:\n{script}{report}")
    return check


# ---- the table


def shown(results):
    kept = [result.updates for result in results if not result.is_lost]
    mean = f"{sum(kept) / len(kept):.0f}" if kept else "-"
    return f"{sum(result.is_lost for result in results)}, {mean}"


def main():
    parser = argparse.ArgumentParser(description=__doc__, formatter_class=argparse.RawDescriptionHelpFormatter)
    parser.add_argument("--period", type=float, default=6, metavar="DAYS", help="the trusting period (6)")
    parser.add_argument("--days", type=int, default=30, help="how long (30)")
    parser.add_argument("--clients", type=int, default=100, help="how many clients a row has (100)")
    parser.add_argument("--seed", type=int, default=1, help="of all chances (1)")
    parser.add_argument("--check", nargs=argparse.REMAINDER, metavar="WORD", help="a planner decides, too: the reference planner, or a program's words")
    options = parser.parse_args()
    period = round(options.period * DAY)
    checks = [None] * 4
    if options.check is not None:
        planner = planner_by(options.check)
        checks = [checked_by(planner, version) for version in (3, 4, 4)] + [None]
    print(f"{options.clients} clients a row, {options.days} days, a trusting period of {options.period:g} days: expired, and updates of the others in the mean\n")
    print("| Turns | Missed | Lag up to | Failing | Also | Version 3 | Version 4 | A sixth | Each turn |\n|---|---|---|---|---|---|---|---|---|")
    for row in ROWS:
        chance = random.Random(f"{options.seed} {row.turns} {row.missed} {row.lag} {row.failing}")  # the same turns in rows of the same premises
        runs = [turns_of(chance, row, period, options.days) for _ in range(options.clients)]
        third, sixth = Client(period, period // 3), Client(period, period // 6)
        clients = [third if row.refresh else Client(period, 0), third if row.refresh else Client(period, None), sixth, third]
        results = [[run(rule, client, turns, row.stuck, check) for turns in runs]
                   for rule, client, check in zip((by_version_3, by_version_4, by_version_4, each_turn), clients, checks)]
        also = "a message is stuck" if row.stuck else "" if row.refresh else "no `refresh_ns`"
        names = [f"1/{round(1 / row.turns)}", f"{row.missed:.0%}", f"{row.lag:.0%}", f"{row.failing:.0%}", also]
        print(f"| {' | '.join([name.replace('%', ' %') for name in names] + [shown(found) for found in results])} |")


if __name__ == "__main__":
    main()
