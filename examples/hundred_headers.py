#!/usr/bin/env python3
"""Prints examples/hundred_headers.toml: a hundred headers, whose validator sets change as time goes by.

At every seventh header some validators leave the set, which is then cut or filled by new ones to a size that is drawn. The
seed is fixed, so that the script is the same each time."""
import hashlib
import random

HEAD = """# A hundred headers, and validator sets that change.
#
# At every seventh height some validators leave and mostly others join, and the sets have between 5 and 20 members. A step is
# accepted while more than a third of the trusted power still signs, so the plan has to choose where it stops: it
# prefers heights whose sets are small, since each vote and each validator costs. Made by examples/hundred_headers.py.

version = 1

[[chain]]
id = "cosmoshub-4"

[[chain]]
id = "osmosis-1"

[[client]]
id = "07-tendermint-259"
host = "cosmoshub-4"
of = "osmosis-1"
period_ns = 1_209_600_000_000_000 # two weeks
drift_ns = 40_000_000_000 # forty seconds
fee = [2_000, 90, 40] # an update, each commit vote, each validator of the two sets
gas = [180_000, 4_000, 2_000]
limits = [500_000, 50, 80_000] # gas and messages of a transaction, gas of its own

[[turn]]
from = "2025-03-01T12:30:00Z"
until = "2025-03-01T12:40:00Z"
goal = [{ client = "07-tendermint-259", at_least = 100 }]
event = ["""


class Validators:
    """Validators by number: each has a key and a power."""

    def __init__(self, random):
        self.random, self.powers = random, []

    def join(self):
        self.powers.append(self.random.randint(50, 400))
        return len(self.powers) - 1

    @staticmethod
    def key(number):
        return hashlib.sha256(f"osmosis validator {number}".encode()).hexdigest()

    def in_order(self, members):
        """The set order: falling power, then rising address."""
        address = lambda number: hashlib.sha256(bytes.fromhex(self.key(number))).digest()[:20]
        return sorted(members, key=lambda number: (-self.powers[number], address(number)))


def time(height):
    return f"2025-03-01T12:{height * 12 // 60:02d}:{height * 12 % 60:02d}Z"


def main():
    chance = random.Random(20250301)
    validators = Validators(chance)
    members = [validators.join() for _ in range(12)]
    sets, at = [members], []
    for height in range(1, 102):
        if height % 7 == 0:
            members = list(members)
            for _ in range(min(chance.randint(2, 4), len(members) - 3)):
                members.remove(chance.choice(members))
            size = chance.choice([5, 6, 8, 12, 20, 30])
            while len(members) > size:
                members.remove(chance.choice(members))
            while len(members) < size or len(members) < 5:
                members.append(validators.join())
            sets.append(members)
        at.append(len(sets) - 1)
    print(HEAD)
    for number, members in enumerate(sets):
        rows = "".join(f'\n    ["{validators.key(m)}", {validators.powers[m]}],' for m in validators.in_order(members))
        print(f'  {{ kind = "set", chain = "osmosis-1", name = "set-{number}", validators = [{rows}\n  ] }},')
    print(f'  {{ kind = "stored", client = "07-tendermint-259", height = 1, time = "{time(1)}", next = "set-{at[1]}" }},')
    for height in range(1, 101):
        own, following = at[height - 1], at[height]
        votes = "".join(chance.choice("CCCCCCCCCCAN") for _ in sets[own])
        print(f'  {{ kind = "header", chain = "osmosis-1", height = {height}, time = "{time(height)}", set = "set-{own}", '
              f'next = "set-{following}", votes = "{votes}" }},')
    print("]")


main()
