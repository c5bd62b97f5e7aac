#!/usr/bin/env python3
"""How many commit votes an update needs on made-up chains, and what leaving the others out saves of its fee.

    votes.py      one line for each chain

One validator in twenty misses the block. The fee is one for each vote and one for each validator of both sets, which is about what the
bytes of an update come to. The trusted set is the own set, or one in which every tenth validator is another. The rule is that of
tests/reference."""
import pathlib
import random
import sys

sys.dont_write_bytecode = True
TOP = pathlib.Path(__file__).resolve().parent.parent
sys.path.insert(0, str(TOP / "tests" / "reference"))
import reference


def power_law(count, exponent):
    return [max(1, int(10**9 / rank**exponent)) for rank in range(1, count + 1)]


CHAINS = {
    "a large hub of 176, powers as rank^-0.9": power_law(176, 0.9),
    "a steep chain of 100, powers as rank^-1.5": power_law(100, 1.5),
    "a flat chain of 150, powers as rank^-0.4": power_law(150, 0.4),
    "125 of equal power": [1] * 125,
    "60, one of 70 % of the power": [137] + [1] * 59,
}


def voters_of(powers, absent, others):
    voters = [{"place": place, "own": power, "trusted": 0 if place in others else power} for place, power in enumerate(powers)]
    return [voter for voter in voters if voter["place"] not in absent]


def sent(powers, absent, others, trust=(1, 3)):
    voters = voters_of(powers, absent, others)
    needed = {"own": reference.least_power(sum(powers), 2, 3), "trusted": reference.least_power(sum(powers), *trust)}
    by_own = reference.thinned(reference.fewest_then(voters, "own", needed["own"], "trusted", needed["trusted"]), needed)
    by_trusted = reference.thinned(reference.fewest_then(voters, "trusted", needed["trusted"], "own", needed["own"]), needed)
    return min(len(by_own), len(by_trusted)), len(voters)


def main():
    chance = random.Random(1)
    for name, powers in CHAINS.items():
        small = range(len(powers) // 4, len(powers))  # who misses a block is seldom a large validator
        absent = set(chance.sample(small, len(powers) // 20))
        told = []
        for others in set(), set(range(5, len(powers), 10)):
            few, every = sent(powers, absent, others)
            told.append(f"{few} of {every} votes, {100 * (every - few) / (every + 2 * len(powers)):.0f} % saved")
        print(f"{name}: {told[0]}; every tenth another: {told[1]}")


if __name__ == "__main__":
    main()
