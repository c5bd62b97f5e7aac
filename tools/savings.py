#!/usr/bin/env python3
"""What a plan saves: for each client that gets updates in a turn of a script the fee of the least list, of a list with
the fewest updates, and of the list that a light client's bisection finds, by the reference planner's steps and fees.

    savings.py SCRIPT..      one line for each turn and client; `-` where there is no such list

A script is read as TOML 1.0, by Python's tomllib: what only TOML 1.1 has (a line feed in an inline table) is a fault here.

Bisection is CometBFT's skipping verification (light client specification, Schedule): from the highest height that is
trusted to the goal at once; where that step isn't accepted, to the middle of the two, and so on; after each step that is
accepted again to the goal. Of a middle the highest height below it, or at it, that has a header is taken."""
import pathlib
import sys

sys.dont_write_bytecode = True
sys.path.insert(0, str(pathlib.Path(__file__).resolve().parent.parent / "tests" / "reference"))
import reference


def fewest(view, goal):
    """The fee of the cheapest list among those with the fewest updates."""
    labels = {h: (0, 0) for h in view.live}
    for h, trusted in view.steps.items():
        sums = [(labels[t][0] + 1, labels[t][1] + view.fee(t, h)) for t in trusted if t in labels]
        if sums and h not in labels:
            labels[h] = min(sums)
    return min((labels[h] for h in labels if reference.wants(goal, h)), default=(None, None))


def bisected(view, target):
    """The number of updates and the fee of the list that bisection finds, or none."""
    if not view.live:
        return None, None
    trusted, aim, count, fee = max(view.live), target, 0, 0
    while trusted < target:
        if trusted in view.steps.get(aim, ()):
            fee += view.fee(trusted, aim)
            trusted, aim, count = aim, target, count + 1
            continue
        between = [h for h in view.steps if trusted < h <= (trusted + aim) // 2]
        if not between:
            return None, None
        aim = max(between)
    return count, fee


def shown(count, fee):
    return f"{fee:>8,} in {count:<3}" if count is not None else f"{'-':>8}       "


def planned(script):
    """Of what is planned, turn by turn: the turn's number, the client, its goal and its view."""
    relayer = reference.Relayer(script)
    for number, turn in enumerate(script.turns, 1):
        relayer.take_in(turn)
        for client in script.clients.values():
            view = relayer.view(client)
            goal, _ = relayer.goal(client, view)
            if goal and client.id not in relayer.open:
                yield number, client.id, goal, view
            relayer.plan(client)
        relayer.settle_all(turn.settlements)
        if turn.taken:
            relayer.settle_all(relayer.all_open())


def tell(name):
    """A script's lines."""
    for number, client, goal, view in planned(reference.read_script(reference.read_file(name))):
        _, updates = reference.by_labels(view, goal)
        if not updates:
            continue
        plan = len(updates), sum(view.fee(t, h) for t, h in updates)
        where = f"{pathlib.Path(name).stem}, {number}, {client}"
        print(f"{where:40}", shown(*plan), shown(*fewest(view, goal)), shown(*bisected(view, updates[-1][1])))


def main():
    if sys.argv[1:] in ([], ["-h"], ["--help"]):
        sys.stderr.write(f"{__doc__}\n")
        sys.exit(2)
    print(f"{'script, turn, client':40}{'plan':>15}{'fewest':>15}{'bisection':>16}")
    for name in sys.argv[1:]:
        try:
            tell(name)
        except (OSError, reference.Fault) as error:
            reason = error.strerror if isinstance(error, OSError) else f"{error} (read as TOML 1.0)"
            sys.exit(f"savings.py: {name}: {reason}")


if __name__ == "__main__":
    main()
