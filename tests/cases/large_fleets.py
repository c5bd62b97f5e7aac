"""Runs of `import` and `plan` over a fleet of 60 clients, each with ten sampled heights and 17 stored consensus states, whose script is too big for a text:
planned of the setup and the folder, its report is that of each client alone, whose script `import` writes."""
import random
import shlex
from datetime import timedelta

from lib import answers
from lib.program import Case

CLIENTS, MEMBERS, STORED, SAMPLED = 60, 100, range(1, 18), range(22, 41, 2)
MOST_BYTES = 16_777_216
CLIENT = '[[client]]\nid = "%s"\nhost = "home-1"\nof = "%s"\nfee = %s\ngas = [100, 1, 1]\nlimits = [100000, 100, 0]\nperiod_ns = %d\ndrift_ns = %d\ntrust = %s\n'
TURN = '[[turn]]\nfrom = "2026-11-01T12:04:20Z"\nuntil = "2026-11-01T12:04:30Z"\ngoal = [%s]\n'


class Chain(answers.Chain):
    """Blocks whose validators change at each height: one changes its power, and so many are replaced."""

    def __init__(self, chance, name, replaced):
        self.name, self.chance, self.page, last = name, chance, MEMBERS, SAMPLED[-1]
        members = {chance.randbytes(32): chance.randint(300, 700) for _ in range(MEMBERS)}
        self.sets, self.times, self.roots = {}, {}, {}
        for height in range(1, last + 2):
            for gone in chance.sample(sorted(members), replaced):
                del members[gone]
                members[chance.randbytes(32)] = chance.randint(300, 700)
            members[chance.choice(sorted(members))] = 700 + height
            self.sets[height] = answers.in_order(members.items())
            self.times[height] = answers.START + timedelta(seconds=6.4 * height)
            self.roots[height] = chance.randbytes(32)


def make(folder):
    """Writes the answers on the fleet's chains and clients; the table of each client and its goal, by its identifier."""
    tables = {}
    for number in range(CLIENTS):
        chance, name, client = random.Random(number), f"chain{number:02}-1", f"client-{number:02}"
        chain = Chain(chance, name, number % 12)
        for height in SAMPLED:
            answers.write(folder / name / f"commit-{height}.json", chain.commit(height))
        for height in sorted({h + 1 for h in STORED} | {*SAMPLED} | {h + 1 for h in SAMPLED}):
            for page in chain.validators(height):
                answers.write(folder / name / f"validators-{height}.json", page)
        answers.write(folder / client / "client_state.json", answers.client_state(chain, STORED[-1]))
        answers.write(folder / client / "consensus_states.json", answers.consensus_states(chain, STORED))
        fee = chance.choice([[100, 1, 1], [100, 1, 1], [0, 0, 1], [5, 0, 0], [0, 0, 0]])
        period = chance.choice([10**15, 10**15, 200 * 10**9])  # the last: of the records some have expired
        drift = chance.choice([40 * 10**9, 40 * 10**9, 1])
        goal = chance.choice(["at_least = 40", "at_least = 38", "at_least = 22", "exactly = 30"])
        table = CLIENT % (client, name, fee, period, drift, chance.choice([[1, 3], [1, 2], [2, 3]]))
        tables[client] = name, table, '{ client = "%s", %s }' % (client, goal)
    return tables


def setup_of(clients):
    """The setup of these clients."""
    chains = ", ".join('{ id = "%s" }' % name for name in ("home-1", *(name for name, _, _ in clients)))
    return f"version = 1\nchain = [{chains}]\n{''.join(table for _, table, _ in clients)}{TURN % ', '.join(goal for _, _, goal in clients)}"


def large_fleet_rows(top, program):
    """The fleet's report, the reports of its clients alone, and both compared, by a shell. More than 20 plans have several updates."""
    folder, words = top / "large-fleet", " ".join(map(shlex.quote, program))
    tables = make(folder)
    folder.with_suffix(".toml").write_text(setup_of([*tables.values()]))
    for client, table in tables.items():
        (top / f"large-fleet-{client}.toml").write_text(setup_of([table]))
    report = f'{words} plan "$one.script" | sed "1,2d;\\$d"'
    told = '[ "$(grep -c "^notice UnverifiedCommits at chain" "$one.told") $(wc -l < "$one.told")" = "%d %d" ]'  # and nothing else
    fleet = (f'one="$0"; {words} plan "$0.toml" "$0" > "$0.plan" 2> "$0.told" && {told % (CLIENTS, CLIENTS)} && sed "1,2d;\\$d" "$0.plan" > "$0.report" && '
             '[ "$(grep -c "updates [2-9]$" "$0.report")" -gt 20 ] && grep -c "^client " "$0.report"')
    alone = (f'for table in "$0"-client-$1?.toml; do one="${{table%.toml}}"; {words} import "$one.toml" "$0" > "$one.script" 2> "$one.told" && {told % (1, 1)} && {report}; done '
             '> "$0.report-$1"')
    both = f'cat "$0".report-? | cmp - "$0.report" && [ "$(cat "$0"-client-*.script | wc -c)" -gt {MOST_BYTES} ]'
    yield Case("a large fleet", ["sh", "-c", fleet, str(folder)], b"", b"60\n", b"", 0)
    for tens in range(CLIENTS // 10):
        yield Case(f"clients {tens}0 to {tens}9 of a large fleet alone", ["sh", "-c", alone, str(folder), str(tens)], b"", b"", b"", 0)
    yield Case("a large fleet and its clients alone", ["sh", "-c", both, str(folder)], b"", b"", b"", 0)
