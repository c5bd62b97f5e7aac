"""Scripts and certificates for the benches, the same at every run."""
import datetime
import hashlib
import random

EPOCH = datetime.datetime(2025, 1, 1)
OPTIONS = """period_ns = 1_000_000_000_000_000
drift_ns = 10_000_000_000
fee = [100, 1, 1]
gas = [100, 1, 1]
limits = [1_000_000_000_000, 10_000, 0]
"""
HEAD = f"""version = 1
chain = [
  {{ id = "host" }},
  %s
]

[[client]]
id = "client"
host = "host"
of = "chain-0"
{OPTIONS}
[[turn]]
from = "2025-01-02T00:00:00Z"
until = "2025-01-02T00:00:00Z"
goal = [{{ client = "client", at_least = %d }}]
event = [
"""


def key(*words):
    """A validator's key in hexadecimal."""
    return hashlib.sha256(repr(words).encode()).hexdigest()


def time_at(height):
    return (EPOCH + datetime.timedelta(milliseconds=height)).isoformat(timespec="milliseconds") + "Z"


def set_event(chain, name, keys, power=10):
    members = ", ".join(f'["{one}", {power}]' for one in keys)
    return f'  {{ kind = "set", chain = "{chain}", name = "{name}", validators = [{members}] }},\n'


def stored_event(height, name):
    return f'  {{ kind = "stored", client = "client", height = {height}, time = "{time_at(height)}", next = "{name}" }},\n'


def header_event(chain, height, own, following, votes):
    return (
        f'  {{ kind = "header", chain = "{chain}", height = {height}, time = "{time_at(height)}", '
        f'set = "{own}", next = "{following}", votes = "{votes}" }},\n'
    )


def script(chains, goal, events):
    names = ", ".join(f'{{ id = "chain-{number}" }}' for number in range(chains))
    return HEAD % (names, goal) + "".join(events) + "]\n"


def votes_of(count, seed):
    """Votes of which some more than two thirds are commits."""
    letters = ["C"] * (count - count // 4) + ["A"] * (count // 4)
    random.Random(seed).shuffle(letters)
    return "".join(letters)


def chains_script(chains, headers=900, validators=1000):
    """Some chains of so many headers, each over one set: about a megabyte a chain."""
    events = []
    for number in range(chains):
        chain = f"chain-{number}"
        events.append(set_event(chain, "set", [key(number, place) for place in range(validators)]))
        if number == 0:
            events.append(stored_event(1, "set"))
        events += [header_event(chain, h, "set", "set", votes_of(validators, h)) for h in range(1, headers + 1)]
    return script(chains, headers, events)


def headers_script(headers, validators=100, lasts=None, step=1):
    """One chain of so many headers, some heights apart. A set lasts for so many headers, and the next one has one new member
    in place of the oldest one; without that number there is one set."""
    lasts = lasts or headers + 2
    events, height = [], lambda place: place * step
    name = lambda place: f"set-{(place - 1) // lasts}"
    for number in range(headers // lasts + 1):
        events.append(set_event("chain-0", f"set-{number}", [key(number + place) for place in range(validators)]))
    events.append(stored_event(height(1), name(1)))
    for place in range(1, headers + 1):
        events.append(header_event("chain-0", height(place), name(place), name(place + 1), "C" * validators))
    return script(1, height(headers), events)


def names_script(sets):
    """So many sets of one member, each with a name of its own."""
    events = [set_event("chain-0", f"set-{number}", [key(number)]) for number in range(sets)]
    return script(1, 1, events)


def certificate(updates, labels, answer="plan"):
    """A certificate of pairs and triples."""
    pairs = ",".join(f"[{h},{t}]" for h, t in updates)
    triples = ",\n".join(f"[{h},{fee},{count}]" for h, fee, count in labels)
    return f'version = 1\nturn = 1\nclient = "client"\nanswer = "{answer}"\nupdates = [{pairs}]\nlabels = [\n{triples}\n]\n'


def answer_of(report):
    """The updates and labels of a report."""
    updates, labels = [], []
    for line in report.splitlines():
        words = line.split()
        if words[0] == "label":
            labels.append(tuple(map(int, words[1:4])))
        elif words[0] == "update":
            updates.append((int(words[1]), int(words[3])))
    return updates, labels
