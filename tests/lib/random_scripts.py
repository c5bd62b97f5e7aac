"""Random scripts: small chains, whose sets overlap, with fees that may be 0, windows, trust levels, refresh periods, refused events and hashes of unknown sets;
whole ones with paths, packets and settlements; waiting ones, in which headers and packets come turn by turn; and each in a later version."""
import re
from datetime import datetime, timezone

from lib.judges import scripts


def stamp(seconds, nanoseconds=0):
    time = datetime.fromtimestamp(seconds, timezone.utc).strftime("%Y-%m-%dT%H:%M:%S")
    return f"{time}.{nanoseconds:09d}Z" if nanoseconds else f"{time}Z"


def some_sets(chance, chain):
    """A few sets, each the one before with some members changed: their lines, and how many members they have."""
    members, found = {m: 10 for m in range(1, chance.choice([1, 3, 4, 5]) + 1)}, []
    for number in range(chance.randint(1, 5)):
        rows = ", ".join(f'["{m:02x}{"00" * 31}", {power}]' for m, power in members.items())
        found.append((f'  {{ kind = "set", chain = "{chain}", name = "s{number}", validators = [{rows}] }},', len(members)))
        for _ in range(chance.randint(1, 3)):
            if len(members) > 1 and chance.random() < 0.8:
                del members[chance.choice(list(members))]
            if len(members) < 6:
                members[max(members) + 1] = chance.choice([1, 10, 10, 10, 30])
    return found


def some_headers(chance, chain, sets, spacing, last):
    """The lines of a chain's headers, and the next set of each height."""
    own, rows, following = 0, [], {}
    for height in range(1, last + 1):
        next_own = own if chance.random() < 0.6 else (own + 1) % len(sets)
        following[height] = f"s{next_own}" if chance.random() < 0.98 else "77" * 32
        votes = "".join(chance.choice("CCCCCCCCCCCCCCAN") for _ in range(sets[own][1]))
        if chance.random() < 0.03:
            votes = votes[:-1] + chance.choice(["B", ""])
        time = stamp(max(0, height * spacing + (chance.randint(-2, 2) * spacing if chance.random() < 0.03 else 0)))
        if chance.random() < 0.92:
            rows.append(f'  {{ kind = "header", chain = "{chain}", height = {height}, time = "{time}", set = "s{own}", '
                        f'next = "{following[height]}", votes = "{votes}" }},')
        own = next_own
    return rows, following


def some_stored(chance, client, following, spacing):
    heights = chance.sample(list(following), min(len(following), chance.choice([0, 0, 1, 2]))) + chance.choice([[], [1], [1], [1], [1]])
    return [f'  {{ kind = "stored", client = "{client}", height = {h}, time = "{stamp(h * spacing)}", next = "{following[h]}" }},' for h in heights]


def some_client(chance, name, host, of, spacing, last):
    period = chance.choice([spacing * last, spacing * (last + 2), 100000, 100000, 100000, 100000])
    fee = lambda: [chance.choice([0, 1, 1, 10, 100]) for _ in range(3)]
    level = chance.choice(["", "", "trust = [1, 2]\n", "trust = [2, 3]\n", "trust = [1, 1]\n"])
    refresh = f"refresh_ns = {chance.randint(0, 2 * spacing * last) * 10**9}\n" if chance.random() < 0.5 else ""
    return (f'[[client]]\nid = "{name}"\nhost = "{host}"\nof = "{of}"\nperiod_ns = {period * 10**9}\n'
            f"drift_ns = {chance.choice([0, 5000, 5000, 5000]) * 10**9}\n{refresh}fee = {fee()}\ngas = {fee()}\n"
            f"limits = [{chance.choice([1, 250, 10000, 10000])}, {chance.randint(1, 4)}, {chance.choice([0, 1, 7])}]\n{level}\n")


def some_goals(chance, clients, last, share):
    keys = ["at_least", "at_least", "exactly"]
    height = lambda: chance.randint(last // 2 + 1, last + chance.choice([0, 0, 1]))
    goals = [f'{{ client = "{c}", {chance.choice(keys)} = {height()} }}' for c in clients if chance.random() < share]
    return f"goal = [{', '.join(goals)}]\n" if goals else ""


def some_path(chance, name, forward, back):
    """A path from the chain `a` to `b`; a client is its name, its host and the chain that it tracks."""
    gas = [chance.choice([0, 1, 10, 300]) for _ in range(3)]
    order, first = chance.choice(["ordered", "unordered"]), chance.choice(["", "", "first = 2\n"])
    return (f'[[path]]\nid = "{name}"\nsource = "{forward[2]}"\ndest = "{forward[1]}"\norder = "{order}"\n{first}'
            f'forward = "{forward[0]}"\nback = "{back[0]}"\ngas = {gas}\n\n')


def some_packets(chance, path, spacing, last):
    """What is seen of a path's packets, mostly in an order that they can have."""
    rows, height = [], lambda: chance.randint(1, last)
    for seq in range(1, chance.randint(1, 6)):
        late = f", timeout_height = {chance.randint(0, 2 * last)}" if chance.random() < 0.4 else ""
        late += f', timeout_time = "{stamp(chance.randint(1, 2 * last) * spacing)}"' if chance.random() < 0.4 else ""
        steps = [f'kind = "sent", path = "{path}", seq = {seq}, height = {chance.randint(1, max(1, height() - 1))}{late}']
        block = height()
        steps.append(f'kind = "received", path = "{path}", seq = {seq}, height = {block}')
        steps.append(f'kind = "ack", path = "{path}", seq = {seq}, height = {max(1, block + chance.choice([-1, 0, 0, 1]))}')
        steps.append(f'kind = "cleared", path = "{path}", seq = {seq}')
        steps = steps[: chance.choice([1, 1, 1, 2, 3, 3, 4])]
        if chance.random() < 0.2:
            steps.append(chance.choice(steps))
        rows.append([f"  {{ {step} }}," for step in steps])
    if chance.random() < 0.1:
        rows.append([f'  {{ kind = "closed", path = "{path}" }},'])
    return mixed(chance, rows)


def mixed(chance, lists):
    """The elements of some lists, each list in its order."""
    lists, found = [list(rows) for rows in lists if rows], []
    while lists:
        rows = chance.choice(lists)
        found.append(rows.pop(0))
        lists = [rows for rows in lists if rows]
    return found


def some_settlements(chance, clients, turn):
    rows = [f'{{ client = "{c}", batch = {chance.randint(1, turn)}, done = {chance.choice([0, 1, 1, 1, 2, 3])} }}'
            for c in clients if chance.random() < 0.7]
    return f"settle = [{', '.join(rows)}]\n" if rows else ""


def some_turns(chance, clients, events, spacing, last, whole):
    """Turns that the events are spread over, in their order, most of them in the first."""
    count, text, begin = chance.choice([1, 1, 2, 3, 4]) + 2 * whole, "", spacing * last
    for turn in range(1, count + 1):
        begin = max(0, begin + chance.choice([0, 0, 0, 1, -5, 100]))
        end = begin + chance.choice([0, 0, 10, spacing * last // 2])
        share = len(events) if turn == count else chance.randint(len(events) // 2, len(events))
        taken, events = events[:share], events[share:]
        text += (f'[[turn]]\nfrom = "{stamp(begin)}"\nuntil = "{stamp(end, chance.choice([0, 0, 1]))}"\n'
                 + some_goals(chance, clients, last, 0.15 if whole else 0.5) + "event = [\n" + "".join(f"{row}\n" for row in taken) + "]\n"
                 + (some_settlements(chance, clients, turn) if whole else "") + "\n")
    return text


def some_script(chance, whole=False):
    spacing, last = chance.choice([1, 10, 60]), chance.randint(2, 10)
    ways = [("b", "a"), ("a", "b"), ("b", "a")]
    clients = [(f"c{i}", *ways[i]) for i in range(max(chance.choice([1, 1, 2, 3]), 2 * whole))]
    text = 'version = 1\nchain = [{ id = "a" }, { id = "b" }]\n\n'
    text += "".join(some_client(chance, *client, spacing, last) for client in clients)
    events = []
    for chain in "ab":
        sets = some_sets(chance, chain)
        headers, following = some_headers(chance, chain, sets, spacing, last)
        for name, _, of in clients:
            headers += some_stored(chance, name, following, spacing) if of == chain else []
        if chance.random() < 0.15:
            chance.shuffle(headers)
        events.append([row for row, _ in sets] + headers)
    for i in range(chance.randint(1, 2) if whole else 0):
        forward, back = chance.choice([(clients[0], clients[1]), (clients[1], clients[0]), (clients[-1], clients[1])][: len(clients)])
        text += some_path(chance, f"p{i}", forward, back)
        events.append(some_packets(chance, f"p{i}", spacing, last))
    return text + some_turns(chance, [name for name, _, _ in clients], mixed(chance, events), spacing, last, whole)


def in_version_two(chance, script):
    """The script in version 2: chains take over keys of clients that track them, and clients leave out keys, mostly ones that
    their chain has. A few keys of chains are spoiled, and a few are left out everywhere."""
    head, *clients = re.split(r"^(?=\[\[client\]\]\n)", script, flags=re.M)
    clients = [client.partition("\n\n") for client in clients]
    term = re.compile(r"^(period_ns|drift_ns|refresh_ns|fee|gas|trust) = (.*)\n", re.M)
    shared = {"a": {}, "b": {}}
    tracked = [re.search(r'^of = "(.)"', keys + "\n", re.M)[1] for keys, _, _ in clients]
    for (keys, _, _), chain in zip(clients, tracked):
        for key, value in term.findall(f"{keys}\n"):
            if chance.random() < 0.4:
                shared[chain][key] = re.sub(r"\d+", "-1", value, count=1) if chance.random() < 0.01 else value
    for chain, terms in shared.items():
        table = ", ".join(f"{key} = {value}" for key, value in mixed(chance, [[term] for term in terms.items()]))
        head = head.replace(f'{{ id = "{chain}" }}', f'{{ id = "{chain}", defaults = {{ {table} }} }}') if terms else head
    text = head.replace("version = 1", "version = 2")
    for (keys, gap, rest), chain in zip(clients, tracked):
        keep = lambda found: "" if chance.random() < (0.5 if found[1] in shared[chain] else 0.005) else found[0]
        text += term.sub(keep, f"{keys}\n") + gap[1:] + rest
    return text


def some_wait(chance, moments):
    """Often the time between two moments of the script, so that a window ends just when a message presses."""
    return chance.choice([0, max(0, abs(chance.choice(moments) - chance.choice(moments)) + chance.choice([-1, 0, 0, 0, 1])), 2**63 - 1 if chance.random() < 0.1 else 1])


def some_votes(chance):
    return chance.choice(["", 'votes = "all"\n', 'votes = "needed"\n', 'votes = "needed"\n'])


def in_version_three(chance, script):
    """The script in version 3: packets of paths wait, some clients send only the votes that they need, and after some turns all
    is taken."""
    moments = [scripts.moment(time, "") for time in re.findall(r'"(\d{4}-[^"]*Z)"', script)]
    share = chance.choice([0, 0.3, 1])
    waiting = lambda path: path[0] + f"wait_ns = {[some_wait(chance, moments) for _ in range(3)]}\n" if chance.random() < 0.9 else path[0]
    taken = lambda line: line[0] + ("taken = true\n" if chance.random() < share else "")
    text = re.sub(r"^version = .$", "version = 3", script, flags=re.M)
    text = re.sub(r"^limits = .*\n", lambda line: line[0] + some_votes(chance), text, flags=re.M)
    return re.sub(r"^until = .*\n", taken, re.sub(r"^\[\[path\]\]\n(.+\n)+", waiting, text, flags=re.M), flags=re.M)


def some_waiting_client(chance, name, host, of):
    refresh = chance.choice([0, 0, 30, 60, 90])
    fee = [chance.choice([0, 10]), chance.choice([0, 1]), 0]
    return (f'[[client]]\nid = "{name}"\nhost = "{host}"\nof = "{of}"\nperiod_ns = {chance.choice([100, 1000, 1000]) * 10**9}\ndrift_ns = {10**10}\n'
            f"refresh_ns = {refresh * 10**9}\nfee = {fee}\ngas = [10, 0, 0]\nlimits = [{chance.choice([30, 1000, 1000])}, {chance.choice([2, 9])}, 0]\n{some_votes(chance)}\n")


def some_ends(chance):
    """No end of a channel, the source's, or both; sometimes a key is missing or ill formed, or the source's end is."""
    ends = ['port = "transfer"\nchannel = "channel-0"\n', 'counterparty_port = "transfer"\ncounterparty_channel = "channel-7"\n']
    if chance.random() < 0.02:
        return chance.choice([ends[1], ends[0].replace("-0", "/0"), ends[0].splitlines(True)[0], ends[0] + ends[1].splitlines(True)[1]])
    return "".join(ends[: chance.choice([0, 1, 2])])


def some_waiting_path(chance, name, ways):
    """A path one way or the other, each kind of whose messages waits so many headers, often to the nanosecond."""
    (forward, dest, source), (back, *_) = ways if chance.random() < 0.8 else ways[::-1]
    waits = [max(0, chance.choice([0, 10, 20, 30, 50]) * 10**9 + chance.choice([-1, 0, 0, 0, 1])) for _ in range(3)]
    return (f'[[path]]\nid = "{name}"\nsource = "{source}"\ndest = "{dest}"\norder = "{chance.choice(["ordered", "unordered"])}"\n'
            f'forward = "{forward}"\nback = "{back}"\ngas = [5, 6, 7]\nwait_ns = {waits}\n{some_ends(chance)}\n')


def some_steps(chance, path, seq, top):
    """What is seen of a packet, turn by turn: a part of its way, whose blocks are mostly below the chains' tops."""
    block = lambda: max(1, top + chance.choice([-3, -2, -1, -1, 0]))
    late = f", timeout_height = {top + chance.randint(0, 6)}" if chance.random() < 0.15 else ""
    late += f', timeout_time = "{stamp(10 * (top + chance.randint(0, 9)))}"' if chance.random() < 0.4 else ""
    head, received = f'path = "{path}", seq = {seq}', block()
    steps = [f'kind = "sent", {head}, height = {block()}{late}', f'kind = "received", {head}, height = {received}',
             f'kind = "ack", {head}, height = {received}', f'kind = "cleared", {head}']
    return steps[: chance.choice([1, 1, 1, 3, 3, 4])]


def some_waiting_script(chance, share=0.07, beyond=0):
    """A script of version 3 of two clients, whose headers, ten seconds apart, and packets come turn by turn. Most batches are taken.
    A share of the clients is asked for a height in a turn, up to so much beyond the headers."""
    ways = [("c0", "b", "a"), ("c1", "a", "b")]
    names = [f"p{i}" for i in range(chance.choice([1, 1, 2]))]
    text = 'version = 3\nchain = [{ id = "a" }, { id = "b" }]\n\n' + "".join(some_waiting_client(chance, *way) for way in ways)
    text += "".join(some_waiting_path(chance, name, ways) for name in names)
    rows = [f'kind = "set", chain = "{c}", name = "s", validators = [["{c}1{"00" * 31}", 2], ["{c}2{"00" * 31}", 1]]' for c in "ab"]
    rows += [f'kind = "stored", client = "{c}", height = 1, time = "{stamp(10)}", next = "s"' for c, *_ in ways]
    top, later, sent = 1, [], {name: 0 for name in names}
    for turn in range(chance.randint(4, 8)):
        top += chance.choice([0, 1, 1, 2])
        rows += [f'kind = "header", chain = "{c}", height = {top}, time = "{stamp(10 * top)}", set = "s", next = "s", votes = "C{chance.choice("CCNA")}"'
                 for c in "ab" if chance.random() < 0.85]
        rows += [row for row in (steps.pop(0) for steps in later if chance.random() < 0.7)]
        for name in names:
            for _ in range(chance.choice([0, 1, 1, 2])):
                sent[name] += 1
                first, *steps = some_steps(chance, name, sent[name], top)
                rows, later = rows + [first], later + [steps]
        later = [steps for steps in later if steps]
        goals = some_goals(chance, ["c0", "c1"], max(2, top) + beyond, share)
        settled = some_settlements(chance, ["c0", "c1"], turn + 1) if chance.random() < 0.2 else ""
        text += (f'[[turn]]\nfrom = "{stamp(10 * top)}"\nuntil = "{stamp(10 * top + chance.choice([0, 0, 5, 10]), chance.choice([0, 0, 0, 1]))}"\n{goals}{settled}'
                 + ("taken = true\n" if chance.random() < 0.7 else "") + "event = [\n" + "".join(f"  {{ {row} }},\n" for row in rows) + "]\n\n")
        rows = []
    return text


def block_time(chance, script, moments, height):
    """Mostly the time of a header at that height in the script, else any moment of it."""
    times = re.findall(rf'kind = "header", [^}}]*height = {height}, time = "([^"]*)"', script)
    return scripts.moment(chance.choice(times), "") if times and chance.random() < 0.9 else chance.choice(moments)


def full_stamp(moment):
    return stamp(*divmod(moment, 10**9))


def some_host_windows(chance, begin, end):
    """No window of a host mostly; or one or two, each up to two headers behind the turn's; a few are spoiled."""
    if chance.random() < 0.65:
        return ""
    rows = []
    for host in chance.choice(["a", "b", "ab", "aa" if chance.random() < 0.05 else "b"]):
        behind = chance.choice([0, 0, 1, 5 * 10**9, 10**10, 2 * 10**10])
        low, high = max(0, begin - behind), max(0, end - chance.choice([behind, behind, behind + 1]))
        low, high = (high, low) if high < low and chance.random() < 0.9 else (low, high)
        rows.append(f'{{ host = "{host}", from = "{full_stamp(low)}", until = "{full_stamp(high)}" }}')
    return f"window = [{', '.join(rows)}]\n"


def in_version_four(chance, script):
    """The script of version 3 in version 4: packets have the times of their blocks, hosts have windows, messages are too big, and
    refresh ages and periods are often the time between two moments, so that clients become due, urgent and expire at these."""
    moments = [scripts.moment(time, "") for time in re.findall(r'"(\d{4}-[^"]*Z)"', script)]
    span = lambda: abs(chance.choice(moments) - chance.choice(moments)) + chance.choice([-1, 0, 0, 1])
    period = lambda line: f"period_ns = {max(1, chance.choice([1, 3]) * span())}\n" if chance.random() < 0.3 else line[0]
    age = lambda line: "" if chance.random() < 0.3 else f"refresh_ns = {max(0, chance.choice([1, 1, 100]) * span())}\n" if chance.random() < 0.4 else line[0]
    gas = lambda line: f"{line[1]}gas = [{', '.join(str(chance.choice([5, 6, 29, 30, 31])) for _ in range(3))}]\n" if chance.random() < 0.3 else line[0]
    time = lambda found: f'{found[0]}, time = "{full_stamp(block_time(chance, script, moments, found[1]))}"' if chance.random() < 0.7 else found[0]
    window = lambda lines: lines[0] + some_host_windows(chance, *(scripts.moment(lines[number], "") for number in (1, 2)))
    text = re.sub(r"^version = .$", "version = 4", script, flags=re.M)
    text = re.sub(r"^refresh_ns = .*\n", age, re.sub(r"^period_ns = .*\n", period, text, flags=re.M), flags=re.M)
    text = re.sub(r"^(\[\[path\]\]\n(?:(?!gas).+\n)*)gas = .*\n", gas, text, flags=re.M)
    text = re.sub(r'kind = "(?:sent|ack)", path = "[^"]*", seq = \d+, height = (\d+)', time, text)
    return re.sub(r'^from = "(.*)"\nuntil = "(.*)"\n', window, text, flags=re.M)
