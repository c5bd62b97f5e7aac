#!/usr/bin/env python3
"""Explanations by the reference planner: why the plans of a script are as they are, sharing no code with the proved program.

    explain.py text SCRIPT      the explanation as text
    explain.py json SCRIPT      the same as JSON

`-` stands for standard input."""
import datetime
import itertools
import json
import sys

sys.dont_write_bytecode = True
import reference
from scripts import Fault, read_script

MOST = 20  # lines of steps
SECOND = 10**9
DAY = 86_400 * SECOND
VERBS = {"recv": "receive", "ack": "acknowledgement", "timeout": "timeout"}
OWNERS = {"set": "chain", "header": "chain", "stored": "client"}
NUMBERS = {"header": "height", "stored": "height", "sent": "sequence", "received": "sequence", "ack": "sequence", "cleared": "sequence"}


# ---- steps


def power(signed, total, n, d):
    return {"signed": signed, "total": total, "more_than": total * n // d}


def answer_of(view, t, h, named, trusted, own):
    """The first check of the step rule that fails at some moment of the window."""
    client, (begin, end) = view.client, view.window
    time, _, following = view.book.records[t]
    record, signers, _ = view.book.headers[h]
    if h <= t:
        return "HeightOrder"
    if not time + client.period > end:
        return "Expired"
    if not record[0] > time:
        return "TimeNotLater"
    if not record[0] < begin + client.drift:
        return "FromFuture"
    if named is None:
        return "TrustedSetUnknown"
    if h == t + 1:
        if signers != following:
            return "WrongNextSet"
    elif trusted["signed"] <= trusted["more_than"]:
        return "NotEnoughTrust"
    return "NotTwoThirds" if own["signed"] <= own["more_than"] else "Success"


def step_of(view, t, h):
    """What is told of the step from the record at t to the header at h, where both are known."""
    book, client = view.book, view.client
    if t not in book.records or h not in book.headers:
        return None
    record, signers, votes = book.headers[h]
    own_set, named = book.sets[signers], book.sets.get(book.records[t][2])
    own = power(reference.signed_power(own_set, own_set, votes), own_set.total, 2, 3)
    trusted = named and power(reference.signed_power(named, own_set, votes), named.total, *client.trust)
    sizes = len(own_set.members) + (len(named.members) if named else 0)
    base, signature, validator = client.fee
    carried = view.votes(t, h)
    return {
        "height": h, "trusted": t, "answer": answer_of(view, t, h, named, trusted, own),
        "expiry_ns": book.records[t][0] + client.period, "time_ns": record[0], "trusted_power": trusted, "own_power": own,
        "fee": base + signature * carried + validator * sizes, "votes": carried, "validators": sizes,
    }


def list_of(view, updates):
    return {"fee": sum(view.fee(t, h) for t, h in updates), "updates": [{"height": h, "trusted": t} for t, h in updates]}


def fewest_of(view, goal):
    """The fewest updates that meet a goal; of as many the cheapest, and of these the first in the order of plans."""
    labels = {h: (0, 0) for h in view.live}
    after = lambda t, h: (labels[t][0] + 1, labels[t][1] + view.fee(t, h))
    for h, trusted in view.steps.items():
        sums = [after(t, h) for t in trusted if t in labels]
        if sums and h not in labels:
            labels[h] = min(sums)
    met = [(labels[h], view.turn * h) for h in labels if reference.wants(goal, h)]
    if not met:
        return None
    h, updates = view.turn * min(met)[1], []
    while h not in view.live:
        t = min((t for t in view.steps[h] if t in labels and after(t, h) == labels[h]), key=lambda t: view.turn * t)
        updates.insert(0, (t, h))
        h = t
    return list_of(view, updates)


def bisection_of(view, trusted, target):
    """The updates that a light client's bisection sends, or none."""
    aim, updates = target, []
    while trusted < target:
        if trusted in view.steps.get(aim, ()):
            updates.append((trusted, aim))
            trusted, aim = aim, target
            continue
        between = [h for h in view.steps if trusted < h <= (trusted + aim) // 2]
        if not between:
            return None
        aim = max(between)
    return list_of(view, updates) if trusted == target else None


# ---- clients


def owed_to(relayer, client):
    """The packet messages that are owed to a client: kind, path, sequence and floor, path by path."""
    for name, channel in relayer.channels.items():
        for kind, seq, floor in channel.owed(relayer.books[channel.path.dest].times):
            if (channel.path.forward if kind == "recv" else channel.path.back) == client.id:
                yield kind, name, seq, floor


def stays_of(relayer, client):
    """Why messages that are owed can't go, by kind, path and sequence."""
    stays, barred = {}, set()
    for kind, path, seq, _ in owed_to(relayer, client):
        if relayer.joins and relayer.is_too_big(client, path, kind):
            stays[kind, path, seq] = "too_big"
        elif not relayer.can_go(client, path)(kind, seq):
            stays[kind, path, seq] = "late"
        elif (kind, path) in barred:
            stays[kind, path, seq] = "behind"
        if (kind, path, seq) in stays and relayer.channels[path].path.order == "ordered":
            barred.add((kind, path))
    return stays


def waits_of(relayer, client, reach, sent):
    """Those that aren't sent, with the moment from which on those that are ready wait for no other, or why they can't go."""
    ready, stays = relayer.ready(client, reach), stays_of(relayer, client)
    for message in owed_to(relayer, client):
        kind, path, seq, floor = message
        if (kind, path, seq) not in sent:
            until = max(0, relayer.press(client, message)) if message in ready else None
            why = {"stays": stays[kind, path, seq]} if (kind, path, seq) in stays else {}
            yield {"kind": kind, "path": path, "sequence": seq, "proved_from": floor, "until_ns": until} | why


def age_of(relayer, client):
    """Whether the newest stored state would be refreshed by its age alone; and whether it is urgent, where a client is refreshed by gain."""
    due, until = relayer.due(client), relayer.window_of(client)[1]
    urgent = relayer.joins and due is not None and due - client.refresh + client.period - client.period // 3 <= until
    return due is not None and due <= until or urgent, urgent


def refresh_of(relayer, client, view, reach):
    """The refresh that is needed, or that waits for a newer header, of a live client that is refreshed by gain."""
    height, (is_aged, is_urgent) = relayer.gain(client, reach), age_of(relayer, client)
    return {"refresh": {"urgent": is_urgent, "height": height}} if relayer.joins and view.live and (height is not None or is_aged) else {}


def idle_reason(relayer, client, view, reach):
    if not view.live:
        return "nothing_live"
    if relayer.ready(client, reach):
        return "messages_wait"
    owed = [message[:3] for message in owed_to(relayer, client)]
    if owed:
        return "nothing_goes" if all(message in stays_of(relayer, client) for message in owed) else "nothing_proved"
    return "nothing_young" if age_of(relayer, client)[0] else "nothing_due"


def client_value(relayer, client):
    """What is told of a client; its plan is made meanwhile."""
    view = relayer.view(client)
    view.window = relayer.window_of(client)
    asked = relayer.asked.get(client.id)
    is_held, goal = client.id in relayer.open, relayer.joined(client, view) if relayer.joins else relayer.goal(client, view)[0]
    labels = reference.labels_of(view)
    reach = max(labels, default=None)
    is_reach_told = not is_held and (goal is not None or any(owed_to(relayer, client)))
    value = {
        "id": client.id, "from_ns": view.window[0], "until_ns": view.window[1],
        "stored": [{"height": h, "expiry_ns": view.book.records[h][0] + client.period} for h in sorted(relayer.stored[client.id])],
        "charges": list(client.fee), "asked": client.id in relayer.asked, "reach": reach if is_reach_told else None, "waits": [],
    }
    refresh = refresh_of(relayer, client, view, reach)
    lines = [line.split() for line in relayer.plan(client)]
    sent = {(kind, path, int(seq)) for kind, path, seq in (words for words in lines if words[0] in reference.KINDS)}
    if is_held:
        return value | {"outcome": "held", "batch": int(lines[0][3])}
    value = value | {"waits": list(waits_of(relayer, client, reach, sent))} | refresh
    if goal is None:
        found = [words[1] for words in lines if words[0] == "next"]
        return value | {"outcome": "idle", "reason": idle_reason(relayer, client, view, reach)} | ({"next": found[0]} if found else {})
    value["goal"] = {goal[0]: goal[1]}
    if relayer.joins and asked and goal[1] < asked[1]:
        value["beyond"] = {asked[0]: asked[1]}
    if ["unreachable"] in lines:
        wanted = next((h for h in sorted(view.book.headers) if reference.wants(goal, h)), None)
        tried = [] if wanted is None else [t for t in itertools.chain(sorted(labels, reverse=True), sorted(set(relayer.stored[client.id]) - view.live, reverse=True)) if t < wanted]
        reached = [int(words[1]) for words in lines if words[0] == "label"]
        return value | {"outcome": "unreachable", "reached": reached, "wanted": wanted, "tried": [step_of(view, t, wanted) for t in tried[:MOST]]}
    updates = [(int(words[3]), int(words[1])) for words in lines if words[0] == "update"]
    newest, last = max(view.live, default=None), updates[-1][1] if updates else None
    both = newest is not None and last is not None
    found = [words[1] for words in lines if words[0] == "next"]
    return value | ({"next": found[0]} if found else {}) | {
        "outcome": "plan", "fee": int(next(words[1] for words in lines if words[0] == "total")), "sends": sends_of(lines), "steps": [step_of(view, t, h) for t, h in updates], "direct": step_of(view, newest, last) if both else None,
        "fewest": fewest_of(view, goal), "bisection": bisection_of(view, newest, last) if both else None,
    }


def sends_of(lines):
    """What is sent, by a report's lines."""
    for words in lines:
        if words[0] == "toobig" and len(words) == 2:
            return {"too_big": int(words[1])}
        if words[0] == "batch":
            sent = [{"kind": kind, "path": path, "sequence": int(seq)} for kind, path, seq in (other for other in lines if other[0] in reference.KINDS)]
            return {"batch": int(words[1]), "proof": int(words[3]), "transactions": sum(1 for other in lines if other[0] == "tx"), "messages": sent}
    return None


def refused_value(relayer, event, place, number):
    """An event that was just refused: what it tells of, and what that clashes with."""
    kind, owner, *rest = event
    subject = {"kind": kind, OWNERS.get(kind, "path"): owner} | ({NUMBERS[kind]: rest[0]} if kind in NUMBERS else {})
    clash = {}
    if number == 403:
        clash["vote"] = rest[-1].index("B")
    elif number == 404:
        clash["with_height"] = rest[0]
    elif number == 405:
        chain = relayer.script.clients[owner].of if kind == "stored" else owner
        at, (time, *_), times = rest[0], rest[1], relayer.books[chain].times
        below = max((h for h in times if h < at), default=None)
        clash["with_height"] = below if below is not None and times[below] >= time else min(h for h in times if h > at)
    return {"event": place, "number": number, "name": reference.NAMES[number]} | subject | clash


def heard(relayer, turn):
    """Takes in a turn's window, goals and events; whether the window is refused, and the refused events."""
    window_back, hosts_back, refused = False, [], []
    for host, window in turn.windows.items():
        try:
            relayer.enter_host(host, *window)
        except reference.Refused:
            hosts_back.append(host)
    try:
        relayer.enter(turn.begin, turn.end)
    except reference.Refused:
        window_back = True
    relayer.asked |= turn.asked
    for place, event in enumerate(turn.events):
        try:
            relayer.see(*event)
        except reference.Refused as refusal:
            refused.append(refused_value(relayer, event, place, refusal.args[0]))
    return {"window_back": window_back} | ({"windows_back": hosts_back} if relayer.joins else {}) | {"refused": refused}


def value_of(script):
    """What `explain --json` says."""
    relayer, turns = reference.Relayer(script), []
    for number, turn in enumerate(script.turns, 1):
        value = {"turn": number} | heard(relayer, turn)
        value["clients"] = [client_value(relayer, client) for client in script.clients.values()]
        settled = [line.split() for line in relayer.settle_all(turn.settlements)]
        value["settlements"] = [
            {"settlement": int(words[2]), "client": turn.settlements[int(words[2])][0], "batch": turn.settlements[int(words[2])][1], "number": int(words[3]), "name": words[4]}
            for words in settled if words[0] == "refused"
        ]
        if turn.taken:
            relayer.settle_all(relayer.all_open())
        turns.append(value)
    return {"ibcplan": script.version if script.version >= reference.WAITING else 1, "turns": turns}


# ---- text


def length(span):
    days, hours, minutes, seconds = span // DAY, span // (3600 * SECOND), span // (60 * SECOND), span // SECOND
    if days:
        parts = (days, "d"), (hours % 24, "h")
    elif hours:
        parts = (hours, "h"), (minutes % 60, "min")
    elif minutes:
        parts = (minutes, "min"), (seconds % 60, "s")
    elif seconds:
        parts = ((seconds, "s"),)
    else:
        parts = ((span, "ns"),)
    return " ".join(f"{number} {unit}" for place, (number, unit) in enumerate(parts) if number or not place)


def time_by(moment, beside):
    """A moment by its time of day, if it is a whole second of the day of another one."""
    whole = reference.stamp(moment)
    return whole[11:] if moment // DAY == beside // DAY and moment % SECOND == 0 else whole


def moment_of(stamp):
    """The nanoseconds since 1970 of a time as it is written."""
    seconds, _, rest = stamp.removesuffix("Z").partition(".")
    whole = datetime.datetime.fromisoformat(seconds) - datetime.datetime(1970, 1, 1)
    return (whole.days * 86_400 + whole.seconds) * SECOND + int(rest.ljust(9, "0") or 0)


def count(number, thing):
    return f"{number} {thing}" + ("" if number == 1 else "s")


def messages(found):
    """Messages: neighbours of one kind and path together."""
    parts = []
    for (kind, path), run in itertools.groupby(found, key=lambda m: m[:2]):
        seqs = [str(m[2]) for m in run]
        parts.append(f"{count(len(seqs), VERBS[kind])} of {path} ({', '.join(seqs[:8])}{', ..' if len(seqs) > 8 else ''})")
    return "; ".join(parts)


def signed(told):
    return f"{told['signed']} of {told['total']} signed, more than {told['more_than']} is needed"


def short(told):
    return f"{signed(told)} ({told['more_than'] + 1 - told['signed']} short)"


def powers(step):
    t, h = step["trusted"], step["height"]
    first = f"adjacent: the set that {t} names; " if h == t + 1 else f"set that {t} names: {signed(step['trusted_power'])}; "
    return f"{first}own set: {signed(step['own_power'])}"


def told_answer(step, client):
    t, h, name = step["trusted"], step["height"], step["answer"]
    if name == "Success":
        return f"accepted, fee {step['fee']}: {powers(step)}"
    within = ", within the window" if step["expiry_ns"] > client["from_ns"] else ""
    reasons = {
        "NotEnoughTrust": lambda: f"set that {t} names: {short(step['trusted_power'])}",
        "HeightOrder": lambda: f"{h} isn't higher than {t}",
        "Expired": lambda: f"the consensus state of {t} has expired since {reference.stamp(step['expiry_ns'])}{within}",
        "FromFuture": lambda: f"the time of {h}, {reference.stamp(step['time_ns'])}, is ahead of the window's first moment by the clock drift or more",
        "TrustedSetUnknown": lambda: f"the light store hasn't the set that {t} names",
        "WrongNextSet": lambda: f"the set of {h} isn't the one that {t} names",
        "NotTwoThirds": lambda: f"own set: {short(step['own_power'])}",
    }
    return f"refused, {name}: {reasons[name]()}"


def route(updates):
    text, before = "", None
    for update in updates:
        t, h = update["trusted"], update["height"]
        text += f" -> {h}" if before == t else f"{', ' if text else ''}{t} -> {h}"
        before = h
    return text


def told_list(what, told):
    if told is None:
        return f"  {what}: none"
    number = len(told["updates"])
    return f"  {what}: {number}, fee {told['fee']}" + (f" ({route(told['updates'])})" if 0 < number <= 12 else "")


STAYS = {"too_big": "over the gas limit alone", "late": "timing out by the end of the window", "behind": "behind one that can't go"}
IDLE = {
    "messages_wait": "packet messages wait for others to go with them",
    "nothing_proved": "packet messages are owed, and no height that proves one of them can be reached",
    "nothing_goes": "packet messages are owed, and none of them can go",
    "nothing_young": "a refresh is due, and no header is young enough",
    "nothing_due": "nothing is due",
}


def heading(client, joins):
    if client["outcome"] == "held":
        return f"held by batch {client['batch']}"
    if client["outcome"] == "idle":
        dead = "all stored consensus states have expired" if client["stored"] else "no consensus state is stored"
        if joins and client["reason"] == "nothing_young":
            return "idle: a refresh waits for a newer header"
        return f"idle: {IDLE.get(client['reason'], dead)}"
    (kind, height), = client["goal"].items()
    return ("at least " if kind == "at_least" else "") + f"height {height} is wanted" + (": unreachable" if client["outcome"] == "unreachable" else "")


def needs_lines(client):
    """What a client goes by in version 4: its host's window, what was asked for out of reach, and its refresh."""
    yield f"  window: {reference.stamp(client['from_ns'])} to {time_by(client['until_ns'], client['from_ns'])}"
    for kind, height in client.get("beyond", {}).items():
        yield f"  asked for: {'at least ' if kind == 'at_least' else ''}height {height}, which is out of reach"
    if "refresh" in client:
        height = client["refresh"]["height"]
        needs = "waits for a newer header" if height is None else f"at least height {height}"
        yield f"  refresh: {'urgent' if client['refresh']['urgent'] else 'due'}, {needs}"


def stored_line(client):
    def one(stored):
        rest = stored["expiry_ns"] - client["until_ns"]
        after = f"{length(rest)} after the window" if rest > 0 else "no later than the window ends"
        return f"{stored['height']} (expires {reference.stamp(stored['expiry_ns'])}, {after})"

    highest = client["stored"][::-1]
    more = [f"{len(highest) - 3} more"] if len(highest) > 3 else []
    return "  stored: " + ("; ".join([*map(one, highest[:3]), *more]) or "none")


def plan_lines(client):
    steps, direct = client["steps"], client["direct"]
    base, signature, validator = client["charges"]
    yield f"  plan: {count(len(steps), 'update')}, fee {sum(step['fee'] for step in steps)}"
    for step in steps[:MOST // 2]:
        yield (f"    {step['trusted']} -> {step['height']}: {step['fee']} = {base} + {count(step['votes'], 'vote')} x {signature}"
               f" + {count(step['validators'], 'validator')} x {validator}")
        yield f"      {powers(step)}"
    if len(steps) > MOST // 2:
        yield f"    {len(steps) - MOST // 2} more (--all tells them)"
    if direct and steps != [direct]:
        yield f"  one update, {direct['trusted']} -> {direct['height']}: {told_answer(direct, client)}"
    yield told_list("fewest updates", client["fewest"])
    if direct:
        yield told_list("as a light client bisects over these headers", client["bisection"])
    yield sends_line(client["sends"])


def sends_line(sends):
    if sends is None:
        return "  sends nothing: the goal is met as it is"
    if "too_big" in sends:
        return f"  sends nothing: message {sends['too_big']} (from 0, the updates first) is over the gas limit alone"
    sent = messages((m["kind"], m["path"], m["sequence"]) for m in sends["messages"])
    return f"  sends: batch {sends['batch']}, transactions: {sends['transactions']}" + (f"; {sent}, proved at {sends['proof']}" if sent else "")


def unreachable_lines(client):
    reached = [str(height) for height in client["reached"]]
    others = len(reached) - 12
    yield "  reached:" + (f" {others} others, " if others > 0 else " ") + (", ".join(reached[max(0, others):]) or "none")
    if client["wanted"] is None:
        yield "  no header has a height that is wanted"
        return
    if not client["tried"]:
        yield f"  {client['wanted']}, the lowest header that is wanted: no consensus state below it is stored"
        return
    yield f"  {client['wanted']}, the lowest header that is wanted:"
    yield from (f"    from {step['trusted']}: {told_answer(step, client)}" for step in client["tried"])
    if client["tried"][0]["answer"] == "NotEnoughTrust":
        yield f"    a header between {client['tried'][0]['trusted']} and {client['wanted']} may help: no known one does"


def waiting_lines(client, joins):
    key = lambda m: (m["kind"], m["path"], m["sequence"])
    ready = [m for m in client["waits"] if m["until_ns"] is not None]
    unproved = [m for m in client["waits"] if m["until_ns"] is None and "stays" not in m]
    if ready:
        until = f"until {time_by(min(m['until_ns'] for m in ready), client['until_ns'])}"
        if joins and "exactly" in client.get("goal", {}):
            until = "for a turn in which no height is asked for exactly"
        elif not joins and client["asked"]:
            until = "for a turn in which no height is asked for"
        yield f"  waits: {messages(map(key, ready))} {until}"
    if unproved:
        yield f"  waits: {messages(map(key, unproved))} for a height from {min(m['proved_from'] for m in unproved)} on"
    for why, words in STAYS.items():
        staying = [key(m) for m in client["waits"] if m.get("stays") == why]
        if staying:
            yield f"  stays: {messages(staying)}, {words}"
    if "next" in client:
        yield f"  next: {time_by(moment_of(client['next']), client['until_ns'])}"


PACKET_CLASHES = {
    ("sent", "OutOfOrder"): "its sequence is below the path's first one", ("sent", "Repeat"): "it was seen as sent before",
    ("sent", "Full"): "the path has as many packets as may be",
    ("received", "OutOfOrder"): "it wasn't seen as sent; or the path is ordered, and one before it wasn't, or is neither received nor cleared",
    ("received", "Repeat"): "it was seen as received before",
    ("ack", "OutOfOrder"): "the packet wasn't seen as received, or only in a later block", ("ack", "Repeat"): "it was seen before",
    ("cleared", "OutOfOrder"): "it wasn't seen as sent", ("cleared", "Repeat"): "its commitment is gone already",
    ("closed", "Repeat"): "it is closed already",
}
CLASHES = {
    "UnknownSet": "the light store has no set of the hash that it gives for its own", "WrongVerdictCount": "its votes are more or fewer than the members of its set",
    "Full": "there is no room for more", "HashClash": "the light store has another set of this hash",
}


def subject(refused):
    kind = refused["kind"]
    owner = refused[OWNERS.get(kind, "path")]
    number = refused.get(NUMBERS.get(kind))
    return {
        "set": f"a set of {owner}", "header": f"header {number} of {owner}", "stored": f"stored consensus state {number} of {owner}",
        "sent": f"sent packet {number} of {owner}", "received": f"received packet {number} of {owner}", "ack": f"acknowledgement of packet {number} of {owner}",
        "cleared": f"cleared packet {number} of {owner}", "closed": f"closed path {owner}",
    }[kind]


def clash(refused):
    """What a refused event clashes with."""
    name = refused["name"]
    if name == "BadVote":
        return f"its vote {refused['vote']} (from 0) is bad"
    if name == "Conflict":
        return f"the light store has another consensus state or header at height {refused['with_height']}"
    if name == "TimeOrder":
        return f"its time and that of height {refused['with_height']} aren't in the order of the heights"
    return PACKET_CLASHES.get((refused["kind"], name)) or CLASHES[name]


def text_of(value):
    """What `explain` says."""
    lines, joins = [], value["ibcplan"] == reference.JOINING
    for turn in value["turns"]:
        head = f"turn {turn['turn']}"
        for whose in [f"the window of {host}" for host in turn.get("windows_back", [])] + ["its window"] * turn["window_back"]:
            lines.append(f"{head}: {whose} is refused, 806 WindowBack: it begins or ends before the one in force, which stays")
        for refused in turn["refused"]:
            lines.append(f"{head}, event {refused['event']} (from 0): refused, {refused['number']} {refused['name']}: {subject(refused)}; {clash(refused)}")
        for client in turn["clients"]:
            lines.append(f"{head}, client {client['id']}: {heading(client, joins)}")
            if joins and client["outcome"] != "held":
                lines += needs_lines(client)
            if client["outcome"] in ("plan", "unreachable"):
                lines.append(stored_line(client))
            if client["outcome"] == "plan":
                lines += plan_lines(client)
            elif client["outcome"] == "unreachable":
                lines += unreachable_lines(client)
            lines += waiting_lines(client, joins)
        for refused in turn["settlements"]:
            why = "it was settled before" if refused["name"] == "Repeat" else "it isn't the open one, or has fewer transactions"
            lines.append(f"{head}, settlement {refused['settlement']} (from 0): refused, {refused['number']} {refused['name']}: batch {refused['batch']} of {refused['client']}; {why}")
    return "".join(f"{line}\n" for line in lines)


def main():
    if len(sys.argv) != 3 or sys.argv[1] not in ("text", "json"):
        sys.stderr.write(f"{__doc__}\n")
        sys.exit(2)
    try:
        script = read_script(reference.read_file(sys.argv[2]))
    except Fault as fault:
        sys.exit(f"fault {fault}")
    value = value_of(script)
    sys.stdout.write(text_of(value) if sys.argv[1] == "text" else json.dumps(value) + "\n")


if __name__ == "__main__":
    main()
