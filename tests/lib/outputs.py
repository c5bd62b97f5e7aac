"""What the second planner makes of scripts and reports: certificates, JSON, commands, and when clients expire."""
import functools
import itertools
import tomllib

from lib.judges import reference
from lib.program import EXAMPLES, ROWS


@functools.cache
def expiries(text):
    """Of each client of a script after its last turn: the client, its newest stored height, when that expires, and the window's end, in nanoseconds; none
    where nothing is stored."""
    script = reference.read_script(text.encode())
    relayer = reference.Relayer(script)
    for turn in script.turns:
        relayer.turn(turn)
    found = []
    for client in script.clients.values():
        stored = relayer.stored[client.id]
        if stored:
            height = max(stored)
            found.append((client, (height, relayer.books[client.of].times[height] + client.period, relayer.window_of(client)[1])))
        else:
            found.append((client, None))
    return found


def clients_of(text):
    """The clients as `plan --json` has them."""
    return [{"id": client.id} | ({"expires": reference.stamp(expiry[1]), "live": expiry[1] > expiry[2]} if expiry else {}) for client, expiry in expiries(text)]


MESSAGES = ("recv", "ack", "timeout")
KEYS = {"label": ("labels", "height fee count"), "update": ("updates", "height trusted fee"), "tx": ("transactions", "first count gas")}


def numbers(words):
    return [int(word) for word in words if word.isdigit()]


class Sender(reference.Relayer):
    """A relayer that notes of each reported update the addresses whose votes go, if not all go."""

    def __init__(self, script):
        super().__init__(script)
        self.sent = []

    def view(self, client):
        view = super().view(client)
        told = view.update_line

        def update_line(t, h):
            if client.votes == "needed":
                self.sent.append([voter["address"].hex().upper() for voter in reference.sent_votes(view.book, client, t, h)])
            return told(t, h)

        view.update_line = update_line
        return view


@functools.cache
def addresses_of(text):
    """The addresses whose votes go, of each update in the report of a script that tells how many go, by the second planner."""
    script = reference.read_script(text.encode())
    sender = Sender(script)
    for turn in script.turns:
        sender.turn(turn)
    return sender.sent


def value_of(script, report, addresses=()):
    """The value that the report of a script is as JSON, with the addresses of the votes that its updates carry."""
    addresses = iter(addresses)
    turns, settlements, joins = [], [], report.startswith("ibcplan 4\n")
    for line in report.splitlines()[1:-1]:
        kind, *words = line.split()
        if kind == "turn":
            settlements = script["turn"][len(turns)].get("settle", [])
            turns.append({"window_back": False, "refused": [], "clients": [], "settlements": []} | ({"windows_back": []} if joins else {}))
        elif kind == "refused" and words[0] == "event":
            turns[-1]["refused"].append({"event": int(words[1]), "number": int(words[2]), "name": words[3]})
        elif kind == "refused" and words[0] == "window" and len(words) == 4:  # with a host
            turns[-1]["windows_back"].append(words[1])
        elif kind == "refused" and words[0] == "window":
            turns[-1]["window_back"] = True
        elif kind == "settled":
            turns[-1]["settlements"].append({"client": words[0], "batch": int(words[1]), "done": int(words[2])})
        elif kind == "refused":
            settlement = {key: settlements[int(words[1])][key] for key in ("client", "batch", "done")}
            turns[-1]["settlements"].append(settlement | {"number": int(words[2]), "name": words[3]})
        elif kind == "client":
            client = {"id": words[0], "outcome": words[1]}
            if words[1] == "goal":
                client |= {"outcome": "unreachable", "goal": {words[2]: int(words[3])}, "labels": []}
            elif words[1] == "held":
                client["batch"] = int(words[2])
            if joins and words[1] != "held":
                client["left_out"] = []
            turns[-1]["clients"].append(client)
        elif kind == "beyond":
            client["beyond"] = {words[0]: int(words[1])}
        elif kind in KEYS:
            key, names = KEYS[kind]
            words, votes = (words[:5], words[5:]) if kind == "update" else (words, [])
            found = dict(zip(names.split(), numbers(words)[-len(names.split()):]))
            if votes:
                sent, found["commits"] = numbers(votes)
                found["votes"] = next(addresses, None)
                assert found["votes"] is None or len(found["votes"]) == sent
            client.setdefault(key, []).append(found)
        elif kind == "total":
            fee, count = numbers(words)
            client.setdefault("updates", [])
            client |= {"outcome": "plan", "total": {"fee": fee, "updates": count}, "messages": []}
        elif kind in MESSAGES:
            client["messages"].append({"kind": kind, "path": words[0], "sequence": int(words[1])})
        elif kind == "toobig" and len(words) == 3:
            client["left_out"].append({"kind": words[0], "path": words[1], "sequence": int(words[2])})
        elif kind == "toobig":
            client["too_big"] = int(words[0])
        elif kind == "batch":
            client["batch"], client["proof"] = numbers(words)
        elif kind == "next":
            client["next"] = words[0]
    return {"ibcplan": int(report.split()[1]), "turns": turns}


def json_of(script, report):
    """The value that `plan --json` writes for the text of a script whose report this is."""
    sent = addresses_of(script) if " votes " in report else ()
    return value_of(tomllib.loads(script), report, sent) | {"clients": clients_of(script)}


def word(identifier):
    """An identifier as a word of a shell."""
    return f"'{identifier}'" if set(identifier) & set("#[]<>") else identifier


def commands_of(script, value, wanted=None):
    """The commands for a report's value, of all turns or of one by its number."""
    hosts, lines, window, windows = {client["id"]: client["host"] for client in script.get("client", [])}, [], None, {}
    for number, (turn, given) in enumerate(zip(value["turns"], script.get("turn", [])), 1):
        window = window if turn["window_back"] else given  # the one in force
        windows |= {own["host"]: own for own in given.get("window", []) if own["host"] not in turn["windows_back"]}
        if wanted not in (None, number):
            continue
        lines.append(f"# turn {number}: valid from {window['from']} until {window['until']}")
        own = [chain["id"] for chain in script.get("chain", []) if chain["id"] in windows]
        lines += [f"# turn {number} host {host}: valid from {windows[host]['from']} until {windows[host]['until']}" for host in own]
        lines += [f"# turn {number}: refused window {host} 806 WindowBack" for host in turn.get("windows_back", [])]
        lines += [f"# turn {number}: refused window 806 WindowBack"] if turn["window_back"] else []
        lines += [f"# turn {number}: refused event {r['event']} {r['number']} {r['name']}" for r in turn["refused"]]
        for client in turn["clients"]:
            head = f"# turn {number} client {client['id']}: "
            if client["outcome"] == "held":
                lines.append(f"{head}held by batch {client['batch']}")
                continue
            if client["outcome"] != "plan":
                lines.append(head + client["outcome"])
                continue
            host = hosts[client["id"]]
            own = client["id"].removeprefix(host + ".") or client["id"]
            packets = f", packet messages {len(client['messages'])}" if client["messages"] else ""
            packets += f", message {client['too_big']} over the gas limit: no batch" if "too_big" in client else ""
            lines.append(f"{head}total fee {client['total']['fee']}, updates {client['total']['updates']}{packets}")
            sent = [] if "too_big" in client else client["updates"]
            messages = [] if "too_big" in client else client["messages"]
            lines += [f"hermes update client --host-chain {word(host)} --client {word(own)} --height {u['height']} --trusted-height {u['trusted']}"
                      for u in sent]
            lines += packet_commands(script, messages)
    return "".join(line + "\n" for line in lines)


def packet_commands(script, messages):
    """The commands for packet messages, by path and kind; a comment where the script doesn't name the end of the channel that the packets come from."""
    for path in script.get("path", []):
        for kind in MESSAGES:
            sequences = sorted(m["sequence"] for m in messages if (m["path"], m["kind"]) == (path["id"], kind))
            if not sequences:
                continue
            prefix, to, by = ("counterparty_", "source", "dest") if kind == "ack" else ("", "dest", "source")
            ranges = [[n for _, n in run] for _, run in itertools.groupby(enumerate(sequences), lambda item: item[1] - item[0])]
            wanted = ",".join(f"{run[0]}..{run[-1]}" if run[1:] else f"{run[0]}" for run in ranges)
            if f"{prefix}port" in path:
                yield (f"hermes tx packet-{'ack' if kind == 'ack' else 'recv'} --dst-chain {word(path[to])} --src-chain {word(path[by])} "
                       f"--src-port {word(path[prefix + 'port'])} --src-channel {word(path[prefix + 'channel'])} --packet-sequences {wanted}")
            else:
                yield f"# path {path['id']}: no command, its channel isn't named: {kind} {wanted}"


def texts():
    """Scripts and their reports, as they are stored; of rows those that are planned."""
    for row in sorted(ROWS.iterdir()):
        if row.suffix == "" and not row.with_name(f"{row.name}.args").exists():
            yield row.read_text(), row.with_name(f"{row.name}.stdout").read_text()
    for example in sorted(EXAMPLES.glob("*.toml")):
        yield example.read_text(), example.with_suffix(".report").read_text()


def stored_texts():
    """The texts that have a report."""
    return [(script, report) for script, report in texts() if report]


def fault_of(line):
    """The value that is written with --json for the line of a fault."""
    _, number, name, _, path = line.rstrip("\n").split(" ", 4)
    return {"fault": int(number), "name": name, "path": path}


def verdict_of(line):
    """The value that `certify --json` writes for the line of a verdict."""
    verdict, *reason = line.split()
    return {"verdict": verdict} | ({"number": int(reason[0]), "name": reason[1], "at": [*map(int, reason[2:])]} if reason else {})


def certificates_of(report):
    """The certificates that the planned clients of a report's turns amount to."""
    turn, found = 0, []
    for line in report.decode().splitlines():
        words = line.split()
        if words[0] == "turn":
            turn += 1
        elif words[0] == "client" and words[2] == "goal":
            found.append((turn, words[1], [], [], []))
        elif words[0] == "label":
            found[-1][2].append(f"[{', '.join(words[1:4])}]")
        elif words[0] == "update":
            found[-1][3].append(f"[{words[1]}, {words[3]}]")
        elif words[0] == "unreachable":
            found[-1][4].append(line)
    for turn, client, labels, updates, unreachable in found:
        answer = "unreachable" if unreachable else "plan"
        text = f'version = 1\nturn = {turn}\nclient = "{client}"\nanswer = "{answer}"\n'
        yield (text + f"updates = [{', '.join(updates)}]\nlabels = [{', '.join(labels)}]\n").encode()
