"""Runs of `explain` and `picture` on the rows and the examples, for tests/run.

What `explain` writes is made here by the second planner (tests/reference/explain.py); that of the
examples, and of some rows, is also stored as NAME.explained. Pictures are read as XML, and their shapes counted; those of two examples are stored as NAME.svg."""
import json
import tomllib
import xml.etree.ElementTree as ElementTree

from lib.json_reading import read_json
from lib.judges import explain, reference
from lib.program import EXAMPLES, ROWS, Case
from lib.script_text import LATER, a_set, chains, client, goal, header, members, packet, path, stored, turn

SVG = "{http://www.w3.org/2000/svg}"
NOT_SEARCHED = "not searched, since that takes long for so many turns and clients (--turn, --client)"
NEEDED = 'votes = "needed"\n'
MOST_UPDATES, MOST_OTHERS, MOST_REFUSED = 12, 10, 3  # so many arcs of a plan, of a bisection, and to a height out of reach are drawn
EXPLAIN_WORDS = (
    (["--turn", "9"], b"error: invalid value '9' for '--turn <N>': the last turn of standard input is 4\n"),
    (["--turn", "5"], b"error: invalid value '5' for '--turn <N>': the last turn of standard input is 4\n"),
    (["--turn", "0"], b"error: invalid value '0' for '--turn <N>': 0 is not in 1..=500\n"),
    (["--last", "--turn", "1"], b"error: the argument '--last' cannot be used with '--turn <N>'\n"),
    (["--client", "nobody"], b"error: invalid value 'nobody' for '--client <ID>': standard input has no such client\n"),
)


def scripts():
    """The scripts of rows and examples that are planned, by name."""
    for row in sorted(ROWS.iterdir()):
        report = row.with_name(f"{row.name}.stdout")
        if row.suffix == "" and not row.with_name(f"{row.name}.args").exists() and report.read_bytes():
            yield row
    yield from sorted(EXAMPLES.glob("*.toml"))


def stored_text(file):
    """The stored explanation of a script, where there is one."""
    text = file.with_suffix(".explained") if file.suffix else file.with_name(f"{file.name}.explained")
    return text.read_text() if text.exists() else None


def chosen(value, number=None, client=None):
    """The value with one turn alone, or one client."""
    turns = [turn for turn in value["turns"] if number in (None, turn["turn"])]
    return value | {"turns": [turn | {"clients": [c for c in turn["clients"] if client in (None, c["id"])]} for turn in turns]}


def explain_cases():
    """Texts and JSON of all scripts; of one also some turns and clients, and wrong command lines."""
    for file in scripts():
        script = reference.read_script(file.read_bytes())
        value = explain.value_of(script)
        text = explain.text_of(value)
        if stored_text(file) not in (None, text):
            print(f"== the text beside {file} isn't the second planner's")
            text = ""
        yield Case(f"{file.name}, explained", ["explain", "-"], file.read_bytes(), text.encode(), b"", 0)
        yield Case(f"{file.name}, explained as JSON", ["explain", "--json", "-"], file.read_bytes(), value, b"", 0, reader=read_json)
    yield from chosen_cases()
    yield from whole_cases()
    yield from unsearched_cases()
    yield from refused_cases()


def chosen_cases():
    """One turn, the last one, one client; and turns and clients that aren't there."""
    given = (EXAMPLES / "two_clients.toml").read_bytes()
    script = reference.read_script(given)
    value = explain.value_of(script)
    last, client = len(script.turns), list(script.clients)[-1]
    for words, number, name in (["--turn", "2"], 2, None), (["--last"], last, None), (["--client", client], None, client), (["--last", "--client", client], last, client):
        text = explain.text_of(chosen(value, number, name))
        yield Case(f"explain {' '.join(words)}", ["explain", *words, "-"], given, text.encode(), b"", 0)
    for command in "explain", "picture":
        for words, error in EXPLAIN_WORDS:
            yield Case(f"{command} {' '.join(words)}", [command, *words, "-"], given, b"", error, 2)
        yield Case(f"a fault of {command}", [command, "-"], b"version =", b"", b"fault 1001 NotToml at -\n", 1)
    for words, output, reader in ([], b"", None), (["--json"], {"ibcplan": 1, "turns": []}, read_json):
        yield Case(f"explain {words} of no turn", ["explain", "--last", *words, "-"], b"version = 1\n", output, b"", 0, reader=reader)


def chain_of_updates(count):
    """A script whose plan has so many updates: each header is the next block's, and each set names another one."""
    keys = [f"{place + 1:064x}" for place in range(count + 1)]
    stamp = lambda second: f"2025-03-01T{second // 3600:02}:{second // 60 % 60:02}:{second % 60:02}Z"
    events = [f'{{ kind = "set", chain = "a", name = "s{place}", validators = [["{key}", 1]] }}' for place, key in enumerate(keys)]
    events.append(f'{{ kind = "stored", client = "c", height = 1, time = "{stamp(0)}", next = "s0" }}')
    events += [f'{{ kind = "header", chain = "a", height = {place + 2}, time = "{stamp(place + 1)}", set = "s{place}", next = "s{place + 1}", votes = "C" }}' for place in range(count)]
    client = 'id = "c"\nhost = "b"\nof = "a"\nperiod_ns = 1000000000000000\ndrift_ns = 1\nfee = [7, 1, 1]\ngas = [1, 1, 1]\nlimits = [1000000, 100, 0]'
    turn = f'from = "2025-03-01T10:00:00Z"\nuntil = "2025-03-01T10:00:00Z"\ngoal = [{{ client = "c", at_least = {count + 1} }}]\nevent = [\n' + ",\n".join(events) + ",\n]"
    return f'version = 2\nchain = [{{ id = "a" }}, {{ id = "b" }}]\n\n[[client]]\n{client}\n\n[[turn]]\n{turn}\n'.encode()


def whole_cases():
    """A plan of thirty updates, of which ten are told; with --all, all are."""
    given = chain_of_updates(30)
    script = reference.read_script(given)
    value = explain.value_of(script)
    text = explain.text_of(value)
    yield Case("thirty updates", ["explain", "-"], given, text.encode(), b"", 0)
    explain.MOST, most = 10**9, explain.MOST
    text = explain.text_of(explain.value_of(script))
    explain.MOST = most
    yield Case("thirty updates, all", ["explain", "--all", "-"], given, text.encode(), b"", 0)


def unsearched_cases():
    """Plans beside which the fewest updates have to be searched, in the last of 25 turns: for one turn they are, for all they are left out, but for a client with a small light store."""
    sets = [a_set("s", members([0])), a_set("t", members([1])), a_set("large", members(range(50))), *(a_set(f"u{number}", members([number])) for number in range(2, 1002))]
    events = [*sets, stored("c", 1), header(2, "C", "s", "t"), header(3, "C", "t", "t"), *(header(height, "C" * 50, "large", "large") for height in range(4, 8))]
    events += [a_set("s", members([0]), "a1"), a_set("t", members([1]), "a1"), a_set("large", members(range(50)), "a1"), stored("d", 1)]
    events += [header(2, "C", "s", "t", "a1"), header(3, "C", "t", "t", "a1"), header(4, "C" * 50, "large", "large", "a1")]
    turns = "".join(turn(LATER, events if number == 1 else [], [goal(name, 3, "exactly") for name in "cd"] if number == 25 else []) for number in range(1, 26))
    given = (chains(2, 3) + client("c", "a1", "a0") + NEEDED + client("d", "a0", "a1") + NEEDED + turns).encode()
    value = explain.value_of(reference.read_script(given))
    last = chosen(value, 25)
    fewest = f"  fewest updates: {NOT_SEARCHED}\n"
    texts = [explain.text_of(each) for each in (value, last)]
    texts[0] = "".join(fewest if line.startswith("  fewest updates: ") else line for line in texts[0].splitlines(keepends=True))
    yield Case("the fewest updates of one turn", ["explain", "--last", "-"], given, texts[1].encode(), b"", 0)
    yield Case("the fewest updates of 25 turns", ["explain", "-"], given, texts[0].encode(), b"", 0)
    small = explain.text_of(chosen(value, client="d"))
    yield Case("the fewest updates of a small light store beside a large one", ["explain", "--client", "d", "-"], given, small.encode(), b"", 0)
    yield Case("the fewest updates of one turn as JSON", ["explain", "--json", "--last", "-"], given, last, b"", 0, reader=read_json)
    value = json.loads(json.dumps(value))
    for each in value["turns"][-1]["clients"]:
        each["fewest"] = None
    yield Case("the fewest updates of 25 turns as JSON", ["explain", "--json", "-"], given, value, b"", 0, reader=read_json)


def refused_cases():
    """The last set, stored consensus state and packet, each one too many; and a stored consensus state beside another one at its height."""
    events = {
        "a set too many": (406, [a_set(f"s{power}", members([0], lambda _: power)) for power in range(1, 1026)]),
        "a stored consensus state too many": (406, [a_set("s", members([0])), *(stored("c", height) for height in range(1, 1026))]),
        "a packet too many": (406, [packet("sent", "p", seq) for seq in range(1, 4098)]),
        "another consensus state at a height": (404, [a_set("s", members([0])), a_set("t", members([1])), stored("c", 1), stored("c", 1, "t")]),
    }
    for name, (number, texts) in events.items():
        given = (chains(2) + client("c", "a1", "a0") + client("d", "a0", "a1") + path("p", "a0", "a1", "c", "d") + turn(LATER, texts)).encode()
        value = explain.value_of(reference.read_script(given))
        if [refused["number"] for refused in value["turns"][0]["refused"]] != [number]:
            print(f"== {name}: the second planner doesn't refuse the last event alone")
            value = None
        yield Case(f"{name}, explained", ["explain", "-"], given, explain.text_of(value).encode() if value else b"", b"", 0)
        yield Case(f"{name}, explained as JSON", ["explain", "--json", "-"], given, value, b"", 0, reader=read_json)


# ---- pictures


def shapes(output):
    """What a picture has: its arcs by what they stand for, stored heights, and headings; that all lies within it is looked at, too."""
    picture = ElementTree.fromstring(output)
    width, height = int(picture.get("width")), int(picture.get("height"))
    panels = picture.findall(f"{SVG}g")[:-1]  # the last one is the legend
    of_class = lambda name: sum(1 for panel in panels for shape in panel if shape.get("class") == name and shape.tag != f"{SVG}text")
    points = [(int(text.get("x")), int(text.get("y"))) for text in picture.iter(f"{SVG}text")]
    return {
        "panels": [panel.find(f"{SVG}text").text for panel in panels], "updates": of_class("arc"), "refused": of_class("refused"), "others": of_class("other"),
        "within": all(0 <= x <= width and 0 <= y <= height for x, y in points), "described": [panel.find(f"{SVG}desc").text for panel in panels],
    }


def expected_shapes(value):
    """The same, by the second planner."""
    clients, joins = [(turn["turn"], client) for turn in value["turns"] for client in turn["clients"]], value["ibcplan"] == reference.JOINING
    found = {"panels": [f"turn {number}, client {client['id']}: {explain.heading(client, joins)}" for number, client in clients]}
    found |= {"updates": 0, "refused": 0, "others": 0, "within": True, "described": []}
    for number, client in clients:
        steps, direct = client.get("steps", []), client.get("direct")
        found["updates"] += min(len(steps), MOST_UPDATES)
        found["refused"] += sum(1 for step in client.get("tried", [])[:MOST_REFUSED] if step)
        if direct and steps != [direct]:
            found["refused" if direct["answer"] != "Success" else "others"] += 1
            found["others"] += min(len(client["bisection"]["updates"]), MOST_OTHERS) if client["bisection"] else 0
        alone = {"turn": number, "window_back": False, "refused": [], "clients": [client], "settlements": []}
        found["described"].append(explain.text_of({"ibcplan": value["ibcplan"], "turns": [alone]}))
    return found


def picture_cases():
    """Pictures of the last turn of all scripts; two of them are stored."""
    for file in scripts():
        script = reference.read_script(file.read_bytes())
        if script.turns:
            value = chosen(explain.value_of(script), len(script.turns))
            yield Case(f"{file.name}, a picture", ["picture", "-"], file.read_bytes(), expected_shapes(value), b"", 0, reader=shapes)
    for picture in sorted(EXAMPLES.glob("*.svg")):
        given = picture.with_suffix(".toml").read_bytes()
        words = tomllib.loads(given.decode()).get("turn", [])
        yield Case(f"{picture.name}, stored", ["picture", "--turn", str(len(words)), "-"], given, picture.read_bytes(), b"", 0)
