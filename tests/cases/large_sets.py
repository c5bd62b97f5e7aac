"""Runs of `want`, `import` and `plan` in a row over made-up nodes whose chain has more validators than a page holds, and changes all of them at once, to and fro:
when nothing is wanted any more, no client is left out, whatever the end is. Of a height whose set is there for another height `want` has the first page alone."""
import json
import subprocess
import tomllib
import urllib.parse

from lib import answers
from lib.importing import told_by
from lib.long_chains import CLIENT, setup_of
from lib.nodes import Host, LongChain

SIZES, CHANGE, STORED = (101, 200, 250), 30, [32, 43, 52]  # the set of heights 30 to 59 is there again from 90 on
ROUNDS = 60  # more than any of these ends takes


def is_never(path, asked):
    return False


def is_pruned(path, asked):
    """Whether a node refuses the later pages of some heights, and some commits."""
    height = int(asked.get("height", ["0"])[0])
    return path == "/validators" and 60 <= height < 76 and asked["page"] != ["1"] or path == "/commit" and 76 <= height < 88


def is_lacking(path, asked):
    """Whether a node refuses the pages behind the first of the newest height."""
    return path == "/validators" and asked["height"] == ["99"] and asked["page"] != ["1"]


def is_gap(path, asked):
    """Whether a node refuses the commits about the height at which the set changes."""
    return path == "/commit" and 57 <= int(asked["height"][0]) <= 62


# how the search ends: the chain's blocks, the goal, the height whose time the window begins with, which requests are refused, what `want` says at last, and the
# heights that the plan goes to
ENDS = {
    "a set again": (100, "at_least = 90", 100, is_never, "", [99]),
    "the other set": (80, "at_least = 79", 80, is_never, "", [59, 79]),
    "a goal in the other set": (100, "exactly = 75", 100, is_never, "", [59, 75]),
    "headers ahead of the window": (100, "at_least = 76", 70, is_never, "", [59, 76]),
    "a goal ahead of the window": (100, "at_least = 78", 70, is_never, "nothing goes on from 76: 77 refused (FromFuture)", []),
    "headers ahead of the window alone": (100, "at_least = 60", 53, is_never, "nothing goes on from 59: 60 refused (FromFuture)", []),
    "commits refused": (80, "at_least = 79", 80, is_gap, "nothing goes on from 52: 63 refused (0 of ", []),
    "pages and commits refused": (100, "exactly = 75", 100, is_pruned, "nothing goes on from 52: 75 not judged: ", []),
    "pages of the newest height refused": (100, "at_least = 90", 100, is_lacking, "", [99]),
}
# those at which no header's set is there for another height alone
WHOLE = "a set again", "pages and commits refused"


def first_pages(folder):
    """The heights of a chain's folder with a header whose set is whole, but not by their own pages."""
    told, pages = answers.Told(folder), {}
    for file in folder.glob("validators-*.json"):
        height, page = map(int, file.stem.split("-")[1:])
        pages.setdefault(height, {})[page] = json.loads(file.read_text())["result"]
    return [height for height in told.headers if sum(len(page["validators"]) for page in pages[height].values()) < int(pages[height][1]["total"])]


def wanted(program, setup, folder, chain, host, is_refused):
    """Saves what is wanted until nothing is: what `want` says then, and the flaws."""
    for _ in range(ROUNDS):
        done = subprocess.run([*program, "want", setup, folder], capture_output=True, text=True, timeout=120)
        lines = [line.split() for line in done.stdout.splitlines() if line.startswith("get ")]
        if done.returncode or not lines:
            return done.stderr, [f"want: status {done.returncode}: {done.stderr}"] if done.returncode else []
        for _, asked, path, file in lines:
            address, _, words = path.partition("?")
            query = urllib.parse.parse_qs(words)
            if (folder / file).exists() or (folder / file).with_suffix(".refused").exists():
                return "", [f"asked again: {path}"]
            if is_refused(address, query):
                (folder / file).parent.mkdir(parents=True, exist_ok=True)
                (folder / file).with_suffix(".refused").write_text("")
                continue
            status, value = (chain if asked == chain.name else host).answer(address, query)
            if status != 200:
                return "", [f"{path} has status {status}"]
            answers.write(folder / file, value)
    return "", [f"no end in {ROUNDS} rounds"]


def flaws_of(program, folder, size, name, blocks, goal, begin, is_refused, end, reached):
    """What is wrong with a run of `want`, `import` and `plan`."""
    chain = LongChain("hub-4", "sway", blocks, size, CHANGE)
    text = setup_of(chain, goal).replace(chain.stamp(blocks + 1), chain.stamp(begin))
    folder.mkdir()
    setup, saved = folder / "setup.toml", folder / "answers"
    setup.write_text(text)
    told, flaws = wanted(program, setup, saved, chain, Host(chain, {CLIENT: STORED}, page=1), is_refused)
    is_end = told.startswith(f"end {CLIENT}: {end}") if end else told == ""
    flaws += [] if is_end else [f"want ends with {told!r}"]
    done = subprocess.run([*program, "import", setup, saved], capture_output=True, timeout=120)
    lines = done.stderr.decode().splitlines(keepends=True)
    if done.returncode or any(line.startswith("left out ") for line in lines):
        return flaws + [f"import: status {done.returncode}: {lines}"]
    missing = [line for line in told_by(text, saved) if line.decode() not in lines]
    flaws += [f"not told: {missing}"] if missing else []
    flaws += [] if bool(first_pages(saved / "hub-4")) != (name in WHOLE) else ["other first pages"]
    is_same = answers.with_numbers(tomllib.loads(done.stdout.decode())) == answers.script_of(text, saved)
    flaws += [] if is_same else ["import writes another script"]
    report = subprocess.run([*program, "plan", "-"], input=done.stdout, capture_output=True, timeout=120).stdout.decode().splitlines()
    heights = [int(line.split()[1]) for line in report if line.startswith("update ")]
    is_right = heights == reached and (reached or "unreachable" in report)
    return flaws + ([] if is_right else [f"planned to {heights}, and not to {reached}"])


def large_set_runs(program, top):
    """How many runs there are, and how many go wrong."""
    wrong = 0
    for size in SIZES:
        for name, end in ENDS.items():
            flaws = flaws_of(program, top / f"large sets, {size}, {name}", size, name, *end)
            if flaws:
                print(f"== want and import, {size} validators, {name}", *flaws, sep="\n-- ")
            wrong += bool(flaws)
    return len(SIZES) * len(ENDS), wrong
