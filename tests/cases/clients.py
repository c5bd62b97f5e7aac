"""The clients for authors of relayers, each by the tests in its own language, where that is at hand; the library in C; and the example in Rust, which faults and a kill stop."""
import os
import pathlib
import re
import shutil
import subprocess

TOP = pathlib.Path(__file__).resolve().parents[2]
CLIENTS = TOP / "clients"
RUST = CLIENTS / "rust" / "ibcplan"
# how a language tells its version, the least one, where its client is, how that is tested, and what its tests write where they all ran
TESTS = [
    (["python3", "--version"], (3, 11), CLIENTS / "python", ["python3", "-B", "-m", "unittest"], r"Ran 12 tests in .*\n\nOK\n"),
    (["cargo", "--version"], (1, 85), RUST, ["cargo", "test", "--offline", "--quiet"], r"(?s)5 passed.*10 passed.*1 passed"),
    (["go", "version"], (1, 19), CLIENTS / "go", ["go", "test", "-v", "./..."], r"(?s)(--- PASS: .*){11}ok"),
]
SHOWN = "send 3, by 1\nfault 1012 BadVotes at event[0].votes\nsend 5, by 1\nsend 7, by 1\n"
# by the same journal: its set has a name already, windows go back, and the client is up to date
SHOWN_AGAIN = "fault 1020 DuplicateSetName at event[0].name\nfault 1012 BadVotes at event[0].votes\n"
PATIENCE = 600  # seconds


def ran(words: list[str], folder: pathlib.Path, made: pathlib.Path, program: str) -> tuple[int, str]:
    """The status of a run in a folder, and what it writes; what is built stands elsewhere."""
    more = {"IBCPLAN": program, "CARGO_TARGET_DIR": str(made / "rust"), "GOCACHE": str(made / "go"), "GOFLAGS": "-mod=mod", "GOPROXY": "off"}
    done = subprocess.run(words, cwd=folder, env=os.environ | more, stdout=subprocess.PIPE, stderr=subprocess.STDOUT, timeout=PATIENCE, text=True)
    return done.returncode, done.stdout


def is_there(words: list[str], least: tuple[int, int]) -> bool:
    """Whether a language is there, in this version or a later one."""
    if shutil.which(words[0]) is None:
        return False
    version = re.search(r"([0-9]+)\.([0-9]+)", subprocess.run(words, stdout=subprocess.PIPE, text=True).stdout)
    return version is not None and (int(version[1]), int(version[2])) >= least


def shown(what: str, output: str) -> int:
    print(f"== {what}\n{output[-3000:]}")
    return 1


def page_runs() -> tuple[int, int]:
    """The relayer in Rust has at most 60 lines, and the page for authors shows it as it is."""
    text = (RUST / "examples" / "relayer.rs").read_text()
    is_shown = f"```rust\n{text}```\n" in (TOP / "docs" / "EMBEDDING.md").read_text()
    return 1, 0 if is_shown and text.count("\n") <= 60 else shown("the relayer in Rust", "it isn't as docs/EMBEDDING.md shows it, or has more than 60 lines")


def example_runs(program: str, made: pathlib.Path) -> tuple[int, int]:
    """The relayer in Rust, first with a new journal, then with the one that it made."""
    wrong = 0
    for wanted in SHOWN, SHOWN_AGAIN:
        words = ["cargo", "run", "--offline", "--quiet", "--example", "relayer", "--", program, str(made / "journal")]
        if (got := ran(words, RUST, made, program)) != (0, wanted):
            wrong += shown("the relayer in Rust", str(got))
    return 2, wrong


def library_runs(program: str, made: pathlib.Path) -> tuple[int, int]:
    """The library in C, made of the object file that a build leaves beside the program, where there is one and a C compiler; Python calls it."""
    parts, library = f"{program}.o", made / "c"
    if not os.path.isfile(parts) or shutil.which("gcc") is None:
        return 0, 0
    status, output = ran([str(CLIENTS / "c" / "build"), parts, str(library)], TOP, made, program)
    if status == 0:
        status, output = ran(["python3", "-B", str(CLIENTS / "c" / "try.py"), str(library / "libibcplan.so.1")], TOP, made, program)
    return 1, shown(f"the library in C: {status}", output) if status else 0


def client_runs(program: list[str], folder: pathlib.Path) -> tuple[int, int]:
    """How many tests of clients there were, and how many went wrong."""
    made = folder / "clients"
    made.mkdir()
    path = shutil.which(program[0])
    if path is None:
        return 1, shown("clients", f"{program[0]} isn't there")
    runs, wrong = page_runs()
    for version, least, place, words, wanted in TESTS:
        if is_there(version, least):
            status, output = ran(words, place, made, os.path.abspath(path))
            runs, wrong = runs + 1, wrong + (shown(f"the client of {place}: {status}", output) if status or not re.search(wanted, output) else 0)
    for tried in [library_runs] + [example_runs] * is_there(["cargo", "--version"], (1, 85)):
        more, bad = tried(os.path.abspath(path), made)
        runs, wrong = runs + more, wrong + bad
    return runs, wrong
