"""Turns as they come: what `ibcplan follow` answers to each, whatever pieces its input comes in."""
import contextlib
import shutil
import subprocess
import tomllib

from lib.following import MARK, PATIENCE, Following, answers_of, check, ended, followed, parts_of, run_in_pieces, scripts
from lib.json_reading import read_json
from lib.program import EXAMPLES


def greeting_of(program, version):
    """What `follow --json` begins with for a setup of this version."""
    name = subprocess.run([*program, "--version"], capture_output=True, text=True, timeout=PATIENCE).stdout.strip()
    return {"ibcplan": version if version > 2 else 1, "program": name, "scripts": [1, 2, 3, 4]}


def script_runs(program, folder):
    """Each script by `follow`: what `plan` writes, in pieces of several sizes and by several numbers of workers."""
    ways = [(size, workers) for size in (1, 7, 4096) for workers in (0, 1, 2, 8)]
    runs, wrong, greeting = 0, 0, greeting_of(program, 1)
    for number, (name, script, report) in enumerate(scripts()):
        try:
            setup, documents = parts_of(script)
        except (tomllib.TOMLDecodeError, ValueError):
            continue
        path = folder / "setup.toml"
        path.write_bytes(setup)
        chosen = ways if len(script) < 20_000 else [ways[number % len(ways)], ways[(number + 5) % len(ways)]]
        for size, workers in chosen:
            words = [*program, "follow", str(path), *(["--workers", str(workers)] if workers else [])]
            done = run_in_pieces(words, ended(documents), size)
            wrong += check(f"{name}, followed in pieces of {size} by {workers} workers", (done.output, done.error, done.status), (followed(report), "", 0))
            runs += 1
        done = run_in_pieces([*program, "plan", "--json", "-"], script.encode(), 4096)
        lines = [read_json(line) for line in run_in_pieces([*program, "follow", "--json", str(path)], ended(documents), 4096).output.splitlines()]
        planned = read_json(done.output)
        greeting = {**greeting, "ibcplan": planned["ibcplan"]}
        wrong += check(f"{name}, followed as JSON", lines, [greeting, *({"turn": number, **turn} for number, turn in enumerate(planned["turns"], 1))])
        runs += 1
    return runs, wrong


def fault_runs(program, folder):
    """Documents with faults, first, in the middle and last: each is answered, and changes nothing."""
    script = (EXAMPLES / "two_clients.toml").read_text()
    report = (EXAMPLES / "two_clients.report").read_text()
    setup, documents = parts_of(script)
    head, answers, end = answers_of(report)
    path = folder / "setup.toml"
    path.write_bytes(setup)
    window = b'from = "2025-03-01T12:00:00Z"\nuntil = "2025-03-01T12:00:00Z"\n'
    first = tomllib.loads(script)
    chain = first["chain"][0]["id"]
    named = b'event = [{ kind = "set", chain = "%s", name = "of_a_fault", validators = [["%s", 1]] }, { kind = "sot" }]\n' % (chain.encode(), b"a1" * 32)
    seen = b'event = [{ kind = "header", chain = "%s", height = 9, time = "2025-03-01T12:00:00Z", set = "of_a_fault", next = "of_a_fault", votes = "C" }]\n' % chain.encode()
    late = b'from = "2035-03-01T12:00:00Z"\nuntil = "2035-03-01T12:00:00Z"\n'
    faults = (
        ("no TOML", b"from =\n", "1001 NotToml at -"),
        ("no UTF-8", b"# \xff\n", "1001 NotToml at -"),
        ("an empty document", b"", "1002 MissingKey at from"),
        ("a comment alone", b"# --- \n ---\n", "1001 NotToml at -"),
        ("no end of the window", b'from = "2025-03-01T12:00:00Z"\n', "1002 MissingKey at until"),
        ("the keys of a script", b"version = 1\n", "1003 UnknownKey at version"),
        ("a turn below its key", b"[[turn]]\n" + window, "1003 UnknownKey at turn"),
        ("a window that ends before it begins", b'from = "2025-03-01T12:00:01Z"\nuntil = "2025-03-01T12:00:00Z"\n', "1023 BadWindow at -"),
        ("a window in the future with a fault behind it", late + b"goal = [{}]\n", "1002 MissingKey at goal[0].client"),
        ("an event of no kind, and a name before it", window + named, "1013 BadKind at event[1].kind"),
        ("the name of a document that was refused", window + seen, "1019 UnknownSetName at event[0].set"),
        ("a settlement of nobody", window + b'settle = [{ client = "nobody", batch = 1, done = 1 }]\n', "1009 UnknownIdentifier at settle[0].client"),
        ("a goal of nobody", window + b'goal = [{ client = "nobody", at_least = 1 }]\n', "1009 UnknownIdentifier at goal[0].client"),
        ("more entries than are allowed", window + b"goal = [" + b"0," * 200_001 + b"]\n", "1018 TooManyEvents at -"),
        ("a key with quotes", b'"a\\"b" = 1\n', '1003 UnknownKey at a"b'),
        ("more tables than are allowed", b"x = [" + b"[]," * 899_999 + b"]\n", "1034 TooManyTables at -"),
        ("a document that is too long", b"#" * 16_777_216 + b"\n", "1030 InputTooBig at -"),
    )
    runs = wrong = 0
    for place in (0, len(documents) // 2, len(documents)):
        for what, document, fault in faults:
            given = ended([*documents[:place], document, *documents[place:]])
            wanted = head + "".join([*answers[:place], f"fault {fault}\n{MARK}", *answers[place:]]) + end
            done = run_in_pieces([*program, "follow", str(path)], given, 4096)
            is_limit = fault.startswith("1018 ")
            wrong += check(f"{what}, as document {place}", (done.output, done.status, "begin anew" in done.error), (wanted, 0, is_limit))
            runs += 1
    given = ended(documents[:1] + [document for _, document, _ in faults] + documents[1:])
    wanted = head + answers[0] + "".join(f"fault {fault}\n{MARK}" for _, _, fault in faults) + "".join(answers[1:]) + end
    done = run_in_pieces([*program, "follow", str(path), "--workers", "2"], given, 4096)
    wrong += check("all faults in a row", (done.output, done.status), (wanted, 0))
    done = run_in_pieces([*program, "follow", "--json", str(path)], ended([document for _, document, _ in faults]), 4096)
    got = [f'{item["fault"]} {item["name"]} at {item["path"]}' for item in map(read_json, done.output.splitlines()[1:])]
    wrong += check("all faults as JSON", got, [fault for _, _, fault in faults])
    return runs + 2, wrong


def end_runs(program, folder):
    """Ends of documents and of the input."""
    setup, documents = parts_of((EXAMPLES / "two_clients.toml").read_text())
    head, answers, end = answers_of((EXAMPLES / "two_clients.report").read_text())
    path = folder / "setup.toml"
    path.write_bytes(setup)
    words, cut = [*program, "follow", str(path)], f"fault 1001 NotToml at -\n{MARK}"
    whole = head + "".join(answers) + end
    returns = ended(documents).replace(b"\n", b"\r\n")
    within = documents[0] + b'# "---"\n# ---\n--- = 1\n'
    quiet = documents[0].replace(b"\n", b" # ---\n", 1)
    runs = (
        ("an input that ends at once", b"", head + end),
        ("lines that end by CR and LF", returns, whole),
        ("a last line without an end", ended(documents)[:-1], whole),
        ("a last line without an end, and a CR", returns[:-1], head + "".join(answers[:-1]) + cut + end),
        ("an input that ends within a document", ended(documents[:1]) + documents[1], head + answers[0] + cut + end),
        ("an input that ends within its first line", b"f", head + cut + end),
        ("an empty line at the end", ended(documents) + b"\n", head + "".join(answers) + cut + end),
        ("--- in a comment", ended([quiet, *documents[1:]]), whole),
        ("--- within a line", ended([within]), head + f"fault 1003 UnknownKey at ---\n{MARK}" + end),
        ("four dashes", ended([b"----\n"]), head + cut + end),
        ("a space behind the dashes", b"--- \n" + MARK.encode(), head + cut + end),
    )
    wrong = 0
    for what, given, wanted in runs:
        for size in 1, 4096:
            done = run_in_pieces(words, given, size)
            wrong += check(f"{what}, in pieces of {size}", (done.output, done.status), (wanted, 0))
    return 2 * len(runs), wrong


def failure_runs(program, folder):
    """Setups that are refused, outputs that fail, and limits."""
    script = (EXAMPLES / "two_clients.toml").read_text()
    setup, documents = parts_of(script)
    path, bad = folder / "setup.toml", folder / "bad.toml"
    path.write_bytes(setup)
    wrong = 0
    for what, text, fault in (
        ("a setup with a turn", script.encode(), "fault 1017 TooManyObjects at turn"),
        ("a setup without a version", b"", "fault 1002 MissingKey at version"),
    ):
        bad.write_bytes(text)
        done = run_in_pieces([*program, "follow", str(bad)], b"", 4096)
        wrong += check(what, (done.output, done.error.splitlines()[:1], done.status), ("", [fault], 1))
        done = run_in_pieces([*program, "follow", "-"], text + MARK.encode(), 4096)
        wrong += check(f"{what}, as the first document", (done.output, done.error.splitlines()[:1], done.status), ("", [fault], 1))
    run = subprocess.Popen([*program, "follow", str(path), "--workers", "2"], stdin=subprocess.PIPE, stdout=subprocess.PIPE, stderr=subprocess.PIPE)
    run.stdout.readline()
    run.stdout.close()
    with contextlib.suppress(BrokenPipeError):
        run.stdin.write(ended(documents) * 3)
        run.stdin.close()
    error, status = run.stderr.read().decode(), run.wait(PATIENCE)
    wrong += check("a reader that is gone", (error.splitlines()[:1], status), (["device"], 4))
    with open("/dev/full", "wb") as full:
        done = subprocess.run([*program, "follow", str(path)], input=ended(documents), stdout=full, stderr=subprocess.PIPE, timeout=PATIENCE)
    wrong += check("a full device", (done.stderr.splitlines()[:1], done.returncode), ([b"device"], 4))
    window = b'from = "2025-03-01T12:00:00Z"\nuntil = "2025-03-01T12:00:00Z"\n'
    for version, most in (1, 500), (3, 10_000):
        bad.write_bytes(b"version = %d\n" % version)
        done = run_in_pieces([*program, "follow", str(bad)], ended([window] * (most + 1)), 4096)
        turns = "".join(f"turn {number}\n{MARK}" for number in range(1, most + 1))
        wanted = f"ibcplan {version}\n{turns}fault 1017 TooManyObjects at -\n{MARK}end\n"
        wrong += check(f"{most + 1} turns in version {version}", (done.output, done.status, "begin anew" in done.error), (wanted, 0, True))
    bad.write_bytes(b"version = 4\n")
    done = run_in_pieces([*program, "follow", str(bad)], ended([window] * 30_000), 1 << 16)
    turns = "".join(f"turn {number}\n{MARK}" for number in range(1, 30_001))
    wrong += check("30,000 turns in version 4", (done.output, done.error, done.status), (f"ibcplan 4\n{turns}end\n", "", 0))
    return 9, wrong


def quiet_runs(program, folder):
    """Faults by the thousand, while nobody reads standard error: with --quiet all are answered, and nothing stands there but why a run fails."""
    path, bad, count = folder / "setup.toml", folder / "bad.toml", 5_000
    path.write_text("version = 3\n")
    bad.write_bytes(b"")
    text, line = f"fault 1001 NotToml at -\n{MARK}", '{"fault": 1001, "name": "NotToml", "path": "-"}\n'
    wrong = 0
    for words, wanted in ([], f"ibcplan 3\n{text * count}end\n"), (["--json"], line * count):
        done = run_in_pieces([*program, "follow", "--quiet", *words, str(path)], ended([b"from =\n"] * count), 4096)
        output = done.output.partition("\n")[2] if words else done.output
        wrong += check(f"{count} faults {words}, quietly", (output, done.error, done.status), (wanted, "", 0))
    done = run_in_pieces([*program, "follow", str(path)], ended([b"from =\n"]), 4096)
    wrong += check("a fault, not quietly", (done.output, bool(done.error)), (f"ibcplan 3\n{text}end\n", True))
    done = run_in_pieces([*program, "follow", "--quiet", str(bad)], b"", 4096)
    wrong += check("a bad setup, quietly", (done.output, done.error.splitlines()[:1], done.status), ("", ["fault 1002 MissingKey at version"], 1))
    return 4, wrong


def first_document_runs(program, folder):
    """The setup as the first document of standard input: the answers are those to the setup in a file."""
    setup, documents = parts_of((EXAMPLES / "two_clients.toml").read_text())
    head, answers, end = answers_of((EXAMPLES / "two_clients.report").read_text())
    journal, whole, wrong = folder / "first.journal", head + "".join(answers) + end, 0
    cases = (
        ("a setup and turns", ended([setup, *documents]), whole),
        ("a setup, turns, and lines that end by CR and LF", ended([setup, *documents]).replace(b"\n", b"\r\n"), whole),
        ("a setup alone", ended([setup]), head + end),
        ("a setup without a last line", setup, head + end),
        ("a setup and a last line without an end", ended([setup])[:-1], head + end),
    )
    for what, given, wanted in cases:
        for size in 1, 7, 4096:
            done = run_in_pieces([*program, "follow", "-"], given, size)
            wrong += check(f"{what}, in pieces of {size}", (done.output, done.error, done.status), (wanted, "", 0))
    run = Following(program, "-", given=setup.decode())
    wrong += check("a setup before any turn", (run.head, run.answer(documents[0].decode()) + MARK, run.end()), (head, answers[0], (end, "", 0)))
    steps = ("begun", ["-"], [setup, *documents[:2]], 2), ("gone on with", [], documents[2:], 4), ("read again", ["-"], [setup], 4)
    for what, words, given, count in steps:
        done = run_in_pieces([*program, "follow", *words, "--journal", str(journal)], ended(given), 4096)
        wrong += check(f"a journal, {what}", (done.output, done.error, done.status), (head + "".join(answers[:count]) + end, "", 0))
    done = run_in_pieces([*program, "follow", "-", "--journal", str(journal)], ended([b"version = 1\n"]), 4096)
    wrong += check("a journal of another setup", (done.output, "another setup" in done.error, done.status), ("", True, 2))
    large = run_in_pieces([*program, "follow", "--json", "-"], b"#" * 20_000_000, 1 << 16)
    wrong += check("a setup that is too long", (large.output, large.status), ('{"fault": 1030, "name": "InputTooBig", "path": "-"}\n', 1))
    return 3 * len(cases) + 6, wrong


def numbered(number, document, end=b"\n"):
    return b"turn = %d%s%s" % (number, end, document)


def number_runs(program, folder):
    """Documents that begin with their numbers: the number is that of the next turn, goes before the turn is read, and is told again with a fault."""
    setup, documents = parts_of((EXAMPLES / "two_clients.toml").read_text())
    head, answers, end = answers_of((EXAMPLES / "two_clients.report").read_text())
    path, journals, wrong = folder / "setup.toml", [folder / "numbers.journal", folder / "no_numbers.journal"], 0
    path.write_bytes(setup)
    whole, order = head + "".join(answers) + end, f"fault 1035 OutOfOrder at turn\n{MARK}"
    numbers = [numbered(number, document) for number, document in enumerate(documents, 1)]
    first, second = documents[0], numbers[1]
    half = numbers[0].index(b"event = [")
    runs = (
        ("numbers from 1 on", numbers, whole),
        ("some numbers", [numbers[0], documents[1], numbers[2], documents[3]], whole),
        ("lines that end by CR and LF", [document.replace(b"\n", b"\r\n") for document in numbers], whole),
        ("a comment behind a number", [numbered(1, first, b" # the first\n"), *numbers[1:]], whole),
        ("another number first", [numbered(2, first), *numbers], head + order + "".join(answers) + end),
        ("no turn", [numbered(0, first), *numbers], head + order + "".join(answers) + end),
        ("a number again", [numbers[0], *numbers], head + answers[0] + order + "".join(answers[1:]) + end),
        ("a number left out", [numbers[0], *numbers[2:], *numbers[1:]], head + answers[0] + 2 * order + "".join(answers[1:]) + end),
        ("more digits", [numbered(10, first), numbered(11, first), numbered(1, first, b"_0\n"), numbered(1, first, b"e0\n"), b"turn = 01\n" + first, b"turn = 1\n", *numbers],
         head + 5 * order + "fault 1002 MissingKey at from\n" + MARK + "".join(answers) + end),
        ("a number above 2^64", [numbered(2**64 + 1, first), *numbers], head + order + "".join(answers) + end),
        ("other forms", [b"turn=1\n" + first, b"turn = '1'\n" + first, b" turn = 1\n" + first, b"turn = +1\n" + first, b"# 1\nturn = 1\n" + first, *numbers],
         head + 5 * ("fault 1003 UnknownKey at turn\n" + MARK) + "".join(answers) + end),
        ("faults keep their numbers", [numbers[0], numbered(2, b"from = 3\n"), second, numbered(2, b"from = 3\n"), *numbers[2:]],
         head + answers[0] + f"fault 1004 WrongType at from\n{MARK}" + answers[1] + order + "".join(answers[2:]) + end),
        ("a line --- within a turn", [numbers[0][:half], numbers[0][half:], numbers[0]], None),
    )
    for what, given, wanted in runs:
        for size in 7, 4096:
            done = run_in_pieces([*program, "follow", str(path)], ended(given), size)
            got = done.output if wanted is not None else order in done.output
            wrong += check(f"{what}, in pieces of {size}", (got, done.status), (wanted if wanted is not None else True, 0))
    given = [numbers[0], numbered(3, documents[2]), numbered(2, b"from = 3\n"), b"from = 3\n", documents[1]]
    done = run_in_pieces([*program, "follow", "--json", str(path)], ended(given), 4096)
    told = [{key: line[key] for key in ("turn", "fault", "name", "path") if key in line} for line in map(read_json, done.output.splitlines()[1:])]
    fault = {"fault": 1004, "name": "WrongType", "path": "from"}
    wanted = [{"turn": 1}, {"turn": 2, "fault": 1035, "name": "OutOfOrder", "path": "turn"}, {"turn": 2, **fault}, fault, {"turn": 2}]
    wrong += check("numbers as JSON", told, wanted)
    for journal, given in zip(journals, (numbers, documents)):
        for some in given[:2], given[2:]:
            done = run_in_pieces([*program, "follow", str(path), "--journal", str(journal)], ended(some), 4096)
    wrong += check("a journal of numbers", (done.output, journals[0].read_bytes() == journals[1].read_bytes()), (whole, True))
    return 2 * len(runs) + 2, wrong


def unlabelled_runs(program, folder):
    """Answers without labels: else they are the same, and so is the journal."""
    path, journals, runs, wrong = folder / "setup.toml", [folder / "labels.journal", folder / "no_labels.journal"], 0, 0
    for name, script, report in scripts():
        try:
            setup, documents = parts_of(script)
        except (tomllib.TOMLDecodeError, ValueError):
            continue
        path.write_bytes(setup)
        wanted = "".join(line for line in followed(report).splitlines(keepends=True) if not line.startswith("label "))
        done = run_in_pieces([*program, "follow", "--no-labels", str(path)], ended(documents), 4096)
        wrong += check(f"{name}, without labels", (done.output, done.status), (wanted, 0))
        turns = read_json(run_in_pieces([*program, "plan", "--json", "-"], script.encode(), 4096).output)["turns"]
        for client in (client for turn in turns for client in turn["clients"] if "labels" in client):
            client["labels"] = []
        done = run_in_pieces([*program, "follow", "--json", "--no-labels", str(path)], ended(documents), 4096)
        wrong += check(f"{name}, as JSON without labels", [*map(read_json, done.output.splitlines()[1:])], [{"turn": number, **turn} for number, turn in enumerate(turns, 1)])
        for journal, words in zip(journals, ([], ["--no-labels"])):
            journal.unlink(missing_ok=True)
            run_in_pieces([*program, "follow", *words, "--journal", str(journal), str(path)], ended(documents), 4096)
        wrong += check(f"{name}, its journals", journals[0].read_bytes() == journals[1].read_bytes(), True)
        runs += 3
    return runs, wrong


def greeting_runs(program, folder):
    """The first line with --json: it is there before the first document, and `--version --json` says the same of the newest version."""
    path, wrong = folder / "setup.toml", 0
    for version in 1, 2, 3, 4:
        path.write_text(f"version = {version}\n")
        run = Following(program, path, ["--json"])
        wrong += check(f"the greeting of version {version}", (read_json(run.head), run.end()), (greeting_of(program, version), ("", "", 0)))
    for words in ["--version", "--json"], ["--json", "--version"]:
        done = run_in_pieces([*program, *words], b"", 4096)
        wrong += check(f"{words}", (done.output, done.error, done.status), (run.head, "", 0))
    return 6, wrong


def live_runs(program, folder):
    """Each answer is there before the next document is told."""
    setup, documents = parts_of((EXAMPLES / "two_clients.toml").read_text())
    head, answers, end = answers_of((EXAMPLES / "two_clients.report").read_text())
    path = folder / "setup.toml"
    path.write_bytes(setup)
    wrong = 0
    for words in ((), ("--workers", "2")):
        run = Following(program, path, words)
        got = [run.head]
        for document in documents:
            got += [run.answer(document.decode()) + MARK, run.answer("from = 1\n") + MARK]
        refused = f"fault 1004 WrongType at from\n{MARK}"
        wanted = [head, *(text for answer in answers for text in (answer, refused))]
        wrong += check(f"answers one by one {words}", (got, run.end()), (wanted, (end, "", 0)))
    return 2, wrong


def client_runs(program, folder):
    """The two clients of `examples/follow`: both show what they have to, by this program."""
    follow, clients = EXAMPLES / "follow", [["python3", str(EXAMPLES / "follow" / "client.py")]]
    if shutil.which("rustc"):
        built = folder / "client"
        subprocess.run(["rustc", "--edition", "2021", "-o", str(built), str(follow / "client.rs")], check=True)
        clients.append([str(built)])
    wanted, wrong = (follow / "client.output").read_text(), 0
    for client in clients:
        done = subprocess.run([*client, *program, str(follow / "setup.toml"), str(follow / "turns.txt")], capture_output=True, text=True, timeout=PATIENCE)
        wrong += check(f"the client {client}", (done.stdout, done.stderr, done.returncode), (wanted, "", 0))
    return len(clients), wrong


FOLLOWS = script_runs, unlabelled_runs, live_runs, first_document_runs, number_runs, greeting_runs, quiet_runs, client_runs, end_runs, fault_runs, failure_runs
