"""What a script or a certificate holds, or its first fault: read from the format alone, sharing no code with the program."""
import hashlib
import re
import tomllib
import unicodedata
from collections import namedtuple
from datetime import datetime, timezone

MAX_NUMBER = 2**63 - 1
LAST_MOMENT = 10**20
MAX_BYTES = 16_777_216
MAX_MARKS = 7_200_000
# comments and strings of TOML
ASIDE = re.compile(
    rb"#[^\n]*"
    rb'|"{3}(?:\\.|"{0,2}[^"\\])*(?:"{0,2}\\.)*"{3,5}' rb"|'{3}(?:'{0,2}[^'])*'{3,5}"
    rb'|"(?:\\.|[^"\\\n])*"' rb"|'[^'\n]*'", re.S)
MAX_POWER = 1152921504606846975
MAX_MEMBERS = 10_000
MAX_CHAINS, MAX_CLIENTS, MAX_PATHS, MAX_TURNS, MAX_ENTRIES = 64, 256, 256, 500, 200_000
MAX_RECORDS = {1: 1024, 2: 4096, 3: 4096, 4: 4096}  # by version
MAX_SETS = 1024
MAX_WORK, MAX_SPACE = 2**30, 3 * 2**24
FAULTS = {
    1001: "NotToml", 1002: "MissingKey", 1003: "UnknownKey", 1004: "WrongType", 1005: "BadVersion", 1006: "OutOfRange",
    1007: "BadIdentifier", 1008: "DuplicateIdentifier", 1009: "UnknownIdentifier", 1010: "BadHex", 1011: "BadTime",
    1012: "BadVotes", 1013: "BadKind", 1014: "BadOrder", 1015: "SameChain", 1016: "WrongClient", 1017: "TooManyObjects",
    1018: "TooManyEvents", 1019: "UnknownSetName", 1020: "DuplicateSetName", 1021: "TwoGoals", 1022: "BadSet", 1023: "BadWindow",
    1024: "BadLimit", 1025: "BadFee", 1026: "NoSuchTurn", 1027: "BadAnswer", 1028: "NoGoal", 1029: "LabelOrder",
    1030: "InputTooBig", 1031: "BadTrust", 1032: "TooMuchToPlan",
    1034: "TooManyTables",
}

# characters that turn the direction of a text
TURNING = {chr(c) for c in (0x61C, 0x200E, 0x200F, *range(0x202A, 0x202F), *range(0x2066, 0x206A))}

# the version; how many records a book has; by id, in their order, what clients of a chain share, the clients and the paths; and the turns
Script = namedtuple("Script", "version limit chains clients paths turns")
Path = namedtuple("Path", "id source dest order first forward back gas waits")  # how long a receive, an acknowledgement, a timeout may wait
# the windows of hosts and the asked goals of clients, by these; whether all open batches are taken
Turn = namedtuple("Turn", "begin end windows asked events settlements taken")


class Fault(Exception):
    def __init__(self, number, path):
        super().__init__(f"fault {number} {FAULTS[number]} at {path or '-'}")


# ---- reading: a table's faults in the order of its keys, and each key's in the order of their numbers


def child(path, key):
    return f"{path}.{key}" if path else key


def is_plain(character):
    """Whether a character does nothing to a terminal: it is no control character, ends no line and doesn't turn the direction of a text."""
    return unicodedata.category(character) not in ("Cc", "Zl", "Zp") and character not in TURNING


def shown(key):
    """A key as a path shows it: quotes for an empty one, characters that aren't plain by their numbers, and of a long key its length alone."""
    length = len(key.encode())
    if length > 64:
        return f"<{length} bytes>"
    return "".join(c if is_plain(c) else f"\\u{{{ord(c):x}}}" for c in key) or '""'


def need(test, number, path):
    if not test:
        raise Fault(number, path)


def typed(value, kind, path):
    need(isinstance(value, kind) and not (kind is int and isinstance(value, bool)), 1004, path)
    return value


class Section:
    """A table, whose keys are read in order."""

    def __init__(self, value, path, keys):
        self.path = path
        self.table = typed(value, dict, path)
        for key in sorted(self.table, key=lambda k: k.encode()):
            need(key in keys, 1003, child(path, shown(key)))

    def read(self, key, reader, *default):
        path = child(self.path, key)
        if key not in self.table:
            need(default, 1002, path)
            return default[0]
        return reader(self.table[key], path)


def text(value, path):
    return typed(value, str, path)


def number(low, high, fault=1006):
    def read(value, path):
        typed(value, int, path)
        need(low <= value <= high, fault, path)
        return value

    return read


height = sequence = number(1, MAX_NUMBER)
block = number(1, MAX_NUMBER - 1)


def integers(count):
    """An array of so many integers."""

    def read(value, path):
        need(isinstance(value, list) and len(value) == count, 1004, path)
        for i, entry in enumerate(value):
            typed(entry, int, f"{path}[{i}]")

    return read


def numbers(count, *ranges):
    """An array of so many numbers: all types first, then the ranges, each of which is (low, high, fault)."""

    def read(value, path):
        integers(count)(value, path)
        for i, entry in enumerate(value):
            low, high, fault = ranges[i if i < len(ranges) else -1]
            need(low <= entry <= high, fault, f"{path}[{i}]")
        return tuple(value)

    return read


fees = numbers(3, (0, 10**9, 1025))
limits = numbers(3, (1, 10**15, 1024), (1, 10_000, 1024), (0, 10**9, 1024))
waits = numbers(3, (0, MAX_NUMBER, 1006))


def yes_or_no(value, path):
    return typed(value, bool, path)


def trust(value, path):
    n, d = numbers(2, (0, MAX_NUMBER, 1006))(value, path)
    need(d > 0 and 3 * n >= d and n <= d, 1031, path)
    return n, d


def array(most):
    def read(value, path):
        typed(value, list, path)
        need(most is None or len(value) <= most, 1017, path)
        return value

    return read


def is_identifier(word, most=64):
    return re.fullmatch(r"[A-Za-z0-9._+\-#\[\]<>]{1,%d}" % most, word) is not None


def identifier(value, path):
    need(is_identifier(text(value, path)), 1007, path)
    return value


def new_identifier(known):
    def read(value, path):
        need(identifier(value, path) not in known, 1008, path)
        return value

    return read


def reference(known):
    def read(value, path):
        need(identifier(value, path) in known, 1009, path)
        return value

    return read


def hexadecimal(value, path):
    need(re.fullmatch(r"[0-9A-Fa-f]{64}", text(value, path)), 1010, path)
    return bytes.fromhex(value)


def public_key(value, path):
    """32 bytes of ed25519, or 33 of secp256k1."""
    need(re.fullmatch(r"[0-9A-Fa-f]{64}|[0-9A-Fa-f]{66}", text(value, path)), 1010, path)
    return bytes.fromhex(value)


def moment(value, path):
    """Nanoseconds since 1970 of an RFC 3339 time; seconds may be left out, a leap second is the one before, and a zone may be named."""
    found = re.fullmatch(r"(\d{4}-\d\d-\d\d)[Tt ](\d\d:\d\d)(?::(\d\d)(?:\.(\d{1,9}))?)?([Zz]|[+-]\d\d:\d\d)(?:\[[A-Za-z/_]+\])?", text(value, path))
    need(found, 1011, path)
    day, minute, second, fraction, offset = found.groups()
    try:
        second = "59" if second == "60" else second or "00"
        zone = "+00:00" if offset in "zZ" else offset
        whole = datetime.fromisoformat(f"{day}T{minute}:{second}{zone}").astimezone(timezone.utc)
    except (ValueError, OverflowError):
        raise Fault(1011, path) from None
    since = whole - datetime(1970, 1, 1, tzinfo=timezone.utc)
    nanoseconds = (since.days * 86400 + since.seconds) * 10**9 + int((fraction or "").ljust(9, "0"))
    need(0 <= nanoseconds <= LAST_MOMENT, 1011, path)
    return nanoseconds


def votes(value, path):
    need(all(letter in "CNAB" for letter in text(value, path)), 1012, path)
    return value


# ---- validator sets


def sha(*parts):
    return hashlib.sha256(b"".join(parts)).digest()


def tree_hash(items):
    if not items:
        return sha()
    if len(items) == 1:
        return sha(b"\0", items[0])
    split = 1
    while split * 2 < len(items):
        split *= 2
    return sha(b"\1", tree_hash(items[:split]), tree_hash(items[split:]))


def varint(n):
    out = b""
    while n > 127:
        out += bytes([n % 128 + 128])
        n //= 128
    return out + bytes([n])


def address_of(key):
    return sha(key)[:20] if len(key) == 32 else hashlib.new("ripemd160", sha(key)).digest()


def leaf_of(key, power):
    kind = b"\x0a" if len(key) == 32 else b"\x12"  # the field of the key: ed25519, secp256k1
    public = kind + varint(len(key)) + key
    return b"\x0a" + varint(len(public)) + public + b"\x10" + varint(power)


class ValidatorSet:
    """Members (address, power, key) by falling power, then rising address."""

    def __init__(self, pairs):
        self.members = sorted(((address_of(key), power, key) for key, power in pairs), key=lambda m: (-m[1], m[0]))
        self.total = sum(power for _, power, _ in self.members)
        self.hash = tree_hash([leaf_of(key, power) for _, power, key in self.members])


def validators(value, path):
    pairs = []
    for i, entry in enumerate(typed(value, list, path)):
        place = f"{path}[{i}]"
        need(isinstance(entry, list) and len(entry) == 2, 1004, place)
        key = public_key(entry[0], f"{place}[0]")
        pairs.append((key, number(0, MAX_NUMBER)(entry[1], f"{place}[1]")))
    fits = pairs and len(pairs) <= MAX_MEMBERS and all(1 <= power <= MAX_POWER for _, power in pairs)
    fits = fits and len({address_of(key) for key, _ in pairs}) == len(pairs) and sum(power for _, power in pairs) <= MAX_POWER
    need(fits, 1022, path)
    return ValidatorSet(pairs)


# ---- scripts


class Client:
    pass


def fits(value):
    """Whether all whole numbers in it are of 64 bits, as TOML wants."""
    if isinstance(value, dict):
        return all(map(fits, value.values()))
    if isinstance(value, list):
        return all(map(fits, value))
    return not isinstance(value, int) or -(2**63) <= value < 2**63


def marks(plain):
    return 8 * sum(map(plain.count, (b"{", b"[", b"."))) + plain.count(b"=")


def parse(source):
    need(len(source) <= MAX_BYTES, 1030, "-")
    if marks(source) > MAX_MARKS:
        need(marks(ASIDE.sub(b"", source)) <= MAX_MARKS, 1034, "-")
    try:
        document = tomllib.loads(source.decode())
    except (UnicodeDecodeError, tomllib.TOMLDecodeError):
        raise Fault(1001, "-") from None
    need(fits(document), 1001, "-")
    return document


# what the clients that track a chain may share
TERMS = {
    "period_ns": number(1, MAX_NUMBER), "drift_ns": number(0, MAX_NUMBER), "refresh_ns": number(0, MAX_NUMBER),
    "fee": fees, "gas": fees, "trust": trust,
}


def read_defaults(value, path):
    table = Section(value, path, TERMS)
    return {key: table.read(key, read) for key, read in TERMS.items() if key in table.table}


def read_chain(value, path, version, chains):
    """The identifier, and what is shared."""
    table = Section(value, path, ["id"] + ["defaults"] * (version > 1))
    return table.read("id", new_identifier(chains)), table.read("defaults", read_defaults, {})


def read_client(value, path, version, chains, clients):
    """A client; its updates are charged for the commit votes alone in versions 1 and 2, and from version 3 on for all votes
    that aren't absent, or for the votes that are needed."""
    table = Section(value, path, ["id", "host", "of", "limits", *TERMS] + ["votes"] * (version > 2))
    client = Client()
    client.id = table.read("id", new_identifier(clients))
    client.host = table.read("host", reference(chains))
    client.of = table.read("of", reference(chains))
    shared = {"trust": (1, 3)} | chains[client.of]

    def term(key):
        return table.read(key, TERMS[key], *(shared[k] for k in [key] if k in shared))

    client.period, client.drift = term("period_ns"), term("drift_ns")
    shared.setdefault("refresh_ns", client.period // 3 if version > 3 else 0)
    client.refresh = term("refresh_ns")
    client.fee, client.gas = term("fee"), term("gas")
    client.limits = table.read("limits", limits)
    client.trust = term("trust")
    client.votes = table.read("votes", update_votes, "all") if version > 2 else "commit"
    need(client.host != client.of, 1015, path)
    return client


def order(value, path):
    need(text(value, path) in ("ordered", "unordered"), 1014, path)
    return value


def update_votes(value, path):
    need(text(value, path) in ("all", "needed"), 1012, path)
    return value


def end_identifier(value, path):
    need(is_identifier(text(value, path), 128), 1007, path)
    return value


# the keys of the ends of a path's channel
ENDS = ("port", "channel"), ("counterparty_port", "counterparty_channel")


def read_channel(table):
    """The ends of a path's channel: both keys of an end or none, and those of the other end only beside the source's. Plans don't need them."""
    there = [any(key in table.table for key in keys) for keys in ENDS]
    for keys, is_there in zip(ENDS, (any(there), there[1])):
        for key in keys if is_there else ():
            table.read(key, end_identifier)


def read_path(value, path, version, chains, clients, paths):
    table = Section(value, path, "id source dest order first forward back gas".split() + ["wait_ns", *ENDS[0], *ENDS[1]] * (version > 2))
    name = table.read("id", new_identifier(paths))
    source, dest = table.read("source", reference(chains)), table.read("dest", reference(chains))
    kind, first = table.read("order", order), table.read("first", sequence, 1)
    forward, back = table.read("forward", reference(clients)), table.read("back", reference(clients))
    gas, wait = table.read("gas", fees), table.read("wait_ns", waits, (0, 0, 0))
    read_channel(table)
    need(source != dest, 1015, path)
    need((clients[forward].host, clients[forward].of) == (dest, source), 1016, path)
    need((clients[back].host, clients[back].of) == (source, dest), 1016, path)
    return Path(name, source, dest, kind, first, forward, back, gas, wait)


def set_reference(names):
    def read(value, path):
        if len(text(value, path)) <= 32:
            need(is_identifier(value), 1007, path)
            need(value in names, 1019, path)
            return names[value]
        return hexadecimal(value, path)

    return read


def new_set_name(names):
    def read(value, path):
        need(is_identifier(text(value, path), 32), 1007, path)
        need(value not in names, 1020, path)
        return value

    return read


KINDS = {
    "set": "kind chain name validators".split(),
    "header": "kind chain height time root set next votes".split(),
    "stored": "kind client height time root next".split(),
    "sent": "kind path seq height timeout_height timeout_time".split(),
    "received": "kind path seq height".split(),
    "ack": "kind path seq height".split(),
    "cleared": "kind path seq".split(),
    "closed": "kind path".split(),
}


def kind_of(value, path):
    need(text(value, path) in KINDS, 1013, path)
    return value


def read_set(table, chains, names):
    """("set", chain, members)"""
    chain = table.read("chain", reference(chains))
    name = table.read("name", new_set_name(names[chain]))
    members = table.read("validators", validators)
    names[chain][name] = members.hash
    return "set", chain, members


def read_header(table, chains, names):
    """("header", chain, height, record, own set, votes); a record is (time, root, next set)"""
    chain = table.read("chain", reference(chains))
    at, time = table.read("height", height), table.read("time", moment)
    root = table.read("root", hexadecimal, bytes(32))
    own, following = table.read("set", set_reference(names[chain])), table.read("next", set_reference(names[chain]))
    return "header", chain, at, (time, root, following), own, table.read("votes", votes)


def read_stored(table, clients, names):
    """("stored", client, height, record)"""
    client = table.read("client", reference(clients))
    at, time = table.read("height", height), table.read("time", moment)
    root = table.read("root", hexadecimal, bytes(32))
    return "stored", client, at, (time, root, table.read("next", set_reference(names[clients[client].of])))


def read_packet(table, kind, paths):
    """(kind, path) and as the kind has them the sequence, the block, its time, the height and the time where it expires (0 is never)"""
    event = [kind, table.read("path", reference(paths))]
    if kind != "closed":
        event.append(table.read("seq", sequence))
    if kind in ("sent", "received", "ack"):
        event.append(table.read("height", block))
    if kind in ("sent", "ack"):
        event.append(table.read("time", moment, None))
    if kind == "sent":
        event += [table.read("timeout_height", number(0, MAX_NUMBER), 0), table.read("timeout_time", moment, 0)]
    return tuple(event)


def read_event(value, path, version, chains, clients, paths, names):
    typed(value, dict, path)
    kind = Section({k: v for k, v in value.items() if k == "kind"}, path, ["kind"]).read("kind", kind_of)
    table = Section(value, path, KINDS[kind] + ["time"] * (version > 3 and kind in ("sent", "ack")))
    if kind == "set":
        return read_set(table, chains, names)
    if kind == "header":
        return read_header(table, chains, names)
    if kind == "stored":
        return read_stored(table, clients, names)
    return read_packet(table, kind, paths)


def read_goal(value, path, clients, asked):
    table = Section(value, path, "client at_least exactly".split())
    client = table.read("client", reference(clients))
    least, exact = table.read("at_least", height, None), table.read("exactly", height, None)
    need((least is None) != (exact is None), 1021, path)
    need(client not in asked, 1021, path)
    asked[client] = ("exactly", exact) if least is None else ("at_least", least)


def read_window(value, path, chains, windows):
    """A window of a host, beside those before it in the turn."""
    table = Section(value, path, "host from until".split())
    host, begin, end = table.read("host", reference(chains)), table.read("from", moment), table.read("until", moment)
    need(host not in windows, 1008, path)
    need(begin <= end, 1023, path)
    windows[host] = begin, end


def read_settlement(value, path, clients):
    """(client, batch, so many of its transactions)"""
    table = Section(value, path, "client batch done".split())
    client = table.read("client", reference(clients))
    return client, table.read("batch", number(1, MAX_NUMBER)), table.read("done", number(0, MAX_NUMBER))


def read_turn(value, path, version, setup, names, room):
    """A turn, and the room for windows of hosts, goals, events and settlements that it leaves."""
    chains, clients, paths = setup
    table = Section(value, path, "from until goal event settle".split() + ["taken"] * (version > 2) + ["window"] * (version > 3))
    begin, end = table.read("from", moment), table.read("until", moment)
    own, goals, events, settlements = (table.read(key, array(None), []) for key in ("window", "goal", "event", "settle"))
    taken = table.read("taken", yes_or_no, False)
    room -= len(own) + len(goals) + len(events) + len(settlements)
    need(room >= 0, 1018, path)
    need(begin <= end, 1023, path)
    windows, asked = {}, {}
    for k, entry in enumerate(own):
        read_window(entry, f"{path}.window[{k}]", chains, windows)
    for k, entry in enumerate(goals):
        read_goal(entry, f"{path}.goal[{k}]", clients, asked)
    seen = [read_event(entry, f"{path}.event[{k}]", version, chains, clients, paths, names) for k, entry in enumerate(events)]
    settled = [read_settlement(entry, f"{path}.settle[{k}]", clients) for k, entry in enumerate(settlements)]
    return Turn(begin, end, windows, asked, seen, settled, taken), room


def refuse_too_much(limit, chains, clients, paths, turns):
    """At the first turn up to which all turns ask for too much work or space. Of each chain it is counted how many records its light store can have, how many
    sets, the highest height of a record, how many votes its headers have, and the work of sums over all sets."""
    stores, sent, work, space = {chain: [0, 0, 0, 0, 0] for chain in chains}, 0, 0, 0
    for i, turn in enumerate(turns):
        for kind, name, *rest in turn.events:
            if kind in ("header", "stored"):
                store, height = stores[name if kind == "header" else clients[name].of], rest[0]
                work += 4 * store[0] * (height < store[2])
                store[0], store[2] = min(limit, store[0] + 1), max(height, store[2])
                store[3] += len(rest[3]) if kind == "header" else 0
            elif kind == "set":
                stores[name][1] = min(MAX_SETS, stores[name][1] + 1)
                stores[name][4] += len(rest[0].members) // 32
            sent += kind == "sent"
        for client in clients.values():
            records, sets, _, votes, _ = stores[client.of]
            work, space = work + records * (2 * sets + 51), space + 3 * records
            if client.votes == "needed":
                work, space = work + (60 * votes + 50 * records) * (sets + 10), space + 2 * votes
        work += 36 * sent + sum(3 * stores[path.dest][0] for path in paths.values()) + sum(store[0] * store[4] for store in stores.values())
        space += 13 * sent
        need(work <= MAX_WORK and space + 2 * sum(records * sets for records, sets, *_ in stores.values()) <= MAX_SPACE, 1032, f"turn[{i}]")


def read_script(source):
    top = Section(parse(source), "", "version chain client path turn".split())
    version = top.read("version", number(1, max(MAX_RECORDS), 1005))
    entries = [top.read(key, array(most), []) for key, most in
               (("chain", MAX_CHAINS), ("client", MAX_CLIENTS), ("path", MAX_PATHS), ("turn", MAX_TURNS))]
    chains, clients, paths, turns = {}, {}, {}, []
    for i, value in enumerate(entries[0]):
        name, shared = read_chain(value, f"chain[{i}]", version, chains)
        chains[name] = shared
    for i, value in enumerate(entries[1]):
        client = read_client(value, f"client[{i}]", version, chains, clients)
        clients[client.id] = client
    for i, value in enumerate(entries[2]):
        path = read_path(value, f"path[{i}]", version, chains, clients, paths)
        paths[path.id] = path
    names, room = {chain: {} for chain in chains}, MAX_ENTRIES
    for i, value in enumerate(entries[3]):
        turn, room = read_turn(value, f"turn[{i}]", version, (chains, clients, paths), names, room)
        turns.append(turn)
    refuse_too_much(MAX_RECORDS[version], chains, clients, paths, turns)
    return Script(version, MAX_RECORDS[version], chains, clients, paths, turns)


# ---- certificates


def read_certificate(source):
    top = Section(parse(source), "", "version turn client answer updates labels".split())
    top.read("version", number(1, 1, 1005))
    turn = top.read("turn", height)
    client = top.read("client", identifier)

    def answer_of(value, path):
        need(text(value, path) in ("plan", "unreachable"), 1027, path)
        return value

    def rows(count, *ranges):
        """An array of arrays of so many numbers: all types first."""

        def read(value, path):
            for i, row in enumerate(typed(value, list, path)):
                integers(count)(row, f"{path}[{i}]")
            return [numbers(count, *ranges)(row, f"{path}[{i}]") for i, row in enumerate(value)]

        return read

    def labels_of(value, path):
        found = rows(3, (1, MAX_NUMBER, 1006), (0, MAX_NUMBER, 1006))(value, path)
        for i in range(1, len(found)):
            need(found[i - 1][0] < found[i][0], 1029, f"{path}[{i}]")
        return found

    answer = top.read("answer", answer_of)
    updates = top.read("updates", rows(2, (1, MAX_NUMBER, 1006)), [])
    labels = top.read("labels", labels_of)
    need(answer == "plan" or not updates, 1027, "answer")
    return turn, client, answer, [(t, h) for h, t in updates], {h: (fee, count) for h, fee, count in labels}
