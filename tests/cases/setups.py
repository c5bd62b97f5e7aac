"""Runs of `setup`, for tests/run: what it writes is made here of the configuration; `want` reads the setup as a setup."""
from lib.hermes import setup_of
from lib.program import EXAMPLES, Case

CONFIG = EXAMPLES / "hermes" / "config.toml"


def setup_cases(top):
    config = CONFIG.read_text()
    for words in (["zone-1:07-tendermint-3:hub-4"], ["hub-4:07-tendermint-9:zone-1", "zone-1:07-tendermint-3:hub-4"], [f"zone-1:c{n}:hub-4" for n in range(16)]):
        text = setup_of(config, words)
        yield Case(f"setup of {len(words)} clients", ["setup", "--hermes", "-", *words], config.encode(), text.encode(), b"", 0)
        if len(words) > 2:  # of more `want` asks too much at once
            continue
        given = text.replace("FROM", "2026-11-01T12:09:20Z").replace("UNTIL", "2026-11-01T12:09:30Z")
        asked = subset_of_want(words)
        yield Case(f"a setup of {len(words)} clients is read", ["want", "-", str(top / "no-answers")], given.encode(), asked, b"", 0, reader=first_lines)
    word = "zone-1:07-tendermint-3:hub-4"
    for what, price in (("no price", ""), ("a great price", "gas_price = { price = 25_000_000_000.5 }"), ("a price of nothing", "gas_price = { price = 0.0 }"), ("a price below 0", "gas_price = { price = -0.5 }")):
        bare = f"[[chains]]\nid = 'hub-4'\n[[chains]]\nid = 'zone-1'\nrpc_addr = 'a b'\n{price}\n"
        text = setup_of(bare.replace("a b", "-").replace("-0.5", "0"), [word])
        yield Case(f"setup of {what}", ["setup", "--hermes", "-", word], bare.encode(), text.encode(), b"", 0)
    form = b"error: invalid value '%s' for '<CLIENT>...': HOST:ID:CHAIN belongs here, of two chains\n"
    for bad in ("zone-1", "zone-1:c", "zone-1::hub-4", "hub-4:c:hub-4", "zone-1:c:hub-4:d", "zone 1:c:hub-4"):
        yield Case(f"setup of {bad}", ["setup", "--hermes", "-", bad], config.encode(), b"", form % bad.encode(), 2)
    yield Case("setup of an unknown chain", ["setup", "--hermes", "-", "zone-1:c:other"], config.encode(), b"",
               b"error: invalid value 'zone-1:c:other' for '<CLIENT>...': the configuration lacks one of its chains\n", 2)
    long = f"zone-1:{'c' * 60}:hub-4"
    yield Case("setup of a long client", ["setup", "--hermes", "-", long], config.encode(), b"",
               f"error: invalid value '{long}' for '<CLIENT>...': HOST.ID has more than 64 characters\n".encode(), 2)
    for given, fault in ((b"chains", b"1001 NotToml at -"), (b"", b"1002 MissingKey at chains"), (b"chains = 1", b"1004 WrongType at chains"), (b"chains = [1]", b"1004 WrongType at chains[0]"),
                         (b"chains = [{}]", b"1002 MissingKey at chains[0].id"), (b"chains = [{ id = 'a b' }]", b"1007 BadIdentifier at chains[0].id"),
                         (b"chains = [{ id = 'a', max_gas = 0 }]", b"1006 OutOfRange at chains[0].max_gas"), (b"chains = [{ id = 'a', max_msg_num = 'b' }]", b"1004 WrongType at chains[0].max_msg_num"),
                         (b"chains = [{ id = 'a', gas_price = 1 }]", b"1004 WrongType at chains[0].gas_price"), (b"chains = [{ id = 'a', gas_price = { price = -1 } }]", b"1006 OutOfRange at chains[0].gas_price")):
        yield Case(f"setup of {given}", ["setup", "--hermes", "-", word], given, b"", b"fault " + fault + b"\n", 1)
    yield Case("setup of another file", ["setup", "--hermes", "-", word], b"version = 1", b"", b"fault 1002 MissingKey at chains\n", 1, named=(b"[[chains]] in Hermes' configuration",))
    yield Case("setup without clients", ["setup", "--hermes", str(CONFIG)], b"", b"", b"error: the following required arguments were not provided:\n", 2)


def first_lines(output):
    """The clients and chains that `want` asks of."""
    return sorted({(line.split()[1], line.split()[3].split("/")[0]) for line in output.decode().splitlines() if line.startswith("get")})


def subset_of_want(words):
    found = set()
    for host, own, of in (word.split(":") for word in words):
        found |= {(host, f"{host}.{own}"), (of, of)}
    return sorted(found)
