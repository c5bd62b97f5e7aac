"""The setup that a configuration of Hermes makes, for `setup --hermes`."""
import tomllib

HEAD = """# Made of Hermes' configuration. FROM and UNTIL are to be written. A fee is gas times the price of gas; the numbers of gas are
# guesses: put in those of your chains. What the answer on a client's state has is left out.
# The nodes: a chain, the address of its node, that of its gateway.
"""
END = '[[turn]]\nfrom = "FROM"\nuntil = "UNTIL"\n'
GAS = 80_000, 3_000, 200


def fees_of(chain):
    """Gas times the price in millionths, in the least power of ten that makes the greatest at most 10^9."""
    price = int(chain.get("gas_price", {"price": 0})["price"] * 1_000_000)
    unit = 1
    while GAS[0] * price // unit > 10**9:
        unit *= 10
    return [gas * price // unit for gas in GAS] if price else list(GAS)


def setup_of(config, words):
    """The setup that a configuration makes for clients."""
    chains, clients = tomllib.loads(config)["chains"], [word.split(":") for word in words]
    named = [chain for chain in chains if any(chain["id"] in (host, of) for host, _, of in clients)]
    text = HEAD + "".join(f"# {chain['id']} {chain.get('rpc_addr', '-')} -\n" for chain in named) + "version = 1\n\n"
    text += "".join(f'[[chain]]\nid = "{chain["id"]}"\n\n' for chain in named)
    for host, own, of in clients:
        chain = next(chain for chain in chains if chain["id"] == host)
        text += f'[[client]]\nid = "{host}.{own}"\nhost = "{host}"\nof = "{of}"\nfee = {fees_of(chain)}\ngas = {list(GAS)}\n'
        text += f"limits = [{chain.get('max_gas', 400_000)}, {chain.get('max_msg_num', 30)}, 20000]\n\n"
    return text + END
