"""Setups of clients of long chains (nodes.LongChain), and of a path between two of these."""
from lib import nodes

CLIENT, FEE = "07-tendermint-3", (118_400, 1_087, 771)
HEAD = f'''version = 1
chain = [{{ id = "hub-4" }}, {{ id = "zone-1" }}]
[[client]]
id = "{CLIENT}"
host = "zone-1"
of = "hub-4"
fee = {list(FEE)}
gas = [1, 0, 0]
limits = [1_000_000, 100, 0]
'''


def setup_of(chain, goal):
    begin, end = (f"{chain.time(chain.blocks) + later:%Y-%m-%dT%H:%M:%SZ}" for later in (nodes.BLOCK, 50 * nodes.BLOCK))
    return f'{HEAD}[[turn]]\nfrom = "{begin}"\nuntil = "{end}"\n' + (f'goal = [{{ client = "{CLIENT}", {goal} }}]\n' if goal else "")


BACK = "07-tendermint-9"
PATH = f'''[[client]]
id = "{BACK}"
host = "hub-4"
of = "zone-1"
fee = {list(FEE)}
gas = [1, 0, 0]
limits = [1_000_000, 100, 0]
[[path]]
id = "transfers"
source = "hub-4"
dest = "zone-1"
order = "unordered"
forward = "{CLIENT}"
back = "{BACK}"
gas = [5, 5, 5]
port = "transfer"
channel = "channel-0"
counterparty_port = "transfer"
counterparty_channel = "channel-7"
'''
# the blocks that sent a packet, received it and wrote its acknowledgement
PACKETS = {5: (60, 70, 70), 8: (61, 0, 0), 7: (62, 71, 75), 6: (63, 72, 0)}
