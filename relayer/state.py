"""The state file: transactions whose inclusion is open, written before each broadcast, so that nothing is sent twice; and what failed, so that it waits."""
import dataclasses
import json
import pathlib
import threading
import typing

from relayer.answers import write_whole
from relayer.planner import Packet
from relayer.records import array, mapping, record, text, whole
from relayer.words import Fault

Text = typing.Annotated[str, text("(?s).+")]
Number = typing.Annotated[int, whole(0, 2**63 - 1)]


@dataclasses.dataclass(frozen=True)
class Transaction:
    """A transaction to a host for a client: the heights of its updates, its packet messages, and the fee of the updates by the plan; once it is signed its hash,
    and the last block that can have it."""

    host: Text
    client: Text
    heights: typing.Annotated[tuple[int, ...], array(whole(0, 2**63 - 1))]
    packets: typing.Annotated[tuple[Packet, ...], array(record(Packet))]
    fee: Number
    hash: Text = ""
    last_block: Number = 0


@dataclasses.dataclass(frozen=True)
class Failure:
    """How often a client's transactions or a packet's messages failed in a row, until when they wait (nanoseconds since 1970), and why they failed last."""

    count: Number
    until: Number
    why: Text


@dataclasses.dataclass
class State:
    """What is to outlast the process. Each change is on the disk before the next step."""

    file: pathlib.Path
    version: typing.Annotated[int, whole(1, 1)]
    open: typing.Annotated[tuple[Transaction, ...], array(record(Transaction))]
    blocks: typing.Annotated[dict[str, int], mapping(whole(0, 2**63 - 1))]  # of hosts: the greatest that included a transaction
    failures: typing.Annotated[dict[str, Failure], mapping(record(Failure))]  # of clients, and of packets as `PATH SEQUENCE`
    lock: threading.Lock = dataclasses.field(default_factory=threading.Lock, compare=False)

    def of_host(self, host: str) -> list[Transaction]:
        return [each for each in self.open if each.host == host]

    def add(self, transaction: Transaction) -> None:
        with self.lock:
            self.open += transaction,
            self.write()

    def close(self, transaction: Transaction, block: int = 0) -> None:
        """Closes a transaction that a block has included, or that isn't (0)."""
        with self.lock:
            self.open = tuple(each for each in self.open if each != transaction)
            self.blocks[transaction.host] = max(self.blocks.get(transaction.host, 0), block)
            self.write()

    def fail(self, name: str, failure: Failure | None) -> None:
        """Notes that something failed, or (none) that it didn't."""
        with self.lock:
            if failure is not None:
                self.failures[name] = failure
            elif self.failures.pop(name, None) is None:
                return
            self.write()

    def write(self) -> None:
        value = {"version": 1, "open": [dataclasses.asdict(each) for each in self.open], "blocks": self.blocks,
                 "failures": {name: dataclasses.asdict(each) for name, each in self.failures.items()}}
        write_whole(self.file, (json.dumps(value, indent=1) + "\n").encode(), is_synced=True)


def read_state(file: pathlib.Path) -> State:
    """The state in a file, which may not be there yet."""
    try:
        return record(State, file=file)(json.loads(file.read_text()))
    except FileNotFoundError:
        return State(file, 1, (), {}, {})
    except (ValueError, RecursionError):
        raise Fault(f"{file}: this is no state file; nothing is sent while it may tell of open transactions") from None
