"""Signs and broadcasts transactions by the chains' programs, and asks whether they were included. Hosts don't wait for one another."""
import base64
import dataclasses
import enum
import hashlib
import json
import pathlib
import re
import subprocess
import threading
from collections.abc import Callable

from relayer.answers import write_whole
from relayer.clock import Clock
from relayer.config import Chain, Config
from relayer.node import Kind, Refused, SourceFailure
from relayer.sources import Sources, Standing
from relayer.state import State, Transaction
from relayer.values import fields_in
from relayer.words import Fault, Log, shown

SECONDS = 60  # that a call of a chain's program may take
IN_CACHE = 19  # cosmos-sdk's code of a transaction that is in the mempool already
ADDRESS = re.compile(r"[a-z0-9]{1,60}1[02-9ac-hj-np-z]{38,64}")  # bech32
KEYRING = "--keyring-backend", "--keyring-dir", "--home"  # the options that say where keys are; others are of signing alone
INDEX_BLOCKS = 2  # by which a node's index of transactions may be behind


class Ending(enum.Enum):
    """What became of a transaction."""

    INCLUDED = "included"
    FAILED = "failed"
    OPEN = "not included yet"
    LAPSED = "lapsed"
    HELD = "not sent"


@dataclasses.dataclass(frozen=True)
class Step:
    """A transaction that isn't signed yet, its text, and where the host stood when it was planned."""

    transaction: Transaction
    text: bytes
    since: Standing


@dataclasses.dataclass(frozen=True)
class Sent:
    """A transaction, and what became of it."""

    transaction: Transaction
    ending: Ending
    words: str = ""
    gas_used: int = 0

    @property
    def has_failed_alone(self) -> bool:
        """Whether it is the failure of a packet, and not of its client."""
        return self.ending is Ending.FAILED and self.transaction.hash != "" and len(self.transaction.packets) == 1 and not self.transaction.heights


class Failed(Exception):
    """Why a transaction couldn't be made, signed or broadcast, in words for a terminal."""


class Senders:
    """Sends to hosts, to each in a thread of its own, one transaction after another."""

    def __init__(self, config: Config, sources: Sources, state: State, clock: Clock, stop: threading.Event, log: Log, tell: Callable[[Sent], None]) -> None:
        self.config, self.sources, self.state, self.clock, self.stop, self.log, self.tell = config, sources, state, clock, stop, log, tell
        self.done: dict[str, threading.Event] = {}  # of hosts to which something is on its way; set at the end

    def start(self, host: str, steps: list[Step]) -> None:
        """Begins to send steps to a host."""
        done = self.done[host] = threading.Event()

        def run() -> None:
            try:
                self.send_all(self.config.chain(host), steps)
            finally:
                done.set()

        threading.Thread(target=run, name=f"send {host}").start()

    def is_busy(self, host: str) -> bool:
        return host in self.done and not self.done[host].is_set()

    def ended(self) -> set[str]:
        """The hosts to which nothing is on its way any more, since this was asked last."""
        ended = {host for host, done in self.done.items() if done.is_set()}
        for host in ended:
            del self.done[host]
        return ended

    def wait(self, hosts: list[str] | None = None) -> None:
        """Waits until nothing is on its way to some hosts, or to any."""
        for host, done in self.done.items():
            while (hosts is None or host in hosts) and not self.clock.wait(done, SECONDS):
                pass

    # ---- inclusion

    def settle(self, transaction: Transaction) -> Sent:
        """Asks what became of an open transaction, and closes it where that is known: where a node knows it, or none does though no block can have it any
        more. Nodes that stand still aren't asked, and those without an index only if no other is there."""
        found = [(source, standing[0]) for source in self.sources.usable(transaction.host, Kind.NODE) if (standing := self.sources.standing(source))]
        moving = [pair for pair in found if not self.sources.is_still(pair[1])]
        words = f"{transaction.host} stands still" if found else f"no node of {transaction.host} answers"
        for source, _ in (asked := [pair for pair in moving if pair[1].has_index] or moving):
            try:
                answer = source.ask(f"/tx?hash=0x{transaction.hash}").fields
            except Refused as refused:
                words = str(refused)
                continue
            except SourceFailure as failure:
                self.sources.fail(source, str(failure))
                return Sent(transaction, Ending.OPEN, str(failure))
            result, block = answer.object("tx_result"), answer.number("height")
            if answer.text("hash").upper() != transaction.hash or block is None:
                return Sent(transaction, Ending.OPEN, "a node answers of another transaction")
            code, gas = result.number("code") or 0, result.number("gas_used") or 0
            self.state.close(transaction, min(block, transaction.last_block))  # a node may lie
            if code:
                return Sent(transaction, Ending.FAILED, f"code {code}: {shown(result.text('log'), 200)}", gas)
            return Sent(transaction, Ending.INCLUDED, gas_used=gas)
        if not asked or any(standing.height <= transaction.last_block + INDEX_BLOCKS for _, standing in asked):
            return Sent(transaction, Ending.OPEN, words)
        self.state.close(transaction)
        return Sent(transaction, Ending.LAPSED, f"no block up to {transaction.last_block} has it: {words}")

    # ---- in the thread of a host

    def send_all(self, chain: Chain, steps: list[Step]) -> None:
        """Sends step by step. Behind one that isn't included its client's steps don't go; behind a packet message that failed alone those of other packets
        do, but on an ORDERED channel. Behind one that is open none does, as its account is the same."""
        ended: set[str] = set()
        for step in steps:
            transaction = step.transaction
            if self.stop.is_set() or not ended.isdisjoint((transaction.client, *(packet.path for packet in transaction.packets))):
                continue
            try:
                sent = self.send(chain, step)
            except Fault as fault:  # of the state file: nothing is sent without it
                sent = Sent(transaction, Ending.HELD, str(fault))
            self.tell(sent)
            if sent.ending is Ending.FAILED:  # another gateway may know the client better
                self.sources.prefer_another(chain.id, Kind.GATEWAY)
            if sent.has_failed_alone:
                ended |= {path.name for path in self.config.paths if path.name == transaction.packets[0].path and path.order == "ordered"}
            elif sent.ending is not Ending.INCLUDED:
                ended.add(transaction.client)
            if sent.ending in (Ending.OPEN, Ending.HELD):
                return

    def send(self, chain: Chain, step: Step) -> Sent:
        """Sends a transaction that can be included for some blocks, and waits for it."""
        transaction, until = step.transaction, step.since.nanos + self.config.window_nanos
        if chain.id not in (best := self.sources.best_standings([chain.id])):
            return Sent(transaction, Ending.HELD, f"no node of {chain.id} answers")
        standing = best[chain.id][0]
        if standing.nanos > until:
            return Sent(transaction, Ending.HELD, "the window of its plan is over")
        if self.sources.is_still(standing):
            return Sent(transaction, Ending.HELD, f"{chain.id} stands still")
        last_block = min(standing.height, step.since.height + 10 * chain.open_blocks) + chain.open_blocks  # a node may lie
        try:
            signed, hash_text = self.signed(chain, step, last_block)
        except Failed as failed:
            return Sent(transaction, Ending.FAILED, str(failed))
        transaction = dataclasses.replace(transaction, hash=hash_text, last_block=last_block)
        self.state.add(transaction)
        self.log.info("broadcast", **told_of(transaction))
        if words := self.broadcast(chain, signed):
            self.state.close(transaction)
            return Sent(transaction, Ending.FAILED, words)
        while True:
            sent = self.settle(transaction)
            is_over = self.clock.now() > until
            if sent.ending is not Ending.OPEN or is_over or self.clock.wait(self.stop, self.config.poll_seconds):
                return sent

    # ---- the chain's program

    def signed(self, chain: Chain, step: Step, last_block: int) -> tuple[pathlib.Path, str]:
        """The file of the signed transaction, which blocks up to a height can have, and its hash, before it is broadcast."""
        place = self.config.folder / "sending" / chain.id
        unsigned, signed = place / "unsigned.json", place / "signed.json"
        transaction = fields_in(step.text)
        transaction.object("body").value["timeout_height"] = str(last_block)
        write_whole(unsigned, json.dumps(transaction.value).encode())
        signed.unlink(missing_ok=True)
        run_program(chain, "sign", "tx", "sign", str(unsigned), "--from", chain.signer, "--chain-id", chain.id, "--node", self.node(chain), *chain.options,
                    "--output-document", str(signed))
        try:
            data = base64.b64decode(run_program(chain, "encode", "tx", "encode", str(signed)).strip(), validate=True)
        except ValueError:
            data = b""
        if not data:
            raise Failed("encode wrote no base64")
        return signed, hashlib.sha256(data).hexdigest().upper()

    def node(self, chain: Chain) -> str:
        """The address of a node with its port, as the chain's program takes it."""
        if not (usable := self.sources.usable(chain.id, Kind.NODE)):
            raise Failed(f"no node of {chain.id} answers")
        parts = usable[0].parts
        port = "" if parts.port else ":443" if parts.scheme == "https" else ":80"
        return f"{parts.scheme}://{parts.netloc.rstrip(':')}{port}{parts.path}"

    def broadcast(self, chain: Chain, signed: pathlib.Path) -> str:
        """Why the node refused the transaction; empty where it took it, or where that isn't known."""
        try:
            output = run_program(chain, "broadcast", "tx", "broadcast", str(signed), "--node", self.node(chain), "--broadcast-mode", "sync", "--output", "json")
        except Failed as failed:
            self.log.warn("broadcast open", host=chain.id, why=str(failed))
            return ""
        answer = fields_in(output.encode())
        code = answer.number("code")
        return "" if code in (None, 0, IN_CACHE) else f"the node refused it, code {code}: {shown(answer.text('raw_log'), 200)}"


def told_of(transaction: Transaction) -> dict[str, object]:
    """A transaction in the log and in reports."""
    return {"client": transaction.client, "heights": transaction.heights, "packets": [*map(str, transaction.packets)], "hash": transaction.hash}


def account_of(chain: Chain) -> str:
    """The address of the account that signs; by the chain's program, if the signer is the name of a key."""
    if ADDRESS.fullmatch(chain.signer):
        return chain.signer
    options = [word for place, word in enumerate(chain.options) if word.partition("=")[0] in KEYRING or place and chain.options[place - 1] in KEYRING]
    address = run_program(chain, "keys show", "keys", "show", chain.signer, "--address", *options).strip()
    if not ADDRESS.fullmatch(address):
        raise Failed("keys show wrote no address")
    return address


def run_program(chain: Chain, what: str, *words: str) -> str:
    """What the program of a chain writes."""
    try:
        done = subprocess.run([*chain.program, *words], stdin=subprocess.DEVNULL, capture_output=True, timeout=SECONDS, encoding="utf-8", errors="replace")
    except (OSError, subprocess.TimeoutExpired) as error:
        raise Failed(f"{what}: {shown(error, 200)}") from None
    if done.returncode != 0:
        raise Failed(f"{what} ended with status {done.returncode}: {shown(done.stderr.strip()[-300:])}")
    return done.stdout
