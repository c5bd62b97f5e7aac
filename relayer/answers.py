"""The folder of answers that the proved program reads (docs/IMPORT.md). Final headers and validator sets stay from round to round; so do transactions with
packets that are pending, a client's consensus states while its state is the same, and where a chain stood for a while. All other answers are of one round."""
import contextlib
import fnmatch
import os
import pathlib
import threading

from relayer.node import Answer, Source
from relayer.values import Fields, fields_in
from relayer.words import Fault

HEIGHTS = 64  # of which a chain's headers and validators stay
HEADERS = "[cv]*-*.json"  # the names of a chain's commits and validators
PAGES = "consensus_states-*"
SEARCHES = "[srw]*-*.json"  # the names of a path's searches: sent, received, written


def write_whole(file: pathlib.Path, body: bytes, is_synced: bool = False) -> None:
    """Writes a file so that a reader has all of it or the one before; also after the system has failed, if it is synced."""
    new = file.with_name(f".{file.name}.new")
    try:
        file.parent.mkdir(parents=True, exist_ok=True)
        with open(new, "wb") as opened:
            opened.write(body)
            if is_synced:
                opened.flush()
                os.fsync(opened.fileno())
        os.replace(new, file)
    except OSError as error:
        raise Fault(f"{file}: {error.strerror}", 4) from None


class AnswerFolder:
    """The folder, and of the files of this process where they are from."""

    def __init__(self, folder: pathlib.Path) -> None:
        self.folder, self.lock = folder, threading.Lock()
        self.origins: dict[str, Source] = {}
        self.states: dict[str, str] = {}  # of clients: the state of which the consensus states are there

    def file(self, name: str) -> pathlib.Path:
        return self.folder / name

    def begin_round(self, chains: list[str], clients: list[str], paths: list[str]) -> None:
        """Takes away what is of one moment: refusals, the clients' states, what is pending on paths, and proofs."""
        for name in (*chains, *clients, *paths):
            (self.folder / name).mkdir(parents=True, exist_ok=True)
            self.drop_all(name, "*.refused")
        for chain in chains:
            self.drop_low_heights(chain)
        for client in clients:
            with contextlib.suppress(FileNotFoundError):
                self.states[client] = state_text(fields_in(self.file(f"{client}/client_state.json").read_bytes()))
            self.drop(f"{client}/client_state.json")
        for path in paths:
            self.drop_searches(path)
            for names in "commitments-*", "unreceived-*", "acknowledgements-*", "proofs/*":
                self.drop_all(path, names)

    def drop_searches(self, path: str) -> None:
        """Takes away the searches on a path that found nothing, or whose packets weren't pending any more."""
        pending = self.pending(path)
        for file in self.file(path).glob(SEARCHES):
            if file.stem.partition("-")[2] not in pending or not fields_in(file.read_bytes()).objects("txs"):
                self.drop(f"{path}/{file.name}")

    def pending(self, path: str) -> set[str]:
        """The sequences of a path's packets that have commitments."""
        pages = [fields_in(file.read_bytes()) for file in self.file(path).glob("commitments-*.json")]
        return {str(each.number("sequence")) for page in pages for each in page.objects("commitments")}

    def drop_packet(self, path: str, sequence: int) -> None:
        """Takes away what is known of a packet."""
        for names in f"[srw]*-{sequence}.*", f"proofs/*-{sequence}-*":
            self.drop_all(path, names)

    def drop_low_heights(self, chain: str) -> None:
        """Takes away a chain's headers and validators but for the highest ones."""
        files = [(int(file.stem.split("-")[1]), file.name) for file in (self.folder / chain).glob(HEADERS)]
        heights = set(sorted({height for height, _ in files})[-HEIGHTS:])
        for height, name in files:
            if height not in heights:
                self.drop(f"{chain}/{name}")

    def save(self, name: str, answer: Answer) -> None:
        with self.lock:
            self.origins[name] = answer.source
        write_whole(self.file(name), answer.body)

    def drop_old_pages(self, client: str, answer: Answer) -> None:
        """Takes a client's consensus states away, if its state isn't the one before."""
        if self.states.get(client) != state_text(answer.fields):
            self.drop_all(client, PAGES)

    def drop(self, name: str) -> Source | None:
        """Takes a file away; where it is from, if this process had it from a source."""
        self.file(name).unlink(missing_ok=True)
        with self.lock:
            return self.origins.pop(name, None)

    def drop_headers_of(self, source: Source) -> None:
        """Takes away the headers and the validators that a source gave."""
        with self.lock:
            given = [name for name, origin in self.origins.items() if origin is source]
        for name in given:
            if fnmatch.fnmatchcase(name, f"{source.chain}/{HEADERS}"):
                self.drop(name)

    def drop_all(self, place: str, names: str) -> None:
        """Takes away the files of a chain, a client or a path whose names have a form."""
        for file in self.file(place).glob(names):
            self.drop(str(file.relative_to(self.folder)))


def state_text(answer: Fields) -> str:
    """The client's state in an answer, without the height at which the gateway gave it."""
    return repr(answer.value.get("client_state"))
