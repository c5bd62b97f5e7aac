"""Fetches what `want` and `messages` ask for. A source that gives what can't be is left for another one."""
import functools
import math
import pathlib
import re
from collections.abc import Iterable

from relayer.answers import HEADERS, AnswerFolder, write_whole
from relayer.config import Config
from relayer.node import Answer, Kind, Refused, SourceFailure
from relayer.planner import Planner, Request, requests_in
from relayer.sources import Sources, Standing, Unavailable, standing_in
from relayer.values import Fields, fields_in
from relayer.verify import Doubt, Verifier
from relayer.words import Fault, Log

PASSES = 80  # calls of `want` for a setup
MOST_PAGES = 60  # of a query
GATEWAY_QUERIES = {"client_state", "consensus_states", "commitments", "unreceived", "acknowledgements"}
PAGED = {"consensus_states", "commitments"}
SEARCH = re.compile(r"[^/]+/(?:sent|received|written)-[0-9]+\.json")  # of a packet's transactions


class Fetcher:
    """Fetches into a folder of answers, in one round."""

    def __init__(self, planner: Planner, sources: Sources, folder: AnswerFolder, config: Config, log: Log) -> None:
        self.planner, self.sources, self.folder, self.log, self.window_nanos = planner, sources, folder, log, config.window_nanos
        self.verifier = Verifier(folder, log) if config.verify else None
        self.standings: dict[str, Standing] = {}
        self.later: dict[str, Answer] = {}  # where chains stand, if the header of an earlier standing leads the fetch
        self.down: set[tuple[str, Kind]] = set()
        self.refused: dict[str, str] = {}  # requests, as FOLDER/NAME, and the words
        self.floors: dict[str, int] = {}  # of chains: the block that the answers of gateways have to know
        self.aside: set[str] = set()  # searches that nobody is asked for: without them `import` leaves packets out

    def begin_round(self, chains: list[str], floors: dict[str, int]) -> None:
        self.floors = dict(floors)
        self.down.clear()
        self.refused.clear()
        self.standings.clear()
        self.later.clear()
        self.stand(chains)
        for chain in chains:
            self.check(chain)

    # ---- where chains stand

    def stand(self, chains: list[str]) -> None:
        """Asks where chains stand; the fetch goes by these answers."""
        best = self.sources.best_standings(chains)
        for chain in chains:
            if chain not in best:
                self.standings.pop(chain, None)
                self.down.add((chain, Kind.NODE))
                continue
            self.standings[chain], answer = best[chain]
            if self.has_young_header(chain):
                self.later[chain] = answer
            else:
                self.folder.save(f"{chain}/status", answer)

    def has_young_header(self, chain: str) -> bool:
        """Whether the header is there that an earlier standing leads to, and that standing is hardly older than this one: then it leads the fetch again."""
        file = self.folder.file(f"{chain}/status")
        before = standing_in(fields_in(file.read_bytes())) if file.exists() else None
        if before is None or before.chain != chain or not self.folder.file(f"{chain}/commit-{before.height - 1}.json").exists():
            return False
        return 0 <= self.standings[chain].nanos - before.nanos <= self.window_nanos

    def check_standing(self, chain: str) -> None:
        """Leaves a node whose own latest height has no header, and asks another one where the chain stands."""
        standing = self.standings.get(chain)
        if standing is None or f"{chain}/commit-{standing.height - 1}" not in self.refused:
            return
        self.folder.drop_all(chain, "*.refused")
        self.refused = {name: words for name, words in self.refused.items() if not name.startswith(f"{chain}/")}
        source = self.folder.drop(f"{chain}/status")
        if source is not None:
            self.sources.fail(source, "no node gives the header below its latest height")
        self.stand([chain])

    def leave_headers(self, chain: str) -> None:
        """Drops a chain's headers, and where it stood, if there is another node, which is asked first from now on."""
        if self.sources.prefer_another(chain, Kind.NODE):
            self.folder.drop(f"{chain}/status")
            self.folder.drop_all(chain, HEADERS)

    # ---- answers

    def fetch(self, setup: pathlib.Path, paths: Iterable[str] = ()) -> dict[str, str]:
        """Asks until `want` asks for no more, or for nothing that a source is left for; why no more is asked for clients and paths. Where packets are pending,
        the latest headers lead."""
        for _ in range(PASSES):
            wanted, ends = self.planner.want(setup, self.folder.folder)
            requests = [request for request in wanted if (request.chain, kind_of(request)) not in self.down]
            if not requests:
                break
            for file in (request.file for request in requests if self.folder.file(request.file).exists()):
                if SEARCH.fullmatch(file):
                    self.leave_search(file)
                else:
                    self.doubt(Doubt(file, "it doesn't hold what was asked for"))
            self.take([request for request in requests if f"{request.folder}/{request.name}" not in self.refused])
            if self.later and any(self.folder.pending(path) for path in paths):
                for chain, answer in self.later.items():
                    self.folder.save(f"{chain}/status", answer)
                self.later.clear()
        return ends

    def messages(self, setup: pathlib.Path, made: pathlib.Path) -> tuple[int, str, str]:
        """Has the messages of a setup's plan made in a folder, with the proofs that they need; the status, and what was written to both outputs."""
        for _ in range(2):
            status, output, error = self.planner.messages(setup, self.folder.folder, made)
            if not (requests := requests_in(output)):
                return status, output, error
            self.take(requests)
        raise Fault("ibcplan messages asks for proofs again", 4)

    def take(self, requests: list[Request]) -> None:
        """Fetches in two steps what one call of `want` asks for: consensus states come after the client's state, validators after the header of their
        height, since those of before may do."""
        later = [request for request in requests if request.kind in ("consensus_states", "validators")]
        self.sources.together([functools.partial(self.answer, request) for request in requests if request not in later])
        headers = {(request.folder, request.number) for request in requests if request.kind == "commit"}
        known = {chain for chain, _ in headers if any(self.folder.file(chain).glob("validators-*.json"))}
        self.sources.together([functools.partial(self.answer, request) for request in later if not self.folder.file(request.file).exists()
                               and not (request.kind == "validators" and request.folder in known and (request.folder, request.number) in headers)])
        for chain in dict.fromkeys(request.folder for request in requests if request.kind in ("commit", "validators")):
            self.check(chain)
            self.check_standing(chain)

    def answer(self, request: Request) -> None:
        """Fetches and saves the answer to a request, or that there is none."""
        name = f"{request.folder}/{request.name}"
        try:
            if request.kind in PAGED and request.number > MOST_PAGES:
                self.leave_pages(request)
                return
            if name in self.aside:
                raise Refused("this packet is set aside")
            found = self.sources.ask(request.chain, kind_of(request), request.path, functools.partial(self.is_whole, request))
        except Refused as refused:
            self.refuse(name, str(refused))
        except Unavailable as error:
            self.down.add((request.chain, kind_of(request)))
            if request.folder.endswith("/proofs"):  # `messages` goes on without them
                self.refuse(name, str(error))
        else:
            if request.kind == "client_state":
                self.folder.drop_old_pages(request.folder, found)
            self.folder.save(request.file, found)

    def is_whole(self, request: Request, answer: Answer) -> bool:
        """Whether an answer needs no other source's: a search that finds nothing does. A gateway is left that doesn't know of a block with a transaction."""
        floor = self.floors.get(request.chain, 0)
        if kind_of(request) is Kind.GATEWAY and block_of(answer.fields) < floor:
            raise SourceFailure(f"it is behind block {floor}, which included a transaction")
        return not SEARCH.fullmatch(request.file) or bool(answer.fields.objects("txs"))

    def refuse(self, name: str, words: str) -> None:
        """Notes that there is no answer, so that it isn't asked for again."""
        self.refused[name] = words
        write_whole(self.folder.file(f"{name}.refused"), words.encode())
        self.log.info("refused", request=name, words=words)

    def leave_search(self, file: str) -> None:
        """Leaves a search out whose answer can't be used, in this round: its words may be those of a packet's sender, so its source is only asked last from now on."""
        if source := self.folder.drop(file):
            self.sources.move(source, -1)
        self.refuse(file.removesuffix(".json"), "its answer can't be used")

    # ---- doubts

    def leave_pages(self, request: Request) -> None:
        """Leaves a gateway whose pages of a query don't end; another one is asked from the first page on."""
        self.doubt(Doubt(f"{request.folder}/{request.kind}-{MOST_PAGES}.json", f"more than {MOST_PAGES} pages"))
        self.folder.drop_all(request.folder, f"{request.kind}-*")

    def check(self, chain: str) -> None:
        """Verifies new commits of a chain; what can't be is dropped with its source."""
        for doubt in self.verifier.check(chain) if self.verifier else []:
            self.doubt(doubt)

    def doubt(self, doubt: Doubt) -> None:
        """Drops a file that can't be, with the validators of its height, and leaves its source with the headers that it gave."""
        source = self.folder.drop(doubt.file)
        chain, _, name = doubt.file.partition("/")
        if name.startswith("commit-"):
            self.folder.drop_all(chain, f"validators-{name.removeprefix('commit-').removesuffix('.json')}-*.json")
        if source is not None:
            self.folder.drop_headers_of(source)
            self.sources.fail(source, f"{doubt.file}: {doubt.why}")


def block_of(answer: Fields) -> float:
    """The block at which a gateway gave an answer; of one that doesn't tell it no bound."""
    blocks = (answer.object(key).number("revision_height") for key in ("height", "proof_height"))
    return next((block for block in blocks if block is not None), math.inf)


def kind_of(request: Request) -> Kind:
    return Kind.GATEWAY if request.kind in GATEWAY_QUERIES else Kind.NODE
