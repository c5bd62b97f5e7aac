"""Signatures of commits, verified by the code of tools/verify_commits, each once; the verdicts stand in the folder for `import --verified`."""
import contextlib
import dataclasses
import hashlib
import importlib.machinery
import importlib.util
import pathlib
import sys
import types
import typing

from relayer.answers import AnswerFolder, write_whole
from relayer.values import fields_in
from relayer.words import Fault, Log, shown

TOOLS = pathlib.Path(__file__).resolve().parent.parent / "tools"
Row = dict[str, object]  # a verdict
Sets = tuple[dict[bytes, typing.Any], set[int]]  # validators by their hash, and the heights of which all pages are there


@dataclasses.dataclass(frozen=True)
class Doubt:
    """A file whose content can't be what the chain says, with the reason."""

    file: str
    why: str


class Verifier:
    """The verdicts on the commits in a folder of answers."""

    def __init__(self, folder: AnswerFolder, log: Log) -> None:
        self.folder, self.tool = folder, loaded_tool()
        self.commits = self.tool.signed_commits
        self.tool.tell = lambda line: log.warn("signatures", what=shown(line))
        self.rows: dict[str, dict[str, Row]] = {}  # of chains: by the digest of the commit's answer

    def check(self, chain: str) -> list[Doubt]:
        """Verifies the commits of a chain that weren't verified before, writes the verdicts, and returns what to doubt."""
        place = self.folder.file(chain)
        before = self.rows.get(chain) or verdicts_in(place / self.tool.NAME)
        found: dict[str, Row] = {}
        doubts: list[Doubt] = []
        sets: Sets | None = None
        for file in sorted(place.glob("commit-*.json"), key=height_of):
            body = file.read_bytes()
            digest = hashlib.sha256(body).hexdigest()
            row = before.get(digest)
            if row is None or row["answer"] != file.name:
                sets = sets or self.sets_in(place)
                row, why = self.judge(chain, file, body, digest, sets)
                doubts += [Doubt(f"{chain}/{file.name}", why)] if why else []
            if row is not None:
                found[digest] = row
        if found != self.rows.get(chain):
            self.rows[chain] = found
            write_whole(place / self.tool.NAME, self.tool.text_of(chain, list(found.values())).encode())
        return doubts

    def sets_in(self, place: pathlib.Path) -> Sets:
        """The validator sets of a chain's folder."""
        pages: list[typing.Any] = []
        for file in place.glob("validators-*.json"):
            with contextlib.suppress(self.commits.Flaw):
                answer = self.commits.parse(file.read_bytes())
                pages += [self.commits.read_page(answer)] if answer is not None else []
        return self.commits.sets_by_hash(pages), {page.height for page in pages}

    def judge(self, chain: str, file: pathlib.Path, body: bytes, digest: str, sets: Sets) -> tuple[Row | None, str]:
        """The verdict on a commit, if its set is there and it is good, and why to doubt it, if there is a reason."""
        by_hash, heights = sets
        try:
            answer = self.commits.parse(body)
            if answer is None or "signed_header" not in answer:
                return None, "it is no commit"
            commit = self.commits.read_commit(answer)
            if commit.height != height_of(file):
                return None, "it is of another height"
            if commit.chain_id == chain and commit.set_hash not in by_hash:
                return None, "its validators have another hash" if commit.height in heights else ""
            tally = self.tool.Tally()
            validators = self.tool.set_of(commit, types.SimpleNamespace(name=chain), by_hash, [])
            row: Row = self.tool.judge_commit(self.tool.Found(file, digest, commit), validators, tally)
        except self.commits.Flaw as flaw:
            return None, str(flaw)
        return (None, "its signatures aren't good") if tally.bad or tally.too_few_good else (row, "")


def height_of(file: pathlib.Path) -> int:
    return int(file.stem.removeprefix("commit-"))


def verdicts_in(file: pathlib.Path) -> dict[str, Row]:
    """The verdicts that this relayer wrote before, by the digest of the answer."""
    rows = fields_in(file.read_bytes()).object("verdicts").objects("commits") if file.exists() else []
    return {row.text("sha256") or "": row.value for row in rows if row.text("answer")}


def loaded_tool() -> typing.Any:
    """The module of tools/verify_commits."""
    sys.path.append(str(TOOLS))
    loader = importlib.machinery.SourceFileLoader("verify_commits", str(TOOLS / "verify_commits"))
    spec = importlib.util.spec_from_loader("verify_commits", loader)
    assert spec is not None
    module = importlib.util.module_from_spec(spec)
    sys.modules["verify_commits"] = module
    try:
        if importlib.util.find_spec("cryptography") is None:  # without it the tool would end the process
            raise ImportError("there is no cryptography")
        loader.exec_module(module)
    except (ImportError, OSError) as error:
        raise Fault(f"signatures can't be verified: {shown(error)}; install Debian's python3-cryptography, or write verify = false into the configuration", 4) from None
    return module
