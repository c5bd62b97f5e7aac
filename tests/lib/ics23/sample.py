"""The cases that `rt ci` gives to crates/test_base, with the answers that it wants."""
import pathlib

CRATE = pathlib.Path(__file__).resolve().parents[3] / "crates" / "test_base"


def write_sample(cases: list[tuple[str, str]]) -> None:
    """These cases take the place of those that begin with the same words; others stay."""
    kinds = {line.partition(" ")[0] for line, _ in cases}
    there = zip((CRATE / "stdin").read_text().splitlines(), (CRATE / "stdout").read_text().splitlines())
    cases = [(line, answer) for line, answer in there if line.partition(" ")[0] not in kinds] + cases
    (CRATE / "stdin").write_text("".join(f"{line}\n" for line, _ in cases))
    (CRATE / "stdout").write_text("".join(f"{answer}\n" for _, answer in cases))
