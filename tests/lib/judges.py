"""The second planner of tests/reference: `reference`, `explain` and `scripts`, which judge what the program writes."""
import sys

from lib.program import TOP

sys.path.insert(0, str(TOP / "tests" / "reference"))
import explain
import reference
import scripts
