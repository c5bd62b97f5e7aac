"""The module over the project's examples: `python3 -m unittest` in this folder, where IBCPLAN names the program."""
import os
import pathlib
import tempfile
import threading
import time
import tomllib
import unittest

import ibcplan
from ibcplan import Failed, Fault, Follower, Misused, Planner, Turn

EXAMPLES = pathlib.Path(__file__).resolve().parents[2] / "examples"
PROGRAM = os.environ.get("IBCPLAN", "")
SETUP = (EXAMPLES / "follow" / "setup.toml").read_text()
TURNS = (EXAMPLES / "follow" / "turns.txt").read_text().split("---\n")[:-1]
WINDOW: ibcplan.Script = {"from": "2025-03-01T12:00:00Z", "until": "2025-03-01T12:00:00Z"}


def example(name: str) -> str:
    return (EXAMPLES / f"{name}.toml").read_text()


class Texts(unittest.TestCase):
    def test_trees_are_written(self) -> None:
        self.assertEqual(ibcplan.text_of({"a": [1, True], "b": {"c d": "x"}, "e": [["k", 5]]}), '"a" = [1, true]\n"b" = {"c d" = "x"}\n"e" = [["k", 5]]\n')
        value: ibcplan.Script = {"text": "\"\\\n\x00\x1f\x7fé😀\u2028", "more": [{"": -(2**63)}, []]}
        self.assertEqual(tomllib.loads(ibcplan.text_of(value)), value)
        for script in sorted(EXAMPLES.glob("*.toml")):
            tree = tomllib.loads(script.read_text())
            self.assertEqual(tomllib.loads(ibcplan.text_of(tree)), tree)
        self.assertRaises(TypeError, ibcplan.text_of, {"a": 1.5})
        self.assertRaises(TypeError, ibcplan.text_of, {"a": None})

    def test_events_of_faults(self) -> None:
        events = [Fault(1033, "Forgotten", path).event() for path in ("event[3]", "event[12].height", "event", "goal[1]", "-", "event[x]")]
        self.assertEqual(events, [3, 12, None, None, None, None])


@unittest.skipUnless(PROGRAM, "IBCPLAN names no program")
class Runs(unittest.TestCase):
    def setUp(self) -> None:
        self.planner = Planner(PROGRAM)
        self.folder = tempfile.TemporaryDirectory()
        self.addCleanup(self.folder.cleanup)
        self.journal = os.path.join(self.folder.name, "journal")

    def follow(self, setup: ibcplan.Script, journal: str | None = None, workers: int = 0) -> Follower:
        follower = self.planner.follow(setup, journal, workers)
        self.addCleanup(follower.close)
        return follower

    def fault(self, number: int, path: str) -> "FaultCheck":
        return FaultCheck(self, number, path)

    def test_scripts_are_planned(self) -> None:
        report = self.planner.plan(example("two_clients"))
        self.assertEqual((report["ibcplan"], len(report["turns"])), (1, 4))
        self.assertEqual(report, self.planner.plan(tomllib.loads(example("two_clients")), workers=3))
        client = self.planner.plan(example("packets"))["turns"][0]["clients"][0]
        assert client["outcome"] == "plan"
        self.assertEqual((client["goal"], client["total"]["fee"], client["messages"][0]["kind"]), ({"at_least": 105}, 109, "recv"))
        for script in sorted(EXAMPLES.glob("*.toml")):
            self.planner.plan(tomllib.loads(script.read_text()))
            self.assertIn("turns", self.planner.explain(script.read_text()))
        self.assertTrue(self.planner.version().startswith("ibcplan "))

    def test_faults_have_types(self) -> None:
        with self.fault(1005, "version"):
            self.planner.plan("version = 9")
        with self.fault(1007, "chain[0].id"):
            self.planner.plan({"version": 3, "chain": [{"id": "a b"}]})
        with self.fault(1005, "version"):
            self.planner.follow("version = 9")
        self.assertRaises(Misused, self.planner.plan, "version = 1", workers=65)
        self.assertRaises(Misused, self.planner.follow, "version = 1", "/dev/null")
        self.assertRaises(Failed, self.planner.follow, "version = 1", "/no/such/journal")
        self.assertRaises(FileNotFoundError, Planner("/no/such/program").follow, "version = 1")

    def test_certificates_are_judged(self) -> None:
        script, certificate = example("smallest"), (EXAMPLES / "smallest.certificate").read_text()
        self.assertIsNone(self.planner.certify(script, certificate))
        wrong: ibcplan.Script = {"version": 1, "turn": 1, "client": "zone-on-hub", "answer": "plan", "updates": [[2, 1]], "labels": [[1, 1, 0], [2, 103, 1]]}
        self.assertEqual(self.planner.certify(script, wrong), "601 SourceLabel 1")
        with self.fault(1005, "version"):
            self.planner.certify(script, "version = 2")

    def answers(self, follower: Follower) -> list[Turn]:
        """What a follower answers to the turns of an example, with faults between them."""
        found = []
        for turn in TURNS:
            with self.fault(1004, "from"):
                follower.answer({"from": 3})
            self.assertRaises(Misused, follower.answer, "# a\r\n---\r\n")
            self.assertRaises(UnicodeEncodeError, follower.answer, {"from": "\ud800"})
            found.append(follower.answer(turn))
        return found

    def test_turns_are_answered_as_they_come(self) -> None:
        follower = self.follow(SETUP)
        whole = self.answers(follower)
        self.assertEqual((len(whole), follower.turns), (4, 4))
        self.assertEqual(ibcplan.settlements_of(whole[0]), [{"client": "hub-on-zone", "batch": 1, "done": 2}, {"client": "zone-on-hub", "batch": 1, "done": 1}])
        self.assertEqual(self.answers(self.follow(tomllib.loads(SETUP), workers=2)), whole)
        follower.kill()
        self.assertRaises(Failed, follower.answer, "")
        self.assertRaises(Failed, follower.answer, "")
        self.assertRaises(Misused, follower.restart)
        follower.close()
        self.assertRaises(Failed, follower.answer, "")

    def test_many_faults_dont_stop_a_follower(self) -> None:
        follower = self.follow("version = 3")
        for _ in range(2000):
            with self.fault(1001, "-"):
                follower.answer("no turn")
        self.assertLessEqual(len(follower.said()), ibcplan.MOST_SAID)

    def test_journals_are_gone_on_with(self) -> None:
        follower = self.follow(SETUP, self.journal)
        whole = self.answers(follower)
        with self.assertRaisesRegex(Misused, "another process"):
            self.planner.follow(SETUP, self.journal)
        self.assertIsNone(follower.restart())
        self.assertEqual(follower.turns, 4)
        follower.close()
        later = self.follow(SETUP, self.journal)
        self.assertEqual((later.past, later.turns), (whole, 4))
        later.close()
        with self.assertRaisesRegex(Misused, "another setup"):
            self.planner.follow("version = 1", self.journal)

    def test_a_turn_that_the_journal_has_is_not_told_again(self) -> None:
        follower = self.follow(SETUP, self.journal)
        size = os.path.getsize(self.journal)
        assert follower.process.stdin
        follower.process.stdin.write(ibcplan.document_of(TURNS[0]).encode())
        follower.process.stdin.flush()
        while os.path.getsize(self.journal) == size:
            time.sleep(0.001)
        follower.kill()  # before its answer was read
        self.assertEqual(follower.restart(), self.follow(SETUP).answer(TURNS[0]))
        self.assertEqual(follower.turns, 1)

    def test_killed_followers_lose_and_double_no_turn(self) -> None:
        follower = self.follow("version = 3", self.journal)
        for number in range(20):
            killer = threading.Timer(number * 137e-6, follower.process.kill)
            killer.start()
            for _ in range(40):
                follower.answer_or_restart(WINDOW)
            killer.join()
        follower.answer_or_restart(WINDOW)
        self.assertEqual(follower.turns, 801)
        follower.close()
        self.assertEqual(pathlib.Path(self.journal).read_text().count("[[turn]]"), 801)
        self.assertEqual(len(self.follow("version = 3", self.journal).past), 801)

    def test_labels_can_be_left_out(self) -> None:
        whole, bare = self.answers(self.follow(SETUP)), self.answers(self.planner.follow(SETUP, labels=False))
        for client in (client for turn in whole for client in turn["clients"]):
            if client["outcome"] == "plan":
                self.assertTrue(client["labels"])
                client["labels"] = []
        self.assertEqual(bare, whole)

    def test_later_formats_are_refused(self) -> None:
        with self.assertRaisesRegex(Misused, "format 5"):
            Planner(str(EXAMPLES.parent / "clients" / "later.sh")).follow(SETUP)


class FaultCheck:
    """A block that has to end with a fault of this number at this path."""

    def __init__(self, test: unittest.TestCase, number: int, path: str) -> None:
        self.test, self.wanted = test, (number, path)

    def __enter__(self) -> None:
        pass

    def __exit__(self, kind: object, error: object, _: object) -> bool:
        self.test.assertIsInstance(error, Fault)
        assert isinstance(error, Fault)
        self.test.assertEqual((error.number, error.path), self.wanted)
        return True


if __name__ == "__main__":
    unittest.main()
