#!/usr/bin/env python3
"""Tries the library by ctypes: plans, verdicts, faults and followers, from several threads, while memory, descriptors and threads stay.

    clients/c/try.py LIBRARY
"""
import ctypes
import json
import os
import pathlib
import sys
import tempfile
import threading

EXAMPLES = pathlib.Path(__file__).resolve().parent.parent.parent / "examples"
DONE, REFUSED, MISUSED, NO = 0, 1, 2, 3
JSON = 1


class Text(ctypes.Structure):
    _fields_ = [("at", ctypes.POINTER(ctypes.c_char)), ("len", ctypes.c_size_t)]


class Library:
    def __init__(self, path: str) -> None:
        self.library = ctypes.CDLL(path)
        assert self.library.ibcplan_abi() == 1

    def call(self, name: str, *words: object) -> tuple[int, str, str]:
        """The status of a call, and its two texts."""
        texts, passed = (Text(), Text()), []
        for word in words:
            passed += [word, ctypes.c_size_t(len(word))] if isinstance(word, bytes) else [word]
        status = getattr(self.library, name)(*passed, *map(ctypes.byref, texts))
        return int(status), *map(self.taken, texts)

    def taken(self, text: Text) -> str:
        taken = ctypes.string_at(text.at, text.len).decode() if text.at else ""
        self.library.ibcplan_free(ctypes.byref(text))
        return taken

    def plan(self, script: bytes, workers: int = 0) -> tuple[int, str]:
        return self.call("ibcplan_plan", script, ctypes.c_uint32(JSON), ctypes.c_uint32(workers))[:2]

    def certify(self, script: bytes, certificate: bytes) -> tuple[int, str]:
        return self.call("ibcplan_certify", script, certificate, ctypes.c_uint32(JSON))[:2]

    def follow(self, setup: bytes, turns: list[bytes], journal: bytes | None = None) -> tuple[list[str], list[str]]:
        """The first lines of a follower, and its answers."""
        follower = ctypes.c_void_p()
        status, past, said = self.call("ibcplan_follow", setup, ctypes.c_uint32(JSON), ctypes.c_uint32(0), journal if journal is None else ctypes.c_char_p(journal), ctypes.byref(follower))
        assert status == DONE, said
        answers = [self.call("ibcplan_answer", follower, turn) for turn in turns]
        self.library.ibcplan_close(follower)
        assert all(status == DONE for status, _, _ in answers), answers
        return past.splitlines(), [answer for _, answer, _ in answers]


def read(name: str) -> bytes:
    return (EXAMPLES / name).read_bytes()


def try_plans(library: Library) -> None:
    script, certificate = read("smallest.toml"), read("smallest.certificate")
    status, report = library.plan(script)
    assert (status, json.loads(report)["turns"][0]["clients"][0]["total"]) == (DONE, {"fee": 103, "updates": 1}), report
    assert library.plan(script, 4) == (DONE, report)
    assert library.plan(b"version = 9") == (REFUSED, '{"fault": 1005, "name": "BadVersion", "path": "version"}\n'), library.plan(b"version = 9")
    assert library.certify(script, certificate) == (DONE, '{"verdict": "yes"}\n')
    status, verdict = library.certify(script, certificate.replace(b"[2, 103, 1]", b"[2, 104, 1]"))
    assert (status, json.loads(verdict)["verdict"]) == (NO, "no"), verdict
    assert library.certify(script + b"\n---\n", certificate)[0] == MISUSED


def try_followers(library: Library, folder: str) -> None:
    setup, turns = read("follow/setup.toml"), read("follow/turns.txt").split(b"---\n")[:-1]
    first, answers = library.follow(setup, turns)
    assert json.loads(first[0])["program"].startswith("ibcplan "), first
    assert [json.loads(answer)["turn"] for answer in answers] == [*range(1, len(turns) + 1)], answers
    faults = library.follow(setup, [b"from =", *turns, b""])[1]
    assert [json.loads(fault)["name"] for fault in (faults[0], faults[-1])] == ["NotToml", "MissingKey"] and faults[1:-1] == answers
    journal = os.path.join(folder, str(threading.get_ident())).encode()
    assert library.follow(setup, turns[:2], journal)[1] == answers[:2]
    past, later = library.follow(setup, turns[2:], journal)
    assert [f"{line}\n" for line in past[1:]] == answers[:2] and later == answers[2:]
    os.remove(journal)


def held() -> tuple[int, int, int]:
    """Megabytes, descriptors and threads of this process."""
    status = dict(line.split(":", 1) for line in pathlib.Path("/proc/self/status").read_text().splitlines())
    return int(status["VmRSS"].split()[0]) // 1024, len(os.listdir("/proc/self/fd")), int(status["Threads"])


def main(path: str) -> None:
    library, wrong = Library(path), []

    def try_all(count: int, folder: str) -> None:
        try:
            for _ in range(count):
                try_plans(library)
                try_followers(library, folder)
        except Exception as error:  # of a thread, which nobody else would see
            wrong.append(error)

    with tempfile.TemporaryDirectory() as folder:
        for count in 3, 20:
            threads = [threading.Thread(target=try_all, args=(count, folder)) for _ in range(8)]
            for thread in threads:
                thread.start()
            for thread in threads:
                thread.join()
            print(f"{8 * count} rounds on 8 threads: %d MB, %d descriptors, %d threads" % held())
    sys.exit("\n".join(map(repr, wrong)) if wrong else None)


main(sys.argv[1])
