#!/usr/bin/env python3
"""A relayer's loop over `ibcplan follow`, by Python's standard library alone.

    examples/follow/client.py ./ibcplan examples/follow/setup.toml examples/follow/turns.txt [JOURNAL]

It tells each turn of the file to one process, shows what is to be sent, and tells in a turn of its own that all of it
was taken. A real relayer makes the turns of what it sees, and sends the updates and the messages in between. With a
journal it goes on where an earlier run ended."""
import re
import subprocess
import sys

MARK = "---\n"


class Engine:
    """A process that is told turns, and answers each."""

    def __init__(self, program, setup, journal=None):
        words = [program, "follow", setup, *(["--journal", journal] if journal else [])]
        self.process = subprocess.Popen(words, stdin=subprocess.PIPE, stdout=subprocess.PIPE, text=True)
        self.format = self.process.stdout.readline()  # "ibcplan 1" or "ibcplan 3"
        self.tell("")  # the fault of an empty turn stands behind the answers to the journal's turns
        self.old = list(iter(self.read, ["fault 1002 MissingKey at from"]))

    def answer(self, turn):
        """The lines of the answer to a turn, which the journal may have."""
        if self.old:
            return self.old.pop(0)
        self.tell(turn)
        return self.read()

    def tell(self, turn):
        self.process.stdin.write(turn + MARK)
        self.process.stdin.flush()

    def read(self):
        lines = []
        for line in self.process.stdout:
            if line == MARK:
                return lines
            lines.append(line.rstrip("\n"))
        sys.exit(f"the process ended with status {self.process.wait()}")

    def end(self):
        self.process.stdin.close()
        if self.process.stdout.read() != "end\n" or self.process.wait() != 0:
            sys.exit("the process didn't end as it has to")


def batches_of(lines):
    """The batches that an answer opens: the client, the batch's number, and how many transactions it has."""
    client, batches = None, []
    for words in map(str.split, lines):
        if words[0] == "client":
            client = words[1]
        elif words[0] == "batch":
            batches.append([client, int(words[1]), 0])
        elif words[0] == "tx":
            batches[-1][2] += 1
    return batches


def main(program, setup, turns, journal=None):
    engine = Engine(program, setup, journal)
    for turn in open(turns).read().split(MARK)[:-1]:
        lines = engine.answer(turn)
        print(*lines, sep="\n")
        batches = batches_of(lines)
        if not batches:
            continue
        # here a relayer sends the batches' transactions, and sees how many were taken
        window = "".join(line for line in turn.splitlines(True) if re.match("(from|until) ", line))
        taken = ", ".join(f'{{ client = "{client}", batch = {batch}, done = {count} }}' for client, batch, count in batches)
        print(*(line for line in engine.answer(f"{window}settle = [{taken}]\n") if line.startswith("settled")), sep="\n")
    engine.end()


main(*sys.argv[1:])
