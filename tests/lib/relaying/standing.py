#!/usr/bin/python3
"""Two simulated chains by the system's clock, each with a client of the other that is due for a refresh.

    standing.py            writes the words that `ibcplan-relayer init` takes for them, and serves until its input ends
    standing.py FOLDER     makes FOLDER with these words in the file `init`, the chains' program `simd` and the number of
                           a process in `pid`, which serves until it is ended

`release/try` tries the relayer of a package by the first, docs/TUTORIAL.md has the second."""
import json
import os
import pathlib
import select
import shlex
import sys
import tempfile
import time

TOP = pathlib.Path(__file__).resolve().parents[3]
sys.dont_write_bytecode = True
sys.path[:0] = [str(TOP / "tests")]
from lib.relaying import chains
from lib.relaying.world import PROGRAM, World

BLOCKS = 200


def serve(folder, tell, goes_on):
    """Tells the words for `init`, and makes blocks as long as that is wanted."""
    chains.BEGIN = time.time_ns() - BLOCKS * 6 * 10**9
    with World(folder, "ibcplan", blocks=BLOCKS, period=3_000) as world:
        world.between(("hub-4", "zone-1"))
        tell(" ".join(f"--{'chain' if kind == 'node' else kind} {name}={source.address}" for (name, kind), sources in world.sources.items() for source in sources))
        while goes_on():
            world.clock.advance_to(time.time_ns())


def serve_beside(folder):
    """Leaves a process that serves, and ends when it does."""
    if folder.exists():
        sys.exit(f"{folder} is there already")
    folder.mkdir()
    ends, told = os.pipe()
    if child := os.fork():
        os.close(told)
        (folder / "pid").write_text(f"{child}\n")
        words = open(ends).read()
        (folder / "init").write_text(words)
        sys.exit(0 if words else f"{folder}: the chains don't start")
    for number in 0, 1:
        os.dup2(os.open(os.devnull, os.O_RDWR), number)

    def tell(words):
        program = folder / "simd"
        program.write_text(f'#!/bin/sh\nexec {shlex.join(json.loads(PROGRAM))} "$@"\n')
        program.chmod(0o755)
        os.write(told, words.encode())
        os.close(told)
        os.dup2(0, 2)
    serve(folder / "world", tell, lambda: time.sleep(0.5) or True)


if len(sys.argv) > 1:
    serve_beside(pathlib.Path(sys.argv[1]))
else:
    with tempfile.TemporaryDirectory() as folder:
        serve(pathlib.Path(folder) / "world", lambda words: print(words, flush=True), lambda: not select.select([sys.stdin], [], [], 0.5)[0])
