"""Starts the relayer by the time of a world in another process."""
import os
import pathlib
import sys

sys.dont_write_bytecode = True
TOP = pathlib.Path(__file__).resolve().parents[3]
sys.path[:0] = [str(TOP), str(TOP / "clients" / "python"), str(TOP / "tests")]
from relayer.main import main
from lib.relaying.clock import RemoteClock

sys.exit(main(RemoteClock(os.environ["WORLD_TIME"], os.environ["WORLD_ADDRESS"])))
