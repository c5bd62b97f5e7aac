"""The time of a world: it passes while everybody waits, and stands while somebody works. So no test depends on how fast its machine is."""
import os
import struct
import threading
import urllib.request

from relayer.clock import Clock


class SimulatedClock(Clock):
    """A clock for a relayer's main thread and its threads that send. Time goes on to the first moment that one of them waits for, once all wait."""

    def __init__(self):
        self.condition, self.sleepers = threading.Condition(), []

    def seconds(self):
        return self.now() / 10**9

    def wait(self, stop, seconds):
        with self.condition:
            sleeper = (self.now() + int(seconds * 10**9), stop)
            self.sleepers.append(sleeper)
            while self.now() < sleeper[0] and not stop.is_set():
                waiting = [until for until, event in self.sleepers if self.now() < until and not event.is_set()]
                if len(waiting) > sum(thread.name.startswith("send ") for thread in threading.enumerate()):
                    self.advance_to(min(waiting))
                    self.condition.notify_all()
                else:
                    self.condition.wait(0.02)
            self.sleepers.remove(sleeper)
        return stop.is_set()


class WorldClock(SimulatedClock):
    """The world's own clock, by which its chains make their blocks. A file has the time for other processes."""

    def __init__(self, file, begin, chains):
        super().__init__()
        self.file, self.nanos, self.chains, self.lock = os.open(file, os.O_RDWR | os.O_CREAT), begin, chains, threading.RLock()
        self.advance_to(begin)

    def now(self):
        return self.nanos

    def advance_to(self, nanos):
        with self.lock:
            self.nanos = max(self.nanos, nanos)
            for chain in self.chains:
                chain.produce_until(self.nanos)
            os.pwrite(self.file, struct.pack("<Q", self.nanos), 0)

    def advance(self, seconds):
        self.advance_to(self.nanos + int(seconds * 10**9))


class RemoteClock(SimulatedClock):
    """The clock of a world in another process: its file, and the address of one of its nodes."""

    def __init__(self, file, address):
        super().__init__()
        self.file, self.address = os.open(file, os.O_RDONLY), address

    def now(self):
        return struct.unpack("<Q", os.pread(self.file, 8, 0))[0]

    def advance_to(self, nanos):
        with urllib.request.urlopen(f"{self.address}/advance?to={nanos}", timeout=600) as answer:
            answer.read()
