"""The system's clock. Tests put another in its place."""
import threading
import time


class Clock:
    """Tells the time, and waits."""

    def now(self) -> int:
        """Nanoseconds since 1970."""
        return time.time_ns()

    def seconds(self) -> float:
        """Seconds since some moment, whatever happens to the system's time."""
        return time.monotonic()

    def wait(self, stop: threading.Event, seconds: float) -> bool:
        """Waits, until an event at the longest; whether that has come."""
        return stop.wait(seconds)
