"""A source: a node or a gateway at an address, asked over HTTP within bounds of time, bytes and connections."""
import contextlib
import dataclasses
import enum
import http.client
import json
import socket
import ssl
import threading
import time
import urllib.parse

from relayer.clock import Clock
from relayer.values import Fields, unwrapped
from relayer.words import shown

CONNECTIONS = 8  # at once, to a source
ANSWER_BYTES = 16_777_216  # the most that `ibcplan import` reads
ROUND_REQUESTS, ROUND_BYTES = 2_000, 268_435_456  # the most that a source may cost in a round
FIRST_PAUSE, LONGEST_PAUSE = 5.0, 900.0  # seconds
BUSY = {408, 425, 429, 500, 502, 503, 504}  # of these 500 only where the answer isn't JSON


class Kind(enum.Enum):
    """What a source is asked about: blocks and transactions (CometBFT), or the chain's state (ibc-go)."""

    NODE = "node"
    GATEWAY = "gateway"


class SourceFailure(Exception):
    """Why a source is of no use for a while; `may_pass` tells of one that is worth another try at once."""

    def __init__(self, text: str, may_pass: bool = False) -> None:
        super().__init__(text)
        self.may_pass = may_pass


class Refused(Exception):
    """The words with which a source refuses one request, as for a height that it lacks."""


@dataclasses.dataclass(frozen=True)
class Answer:
    """The bytes of an answer, its object without the envelope of CometBFT, and where it is from."""

    body: bytes
    fields: Fields
    source: "Source"


def pause_after(failures: int) -> float:
    """For how many seconds something waits that failed so often in a row."""
    return float(min(FIRST_PAUSE * 2 ** min(failures - 1, 30), LONGEST_PAUSE))


class Source:
    """A node or a gateway of a chain. It is left alone for a while after a failure, longer after each further one."""

    def __init__(self, chain: str, kind: Kind, address: str, seconds: float, clock: Clock) -> None:
        self.chain, self.kind, self.address, self.seconds, self.clock = chain, kind, address, seconds, clock
        self.failures, self.paused_until, self.has_failed = 0, 0.0, False
        self.requests, self.round_requests, self.round_bytes = 0, 0, 0
        self.lock, self.open = threading.Lock(), threading.Semaphore(CONNECTIONS)
        self.idle: list[http.client.HTTPConnection] = []
        self.parts = urllib.parse.urlsplit(address)

    def begin_round(self) -> None:
        """Counts anew; after a round that it did well in, its pauses begin anew, too."""
        if self.round_requests and not self.has_failed:
            self.failures = 0
        self.round_requests, self.round_bytes, self.has_failed = 0, 0, False

    def is_usable(self) -> bool:
        return self.clock.seconds() >= self.paused_until

    def fail(self) -> None:
        """Leaves the source alone for a while."""
        with self.lock:
            self.failures += 1
            self.paused_until, self.has_failed = self.clock.seconds() + pause_after(self.failures), True

    # ---- one request

    def ask(self, path: str) -> Answer:
        """The answer to a path: a JSON object without an error."""
        with self.lock:
            self.requests += 1
            self.round_requests += 1
            if self.round_requests > ROUND_REQUESTS or self.round_bytes > ROUND_BYTES:
                raise SourceFailure("it has cost as much as a round may")
        with self.open:
            status, body = self.exchange(path)
        with self.lock:
            self.round_bytes += len(body)
        return Answer(body, judged(status, body), self)

    def exchange(self, path: str) -> tuple[int, bytes]:
        """The status and the body of the answer. A connection that the source has closed meanwhile is opened anew, once."""
        try:
            with self.lock:
                connection = self.idle.pop() if self.idle else None
            if connection is not None:
                with contextlib.suppress(ConnectionError, http.client.BadStatusLine, http.client.CannotSendRequest):
                    return self.exchange_over(connection, path)
            make: type[http.client.HTTPConnection] = http.client.HTTPSConnection if self.parts.scheme == "https" else http.client.HTTPConnection
            connection = make(self.parts.hostname or "", self.parts.port, timeout=self.seconds)
            connection.connect()
            return self.exchange_over(connection, path)
        except (OSError, http.client.HTTPException, ValueError) as error:
            raise SourceFailure(why_of(error), may_pass=True) from None

    def exchange_over(self, connection: http.client.HTTPConnection, path: str) -> tuple[int, bytes]:
        """The answer over a connection, which is cut at the end of its time, wherever the answer is then."""
        end = time.monotonic() + self.seconds
        cut = threading.Timer(self.seconds, cut_off, (connection.sock,))
        cut.daemon = True
        cut.start()
        is_kept = False
        try:
            connection.request("GET", self.parts.path.rstrip("/") + path, headers={"Accept": "application/json", "Accept-Encoding": "identity"})
            response = connection.getresponse()
            body = response.read(ANSWER_BYTES + 1)
            is_kept = response.isclosed() and not response.will_close and time.monotonic() < end
        finally:
            cut.cancel()
            if is_kept:
                self.idle.append(connection)
            else:
                connection.close()
            if time.monotonic() >= end:
                raise SourceFailure(f"no whole answer within {self.seconds:g} s")
        if len(body) > ANSWER_BYTES:
            raise SourceFailure(f"an answer of more than {ANSWER_BYTES:,} bytes")
        return response.status, body

    def close(self) -> None:
        for connection in self.idle:
            connection.close()


def cut_off(sock: socket.socket) -> None:
    with contextlib.suppress(OSError):
        sock.shutdown(socket.SHUT_RDWR)


def why_of(error: Exception) -> str:
    """The reason of a failure, in words of this system alone."""
    if isinstance(error, ssl.SSLError):
        return f"TLS: {shown(error.reason or error.__class__.__name__, 80)}"
    if isinstance(error, TimeoutError):
        return "no answer in time"
    return shown(error.strerror, 80) if isinstance(error, OSError) and error.strerror else error.__class__.__name__


def judged(status: int, body: bytes) -> Fields:
    """The object of an answer. It tells an error on one request from a source that is of no use."""
    if 300 <= status < 400:
        raise SourceFailure(f"a redirect, status {status}")
    try:
        value = json.loads(body)
    except (ValueError, RecursionError):
        value = None
    is_object = isinstance(value, dict)
    if status in BUSY and (status != 500 or not is_object):
        raise SourceFailure(f"status {status}", may_pass=True)
    if not is_object:
        raise SourceFailure(f"no JSON object, status {status}")
    fields = Fields(value)
    if status != 200 or not {"error", "message"}.isdisjoint(key for key, item in value.items() if item is not None):
        error = fields.object("error")
        said = error.text("message"), error.text("data"), fields.text("error"), fields.text("message")
        raise Refused(shown(": ".join(filter(None, said)) or f"status {status}", 200))
    return unwrapped(value)
