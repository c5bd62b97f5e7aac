"""Runs of `health` on the rows and the examples, for tests/run; what it writes is made here by the second
planner (tests/reference)."""
from lib.judges import explain, reference
from lib.outputs import expiries, stored_texts
from lib.program import Case

HEAD = """# HELP ibcplan_client_expires_timestamp_seconds When the newest consensus state that the client has stored expires, in seconds since 1970.
# TYPE ibcplan_client_expires_timestamp_seconds gauge
"""


def lines_of(text):
    """The lines that `health` writes."""
    lines = []
    for client, expiry in expiries(text):
        if not expiry:
            lines.append(f"client {client.id} nothing stored\n")
            continue
        height, expires, end = expiry
        beside = f"{explain.length(expires - end)} after the window" if expires > end else f"{explain.length(end - expires)} before the window's end"
        kind = "live, expires" if expires > end else "expired, at"
        lines.append(f"client {client.id} {kind} {reference.stamp(expires)}, {beside}, height {height}\n")
    return "".join(lines)


def metrics_of(text):
    """The metrics that `health --prometheus` writes."""
    return HEAD + "".join(f'ibcplan_client_expires_timestamp_seconds{{client="{client.id}",chain="{client.of}",host="{client.host}"}} {expiry[1] // 10**9}\n'
                          for client, expiry in expiries(text) if expiry)


def health_cases():
    """The runs of `health` on scripts that have a report, and on a script with a fault."""
    for script, report in stored_texts():
        what = " ".join(report.split()[:9])
        yield Case(f"health of {what}", ["health", "-"], script.encode(), lines_of(script).encode(), b"", 0)
        yield Case(f"metrics of {what}", ["health", "--prometheus", "-"], script.encode(), metrics_of(script).encode(), b"", 0)
    yield Case("a fault of health", ["health", "-"], b"version =", b"", b"fault 1001 NotToml at -\n", 1)
    yield Case("health without turns", ["health", "-"], b"version = 1\n", b"", b"", 0)
    yield Case("metrics without clients", ["health", "--prometheus", "-"], b"version = 1\n", HEAD.encode(), b"", 0)
