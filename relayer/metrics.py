"""Metrics for Prometheus, at /metrics of a port on loopback."""
import http.server
import json
import threading

HELP = {
    "ibcplan_client_expires_timestamp_seconds": "When a client expires if it isn't updated.",
    "ibcplan_client_next_timestamp_seconds": "When something is due for a client next.",
    "ibcplan_path_pending_packets": "Packets of a path that wait.",
    "ibcplan_relayer_packets_total": "Messages on packets of a path that were included.",
    "ibcplan_relayer_failures": "Clients and packets that wait after transactions that failed.",
    "ibcplan_relayer_updates_total": "Updates of a client that were included.",
    "ibcplan_relayer_fees_total": "Fees of these updates by the plans, in the unit of the configuration.",
    "ibcplan_relayer_transactions_total": "Transactions to a host by what became of them.",
    "ibcplan_relayer_clients": "Clients by what the last round came to for them.",
    "ibcplan_relayer_requests_total": "Requests to a source.",
    "ibcplan_relayer_source_failures": "Failures of a source in a row.",
    "ibcplan_relayer_chain_height": "The latest height of a chain by its nodes.",
    "ibcplan_relayer_rounds_total": "Rounds that were made.",
    "ibcplan_relayer_round_seconds": "Seconds of the last round.",
    "ibcplan_relayer_open_transactions": "Transactions whose inclusion is open.",
}


class Metrics:
    """Values by name and labels."""

    def __init__(self) -> None:
        self.values: dict[str, dict[str, float]] = {}
        self.lock = threading.Lock()

    def put(self, name: str, value: float, **labels: str) -> None:
        with self.lock:
            self.values.setdefault(name, {})[text_of(labels)] = value

    def add(self, name: str, value: float, **labels: str) -> None:
        with self.lock:
            of_name = self.values.setdefault(name, {})
            of_name[text_of(labels)] = of_name.get(text_of(labels), 0) + value

    def forget(self, name: str) -> None:
        with self.lock:
            self.values.pop(name, None)

    def text(self) -> str:
        """The text that Prometheus reads."""
        with self.lock:
            lines = []
            for name, values in sorted(self.values.items()):
                lines += [f"# HELP {name} {HELP[name]}", f"# TYPE {name} {'counter' if name.endswith('_total') else 'gauge'}"]
                lines += [f"{name}{labels} {value:.15g}" for labels, value in values.items()]
        return "".join(f"{line}\n" for line in lines)


def text_of(labels: dict[str, str]) -> str:
    """Labels as Prometheus has them: their values are the configuration's words, and escaped as in JSON."""
    return "{%s}" % ",".join(f"{key}={json.dumps(value)}" for key, value in labels.items()) if labels else ""


def serve(metrics: Metrics, port: int) -> http.server.ThreadingHTTPServer:
    """A server of metrics on loopback, which answers in a thread of its own; port 0 takes any that is free."""
    class Handler(http.server.BaseHTTPRequestHandler):
        timeout = 10

        def do_GET(self) -> None:
            body = metrics.text().encode() if self.path == "/metrics" else b""
            self.send_response(200 if self.path == "/metrics" else 404)
            self.send_header("Content-Type", "text/plain; version=0.0.4")
            self.send_header("Content-Length", str(len(body)))
            self.end_headers()
            self.wfile.write(body)

        def log_message(self, *_: object) -> None:
            pass

    server = http.server.ThreadingHTTPServer(("127.0.0.1", port), Handler)
    threading.Thread(target=server.serve_forever, daemon=True).start()
    return server
