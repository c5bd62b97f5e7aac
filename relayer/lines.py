"""What a round came to, as data and as lines for people."""
import dataclasses

from relayer.rounds import Outcome, Report
from relayer.send import told_of
from relayer.state import Failure
from relayer.values import stamp_of
from relayer.words import shown


KINDS = {"recv": "receives", "ack": "acknowledgements", "timeout": "timeouts"}


def report_value(report: Report) -> dict[str, object]:
    """A round as data."""
    return {"seconds": round(report.seconds, 3), "requests": report.requests, "calls": report.calls,
            "chains": {name: {"height": standing.height, "time": stamp_of(standing.nanos)} for name, standing in report.standings.items()},
            "clients": [outcome_value(outcome) for outcome in report.clients]}


def outcome_value(outcome: Outcome) -> dict[str, object]:
    """What a round came to for a client, as data; also a line of the log."""
    value: dict[str, object] = {"client": outcome.client.name, "host": outcome.client.host, "of": outcome.client.of, "outcome": outcome.word}
    if (plan := outcome.plan) is not None:
        value |= {"fee": plan.fee, "updates": plan.updates, "packets": [*map(str, plan.packets)]}
        value |= {key: stamp_of(nanos) for key, nanos in (("next", plan.next), ("expires", plan.expires)) if nanos is not None}
    if outcome.sent:
        value["sent"] = [told_of(sent.transaction) | {"ending": sent.ending.value, "words": shown(sent.words), "gas_used": sent.gas_used} for sent in outcome.sent]
    if outcome.why:
        value["why"] = shown(outcome.why)
    return value


def outcome_line(outcome: Outcome) -> str:
    """A line for a client: what was sent or is due, its fee, what waits until when, and why nothing goes."""
    parts, plan = [f"{outcome.client.name}: {outcome.word}"], outcome.plan
    if plan is not None and plan.updates:
        steps = " ".join(f"{update['trusted']}->{update['height']}" for update in plan.updates[:8])
        parts.append(f"updates {steps}{' ..' if len(plan.updates) > 8 else ''}, fee {plan.fee}")
        parts += ["one is over the gas limit, so that none goes"] if plan.is_too_big else []
    if plan is not None:
        counts = {kind: sum(packet.kind == kind for packet in plan.packets) for kind in ("recv", "ack", "timeout")}
        parts += [f"{KINDS[kind]} {count}" for kind, count in counts.items() if count]
    if plan is not None and plan.next is not None:
        parts.append(f"nothing more is due until {stamp_of(plan.next)}")
    if plan is not None and plan.expires is not None:
        parts.append(f"{'expires' if plan.is_live else 'expired'} {stamp_of(plan.expires)}")
    for sent in outcome.sent:
        transaction = sent.transaction
        what = " ".join([*(f"to {height}" for height in transaction.heights), *(f"with {len(transaction.packets)} packet messages" for _ in transaction.packets[:1])])
        parts.append(f"transaction {transaction.hash or '-'} {what} {sent.ending.value}{f' ({sent.words})' if sent.words else ''}")
    parts += [outcome.why] if outcome.why and not outcome.sent else []
    return shown(", ".join(parts), 2000)


def pending_value(report: Report, failures: dict[str, Failure]) -> dict[str, object]:
    """The packets that wait, as data."""
    return {"packets": [dataclasses.asdict(packet) for packet in report.waiting], "unknown": {name: shown(why) for name, why in report.unknown.items()},
            "failed": {name: {"count": failure.count, "until": stamp_of(failure.until), "why": shown(failure.why)} for name, failure in failures.items()}}


def pending_lines(report: Report, failures: dict[str, Failure]) -> list[str]:
    """A line for each path, with one for each of its packets; one for each path of which nothing is known; and one for each packet or client that failed."""
    texts = []
    for path in dict.fromkeys(packet.path for packet in report.waiting):
        of_path = [packet for packet in report.waiting if packet.path == path]
        texts.append(f"{path}: {len(of_path)} packets wait, {sum(packet.is_due for packet in of_path)} of them with a message that is due")
        texts += [f"  {packet.sequence}: sent at {packet.height}, {packet.age_blocks} blocks ago, waits for {packet.waits_for}{', due' if packet.is_due else ''}" for packet in of_path]
    texts += [f"{name}: not known, {why}" for name, why in report.unknown.items()]
    texts += [f"{name}: failed {failure.count} times, waits until {stamp_of(failure.until)}: {failure.why}" for name, failure in failures.items()]
    return [shown(text, 1_000) for text in texts] or ["no packets wait"]
