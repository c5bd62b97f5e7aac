"""The command line of the relayer."""
import argparse
import contextlib
import io
import json
import pathlib
import sys

from relayer import lines
from relayer.answers import AnswerFolder
from relayer.check import Check, Mark
from relayer.clock import Clock
from relayer.config import Config, read_config
from relayer.discover import by_chain, chain_by_hand, read_hermes, write_config
from relayer.fetch import Fetcher
from relayer.planner import Planner
from relayer.rounds import Relayer
from relayer.sources import Sources
from relayer.watch import Watch, stop_by_signals
from relayer.words import Fault, Log, Quiet, shown

VERSION = "1"


def parser() -> argparse.ArgumentParser:
    whole = argparse.ArgumentParser("ibcplan-relayer", description="Relays updates of light clients and packets by the plans of ibcplan.")
    whole.add_argument("--config", type=pathlib.Path, default=pathlib.Path("relayer.toml"), help="the configuration (relayer.toml)")
    whole.add_argument("--version", action="version", version=f"ibcplan-relayer {VERSION}")
    commands = whole.add_subparsers(dest="command", required=True)
    init = commands.add_parser("init", help="writes a configuration; asks gateways for clients and channels")
    init.add_argument("--hermes", type=pathlib.Path, metavar="CONFIG", help="takes the chains of Hermes' configuration")
    init.add_argument("--chain", action="append", default=[], metavar="ID=ADDRESS", help="a chain and the address of its node")
    init.add_argument("--gateway", action="append", default=[], metavar="ID=ADDRESS", help="the address of a chain's gateway (REST)")
    check = commands.add_parser("check", help="looks at nodes, gateways, accounts, clients and channels")
    waiting = commands.add_parser("pending", help="lists the packets that wait")
    once = commands.add_parser("once", help="makes a round: fetches, plans and sends")
    once.add_argument("--dry-run", action="store_true", help="sends nothing")
    watch = commands.add_parser("watch", help="makes rounds until it is stopped")
    fetch = commands.add_parser("fetch", help="saves the answers that a setup needs, for ibcplan import")
    fetch.add_argument("setup", type=pathlib.Path)
    fetch.add_argument("folder", type=pathlib.Path, help="of the answers")
    fetch.add_argument("made", type=pathlib.Path, nargs="?", metavar="DIR", help="has messages made there, with their proofs")
    for each in check, waiting, once:
        each.add_argument("--json", action="store_true", help="writes data, and not lines")
    for each in check, waiting, once, watch:
        each.add_argument("--host", help="the clients on this chain alone")
    return whole


def config_of(options: argparse.Namespace) -> Config:
    config = read_config(options.config)
    return config.limited_to(options.host) if options.host else config


def tell(options: argparse.Namespace, value: object, texts: list[str]) -> None:
    print(json.dumps(value) if options.json else "\n".join(texts))


def run_init(options: argparse.Namespace, clock: Clock) -> int:
    gateways = by_chain(options.gateway, "--gateway")
    if (options.hermes is None) == (not options.chain):
        raise Fault("init: --hermes CONFIG or --chain ID=ADDRESS belongs here", 2)
    by_hand = [chain_by_hand(name, nodes, gateways) for name, nodes in by_chain(options.chain, "--chain").items()]
    chains = read_hermes(options.hermes, gateways) if options.hermes else by_hand
    clients, paths = write_config(chains, options.config, Quiet(), clock)
    print(f"{shown(options.config)}: {len(chains)} chains, {clients} clients, {paths} directions of channels")
    return 0


def run_fetch(options: argparse.Namespace, clock: Clock) -> int:
    """Saves the answers that a setup needs, and has its messages made if that is asked for; status 1 where sources are missing, else that of `messages`."""
    config, log = read_config(options.config), Quiet()
    with contextlib.closing(Sources(config, log, clock)) as sources:
        fetcher = Fetcher(Planner(config), sources, AnswerFolder(options.folder), config, log)
        for name, why in fetcher.fetch(options.setup).items():
            log.warn("no more is asked", about=name, why=why)
        status, output, error = fetcher.messages(options.setup, options.made) if options.made else (0, "", "")
    for name, words in fetcher.refused.items():
        log.warn("refused", request=name, words=words)
    for chain, kind in fetcher.down:
        log.warn("nobody answers", chain=chain, kind=kind.value)
    log.warn("fetched", requests=sources.requests(), rounds=fetcher.planner.calls)
    sys.stdout.write(output)
    sys.stderr.write(error)
    return 1 if fetcher.down else status


def run_check(options: argparse.Namespace, clock: Clock) -> int:
    """A line for each part; status 1 where one is bad, 3 where one needs a look."""
    found = Check(config_of(options), Quiet(io.StringIO()), clock).run()
    tell(options, [line.value() for line in found], [line.text() for line in found])
    marks = {line.mark for line in found}
    return next((mark.value for mark in (Mark.BAD, Mark.WARNING) if mark in marks), 0)


def run_pending(options: argparse.Namespace, clock: Clock) -> int:
    """The packets that wait, by a round that sends nothing."""
    with contextlib.closing(Relayer(config_of(options), Quiet(), clock)) as relayer:
        report = relayer.round(is_dry=True)
    tell(options, lines.pending_value(report, relayer.state.failures), lines.pending_lines(report, relayer.state.failures))
    return 1 if report.unknown else 0


def run_once(options: argparse.Namespace, clock: Clock) -> int:
    """A round; status 1 where a client couldn't be planned for, or a transaction failed."""
    with contextlib.closing(Relayer(config_of(options), Log() if options.json else Quiet(), clock)) as relayer:
        stop_by_signals(relayer.stop)
        report = relayer.round(is_dry=options.dry_run)
    tell(options, lines.report_value(report), [lines.outcome_line(outcome) for outcome in report.clients])
    return 1 if any(outcome.word in ("unknown", "failed") for outcome in report.clients) else 0


def run_watch(options: argparse.Namespace, clock: Clock) -> int:
    """Rounds until a signal ends them."""
    with contextlib.closing(Relayer(config_of(options), Log(), clock)) as relayer:
        stop_by_signals(relayer.stop)
        Watch(relayer).run()
    return 0


COMMANDS = {"init": run_init, "fetch": run_fetch, "check": run_check, "pending": run_pending, "once": run_once, "watch": run_watch}


def main(clock: Clock) -> int:
    options = parser().parse_args()
    try:
        return COMMANDS[options.command](options, clock)
    except (Fault, OSError) as error:
        print(f"ibcplan-relayer: {shown(error, 2000)}", file=sys.stderr)
        return error.status if isinstance(error, Fault) else 4
    except KeyboardInterrupt:
        return 130
