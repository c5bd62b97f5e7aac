"""Pieces of scripts as texts, for tests that make large ones."""
import hashlib

LATER = 90_000  # seconds: after all heights, whose records' times are their numbers
MAX_TEXT = 16_777_216
ROOM = "[1_000_000_000_000_000, 10_000, 0]"  # limits that nothing reaches


def key(number):
    return hashlib.sha256(b"k%d" % number).hexdigest()


def time(seconds):
    hours, rest = divmod(seconds, 3600)
    days, hours = divmod(hours, 24)
    return "1970-01-%02dT%02d:%02d:%02dZ" % (days + 1, hours, rest // 60, rest % 60)


def array(rows):
    return "[\n%s\n]\n" % ",\n".join(rows)


def chains(count, version=1):
    return f"version = {version}\nchain = " + array(f'{{id="a{n}"}}' for n in range(count))


def chain(name, refresh=0, gas="[1, 1, 1]"):
    """A chain of version 2, and what clients that follow it share."""
    return (f'[[chain]]\nid = "{name}"\n[chain.defaults]\nperiod_ns = {10**18}\ndrift_ns = {10**18}\nrefresh_ns = {refresh}\n'
            f"fee = [1, 1, 1]\ngas = {gas}\n")


def client(name, host, of):
    return (f'[[client]]\nid = "{name}"\nhost = "{host}"\nof = "{of}"\nperiod_ns = {10**18}\ndrift_ns = {10**18}\n'
            f"fee = [100, 1, 1]\ngas = [100, 1, 1]\nlimits = {ROOM}\n")


def follower(name, host, of, limits=ROOM):
    """A client that takes the rest from its chain."""
    return f'[[client]]\nid = "{name}"\nhost = "{host}"\nof = "{of}"\nlimits = {limits}\n'


def path(name, source, dest, forward, back, order="unordered", gas="[1, 1, 1]"):
    return (f'[[path]]\nid = "{name}"\nsource = "{source}"\ndest = "{dest}"\norder = "{order}"\nforward = "{forward}"\n'
            f'back = "{back}"\ngas = {gas}\n')


def turn(at, events=(), goals=(), settled=()):
    return (f'[[turn]]\nfrom = "{time(at)}"\nuntil = "{time(at)}"\n'
            + f"goal = {array(goals)}event = {array(events)}settle = {array(settled)}")


def goal(name, height, kind="at_least"):
    return f'{{client="{name}",{kind}={height}}}'


def settled(name, batch, done=1):
    return f'{{client="{name}",batch={batch},done={done}}}'


def members(numbers, power=lambda number: 1):
    return "[%s]" % ",".join(f'["{key(number)}",{power(number)}]' for number in numbers)


def a_set(name, validators, chain="a0"):
    return f'{{kind="set",chain="{chain}",name="{name}",validators={validators}}}'


def stored(name, height, following="s"):
    return f'{{kind="stored",client="{name}",height={height},time="{time(height)}",next="{following}"}}'


def header(height, votes, own="s", following="s", chain="a0", at=None):
    """A header whose time is its height, if it isn't given."""
    return (f'{{kind="header",chain="{chain}",height={height},time="{time(height if at is None else at)}",set="{own}",'
            f'next="{following}",votes="{votes}"}}')


def packet(kind, name, seq, block=1):
    height = f",height={block}" if kind in ("sent", "received", "ack") else ""
    return f'{{kind="{kind}",path="{name}",seq={seq}{height}}}'
