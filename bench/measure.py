"""Times programs, and prints tables of work, seconds, MB and growth."""
import os
import pathlib
import re
import subprocess
import sys
import time

WIDTH = 58


def run(words):
    """Seconds of one run, with its standard output and exit status."""
    begin = time.perf_counter()
    done = subprocess.run([str(word) for word in words], stdin=subprocess.DEVNULL, capture_output=True)
    return time.perf_counter() - begin, done.stdout.decode(), done.returncode


def least_seconds(words, statuses=(0,), times=3):
    """The least seconds of some runs, fewer where a run takes long."""
    least = None
    for _ in range(times):
        seconds, _, status = run(words)
        if status not in statuses:
            sys.exit(f"{' '.join(map(str, words))} ended with status {status}")
        least = seconds if least is None else min(least, seconds)
        if seconds > 20:
            break
    return least


def least_told(words, pattern, times=5):
    """The least seconds of some runs by what each tells of itself: the microseconds that the pattern finds in its output."""
    least = None
    for _ in range(times):
        _, output, status = run(words)
        found = re.search(pattern, output)
        if status != 0 or not found:
            sys.exit(f"{' '.join(map(str, words))} ended with status {status}: {output[:200]}")
        seconds = int(found[1]) / 1_000_000
        least = seconds if least is None else min(least, seconds)
    return least


def peak(words):
    """The most memory of one run in MB, read from /proc while it runs (0 where it ended too soon to be seen)."""
    program = str(words[0])
    child = subprocess.Popen([str(word) for word in words], stdin=subprocess.DEVNULL, stdout=subprocess.DEVNULL)
    most = 0
    while child.poll() is None:
        try:
            if os.readlink(f"/proc/{child.pid}/exe") == program:
                status = pathlib.Path(f"/proc/{child.pid}/status").read_text()
                lines = [line for line in status.splitlines() if line.startswith("VmHWM:")]
                most = max([most] + [int(line.split()[1]) for line in lines])
        except OSError:
            pass
    return most / 1024


def print_head():
    print(f"{'work':{WIDTH}} {'seconds':>8} {'MB':>7} {'growth':>7}   ({os.cpu_count()} cores)")


def print_group(title, lines, statuses=(0,), told=None):
    """A table of one kind of work at rising sizes: each line is a name and the words of its run. Seconds are those of the
    whole run, or what the pattern `told` finds in its output."""
    print(title)
    before = None
    for name, words in lines:
        seconds = least_told(words, told) if told else least_seconds(words, statuses)
        growth = f"{seconds / before:7.2f}" if before else " " * 7
        print(f"  {name:{WIDTH - 2}} {seconds:8.4f} {peak(words):7.1f} {growth}", flush=True)
        before = seconds
