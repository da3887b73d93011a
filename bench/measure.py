"""What the measuring scripts share: commands are timed in turns, each figure is a median, and one that
does not hold is told at the end."""

import os
import statistics
import subprocess
import sys
import time

TOP = os.path.dirname(os.path.dirname(os.path.abspath(__file__)))
HEIF = os.path.join(TOP, "crates", "heif", "out", "heif")
SMALL = os.path.join(TOP, "crates", "heif", "data", "small.heic")
ROUNDS = 7
HELD = True


def run(words):
    """The seconds that a command takes, and its peak memory in bytes."""
    null = os.open(os.devnull, os.O_WRONLY)
    begin = time.perf_counter()
    child = subprocess.Popen(words, stdout=null)
    _, _, usage = os.wait4(child.pid, 0)
    seconds = time.perf_counter() - begin
    child.returncode = 0
    os.close(null)
    return seconds, usage.ru_maxrss * 1024


def rounds(*commands, before=lambda: None):
    """For each command its seconds in each round; the commands take turns."""
    times = [[] for _ in commands]
    for _ in range(ROUNDS):
        for seconds, words in zip(times, commands):
            before()
            seconds.append(run(words)[0])
    return times


def python(program):
    """The words that run a program in Python, with as little around it as there can be."""
    return [sys.executable, "-S", "-E", "-c", program]


def above(some, others):
    return [a - b for a, b in zip(some, others)]


def ratio(some, others):
    return statistics.median(a / b for a, b in zip(some, others))


def say(text, value, limit=None):
    global HELD
    if limit is None:
        print(f"{text}: {value:.2f}")
        return
    holds = value <= limit
    HELD = HELD and holds
    print(f"{text}: {value:.2f} (at most {limit}): {'holds' if holds else 'DOES NOT HOLD'}")


def fill(name, head, size):
    """A file with these boxes, and an mdat behind them that fills it."""
    with open(name, "wb") as file:
        file.write(head)
        file.write((size - len(head)).to_bytes(4, "big") + b"mdat")
        chunk = os.urandom(1 << 20)
        left = size - len(head) - 8
        while left > 0:
            file.write(chunk[: min(left, len(chunk))])
            left -= len(chunk)


def without(name):
    """What removes a file, so that each command makes it anew."""

    def free():
        if os.path.exists(name):
            os.remove(name)

    return free


def end():
    sys.exit(0 if HELD else 1)
