#!/usr/bin/env python3
"""Makes a script from a number, a load that anyone can repeat, and sums up its transcript.

    examples/generate.py 1 > script               the script that the number 1 makes
    ./symbol serve < script > transcript
    examples/generate.py 1 < transcript           how many replies were answers, and the sum of all image coordinates

Draws are by the minimal standard generator of Park and Miller, x -> 16807 x modulo 2^31 - 1. The summary is the same
by `solo` and by `serve`, and in every run, where no reply is `err memory`."""

import os
import re
import sys
from math import gcd

CHARACTERISTICS = (2, 3, 5, 7, 11, 13, 17, 101, 1009, 10007, 32003, 65521)


def script(seed):
    state = 1 + seed % 2147483646

    def pick(bound):
        nonlocal state
        state = 16807 * state % 2147483647
        return state % bound

    def term():
        c = 1 + pick(9)
        return "%d:1:%d" % (c, pick(level))

    def index():
        n = 1 + pick(20)
        while gcd(n, level) != 1:
            n += 1
        return n

    def command():
        kind = pick(8)
        if kind == 0:
            return "normal 1 %d" % pick(level)
        if kind == 1:
            return "reduce %s %s" % (term(), term())
        if kind == 2:
            return "image %d %s %s" % (index(), term(), term())
        if kind == 3:
            return "image %d %s" % (index(), term())
        if kind == 4:
            return "star %s" % term()
        if kind == 5:
            return "boundary %s %s" % (term(), term())
        if kind == 6:
            return "show"
        name = "star" if pick(4) == 0 else "T%d" % index()
        return "split %s -%d,1" % (name, pick(10))

    level = 100 + pick(101)
    lines = ["space %d %d" % (level, CHARACTERISTICS[pick(12)])]
    for _ in range(4):
        lines.append("session")
        lines += [command() for _ in range(40)]
    return lines


def summary(seed, told):
    asked = [line for line in script(seed)[1:] if line != "session"]
    replies = [found[1] for found in (re.fullmatch(r"\d+ @\d+ ((?:ok|err) .*)", line) for line in told) if found]
    total = sum(
        sum(map(int, reply.split()[2:]))
        for line, reply in zip(asked, replies)
        if line.startswith("image ") and reply.startswith("ok coords")
    )
    after = {line.split()[0]: line.split()[1] for line in told if line.startswith(("history ", "columns "))}
    return [
        "generated %d" % seed,
        told[1] + " sessions 4 commands 160",
        "ok %d memory %d versions %s columns %s"
        % (sum(r.startswith("ok") for r in replies), replies.count("err memory"), after["history"], after["columns"]),
        "sum %d" % total,
        "end",
    ]


if __name__ == "__main__":
    if len(sys.argv) != 2 or not re.fullmatch(r"[0-9]{1,20}", sys.argv[1]):
        sys.exit("usage: examples/generate.py NUMBER, with a transcript on standard input for its summary")
    try:
        number = int(sys.argv[1])
        told = [] if sys.stdin.isatty() else sys.stdin.read().split("\n")
        print("\n".join(summary(number, told) if len(told) > 1 else script(number)))
        sys.stdout.flush()
    except BrokenPipeError:
        # What reads the output has closed it.
        os.dup2(os.open(os.devnull, os.O_WRONLY), sys.stdout.fileno())
    except (ValueError, IndexError, KeyError):
        sys.exit("generate.py: the input is no transcript of the script of %s" % sys.argv[1])
