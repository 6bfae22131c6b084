#!/usr/bin/env python3
"""Checks each `certified` reply of a transcript from the definitions alone:

    examples/check.py SCRIPT TRANSCRIPT

The relations with the printed coefficients must add up to the terms less the combination of the free symbols with the
coordinates. The free symbols are taken from the `basis` replies, of which there must be one. Nothing is eliminated:
that the free symbols are independent, and that a relation is a kept one, is not looked at, so a relation may be named
by the number of another that is the same sum. Prints how many certificates hold, exit status 0; or the first line of
the transcript that fails, exit status 1."""

import os
import pathlib
import sys
from math import gcd


def symbols_of(level):
    """The least pairs, rising, and the number of the symbol that any pair modulo the level names."""
    units = [s for s in range(level) if gcd(s, level) == 1] or [0]
    least, number = [], {}
    for pair in ((u, v) for u in range(level) for v in range(level) if gcd(gcd(u, v), level) == 1):
        if pair not in number:
            number.update({(s * pair[0] % level, s * pair[1] % level): len(least) for s in units})
            least.append(pair)
    return least, number


def is_certified(words, reply, level, p, free, least, number):
    """Whether a reply, from `ok` on, has a certificate of the terms of a command."""
    m, by = len(least), reply.index("by")
    coords = list(map(int, reply[2:by]))
    pairs = [tuple(map(int, word.split(":"))) for word in reply[by + 1 :]]
    sums = [0] * m
    for c, u, v in (map(int, word.split(":")) for word in words[1:]):
        sums[number[u % level, v % level]] += c
    for c, pair in zip(coords, free, strict=True):
        sums[number[pair]] -= c
    for k, c in pairs:
        u, v = least[k % m]
        for x, y in [(u, v), (v, -u)] if k < m else [(u, v), (v, -u - v), (-u - v, u)]:
            sums[number[x % level, y % level]] -= c
    ranges = all(0 <= c < p for c in coords) and all(0 <= k < 2 * m and 0 < c < p for k, c in pairs)
    rising = [k for k, _ in pairs] == sorted({k for k, _ in pairs})
    return reply[:2] == ["ok", "certified"] and ranges and rising and not any(x % p for x in sums)


def check(script, transcript):
    """How many certificates hold; ValueError with the first line that fails."""
    wanted = [line.split() for line in script.splitlines() if line.split() and not line.split()[0].startswith("#")]
    lines = [line.split() for line in transcript.splitlines()] + [[]] * 2
    level, p = map(int, wanted[0][1:])
    least, number = symbols_of(level)
    if lines[0] != ["transcript", "1"] or lines[1] != ("space %d %d symbols %d" % (level, p, len(least))).split():
        raise ValueError("its first two lines are not of the script's space")
    bases = {tuple(words[4:]) for words in lines if words[2:4] == ["ok", "basis"]}
    free = [tuple(map(int, word.strip("()").split(":"))) for base in bases for word in base[1:]]
    if len(bases) != 1 or free != sorted(set(free) & set(least)) or bases.pop()[0] != str(len(free)):
        raise ValueError("there is no one answer to `basis` with rising least pairs")
    found = session = index = 0
    for place, words in enumerate(wanted[1:], 3):
        line = lines[min(place, len(lines)) - 1]
        index, session = (0, session + 1) if words == ["session"] else (index + 1, session)
        begin = ["@v" if word[0] == "@" and word[1:].isdigit() else word for word in line[:2]]
        if begin != (["session", str(session)] if words == ["session"] else [str(index), "@v"]):
            raise ValueError("line %d: is no answer to line `%s` of the script" % (place, " ".join(words)))
        if words[0] == "certify" and line[2:3] != ["err"]:
            try:
                holds = is_certified(words, line[2:], level, p, free, least, number)
            except (ValueError, IndexError, KeyError):
                holds = False
            if not holds:
                raise ValueError("line %d: is no certificate of `%s`" % (place, " ".join(words)))
            found += 1
    if lines[-3] != ["end"]:
        raise ValueError("it does not end with `end`")
    return found


if __name__ == "__main__":
    if len(sys.argv) != 3:
        sys.exit("usage: examples/check.py SCRIPT TRANSCRIPT")
    try:
        print("certificates that hold: %d" % check(*(pathlib.Path(name).read_text() for name in sys.argv[1:])))
        sys.stdout.flush()
    except BrokenPipeError:
        # What reads the output has closed it.
        os.dup2(os.open(os.devnull, os.O_WRONLY), sys.stdout.fileno())
    except OSError as fault:
        sys.exit("check.py: %s: %s" % (fault.filename, fault.strerror))
    except (ValueError, IndexError, KeyError, StopIteration) as fault:
        sys.exit("%s: %s" % (sys.argv[2], fault or "it is no transcript"))
