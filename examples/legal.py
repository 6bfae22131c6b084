#!/usr/bin/env python3
"""Judges a transcript that `serve` wrote, from the definitions alone.

    examples/legal.py SCRIPT TRANSCRIPT [PROGRAM WORD ..]

A transcript is a legal run of its script where all its lines, put into one session in the order of their versions, have
the same replies one after another: at each version first the commands that changed nothing, and then the one split that
made the next version. So the lines are put into that order, and worked out by `examples/definitions.py`, or by a
program that is given, such as `./symbol solo`. Versions must not fall within a session, and must grow after an accepted
split; each accepted split is one line of the history, with its session and its number there. Prints `legal`, or what is
wrong, with exit status 1. A reply `err memory` is passed over."""

import pathlib
import re
import subprocess
import sys


def wrong(*what):
    print(*what)
    sys.exit(1)


def tokens(line):
    return line.rstrip(b"\r").split()


def main(names, program):
    script, transcript = (pathlib.Path(name).read_bytes() for name in names)
    program = program or [sys.executable, str(pathlib.Path(__file__).with_name("definitions.py"))]
    kept = [line for line in script.split(b"\n") if tokens(line) and not tokens(line)[0].startswith(b"#")]
    sessions = []
    for line in kept[1:]:
        if tokens(line) == [b"session"]:
            sessions.append([])
        else:
            sessions[-1].append(line)

    told = transcript.decode().split("\n")
    if told[0] != "transcript 1" or told[-2:] != ["end", ""]:
        wrong("no transcript")
    at = 2
    lines = []  # version, whether it is an accepted split, session, number, text, reply
    for s, commands in enumerate(sessions, 1):
        if told[at] != "session %d" % s:
            wrong("session", s, "is missing")
        at += 1
        least = 0
        for c, text in enumerate(commands, 1):
            found = re.fullmatch(r"%d @(\d+) ((?:ok|err) .*)" % c, told[at])
            if not found:
                wrong("session %d, command %d is missing: %s" % (s, c, told[at]))
            version, reply = int(found[1]), found[2]
            if version < least:
                wrong("session %d, command %d: the version falls to %d" % (s, c, version))
            accepted = reply.startswith("ok version ")
            least = version + accepted
            if reply != "err memory":
                lines.append((version, accepted, s, c, text, reply))
            at += 1
    history = told[at + 1 : -3]
    if told[at] != "history %d" % len(history):
        wrong("the history has another length:", told[at])
    lines.sort(key=lambda line: line[:2])
    splits = [line for line in lines if line[1]]
    if [line[0] for line in splits] != list(range(len(history))):
        wrong("the accepted splits stand at the versions", [line[0] for line in splits])
    one = kept[0] + b"\nsession\n" + b"".join(line[4] + b"\n" for line in lines)
    wanted = subprocess.run(program, input=one, capture_output=True, check=True).stdout.decode().split("\n")
    if told[1] != wanted[1]:
        wrong("the space is", wanted[1])
    for (version, _, s, c, _, reply), line in zip(lines, wanted[3:]):
        if line.split(" ", 2)[1:] != ["@%d" % version, reply]:
            wrong("session %d, command %d at version %d: %s, where it should be %s" % (s, c, version, reply, line))
    for w, (entry, split) in enumerate(zip(history, splits)):
        own = wanted[len(lines) + 4 + w].split(" ", 3)[3]
        if entry != "%d s%d c%d %s" % (w + 1, split[2], split[3], own):
            wrong("entry %d of the history is %s" % (w + 1, entry))
    if b"err memory" not in transcript and len(history) < 200 and told[-3] != wanted[-3]:
        wrong("there should be", wanted[-3])
    print("legal")


if __name__ == "__main__":
    if len(sys.argv) < 3:
        sys.exit("usage: examples/legal.py SCRIPT TRANSCRIPT [PROGRAM WORD ..]")
    try:
        main(sys.argv[1:3], sys.argv[3:])
    except OSError as fault:
        sys.exit("legal.py: %s: %s" % (fault.filename, fault.strerror))
    except subprocess.CalledProcessError as fault:
        sys.exit("legal.py: %s: the program refuses it, with status %d" % (sys.argv[1], fault.returncode))
    except (ValueError, IndexError):
        wrong("no transcript of this script")
