#!/usr/bin/env python3
"""Works out the transcript of a script from the definitions alone, slowly and plainly, for every command of the right
form: the expected transcripts of these examples come from here.

    examples/definitions.py < examples/level-11/script

It shares nothing with the program. Points are found by trying all units, a relation is a count of symbols, a symbol is
bound where elimination from the greatest place leaves it as the greatest of a row, and Merel's sum acts by each matrix
on each pair as it was given. A cusp is the set of symbols (u : v + iu). The sum of every relation is looked at before
an operator is used: by Merel's theorem it is never other than 0, so there is no reply `err relation`. A split works
with the power of f(A) of which the exponent is the dimension of the whole space, which no chain of kernels or images
outlasts."""

import os
import sys
from functools import cache
from math import gcd


@cache
def merel(n):
    """The matrices (a, b, c, d) with a > b >= 0, d > c >= 0 and ad - bc = n; c is solved for where b is not 0."""
    found = []
    for a in range(n + 1):
        for b in range(a):
            for d in range(n + 1):
                for c in range(d) if b == 0 else [(a * d - n) // b]:
                    if 0 <= c < d and a * d - b * c == n:
                        found.append((a, b, c, d))
    return found


def next_of(a, b, c, d):
    """The matrix after one with c > 0 in its chain, which begins where that one ends."""
    k = 0
    while k * c < d:
        k += 1
    return (k * a - b, a, k * c - d, c)


def times(matrix, vector, p):
    return [sum(x * y for x, y in zip(row, vector)) % p for row in matrix]


def product(left, right, p):
    columns = [times(left, column, p) for column in zip(*right)]
    return [list(row) for row in zip(*columns)]


def at_matrix(f, matrix, p):
    """f(A): the sum of f_i times the i-th power of A."""
    size = range(len(matrix))
    total, power = [[0 for _ in size] for _ in size], [[int(i == j) for j in size] for i in size]
    for factor in f:
        total = [[(x + factor * y) % p for x, y in zip(*rows)] for rows in zip(total, power)]
        power = product(matrix, power, p)
    return total


def cleared(row, lead, place, p):
    """A row less the multiple of another, which is 1 at a place, that leaves 0 there."""
    return [(x - row[place] * y) % p for x, y in zip(row, lead)]


def echelon(rows, p):
    """The reduced echelon basis of the span of rows: in each row the first place other than 0 has 1, these places rise,
    and the other rows have 0 there."""
    rows, basis = [list(row) for row in rows], []
    for place in range(len(rows[0]) if rows else 0):
        lead = next((row for row in rows if row[place]), None)
        if lead is None:
            continue
        rows.remove(lead)
        scale = pow(lead[place], -1, p)
        lead = [x * scale % p for x in lead]
        rows, basis = ([cleared(row, lead, place, p) for row in some] for some in (rows, basis))
        basis.append(lead)
    return basis


def two_parts(matrix, part, p):
    """The vectors of a part that some power of the matrix sends to 0, and those that are in the image of every power:
    each by its reduced echelon basis."""
    images = part
    for _ in matrix:
        images = [times(matrix, row, p) for row in images]
    # The pairs of an image and its vector: those whose image is 0 have their first place in the second half.
    pairs = echelon([image + row for image, row in zip(images, part)], p)
    return [row[len(matrix) :] for row in pairs if not any(row[: len(matrix)])], echelon(images, p)


def first_difference(new, old, p):
    """The first place, by columns and then by rows, at which new times old and old times new differ: column, row, and
    both entries; or None."""
    ours, theirs = product(new, old, p), product(old, new, p)
    for column in range(len(new)):
        for row in range(len(new)):
            if ours[row][column] != theirs[row][column]:
                return column, row, ours[row][column], theirs[row][column]
    return None


def main():
    lines = [line.split() for line in sys.stdin.read().splitlines()]
    lines = [words for words in lines if words and not words[0].startswith("#")]
    level, p = int(lines[0][1]), int(lines[0][2])
    if level > 300 and sys.stderr.isatty():
        print("definitions.py: plain and slow: level 389 takes about 40 seconds", file=sys.stderr)
    units = [s for s in range(level) if gcd(s, level) == 1] or [0]

    def normal(u, v):
        return min((s * u % level, s * v % level) for s in units)

    symbols = [
        (u, v)
        for u in range(level)
        for v in range(level)
        if gcd(gcd(u, v), level) == 1 and normal(u, v) == (u, v)
    ]
    number = {symbol: k for k, symbol in enumerate(symbols)}
    m = len(symbols)

    def relation(k):
        u, v = symbols[k % m]
        if k < m:
            pairs = [(u, v), (v, -u)]
        else:
            pairs = [(u, v), (v, -u - v), (-u - v, u)]
        row = {}
        for pair in pairs:
            j = number[normal(*pair)]
            row[j] = (row.get(j, 0) + 1) % p
        return {j: c for j, c in row.items() if c}

    def add(row, factor, other):
        for j, c in other.items():
            value = (row.get(j, 0) + factor * c) % p
            if value:
                row[j] = value
            else:
                row.pop(j, None)

    rows = {}  # greatest place -> (row, its coefficients over the relations)

    def reduced(row):
        row, trace = dict(row), {}
        for place in sorted(rows, reverse=True):
            if place in row:
                factor = -row[place]
                add(row, factor, rows[place][0])
                add(trace, factor, rows[place][1])
        return row, trace

    for k in range(2 * m):
        row, trace = reduced(relation(k))
        if row:
            place = max(row)
            scale = pow(row[place], -1, p)
            add(trace, 1, {k: 1})
            rows[place] = ({j: c * scale % p for j, c in row.items()}, {j: c * scale % p for j, c in trace.items()})
    free = [j for j in range(m) if j not in rows]
    demanded = set()  # the pairs (n, symbol) of columns

    def cusp(u, v):
        """The cusp of (u:v): the numbers of the symbols (u : v + iu)."""
        return frozenset(number[normal(u, v + i * u)] for i in range(level))

    cusps = sorted({cusp(*symbol) for symbol in symbols}, key=min)

    def coordinates(combination):
        rest, _ = reduced(combination)
        return [rest.get(j, 0) for j in free]

    def merel_sum(n, combination):
        total = {}
        for j, x in combination.items():
            u, v = symbols[j]
            for a, b, c, d in merel(n):
                add(total, x, {number[normal(a * u + c * v, b * u + d * v)]: 1})
        return total

    @cache
    def first_bad(n):
        """The least relation whose Merel's sum has coordinates other than 0, with these; or None."""
        for k in range(2 * m):
            coords = coordinates(merel_sum(n, relation(k)))
            if any(coords):
                return [k] + coords
        return None

    @cache
    def matrix_of(name):
        """The matrix of an operator, by rows: column j is the image of free symbol j."""
        columns = []
        for j in free:
            u, v = symbols[j]
            image = {number[normal(-u, v)]: 1} if name == "star" else merel_sum(int(name[1:]), {j: 1})
            columns.append(coordinates(image))
        return [list(row) for row in zip(*columns)]

    history = []  # a line for each accepted split
    unit = [[int(i == j) for j in range(len(free))] for i in range(len(free))]
    parts = [unit] if free else []
    listed = {}  # the operators of the splits so far and their matrices, in order

    def operator_reply(words, place):
        """The replies to operator, apply, poly and split; place is what a history line says of the command's place."""
        nonlocal parts
        name, given = words[1], words[2:]
        if name != "star":
            n = int(name[1:])
            if not 1 <= n <= 400:
                return "err limit n"
            name = "T%d" % n
        f = [int(x) for x in given[0].split(",")] if words[0] in ("poly", "split") else []
        coords = [int(x) for x in given[1 if f else 0 :]]
        if len(f) > 17:
            return "err limit degree"
        if any(abs(x) > 4000000000 for x in f + coords):
            return "err limit number"
        if name != "star" and gcd(n, level) != 1:
            return "err not_coprime %d" % gcd(n, level)
        if words[0] in ("apply", "poly") and len(coords) != len(free):
            return "err length %d %d" % (len(free), len(coords))
        if words[0] == "split" and len(history) == 200:
            return "err versions_full"
        if name != "star":
            demanded.update((n, k) for k in range(m))
            bad = first_bad(n)
            if bad:
                return " ".join(["err relation"] + [str(x) for x in bad])
        matrix = matrix_of(name)
        if words[0] == "operator":
            return "ok operator %d trace %d" % (len(free), sum(matrix[j][j] for j in range(len(free))) % p)
        if words[0] == "apply":
            return " ".join(["ok coords"] + [str(x) for x in times(matrix, coords, p)])
        f = [x % p for x in f]
        polynomial = at_matrix(f, matrix, p)
        if words[0] == "poly":
            return " ".join(["ok coords"] + [str(x) for x in times(polynomial, coords, p)])
        for other in listed:
            found = first_difference(matrix, listed[other], p)
            if found:
                column, row, left, right = found
                return "err commutator %s %d %d %d %d" % (other, row, column, left, right)
        parts = [new for part in parts for new in two_parts(polynomial, part, p) if new]
        listed[name] = matrix
        history.append(" ".join([str(len(history) + 1), place, name, ",".join(str(x) for x in f)]))
        return " ".join(["ok version", str(len(history)), "dims"] + [str(len(part)) for part in parts])

    def reply(words, place):
        n, terms = None, []
        if words[0] in ("operator", "apply", "poly", "split"):
            return operator_reply(words, place)
        if words == ["show"]:
            dims = [str(len(part)) for part in parts]
            return " ".join(["ok splitting", str(len(history)), "dims"] + dims + ["ops"] + list(listed))
        if words[0] == "part":
            i = int(words[1])
            if i > 4000000000:
                return "err limit number"
            if not 1 <= i <= len(parts):
                return "err no_part %d" % len(parts)
            return "ok rows " + " ; ".join(" ".join(str(x) for x in row) for row in parts[i - 1])
        if words[0] == "normal":
            terms = [(1, int(words[1]), int(words[2]))]
        elif words[0] in ("reduce", "certify", "star", "boundary"):
            terms = [tuple(map(int, word.split(":"))) for word in words[1:]]
        elif words[0] == "image":
            n, terms = int(words[1]), [tuple(map(int, word.split(":"))) for word in words[2:]]
        elif words[0] == "chains":
            n = int(words[1])
        elif words == ["cusps"]:
            return " ".join(["ok cusps", str(len(cusps))] + ["(%d:%d)" % symbols[min(c)] for c in cusps])
        elif words == ["basis"]:
            return " ".join(["ok basis", str(len(free))] + ["(%d:%d)" % symbols[j] for j in free])
        if n is not None and not 1 <= n <= 400:
            return "err limit n"
        if len(terms) > 64:
            return "err limit terms"
        if any(abs(x) > 4000000000 for term in terms for x in term):
            return "err limit number"
        if words[0] == "chains":
            matrices = merel(n)
            followers = {next_of(*matrix) for matrix in matrices if matrix[2] > 0}
            return "ok chains %d matrices %d" % (len(set(matrices) - followers), len(matrices))
        for i, (_, u, v) in enumerate(terms, 1):
            if gcd(gcd(u, v), level) != 1:
                return "err not_symbol %d" % i
        if words[0] == "normal":
            return "ok point (%d:%d)" % normal(*terms[0][1:])
        if words[0] == "image" and gcd(n, level) != 1:
            return "err not_coprime %d" % gcd(n, level)
        if words[0] == "boundary":
            sums = [0] * len(cusps)
            for x, u, v in terms:
                sums[cusps.index(cusp(u, v))] += x
                sums[cusps.index(cusp(v, -u))] -= x
            return " ".join(["ok boundary"] + [str(x % p) for x in sums])
        combination = {}
        for x, u, v in terms:
            if words[0] == "star":
                add(combination, x, {number[normal(-u, v)]: 1})
            elif words[0] == "image":
                demanded.add((n, number[normal(u, v)]))
                for a, b, c, d in merel(n):
                    add(combination, x, {number[normal(a * u + c * v, b * u + d * v)]: 1})
            else:
                add(combination, x, {number[normal(u, v)]: 1})
        rest, trace = reduced(combination)
        coords = [str(rest.get(j, 0)) for j in free]
        if words[0] in ("reduce", "image", "star"):
            return " ".join(["ok coords"] + coords)
        pairs = ["%d:%d" % (k, -trace[k] % p) for k in sorted(trace)]
        return " ".join(["ok certified"] + coords + ["by"] + pairs)

    print("transcript 1")
    print("space %d %d symbols %d" % (level, p, m))
    sessions = 0
    for words in lines[1:]:
        if words[0] == "session":
            sessions, commands = sessions + 1, 0
            print("session %d" % sessions)
        else:
            commands += 1
            version = len(history)
            print("%d @%d %s" % (commands, version, reply(words, "s%d c%d" % (sessions, commands))))
    print("history %d" % len(history))
    for line in history:
        print(line)
    print("columns %d\nend" % len(demanded))


if __name__ == "__main__":
    try:
        main()
        sys.stdout.flush()
    except BrokenPipeError:
        # What reads the output has closed it.
        os.dup2(os.open(os.devnull, os.O_WRONLY), sys.stdout.fileno())
    except (ValueError, IndexError, KeyError):
        sys.exit("definitions.py: the input is no script of commands of the right form")
