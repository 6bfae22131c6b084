#!/usr/bin/env python3
"""Tests of symbols.py and of ../check.py against the built program; every expected value comes from a definition or
from the literature. `python3 examples/python/test_symbols.py`"""

import pathlib
import subprocess
import sys
import tempfile
import unittest
from math import gcd

here = pathlib.Path(__file__).resolve().parent
sys.path[:0] = [str(here), str(here.parent)]
from check import check
from symbols import BadScript, Failed, Refused, Script, Space, Transcript, product, program, run, signed, trace

examples = here.parent


def divisors(n):
    return [d for d in range(1, n + 1) if n % d == 0]


def rank(rows, p):
    """The number of independent rows modulo p."""
    rows, found = [list(row) for row in rows], 0
    while rows:
        lead = rows.pop()
        place = next((j for j, x in enumerate(lead) if x % p), None)
        if place is not None:
            found, scale = found + 1, pow(lead[place], -1, p)
            rows = [[(x - row[place] * scale * y) % p for x, y in zip(row, lead)] for row in rows]
    return found


def added(matrix, scalar, p):
    return [[(x + (i == j) * scalar) % p for j, x in enumerate(row)] for i, row in enumerate(matrix)]


class Spaces(unittest.TestCase):
    def test_the_newform_of_level_11(self):
        # Its coefficients (LMFDB, 11.2.a.a); the space is two copies of it and one Eisenstein series.
        space = Space(11)
        self.assertEqual(space.dimension, 3)
        for q, a in ((2, -2), (3, -1), (5, 1), (7, -2), (13, 4)):
            self.assertEqual(signed(trace(space.hecke(q), space.p), space.p), 2 * a + q + 1)

    def test_laws_of_hecke_operators(self):
        for level, p in ((11, 65521), (35, 10007)):
            space = Space(level, p)
            two, three = space.hecke(2), space.hecke(3)
            self.assertEqual(product(two, three, p), space.hecke(6))
            self.assertEqual(product(three, two, p), space.hecke(6))
            self.assertEqual(product(two, two, p), added(space.hecke(4), 2, p))
        space = Space(15)
        self.assertEqual(product(space.hecke(2), space.hecke(7), space.p), space.hecke(14))
        self.assertEqual(product(space.hecke(2), space.hecke(2), space.p), added(space.hecke(4), 2, space.p))

    def test_traces_and_matrices(self):
        for level, p in ((11, 65521), (15, 7), (36, 2), (37, 101)):
            space = Space(level, p)
            for n in (1, 7, 11 if level != 11 else 13, 35 if level != 15 and level != 11 else 1):
                if gcd(n, level) == 1:
                    matrix = space.hecke(n)
                    self.assertEqual(space.matrix("T%d" % n), matrix)
                    self.assertEqual(space.operator("T%d" % n), (space.dimension, trace(matrix, p)))
            self.assertEqual(space.matrix("star"), space.star_matrix())
            self.assertEqual(space.operator("star")[1], trace(space.star_matrix(), p))
        self.assertEqual(Space(1).operator("T2"), (0, 0))
        self.assertEqual(Space(1).apply("T2", []), [])

    def test_polynomials(self):
        space, c = Space(35, 10007), [3, 1, 4, 1, 5, 9, 2, 6, 5]
        self.assertEqual(space.dimension, len(c))
        # T_2 T_2 = T_4 + 2 at a level that is odd; 0 and 1 are polynomials too, and so is x.
        self.assertEqual(space.poly("T2", [-2, 0, 1], c), space.apply("T4", c))
        self.assertEqual(space.poly("T2", [0], c), [0] * 9)
        self.assertEqual(space.poly("T2", [1], c), c)
        self.assertEqual(space.poly("T2", [0, 1], c), space.apply("T2", c))
        self.assertEqual(space.poly("star", [-1, 0, 1], c), [0] * 9)
        # By the matrix, x^3 + 5x + 7 with the powers that a user would form.
        two = space.hecke(2)
        cube = product(two, product(two, two, space.p), space.p)
        wanted = [(x + 5 * y + 7 * z) % space.p for (x,), (y,), z in zip(
            product(cube, [[z] for z in c], space.p), product(two, [[z] for z in c], space.p), c)]
        self.assertEqual(space.poly("T2", [7, 5, 0, 1], c), wanted)

    def test_dimensions(self):
        # 2 g + c - 1, g the genus of X_0(N) and c the number of cusps (Diamond, Shurman, 3.1).
        for level, dimension in ((1, 0), (2, 1), (11, 3), (15, 5), (23, 5), (37, 5), (49, 9), (389, 65)):
            self.assertEqual(Space(level).dimension, dimension)

    def test_cusps(self):
        for level in (1, 4, 11, 15, 36, 49, 60):
            wanted = 0
            for d in divisors(level):
                g = gcd(d, level // d)
                wanted += sum(gcd(k, g) == 1 for k in range(1, g + 1))
            self.assertEqual(len(Space(level).cusps()), wanted)

    def test_star_and_boundary(self):
        space = Space(36)
        star = space.star_matrix()
        self.assertEqual(product(star, star, space.p), added([[0] * space.dimension] * space.dimension, 1, space.p))
        rows = space.boundaries()
        self.assertEqual([len(rows), {len(row) for row in rows}], [space.dimension, {12}])
        # A path has one end and one beginning.
        self.assertEqual([sum(row) % space.p for row in rows], [0] * space.dimension)
        # Boundary is linear: that of a combination comes from its coordinates.
        terms = [(1, 5, 7), (-3, 2, 9)]
        coords = space.reduce(terms)
        self.assertEqual(space.boundary(terms), [x for (x,) in product(list(zip(*rows)), [[c] for c in coords], space.p)])

    def test_symbols(self):
        space = Space(11, 101)
        self.assertEqual(space.normal(22, 7), (0, 1))
        self.assertEqual(space.free, [(0, 1), (1, 2), (1, 3)])
        # (1:4) is (1:3) - (1:2), by relation 15 less relation 4.
        self.assertEqual(space.certify([(1, 1, 4)]), ([0, 100, 1], {4: 100, 15: 1}))
        self.assertEqual(space.chains(2), (3, 4))
        self.assertEqual(space.image(2, [(1, 0, 1)]), [3, 1, 0])


class Splittings(unittest.TestCase):
    def values(self, space, part, numbers):
        """The one eigenvalue of each T_q on a part where it is a multiple of the identity, as an integer."""
        found = []
        for q in numbers:
            matrix = space.on_part("T%d" % q, part)
            self.assertEqual(matrix, added([[0] * len(part)] * len(part), matrix[0][0], space.p))
            found.append(signed(matrix[0][0], space.p))
        return found

    def test_the_newforms_of_level_37(self):
        # Coefficients at 2, 3, 5, 7, 11, 13 (LMFDB, 37.2.a.a and 37.2.a.b).
        space = Space(37)
        splitting = space.splitting().split("T2", [2, 1]).split("T2", [0, 1])
        self.assertEqual((splitting.version, splitting.dims, splitting.operators), (2, [2, 2, 1], ["T2"]))
        first, second, eisenstein = splitting.parts()
        self.assertEqual(self.values(space, first, (2, 3, 5, 7, 11, 13)), [-2, -3, -2, -1, -5, -2])
        self.assertEqual(self.values(space, second, (2, 3, 5, 7, 11, 13)), [0, 1, 0, -1, 3, -4])
        self.assertEqual(self.values(space, eisenstein, (2, 3, 5, 7, 11, 13)), [3, 4, 6, 8, 12, 14])
        # Star has a line of each sign on a newform, and the boundary is 0 there.
        last = splitting.split("star", [-1, 1])
        self.assertEqual((last.dims, last.operators), ([1, 1, 1, 1, 1], ["T2", "star"]))
        self.assertEqual([space.on_part("star", part)[0][0] for part in last.parts()], [1, space.p - 1] * 2 + [1])
        self.assertEqual(product(first + second, space.boundaries(), space.p), [[0, 0]] * 4)

    def test_old_and_new_at_33(self):
        # Two copies of 11.2.a.a, and 33.2.a.a, at 2, 5, 7, 13 (LMFDB); four cusps.
        space = Space(33)
        splitting = space.splitting().split("T2", [-3, 1]).split("T2", [2, 1])
        eisenstein, old, new = splitting.parts()
        self.assertEqual(splitting.dims, [3, 4, 2])
        self.assertEqual(self.values(space, old, (2, 5, 7, 13)), [-2, 1, -2, 4])
        self.assertEqual(self.values(space, new, (2, 5, 7, 13)), [1, -2, 4, -2])
        self.assertEqual(self.values(space, eisenstein, (2, 5, 7, 13)), [3, 6, 8, 14])

    def test_the_newforms_of_level_389(self):
        # The characteristic polynomials of T_2 on the first four newforms (LMFDB, 389.2.a.a to d); e has degree 20.
        splitting = Space(389).splitting().split("T2", [-3, 1])
        for f in ([2, 1], [-2, 0, 1], [-2, -4, 0, 1], [-1, 4, 2, -8, -2, 3, 1]):
            splitting = splitting.split("T2", f)
        self.assertEqual(splitting.dims, [1, 2, 4, 6, 12, 40])
        self.assertEqual(splitting.split("star", [-1, 1]).dims, [1, 1, 1, 2, 2, 3, 3, 6, 6, 20, 20])

    def test_a_congruence(self):
        # 11.2.a.a is congruent to the Eisenstein series modulo 5, and to it alone (Mazur).
        self.assertEqual(Space(11, 5).splitting().split("T2", [-3, 1]).split("T7", [2, 1]).dims, [3])
        self.assertEqual(Space(11, 7).splitting().split("T2", [-3, 1]).dims, [1, 2])

    def test_parts_make_up_the_space(self):
        for level, p in ((23, 101), (36, 3), (49, 2), (60, 5)):
            space = Space(level, p)
            splitting = space.splitting()
            self.assertEqual((splitting.version, splitting.dims, splitting.operators), (0, [space.dimension], []))
            for name, f in (("T7", [-8, 1]), ("star", [-1, 1]), ("T11", [0, 1]), ("T13", [1, 1, 1])):
                if gcd(int(name[1:]) if name != "star" else 1, level) == 1:
                    splitting = splitting.split(name, f)
            parts = splitting.parts()
            self.assertEqual([len(part) for part in parts], splitting.dims)
            self.assertEqual(sum(splitting.dims), space.dimension)
            # The rows of all parts span the space, and each part is kept by what is listed, and by another T_n.
            self.assertEqual(rank([row for part in parts for row in part], p), space.dimension)
            for part in parts:
                for name in splitting.operators + ["T17"]:
                    space.on_part(name, part)
        whole = [[int(i == j) for j in range(3)] for i in range(3)]
        self.assertEqual(Space(11).splitting().parts(), [whole])
        self.assertEqual((Space(1).splitting().dims, Space(1).splitting().split("T2", [1]).version), ([], 1))
        with self.assertRaises(ValueError):
            Space(11).on_part("T2", [[1, 0, 0]])


class Refusals(unittest.TestCase):
    def test_refusals(self):
        space = Space(11)
        for words, wanted in (
            (("operator", "T22"), ["not_coprime", "11"]),
            (("operator", "T0"), ["limit", "n"]),
            (("apply", "T2", 1, 2), ["length", "3", "2"]),
            (("poly", "T2", ",".join("1" * 18), 1, 2, 3), ["limit", "degree"]),
            (("split", "T2", 5000000000), ["limit", "number"]),
            (("part", 2), ["no_part", "1"]),
            (("part", 0), ["no_part", "1"]),
            (("normal", 0, 0), ["not_symbol", "1"]),
            (("image", 22, "1:0:1"), ["not_coprime", "11"]),
            (("image", 401, "1:0:1"), ["limit", "n"]),
            (("frob",), ["grammar", "1"]),
        ):
            with self.assertRaises(Refused) as caught:
                space.one(*words)
            self.assertEqual(caught.exception.words, wanted)

    def test_bad_scripts(self):
        for text, number, cause in (
            ("space 11 101\nbasis\n", 2, "NoSession"),
            ("# x\nspace 11 6\n", 2, "Characteristic"),
            ("space 1001 101\n", 1, "Level"),
        ):
            with self.assertRaises(BadScript) as caught:
                run(text)
            self.assertEqual((caught.exception.number, caught.exception.cause), (number, cause))

    def test_another_status(self):
        with self.assertRaises(Failed) as caught:
            run("#" * 1048577)
        self.assertEqual((caught.exception.status, caught.exception.line), (6, "input too long"))

    def test_two_hundred_versions(self):
        splitting = Space(11).splitting()
        splitting.splits = ["split star 1"] * 199
        last = splitting.split("star", [1])
        self.assertEqual((last.version, last.dims, last.operators), (200, [3], ["star"]))
        with self.assertRaises(Refused) as caught:
            last.split("T2", [1])
        self.assertEqual(caught.exception.words, ["versions_full"])

    def test_many_commands(self):
        # More than a script may have: two runs.
        space = Space(11)
        self.assertEqual(space.ask(["normal %d 1" % (11 * i) for i in range(2500)]), [(0, 1)] * 2500)


class Transcripts(unittest.TestCase):
    def test_examples(self):
        for path in sorted(examples.glob("*/transcript")):
            transcript = Transcript(path.read_text())
            splits = [words for replies in transcript.sessions for words in replies if words[:2] == ["ok", "version"]]
            self.assertEqual([int(words[2]) for words in splits], list(range(1, len(transcript.history) + 1)))
            commands = [line for line in (path.parent / "script").read_text().split("\n") if line and line[0] != "#"]
            replies = sum(len(s) for s in transcript.sessions) + len(transcript.sessions) + 1
            self.assertEqual(replies, len(commands))

    def test_sessions(self):
        transcript = run(Script(11, 101).session().command("basis").session().command("image", 2, "1:0:1"))
        self.assertEqual([len(s) for s in transcript.sessions], [1, 1])
        self.assertEqual((transcript.symbols, transcript.columns, transcript.history), (12, 1, []))

    def test_versions(self):
        script = Script(11, 101).session().command("split", "T2", "-3,1").command("show")
        transcript = run(script.session().command("split", "star", "-1,0,102").command("split", "T22", 1).command("basis"))
        self.assertEqual(transcript.versions, [[0, 1], [1, 2, 2]])
        self.assertEqual(transcript.history, [(1, 1, "T2", [98, 1]), (2, 1, "star", [100, 0, 1])])

    def test_broken_transcripts(self):
        text = (examples / "level-11" / "transcript").read_text()
        changed = [text.replace(*words) for words in (("history 0", "history 9"), ("history", "x"), ("2 @0", "3 @0"), ("end", ""))]
        for broken in changed + [text[:-1], text[:-4], "", "x\n"]:
            with self.assertRaises(ValueError):
                Transcript(broken)


class Certificates(unittest.TestCase):
    def refused(self, script, transcript, why=None):
        with self.assertRaises(ValueError, msg=why):
            check(script, transcript)

    def certified_examples(self):
        for path in sorted(examples.glob("*/script")):
            if "certify" in path.read_text():
                yield path.read_text(), (path.parent / "transcript").read_text()

    def test_examples_hold(self):
        count = 0
        for script, transcript in self.certified_examples():
            wanted = transcript.count(" ok certified ")
            self.assertEqual(check(script, transcript), wanted)
            count += wanted
        self.assertGreater(count, 4)

    def test_one_changed_number_is_refused(self):
        for script, transcript in self.certified_examples():
            if "space 389" in script:
                continue
            p = int(script.split()[2])
            lines = transcript.split("\n")
            for place, line in enumerate(lines):
                if " ok certified " not in line:
                    continue
                words = line.split()
                for i in range(4, len(words)):
                    if words[i] != "by":
                        k, colon, c = words[i].rpartition(":")
                        word = k + colon + str((int(c) + 1) % p)
                        changed = lines[:place] + [" ".join(words[:i] + [word] + words[i + 1 :])] + lines[place + 1 :]
                        self.refused(script, "\n".join(changed), word)

    def test_a_changed_space_or_basis_is_refused(self):
        script, transcript = next(self.certified_examples())
        for old, new in (
            ("space 11 101", "space 11 1009"), ("symbols 12", "symbols 13"), ("basis 3", "basis 4"), ("(1:2)", "(1:4)"),
            ("4:100", "24:100"), ("4:100", "5:100"), ("basis", "bases"), ("session 1", "session 2"), ("end", ""),
        ):
            self.refused(script, transcript.replace(old, new), new)

    def test_a_run_of_this_day(self):
        for level, p in ((1, 101), (12, 3), (30, 65521), (36, 2)):
            script = "space %d %d\nsession\nbasis\ncertify 1:1:0 5:2:1 -7:3:1\nsplit star -1,1\ncertify\n" % (level, p)
            script += "session\ncertify 1:1:%d\n" % p
            done = subprocess.run([program(), "solo"], input=script, capture_output=True, text=True)
            self.assertEqual(check(script, done.stdout), 3)

    def test_as_a_command(self):
        script, transcript = examples / "level-11" / "script", examples / "level-11" / "transcript"
        with tempfile.NamedTemporaryFile("w") as changed:
            changed.write(transcript.read_text().replace("4:100", "4:99"))
            changed.flush()
            for name, status, out, err in (
                (transcript, 0, "certificates that hold: 2\n", ""),
                (changed.name, 1, "", "%s: line 6: is no certificate of `certify 1:1:4`\n" % changed.name),
            ):
                words = [sys.executable, examples / "check.py", script, name]
                done = subprocess.run(words, capture_output=True, text=True)
                self.assertEqual((done.returncode, done.stdout, done.stderr), (status, out, err))


if __name__ == "__main__":
    unittest.main()
