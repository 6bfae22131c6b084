"""Modular symbols from Python: makes scripts, runs the program on them, and reads its transcripts.

    from symbols import Space, trace
    space = Space(11, 65521)
    space.free                          # [(0, 1), (1, 2), (1, 3)], a basis of the space
    space.reduce([(1, 1, 4)])           # [0, 65520, 1]: coordinates of 1 times (1:4)
    space.hecke(2)                      # the matrix of T_2, a list of rows; column j is the image of free symbol j
    trace(space.hecke(2), space.p)      # 65520, which is -1
    space.operator("T2")                # (3, 65520): the dimension and the trace alone
    splitting = space.splitting().split("T2", [-3, 1]).split("star", [-1, 1])
    splitting.dims                      # [1, 1, 1]: the Eisenstein part, the newform's plus and its minus space
    splitting.parts()[1]                # [[0, 1, 0]], a basis of the second part by coordinates
    space.on_part("T3", [[0, 1, 0]])    # [[65520]]: T_3 is -1 on it

A term is (c, u, v) and stands for c times the symbol (u:v). Where the program refuses a command, `Refused` is raised
with the words of the refusal. The program stands where `./symbol path` tells; the environment variable SYMBOL_PROGRAM
names another place. For Python 3.10 and later."""

import os
import pathlib
import subprocess

MOST_COMMANDS = 2000  # in a script
top = pathlib.Path(__file__).resolve().parent.parent.parent


class Refused(Exception):
    """The program refused a command: `words` of its reply after `err`, such as ["not_coprime", "11"]."""

    def __init__(self, command, words):
        super().__init__("%s: err %s" % (command, " ".join(words)))
        self.command, self.words = command, words


class Failed(Exception):
    """The program ended with another exit status than 0: `status`, and `line`, what it wrote on standard error."""

    def __init__(self, status, line):
        super().__init__("exit status %d: %s" % (status, line))
        self.status, self.line = status, line


class BadScript(Failed):
    """The script breaks a rule: `number` of the first line that does, from 1, and `cause`, such as "NoSession"."""

    def __init__(self, line):
        super().__init__(5, line)
        place, self.cause = line.removeprefix("bad script at line ").split(": ")
        self.number = int(place)


class Script:
    """A script in the making: a space, then sessions of commands."""

    def __init__(self, level, p):
        self.lines = ["space %d %d" % (level, p)]

    def session(self):
        self.lines.append("session")
        return self

    def command(self, *words):
        self.lines.append(" ".join(str(w) for w in words))
        return self

    def text(self):
        return "".join(line + "\n" for line in self.lines)


class Transcript:
    """A transcript, read: `level`, `p`, the number of `symbols`, `sessions` with the words of each reply from `ok` or
    `err` on, `versions` with the version of each reply, `history` with the session, the number of the command, the
    operator and the coefficients of each accepted split, and the count of `columns`. ValueError where the text is no
    transcript."""

    def __init__(self, text):
        try:
            self.read([line.split(" ") for line in text.split("\n")])
        except IndexError as fault:
            raise ValueError("no whole transcript") from fault

    def read(self, lines):
        if lines[0] != ["transcript", "1"] or lines[-2:] != [["end"], [""]]:
            raise ValueError("no whole transcript")
        space, level, p, symbols, m = lines[1]
        if (space, symbols) != ("space", "symbols"):
            raise ValueError("no line of a space: " + " ".join(lines[1]))
        self.level, self.p, self.symbols = int(level), int(p), int(m)
        self.sessions, self.versions, place = [], [], 2
        while lines[place][0] == "session":
            replies, versions, place = [], [], place + 1
            while lines[place][0].isdigit():
                number, version, word = lines[place][:3]
                if int(number) != len(replies) + 1 or version[0] != "@" or word not in ("ok", "err"):
                    raise ValueError("no reply: " + " ".join(lines[place]))
                replies.append(lines[place][2:])
                versions.append(int(version[1:]))
                place += 1
            self.sessions.append(replies)
            self.versions.append(versions)
        word, count = lines[place]
        self.history = [entry(w, words) for w, words in enumerate(lines[place + 1 : place + 1 + int(count)], 1)]
        columns, demanded = lines[place + 1 + int(count)]
        if (word, columns) != ("history", "columns") or lines[place + 2 + int(count) :] != [["end"], [""]]:
            raise ValueError("no end of a transcript")
        self.columns = int(demanded)


def entry(number, words):
    """The session, command, operator and coefficients of a line of the history, which has a number."""
    w, session, command, operator, f = words
    if (w, session[0], command[0]) != (str(number), "s", "c"):
        raise ValueError("no line of a history: " + " ".join(words))
    return int(session[1:]), int(command[1:]), operator, [int(x) for x in f.split(",")]


def program():
    """Where the built program lies."""
    path = pathlib.Path(os.environ.get("SYMBOL_PROGRAM") or top / "out" / "symbol_cli")
    if not path.exists():
        raise FileNotFoundError("%s is not built: ./symbol path builds it and tells where it lies" % path)
    return path


def run(script):
    """The transcript of a script, which is a Script or its text."""
    text = script if isinstance(script, str) else script.text()
    done = subprocess.run([program(), "solo"], input=text.encode(), capture_output=True)
    line = done.stderr.decode(errors="replace").strip()
    if done.returncode == 5:
        raise BadScript(line)
    if done.returncode != 0:
        raise Failed(done.returncode, line)
    return Transcript(done.stdout.decode("ascii"))


def pair(word):
    """The pair that a word such as `(1:2)` names."""
    u, v = word.strip("()").split(":")
    return int(u), int(v)


def answer(words):
    """What a reply says, from the words after `ok`: a pair for `point`, the pairs for `basis` and `cusps`, numbers for
    `coords` and `boundary`, coordinates and a dictionary of relations for `certified`, two numbers for `chains`, the
    dimension and the trace for `operator`, a number and dimensions for `version` and besides the operators for
    `splitting`, a list of rows for `rows`."""
    kind, rest = words[0], words[1:]
    if kind == "point":
        return pair(rest[0])
    if kind in ("basis", "cusps"):
        if int(rest[0]) != len(rest) - 1:
            raise ValueError("%s pairs are not %d" % (rest[0], len(rest) - 1))
        return [pair(w) for w in rest[1:]]
    if kind in ("coords", "boundary"):
        return [int(w) for w in rest]
    if kind == "certified":
        by = rest.index("by")
        return [int(w) for w in rest[:by]], dict(tuple(map(int, w.split(":"))) for w in rest[by + 1 :])
    if kind == "chains":
        return int(rest[0]), int(rest[2])
    if kind == "operator":
        return int(rest[0]), int(rest[2])
    if kind == "version":
        return int(rest[0]), [int(w) for w in rest[2:]]
    if kind == "splitting":
        ops = rest.index("ops")
        return int(rest[0]), [int(w) for w in rest[2:ops]], rest[ops + 1 :]
    if kind == "rows":
        return [[int(w) for w in row.split()] for row in " ".join(rest).split(";")]
    raise ValueError("no reply that is known: " + " ".join(words))


def words_of(terms):
    return ["%d:%d:%d" % term for term in terms]


def word_of(f):
    """A polynomial as a word: its coefficients from the constant up."""
    return ",".join(str(c) for c in f)


class Space:
    """The space of modular symbols of weight 2 for Gamma0(level) over the field of p elements."""

    def __init__(self, level, p=65521):
        self.level, self.p = level, p
        (self.free,) = self.ask(["basis"])
        self.dimension = len(self.free)

    def ask(self, commands):
        """The answers to commands, by as few runs as may be. The first that is refused raises Refused."""
        found = []
        for start in range(0, len(commands), MOST_COMMANDS):
            some = commands[start : start + MOST_COMMANDS]
            script = Script(self.level, self.p).session()
            for command in some:
                script.command(command)
            (replies,) = run(script).sessions
            for command, words in zip(some, replies, strict=True):
                if words[0] == "err":
                    raise Refused(command, words[1:])
                found.append(answer(words[1:]))
        return found

    def one(self, *words):
        return self.ask([" ".join(str(w) for w in words)])[0]

    def normal(self, u, v):
        """The least pair that names (u:v)."""
        return self.one("normal", u, v)

    def reduce(self, terms):
        """The coordinates of a sum of terms."""
        return self.one("reduce", *words_of(terms))

    def certify(self, terms):
        """The coordinates, and the coefficients of the relations that show them."""
        return self.one("certify", *words_of(terms))

    def image(self, n, terms):
        """The coordinates of T_n of the terms."""
        return self.one("image", n, *words_of(terms))

    def star(self, terms):
        return self.one("star", *words_of(terms))

    def boundary(self, terms):
        return self.one("boundary", *words_of(terms))

    def cusps(self):
        return self.one("cusps")

    def chains(self, n):
        """The number of chains, and of matrices, of Merel's set of n."""
        return self.one("chains", n)

    def operator(self, name):
        """The dimension, and the trace of an operator, which is named "star" or such as "T2"."""
        return self.one("operator", name)

    def apply(self, name, coords):
        """The image under an operator of what has these coordinates, by coordinates."""
        return self.one("apply", name, *coords)

    def poly(self, name, f, coords):
        """The image under f(operator), f being a list of coefficients from the constant up."""
        return self.one("poly", name, word_of(f), *coords)

    def splitting(self):
        """The splitting that has the whole space as its one part; its method `split` goes on from there."""
        return Splitting(self)

    def images(self, name, vectors):
        return self.ask([" ".join(["apply", name] + [str(x) for x in vector]) for vector in vectors])

    def matrix(self, name):
        """The matrix of any operator, a list of rows: column j is the image of free symbol j. For T_n the program looks
        at every relation first, which takes a column for each symbol where `hecke` takes one for each free symbol."""
        size = range(self.dimension)
        return transposed(self.images(name, [[int(i == j) for j in size] for i in size]))

    def on_part(self, name, part):
        """The matrix of an operator on a part that it keeps, over the rows of the part's reduced echelon basis, a list
        of rows: column j is the image of row j. ValueError where the operator does not keep the part."""
        leads = [row.index(1) for row in part]
        columns = []
        for image in self.images(name, part):
            columns.append([image[lead] for lead in leads])
            if product([columns[-1]], part, self.p) != [image]:
                raise ValueError("%s does not keep the part" % name)
        return transposed(columns)

    def rows(self, command):
        """The answers for the free symbols in turn, such as the rows of boundaries for "boundary"."""
        return self.ask(["%s 1:%d:%d" % (command, u, v) for u, v in self.free])

    def hecke(self, n):
        """The matrix of T_n, a list of rows: column j is the image of free symbol j."""
        return transposed(self.rows("image %d" % n))

    def star_matrix(self):
        return transposed(self.rows("star"))

    def boundaries(self):
        """A row for each free symbol, its boundary, with a number for each cusp."""
        return self.rows("boundary")


class Splitting:
    """A splitting of a space after some splits: its number of them, `version`, the `dims` of its parts in order, and
    the `operators` that it lists. It does not change; `split` gives the next one, and the program is asked again."""

    def __init__(self, space, splits=()):
        self.space, self.splits = space, list(splits)
        self.version, self.dims, self.operators = space.ask(self.splits + ["show"])[-1]

    def split(self, name, f):
        """Divides each part in two by f(operator), what some power sends to 0 first; parts of 0 alone are dropped."""
        return Splitting(self.space, self.splits + ["split %s %s" % (name, word_of(f))])

    def parts(self):
        """The reduced echelon basis of each part, a list of rows of coordinates."""
        asked = ["part %d" % (i + 1) for i in range(len(self.dims))]
        return self.space.ask(self.splits + asked)[len(self.splits) :]


def transposed(rows):
    return [list(column) for column in zip(*rows)]


def product(left, right, p):
    return [[sum(x * y for x, y in zip(row, column)) % p for column in zip(*right)] for row in left]


def trace(matrix, p):
    return sum(row[j] for j, row in enumerate(matrix)) % p


def signed(x, p):
    """The residue x as the integer nearest 0."""
    return x - p if 2 * x > p else x
