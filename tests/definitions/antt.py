"""Runs the definitions of crates/geometry/specs and crates/model/specs as they stand, and those of texts (crates/text_lines, text_decimals, text_carrying).

A small translator for the part of antt that these files use: clauses by patterns, records, data, `pick`, `let`, `λ`.
A finding's words (`Good`, `Bad`, `Sound`) are taken as they are written. Arguments are worked out only where they are needed,
as in mathematics. `blank`, `written`, `least`, `arg` and `fresh_code`, and the library's `is_none`, `get_or`, `set`, `replicate`, `bit_xor`, `ones`, `ones_in`, `count_trailing_zeros`, are replaced by quick Python of the same
meaning (`plain_code` is `fresh_code` as it stands); a few values are kept once known.
"""
import re
import sys
from collections import ChainMap
from functools import lru_cache

sys.setrecursionlimit(200000)

# A comment; a number; a projection, which stands right behind a name or a bracket; a name; a sign. A sign of propositions is no
# definition's name, so that what has one can be read and not worked out.
TOKEN = re.compile(r"""\s*(?:(--[^\n]*)|([0-9]+|(?<=[\w')])\.[a-z]\w*|[^\W\d][\w']*|\[\]|\+\+|\S))""")


def tokens(text):
    return [m.group(2) for m in TOKEN.finditer(text) if m.group(2)]


# ---- values: numbers, bytes, tuples (lists), functions, records and constructors as Python tuples with a tag
class Record:
    __slots__ = ("fields",)

    def __init__(self, fields):
        self.fields = fields

    def __eq__(self, other):
        return isinstance(other, Record) and {k: deep(v) for k, v in self.fields.items()} == {k: deep(v) for k, v in other.fields.items()}


class Thunk:
    __slots__ = ("run", "value")

    def __init__(self, run):
        self.run = run


def force(x):
    while isinstance(x, Thunk):
        if x.run is not None:
            x.value, x.run = force(x.run()), None
        x = x.value
    return x


def deep(x):
    x = force(x)
    if isinstance(x, Record):
        return {k: deep(v) for k, v in x.fields.items()}
    if isinstance(x, tuple):
        return tuple(deep(v) for v in x)
    return x


class Function:
    def __init__(self, arity, body, args=()):
        self.arity, self.body, self.args = arity, body, args

    def __call__(self, *more):
        args = self.args + more
        if len(args) < self.arity:
            return Function(self.arity, self.body, args)
        result = force(self.body(*args[:self.arity]))
        return result(*args[self.arity:]) if len(args) > self.arity else result


CONSTRUCTORS = {"zero": 0, "suc": 1, "true": 0, "false": 0, "[]": 0, "None": 0, "Some": 1, "Ok": 1, "Err": 1}
OPS = {"+": lambda a, b: a + b, "-": lambda a, b: max(a - b, 0), "*": lambda a, b: a * b,
       "/": lambda a, b: a // b if b else 0, "%": lambda a, b: a % b if b else a, "^": lambda a, b: a ** b, "⊕": lambda a, b: a ^ b}


class Parser:
    """One expression, turned into a Python closure from an environment to a value."""

    def __init__(self, words, names):
        self.words, self.i, self.names = words, 0, names

    def peek(self):
        return self.words[self.i] if self.i < len(self.words) else None

    def take(self, word=None):
        w = self.words[self.i]
        if word is not None and w != word:
            raise SyntaxError("wanted %s, met %s in %s" % (word, w, " ".join(self.words)))
        self.i += 1
        return w

    def expression(self):
        w = self.peek()
        if w == "λ":
            self.take()
            names = []
            while self.peek() != ".":
                names.append(self.take())
            self.take(".")
            body = self.expression()
            return lambda env: Function(len(names), lambda *args: body({**env, **dict(zip(names, args))}))
        if w == "let":
            self.take()
            name = self.take()
            self.take("=")
            value = self.expression()
            self.take("in")
            body = self.expression()
            return lambda env: body({**env, name: Thunk(lambda: value(env))})
        return self.binary(0)

    LEVELS = [["&"], ["∷", "++"], ["⊕"], ["+", "-"], ["*", "/", "%"], ["^"]]

    def binary(self, level):
        if level == len(self.LEVELS):
            return self.application()
        left = self.binary(level + 1)
        if level == 1:
            if self.peek() in self.LEVELS[1]:
                op, right = self.take(), self.binary(1)
                if op == "∷":
                    return lambda env: cons(Thunk(lambda: left(env)), force(right(env)))
                return lambda env: join(force(left(env)), force(right(env)))
            return left
        while self.peek() in self.LEVELS[level]:
            op, right = self.take(), self.binary(level + 1)
            left = self.combine(op, left, right)
        return left

    @staticmethod
    def combine(op, left, right):
        if op == "&":
            return lambda env: force(right(env)) if force(left(env)) else False
        f = OPS[op]
        return lambda env: f(force(left(env)), force(right(env)))

    def application(self):
        head, args = self.projected(), []
        while self.peek() not in (None, ")", "}", ";", "in", "=", ".", "&", "∷", "++", "⊕", "+", "-", "*", "/", "%", "^"):
            args.append(self.projected())
        return self.apply(head, args)

    def projected(self):
        """An atom with the fields that are taken of it."""
        value = self.atom()
        while (self.peek() or "").startswith(".") and self.peek() != ".":
            value = self.field(value, self.take()[1:])
        return value

    @staticmethod
    def field(value, name):
        return lambda env: force(force(value(env)).fields[name])

    @staticmethod
    def apply(head, args):
        if not args:
            return head
        if getattr(head, "is_pick", False) and len(args) >= 3:
            test, yes, no, rest = args[0], args[1], args[2], args[3:]
            if rest:
                return lambda env: force((yes if force(test(env)) else no)(env))(*[Thunk(lambda a=a: a(env)) for a in rest])
            return lambda env: force((yes if force(test(env)) else no)(env))
        return lambda env: force(head(env))(*[Thunk(lambda a=a: a(env)) for a in args])

    def atom(self):
        w = self.take()
        if w == "(":
            inner = self.expression()
            self.take(")")
            return inner
        if w == "record":
            self.take("{")
            fields = {}
            while self.peek() != "}":
                name = self.take()
                self.take("=")
                fields[name] = self.expression()
                if self.peek() == ";":
                    self.take()
            self.take("}")
            return lambda env: Record({k: Thunk(lambda v=v: v(env)) for k, v in fields.items()})
        if w.isdigit():
            n = int(w)
            return lambda env: n
        names = self.names
        read = lambda env: env[w] if w in env else names[w]
        if w == "pick":
            read.is_pick = True
        return read


def cons(head, tail):
    return (head,) + tail if isinstance(tail, tuple) else (head,) + tuple(tail)


def join(a, b):
    return (tuple(a) if isinstance(a, bytes) else a) + (tuple(b) if isinstance(b, bytes) else b)


def pattern(words, i):
    """(a test that binds names, the next place)"""
    w = words[i]
    if w == "(":
        parts, i = [], i + 1
        while words[i] != ")":
            if words[i] == "∷":
                parts.append("∷")
                i += 1
            else:
                p, i = pattern(words, i)
                parts.append(p)
        return grouped(parts), i + 1
    return (("con", w, []) if w in CONSTRUCTORS else ("var", w)), i + 1


def grouped(parts):
    if "∷" in parts:
        k = parts.index("∷")
        return ("cons", grouped(parts[:k]), grouped(parts[k + 1:]))
    if parts[0][0] in ("con", "var") and len(parts) > 1:
        return ("con", parts[0][1], parts[1:])
    return parts[0]


def match(p, value, env):
    if p[0] == "var":
        env[p[1]] = value
        return True
    value = force(value)
    if p[0] == "cons":
        return len(value) > 0 and match(p[1], value[0], env) and match(p[2], value[1:], env)
    name, args = p[1], p[2]
    if name == "zero":
        return value == 0
    if name == "suc":
        return value > 0 and match(args[0], value - 1, env)
    if name in ("true", "false"):
        return value == (name == "true")
    if name == "[]":
        return len(value) == 0
    return value[0] == name and all(match(a, v, env) for a, v in zip(args, value[1:]))


class Definitions:
    def __init__(self, root):
        self.names = dict(self.library())
        for crate, files in (("geometry", ["Bounds", "Tests", "Findings", "Geometry"]),
                             ("model", ["Bytes", "Codes", "Count", "Image", "Tree", "Next", "Rules", "Page", "Stores", "Edit", "Collect", "Update", "Calls", "Listing"]),
                             ("text_lines", ["Lines"]), ("text_decimals", ["Decimals"]), ("text_carrying", ["Carrying"])):
            for f in files:
                self.read("%s/crates/%s/specs/%s.antt" % (root, crate, f))
        self.names.update(self.quick())

    def __getitem__(self, name):
        return self.names[name]

    @staticmethod
    def library():
        number = lambda f: Function(2, lambda a, b: f(force(a), force(b)))
        yield "eqb", number(lambda a, b: a == b)
        yield "leb", number(lambda a, b: a <= b)
        yield "ltb", number(lambda a, b: a < b)
        yield "min", number(min)
        yield "max", number(max)
        yield "ones_in", number(lambda k, n: bin(n % 2 ** k).count("1"))
        yield "count_trailing_zeros", number(lambda k, n: next((i for i in range(k) if n >> i & 1), k))
        yield "ones", Function(1, lambda n: bin(force(n)).count("1"))
        yield "not", Function(1, lambda b: not force(b))
        yield "is_none", Function(1, lambda o: force(o)[0] == "None")
        yield "length", Function(1, lambda l: len(force(l)))
        yield "take", Function(2, lambda n, l: force(l)[:force(n)])
        yield "drop", Function(2, lambda n, l: force(l)[force(n):])
        yield "replicate", Function(2, lambda n, v: bytes([force(v)]) * force(n))
        yield "get_or", Function(3, lambda l, i, d: (lambda xs, k: force(xs[k]) if k < len(xs) else force(d))(force(l), force(i)))
        yield "set", Function(3, lambda l, i, v: put(force(l), force(i), force(v)))
        yield "true", True
        yield "false", False
        yield "zero", 0
        yield "suc", Function(1, lambda n: force(n) + 1)
        yield "[]", ()
        for name, arity in (("None", 0), ("Some", 1), ("Err", 1), ("Good", 0), ("Bad", 1), ("Sound", 0), ("program", 2), ("erase", 1),
                            ("Of", 1), ("records", 1), ("bad", 1), ("Clean", 0), ("DataMended", 1), ("CodeMended", 1), ("Beyond", 0)):
            CONSTRUCTORS[name] = arity
            yield name, Function(arity, lambda *a, name=name: (name,) + a) if arity else (name,)

    def quick(self):
        def blank(img, at, n):
            at, n = force(at), force(n)
            return force(img)[at:at + n] == b"\xff" * n

        def written(l, at, f, n):
            old, at, f = force(l), force(at), force(f)
            out = list(old)
            for k in range(force(n)):
                if at + k < len(out):
                    out[at + k] = force(f(k))
            return type(old)(out)
        def least(n, f):
            f = force(f)
            return next((i for i in range(force(n)) if f(i)), force(n))

        def arg(n, f):
            values = [force(f)(i) for i in range(force(n))]
            return values.index(max(values)) if values else 0
        def fresh(img, at):
            img, at = force(img), force(at)
            half = bytes(img[at:at + 256])
            return quick_code(half + bytes(256 - len(half)))
        once = {}

        def taken(p, n, er, i):
            p, n, er, i = force(p), force(n), force(er), force(i)
            if (p, n, id(er), i) not in once:
                once[p, n, id(er), i] = (er, plain(p, n, er, i))
            return once[p, n, id(er), i][1]
        plain = self.names["taken"]
        yield "blank", Function(3, blank)
        yield "written", Function(4, written)
        yield "least", Function(2, least)
        yield "arg", Function(2, arg)
        yield "taken", Function(4, taken)
        yield "plain_code", self.names["fresh_code"]
        yield "fresh_code", Function(2, fresh)
        for name in ("erased", "seq_at", "height_at", "node_at", "root_of", "max_seq"):
            yield name, self.kept(self.names[name])

    @staticmethod
    def kept(f):
        """The same function, each value worked out once."""
        @lru_cache(maxsize=100000)
        def at(mark, *args):
            return deep_entries(f(GEOMETRIES[mark], *args))
        return Function(f.arity, lambda g, *args: at(geometry_mark(force(g)), *[force(a) for a in args]))

    def read(self, path, taken=()):
        """Reads a file. A name that another file has already is this file's alone; what it has of those is given back, and `taken` are
        such names of another file that this one uses."""
        clauses, own = {}, dict(taken)
        scope = ChainMap(own, self.names)
        for text in declarations(open(path, encoding="utf-8").read()):
            words = tokens(text)
            k = words.index("=")
            left = words[:k]
            name, i, patterns = left[0], 1, []
            while i < len(left):
                p, i = pattern(left, i)
                patterns.append(p)
            clauses.setdefault(name, []).append((patterns, Parser(words[k + 1:], scope).expression()))
        for name, cs in clauses.items():
            (own if name in self.names else self.names)[name] = self.define(name, cs)
        return own

    def define(self, name, cs):
        arity = len(cs[0][0])

        def run(*args):
            for patterns, body in cs:
                env = {}
                if all(match(p, a, env) for p, a in zip(patterns, args)):
                    return body(env)
            raise ValueError("no clause of " + name)
        return Function(arity, run) if arity else Thunk(run)


@lru_cache(maxsize=100000)
def quick_code(half):
    e = g = 0
    for i, b in enumerate(half):
        while b:
            n = 8 * i + (b & -b).bit_length() - 1
            e, g, b = e ^ n, g ^ (2047 - n), b & (b - 1)
    return 16777215 - (e + 2048 * g)


GEOMETRIES = []


def geometry_mark(g):
    for k, h in enumerate(GEOMETRIES):
        if h is g:
            return k
    GEOMETRIES.append(g)
    return len(GEOMETRIES) - 1


def deep_entries(x):
    if isinstance(x, tuple):
        return tuple(Record({k: force(v) for k, v in force(e).fields.items()}) for e in x)
    return x


def told(verdict):
    """A verdict as the tests write it: that it is sound, or the broken rule and its page."""
    verdict = deep(verdict)
    return ("Broken", verdict[1]["rule"], verdict[1]["page"]) if verdict[0] == "Err" else verdict


def put(l, i, v):
    if i >= len(l):
        return l
    return l[:i] + (bytes([v]) if isinstance(l, bytes) else (v,)) + l[i + 1:]


def declarations(text):
    """The clauses of definitions: lines at the margin that begin with a defined name, with the lines indented below them."""
    block, defined = [], set(re.findall(r"^(?:abbrev|unfoldable) (?:pub )?(\S+) :", text, re.M))
    for line in text.split("\n") + ["--"]:
        if line[:1] in (" ", "}") and block:
            block.append(line)
            continue
        if block:
            yield "\n".join(block)
        block = []
        if line.split(" ")[0] in defined:
            block = [line]
