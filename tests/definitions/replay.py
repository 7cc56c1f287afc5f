"""The definitions of request 3 (crates/text_lines, text_decimals, log_tally, log_lines), run as they stand, against the reference model:
forms of lines, decimals, whole logs. The first log is the request's, and its answers are printed.

usage: replay.py [seed]
"""
import os
import random
import sys

HERE = os.path.dirname(os.path.abspath(__file__))
sys.path[:0] = [HERE, os.path.dirname(HERE), os.path.join(os.path.dirname(HERE), "replay")]
import logs
import reference
from antt import CONSTRUCTORS, Definitions, Function, deep, force

ORDERS = {"F": "Format", "I": "Insert", "D": "Delete", "L": "Lookup", "S": "Limited"}
FILES = [("text_lines", "Lines"), ("text_decimals", "Decimals"), ("log_tally", "Counted"), ("log_lines", "Forms"), ("log_lines", "Replay")]


def definitions():
    d, own = Definitions(reference.ROOT), {}
    for name, arity in (("Format", 0), ("Insert", 2), ("Delete", 1), ("Lookup", 1), ("Limited", 3), ("Other", 0)):
        CONSTRUCTORS[name] = arity
        d.names[name] = Function(arity, lambda *a, name=name: (name,) + a) if arity else (name,)
    for crate, name in FILES:
        own = d.read("%s/crates/%s/specs/%s.antt" % (reference.ROOT, crate, name), own)
    return d


def field(rng):
    u = rng.random()
    if u < .5:
        return b"%d" % rng.choice([0, 1, 9, 10, 4294967295, rng.randrange(2 ** 32)])
    if u < .6:
        return b"%d" % rng.choice([4294967296, 10 ** 10, 10 ** 12])
    if u < .7:
        return b"0%d" % rng.randrange(100)
    return bytes(rng.choice(b"0123456789\r -a") for _ in range(rng.randrange(4)))


def same(what, ours, theirs):
    if ours != theirs:
        sys.exit("%r: the definitions say %r, the reference %r" % (what, ours, theirs))


def compare(seed):
    fuzz = reference.need("definitions of request 3")
    model, m, d, rng = sys.modules["mutree_model"], reference.mu(fuzz, fuzz.SMALL), definitions(), random.Random(seed)
    formed = 0
    for _ in range(4000):
        line = b"\t".join([rng.choice([b"F", b"I", b"D", b"L", b"S", b"X", b"", b"FF"])] + [field(rng) for _ in range(rng.choice([0, 0, 1, 1, 2, 2, 3, 3, 4]))])
        theirs = model.parse_line(line)
        formed += theirs is not None
        same(line, deep(d["parsed"](tuple(line))), ("Other",) if theirs is None else ("Of", (ORDERS[theirs[0]],) + tuple(theirs[1])))
    for _ in range(2000):
        n = rng.choice([0, 9, 10, 99, 100, 2 ** 32 - 1, rng.randrange(2 ** 32), rng.randrange(2 ** 64)])
        same(n, bytes(deep(d["decimal"](n))), b"%d" % n)
    small, answers = force(d["small"]), 0
    texts = [b"F\nI\t7\t1000\nL\t7\nD\t9\n", b"", b"\n", b"F", b"F\nF", b"F\nF\t\n", b"F\r\n", b"F\nL\t01\n", b"L\t4294967296\n"]
    texts += [logs.log(rng.choice([8, 15, 30]), rng.random()) + rng.choice([b"", b"", b"X\n", b"D\t1"]) for _ in range(12)]
    for i, text in enumerate(texts):
        ours = bytes(deep(d["replayed"](small, tuple(text))))
        same(text, ours, model.replay(m, text))
        answers += ours.count(b"\n")
        if i == 0:
            print(ours.decode(), end="")
    print("4000 lines (%d with a form), 2000 numbers, %d logs with %d answers: the definitions and the reference agree" % (formed, len(texts), answers))


if __name__ == "__main__":
    compare(int(sys.argv[1]) if len(sys.argv) > 1 else 1)
