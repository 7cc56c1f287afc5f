"""The definitions of request 13, run as they stand, against the reference model: decimals, texts read, the text of a map, exports and
imports of small images.

usage: texts.py [seconds] [seed]
"""
import os
import random
import sys
import time

HERE = os.path.dirname(os.path.abspath(__file__))
sys.path[:0] = [HERE, os.path.dirname(HERE), os.path.join(os.path.dirname(HERE), "differential")]
import carrying
import reference
from antt import Definitions, Record, deep, force
from compare import outcome, same


def entries(pairs):
    return tuple(Record({"key": key, "addr": address}) for key, address in pairs)


def numbers(d, rng, turns):
    """A number's bytes, and the number of bytes that are one or nearly."""
    read = sys.modules["mutree_model"].number
    for _ in range(turns):
        n = rng.choice([rng.randrange(12), rng.randrange(2 ** 32), rng.choice([10 ** k for k in range(10)]) - rng.randrange(2)])
        same("decimal %d" % n, (bytes(deep(d["decimal"](n))),), (b"%d" % n,), b"")
        word = b"%d" % (n + rng.choice([0, 0, 2 ** 32, 2 ** 64, rng.randrange(2 ** 40)]))
        if rng.random() < .5:
            at = rng.randrange(len(word) + 1)
            word = rng.choice([b"", b"0" + word, word[:at] + bytes([rng.choice([0, 9, 32, 43, 45, 47, 48, 58, 255])]) + word[at:]])
        theirs = read(word)
        ours = deep(d["number_of"](word))
        same("number %r" % word, ours, ("None",) if theirs is None else ("Some", theirs), b"")
    return 2 * turns


def reading(d, text):
    """The definitions' reading of a text as the model gives it."""
    kind, what = deep(d["read_text"](text))
    return (None, what) if kind == "bad" else ([(e["key"], e["addr"]) for e in what], None)


def readings(d, m, rng, turns):
    """Texts read, and the texts of what was read."""
    bad = 0
    for _ in range(turns):
        text = carrying.some_text(rng, rng.choice([0, 1, 2, 5, 12]))
        text = text if rng.random() < .3 else carrying.spoiled(rng, text)
        theirs = carrying.model().read_records(text)
        same("reading of %r" % text, reading(d, text), theirs, text)
        bad += theirs[0] is None
        if theirs[0] is not None:
            same("the text of %r" % text, (bytes(deep(d["text_of"](entries(theirs[0])))),), (text,), text)
    return turns, bad


def exported(d, m, rng, img):
    answer, text = carrying.model().export_text(m, img)
    lent = rng.randbytes(rng.choice([0, len(text), len(text) + 3, max(len(text) - 1, 0)]))
    want = carrying.wanted_export(m, img, lent, bytes(carrying.RESULT))
    six = tuple(int.from_bytes(want[2][4 * i:4 * i + 4], "little") for i in range(6))
    ours = outcome(d["export_of"](m.G.number, img, lent))
    same("export into %d bytes" % len(lent), ours[:6] + (bytes(deep(ours[6])),), six + (want[3],), img)


def imported(d, m, rng):
    text = carrying.some_text(rng, rng.choice([0, 1, 3]))
    text = text if rng.random() < .6 else carrying.spoiled(rng, text)
    img = rng.choice([b"\xff", b"\x5a"]) * (3 * m.G.block_size - (rng.random() < .1))
    want = carrying.wanted_import(m, img, text, bytes(carrying.RESULT))
    six = tuple(int.from_bytes(want[2][4 * i:4 * i + 4], "little") for i in range(6))
    same("import of %r" % text, outcome(d["import_of"](m.G.number, img, text)), six + (want[1],), img)
    return want[0], want[1]


def compare(seconds, seed):
    fuzz = reference.need("texts")
    d, rng, met = Definitions(reference.ROOT), random.Random(seed), {}
    m = reference.mu(fuzz, fuzz.SMALL)
    count = numbers(d, rng, 2000)
    read, bad = readings(d, m, rng, 600)
    end = time.time() + seconds
    while time.time() < end or 0 not in met or carrying.TEXT not in met:
        answer, img = imported(d, m, rng)
        met[answer] = met.get(answer, 0) + 1
        exported(d, m, rng, img if answer == 0 else fuzz.hand_image(rng, m, 3))
    print("texts: %d numbers, %d texts (%d refused), imports by answer %s and as many exports agree with the reference model" % (
        count, read, bad, sorted(met.items())))


if __name__ == "__main__":
    compare(float(sys.argv[1]) if len(sys.argv) > 1 else 30, int(sys.argv[2]) if len(sys.argv) > 2 else 1)
