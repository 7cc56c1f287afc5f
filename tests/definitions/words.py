"""The definitions of request 7 (crates/live_words), run as they stand, against the reference model: inserts and deletes with lent words.

usage: words.py [seconds] [seed] [small|large]
"""
import os
import random
import struct
import sys
import time

HERE = os.path.dirname(os.path.abspath(__file__))
sys.path[:0] = [HERE, os.path.dirname(HERE), os.path.join(os.path.dirname(HERE), "differential")]
import marking
import reference
from antt import Definitions, deep, force
from compare import outcome, same

RESULT = bytes(marking.RESULT)


def definitions():
    """Those of crates/live_words over those of crates/model. Two names that other requests have as well are theirs."""
    d = Definitions(reference.ROOT)
    for name in ("filled", "word"):
        del d.names[name]
    for name in ("Words", "Live"):
        d.read("%s/crates/live_words/specs/%s.antt" % (reference.ROOT, name))
    return d


def numbers(words):
    return struct.unpack("<%dI" % (len(words) // 4), words)


def theirs(m, img, call, allowance, words):
    """The model's outcome, and its words as numbers."""
    r = m.insert(img, call[1], call[2], allowance) if call[0] == "insert" else m.delete(img, call[1], allowance)
    result = struct.pack("<6I", r.answer, 0, r.programmed, r.erased, r.rule, r.page)
    _, after, six, left = marking.with_words(m, img, RESULT, words, (r.answer, r.img, result))
    return struct.unpack("<6I", six) + (after,), numbers(left)


def ours(d, m, img, call, allowance, words):
    """The same by the definitions, the geometry by its number."""
    reply = force(d["%s_live_of" % call[0]](m.G.number, img, numbers(words), *call[1:], allowance))
    return outcome(force(reply.fields["outcome"])), tuple(deep(reply.fields["words"]))


def one_call(d, m, rng, img, call, met):
    """One update with words of any number. Returns the image afterwards."""
    sound = m.refusal(img) is None
    allowance = reference.allowances(rng, len(m.plan(img, call)[1]) if sound else 0)
    words = marking.some_words(rng, m, img)
    want = theirs(m, img, call, allowance, words)
    same("%s, allowance %d, %d words" % (call, allowance, len(words) // 4), ours(d, m, img, call, allowance, words), want, img)
    for kind in marking.kinds(m, img, RESULT, words, (want[0][0], want[0][6], struct.pack("<6I", *want[0][:6]))):
        met[kind] = met.get(kind, 0) + 1
    return want[0][6]


def some_image(rng, fuzz, m):
    """A sound image that was made by hand, one that is not sound, or one of a bad length."""
    img = fuzz.hand_image(rng, m, 3)
    return rng.choice([img, img, img, img, reference.damaged(rng, m, img), img[:-1]])


def no_chip(d, rng):
    """A number that is no chip's leaves image and words."""
    img, words = b"\xff" * 50688, tuple(rng.randrange(2 ** 32) for _ in range(5))
    for name, args in (("insert_live_of", (1, 2, 3)), ("delete_live_of", (1, 3))):
        reply = force(d[name](2, img, words, *args))
        same(name, (outcome(force(reply.fields["outcome"])), tuple(deep(reply.fields["words"]))), ((1, 0, 0, 0, 0, 0, img), words), img)


def compare(seconds, seed, name):
    fuzz = reference.need("definitions of request 7")
    geometry = next(g for g in reference.geometries(fuzz) if g.name == name)
    d, m, rng, met, calls = definitions(), reference.mu(fuzz, geometry), random.Random(seed), {}, 0
    no_chip(d, rng)
    end = time.time() + seconds
    while time.time() < end:
        img = some_image(rng, fuzz, m)
        for _ in range(3):
            sound = m.refusal(img) is None
            img = one_call(d, m, rng, img, fuzz.some_call(rng, m, img, dict(m.map_of(img))) if sound else ("insert", 5, 5), met)
            calls += 1
    print("definitions of request 7: %s chip: %d calls agree with the reference model; met: %s" % (
        name, calls, ", ".join("%s %d" % x for x in sorted(met.items()))))


if __name__ == "__main__":
    compare(float(sys.argv[1]) if len(sys.argv) > 1 else 60, int(sys.argv[2]) if len(sys.argv) > 2 else 1,
            sys.argv[3] if len(sys.argv) > 3 else "small")
