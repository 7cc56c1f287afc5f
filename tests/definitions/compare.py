"""The definitions of crates/model, run as they stand, against the reference model: answers, counts, rule and
page, whole images, verdicts; first on images that break each clause of request 5.

usage: compare.py [seconds] [seed] [small|large]
"""
import os
import random
import sys
import time

HERE = os.path.dirname(os.path.abspath(__file__))
sys.path[:0] = [HERE, os.path.dirname(HERE)]
import damage
import reference
from antt import Definitions, deep, force, told

NAMES = "answer", "address", "programmed", "erased", "rule", "page", "image"


def outcome(record):
    return tuple(force(record.fields[name]) for name in NAMES)


def listed(record):
    return tuple(deep(record.fields[name]) for name in ("answer", "exist", "written", "rule", "page", "buffer"))


def listing(rng, d, m, small, img, keys, broke):
    """One listing: keys of the map and beside them, low above high too, buffers of any small length."""
    near = [k + s for k in rng.sample(keys, min(2, len(keys))) for s in (-1, 0, 1) if 0 <= k + s < 2 ** 32]
    low, high = rng.choice(near + [0]), rng.choice(near + [2 ** 32 - 1])
    buffer = [rng.randrange(2 ** 32) for _ in range(rng.choice([0, 1, 2, 3, 4, 5, 8, 9, 2 * len(keys), 2 * len(keys) + 3]))]
    answer, exist, written, after = m.listing(img, low, high, buffer)
    rule, page = broke if answer == 2 else (0, 0)
    same("listing %d to %d, %d numbers" % (low, high, len(buffer)), listed(d["listing"](small, img, low, high, tuple(buffer))),
         (answer, exist, written, rule, page, tuple(after)), img)
    return "%s pairs exist, %s written" % ("no" if exist == 0 else "some", "all" if written == exist else "not all")


def same(what, ours, theirs, img):
    if ours != theirs:
        with open("differs.img", "wb") as f:
            f.write(img)
        sys.exit("%s: the definitions say %s, the reference %s; the image is in differs.img" % (what, ours[:6], theirs[:6]))


def patrols(d, m, rng, turns, met):
    """Halves with up to four flipped bits, in the data, the code or both, and halves that no image has."""
    g = m.G
    for turn in range(turns):
        page, half = rng.randrange(3 * g.pages_per_block), rng.randrange(g.halves)
        img = bytearray(b"\xff" * (3 * g.block_size))
        img[page * g.page_size:(page + 1) * g.page_size] = rng.choice([rng.randbytes(g.page_size), bytes(g.page_size)])
        img = bytearray(reference.recoded(m, bytes(img)))
        at, code = page * g.page_size + 256 * half, reference.code_place(g, page, half)
        if turn < 8:
            same("the code of a half", (d["plain_code"](bytes(img), at),), (d["fresh_code"](bytes(img), at),), bytes(img))
        for _ in range(rng.choice([0, 1, 1, 1, 2, 2, 3, 4])):
            n = rng.randrange(2048 + 24) if rng.random() < .5 else rng.choice([rng.randrange(2048), 2048 + rng.randrange(24)])
            i = at + n // 8 if n < 2048 else code + (n - 2048) // 8
            img[i] ^= 1 << n % 8
        img, u = bytes(img), rng.random()
        if u < .05:
            page = rng.choice([3 * g.pages_per_block, 2 ** 32 - 1])
        elif u < .1:
            half = rng.choice([g.halves, 2 ** 32 - 1])
        elif u < .13:
            img = img[:-1]
        theirs = reference.patrolled(m, img, page, half)
        ours = outcome(d["patrol_of"](g.number, img, page, half))
        same("patrol of half %d of page %d" % (half, page), ours, theirs, img)
        key = "patrol LENGTH" if theirs[0] else "patrol %d" % theirs[1]
        met[key] = met.get(key, 0) + 1
    img = b"\xff" * 50688
    same("patrol of geometry 2", outcome(d["patrol_of"](2, img, 0, 0)), (1, 0, 0, 0, 0, 0, img), img)


def compare(seconds, seed, name):
    fuzz = reference.need("definitions")
    geometry = next(g for g in reference.geometries(fuzz) if g.name == name)
    d, m, rng = Definitions(reference.ROOT), reference.mu(fuzz, geometry), random.Random(seed)
    chip, calls, met = force(d[name]), 0, {}
    rest = lambda r: (r.answer, r.address, r.programmed, r.erased, r.rule, r.page, r.img)
    broken = damage.images(rng, fuzz, m)  # each clause of request 5 comes first
    edges = [geometry.r8_least - 1, geometry.r8_least]  # both sides of R8 come first
    patrols(d, m, rng, 300, met)
    end = time.time() + seconds
    while time.time() < end or edges or broken:
        img = broken.pop() if broken else fuzz.hand_image(rng, m, rng.choice([3, 3, 3, 4, 5]))
        u = rng.random()
        if m.first_damage(img):
            pass
        elif edges or u > .9:
            img = reference.with_free(rng, m, fuzz, edges.pop() if edges else geometry.r8_least - rng.randrange(2))
        elif u < .4:
            img = reference.damaged(rng, m, img) if u < .3 else reference.loose(rng, m, fuzz, 3)
        verdict = told(d["verdict"](chip, m.B(img), img))
        broke = m.first_damage(img)
        same("verdict", verdict, ("Broken",) + broke if broke else ("Sound",), img)
        key = "sound" if broke is None else damage.clause(m, img)
        met[key] = met.get(key, 0) + 1
        if broke is None and m.T(img) - m.L(img) == geometry.r8_least:
            met["at the edge"] = met.get("at the edge", 0) + 1
        model = dict(m.map_of(img)) if broke is None else {}
        for _ in range(3 if broke is None else 1):
            call = fuzz.some_call(rng, m, img, model) if broke is None else ("insert", 5, 5)
            needed = len(m.plan(img, call)[1]) if broke is None else 0
            allowance = reference.allowances(rng, needed)
            if call[0] == "insert":
                ours, theirs = d["insert"](chip, img, call[1], call[2], allowance), m.insert(img, call[1], call[2], allowance)
            else:
                ours, theirs = d["delete"](chip, img, call[1], allowance), m.delete(img, call[1], allowance)
            same("%s allowance %d" % (call, allowance), outcome(ours), rest(theirs), img)
            same("lookup", outcome(d["lookup"](chip, img, call[1])), rest(m.lookup(img, call[1])), img)
            kind = listing(rng, d, m, chip, img, sorted(model), broke)
            met[kind] = met.get(kind, 0) + 1
            calls += 3
            if broke:
                same("delete", outcome(d["delete"](chip, img, 5, 1)), rest(m.delete(img, 5, 1)), img)
            met["answer %d" % theirs.answer] = met.get("answer %d" % theirs.answer, 0) + 1
            if theirs.answer in (0, 7):
                img = theirs.img
                model = dict(m.map_of(img))
    three = 3 * geometry.block_size
    for cut in (0, 2 * geometry.block_size, three - 1, three):
        img = b"\xff" * cut
        same("format of %d" % cut, outcome(d["format"](chip, img)), rest(m.format(img)), img)
        same("lookup in %d" % cut, outcome(d["lookup"](chip, img, 1)), rest(m.lookup(img, 1)), img)
        listing(rng, d, m, chip, img, [], m.first_damage(img) if cut == three else None)
    missing = [c for c in damage.CLAUSES if c not in met]
    if missing:
        sys.exit("definitions: no image for " + ", ".join(missing))
    print("definitions: %s chip: %d calls agree with the reference model; met: %s" % (name, calls, " ".join("%s %d" % x for x in sorted(met.items()))))


if __name__ == "__main__":
    compare(float(sys.argv[1]) if len(sys.argv) > 1 else 60, int(sys.argv[2]) if len(sys.argv) > 2 else 1,
            sys.argv[3] if len(sys.argv) > 3 else "small")
