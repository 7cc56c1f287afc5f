"""The definitions of request 8 (crates/open_record, chip_store, live_beside), run as they stand, against the reference model: opening, and lookup, list, insert
and delete with a record. Records are right, stale or outdated; of the last it is looked at what the request says of them.

usage: opened.py [seconds] [seed] [small|large]
"""
import os
import random
import struct
import sys
import time

HERE = os.path.dirname(os.path.abspath(__file__))
sys.path[:0] = [HERE, os.path.dirname(HERE), os.path.join(os.path.dirname(HERE), "differential")]
import listing
import marking
import opening
import reference
from antt import Definitions, Record, deep, force
from compare import listed, outcome, same
from words import numbers, theirs

FIELDS = "root", "number", "most", "height", "next", "erased"
STALE = opening.STALE


def read(d, name, taken=()):
    return d.read("%s/crates/%s.antt" % (reference.ROOT, name.replace("/", "/specs/")), taken)


def definitions():
    """Those of the calls that only read, and those of updates: two sets, as each has names of its own that the other has too."""
    reads, updates = Definitions(reference.ROOT), Definitions(reference.ROOT)
    for name in ("filled", "word"):
        del updates.names[name]
    for name in ("live_words/Words", "live_words/Live"):
        read(updates, name)
    for d in (reads, updates):
        read(d, "chip_read/Chip")
        read(d, "open_record/Opened")
    beside = ["live_beside/" + name for name in ("Table", "Beside", "Collect", "Update", "Calls")]
    for name in ["live_walk/Table", "chip_store/Careful"] + beside:
        read(updates, name)
    return reads, updates


def as_record(numbers):
    return Record(dict(zip(FIELDS, numbers)))


def six(record):
    return tuple(force(force(record).fields[name]) for name in FIELDS)


def opens(d, m, img, met):
    """The opening of an image, sound or not."""
    answer, record, where = m.open(img)
    same("opening", outcome(force(d["opening_of"](m.G.number, img))), (answer, 0, 0, 0) + where + (img,), img)
    same("the record of an image", six(d["opened_of"](m.G.number, img)), record, img)
    met["opened" if answer == 0 else "refused"] = met.get("opened" if answer == 0 else "refused", 0) + 1
    return record


def some_record(rng, m, img, sound, right):
    """The record, and whether the request settles what a call with it does."""
    way = rng.random()
    if not m.good_length(img):
        return tuple(rng.randrange(2 ** 32) for _ in range(6)), True
    if way < .2:
        record = tuple(n % 2 ** 32 for n in opening.stale_one(rng, m, img, right)[0])
    elif way < .35 or not sound:
        record = tuple(n % 2 ** 32 for n in opening.other_one(rng, m, img, right))
    else:
        record = right
    return record, m.stale(img, record) or (sound and record == right)


def reads(d, m, rng, img, record, settled, met):
    """A lookup and a list with the record."""
    keys = [key for key, _ in m.map_of(img)] if m.refusal(img) is None else []
    key = rng.choice(keys + [rng.randrange(2 ** 32)])
    ours = outcome(force(d["lookup_with_of"](m.G.number, img, as_record(record), key)))
    low, high = listing.some_range(rng, keys)
    numbers_lent = tuple(rng.randrange(2 ** 32) for _ in range(rng.randrange(9)))
    ours_listed = listed(force(d["list_with_of"](m.G.number, img, as_record(record), low, high, numbers_lent)))
    if not settled:
        same("a lookup with another record", (ours[0] in (0, 4), ours[6]), (True, img), img)
        same("a list with another record", (ours_listed[0],), (0,), img)
        return
    r, _ = m.record_call(img, record, ("lookup", key))
    same("lookup %d with a record" % key, ours, (r.answer, r.address, 0, 0, r.rule, r.page, img), img)
    want = (r.answer, 0, 0, list(numbers_lent)) if r.answer in (1, STALE) else m.listing(img, low, high, numbers_lent)
    same("list %d to %d with a record" % (low, high), ours_listed, want[:3] + (0, 0, tuple(want[3])), img)
    met["reads"] = met.get("reads", 0) + 1


def settle(m, img, record, call, allowance, words):
    """The model's outcome, record and words of an update, where the request settles them."""
    if m.stale(img, record) and not marking.too_few(m, img, words):
        return (STALE, 0, 0, 0, 0, 0, img), record, numbers(words)
    result, left = theirs(m, img, call, allowance, words)
    return result, record if result[0] == 1 else m.record_of(result[6]), left


def updates(d, m, rng, img, record, settled, call, met):
    """An insert or a delete with the record. Returns the image afterwards."""
    sound = m.refusal(img) is None
    allowance = reference.allowances(rng, len(m.plan(img, call)[1]) if sound else 0)
    words = marking.some_words(rng, m, img)
    reply = force(d["%s_with_of" % call[0]](m.G.number, img, numbers(words), as_record(record), *call[1:], allowance))
    ours = outcome(force(reply.fields["outcome"])), six(reply.fields["opened"]), tuple(deep(reply.fields["words"]))
    if not m.good_length(img):
        same("%s of a bad length" % call[0], ours, ((1, 0, 0, 0, 0, 0, img), record, numbers(words)), img)
        return img
    if not settled and not marking.too_few(m, img, words):
        same("%s with another record" % call[0], (ours[0][0] in (0, 3, 4, 5, 6, 7), opening.careful(m, img, bytes(ours[0][6]), ours[0][2], ours[0][3])),
             (True, True), img)
        met["another pair"] = met.get("another pair", 0) + 1
        return img
    want = settle(m, img, record, call, allowance, words)
    same("%s, allowance %d, record %s" % (call, allowance, record), ours, want, img)
    kind = opening_kind(want[0])
    met[kind] = met.get(kind, 0) + 1
    return want[0][6]


def opening_kind(result):
    return "answer %d%s" % (result[0], " with a collection" if result[3] else "")


def compare(seconds, seed, name):
    fuzz = reference.need("definitions of request 8")
    geometry = next(g for g in reference.geometries(fuzz) if g.name == name)
    (read, write), m, rng, met, calls = definitions(), reference.mu(fuzz, geometry), random.Random(seed), {}, 0
    end = time.time() + seconds
    while time.time() < end:
        img = fuzz.hand_image(rng, m, 3)
        img = rng.choice([img, img, img, img, reference.damaged(rng, m, img), img[:-1]])
        for _ in range(3):
            sound = m.refusal(img) is None
            right = opens(read, m, img, met)
            record, settled = some_record(rng, m, img, sound, right)
            reads(read, m, rng, img, record, settled, met)
            call = fuzz.some_call(rng, m, img, dict(m.map_of(img))) if sound else ("insert", 5, 5)
            img = updates(write, m, rng, img, record, settled, call, met)
            calls += 4
    print("definitions of request 8: %s chip: %d calls agree with the reference model; met: %s" % (
        name, calls, ", ".join("%s %d" % x for x in sorted(met.items()))))


if __name__ == "__main__":
    compare(float(sys.argv[1]) if len(sys.argv) > 1 else 60, int(sys.argv[2]) if len(sys.argv) > 2 else 1,
            sys.argv[3] if len(sys.argv) > 3 else "small")
