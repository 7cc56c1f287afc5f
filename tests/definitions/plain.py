"""The definitions of request 12, run as they stand, against the reference model's plain tree: verdicts, lookups, inserts and deletes
(crates/model/specs/Plain.antt), and what the comparing program reports of short logs (crates/compare_scores/specs).

usage: plain.py [seconds] [seed]
"""
import os
import random
import sys
import time

HERE = os.path.dirname(os.path.abspath(__file__))
sys.path[:0] = [HERE, os.path.dirname(HERE), os.path.join(os.path.dirname(HERE), "plain"), os.path.join(os.path.dirname(HERE), "replay")]
import damage
import images
import logs
import reference
import replay
from antt import deep, force, told
from compare import outcome, same

FILES = [("model", "Plain"), ("compare_scores", "Ratio"), ("compare_scores", "Scores"), ("compare_scores", "Compare")]


def definitions():
    """Those of the plain tree and of the comparing program over those of the model and of request 3, some of whose names they have too."""
    d, own = replay.definitions(), {}
    for crate, name in FILES:
        own = d.read("%s/crates/%s/specs/%s.antt" % (reference.ROOT, crate, name), own)
    return d


def rest(r):
    return r.answer, r.address, r.programmed, r.erased, r.rule, r.page, r.img


def add(met, kind):
    met[kind] = met.get(kind, 0) + 1


def judged(d, plain, m, img, met):
    """The verdict; whether the image is sound."""
    broke = m.first_damage(img)
    same("verdict", told(d["verdict"](plain, m.B(img), img)), ("Broken",) + broke if broke else ("Sound",), img)
    add(met, "sound" if broke is None else damage.clause(m, img))
    return broke is None


def updated(d, plain, m, rng, img, call, met):
    """One update with an allowance around what it needs, and a lookup of its key. Returns the image that is left."""
    needed = len(m.plan(img, call)[1]) if m.refusal(img) is None else 0
    allowance = reference.allowances(rng, needed)
    name = "plain_insert" if call[0] == "insert" else "plain_delete"
    theirs = m.run(img, call, allowance)
    same("%s allowance %d" % (call, allowance), outcome(d[name](plain, img, *call[1:], allowance)), rest(theirs), img)
    same("lookup", outcome(d["lookup"](plain, img, call[1])), rest(m.lookup(img, call[1])), img)
    add(met, "%s answer %d" % (call[0], theirs.answer) if theirs.answer else "%s of %d pages" % (call[0], needed))
    return theirs.img


def planned(rng, fuzz, m, most):
    """A sound image and some updates of it: full paths, trees that shrink, pages of several levels, any trees."""
    kind, height = rng.randrange(4), rng.randint(1, images.TOP)
    if kind == 0:
        tree = images.splitting(rng, fuzz, height, rng.randint(0, height))
    elif kind == 1:
        height = max(height, 2)
        tree = images.Tree(rng, fuzz, images.shrinking(rng, fuzz, height, rng.randint(1, height - 1)))
    elif kind == 2 and height > 1:
        tree = images.on_shared_page(rng, fuzz, height, list(range(1, rng.randint(2, height) + 1)))
    else:
        tree = images.Tree(rng, fuzz, images.any_tree(rng, fuzz, height))
    if len(tree.pages) > most:
        return planned(rng, fuzz, m, most)
    img = tree.image(m, rng.choice([0, 1, 2, 3, 4, 5, 7, 9, 40]), worn=rng.random() < .1)
    known = dict(m.map_of(img))
    calls = [("insert", images.absent(rng, known, tree.leaf_keys(True)), 5), fuzz.some_call(rng, m, img, known)]
    if tree.leaf_keys(False):
        calls.append(("delete", rng.choice(tree.leaf_keys(False))))
    rng.shuffle(calls)
    return img, calls


def high(d, plain, m, rng, fuzz, met):
    """What is slow, once: inserts of 6 to 9 pages, and HEIGHT."""
    for height, full, pages in ((5, 1, 6), (3, 3, 7), (5, 3, 8), (5, 4, 9), (4, 4, 9), (5, 5, 0)):
        tree = images.splitting(rng, fuzz, height, full)
        img = tree.image(m, 9)
        call = "insert", images.absent(rng, dict(m.map_of(img)), tree.leaf_keys(True)), 5
        theirs = m.run(img, call)
        same("%s" % (call,), outcome(d["plain_insert"](plain, img, *call[1:], 2 ** 32 - 1)), rest(theirs), img)
        if theirs.numbers() != (0 if pages else 5, 0, pages, 0):
            sys.exit("definitions of request 12: an insert of %d pages at height %d is none" % (pages, height))
        add(met, "insert of %d pages" % pages if pages else "insert answer 5")


def formats(d, plain, m):
    for length in (0, 2 * m.G.block_size, 3 * m.G.block_size - 1, 3 * m.G.block_size):
        img = b"\x5a" * length
        same("format of %d" % length, outcome(d["format"](plain, img)), rest(m.format(img)), img)
        same("insert in %d" % length, outcome(d["plain_insert"](plain, img, 1, 2, 3)), rest(m.insert(img, 1, 2, 3)), img)
        same("delete in %d" % length, outcome(d["plain_delete"](plain, img, 1, 3)), rest(m.delete(img, 1, 3)), img)


def ended_at(model, trees, text):
    """The line at which a tree answers by 5, 6 or 7, or none."""
    at = [m.blank(3) for m in trees]
    for number, (line, _) in enumerate(model.lines_of(text)):
        done = [model.step(m, img, *model.parse_line(line)) for m, img in zip(trees, at)]
        if any(r.answer in (5, 6, 7) for r in done):
            return number
        at = [r.img for r in done]
    return None


def reports(d, fuzz, m, rng, met, texts):
    """What the comparing program prints. A line of another form that is met is E and its number; the reference model ends there, and reports."""
    model, mu = sys.modules["mutree_model"], reference.mu(fuzz, fuzz.SMALL)
    said = lambda text: bytes(deep(d["compared"](tuple(text))))
    for _ in range(texts):
        text = logs.log(rng.choice([8, 15, 25]), rng.random())
        report = b"%d\t%d\t%d\t%d\t%d\n" % model.compare(mu, m, text)
        stopped = ended_at(model, [mu, m], text) is not None
        replay.same(text, said(text), report)
        add(met, "report, stopped" if stopped else "report")
        bad = text + rng.choice([b"X\n", b"D\t1", b"F\t\n", b"I\t01\t1\n"])
        replay.same(bad, said(bad), report if stopped else b"E\t%d\n" % (text.count(b"\n") + 1))


def compare(seconds, seed):
    fuzz = reference.need("definitions of request 12")
    d, m, rng, met, calls = definitions(), images.plain(fuzz), random.Random(seed), {}, 0
    plain = force(d["plain"])
    formats(d, plain, m)
    reports(d, fuzz, m, rng, met, 8)
    high(d, plain, m, rng, fuzz, met)
    broken = damage.edited(images.Bench(rng, fuzz, m), 1) + [images.gap(rng, fuzz, m) for _ in range(3)]
    broken += [images.bad_node(rng, fuzz, m, bad) for bad in images.BAD_NODES]
    for img in broken:
        judged(d, plain, m, img, met)
        updated(d, plain, m, rng, img, ("insert", 5, 5), met)
        updated(d, plain, m, rng, img, ("delete", 5), met)
    end = time.time() + seconds
    while time.time() < end:
        img, updates = planned(rng, fuzz, m, 200)
        judged(d, plain, m, img, met)
        for call in updates:
            img = updated(d, plain, m, rng, img, call, met)
            calls += 2
    print("definitions of request 12: %d calls agree with the reference model; met: %s" % (calls, ", ".join("%s %d" % x for x in sorted(met.items()))))


if __name__ == "__main__":
    compare(float(sys.argv[1]) if len(sys.argv) > 1 else 60, int(sys.argv[2]) if len(sys.argv) > 2 else 1)
