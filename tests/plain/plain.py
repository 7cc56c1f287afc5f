"""The compiled calls of request 12's plain tree against the reference model's: returned numbers, result buffers, whole images. Then both
trees on one log: while both accept, one map.

usage: plain.py DRIVER [calls] [seed]

The run goes on until every kind of KINDS was met, and so many calls were made. Where the reference model is missing the test ends with
status 3.
"""
import os
import random
import struct
import subprocess
import sys

sys.path.insert(0, os.path.dirname(os.path.dirname(os.path.abspath(__file__))))
import damage
import images
import reference

CALLS = {"format": 0, "lookup": 1, "insert": 2, "delete": 3}
ANSWERS = ["DONE", "LENGTH", "DAMAGED", "WORN", "ABSENT", "HEIGHT", "ROOM", "STOPPED"]
GIVEN = {"format": [0, 1], "lookup": [0, 1, 2, 4], "insert": [0, 1, 2, 3, 5, 6, 7], "delete": [0, 1, 2, 3, 4, 6, 7]}
LARGEST = 2 ** 32 - 1
RESULT = 24
PLAIN, LIBRARY = 2, 0  # the driver's trees
MOST = {"insert": 9, "delete": 5}  # pages of an update
LEAST_ACCEPTED = 90  # updates of a log that both trees accept
TURNS = 200  # rounds after which a kind that was not met is told as missing

KINDS = ["%s %s" % (name, ANSWERS[a]) for name in CALLS for a in GIVEN[name]]
KINDS += ["%s, short result" % name for name in CALLS]
KINDS += ["%s of %d pages" % (name, n) for name in MOST for n in range(1, MOST[name] + 1)]
KINDS += ["%s of %d pages, as many are erased" % (name, n) for name in MOST for n in range(1, MOST[name] + 1)]
KINDS += ["%s of %d pages, one fewer is erased" % (name, n) for name in MOST for n in range(1, MOST[name] + 1)]
KINDS += ["%s, no page is erased" % refused for refused in ("insert WORN", "delete WORN", "delete ABSENT", "insert HEIGHT")]
KINDS += ["grows to height %d" % h for h in range(2, images.TOP + 1)]
KINDS += ["shrinks by %d" % n for n in range(1, images.TOP)]
KINDS += ["empties %d levels, stays" % n for n in range(1, images.TOP)]
KINDS += [clause for clause in damage.CLAUSES if clause not in ("R7", "R8")]
KINDS += ["R5: %s" % bad for bad in images.BAD_NODES]
KINDS += ["sound, would break R7", "sound, would break R8", "page of several levels", "from the WORN limit on", "pages of two blocks",
          "not the lowest of several erased blocks"]


def buffer(rng):
    """A result buffer with something in it: mostly longer than 24 bytes, now and then too short."""
    return rng.randbytes(rng.choice([RESULT, RESULT + 1, 32, 40, 40, rng.choice([16, RESULT - 1, rng.randrange(RESULT)])]))


class Driver:
    def __init__(self, path):
        self.process = subprocess.Popen([path], stdin=subprocess.PIPE, stdout=subprocess.PIPE)
        self.calls, self.met = 0, {}

    def meet(self, kind):
        self.met[kind] = self.met.get(kind, 0) + 1

    def missing(self):
        return [kind for kind in KINDS if kind not in self.met]

    def call(self, tree, name, img, buf, key=0, address=0, allowance=LARGEST, words=b""):
        """The returned number; image and result buffer afterwards."""
        p, parts = self.process, (img, buf, words)
        p.stdin.write(struct.pack("<9I", CALLS[name], tree, key, address, allowance, *map(len, parts), 0) + b"".join(parts))
        p.stdin.flush()
        answer, left = p.stdout.read(4), [p.stdout.read(len(part)) for part in parts]
        if len(answer) != 4 or [len(part) for part in left] != [len(part) for part in parts]:
            sys.exit("plain: the calls died in %s" % name)
        return struct.unpack("<I", answer)[0], left[0], left[1]

    def hold(self, wanted, name, img, buf, **args):
        """The plain tree's call gives the wanted number, image and buffer."""
        got = self.call(PLAIN, name, img, buf, **args)
        self.calls += 1
        self.meet("%s, short result" % name if len(buf) < RESULT else "%s %s" % (name, ANSWERS[wanted[0]]))
        if got != wanted:
            with open("build/differs.img", "wb") as f:
                f.write(img)
            sys.exit("plain: %s %s: returned %d, wanted %d; image %s; result %s, wanted %s; the image is in build/differs.img" % (
                name, args, got[0], wanted[0], "alike" if got[1] == wanted[1] else "differs", got[2].hex(), wanted[2].hex()))


def result(answer, programmed, img, before, buf, rule=0, page=0):
    """What a call gives for an update: nothing is erased, and with a short buffer nothing is changed."""
    if len(buf) < RESULT:
        return 1, before, buf
    return answer, img, struct.pack("<6I", answer, 0, programmed, 0, rule, page) + buf[RESULT:]


def note_image(driver, m, img):
    """Which of the kinds a sound image is."""
    for rule in (m.R7, m.R8):
        if rule(img) is not None:
            driver.meet("sound, would break %s" % rule.__name__)
    if len(m.live_nodes(img)) > m.L(img):
        driver.meet("page of several levels")


def note_update(driver, m, img, call, stores, after):
    """Which of the kinds a finished update is."""
    pages, free = [store[1] for store in stores], m.F(img)
    height, now = m.height(img), m.height(after)
    driver.meet("%s of %d pages" % (call[0], len(stores)))
    if free == len(stores):
        driver.meet("%s of %d pages, as many are erased" % (call[0], len(stores)))
    if now != height:
        driver.meet("grows to height %d" % now if now > height else "shrinks by %d" % (height - now))
    elif call[0] == "delete" and len(stores) < height:
        driver.meet("empties %d levels, stays" % (height - len(stores)))
    if m.largest_seq(img) == m.G.worn_limit:
        driver.meet("from the WORN limit on")
    if len({m.block_of(p) for p in pages}) > 1:
        driver.meet("pages of two blocks")
    begun = [p for p in pages if p % images.BLOCK == 0]
    if any(all(m.erased(img, q) for q in m.block_pages(b)) for p in begun[:1] for b in range(m.block_of(p))):
        driver.meet("not the lowest of several erased blocks")


def update(driver, m, rng, img, call):
    """An update with every allowance. Returns the image after the last store, now and then after an earlier one."""
    bad = m.refusal(img)
    args = dict(key=call[1]) if call[0] == "delete" else dict(key=call[1], address=call[2])
    plan = None if bad else m.plan_detail(img, call)
    if bad or plan["answer"]:
        answer, where = (bad.answer, (bad.rule, bad.page)) if bad else (plan["answer"], (0, 0))
        buf = buffer(rng)
        driver.hold(result(answer, 0, img, img, buf, *where), call[0], img, buf, allowance=rng.choice([0, 1, 9, LARGEST]), **args)
        if answer == 6 and m.F(img) == plan["k"] - 1:
            driver.meet("%s of %d pages, one fewer is erased" % (call[0], plan["k"]))
        if answer in (3, 4, 5) and m.F(img) == 0:
            driver.meet("%s %s, no page is erased" % (call[0], ANSWERS[answer]))
        return img
    stores, now, all_of_them = plan["stores"], img, [img]
    for made in range(len(stores) + 2):
        buf = buffer(rng)
        wanted = result(7 if made < len(stores) else 0, min(made, len(stores)), now, img, buf)
        driver.hold(wanted, call[0], img, buf, allowance=LARGEST if made > len(stores) else made, **args)
        if made < len(stores):
            now = m.apply_store(now, stores[made])
            all_of_them.append(now)
    note_update(driver, m, img, call, stores, now)
    return now if rng.random() < .8 else rng.choice(all_of_them)


def lookups(driver, m, rng, img, keys):
    for key in keys:
        buf = buffer(rng)
        driver.hold(m.c_call("lookup", img, buf, key), "lookup", img, buf, key=key)


def formatted(driver, m, rng, img):
    """What a format leaves; a short buffer leaves all."""
    buf = buffer(rng)
    wanted = m.c_call("format", img, buf)
    driver.hold(wanted, "format", img, buf)
    return m.format(img).img


def calls_of(m, rng, fuzz, img, tree):
    """Updates of the path: a new key and two present ones of the fullest leaf, a key of the thinnest one gone, and any update."""
    known = dict(m.map_of(img))
    full, thin = tree.leaf_keys(True), tree.leaf_keys(False)
    calls = [("insert", images.absent(rng, known, full), rng.randrange(2 ** 32)), fuzz.some_call(rng, m, img, known)]
    if full:
        calls += [("insert", rng.choice(full), rng.randrange(2 ** 32)), ("delete", rng.choice(full))]
    if thin:
        calls.append(("delete", rng.choice(thin)))
    return calls


def edges(driver, m, rng, fuzz, tree, worn=.1):
    """Updates of a tree, each on an image with exactly as many erased pages as it needs, on one with one fewer, and on one with more; then one
    update more. Now and then the sequence numbers are near the limit."""
    img = tree.image(m, rng.choice([9, 40, 66, 96, 97]), worn=rng.random() < worn)
    note_image(driver, m, img)
    for call in calls_of(m, rng, fuzz, img, tree):
        need = m.plan_detail(img, call)["k"]
        for free in (need, need - 1) if need else ():
            scarce = tree.image(m, free)
            lookups(driver, m, rng, scarce, [call[1]])
            update(driver, m, rng, scarce, call)
            note_image(driver, m, scarce)
        after = update(driver, m, rng, img, call)
        lookups(driver, m, rng, after, [call[1]])
    update(driver, m, rng, after, fuzz.some_call(rng, m, after, dict(m.map_of(after))))


def full_paths(driver, m, fuzz, rng):
    """Nodes of 64 entries from the leaf up to some level: splits, growth, HEIGHT."""
    height = rng.randint(1, images.TOP)
    edges(driver, m, rng, fuzz, images.splitting(rng, fuzz, height, rng.choice([height, rng.randint(0, height)])))


def highest(driver, m, fuzz, rng):
    """Height 5 and 64 entries on the whole path: a new key is HEIGHT, with no erased page too, a present one is not; one key less, and that key
    again."""
    tree = images.splitting(rng, fuzz, images.TOP, images.TOP)
    edges(driver, m, rng, fuzz, tree, 0)
    img, key = tree.image(m, 20), rng.choice(tree.leaf_keys(True))
    img = update(driver, m, rng, img, ("delete", key))
    update(driver, m, rng, img, ("insert", key, 5))
    img = tree.image(m, 0)
    new = images.absent(rng, dict(m.map_of(img)), tree.leaf_keys(True))
    for call in (("insert", new, 5), ("delete", new), ("insert", key, 5), ("delete", key)):
        update(driver, m, rng, img, call)


def shrinking(driver, m, fuzz, rng):
    """Trees that lose one to four levels at once."""
    height = rng.randint(2, images.TOP)
    edges(driver, m, rng, fuzz, images.Tree(rng, fuzz, images.shrinking(rng, fuzz, height, rng.randint(1, height - 1))))


def emptied(driver, m, fuzz, rng):
    """A thin path below a node with more entries: levels are gone with the leaf's key."""
    height = rng.randint(2, images.TOP)
    edges(driver, m, rng, fuzz, images.Tree(rng, fuzz, images.emptied(rng, fuzz, height, rng.randint(1, height - 1))))


def all_shapes(driver, m, fuzz, rng):
    """Each number of pages that an update can take: every height with every number of levels that are full, that shrink, that are emptied."""
    for height in range(1, images.TOP + 1):
        trees = [images.splitting(rng, fuzz, height, full) for full in range(height + 1)]
        for shape in (images.shrinking, images.emptied):
            trees += [images.Tree(rng, fuzz, shape(rng, fuzz, height, levels)) for levels in range(1, height)]
        for tree in trees:
            edges(driver, m, rng, fuzz, tree, 0)


def any_trees(driver, m, fuzz, rng):
    edges(driver, m, rng, fuzz, images.Tree(rng, fuzz, images.any_tree(rng, fuzz, rng.randint(1, images.TOP))))


def several_levels(driver, m, fuzz, rng):
    """Pages on which nodes of several levels share slot 0."""
    height = rng.randint(2, images.TOP)
    edges(driver, m, rng, fuzz, images.on_shared_page(rng, fuzz, height, list(range(1, rng.randint(2, height) + 1))))


def a_log(driver, m, fuzz, rng):
    """From format: rising, falling, random or dense keys, deletes, replaced addresses, stopped updates, up to ROOM and some calls more."""
    img = formatted(driver, m, rng, rng.randbytes(1) * (m.G.block_size * rng.choice([3, 3, 4])))
    if m.first_damage(img):
        return
    way, step, refused = rng.randrange(4), 0, 0
    while refused < 3:
        step += rng.randrange(1, 4)
        known = m.map_of(img)
        key = [step, LARGEST - step, rng.randrange(2 ** 32), rng.randrange(150)][way]
        if known and rng.random() < .2:
            key = rng.choice(known)[0]
        call = ("delete", key) if rng.random() < .2 else ("insert", key, rng.randrange(2 ** 32))
        refused += m.plan(img, call)[0] == 6
        img = update(driver, m, rng, img, call)
        lookups(driver, m, rng, img, [key])


def every_call(driver, m, rng, img):
    lookups(driver, m, rng, img, [rng.randrange(2 ** 32)])
    update(driver, m, rng, img, ("insert", rng.randrange(2 ** 32), 5))
    update(driver, m, rng, img, ("delete", rng.randrange(2 ** 32)))
    formatted(driver, m, rng, img)


def damaged(driver, m, fuzz, rng):
    """Images for each rule and clause, two rules broken at once, damage by chance."""
    bench = images.Bench(rng, fuzz, m)
    broken = damage.edited(bench, 1) + [images.gap(rng, fuzz, m) for _ in range(2)]
    broken += [reference.damaged(rng, m, bench.sound()) for _ in range(6)]
    for img in broken:
        if m.first_damage(img):
            driver.meet(damage.clause(m, img))
        every_call(driver, m, rng, img)


def bad_nodes(driver, m, fuzz, rng):
    """Each way in which a node breaks R5."""
    for bad in images.BAD_NODES:
        driver.meet("R5: %s" % bad)
        every_call(driver, m, rng, images.bad_node(rng, fuzz, m, bad))


def no_images(driver, m, fuzz, rng):
    """Random bytes, lengths that are none, all 255."""
    sound = images.Bench(rng, fuzz, m).sound()
    for img in (rng.randbytes(m.G.block_size * rng.choice([2, 3])), rng.randbytes(rng.randrange(4000)), sound[:-1], sound + b"\xff", b"",
                sound[:2 * m.G.block_size], b"\xff" * len(sound), b"\xff" * (1025 * m.G.block_size if rng.random() < .1 else 5)):
        every_call(driver, m, rng, img)


def worn(driver, m, fuzz, rng):
    """The largest sequence number at the limit, where an update of five or nine pages is made, and above it, where none is, with no erased page
    either."""
    height = rng.choice([2, 4])
    tree = images.splitting(rng, fuzz, height, height)
    for number, free in ((m.G.worn_limit, 9), (m.G.worn_limit + 1, 30), (m.G.worn_limit + 1, 0), (LARGEST, 0)):
        img = bytearray(tree.image(m, free))
        page = m.page_of_largest_seq(bytes(img))
        img[page * m.G.page_size + m.G.main:page * m.G.page_size + m.G.main + 4] = number.to_bytes(4, "little")
        for call in calls_of(m, rng, fuzz, bytes(img), tree):
            update(driver, m, rng, bytes(img), call)


def map_of(driver, tree, img, keys, rng):
    """The map as the tree's lookups of these keys, and of neighbours of some, find it."""
    found = {}
    for key in keys:
        for near in {key, max(key - 1, 0), min(key + 1, LARGEST)} if rng.random() < .1 else {key}:
            answer, _, buf = driver.call(tree, "lookup", img, bytes(RESULT), key=near)
            if answer == 0:
                found[near] = struct.unpack("<I", buf[4:8])[0]
            elif answer != 4:
                sys.exit("plain: a lookup of %d is %d" % (near, answer))
    return found


def both_trees(driver, m, mu, rng, blocks, updates):
    """One log through both; how many updates both accepted. While they do, answers and maps are alike."""
    img, words = {}, bytes(4 * blocks)
    for tree in (PLAIN, LIBRARY):
        img[tree] = driver.call(tree, "format", m.blank(blocks), bytes(RESULT))[1]
    known, way, accepted = {}, rng.randrange(3), 0
    for step in range(updates):
        key = [step, rng.randrange(2 ** 32), rng.randrange(300)][way]
        if known and rng.random() < .3:
            key = rng.choice(list(known))
        name = "delete" if rng.random() < .2 else "insert"
        address = rng.randrange(2 ** 32)
        made = {tree: driver.call(tree, name, img[tree], bytes(RESULT), key=key, address=address, words=words) for tree in img}
        answers = {tree: made[tree][0] for tree in made}
        if answers[PLAIN] == 6 or answers[LIBRARY] in (5, 6):
            break
        wanted = 4 if name == "delete" and key not in known else 0
        if set(answers.values()) != {wanted}:
            sys.exit("plain: both trees, %d blocks: %s of %d: the plain tree %d, the library %d, wanted %d" % (
                blocks, name, key, answers[PLAIN], answers[LIBRARY], wanted))
        accepted += 1
        img = {tree: made[tree][1] for tree in made}
        if wanted == 0:
            known.pop(key, None)
            known.update({key: address} if name == "insert" else {})
        asked = list(known) if step % 100 == 99 else [key] + rng.sample(list(known), min(2, len(known)))
        there = [map_of(driver, tree, img[tree], asked, random.Random(step)) for tree in img]
        if there[0] != there[1] or any(known.get(k) != a for k, a in there[0].items()) or not set(asked) & set(known) <= set(there[0]):
            sys.exit("plain: both trees, %d blocks: after %s of %d the lookups differ" % (blocks, name, key))
    read = [dict(m.map_of(img[PLAIN])), dict(mu.map_of(img[LIBRARY]))]
    if read != [known, known] or accepted < LEAST_ACCEPTED:
        sys.exit("plain: both trees, %d blocks: the maps differ after %d updates, or these are few" % (blocks, accepted))
    return accepted


def tell(driver):
    print("plain: %d calls agree with the reference model" % driver.calls)
    print("  met: " + ", ".join("%s: %d" % (kind, driver.met.get(kind, 0)) for kind in KINDS))
    if driver.missing():
        sys.exit("plain: never met " + ", ".join(driver.missing()))


def main():
    fuzz = reference.need("plain")
    wanted = int(sys.argv[2]) if len(sys.argv) > 2 else 6000
    rng = random.Random(int(sys.argv[3]) if len(sys.argv) > 3 else 1)
    driver, m, mu = Driver(sys.argv[1]), images.plain(fuzz), reference.mu(fuzz, fuzz.SMALL)
    kinds = [damaged, bad_nodes, full_paths, shrinking, emptied, any_trees, several_levels, a_log, no_images, worn]
    for kind in [highest, all_shapes] + kinds:
        kind(driver, m, fuzz, rng)
    turns = 0
    while driver.calls < wanted or (driver.missing() and turns < TURNS):
        rng.choice(kinds)(driver, m, fuzz, rng)
        turns += 1
    tell(driver)
    done = ["%d updates on %d blocks" % (both_trees(driver, m, mu, rng, blocks, most), blocks) for blocks, most in ((3, 400), (20, 400), (64, 200))]
    print("  both trees hold one map: " + ", ".join(done))


if __name__ == "__main__":
    main()
