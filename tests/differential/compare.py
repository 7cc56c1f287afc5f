"""The compiled library against the reference model of the documents, on both chips: returned numbers, result buffers and whole images.

usage: compare.py DRIVER [calls] [seed] [small|large]       both chips if none is named; on the large one a quarter of the calls

The reference model is no part of this repository (see tests/reference.py); where it is missing the test ends with status 3.
"""
import os
import random
import struct
import subprocess
import sys

sys.path.insert(0, os.path.dirname(os.path.dirname(os.path.abspath(__file__))))
import carrying
import damage
import listing
import marking
import opening
import reference

CALLS = {"format": 0, "lookup": 1, "insert": 2, "delete": 3, "patrol": 4, "list": 5, "export": 6, "import": 7,
         "open": 8, "lookup_opened": 9, "insert_opened": 10, "delete_opened": 11, "list_opened": 12}
LENDS = "insert", "delete", "list", "export", "import", "insert_opened", "delete_opened", "list_opened"  # calls that are lent words, numbers, or a text
RECORDS = "open", "lookup_opened", "insert_opened", "delete_opened", "list_opened"  # calls with a record
FOUND = ["clean", "data mended", "code mended", "beyond repair"]
ANSWERS = ["DONE", "LENGTH", "DAMAGED", "WORN", "ABSENT", "HEIGHT", "ROOM", "STOPPED", "STALE", "TEXT"]
GIVEN = [0, 1, 2, 3, 4, 5, 6, 7, 8, 9]
LARGEST = 2 ** 32 - 1
RESULT = 24  # bytes of the result: six numbers


def numbers(buf):
    """The six numbers of a result, or the bytes of a buffer that is too short; the bytes after them."""
    return struct.unpack("<6I", buf[:RESULT]) + (buf[RESULT:].hex(),) if len(buf) >= RESULT else buf.hex()


class Library:
    def __init__(self, driver, geometry):
        self.process = subprocess.Popen([driver], stdin=subprocess.PIPE, stdout=subprocess.PIPE)
        self.geometry = geometry
        self.calls, self.met = 0, {}
        self.marked = {}  # kinds of words of live pages (marking.KINDS), and how many there were
        self.listed = {}  # kinds of lists (listing.KINDS)
        self.carried = {}  # kinds of exports and imports (carrying.KINDS)
        self.opened = {}  # kinds of openings and calls with a record (opening.KINDS)
        self.patrols = [0] * len(FOUND)  # halves by what a patrol found there
        self.clauses = {}  # clauses of request 5, and how many images broke each
        self.edges, self.beyond = 0, 0  # sound images with T - L = 64 (128), and images that break R8 alone

    def call(self, name, img, buf, key=0, address=0, allowance=LARGEST, number=None, lent=b"", record=b""):
        p, parts = self.process, (img, buf, lent, record)
        number = self.geometry.number if number is None else number
        p.stdin.write(struct.pack("<9I", CALLS[name], number, key, address, allowance, *map(len, parts)) + b"".join(parts))
        p.stdin.flush()
        answer, left = p.stdout.read(4), [p.stdout.read(len(part)) for part in parts]
        if len(answer) != 4 or [len(part) for part in left] != [len(part) for part in parts]:
            sys.exit("differential: the library died in %s" % name)
        return (struct.unpack("<I", answer)[0], *left[:2]) + ((left[2],) if name in LENDS else ()) + ((left[3],) if name in RECORDS else ())

    def differs(self, img, text, lent=b""):
        with open("build/differs.img", "wb") as f:
            f.write(img)
        with open("build/differs.lent", "wb") as f:
            f.write(lent)
        sys.exit("differential: %s chip: %s; the image is in build/differs.img" % (self.geometry.name, text))

    def hold(self, wanted, name, img, buf, **args):
        got = self.call(name, img, buf, **args)
        self.calls += 1
        key = name, wanted[0]
        self.met[key] = self.met.get(key, 0) + 1
        if got != wanted:
            lent = args.pop("lent", b"")
            given = args.pop("record", b"")
            self.differs(img, "%s %s: returned %d, wanted %d; image %s; numbers %s, wanted %s%s%s" % (
                name, args, got[0], wanted[0], "alike" if got[1] == wanted[1] else "differs", numbers(got[2]), numbers(wanted[2]),
                "" if got[3:] == wanted[3:] else "; what else was lent (build/differs.lent) differs",
                "; record %s from %s, wanted %s" % (numbers(got[-1]), numbers(given), numbers(wanted[-1])) if name in RECORDS else ""), lent)


def buffer(rng):
    """A result buffer with something in it: mostly longer than 24 bytes, now and then too short."""
    return bytes(rng.randrange(256) for _ in range(rng.choice([RESULT, RESULT + 1, 32, 40, 40, rng.choice([16, RESULT - 1, rng.randrange(RESULT)])])))


def result(answer, programmed, erased, img, buf, rule=0, page=0):
    """What a C call gives for an update's outcome."""
    if len(buf) < RESULT:
        return 1, img, buf
    return answer, img, struct.pack("<6I", answer, 0, programmed, erased, rule, page) + buf[RESULT:]


def every_update(library, m, rng, img, call):
    """One update with every allowance (some of them where there are many). Returns the image after the last store."""
    bad = m.refusal(img)
    answer, stores = (bad.answer, []) if bad else m.plan(img, call)
    where = (bad.rule, bad.page) if bad else (0, 0)
    args = dict(key=call[1]) if call[0] == "delete" else dict(key=call[1], address=call[2])
    if answer:
        buf = buffer(rng)
        wanted = result(answer, 0, 0, img, buf, *where)
        marking.hold(library, m, rng, img, buf, wanted, call[0], allowance=rng.choice([0, 1, LARGEST]), **args)
        return img
    tried = set(range(len(stores) + 2)) if len(stores) < 8 else set(rng.sample(range(len(stores)), 6)) | {0, len(stores), len(stores) + 1}
    now, programmed, erased, after = img, 0, 0, img
    for made in range(len(stores) + 2):
        if made in tried:
            buf = buffer(rng)
            wanted = result(7 if made < len(stores) else 0, programmed, erased, now if len(buf) >= RESULT else img, buf)
            marking.hold(library, m, rng, img, buf, wanted, call[0], allowance=LARGEST if made > len(stores) else made, **args)
        if made < len(stores):
            now = m.apply_store(now, stores[made])
            programmed += stores[made][0] == "P"
            erased += stores[made][0] == "E"
    return now if rng.random() < .8 else m.apply(img, stores[:rng.randrange(len(stores) + 1)])


def lookups(library, m, rng, img, keys):
    for key in keys:
        buf = buffer(rng)
        want = m.c_call("lookup", img, buf, key)
        library.hold(want, "lookup", img, buf, key=key)
        opening.hold(library, m, rng, img, buf, want, "lookup_opened", key=key)


def a_log(library, m, fuzz, rng):
    """From format: rising, falling, random or dense keys, deletes, replacements, stops."""
    img = bytes([rng.randrange(256)]) * (m.G.block_size * rng.choice([3, 3, 4, 5]))
    buf = buffer(rng)
    library.hold(m.c_call("format", img, buf), "format", img, buf)
    img = m.format(img).img
    way, step = rng.randrange(4), 0
    for _ in range(rng.choice([40, 150, 400])):
        step += rng.randrange(1, 4)
        known = m.map_of(img)
        key = [step, LARGEST - step, rng.randrange(2 ** 32), rng.randrange(300)][way]
        if known and rng.random() < .3:
            key = rng.choice(known)[0]
        call = ("delete", key) if rng.random() < .25 else ("insert", key, rng.randrange(2 ** 32))
        img = every_update(library, m, rng, img, call)
        lookups(library, m, rng, img, [key])
        opening.opens(library, m, rng, img, buffer)
        if rng.random() < .2:
            listing.lists(library, m, rng, img, buffer, 1)
            carrying.exports(library, m, rng, img, buffer, 1)
    carrying.back(library, m, rng, img, buffer)


def hand_made(library, m, fuzz, rng):
    """Sound images that no log reaches, and what is left after updates of them."""
    img = fuzz.hand_image(rng, m)
    for _ in range(4):
        model = dict(m.map_of(img))
        call = fuzz.some_call(rng, m, img, model)
        lookups(library, m, rng, img, [call[1], rng.choice(list(model) or [0])])
        opening.opens(library, m, rng, img, buffer)
        listing.lists(library, m, rng, img, buffer, 4)
        carrying.exports(library, m, rng, img, buffer, 2)
        img = every_update(library, m, rng, img, call)


def exhausted(library, m, fuzz, rng):
    """No erased page is left, so that a record has no next page (request 8); the first update erases a block."""
    img = fuzz.hand_image(rng, m)
    while m.F(img):
        img = fuzz.hand_image(rng, m)
    for _ in range(3):
        opening.opens(library, m, rng, img, buffer)
        every_update(library, m, rng, img, fuzz.some_call(rng, m, img, dict(m.map_of(img))))


def highest(rng, m, fuzz):
    """A sound image of the greatest height whose root has 4 entries, and the keys of a leaf with nothing but full nodes above it."""
    row = m.G.pages_per_block
    while True:
        root = fuzz.build_full(rng, m, m.G.max_height, True, 4)
        if not fuzz.assign_keys(rng, root):
            continue
        erased = rng.choice([0, 1, row - 1, row, row + 1, row + 8])
        img = fuzz.lay_out(rng, m, rng.choice([3, 3, 4, 5]), fuzz.place(rng, root, rng.choice([0, .5, 1])), root, erased, False)
        if img is None or m.first_damage(img):
            continue
        leaf = max((n for n in fuzz.all_nodes(root) if n.level == 1), key=lambda n: n.n)
        return img, [key for key, _ in leaf.entries]


def full_path(library, m, fuzz, rng):
    """Trees that can grow no higher: new and present keys on the full path, then one key less, then that key again."""
    img, keys = highest(rng, m, fuzz)
    known = dict(m.map_of(img))
    beside = [k + d for k in keys for d in (-1, 1) if keys[0] < k + d < keys[-1] and k + d not in known]
    for key in rng.sample(beside, min(3, len(beside))) + rng.sample(keys, 1):
        img = every_update(library, m, rng, img, ("insert", key, rng.randrange(2 ** 32)))
        lookups(library, m, rng, img, [key])
    gone = rng.choice(keys)
    img = every_update(library, m, rng, img, ("delete", gone))
    listing.lists(library, m, rng, img, buffer, 6)
    carrying.exports(library, m, rng, img, buffer, 3)
    every_update(library, m, rng, img, ("insert", gone, 5))


def roomless(m, rng, img, known):
    """A present key that is deleted where an insert beside it is ROOM, if some are tried and one is found."""
    some = rng.sample(known, min(40, len(known))) if m.first_damage(img) is None else []
    return [pair for pair in some if m.plan(img, ("insert", min(pair[0] + 1, LARGEST), 5))[0] == ANSWERS.index("ROOM")][:1]


def scarce(library, m, fuzz, rng):
    """T - L of 64 (128), where deletes end and some inserts are ROOM, and one less, where all is DAMAGED (request 11)."""
    blocks = rng.choice([3, 3, 4])
    for free in (m.G.r8_least, m.G.r8_least - 1):
        img = reference.with_free(rng, m, fuzz, free, blocks)
        known = m.map_of(img)
        library.edges += m.first_damage(img) is None
        library.beyond += m.first_damage(img) == reference.BREAKS_R8
        roomless_ones = roomless(m, rng, img, known)
        for key, _ in roomless_ones:
            every_update(library, m, rng, img, ("insert", min(key + 1, LARGEST), 5))
        for key in rng.sample(known, 3) + roomless_ones:
            lookups(library, m, rng, img, [key[0]])
            every_update(library, m, rng, img, ("delete", key[0]))
            every_update(library, m, rng, img, ("insert", key[0], 5))
        for call in [fuzz.some_call(rng, m, img, dict(known)) for _ in range(3)]:
            every_update(library, m, rng, img, call)


def patrol(library, m, rng, img, page, half):
    """A half, or what is none. Returns the image afterwards."""
    buf = buffer(rng)
    answer, found, bit, _, _, _, after = reference.patrolled(m, img, page, half)
    if len(buf) < RESULT:
        wanted = 1, img, buf
    else:
        wanted = answer, after, struct.pack("<6I", answer, found, bit, 0, 0, 0) + buf[RESULT:]
        library.patrols[found] += answer == 0
    library.hold(wanted, "patrol", img, buf, key=page, address=half)
    return wanted[1]


def flips(library, m, fuzz, rng):
    """Up to four flips of halves and their codes, of sound images and of any bytes; then all calls, before and after the patrol."""
    img = fuzz.hand_image(rng, m, 3) if rng.random() < .7 else reference.recoded(m, rng.randbytes(3 * m.G.block_size))
    for _ in range(12):
        b, page, half = bytearray(img), rng.randrange(m.T(img)), rng.randrange(m.G.halves)
        for _ in range(rng.choice([0, 1, 1, 1, 2, 2, 3, 4])):
            in_code, n = rng.random() < .4, rng.randrange(24 * 2048)
            i = reference.code_place(m.G, page, half) + n % 24 // 8 if in_code else page * m.G.page_size + 256 * half + n % 2048 // 8
            b[i] ^= 1 << n % 8
        mended = patrol(library, m, rng, bytes(b), page, half)
        lookups(library, m, rng, rng.choice([bytes(b), mended]), [rng.randrange(2 ** 32)])
    every_call(library, m, rng, mended)
    for page, half in ((m.T(img), 0), (LARGEST, 0), (0, m.G.halves), (0, LARGEST)):
        patrol(library, m, rng, img, page, half)
    patrol(library, m, rng, img[:-1], 0, 0)


def every_call(library, m, rng, img):
    """All calls on an image that is refused, or may be."""
    if m.good_length(img) and m.first_damage(img):
        library.beyond += m.first_damage(img) == reference.BREAKS_R8
        clause = damage.clause(m, img)
        library.clauses[clause] = library.clauses.get(clause, 0) + 1
    lookups(library, m, rng, img, [rng.randrange(2 ** 32)])
    opening.opens(library, m, rng, img, buffer)
    listing.lists(library, m, rng, img, buffer, 1)
    carrying.exports(library, m, rng, img, buffer, 1)
    every_update(library, m, rng, img, ("insert", rng.randrange(2 ** 32), 5))
    every_update(library, m, rng, img, ("delete", rng.randrange(2 ** 32)))
    if m.good_length(img):
        patrol(library, m, rng, img, rng.randrange(m.T(img)), rng.randrange(m.G.halves))
    buf = buffer(rng)
    library.hold(m.c_call("format", img, buf), "format", img, buf)


def clauses(library, m, fuzz, rng):
    """Images for each rule and each clause of request 5, and with two rules broken: rule and page of the result."""
    while set(library.clauses) != set(damage.CLAUSES):
        for img in damage.images(rng, fuzz, m, 1):
            every_call(library, m, rng, img)


def worn(library, m, fuzz, rng):
    """The largest sequence number at the chip's limit, where updates are made, and above it, where they are WORN."""
    for number in (m.G.worn_limit, m.G.worn_limit + 1, LARGEST):
        img = bytearray(m.format(b"\xff" * (3 * m.G.block_size)).img)
        img[m.G.main:m.G.main + 4] = number.to_bytes(4, "little")
        for call in (("insert", 5, 6), ("delete", 5)):
            every_update(library, m, rng, bytes(img), call)


def broken(library, m, fuzz, rng):
    """Damaged trees, random bytes, bad lengths."""
    img = fuzz.hand_image(rng, m, 3)
    kinds = [reference.damaged(rng, m, img) for _ in range(6)] + [reference.loose(rng, m, fuzz, 3) for _ in range(2)]
    at = rng.randrange(len(img))
    kinds.append(img[:at] + bytes([img[at] ^ 1 << rng.randrange(8)]) + img[at + 1:])
    kinds.append(rng.randbytes(m.G.block_size * rng.choice([2, 3])))
    kinds.append(rng.randbytes(rng.randrange(4000)))
    kinds.append(img[:-1])
    kinds.append(b"\xff" * len(img))
    for x in kinds:
        every_call(library, m, rng, x)


def no_chip(library, m, fuzz, rng):
    """Numbers that are no chip's: LENGTH, the result is written, the image stays. Its length fits both chips."""
    img = m.format(b"\xff" * (3 * fuzz.LARGE.block_size)).img
    for name in CALLS:
        buf = buffer(rng)
        number = rng.choice([2, 3, 256, 2 ** 31, LARGEST, rng.randrange(2, 2 ** 32)])
        lent = rng.randbytes(4 * rng.randrange(6)) if name in LENDS else b""
        record = rng.randbytes(rng.choice([opening.RECORD, rng.randrange(40)])) if name in RECORDS else b""
        zeros = name == "open" and len(buf) >= RESULT and len(record) >= opening.RECORD
        left = bytes(opening.RECORD) + record[opening.RECORD:] if zeros else record
        wanted = result(1, 0, 0, img, buf) + ((lent,) if name in LENDS else ()) + ((left,) if name in RECORDS else ())
        library.hold(wanted, name, img, buf, key=rng.randrange(2 ** 32), address=LARGEST, number=number, lent=lent, record=record)


def texts(library, m, fuzz, rng):
    """Imports of good and bad texts (request 13)."""
    carrying.imports(library, m, fuzz, rng, buffer)


def bad_and_long_texts(library, m, fuzz, rng):
    """Texts that are refused, one that lacks room, and ROOM on the image that it leaves."""
    carrying.each_defect(library, m, rng)
    carrying.lines_too_many(library, m, rng)
    full = carrying.halfway(library, m, rng)
    for _ in range(4 if full else 0):
        every_update(library, m, rng, full, ("insert", LARGEST, 5))


def tell_met(library, wanted):
    """The count of each answer. A run of 5,000 calls must have met all of them."""
    counts = [sum(n for (_, answer), n in library.met.items() if answer == a) for a in range(len(ANSWERS))]
    print("  answers: " + ", ".join("%s %d" % (ANSWERS[a], counts[a]) for a in GIVEN))
    print("  by call: " + ", ".join("%s %s: %d" % (call, ANSWERS[a], n) for (call, a), n in sorted(library.met.items())))
    print("  damaged images: " + ", ".join("%s: %d" % (c, library.clauses[c]) for c in damage.CLAUSES))
    print("  words of live pages: " + ", ".join("%s: %d" % (k, library.marked.get(k, 0)) for k in marking.KINDS))
    print("  lists: " + ", ".join("%s: %d" % (k, library.listed.get(k, 0)) for k in listing.KINDS))
    print("  opened: " + ", ".join("%s: %d" % (k, library.opened.get(k, 0)) for k in opening.KINDS))
    print("  carried: " + ", ".join("%s: %d" % (k, library.carried.get(k, 0)) for k in carrying.KINDS))
    print("  patrols: " + ", ".join("%s %d" % x for x in zip(FOUND, library.patrols)))
    print("  T - L = %d on %d sound images; %d images refused by R8 alone" % (
        library.geometry.r8_least, library.edges, library.beyond))
    if wanted >= 5000 and 0 in [counts[a] for a in GIVEN]:
        sys.exit("differential: never met " + ", ".join(ANSWERS[a] for a in GIVEN if counts[a] == 0))
    if wanted >= 5000 and set(library.marked) != set(marking.KINDS):
        sys.exit("differential: words of live pages: never met " + ", ".join(k for k in marking.KINDS if k not in library.marked))
    if wanted >= 5000 and set(library.listed) != set(listing.KINDS):
        sys.exit("differential: a kind of list was never met")
    if wanted >= 5000 and not set(opening.KINDS) <= set(library.opened):
        sys.exit("differential: records: never met " + ", ".join(k for k in opening.KINDS if k not in library.opened))
    if wanted >= 5000 and carrying.missing(library, library.geometry):
        sys.exit("differential: never met " + ", ".join(carrying.missing(library, library.geometry)))
    if 0 in library.patrols:
        sys.exit("differential: a patrol never found " + ", ".join(name for name, n in zip(FOUND, library.patrols) if n == 0))
    if wanted >= 5000 and 0 in (library.edges, library.beyond):
        sys.exit("differential: one side of R8's edge was never met")


def compare(fuzz, geometry, wanted, rng):
    library, m = Library(sys.argv[1], geometry), reference.mu(fuzz, geometry)
    kinds = [no_chip, worn, flips, full_path, scarce, exhausted, hand_made, broken, a_log, hand_made]
    for kind in [bad_and_long_texts, texts, clauses] + kinds:
        kind(library, m, fuzz, rng)
    while library.calls < wanted:
        rng.choice(kinds + [texts])(library, m, fuzz, rng)
    print("differential: %s chip: %d calls agree with the reference model" % (geometry.name, library.calls))
    tell_met(library, wanted)


def main():
    fuzz = reference.need("differential")
    wanted = int(sys.argv[2]) if len(sys.argv) > 2 else 20000
    seed = int(sys.argv[3]) if len(sys.argv) > 3 else 1
    for geometry in reference.geometries(fuzz):
        if len(sys.argv) < 5 or sys.argv[4] == geometry.name:
            compare(fuzz, geometry, wanted if geometry is fuzz.SMALL else wanted // 4, random.Random(seed))


main()
