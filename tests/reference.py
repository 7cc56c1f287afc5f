"""Where the reference model of the documents is, and images made with it.

The model is no part of this repository: it stands in the folder `shared/model` beside it, or where the variable
MUTREE_MODEL says. `load` gives None where it is missing; run as a program this file then ends with 3.
"""
import importlib
import os
import random
import sys

BREAKS_R8 = 8, 0  # the model's finding: the first broken rule, and its page
ROOT = os.path.dirname(os.path.dirname(os.path.abspath(__file__)))


def load():
    folder = os.environ.get("MUTREE_MODEL", os.path.join(os.path.dirname(ROOT), "shared", "model"))
    if not os.path.exists(os.path.join(folder, "mutree_model.py")):
        return None
    sys.path.insert(0, folder)
    return importlib.import_module("fuzz_claims")


def need(name):
    """The same, or an end with status 3 after a line that says that the test was left out."""
    fuzz = load()
    if fuzz is None:
        print("%s: NOT RUN, the reference model is not here (docs/TESTING.md says where it is looked for)" % name, file=sys.stderr)
        sys.exit(3)
    return fuzz


def rules(fuzz):
    """The requests that have landed and that the model tells apart."""
    return fuzz.Rules(wish2=True, wish4=True, wish5=True, wish11=True)


def geometries(fuzz):
    """The chips, in the order of their numbers."""
    return [fuzz.SMALL, fuzz.LARGE]


def mu(fuzz, geometry, with_r7=True):
    """The model of the rules as they stand here, on a chip."""
    class WithoutR7(fuzz.Mu):
        def R7(self, img):
            return None
    return (fuzz.Mu if with_r7 else WithoutR7)(geometry, rules(fuzz))


def code_place(g, page, half):
    """The first byte of a half's code."""
    return page * g.page_size + g.main + g.code_at + 3 * half


def recoded(m, img):
    """The image with fitting codes on every programmed page."""
    g, b, code = m.G, bytearray(img), sys.modules["mutree_model"].code
    for p in range(len(b) // g.page_size):
        at = p * g.page_size
        if b[at:at + g.page_size] != m.ERASED:
            for h in range(g.halves):
                c = code_place(g, p, h)
                b[c:c + 3] = code(bytes(b[at + 256 * h:at + 256 * h + 256]))
    return bytes(b)


def patrolled(m, img, page, half):
    """The model's patrol by numbers: answer, what was found, the bit mended, three times 0, the image
    afterwards."""
    answer, what, after = m.patrol(img, page, half)
    found = (m.CLEAN, m.DATA_MENDED, m.CODE_MENDED, m.BEYOND).index(what) if what else 0
    bit = 0
    if found in (1, 2):
        at = page * m.G.page_size + 256 * half if found == 1 else code_place(m.G, page, half)
        size = 256 if found == 1 else 3
        bit = (int.from_bytes(img[at:at + size], "little") ^ int.from_bytes(after[at:at + size], "little")).bit_length() - 1
    return answer, found, bit, 0, 0, 0, after


def damaged(rng, m, img):
    """The image with one to three things broken: keys, counts, numbers, erased or exchanged pages, single bits. Mostly the
    codes are made to fit again, so that other rules than R1 show."""
    g, b, live = m.G, bytearray(img), m.live_nodes(img)
    size = g.page_size
    for _ in range(rng.choice([1, 1, 2, 3])):
        p, l = rng.choice(live)
        at, u = p * size, rng.random()
        if u < .3:
            n = m.count(img, p, l)
            if n:
                j = at + 8 * (m.first_slot(l) + rng.randrange(n)) + rng.choice([0, 4])
                x = int.from_bytes(b[j:j + 4], "little")
                y = rng.choice([x + 1, x - 1, rng.randrange(m.T(img)), rng.randrange(2 ** 32)]) % 2 ** 32
                b[j:j + 4] = y.to_bytes(4, "little")
        elif u < .5:
            b[at + g.main + 4 + l] = rng.choice([0, 1, 2, 16, 17, 32, 33, 63, 64, 127, 128, 129, 255])
        elif u < .6:
            b[at + g.main + 4] = rng.randrange(g.max_height + 3)
        elif u < .7:
            b[at + g.main + rng.randrange(4)] = rng.randrange(256)
        elif u < .8:
            q = rng.randrange(m.T(img))
            b[q * size:(q + 1) * size] = m.ERASED
        elif u < .9:
            q, r = rng.randrange(m.T(img)), rng.randrange(m.T(img))
            b[q * size:(q + 1) * size], b[r * size:(r + 1) * size] = b[r * size:(r + 1) * size], b[q * size:(q + 1) * size]
        else:
            b[rng.randrange(len(b))] ^= 1 << rng.randrange(8)
    return bytes(b) if rng.random() < .2 else recoded(m, bytes(b))


def loose(rng, m, fuzz, blocks=None):
    """An image that breaks R6, R7 or R8, or nothing."""
    if rng.random() < .5:
        return fuzz.hand_image(rng, m, blocks, wild=True)
    return fuzz.hand_image(rng, mu(fuzz, m.G, with_r7=False), blocks)


def with_free(rng, m, fuzz, free, blocks=3):
    """An image that keeps R1 to R7, with T - L as given: one with 64 (128) is sound, one with less breaks R8 alone."""
    live = m.G.pages_per_block * blocks - free
    while True:
        root = fuzz.build(rng, m, rng.randint(2, m.G.max_height), rng.randint(live // 2, 2 * live), True, 1)
        pages = fuzz.place(rng, root, rng.choice([.5, .9, 1]))
        if len(pages) != live or not fuzz.assign_keys(rng, root):
            continue
        img = fuzz.lay_out(rng, m, blocks, pages, root, rng.randrange(free + 1), rng.random() < .1)
        if img is not None and m.first_damage(img) in (None, BREAKS_R8):
            return img


def allowances(rng, stores):
    """Some allowances around what an update needs."""
    return rng.choice([0, 1, stores, max(stores - 1, 0), stores + 1, rng.randrange(stores + 1), 2 ** 32 - 1, 2 ** 32 - 1])


if __name__ == "__main__":
    sys.exit(3 if load() is None else 0)
