"""Images that break one clause of request 5, or two rules at once, made from sound ones. For both chips."""
import reference

CLAUSES = ("R1", "R2 an erased page before a programmed one", "R2 a second mixed block", "R3", "R4", "R5 the root", "R5 below the root",
           "R5 a leaf", "R6", "R7", "R8")


def clause(m, img):
    """Which clause the reference model's finding comes from."""
    rule, page = m.first_damage(img)
    if rule == 2:
        return CLAUSES[1] if m.erased(img, page) else CLAUSES[2]
    if rule == 5:
        return place(m, img, page)
    return "R%d" % rule


def place(m, img, page):
    """The level at which a page is first met in the walk of R5 as a bad node."""
    root, height = m.root_page(img), m.height(img)
    if page == root and m.node_breaks(img, root, height, True, 0, None):
        return "R5 the root"

    def walk(p, level, low, high):
        if level < height and m.node_breaks(img, p, level, False, low, high):
            return level
        if level == 1:
            return 0
        es = m.entries(img, p, level)
        for i, (_, q) in enumerate(es):
            found = walk(q, level - 1, *m.child_bounds(es, i, low, high))
            if found:
                return found
        return 0
    return "R5 a leaf" if walk(root, height, 0, None) == 1 else "R5 below the root"


class Bench:
    def __init__(self, rng, fuzz, m):
        self.rng, self.fuzz, self.m, self.g = rng, fuzz, m, m.G

    def sound(self, blocks=3):
        return self.fuzz.hand_image(self.rng, self.m, blocks)

    def high(self, least, blocks=3):
        while True:
            img = self.sound(blocks)
            if self.m.height(img) >= least:
                return img

    def programmed(self, img):
        return [p for p in range(self.m.T(img)) if not self.m.erased(img, p)]

    def put(self, img, page, at, values):
        b, i = bytearray(img), page * self.g.page_size + at
        b[i:i + len(values)] = values
        return bytes(b)

    def rule_1(self, img):
        """One to three pages: a high height byte, a flipped bit of the main bytes, of a code or of what comes after the codes, number 0."""
        pages, top = self.programmed(img), self.g.max_height
        for p in self.rng.sample(pages, min(len(pages), self.rng.choice([1, 2, 3]))):
            bits = [self.rng.randrange(self.g.main), self.rng.randrange(self.g.main + self.g.code_at, self.g.page_size)]
            flips = [(at, bytes([self.m.page(img, p)[at] ^ 1 << self.rng.randrange(8)])) for at in bits]
            height, zero = bytes([self.rng.choice([top + 1, top + 2, 255])]), bytes(4)
            at, values = self.rng.choice(flips + [(self.g.main + 4, height), (self.g.main, zero)])
            img = self.put(img, p, at, values)
        return img

    def erased_before(self, img):
        """One or two programmed pages erased that have a programmed one after them in their block, with up to three before them."""
        for _ in range(self.rng.choice([1, 2])):
            pages = [p for p in self.programmed(img) if p + 1 < self.m.T(img) and self.m.block_of(p + 1) == self.m.block_of(p)
                     and not self.m.erased(img, p + 1)]
            if pages:
                last = self.rng.choice(pages)
                first = max(last - self.rng.randrange(4), self.m.block_pages(self.m.block_of(last)).start)
                for p in range(first, last + 1):
                    img = self.put(img, p, 0, self.m.ERASED)
        return img

    def second_mixed(self, img):
        """Blocks cut behind some page, so that several are mixed."""
        for b in self.rng.sample(range(self.m.B(img)), self.rng.choice([2, 3])):
            pages = list(self.m.block_pages(b))
            cut = self.rng.randrange(1, len(pages))
            for p in pages[:cut]:
                if self.m.erased(img, p):
                    img = self.put(img, p, 0, self.m.page_content(10 ** 6 + p, 0, {}))
            for p in pages[cut:]:
                img = self.put(img, p, 0, self.m.ERASED)
        return img

    def rule_3(self, img):
        """One to three pairs with one number."""
        pages = self.programmed(img)
        for _ in range(self.rng.choice([1, 2, 3])):
            if len(pages) > 1:
                p, q = self.rng.sample(pages, 2)
                img = self.put(img, q, self.g.main, self.m.page(img, p)[self.g.main:self.g.main + 4])
        return img

    def rule_4(self, img):
        for p in self.programmed(img):
            img = self.put(img, p, self.g.main + 4, b"\x00")
        return img

    def rule_5(self, img, level=None):
        """One to three nodes: a count, a key, a page number."""
        nodes = [x for x in self.m.live_nodes(img) if level is None or x[1] == level]
        for p, l in self.rng.sample(nodes, min(len(nodes), self.rng.choice([1, 2, 3]))):
            entries = self.m.entries(img, p, l)
            at = self.m.first_slot(l)
            kind = self.rng.randrange(3)
            if kind == 0 or not entries:
                img = self.put(img, p, self.g.main + 4 + l, bytes([self.rng.choice([0, min(self.m.limit(l, l == self.m.height(img)) + 1, 255), 255])]))
            elif kind == 1:
                i = self.rng.randrange(len(entries))
                img = self.put(img, p, 8 * (at + i), self.rng.choice([0, 2 ** 32 - 1]).to_bytes(4, "little"))
            elif l > 1:
                i = self.rng.randrange(len(entries))
                img = self.put(img, p, 8 * (at + i) + 4, self.rng.choice([self.m.T(img), 2 ** 32 - 1]).to_bytes(4, "little"))
        return reference.recoded(self.m, img)

    def root(self, img):
        return self.put(img, self.m.root_page(img), self.g.main + 4 + self.m.height(img), b"\x01" if self.m.height(img) > 1 else b"\xff")


def edited(b, each=3):
    """Some images for each clause of R1 to R5, and with these rules broken two at a time."""
    makers, out = [b.rule_1, b.erased_before, b.second_mixed, b.rule_3, b.rule_4, b.rule_5], []
    for make in makers:
        out += [make(b.sound(b.rng.choice([3, 4]))) for _ in range(each)]
    for first in makers:
        for second in makers[makers.index(first) + 1:]:
            out.append(first(second(b.sound(3))))
    for level in (1, 2, 3):
        out += [b.rule_5(b.high(level + 1), level) for _ in range(each)]
    return out + [b.root(b.high(2)) for _ in range(each)]


def images(rng, fuzz, m, each=3):
    """The same, and some for R6 to R8, as chance gives them."""
    out = edited(Bench(rng, fuzz, m), each)
    for rule in (6, 7, 8):
        found = 0
        while found < each:
            img = reference.loose(rng, m, fuzz, 3) if rule < 8 else reference.with_free(rng, m, fuzz, m.G.r8_least - 1)
            damage = m.first_damage(img)
            if damage and damage[0] == rule:
                out.append(img)
                found += 1
    return out
