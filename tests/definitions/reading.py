"""The images of bench_reading, made here again, judged by the reference model: prints what the program must print.

usage: reading.py [FILE]; with FILE, the stored output, ends with 1 where the two differ
"""
import os
import sys

HERE = os.path.dirname(os.path.abspath(__file__))
sys.path[:0] = [HERE, os.path.dirname(HERE)]
import reference

SIZE, BLOCKS = 528, 3


class Image:
    def __init__(self, m):
        self.m, self.b = m, bytearray(b"\xff" * (96 * SIZE))

    def put(self, page, at, values):
        self.b[page * SIZE + at:page * SIZE + at + len(values)] = bytes(values)

    def page(self, page, seq, height):
        self.put(page, 512, [seq, 0, 0, 0, height, 0, 0, 0, 0, 0])
        return self

    def node(self, page, level, *entries):
        self.put(page, 516 + level, [len(entries)])
        for i, (key, addr) in enumerate(entries):
            self.put(page, 8 * (self.m.first_slot(level) + i), [key, 0, 0, 0, addr, 0, 0, 0])
        return self

    def bytes(self):
        return reference.recoded(self.m, bytes(self.b))


def tree(m):
    return Image(m).page(0, 1, 0).node(0, 1, (10, 110)).page(1, 2, 2).node(1, 1, (20, 120)).node(1, 2, (10, 0), (20, 1))


def high(m, left, left_leaf, right, right_leaf):
    img = Image(m).page(0, 1, 0).page(1, 2, 0).page(2, 3, 0)
    img.node(left, 2, (10, left_leaf)).node(right, 2, (20, right_leaf))
    img.node(left_leaf, 1, (10, 110)).node(right_leaf, 1, (20, 120))
    return img.page(3, 4, 3).node(3, 3, (10, left), (20, right))


def full(m):
    img = Image(m)
    for p in range(96):
        img.page(p, min(p + 1, 255), 0)
    return img.node(0, 1, (10, 110)).node(32, 1, (20, 120)).page(95, 96, 2).node(95, 2, (10, 0), (20, 32))


def crowded(m):
    img = Image(m).page(32, 33, 0).page(33, 34, 0).page(34, 35, 3)
    for p in range(32):
        img.page(p, p + 1, 0).node(p, 1, (p, 0))
    img.node(32, 2, *[(p, p) for p in range(16)]).node(33, 2, *[(p, p) for p in range(16, 32)])
    return img.node(34, 3, (0, 32), (16, 33))


def flipped(img, at):
    """The image with the lowest bit of a byte turned over."""
    return img[:at] + bytes([img[at] ^ 1]) + img[at + 1:]


def cases(m):
    loose = lambda: high(m, 0, 1, 1, 2)
    yield "length 0", b""
    yield "length 33792", b"\xff" * 33792
    yield "length 50687", b"\xff" * 50687
    yield "all 255", b"\xff" * 50688
    yield "sound", tree(m)
    yield "R1, height byte 6 on page 0", tree(m).page(0, 1, 6)
    yield "R1, number 0 on page 1", tree(m).page(1, 0, 2)
    yield "R1, the same and height byte 7 on page 2", tree(m).page(1, 0, 2).page(2, 3, 7)
    yield "R1, a data bit of page 1 flipped", flipped(tree(m).bytes(), SIZE)
    yield "R1, a code bit of page 0 flipped", flipped(tree(m).bytes(), 522)
    yield "R2, page 2 erased before page 3", tree(m).page(3, 3, 0)
    yield "R2, the same and page 4 erased before page 5", tree(m).page(3, 3, 0).page(5, 4, 0)
    yield "R2, blocks 0 and 1 mixed", tree(m).page(32, 3, 0)
    yield "R2, blocks 0, 1 and 2 mixed", tree(m).page(32, 3, 0).page(64, 4, 0)
    yield "R2, the same and page 65 erased before page 66", tree(m).page(32, 3, 0).page(64, 4, 0).page(66, 5, 0)
    yield "R3, pages 1 and 2 have number 2", tree(m).page(2, 2, 0)
    yield "R3, pages 0 and 4 have number 1, pages 1 and 3 number 2", tree(m).page(2, 3, 0).page(3, 2, 0).page(4, 1, 0)
    yield "R4, no root", tree(m).page(1, 2, 0)
    yield "R5, a key not below the next entry's in the leaf on page 0", tree(m).node(0, 1, (20, 110))
    yield "R5, a key below its entry's in the right leaf, on page 2", loose().node(2, 1, (5, 120))
    yield "R5, the same in the left leaf too, on page 1", loose().node(2, 1, (5, 120)).node(1, 1, (5, 110))
    yield "R5, the right leaf on page 2 and the node above it on page 1", loose().node(2, 1, (5, 120)).node(1, 2, (15, 2))
    more = lambda: loose().node(2, 1, (5, 120)).node(1, 2, (15, 2)).node(0, 2, (10, 96))
    yield "R5, the same and page 96 named by the left node on page 0", more()
    yield "R5, the same and one entry in the root on page 3", more().node(3, 3, (10, 0))
    yield "R5, the erased page 50 named by the node on page 0", loose().node(0, 2, (10, 50))
    yield "R6, page 1 does not name itself", loose()
    yield "R6, neither page 2 nor page 1 names itself", high(m, 2, 1, 1, 2)
    yield "R7, no erased page, a live one in each block", full(m)
    yield "R8, 35 live pages of 96", crowded(m)
    yield "R3 and R1 on page 2", tree(m).page(2, 2, 6)
    yield "R3 on page 3 and R2", tree(m).page(3, 2, 0)
    yield "R4 and R3 on page 1", tree(m).page(1, 1, 0)


def main(stored):
    fuzz = reference.load()
    if fuzz is None:
        print("reading: skipped, the reference model is not here")
        return
    m = fuzz.Mu(fuzz.SMALL, reference.rules(fuzz))
    text = ""
    for name, img in cases(m):
        r = m.lookup(img if isinstance(img, bytes) else img.bytes(), 20)
        text += "%s %d %d %d\n" % (name, r.answer, r.rule, r.page)
    if stored is None:
        sys.stdout.write(text)
    elif open(stored).read() != text:
        sys.exit("reading: %s is not what the reference model says" % stored)
    else:
        print("reading: %d images are judged as the reference model judges them" % text.count("\n"))


if __name__ == "__main__":
    main(sys.argv[1] if len(sys.argv) > 1 else None)
