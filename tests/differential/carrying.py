"""Request 13 in the differential test: exports and imports against the model's."""
import struct
import sys

RESULT = 24
LARGEST = 2 ** 32 - 1
TEXT = 9
KINDS = ["export of no records", "export", "export into too few bytes", "export that asks", "export refused", "export, short result",
         "import of no records", "import", "import of a bad text", "import cut halfway", "import refused", "import, short result"]


def model():
    return sys.modules["mutree_model"]


def note(library, kind):
    library.carried[kind] = library.carried.get(kind, 0) + 1


# ---- export
def wanted_export(m, img, text, buf):
    """What a C call of export gives: the number returned, the image, the result buffer, the lent text."""
    if len(buf) < RESULT:
        return 1, img, buf, text
    answer, whole = model().export_text(m, img)
    bad = m.refusal(img)
    where = (bad.rule, bad.page) if bad else (0, 0)
    if answer:
        return answer, img, struct.pack("<6I", answer, 0, 0, 0, *where) + buf[RESULT:], text
    written = len(whole) if len(whole) <= len(text) else 0
    numbers = struct.pack("<6I", 0, len(m.map_of(img)), len(whole), written, 0, 0)
    return 0, img, numbers + buf[RESULT:], (whole if written else b"") + text[written:]


def kind_of_export(want, buf, text):
    if len(buf) < RESULT:
        return KINDS[5]
    answer, records, whole, _, _, _ = struct.unpack("<6I", want[2][:RESULT])
    if answer:
        return KINDS[4]
    if records == 0:
        return KINDS[0]
    return KINDS[3] if len(text) == 0 else KINDS[2] if len(text) < whole else KINDS[1]


def exports(library, m, rng, img, buffer, times):
    """Some exports of an image, sound or not, into texts of lengths that matter."""
    size = len(model().export_text(m, img)[1])
    for _ in range(times):
        length = rng.choice([0, size, size, size + rng.randrange(9), max(size - 1, 0), rng.randrange(size + 1)])
        text, buf = rng.randbytes(length), buffer(rng)
        want = wanted_export(m, img, text, buf)
        library.hold(want, "export", img, buf, key=rng.randrange(2), lent=text)
        note(library, kind_of_export(want, buf, text))


# ---- import
def wanted_import(m, img, text, buf):
    """The same of import; the text stays."""
    if len(buf) < RESULT:
        return 1, img, buf, text
    give = lambda answer, second, programmed, erased, after: (
        answer, after, struct.pack("<6I", answer, second, programmed, erased, 0, 0) + buf[RESULT:], text)
    if not m.good_length(img):
        return give(1, 0, 0, 0, img)
    pairs, line = model().read_records(text)
    if line is not None:
        return give(TEXT, line, 0, 0, img)
    r = m.format(img)
    programmed, erased, now = r.programmed, r.erased, r.img
    for stored, (key, address) in enumerate(pairs):
        r = m.insert(now, key, address)
        programmed, erased, now = programmed + r.programmed, erased + r.erased, r.img
        if r.answer:
            return give(r.answer, stored, programmed, erased, now)
    return give(0, len(pairs), programmed, erased, now)


def agrees_with_itself(m, img, text, want):
    """The model's own import says the same; asked for short texts, as it makes all inserts again."""
    answer, line, stored, after = model().import_text(m, img, text)
    answer = TEXT if answer == "REFUSED" else answer
    got = struct.unpack("<2I", want[2][:8])
    if (answer, line if answer == TEXT else stored) != got or after != want[1]:
        sys.exit("differential: the model's import differs from its inserts")


def kind_of_import(want, buf):
    if len(buf) < RESULT:
        return KINDS[11]
    answer, second = struct.unpack("<2I", want[2][:8])
    if answer == 0:
        return KINDS[6] if second == 0 else KINDS[7]
    return KINDS[10] if answer == 1 else KINDS[8] if answer == TEXT else KINDS[9]


def hold_import(library, m, rng, img, text, buf):
    """Gives the image afterwards."""
    want = wanted_import(m, img, text, buf)
    if len(buf) >= RESULT and len(text) < 300:
        agrees_with_itself(m, img, text, want)
    library.hold(want, "import", img, buf, key=rng.randrange(2), lent=text)
    note(library, kind_of_import(want, buf))
    return want[1]


def some_text(rng, count):
    """A text of so many records that fits."""
    keys = sorted(rng.sample(range(rng.choice([count + 1, 10 * count + 1, 2 ** 32])), count))
    return b"".join(b"%d\t%d\n" % (key, rng.choice([rng.randrange(20), rng.randrange(2 ** 32)])) for key in keys)


def twice(rng, line):
    """A key equal to the one before, with the same address or another."""
    return line + b"\n" + (line if rng.random() < .5 else line.split(b"\t")[0] + b"\t%d" % rng.randrange(20))


SPOILERS = [lambda rng, line: b"", lambda rng, line: b"0" + line, lambda rng, line: line.replace(b"\t", b"\t0"),
            lambda rng, line: line.replace(b"\t", b" "), lambda rng, line: line + b"\t", lambda rng, line: line + b"\r",
            lambda rng, line: b" " + line, lambda rng, line: line.replace(b"\t", b"\t\t"), lambda rng, line: line + b"0000000000",
            lambda rng, line: b"4294967296\t1", lambda rng, line: b"1\t4294967296", lambda rng, line: b"18446744073709551617\t1",
            lambda rng, line: b"-" + line, lambda rng, line: b"0\t0", lambda rng, line: line.split(b"\t")[0], twice]


def spoiled(rng, text):
    """The text with up to three defects: of lines, lines twice or exchanged, single bytes, the end cut off."""
    for _ in range(rng.choice([1, 1, 1, 2, 3])):
        lines, u = text.split(b"\n")[:-1], rng.random()
        if u < .55 and lines:
            i = rng.randrange(len(lines))
            lines[i] = rng.choice(SPOILERS)(rng, lines[i])
            text = b"".join(line + b"\n" for line in lines)
        elif u < .7 and lines:
            i, j = rng.randrange(len(lines)), rng.randrange(len(lines))
            lines[i] = lines[j] if rng.random() < .5 else lines[i].split(b"\t")[0] + b"\t5"
            lines.insert(i, lines[j])
            text = b"".join(line + b"\n" for line in lines)
        elif u < .85 and text:
            at = rng.randrange(len(text))
            text = text[:at] + bytes([rng.choice([0, 9, 10, 13, 32, 47, 48, 57, 58, rng.randrange(256)])]) + text[at + 1:]
        else:
            text = text[:rng.randrange(len(text) + 1)]
    return text


def each_defect(library, m, rng):
    """Every spoiler in each of three lines."""
    for spoil in SPOILERS:
        for i in range(3):
            lines = some_text(rng, 3).split(b"\n")[:-1]
            lines[i] = spoil(rng, lines[i])
            hold_import(library, m, rng, b"\x77" * (3 * m.G.block_size), b"".join(line + b"\n" for line in lines), bytes(RESULT))


def imports(library, m, fuzz, rng, buffer):
    """Good and bad texts, over images of every kind and of bad lengths; and exports of no records."""
    for _ in range(30):
        text = some_text(rng, rng.choice([0, 1, 2, 3, 10, 40]))
        img = rng.choice([rng.randbytes(m.G.block_size) * 3, b"\xff" * (3 * m.G.block_size), b"\0" * (4 * m.G.block_size)])
        u = rng.random()
        if u < .1:
            img = img[:rng.choice([0, len(img) - 1, 2 * m.G.block_size])]
        hold_import(library, m, rng, img, text if rng.random() < .3 else spoiled(rng, text), buffer(rng))
    exports(library, m, rng, m.format(b"\xff" * (3 * m.G.block_size)).img, buffer, 4)


def back(library, m, rng, img, buffer):
    """A sound image's own text, imported into another image and exported again."""
    answer, text = model().export_text(m, img)
    if answer or text.count(b"\n") > 60:
        return
    other, buf = b"\x55" * (3 * m.G.block_size), bytes(RESULT)
    want = wanted_import(m, other, text, buf)
    library.hold(want, "import", other, buf, lent=text)
    note(library, kind_of_import(want, buf))
    if model().export_text(m, want[1]) != (0, text):
        sys.exit("differential: the model's export of an import is another text")
    library.hold(wanted_export(m, want[1], bytes(len(text)), buf), "export", want[1], buf, lent=bytes(len(text)))


def halfway(library, m, rng):
    """Once: more records than three small blocks take. Gives the full image; the large chip takes every text that is read."""
    if m.G.number == 0:
        img, text, buf = rng.randbytes(m.G.block_size) * 3, some_text(rng, 560), bytes(RESULT + 3)
        return hold_import(library, m, rng, img, text, buf)


def lines_too_many(library, m, rng):
    """Line 4,097, and the lines before it; all are refused before a store."""
    text = some_text(rng, 4096)
    last = text.rindex(b"\n", 0, -1) + 1
    for end in (text + b"4294967295\t0\n", text + b"\n", text + b"x", text[:-1], text[:last] + b"0\t0\n"):
        hold_import(library, m, rng, b"\xff" * (3 * m.G.block_size), end, bytes(RESULT))


def missing(library, geometry):
    """Kinds that a run has not met."""
    return [k for k in KINDS if k not in library.carried and not (geometry.number == 1 and k == KINDS[9])]
