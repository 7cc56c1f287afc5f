"""Request 7 in the differential test: the words of live pages that inserts and deletes are lent, against the model's table."""
import struct

import opening

RESULT = 24
LENGTH, DAMAGED = 1, 2
ANSWERED = ["after DONE", "left by LENGTH", "left by DAMAGED", "after WORN", "after ABSENT", "after HEIGHT", "after ROOM", "after STOPPED"]
KINDS = ANSWERED + ["after a collection", "as many as the image has", "words past the image's", "too few", "too few for a damaged image",
                    "short result"]


def words_of(m, img):
    """How many words an image needs; of a length that is none's as many as its pages would."""
    return len(img) // m.G.page_size // 32


def some_words(rng, m, img):
    """Words with something in them: mostly as many as the image needs or a few more, now and then too few."""
    needed = words_of(m, img)
    count = rng.randrange(needed) if needed and rng.random() < .08 else needed + rng.choice([0, 0, 1, 2, 9])
    return rng.choice([rng.randbytes(4 * count), rng.randbytes(4 * count), b"\0" * 4 * count, b"\xff" * 4 * count])


def too_few(m, img, words):
    return m.good_length(img) and len(words) // 4 < words_of(m, img)


def with_words(m, img, buf, words, wanted):
    """What the call leaves that without words leaves `wanted`: the number returned, the image, the result buffer, the words."""
    if len(buf) < RESULT:
        return wanted + (words,)
    if too_few(m, img, words):
        return LENGTH, img, struct.pack("<6I", LENGTH, 0, 0, 0, 0, 0) + buf[RESULT:], words
    if wanted[0] in (LENGTH, DAMAGED):
        return wanted + (words,)
    table = m.live_table(wanted[1])
    return wanted + (struct.pack("<%dI" % len(table), *table) + words[4 * len(table):],)


def kinds(m, img, buf, words, want):
    """What of request 7 this call shows."""
    if len(buf) < RESULT:
        return ["short result"]
    if too_few(m, img, words):
        return ["too few for a damaged image" if m.first_damage(img) else "too few"]
    answer, _, _, erased = struct.unpack("<4I", want[2][:16])
    past = "words past the image's" if len(words) // 4 > words_of(m, img) else "as many as the image has"
    return [past, ANSWERED[answer]] + ["after a collection"] * (erased > 0)


def hold(library, m, rng, img, buf, wanted, name, **args):
    """An insert or delete, whose outcome without words is `wanted`."""
    words = some_words(rng, m, img)
    want = with_words(m, img, buf, words, wanted)
    library.hold(want, name, img, buf, lent=words, **args)
    opening.hold(library, m, rng, img, buf, want, name + "_opened", (words,), lent=words, **args)
    for kind in kinds(m, img, buf, words, want):
        library.marked[kind] = library.marked.get(kind, 0) + 1
