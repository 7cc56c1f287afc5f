"""Request 1 in the differential test: lists against the model's."""
import struct

import opening

RESULT = 24
LARGEST = 2 ** 32 - 1
KINDS = ["no pairs", "all pairs", "cut short", "cut short at an odd length", "low above high", "no numbers", "refused", "short result"]


def wanted(m, img, low, high, pairs, buf):
    """What a C call of list gives: the number returned, the image, the result buffer, the bytes of the numbers."""
    if len(buf) < RESULT:
        return 1, img, buf, pairs
    answer, exist, written, after = m.listing(img, low, high, struct.unpack("<%dI" % (len(pairs) // 4), pairs))
    bad = m.refusal(img)
    where = (bad.rule, bad.page) if bad else (0, 0)
    return answer, img, struct.pack("<6I", answer, exist, written, 0, *where) + buf[RESULT:], struct.pack("<%dI" % len(after), *after)


def some_range(rng, keys):
    """Two keys: at, beside or between those of the map, or the ends; low above high now and then."""
    ends = [0, LARGEST, rng.randrange(2 ** 32)]
    for _ in range(4 if keys else 0):
        key = rng.choice(keys)
        ends += [key, key, max(key - 1, 0), min(key + 1, LARGEST)]
    low, high = rng.choice(ends), rng.choice(ends)
    return (low, high) if low <= high or rng.random() < .2 else (high, low)


def some_numbers(rng, exist):
    """A buffer with something in it, of a length that matters: none, one, odd, as long as the list or beside that."""
    count = rng.choice([0, 1, 2, 3, 2 * exist, 2 * exist + 1, max(2 * exist - 1, 0), 2 * exist + 5, rng.randrange(2 * exist + 4)])
    return rng.randbytes(4 * count)


def kind(answer, low, high, exist, numbers):
    if answer:
        return "refused"
    if low > high:
        return "low above high"
    if exist == 0:
        return "no pairs"
    if numbers == 0:
        return "no numbers"
    if numbers // 2 >= exist:
        return "all pairs"
    return "cut short at an odd length" if numbers % 2 else "cut short"


def lists(library, m, rng, img, buffer, times):
    """Some lists of an image, sound or not."""
    sound = m.refusal(img) is None
    keys = [key for key, _ in m.map_of(img)] if sound else []
    for _ in range(times):
        low, high = some_range(rng, keys)
        exist = sum(low <= key <= high for key in keys)
        pairs, buf = some_numbers(rng, exist), buffer(rng)
        want = wanted(m, img, low, high, pairs, buf)
        library.hold(want, "list", img, buf, key=low, address=high, lent=pairs)
        opening.hold(library, m, rng, img, buf, want, "list_opened", (pairs,), key=low, address=high, lent=pairs)
        met = "short result" if len(buf) < RESULT else kind(want[0], low, high, exist, len(pairs) // 4)
        library.listed[met] = library.listed.get(met, 0) + 1
