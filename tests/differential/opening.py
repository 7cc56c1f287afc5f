"""Request 8 in the differential test: opening, and calls with a record, against the model's."""
import struct

RESULT, RECORD = 24, 24
DONE, LENGTH, DAMAGED, STOPPED, STALE = 0, 1, 2, 7, 8
LARGEST = 2 ** 32 - 1
KINDS = ["opened", "no next page", "a larger number than the root's", "refused with zeros", "opening with a short record", "opening with a short result",
         "lookup by the record", "list by the record", "update by the record", "collection by the record", "stopped by the record", "refused by the record",
         "stale by page", "stale by number", "stale by height", "stale on a damaged image", "short record", "short result", "too few words",
         "another pair", "cut at a page that is not erased"]


def as_bytes(record):
    return struct.pack("<6I", *(n % 2 ** 32 for n in record))


def met(library, *kinds):
    for kind in kinds:
        library.opened[kind] = library.opened.get(kind, 0) + 1


def result(answer, buf, numbers=(0, 0, 0, 0, 0)):
    return struct.pack("<6I", answer, *numbers) + buf[RESULT:]


# ---- opening
def opens(library, m, rng, img, buffer):
    """An opening of any image: the record is the model's, or zeros."""
    buf, record = buffer(rng), rng.randbytes(rng.choice([RECORD, RECORD, RECORD + 1, RECORD + 9, rng.randrange(RECORD)]))
    if len(buf) < RESULT:
        met(library, "opening with a short result")
        want = LENGTH, img, buf, record
    elif len(record) < RECORD:
        met(library, "opening with a short record")
        want = LENGTH, img, result(LENGTH, buf), record
    else:
        answer, now, where = m.open(img)
        want = answer, img, result(answer, buf, (0, 0, 0) + where), as_bytes(now) + record[RECORD:]
        met(library, *["refused with zeros"] if answer else ["opened"] + ["no next page"] * (now[4] == m.T(img))
            + ["a larger number than the root's"] * (now[2] != now[1]))
    library.hold(want, "open", img, buf, record=record)


# ---- records
def with_rest(rng, record):
    """The record's bytes, with some after them."""
    return as_bytes(record) + rng.randbytes(rng.choice([0, 0, 1, 8]))


def stale_one(rng, m, img, right):
    """A record whose page, number or height is another's; and what was changed."""
    what = rng.choice(["page", "number", "height"])
    root, number, most, height, following, erased = right
    if what == "page":
        root = rng.choice([m.T(img), LARGEST, rng.randrange(m.T(img)), root ^ 1, root + m.T(img)])
    elif what == "number":
        number = rng.choice([number ^ 1 << rng.randrange(32), LARGEST, 0])
    else:
        height = rng.choice([height - 1, height + 1, height + 256, rng.randrange(256), LARGEST])
    return (root, number, most, height, following, erased), "stale by " + what


def other_one(rng, m, img, right):
    """A record whose page stands, and whose other numbers lie; or, of a page that carries no root, all of it."""
    root, number, most, height, following, erased = right
    lie = rng.choice([0, LARGEST, m.T(img), rng.randrange(m.T(img)), rng.randrange(2 ** 32)])
    kind = rng.randrange(4)
    if kind == 3:
        page = rng.randrange(m.T(img))
        return page, m.seq(img, page), most, m.height_byte(img, page), following, erased
    return (root, number, lie if kind == 0 else most, height, lie if kind == 1 else following, lie if kind == 2 else erased)


def some_record(rng, m, img, sound):
    """A record's bytes for an image of a good length, and of what kind it is; mostly the right one."""
    right = m.record_of(img) if sound else (0, m.seq(img, 0), 5, m.height_byte(img, 0), 1, 40)
    way = rng.random()
    if way < .1:
        return as_bytes(right)[:rng.randrange(RECORD)], "short record"
    if way < .25:
        record, kind = stale_one(rng, m, img, right)
        return with_rest(rng, record), kind
    if way < .35 or not sound:
        return with_rest(rng, other_one(rng, m, img, right)), "another pair"
    return with_rest(rng, right), None


# ---- what is wanted
def careful(m, before, after, programmed, erased):
    """Pages that were not erased change only where blocks were erased, and no more change than is told."""
    g, blocks, pages = m.G, 0, 0
    for block in range(m.B(before)):
        changed = [p for p in range(block * g.pages_per_block, (block + 1) * g.pages_per_block) if m.page(before, p) != m.page(after, p)]
        blocks += any(not m.erased(before, p) for p in changed)
        pages += sum(not m.erased(after, p) for p in changed)
    return blocks <= erased and pages <= programmed


def free(library, m, img, got, name, allowance):
    """A pair that the request leaves free: what it says of those, and what it does not say is not looked at."""
    answer, after = got[0], got[1]
    numbers = struct.unpack("<6I", got[2][:RESULT])
    good = answer == numbers[0] and answer not in (LENGTH, DAMAGED, STALE)
    if name in ("insert_opened", "delete_opened"):
        good = good and careful(m, img, after, numbers[2], numbers[3])
        met(library, *["cut at a page that is not erased"] * (answer == STOPPED and numbers[2] + numbers[3] < allowance))
    else:
        good = good and after == img
    if not good:
        library.differs(img, "%s with another record: answer %d, numbers %s" % (name, answer, numbers))
    met(library, "another pair")


def wanted(m, img, buf, record, without, rest):
    """What a call with the record leaves, from what the one without it leaves and that call's other buffers as they were; None where it is
    free."""
    lent = without[3:]
    if len(buf) < RESULT:
        return (LENGTH, img, buf) + rest + (record,)
    if without[0] == LENGTH or len(record) < RECORD:
        return (LENGTH, img, result(LENGTH, buf)) + rest + (record,)
    given = struct.unpack("<6I", record[:RECORD])
    if m.stale(img, given):
        return (STALE, img, result(STALE, buf)) + rest + (record,)
    if without[0] == DAMAGED or given != m.record_of(img):
        return None
    after = record if without[1] == img else as_bytes(m.record_of(without[1])) + record[RECORD:]
    return without[:3] + lent + (after,)


def tell(library, m, buf, record, kind, want, without, name):
    if len(buf) < RESULT:
        return met(library, "short result")
    if len(record) < RECORD:
        return met(library, "short record")
    if want[0] == LENGTH:
        return met(library, *["too few words"] * (name in ("insert_opened", "delete_opened")))
    if want[0] == STALE:
        return met(library, *[kind] * (kind is not None and kind.startswith("stale")), *["stale on a damaged image"] * (without[0] == DAMAGED))
    erased = struct.unpack("<6I", want[2][:RESULT])[3]
    update = name in ("insert_opened", "delete_opened")
    return met(library, {"lookup_opened": "lookup by the record", "list_opened": "list by the record"}.get(name, "update by the record"),
               *["collection by the record"] * (update and erased > 0), *["stopped by the record"] * (want[0] == STOPPED),
               *["refused by the record"] * (want[0] not in (DONE, STOPPED)))


def hold(library, m, rng, img, buf, without, name, rest=(), **args):
    """The call with a record, whose outcome without one is `without`; `rest` is what else is lent, as it was."""
    if not m.good_length(img):
        record, kind = rng.randbytes(rng.choice([RECORD, RECORD + 3, rng.randrange(RECORD)])), None
    else:
        record, kind = some_record(rng, m, img, without[0] not in (LENGTH, DAMAGED) and len(buf) >= RESULT)
    want = wanted(m, img, buf, record, without, rest)
    if want is None:
        free(library, m, img, library.call(name, img, buf, record=record, **args), name, args.get("allowance", LARGEST))
        return
    library.hold(want, name, img, buf, record=record, **args)
    tell(library, m, buf, record, kind, want, without, name)
