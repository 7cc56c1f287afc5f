"""Random logs of request 3, the same for the same seed.

usage: logs.py LINES SEED        writes a log of so many lines, and then 1,201 with rising keys; 1200 5 is the stored log of bench_log
"""
import random
import sys

LARGEST = 2 ** 32 - 1
# last pieces that have no form: each is answered by E
BROKEN = [b"\n", b"F\r\n", b"F\t\n", b"f\n", b"X\n", b"FF\n", b" F\n", b"\tF\n", b"I\t1\n", b"I\t1\t2\t3\n", b"I\t01\t2\n", b"I\t1\t00\n", b"I\t\t2\n", b"I\t-1\t2\n",
          b"I\t+1\t2\n", b"I 1 2\n", b"D\t4294967296\n", b"D\t10000000000\n", b"D\t99999999999999999999999\n", b"L\t1 \n", b"L\t1\t\n", b"L\n", b"S\t1\t2\n",
          b"S\t1\t2\t3\t4\n", b"S\t4294967295\t4294967295\t4294967296\n", b"D\t" + b"0" * 40 + b"\n", b"A" * 200000 + b"\n", b"A" * 200000, b"D\t1", b"D\t1\r", b"F", b"\0\n", b"D\t\xb1\n"]


def line(rng, keys, known):
    """One line that has a form. Half of the keys were named before."""
    u = rng.random()
    if known and rng.random() < .5:
        key = rng.choice(known)
    else:
        key = rng.choice([0, 1, LARGEST, rng.randrange(2 ** 32)]) if rng.random() < .03 else rng.randrange(keys)
    address = rng.choice([0, LARGEST, rng.randrange(2 ** 32), rng.randrange(1000)])
    if u < .0005:
        return "F"
    if u < .62:
        if len(known) < 2000:
            known.append(key)
        else:
            known[rng.randrange(2000)] = key
        if u < .45:
            return "I\t%d\t%d" % (key, address)
        return "S\t%d\t%d\t%d" % (key, address, rng.choice([0, 1, 1, 2, 3, 5, 40, LARGEST, LARGEST]))
    return "%s\t%d" % ("D" if u < .82 else "L", key)


def log(lines, seed):
    """The first lines come before any F; then a format, and keys of a wide or of a narrow range by turns."""
    rng, known = random.Random(seed), []
    out = ["F" if i == 5 else line(rng, 4000 if i // 2000 % 2 == 0 else 60, known) for i in range(lines)]
    return "".join(l + "\n" for l in out).encode()


def rising(lines):
    """A format and rising keys, more than three blocks have room for; every key is looked up."""
    return b"F\n" + b"".join(b"I\t%d\t%d\nL\t%d\n" % (k, 3 * k, k) for k in range(1, lines // 2 + 1))


if __name__ == "__main__":
    lines, seed = int(sys.argv[1]), int(sys.argv[2])
    sys.stdout.buffer.write(log(lines, seed) + rising(1200))
