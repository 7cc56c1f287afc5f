"""The program compare against the reference model: the same random logs on both trees, whole and broken ones.

usage: compare.py PROGRAM [LINES] [SEED]
"""
import os
import random
import subprocess
import sys

TESTS = os.path.dirname(os.path.dirname(os.path.abspath(__file__)))
sys.path[:0] = [TESTS, os.path.join(TESTS, "replay")]
import logs
import reference

# a log that is not over counts one update more after these lines
ONE_MORE = b"F\nI\t1\t1\n"


def wanted(model, mu, plain, text):
    """What the request and docs/DECISIONS.md ask for, and whether the run stopped: the model's report, or E and the number of the first
    line without a form, if the run goes on until there. The model itself is silent on such a line."""
    whole, broken = b"", None
    for number, (line, ended) in enumerate(model.lines_of(text), 1):
        if not ended or model.parse_line(line) is None:
            broken = number
            break
        whole += line + b"\n"
    numbers = model.compare(mu, plain, whole)
    stopped = model.compare(mu, plain, whole + ONE_MORE)[0] == numbers[0]
    if broken is None or stopped:
        return b"\t".join(b"%d" % n for n in numbers) + b"\n", stopped
    return b"E\t%d\n" % broken, stopped


def key_maker(rng):
    """Keys that rise, that fall, or at random from a wide or a narrow range."""
    kind, at = rng.randrange(4), rng.randrange(1000, 10 ** 6)
    if kind < 2:
        steps = iter(range(10 ** 9))
        return lambda: at + next(steps) if kind == 0 else at - next(steps)
    return lambda: rng.choice([0, logs.LARGEST, rng.randrange(2 ** 32)]) if rng.random() < .03 else rng.randrange(30 if kind == 2 else 4000)


def log(rng, lines):
    """Lines before any F, then rounds that begin with F; the longest ones fill the plain tree's image."""
    most = rng.choice([8, 30, 70, 90])
    careful = rng.random() < .5
    out = [logs.line(rng, 60, []) for _ in range(rng.choice([0, 0, 3]))]
    while len(out) < lines:
        new, known = key_maker(rng), []
        out.append("F")
        for _ in range(rng.randint(1, most)):
            u = rng.random()
            key = new() if u < .6 or not known else rng.choice(known)
            known.append(key)
            address = rng.choice([0, logs.LARGEST, rng.randrange(1000)])
            if u < .8:
                out.append("I\t%d\t%d" % (key, address))
            elif u < .86:
                allowance = logs.LARGEST if careful else rng.choice([0, 1, 1, 2, 2, 3, 40, logs.LARGEST])
                out.append("S\t%d\t%d\t%d" % (key, address, allowance))
            else:
                out.append("%s\t%d" % ("D" if u < .93 else "L", key))
    return "".join(l + "\n" for l in out).encode()


def compare(program, lines, seed):
    fuzz = reference.need("compare")
    model = sys.modules["mutree_model"]
    mu, plain = reference.mu(fuzz, fuzz.SMALL), model.Plain(fuzz.SMALL, reference.rules(fuzz))
    rng, met, runs, done, updates = random.Random(seed), {}, 0, 0, 0

    def same(text):
        nonlocal runs, done, updates
        ours = subprocess.run([program], input=text, stdout=subprocess.PIPE, check=True).stdout
        theirs, stopped = wanted(model, mu, plain, text)
        if ours != theirs:
            with open("differs.log", "wb") as f:
                f.write(text)
            sys.exit("a log of %d lines: the program writes %r, the reference says %r; the log is in differs.log" % (text.count(b"\n"), ours, theirs))
        runs, done = runs + 1, done + text.count(b"\n")
        what = "E"
        if ours[:1] != b"E":
            numbers = [int(n) for n in ours.split()]
            updates += numbers[0]
            what = "0 and 0" if numbers[2] == 0 else "a ratio as it stood" if numbers[1] == numbers[3] else "a ratio in lower terms"
            what += ", stopped" if stopped else ""
        met[what] = met.get(what, 0) + 1

    for text in (b"", b"F\n", b"F\n" + b"L\t1\n" * 50, b"I\t1\t1\nD\t1\n", logs.rising(300)):
        same(text)
    for last in logs.BROKEN:
        same(last)
        same(log(rng, 10) + last)
    while done < lines:
        same(log(rng, rng.choice([1, 20, 100, 300])) + (rng.choice(logs.BROKEN) if rng.random() < .2 else b""))
    print("compare: %d logs, %d lines, %d updates counted, the program and the reference agree" % (runs, done, updates))
    print("reports met: " + "; ".join("%s: %d times" % (k, met[k]) for k in sorted(met)))


if __name__ == "__main__":
    words = sys.argv[1:]
    compare(os.path.abspath(words[0]), int(words[1]) if len(words) > 1 else 5000, int(words[2]) if len(words) > 2 else 1)
