"""The program replay against the reference model: the same random logs, whole and broken ones.

usage: compare.py PROGRAM [LINES] [SEED]
"""
import os
import random
import subprocess
import sys

HERE = os.path.dirname(os.path.abspath(__file__))
sys.path[:0] = [HERE, os.path.dirname(HERE)]
import logs
import reference


def same(program, model, m, text, what):
    ours = subprocess.run([program], input=text, stdout=subprocess.PIPE, check=True).stdout
    theirs = model.replay(m, text)
    if ours != theirs:
        with open("differs.log", "wb") as f:
            f.write(text)
        sys.exit("%s: the program and the reference differ; the log is in differs.log" % what)
    return theirs


def compare(program, lines, seed):
    fuzz = reference.need("replay")
    model = sys.modules["mutree_model"]
    m = reference.mu(fuzz, fuzz.SMALL)
    rng = random.Random(seed)
    met, runs, done = {}, 0, 0
    for last in logs.BROKEN:
        for before in (b"", logs.log(3, seed)):
            same(program, model, m, before + last, repr(last[:40]))
            runs += 1
    for text in (b"", logs.rising(1200)):
        same(program, model, m, text, "no line, or rising keys")
        runs += 1
    while done < lines:
        text = logs.log(min(lines - done, rng.choice([1, 20, 300, 3000])), rng.random())
        done += text.count(b"\n")
        if rng.random() < .2:
            text += rng.choice(logs.BROKEN)
        answers = same(program, model, m, text, "a log of %d lines" % text.count(b"\n"))
        runs += 1
        for answer in answers.splitlines():
            key = b" ".join(answer.split(b"\t")[:2]) if answer[:1] not in b"ET" else answer[:1]
            met[key] = met.get(key, 0) + 1
    print("replay: %d logs, %d lines, the program and the reference agree" % (runs, done))
    print("answers met: " + ", ".join("%s %d times" % (k.decode(), met[k]) for k in sorted(met)))


if __name__ == "__main__":
    words = sys.argv[1:]
    compare(os.path.abspath(words[0]), int(words[1]) if len(words) > 1 else 3000, int(words[2]) if len(words) > 2 else 1)
