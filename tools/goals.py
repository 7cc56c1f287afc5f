"""The goals of holes in fewer words: paths of `.before` as a count, no module names, no (computed from ..).

usage: rt check --allow-holes 2>&1 | goals.py [LONGEST LINE]      in a crate's folder
"""
import re
import sys


def main(longest):
    inside = False
    for line in sys.stdin:
        line = line.rstrip("\n")
        if re.match(r"^ {4}\(computed from", line):
            inside = line.count("(") != line.count(")")
            continue
        if inside and re.match(r"^ {5,}", line):
            continue
        inside = False
        if re.match(r"checked |statements |library |(fn|impl|struct|enum) .*: proved$", line):
            continue
        if line.lstrip().startswith("use "):
            print(line[:longest])
            continue
        line = re.sub(r"((?:\.before){2,})", lambda found: ".before×%d" % found.group(1).count(".before"), line)
        line = re.sub(r"\b(?:Rattle|mathlib|lib|denote|Prim|borrow|types|native)\.(?:[\w+-]+\.)+(?=[A-Za-z])", "", line)
        print(re.sub(r"\((?:[\w-]+-?reads?\.Asked, [\w-]+\.Learnt(?:, )?)+[^()]*\)", "(..)", line)[:longest])


if __name__ == "__main__":
    main(int(sys.argv[1]) if len(sys.argv) > 1 else 600)
