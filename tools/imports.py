"""Imports that a file does not use. A name is used if it stands anywhere else in the file but in a comment or another import.

usage: imports.py [--write] FILES       prints a line for each file with such imports; --write takes them out
"""
import re
import sys

IMPORT = re.compile(r"^((?:ghost )?use )([^{};]+)\.\{([^}]*)\}(;?)$")
PART_OF_A_NAME = r"[\w\-'′₀-₉]"


def is_used(name, text, words):
    """An operator such as ◌+◌ is used where each of its parts stands."""
    if "◌" in name:
        return all(any(part in word for word in words) for part in name.split("◌") if part)
    if name == "[]":
        return "[]" in text
    return re.search(r"(?<!%s)%s(?!%s)" % (PART_OF_A_NAME, re.escape(name), PART_OF_A_NAME), text) is not None


def unused(path):
    """The names that are not used, and the file without them."""
    lines = open(path, encoding="utf-8").read().split("\n")
    text = "\n".join(line for line in lines if not re.match(r"(ghost )?use ", line) and not line.lstrip().startswith(("--", "//")))
    words = set(re.findall(r"[^\s(){},;.`]+", text))
    left, gone = [], []
    for line in lines:
        found = IMPORT.match(line)
        # a plain `use` of a .rt file names Rattle's own items, which the compiler looks after
        if not found or (path.endswith(".rt") and not line.startswith("ghost")):
            left.append(line)
            continue
        names = [name.strip() for name in found.group(3).split(",") if name.strip()]
        kept = [name for name in names if is_used(name.split(" as ")[-1].strip(), text, words)]
        gone += ["%s.%s" % (found.group(2), name) for name in names if name not in kept]
        if kept:
            left.append("%s%s.{%s}%s" % (found.group(1), found.group(2), ", ".join(kept), found.group(4)) if kept != names else line)
    return gone, "\n".join(left)


def main(words):
    write, count = "--write" in words, 0
    for path in (word for word in words if word != "--write"):
        gone, text = unused(path)
        if gone:
            count += len(gone)
            print("%s: %s" % (path, ", ".join(gone)))
            if write:
                open(path, "w", encoding="utf-8").write(text)
    print("%d imports are not used" % count)


if __name__ == "__main__":
    main(sys.argv[1:])
