"""Names the places of a proof that walks the code: chains like `c.before.before.before.loop` become `let at_loop = c.before.before.before in` and
`at_loop.loop`, each place counted from the one before it.

usage: places.py FILES      changes the files. A goal is a definition `NAME c = ..`, or a line that begins with `(λ c.`
Then: `rt fmt` and `rt check`.
"""
import re
import sys

CHAIN = re.compile(r"\bc((?:\.before){3,})\.((?!before\b)[\w-]+)")
GOAL = re.compile(r"^( *)(\(λ c(?: κs)?\.|[\w-]+ c(?: κs)? =)[ \n]*", re.M)


def goals(text):
    """Where the goals of a file begin and end: to the next goal of a list, or to an empty line."""
    found = list(GOAL.finditer(text))
    for at, goal in enumerate(found):
        listed = goal.group(2).startswith("(")
        if listed:
            end = text.index("\n", goal.end())
            while not re.match(r"\n +(\(λ|[\w+-]+\)?$)|\n\n|\n$|\n\)", text[end:]):
                end = text.index("\n", end + 1)
        else:
            end = text.find("\n\n", goal.end())
            end = len(text) if end < 0 else end
        yield goal, end


def named(body):
    """The places of a body in their order, with the names they get."""
    places = {}
    for chain in CHAIN.finditer(body):
        places.setdefault(chain.group(1).count(".before"), chain.group(2))
    names, seen = {}, {}
    for depth in sorted(places):
        field = places[depth]
        seen[field] = seen.get(field, 0) + 1
        names[depth] = "at_" + field.replace("-", "_") + ("" if seen[field] == 1 else "_%d" % seen[field])
    return names


def with_names(goal, body):
    names = named(body)
    if not names:
        return None
    margin = goal.group(1) + "    "
    lines, last, count = [], "c", 0
    for depth in sorted(names):
        lines.append("%slet %s = %s%s in" % (margin, names[depth], last, ".before" * (depth - count)))
        last, count = names[depth], depth
    body = CHAIN.sub(lambda chain: names[chain.group(1).count(".before")] + "." + chain.group(2), body)
    body = re.sub(r" in let ", " in\n" + margin + "let ", body)
    return goal.group(1) + goal.group(2) + "\n" + "\n".join(lines) + "\n" + margin + body.lstrip()


def main(paths):
    for path in paths:
        text = open(path, encoding="utf-8").read()
        parts, at = [], 0
        for goal, end in goals(text):
            new = with_names(goal, text[goal.end():end])
            if new and goal.start() >= at:
                parts += [text[at:goal.start()], new]
                at = end
        if parts:
            open(path, "w", encoding="utf-8").write("".join(parts) + text[at:])


if __name__ == "__main__":
    if len(sys.argv) < 2:
        sys.exit(__doc__)
    main(sys.argv[1:])
