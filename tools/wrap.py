"""Breaks lines of more than 120 characters in specs, proofs and contracts, where the outermost parts of a line meet. Nothing but line ends and margins
changes. A line that a must-fail edit names is left, and so is a line of imports, whose layout is that of `rt fmt`.

usage: wrap.py FILES        changes the files
Then: `rt fmt` and `rt check`.
"""
import glob
import os
import re
import sys
import textwrap

WIDTH = 120
OPEN, CLOSE = "([{⟨", ")]}⟩"
BEFORE = ("→", "∙", "≡")  # a line may well begin with these
AFTER = ("in", "=", "×", "⊎", "$", "∵")  # and end with these
NEVER = ("←", "λ", ":", "let", "rw", "simp", "pub", "abbrev", "record")  # and never end with these
JOINTS = BEFORE + AFTER + ("+", "-", "*", "/", "&", "++", "∷", "≤", "<", ":", "λ", "let")


def edits_of(path):
    """The texts of a file that must-fail edits look for."""
    crate = path.split("/")[path.split("/").index("crates") + 1] if "crates/" in path else None
    for edit in glob.glob("crates/%s/must-fail/*.edit" % crate):
        text = open(edit, encoding="utf-8").read()
        if path.endswith("/" + re.search(r"(?m)^file: (.*)$", text).group(1)):
            yield from re.findall(r"(?m)^old: (.*)$", text)


def cost(line, at, depth):
    """How bad a break at this space is: deep, far from the end, or in the middle of an application."""
    words, after = line[:at].split(" "), line[at + 1:].split(" ")[0]
    before = words[-1]
    head = before.startswith(tuple(OPEN)) or before in JOINTS or after in JOINTS or (len(words) > 1 and words[-2] in JOINTS)
    if after == "→" or before in AFTER:
        tie = 0
    elif after in BEFORE or before.endswith((",", ";")):
        tie = 10
    else:
        tie = (6 if after.startswith("(") else 14) + (20 if head else 0)
    return 12 * depth + tie + (WIDTH - at) * 0.35


def may_break(before, rest):
    return before.lstrip("".join(OPEN)) not in NEVER and not rest.startswith((")", "}", ".", ":"))


def is_type(line):
    return bool(re.match(r" *((pub |abbrev |unfoldable )*[^ =]+ : |[→≡] |module |pub record |record [A-Z]|requires |ensures )", line))


def break_at(line, start):
    """The best space to break at, from `start` on. In a term of up to 160 characters only where two steps meet."""
    depth, best, inside = 0, None, []
    most = 300 if is_type(line) or len(line) > 160 else 45
    for at, letter in enumerate(line):
        depth += (letter in OPEN) - (letter in CLOSE)
        if letter in OPEN:
            inside.append(letter)
        elif letter in CLOSE and inside:
            inside.pop()
        if inside[-1:] == ["{"] and not line[:at].endswith(";"):
            continue  # a field stays whole
        if letter == " " and start < at <= WIDTH and may_break(line[:at].split(" ")[-1], line[at + 1:]):
            worth = cost(line, at, depth)
            steps = line[at + 1:].startswith("∙ ") or line[:at].split(" ")[-1] in ("in", "=", "$")
            if (most == 300 or (steps and worth <= most)) and (best is None or worth <= best[0]):
                best = (worth, at)
    return best and best[1]


def pieces(line):
    margin = len(line) - len(line.lstrip())
    follow = " " * (margin + 4)
    done = []
    while len(line) > WIDTH:
        at = break_at(line, margin + 40)
        if not at or at <= len(follow):
            break
        done.append(line[:at].rstrip())
        line = follow + line[at + 1:].lstrip()
    return done + [line]


def comments(text):
    """Comments with a line that is too long, filled anew. A short heading `-- ---- ..` keeps its line."""
    def filled(found):
        lines = found.group(0).split("\n")[:-1]
        if all(len(line) <= WIDTH for line in lines):
            return found.group(0)
        mark = found.group(1)
        heading = [lines.pop(0)] if lines[0].startswith(mark + "---- ") and len(lines[0]) < 100 else []
        words = " ".join(line[len(mark):] for line in lines)
        return "\n".join(heading + textwrap.wrap(words, WIDTH, initial_indent=mark, subsequent_indent=mark, break_on_hyphens=False, break_long_words=False)) + "\n"
    return re.sub(r"(?m)^( *(?:--|//) )(?! ).*\n(?:\1(?! ).*\n)*", filled, text)


def is_left(line, kept):
    words = line.split()
    return (len(line) <= WIDTH or words[0] in ("use", "ghost", "unfolding", "--", "//") or "ruleset" in words[:2] or any(text in line for text in kept)
            or "--" in words or '"' in line)


def main(paths):
    for path in paths:
        text = open(path, encoding="utf-8").read()
        kept = list(edits_of(path))
        in_code = path.endswith(".rt")
        lines = []
        for line in comments(text).split("\n"):
            plain = is_left(line, kept) or (in_code and not re.match(r" *(requires |ensures |[≡→] )", line))
            lines += [line] if plain else pieces(line)
        now = "\n".join(lines)
        if now != text:
            open(path, "w", encoding="utf-8").write(now)


if __name__ == "__main__":
    if len(sys.argv) < 2:
        sys.exit(__doc__)
    os.chdir(os.path.join(os.path.dirname(os.path.abspath(__file__)), ".."))
    main(sys.argv[1:])
