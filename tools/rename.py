"""Renames crates, and files of their specs, by a table: folders, crates.txt, code, specs, proofs, must-fail edits, documents, tests.

usage: rename.py TABLE      at the repository's root, in a tree without changes. A line of the table is `OLD NEW` for a crate, or `CRATE/OLD NEW`
                            for the file specs/OLD.antt of a crate, by its old name
Then: `rt fmt`, `scripts/architecture draw`, and a look for the old names in prose.
"""
import os
import re
import subprocess
import sys


def read_table(path):
    rows = [line.split() for line in open(path, encoding="utf-8") if line.strip()]
    crates = {old: new for old, new in rows if "/" not in old and os.path.isdir("crates/" + old)}
    files = {tuple(old.split("/")): new for old, new in rows if "/" in old and os.path.isfile("crates/%s/specs/%s.antt" % tuple(old.split("/")))}
    return crates, files


class Names:
    def __init__(self, crates, files):
        self.crates, self.files = crates, files
        self.any_crate = "|".join(sorted(crates, key=len, reverse=True)) or "(?!)"

    def crate(self, found):
        return found.group(1) + self.crates[found.group(2)] + found.group(3)

    def file(self, crate, name):
        return self.files.get((crate, name), name)

    def antt(self, text):
        """`Rattle.CRATE` and its files."""
        text = re.sub(r"(Rattle\.)([a-z_]+)(\.specs\.)(\w+)", lambda m: m.group(1) + m.group(2) + m.group(3) + self.file(m.group(2), m.group(4)), text)
        return re.sub(r"(Rattle\.)(%s)(\.)" % self.any_crate, self.crate, text)

    def code(self, text):
        return re.sub(r"((?<![\w:]))(%s)(::)" % self.any_crate, self.crate, self.antt(text))

    def prose(self, text):
        text = re.sub(r"((?<![\w/.-])(?:crates/)?)([a-z_]+)(/specs/)(\w+)(\.antt)", lambda m: m.group(1) + m.group(2) + m.group(3) + self.file(m.group(2), m.group(4)) + m.group(5), text)
        text = re.sub(r"(crates/)(%s)(/|\b)" % self.any_crate, self.crate, text)
        text = re.sub(r"((?<![\w/.-]))(%s)(/(?:specs|src|proofs|must-fail)\b)" % self.any_crate, self.crate, text)
        return re.sub(r"((?<![\w:]))(%s)(::)" % self.any_crate, self.crate, text)

    def list_of_crates(self, text):
        lines = []
        for line in text.split("\n"):
            if ":" in line and not line.startswith("#"):
                name, needs = line.split(":", 1)
                words = name.split()  # the crate, and `staticlib` of a library for C
                line = " ".join([self.crates.get(words[0], words[0])] + words[1:]) + ":" + "".join(" " + self.crates.get(need, need) for need in needs.split())
            lines.append(line)
        return "\n".join(lines)

    def edits(self, text, edits):
        """CRATE/EDIT of a must-fail edit, in a document."""
        for crate, edit in edits:
            if crate in self.crates:
                text = re.sub(r"(?<![\w/])%s/%s\b" % (crate, edit), "%s/%s" % (self.crates[crate], edit), text)
        return text

    def changed(self, path, text, edits):
        if path == "crates.txt":
            return self.list_of_crates(text)
        crate = path.split("/")[1] if path.startswith("crates/") else None
        if crate and path.endswith("/specs/Lib.antt"):
            text = re.sub(r"(?m)^(pub mod )(\w+)$", lambda m: m.group(1) + self.file(crate, m.group(2)), text)
        if crate and path.endswith(".edit"):
            text = re.sub(r"(?m)^(file: specs/)(\w+)(\.antt)$", lambda m: m.group(1) + self.file(crate, m.group(2)) + m.group(3), text)
        if crate:
            return self.antt(text) if path.endswith(".antt") else self.code(text) if path.endswith((".rt", ".edit")) else text
        text = self.prose(text)
        if path.endswith(".md"):
            text = self.edits(text, edits)
        if path == "docs/ARCHITECTURE.md":
            text = re.sub(r"(?m)^(- `)(%s)(`: )" % self.any_crate, self.crate, text)
        return text


def main(table):
    names = Names(*read_table(table))
    files = subprocess.run(["git", "ls-files"], stdout=subprocess.PIPE, check=True).stdout.decode().split()
    edits = [(path.split("/")[1], os.path.basename(path)[:-len(".edit")]) for path in files if path.endswith(".edit")]
    for path in files:
        try:
            text = open(path, encoding="utf-8").read()
        except UnicodeDecodeError:
            continue
        now = names.changed(path, text, edits)
        if now != text:
            open(path, "w", encoding="utf-8").write(now)
    for (crate, old), new in names.files.items():
        subprocess.run(["git", "mv", "crates/%s/specs/%s.antt" % (crate, old), "crates/%s/specs/%s.antt" % (crate, new)], check=True)
    for old, new in names.crates.items():
        subprocess.run(["git", "mv", "crates/" + old, "crates/" + new], check=True)


if __name__ == "__main__":
    if len(sys.argv) != 2:
        sys.exit(__doc__)
    main(sys.argv[1])
