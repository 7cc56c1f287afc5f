#!/usr/bin/env python3
"""Brings the repository's own definitions, lemmas and fields to snake case, after /opt/rattle/port/port.py has run: camelCase and dashes
become underscores in every crate's specs/, proofs/ and src/. A lemma that would then have its definition's name ends in _lem. Names that the
kit makes or has keep their spelling. The table of names that it worked out stands in tools/snake-names.txt.
usage: snake.py              writes the table and respells
       snake.py --table      respells by the table that is there (another tree, a document)
       snake.py --files F..  respells these files by the table"""
import collections
import glob
import os
import re
import sys

TOP = os.getcwd()
TABLE = 'tools/snake-names.txt'
NAME = r"[^\s(){}\[\],;:.\"`|@<>=]+"
OLD = re.compile(r"^[a-z][A-Za-z0-9'_₀-₉-]*$")
# Lemmas that port.py gave the name of a definition that is still to come: file, name.
SECOND = {('theory_updates/specs/Records', 'made_by'), ('theory_updates/specs/UpdateBy', 'made_by'), ('live_words/specs/Ones', 'all_ones'),
    ('theory_chips/specs/Tests', 'in_order'), ('theory_chips/specs/PlainDeletion', 'kept_on')}
MADE = re.compile(r'^(invariant|decreases)(-|$)')


def antt_files():
    return sorted(glob.glob('crates/*/specs/*.antt') + glob.glob('crates/*/proofs/**/*.antt', recursive=True))


def is_old(name):
    return bool(OLD.match(name)) and ('-' in name or re.search('[a-z0-9][A-Z]', name)) and not MADE.match(name)


def snake(name):
    name = re.sub(r'([a-z0-9])([A-Z])', lambda m: m.group(1) + '_' + m.group(2).lower(), name)
    return name.replace('-', '_').lower() if not name.isupper() else name


def uses(text):
    """The names that a file imports, with the module that each comes from."""
    for m in re.finditer(r'^(?:ghost )?(?:pub )?use\s+([^\s{;]+?)\.\{([^}]*)\}', text, re.M):
        for item in m.group(2).split(','):
            yield m.group(1), item.split(' as ')[0].strip()


def declared():
    own = {line.split(':')[0].split()[0] for line in open('crates.txt') if re.match(r'\w+( \w+)*:', line)}
    names, foreign, kept = collections.defaultdict(set), set(), collections.defaultdict(set)
    for file in antt_files():
        text = open(file).read()
        for module, item in uses(text):
            if not (module.startswith('Rattle.') and module.split('.')[1] in own):
                foreign.add(item)
        for line in text.split('\n'):
            m = re.match(r'\s*(?:(?:abbrev|unfoldable|pub|ruleset|let|section|record|data) +)*(' + NAME + r') *(?::|=|\{)', line)
            if m and not line.lstrip().startswith('--'):
                if is_old(m.group(1)):
                    names[m.group(1)].add(file)
                elif not line[0].isspace():
                    kept[m.group(1)].add(file)
    return names, foreign, kept


def table():
    names, foreign, kept = declared()
    turned, by = {}, collections.defaultdict(list)
    for name in names:
        if name not in foreign:
            by[snake(name)].append(name)
    for new, olds in sorted(by.items()):
        olds = sorted(olds, key=lambda n: ('-' in n, n))
        taken = new in kept or new in foreign
        # port.py has turned the lemma, and the definition is still to come
        if new in kept and new not in foreign and '-' not in olds[0]:
            turned[new], taken = new + '_lem', False
        for old in olds:
            if not taken:
                turned[old], taken = new, True
            else:
                turned[old] = new + '_lem'
                if new + '_lem' in kept or new + '_lem' in turned.values() and list(turned.values()).count(new + '_lem') > 1:
                    print('look: twice', new + '_lem', olds)
    return turned


def respell(text, turned, file):
    stem = file[len('crates/'):-len('.antt')]
    def one(m):
        word = m.group(0)
        return word + '_lem' if (stem, word) in SECOND else turned.get(word, word)
    text = re.sub(NAME, one, text)
    return text


def main(args):
    if args[:1] == ['--table'] or args[:1] == ['--files']:
        turned = dict(line.split() for line in open(os.path.join(os.path.dirname(os.path.abspath(__file__)), 'snake-names.txt')))
    else:
        turned = table()
        os.makedirs('tools', exist_ok=True)
        with open(TABLE, 'w') as out:
            for old, new in sorted(turned.items()):
                out.write(f'{old} {new}\n')
    files = args[1:] if args[:1] == ['--files'] else antt_files() + sorted(glob.glob('crates/*/src/**/*.rt', recursive=True))
    changed = 0
    for file in files:
        text = open(file).read()
        new = respell(text, turned, file)
        if new != text:
            open(file, 'w').write(new)
            changed += 1
    print(f'snake: {len(turned)} names, {changed} files')


main(sys.argv[1:])
