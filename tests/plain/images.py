"""Images of request 12's plain tree, made by hand with the reference model: sound ones of heights 1 to 5, and such that break a rule.

A tree is made of the model's nodes. Its path is one way from the root to a leaf, the others are thin: one entry in each node.
"""
import os
import sys

sys.path.insert(0, os.path.dirname(os.path.dirname(os.path.abspath(__file__))))
import damage
import reference

SLOTS, TOP, BLOCK = 64, 5, 32  # entries of a node, the greatest height, pages of a block


def plain(fuzz):
    """The model of the plain tree, with the requests that have landed."""
    return fuzz.Plain(fuzz.SMALL, reference.rules(fuzz))


class Tree:
    """A tree and its pages, each a list of nodes: one node to a page, or as `pages` gives them. Any number of images can be made of it."""

    def __init__(self, rng, fuzz, root, pages=None):
        self.rng, self.fuzz, self.root = rng, fuzz, root
        while not fuzz.assign_keys(rng, root):
            for node in fuzz.all_nodes(root):
                node.entries = []
        self.entries = {node: node.entries for node in fuzz.all_nodes(root)}
        self.pages = (pages or one_to_a_page)(rng, fuzz, root)

    def image(self, m, free, blocks=None, worn=False):
        """The bytes, with so many erased pages on the fewest blocks that have them, or on more."""
        least = max(3, -(-(len(self.pages) + free) // BLOCK))
        blocks = least if blocks is None else max(blocks, least)
        for node, entries in self.entries.items():
            node.entries = list(entries)
        return self.fuzz.lay_out(self.rng, m, blocks, self.pages, self.root, free, worn, False)

    def leaf_keys(self, fullest):
        """The keys of the leaf with the most entries, or of one with the fewest."""
        leaves = [node for node in self.entries if node.level == 1]
        return [key for key, _ in (max if fullest else min)(leaves, key=lambda node: node.n).entries]


def one_to_a_page(rng, fuzz, root):
    return fuzz.place(rng, root, 0)


def thin(fuzz, level):
    return fuzz.chain(level)


def leaf(fuzz, n):
    return fuzz.Node(1, n=n)


def path(rng, fuzz, counts, place=None):
    """A tree by how many entries the nodes of its path have, the leaf's first; the path goes down at any entry, or at `place`."""
    node = leaf(fuzz, counts[0])
    for level, n in enumerate(counts[1:], 2):
        at = rng.randrange(n) if place is None else place
        node = fuzz.Node(level, [node if i == at else thin(fuzz, level - 1) for i in range(n)])
    return node


def full_path(rng, fuzz, height, full):
    """A tree whose path has 64 entries at levels 1 to `full`, and fewer above."""
    least = lambda level: 2 if level == height and level > 1 else 1
    return path(rng, fuzz, [SLOTS if level <= full else rng.choice([least(level), SLOTS - 1, rng.randint(least(level), 5)])
                            for level in range(1, height + 1)])


def splitting(rng, fuzz, height, full):
    """A tree with such a path whose leaf has room for a key between two of its own, where it is full."""
    while True:
        tree = Tree(rng, fuzz, full_path(rng, fuzz, height, full))
        keys = tree.leaf_keys(True)
        if full == 0 or any(b - a > 1 for a, b in zip(keys, keys[1:])):
            return tree


def shrinking(rng, fuzz, height, to):
    """A root of two entries: below one nothing but nodes of one entry, the leaf at the path's end among them, and below the other such
    nodes down to level `to`, where the first node with more stands."""
    node = path(rng, fuzz, [rng.choice([1, 2, SLOTS])] + [rng.choice([2, 3])] * (to - 1)) if to > 1 else leaf(fuzz, rng.choice([1, 2, SLOTS]))
    for level in range(to + 1, height):
        node = fuzz.Node(level, [node])
    both = [thin(fuzz, height - 1), node]
    rng.shuffle(both)
    return fuzz.Node(height, both)


def emptied(rng, fuzz, height, gone):
    """A tree whose path has one entry at levels 1 to `gone`, and three or more above: with the leaf's key so many nodes are gone."""
    return path(rng, fuzz, [1 if level <= gone else rng.choice([3, 4, SLOTS]) for level in range(1, height + 1)])


def any_tree(rng, fuzz, level, root=True):
    if level == 1:
        return leaf(fuzz, rng.choice([rng.randint(0 if root else 1, SLOTS), SLOTS, SLOTS - 1]))
    return fuzz.Node(level, [any_tree(rng, fuzz, level - 1, False) for _ in range(rng.randint(2 if root else 1, 3))])


def firsts(root):
    """The nodes from the root on, each the first child of the one before, that have one first key."""
    out, node = [root], root
    while node.level > 1 and node.children[0].entries[0][0] == node.entries[0][0]:
        node = node.children[0]
        out.append(node)
    return out


def several_levels(levels):
    """A page on which nodes of several levels share slot 0: the first children of the root at these levels, where their first keys are one and
    at most one of them has more entries than one. Other pages have one node. Levels from 1 on keep R6, 1 and one from 3 on break it."""
    def pages(rng, fuzz, root):
        shared = [node for node in firsts(root) if node.level in levels]
        if len(shared) < len(levels) or sum(len(node.entries) > 1 for node in shared) > 1:
            return one_to_a_page(rng, fuzz, root)
        out = [shared]
        for node in fuzz.all_nodes(root):
            if node not in shared:
                out.append([node])
        return out
    return pages


def on_shared_page(rng, fuzz, height, levels):
    """A tree of this height with a page of such levels. Its path is the first one."""
    while True:
        more = rng.choice([height] + list(levels) if height not in levels else [height])  # who of the first nodes has more than one entry
        counts = [rng.choice([2, 3, SLOTS]) if level in (more, height) else 1 for level in range(1, height + 1)]
        tree = Tree(rng, fuzz, path(rng, fuzz, counts, 0), several_levels(levels))
        if any(len(page) > 1 for page in tree.pages):
            return tree


def absent(rng, known, keys):
    """A key that is not there, among these if there is one, else next to them or anywhere."""
    near = [k + s for k in keys for s in (1, -1) if 0 <= k + s < 2 ** 32 and k + s not in known]
    among = [k for k in near if keys[0] < k < keys[-1]]
    return rng.choice(among or near or [k for k in (rng.randrange(2 ** 32) for _ in range(9)) if k not in known])


class Bench(damage.Bench):
    """The edits of tests/damage.py on the plain tree's images."""

    def sound(self, blocks=3):
        while True:
            tree = Tree(self.rng, self.fuzz, any_tree(self.rng, self.fuzz, self.rng.randint(1, TOP)))
            if len(tree.pages) <= BLOCK * blocks:
                return tree.image(self.m, self.rng.randrange(BLOCK * blocks - len(tree.pages) + 1), blocks)


# What R5 asks of a node, and how it is broken there.
BAD_NODES = ("a key below its bound", "a key not below the next subtree's", "two keys alike", "no entry", "65 entries", "255 entries", "one entry of a root",
             "a page past the end", "an erased page")


def nodes_with_bounds(m, img):
    """Every live node: page, level, the least key it may have and the first that it may not, or none."""
    out = []

    def walk(page, level, low, high):
        out.append((page, level, low, high))
        entries = m.entries(img, page, level)
        for i in range(len(entries) if level > 1 else 0):
            walk(entries[i][1], level - 1, *m.child_bounds(entries, i, low, high))
    walk(m.root_page(img), m.height(img), 0, None)
    return out


def edits(m, img, node, bad):
    """What is written to a node's page to break R5 so: the place on the page, the bytes. Nothing where the node can't be broken so."""
    page, level, low, high = node
    entries, root = m.entries(img, page, level), level == m.height(img)
    number = lambda n: n.to_bytes(4, "little")
    erased = [p for p in range(m.T(img)) if m.erased(img, p)]
    slot, count = 8 * (len(entries) - 1), m.G.main + 4 + level
    changes = {
        "a key below its bound": [(0, number(low - 1))] if low > 0 and entries else [],
        "a key not below the next subtree's": [(slot, number(high))] if high is not None and entries else [],
        "two keys alike": [(slot, number(entries[-2][0]))] if len(entries) > 1 else [],
        "no entry": [(count, b"\x00")] if not root or level > 1 else [],
        "65 entries": [(count, b"\x41")],
        "255 entries": [(count, b"\xff")],
        "one entry of a root": [(count, b"\x01")] if root and level > 1 else [],
        "a page past the end": [(slot + 4, number(m.T(img)))] if level > 1 else [],
        "an erased page": [(slot + 4, number(erased[-1]))] if level > 1 and erased else [],
    }
    return changes[bad]


def bad_node(rng, fuzz, m, bad):
    """An image with one node that breaks R5 so, at any level, and codes that fit."""
    while True:
        img = Bench(rng, fuzz, m).sound()
        node = rng.choice(nodes_with_bounds(m, img))
        for at, values in edits(m, img, node, bad):
            i = node[0] * m.G.page_size + at
            img = reference.recoded(m, img[:i] + values + img[i + len(values):])
            if m.first_damage(img) == (5, node[0]):
                return img


def gap(rng, fuzz, m):
    """An image that breaks R6: a page with a leaf and a node two or more levels above it."""
    height = rng.randint(3, TOP)
    tree = on_shared_page(rng, fuzz, height, [rng.randint(3, height), 1])
    return tree.image(m, rng.randrange(40))
