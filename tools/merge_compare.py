#!/usr/bin/env python3
"""Compares what `Merge::Apply` reads of random YAML texts with merge keys with what PyYAML and `apply_merge` make of them.

usage: merge_compare.py PROGRAM SEED COUNT

PROGRAM is the built derived_case, or what fast_build.py makes of it. PyYAML comes with
`apt-get install -y python3-yaml`, and merges by itself. Each text is given as two rows. What the row `apply:Value`
prints is read by PyYAML, and has to be the value that PyYAML reads of the text, or a fault where PyYAML has one; and
its keys have to stand in the order of docs/DEFINITIONS.md: those of a mapping, then those that it is given. What can't
be merged is a fault where it is hidden too, which PyYAML passes over. The row
`agree` has to tell that `Merge::Apply` reads the value that `apply_merge` makes of what is read without it, order and
all, where no mapping that is merged has a merge key itself, since `apply_merge` leaves that one. Prints the first texts
that differ, and in the last line the counts. Status 0 only if none differs.
"""

import random
import subprocess
import sys

import yaml

from json_files import quoted

SHOWN = 10
BATCH = 2000
# Keys that are distinct as values, each in its spellings.
KEYS = [("a", "'a'"), ("b", '"b"'), ("c",), ("d",), ("1", "0x1"), ("e", "'e'"), ("a b",), ("~",)]


class Texts:
    """Random texts in flow style."""

    def __init__(self, seed):
        self.random = random.Random(seed)

    def often(self, share):
        return self.random.random() < share

    def text(self):
        self.mappings, self.lists, self.count = [], [], 0
        return self.mapping(0)

    def named(self, names, node):
        """The node, maybe under an anchor, which can be named once it is there."""
        if not self.often(0.6):
            return node
        self.count += 1
        names.append("*n%d" % self.count)
        return "&n%d %s" % (self.count, node)

    def element(self, depth):
        """An element of what is merged."""
        if self.often(0.02):
            return self.random.choice(["1", "[]", "!t {a: 1}", "~"])
        if self.mappings and self.often(0.7):
            return self.random.choice(self.mappings)
        return self.named(self.mappings, self.mapping(depth + 1))

    def merged(self, depth):
        """What stands at a merge key."""
        if self.often(0.02):
            return self.random.choice(["1", "'a'", "~", "!t {a: 1}"])
        if self.lists and self.often(0.1):
            return self.random.choice(self.lists)
        if self.often(0.35):
            elements = [self.element(depth) for _ in range(self.random.randint(0, 3))]
            return self.named(self.lists, "[%s]" % ", ".join(elements))
        return self.element(depth) if self.often(0.97) else "[]"

    def value(self, depth):
        kind = self.random.random()
        if depth < 4 and kind < 0.45:
            return self.named(self.mappings, self.mapping(depth + 1))
        if depth < 4 and kind < 0.55:
            return "[%s]" % ", ".join(self.value(depth + 1) for _ in range(self.random.randint(0, 3)))
        if self.mappings and kind < 0.7:
            return self.random.choice(self.mappings)
        return str(self.random.randint(0, 99))

    def mapping(self, depth):
        keys = self.random.sample(KEYS, self.random.randint(0, 4))
        places = [self.random.choice(spellings) for spellings in keys]
        if depth < 5 and self.often(0.5 if depth else 0.2):
            places.insert(self.random.randint(0, len(places)), "<<")
        # a value is made where it stands, so that it names what stands before
        entries = ["%s: %s" % (key, self.merged(depth) if key == "<<" else self.value(depth)) for key in places]
        return "{%s}" % ", ".join(entries)


class Wrong(Exception):
    """What stands at a merge key can't be merged."""


def sources(node):
    """The mappings that a merge key names."""
    if isinstance(node, yaml.MappingNode):
        return [node]
    if isinstance(node, yaml.SequenceNode):
        return node.value
    raise Wrong


def is_merge(key):
    return isinstance(key, yaml.ScalarNode) and key.value == "<<" and not key.style


def entries(node):
    """The entries of a mapping, with those that it is given behind its own."""
    if not isinstance(node, yaml.MappingNode) or node.tag.startswith("!"):
        raise Wrong
    found = [(key, value) for key, value in node.value if not is_merge(key)]
    names = {name(key) for key, _ in found}
    for key, value in node.value:
        if is_merge(key):
            if value.tag.startswith("!"):
                raise Wrong
            for source in sources(value):
                more = [(k, v) for k, v in entries(source) if name(k) not in names]
                names |= {name(k) for k, _ in more}
                found += more
    return found


def name(key):
    """A key as Python has it."""
    return yaml.safe_load(key.value) if not key.style else key.value


def value_of(node):
    """The value of a node, mappings as pairs in order."""
    if isinstance(node, yaml.ScalarNode):
        return name(node)
    if isinstance(node, yaml.SequenceNode):
        return [value_of(part) for part in node.value]
    return [(name(key), value_of(value)) for key, value in entries(node)]


def check(node, seen):
    """Merges each mapping, those too whose entries no other has."""
    if id(node) in seen or isinstance(node, yaml.ScalarNode):
        return
    seen.add(id(node))
    if isinstance(node, yaml.MappingNode):
        if not node.tag.startswith("!"):
            entries(node)
        for key, value in node.value:
            check(value, seen)
    else:
        for part in node.value:
            check(part, seen)


def in_order(value):
    """The value, mappings as pairs in order."""
    if isinstance(value, list):
        return [in_order(part) for part in value]
    if isinstance(value, dict):
        return [(key, in_order(part)) for key, part in value.items()]
    return value


def wanted(text):
    """What PyYAML reads of the text, and the same with its mappings as pairs in order; or nothing, where it has a
    fault."""
    try:
        root = yaml.compose(text, yaml.SafeLoader)
        check(root, set())
        return yaml.safe_load(text), value_of(root)
    except (yaml.constructor.ConstructorError, Wrong):
        return None


def has_chain(text):
    """Whether a mapping that is merged has a merge key itself."""
    def gone_into(node, seen):
        if id(node) in seen or isinstance(node, yaml.ScalarNode):
            return False
        seen.add(id(node))
        if isinstance(node, yaml.SequenceNode):
            return any(gone_into(part, seen) for part in node.value)
        for key, value in node.value:
            if is_merge(key):
                named = value.value if isinstance(value, yaml.SequenceNode) else [value]
                if any(is_merge(k) for part in named if isinstance(part, yaml.MappingNode) for k, _ in part.value):
                    return True
            if gone_into(value, seen):
                return True
        return False
    return gone_into(yaml.compose(text, yaml.SafeLoader), set())


def answers(program, rows):
    told = subprocess.run(program, input="".join(row + "\n" for row in rows).encode(), capture_output=True, check=True)
    lines = told.stdout.decode().splitlines()
    assert len(lines) == len(rows), (len(lines), len(rows))
    return [line[len(row) + len("  => "):] for row, line in zip(rows, lines)]


def difference(text, read, agreed):
    """What is wrong with the answers of a text, if anything is."""
    theirs = wanted(text)
    if theirs is None or read.startswith("! "):
        if (theirs is None) != read.startswith("! "):
            return "one side has a fault"
        return None
    ours = yaml.safe_load(yaml.safe_load(read))
    if ours != theirs[0]:
        return "another value than PyYAML's"
    if in_order(ours) != theirs[1]:
        return "another order"
    if agreed != "the same" and not has_chain(text):
        return "another value than apply_merge's"
    return None


def main():
    program, seed, count = sys.argv[1], int(sys.argv[2]), int(sys.argv[3])
    texts, same, faults, chains, different = Texts(seed), 0, 0, 0, 0
    for start in range(0, count, BATCH):
        batch = [texts.text() for _ in range(min(BATCH, count - start))]
        rows = [row % quoted(text) for text in batch for row in ("apply:Value %s", "agree %s")]
        told = answers([program], rows)
        for text, read, agreed in zip(batch, told[::2], told[1::2]):
            agreed = agreed.strip('"')
            wrong = difference(text, read, agreed)
            if wrong:
                different += 1
                if different <= SHOWN:
                    print("%s\n  %s\n  read %s\n  wanted %s\n  agree %s" % (text, wrong, read, wanted(text), agreed))
            elif read.startswith("! "):
                faults += 1
            else:
                same += 1
                chains += agreed != "the same"
    print("%d the same, of which %d have chains that apply_merge leaves; %d faults of both; %d differ"
          % (same, chains, faults, different))
    sys.exit(different > 0)


if __name__ == "__main__":
    main()
