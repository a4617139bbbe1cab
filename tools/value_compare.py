#!/usr/bin/env python3
"""Compares what `yaml::Value` has of random YAML texts with what PyYAML and the rules of plain scalars make of them.

usage: value_compare.py PROGRAM SEED COUNT

PROGRAM is the built derived_case, or what fast_build.py makes of it. PyYAML comes with
`apt-get install -y python3-yaml`, and parses by libyaml. Each text is given as rows of types that hold values of any
kind, and is printed as JSON and as YAML. Both have to be the value that PyYAML's nodes have, whose plain scalars are
read here by the rules of docs/DEFINITIONS.md: null, booleans, integers of 128 bits in four bases, floats, and else
texts. Floats have to be the same. Where a key stands twice, a text has to be refused. Prints the first that differ, and
in the last lines the counts. Status 0 only if none differs.
"""

import collections
import math
import os
import random
import re
import subprocess
import sys

import yaml

from json_files import Pairs, answers, quoted, read, same, unshown

SHOWN = 10
BATCH = 2000
LOADER = getattr(yaml, "CBaseLoader", yaml.BaseLoader)
NULLS, TRUES, FALSES = ("", "~", "null", "Null", "NULL"), ("true", "True", "TRUE"), ("false", "False", "FALSE")
INTEGER = re.compile(r"([+-]?)(?:0x([0-9a-fA-F]+)|0o([0-7]+)|0b([01]+)|(0|[1-9][0-9]*))")
FLOAT = re.compile(r"[+-]?(?:[0-9]+(?:\.[0-9]*)?|\.[0-9]+)(?:[eE][+-]?[0-9]+)?")
# Digits behind a nought that are no number.
DIGITS = re.compile(r"[+-]?0[0-9]+")
SPECIAL = re.compile(r"(?:[+-]?\.(?:inf|Inf|INF)|\.(?:nan|NaN|NAN))")


class Twice(Exception):
    """A key stands twice."""


def plain(text):
    """What a plain scalar is."""
    if text in NULLS:
        return None
    if text in TRUES or text in FALSES:
        return text in TRUES
    if found := INTEGER.fullmatch(text):
        digits, base = next((part, base) for part, base in zip(found.groups()[1:], (16, 8, 2, 10)) if part)
        number = int(digits, base) * (-1 if found[1] == "-" else 1)
        if -(1 << 127) <= number < 1 << 128:
            return number
    if SPECIAL.fullmatch(text):
        return float(text.replace(".", ""))
    if FLOAT.fullmatch(text) and not DIGITS.fullmatch(text) and math.isfinite(float(text)):
        return float(text)
    return text


def value_of(node):
    """The value of a node of PyYAML's."""
    if isinstance(node, yaml.ScalarNode):
        return node.value if node.style else plain(node.value)
    if isinstance(node, yaml.SequenceNode):
        return [value_of(part) for part in node.value]
    pairs = Pairs((value_of(key), value_of(value)) for key, value in node.value)
    names = [(type(key), key) for key, _ in pairs]
    if len(set(names)) < len(names):
        raise Twice
    return pairs


def in_json(value):
    """The value as JSON has it: floats that are no numbers are null."""
    if isinstance(value, Pairs):
        return Pairs((key, in_json(part)) for key, part in value)
    if isinstance(value, list):
        return [in_json(part) for part in value]
    return None if isinstance(value, float) and not math.isfinite(value) else value


# --- random texts


SCALARS = """a b-c a:b x#y 'it''s' 'q' "d" "a\\tb" "\\u00e9\\x41" ~ null Null NULL nULL true True TRUE false FALSE yes
no on y .inf -.inf +.inf .Inf -.INF .nan .NaN .NAN -.nan inf nan Infinity 0 -0 +0 00 -00 007 +1 -1 1_000 0x1F -0x1f
+0xa 0X1 0x 0o17 -0o7 0O7 0b101 0b2 1.5 1. .5 -.5 +.5 -1. 1.e5 .e5 1e5 1E5 1e+5 1e-5 -1e5 1e 1e400 -1e400 1e-400 0.0
-0.0 0e0 00.5 01.5 1.5.2 1:30 2024-01-01 <<a 1,5 12345678901234567890 18446744073709551615 18446744073709551616
-9223372036854775808 340282366920938463463374607431768211455 340282366920938463463374607431768211456
-170141183460469231731687303715884105728 -170141183460469231731687303715884105729 0x7fffffffffffffff
0xffffffffffffffffffffffffffffffff 9007199254740993 0.1 0.30000000000000004 2.2250738585072014e-308 4.9e-324 2e-324
1.7976931348623157e308 1.7976931348623159e308 123456789.123456789e-3""".split()


class Texts:
    def __init__(self, seed):
        self.random = random.Random(seed)
        self.names = 0

    def number(self):
        rng = self.random
        digits = lambda most: "".join(rng.choice("0123456789") for _ in range(rng.randint(1, most)))
        if rng.random() < 0.3:
            sign, form = rng.choice(["", "-", "+"]), rng.choice(["0x%x", "0o%o", "%d"])
            return sign + form % rng.getrandbits(rng.randint(1, 130))
        if rng.random() < 0.5:
            return repr(math.ldexp(rng.getrandbits(53), rng.randint(-1074, 900)))
        point = rng.choice(["", ".", "." + digits(18)])
        exponent = rng.choice(["", rng.choice("eE") + rng.choice(["", "+", "-"]) + str(rng.randint(0, 340))])
        return rng.choice(["", "-", "+"]) + digits(20) + point + exponent

    def scalar(self):
        return self.number() if self.random.random() < 0.4 else self.random.choice(SCALARS)

    def key(self):
        self.names += 1
        if self.random.random() < 0.03:
            return "k"
        return self.random.choice(["k%d", "'k%d'", '"k%d"', "a b%d"]) % self.names

    def flow(self, depth):
        kind = self.random.random()
        if depth > 3 or kind < 0.5:
            scalar = self.scalar()
            return "'%s'" % scalar if scalar[0] not in "'\"" and re.search("[,#]", scalar) else scalar
        inner = [self.flow(depth + 1) for _ in range(self.random.randint(0, 3))]
        if kind < 0.75:
            return "[%s]" % ", ".join(inner)
        return "{%s}" % ", ".join("%s: %s" % (self.key(), part) for part in inner)

    def block(self, depth, indent):
        """A node behind a key, a dash or nothing, with the line breaks before and behind it."""
        kind, rng = self.random.random(), self.random
        space = " " * indent
        if depth > 3 or kind < 0.3:
            return " " + self.scalar() + "\n"
        if kind < 0.4:
            return " " + self.flow(0) + "\n"
        if kind < 0.47:
            return rng.choice([" |\n", " >-\n", " |+\n"]) + "%s  1.5\n%s  2\n" % (space, space)
        if kind < 0.5:
            return "\n"
        step = rng.choice([1, 2, 2, 4])
        lines = []
        for _ in range(rng.randint(1, 4)):
            head = "-" if kind < 0.72 else self.key() + ":"
            lines.append(space + " " * step + head + self.block(depth + 1, indent + step))
        return "\n" + "".join(lines)

    def text(self):
        text = "---" + self.block(0, 0)
        if self.random.random() < 0.2:
            text = "- &x %s\n- *x\n- [*x, *x]\n" % self.flow(0)
        return text.replace("\n", "\r\n") if self.random.random() < 0.05 else text


# --- comparing


class Comparison:
    def __init__(self, program):
        self.program = program
        self.counts = collections.Counter()

    def holds(self, name, value, answer):
        """Whether the answer is that of the value, or of none where a key stands twice."""
        if value is None or answer.startswith("! "):
            return value is None and "duplicate entry with key" in answer
        if name == "Value:json":
            found = read(unshown(answer), listed=False)
            return found is not None and same(found[0], in_json(value[0]))
        return same(value_of(yaml.compose(unshown(answer), Loader=LOADER)), value[0])

    def batch(self, cases):
        rows = ["%s %s" % (name, quoted(text)) for name, text, _ in cases]
        given = "".join(row + "\n" for row in rows).encode()
        done = subprocess.run([self.program], input=given, stdout=subprocess.PIPE)
        for (name, text, value), answer in zip(cases, answers(rows, done)):
            self.counts["rows"] += 1
            self.counts["refused, since a key stands twice"] += value is None
            if not self.holds(name, value, answer):
                self.counts["differ"] += 1
                if self.counts["differ"] <= SHOWN:
                    print("%s %r\n  ours %s\n  wanted %r" % (name, text, answer[:500], value), flush=True)

    def all(self, seed, count):
        texts, cases = Texts(seed), []
        while self.counts["rows"] + len(cases) < count:
            text = texts.text()
            try:
                value = (value_of(yaml.compose(text, Loader=LOADER)),)
            except Twice:
                value = None
            except yaml.YAMLError as fault:
                sys.exit("PyYAML does not read %r: %s" % (text, fault))
            names = ["Value:json", "Value"] + ["Vec<Value>"] * (value is not None and type(value[0]) is list)
            cases += [(name, text, value) for name in names]
            if len(cases) >= BATCH:
                self.batch(cases)
                cases = []
        self.batch(cases)
        print(", ".join("%d %s" % (found, what) for what, found in self.counts.items() if what != "differ"))
        print("%d differ" % self.counts["differ"])
        return self.counts["differ"] == 0


def main():
    if len(sys.argv) != 4:
        sys.exit(__doc__)
    program, seed, count = os.path.abspath(sys.argv[1]), int(sys.argv[2]), int(sys.argv[3])
    sys.exit(0 if Comparison(program).all(seed, count) else 1)


if __name__ == "__main__":
    main()
