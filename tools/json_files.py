#!/usr/bin/env python3
"""Compares what `yaml::Value` has of JSON texts with what Python's `json` has of them.

usage: json_files.py PROGRAM files PATH..          the files below the paths, up to 4 MB each, whose names end in .json
       json_files.py PROGRAM random SEED COUNT     random JSON texts

PROGRAM is the built derived_case, or what fast_build.py makes of it. Each text that Python reads is given to it as a
row `Value:json`: it is read as YAML, and printed as JSON, which Python reads again. That has to be the same value: the
same integers, each float the same, the same texts, and the pairs of objects in the same order. Each content of a file
counts once. Integers past 128 bits are floats, and floats past their range texts, as docs/DIFFERENCES.md says. Prints
how many were the same, and how many were refused, or another value, by a rule of YAML, of each kind; and the first of
what differs otherwise. Status 0 only if nothing does.
"""

import collections
import hashlib
import json
import os
import random
import re
import subprocess
import sys

LEFT_OUT = {"/proc", "/sys", "/dev"}
SHOWN = 10
LARGEST = 1 << 22
# How many texts, or letters of texts, are given to the program at a time.
BATCH, LETTERS = 2000, 1 << 24
sys.setrecursionlimit(20000)


def quoted(text):
    """The text between quotes, as YAML has it, in a line of ASCII."""
    for letter, escape in (("\\", "\\\\"), ('"', '\\"'), ("\n", "\\n"), ("\r", "\\r"), ("\t", "\\t")):
        text = text.replace(letter, escape)
    return '"%s"' % re.sub("[^ -~]", lambda found: "\\U%08x" % ord(found[0]), text)


def unshown(text):
    """The text that Rust's `{:?}` shows so."""
    try:
        return json.loads(text)
    except ValueError:
        # an escape that JSON has not
        named = {"n": "\n", "r": "\r", "t": "\t", "0": "\0"}
        def meant(found):
            word = found[1]
            return chr(int(word[2:-1], 16)) if word[0] == "u" else named.get(word, word)
        return re.sub(r"\\(u\{[0-9a-f]+\}|.)", meant, text[1:-1])


class Pairs(list):
    """The pairs of an object."""


def integer(text):
    """The integer of the text; past 128 bits a number of YAML is a float."""
    number = int(text)
    return number if -(1 << 127) <= number < 1 << 128 else decimal(text)


def decimal(text):
    """The float of the text; past the range of floats it is a text."""
    return text if abs(float(text)) == float("inf") else float(text)


def read(text, listed=True):
    """What Python reads of a JSON text, objects as pairs, or None where it is none. What docs/DIFFERENCES.md says of
    numbers out of range, it says here too, unless it is not to."""
    def refused(word):
        raise ValueError(word)
    numbers = {"parse_int": integer, "parse_float": decimal} if listed else {}
    try:
        return (json.loads(text.removeprefix("\ufeff"), object_pairs_hook=Pairs, parse_constant=refused, **numbers),)
    except (ValueError, RecursionError):
        return None


def same(ours, theirs):
    """Whether two values are the same, in types, floats and the order of pairs."""
    if type(ours) is not type(theirs):
        return False
    if isinstance(ours, (list, tuple)):
        return len(ours) == len(theirs) and all(map(same, ours, theirs))
    return repr(ours) == repr(theirs)


def parts(value):
    """The value and all that is within it, with how deep it stands."""
    waiting = [(value, 0)]
    while waiting:
        part, depth = waiting.pop()
        yield part, depth
        if isinstance(part, (list, tuple)):
            waiting.extend((inner, depth + 1) for inner in part)


# Why a text is refused, and what the fault then says.
TWICE = "a key stands twice", "duplicate entry with key"
DEEP = "more than 128 nestings", "recursion limit exceeded"
HALF = "half of a character", "found invalid Unicode character escape code"
CONTROL = "a character that YAML does not allow", "control characters are not allowed"
LONG = "a key of some 1,024 bytes", "did not find expected ',' or '}'"
BREAK = "a line break before a colon", "did not find expected ',' or '}'"
STRING = r'"(?:[^"\\]|\\.)*"'


def reasons(text, value):
    """Why the text is refused, with what the faults say, as YAML's rules want it."""
    found = set()
    for part, depth in parts(value):
        if isinstance(part, Pairs):
            names = [name for name, _ in part]
            found |= {TWICE} if len(set(names)) < len(names) else set()
        if isinstance(part, str) and re.search("[\ud800-\udfff]", part):
            found.add(HALF)
        if depth > 128:
            found.add(DEEP)
    if re.search("[\x7f-\x84\x86-\x9f\ufffe\uffff]", text):
        found.add(CONTROL)
    for key in re.finditer(STRING + r"(\s*)(:?)", text):
        if key[2] and len(key[0].encode("utf-8", "replace")) > 1000:
            found.add(LONG)
        if key[2] and re.search("[\r\n]", key[1]):
            found.add(BREAK)
    return found


def answers(rows, done):
    """What stands behind each row. A fault that tells keys may have several lines."""
    out, place = done.stdout.decode(), 0
    for row, follower in zip(rows, rows[1:] + [None]):
        head = row + "  => "
        if not out.startswith(head, place):
            sys.exit("the program did not answer each row, and ended with status %d" % done.returncode)
        end = len(out) - 1 if follower is None else out.find("\n%s  => " % follower, place)
        yield out[place + len(head):end]
        place = end + 1


class Comparison:
    def __init__(self, program):
        self.program = program
        self.counts = collections.Counter()
        self.first = {}

    def count(self, what, name, told):
        self.counts[what] += 1
        if self.counts[what] <= SHOWN:
            self.first.setdefault(what, []).append("    %s: %s" % (name, told[:200]))

    def one(self, name, text, value, answer):
        if answer.startswith("! "):
            found = sorted(why for why, fault in reasons(text, value) if fault in answer)
            return self.count("refused: " + " or ".join(found) if found else "REFUSED", name, answer)
        again = read(unshown(answer), listed=False)
        if again is not None and same(again[0], value):
            plain = same(value, read(text, listed=False)[0])
            return self.count("the same value" if plain else "the same value, but for numbers out of range", name, "")
        folded = re.search("[\x85\u2028\u2029]", text)
        return self.count("a line break of YAML within a text" if folded else "ANOTHER VALUE", name, text)

    def batch(self, texts):
        rows = ["Value:json %s" % quoted(text) for _, text, _ in texts]
        given = "".join(row + "\n" for row in rows).encode()
        done = subprocess.run([self.program], input=given, stdout=subprocess.PIPE)
        for (name, text, value), answer in zip(texts, answers(rows, done)):
            self.one(name, text, value, answer)

    def all(self, texts):
        waiting, letters = [], 0
        for name, text in texts:
            value = read(text)
            if value is None:
                self.count("no JSON by Python", name, "")
                continue
            waiting.append((name, text, value[0]))
            letters += len(text)
            if len(waiting) == BATCH or letters > LETTERS:
                self.batch(waiting)
                waiting, letters = [], 0
        self.batch(waiting)
        for what, count in self.counts.most_common():
            print("%7d %s" % (count, what))
            if what.isupper():
                print(*self.first[what], sep="\n")
        different = self.counts["REFUSED"] + self.counts["ANOTHER VALUE"]
        print("%d texts, %d differ" % (sum(self.counts.values()), different))
        return different == 0


def files(paths):
    """The texts of the files below the paths, each content once."""
    seen = set()
    for path in paths:
        for folder, folders, names in os.walk(path):
            folders[:] = sorted(name for name in folders if os.path.join(folder, name) not in LEFT_OUT)
            for file in (os.path.join(folder, name) for name in sorted(names) if name.endswith(".json")):
                if not os.path.isfile(file) or os.path.islink(file) or os.path.getsize(file) > LARGEST:
                    continue
                with open(file, "rb") as opened:
                    content = opened.read()
                if hashlib.sha256(content).digest() in seen:
                    continue
                seen.add(hashlib.sha256(content).digest())
                try:
                    yield file, content.decode("utf-8")
                except UnicodeDecodeError:
                    yield file, "!"


# --- random texts


class Texts:
    def __init__(self, seed):
        self.random = random.Random(seed)
        self.keys = 0

    def space(self):
        return self.random.choice(["", "", "", " ", " ", "  ", "\n", "\n  ", "\r\n", "\n\t", "\t"])

    def digits(self, most):
        return "".join(self.random.choice("0123456789") for _ in range(self.random.randint(1, most)))

    def number(self):
        rng = self.random
        near = rng.choice([0, 1, 255, 1 << 31, 1 << 53, 1 << 63, 1 << 64, 1 << 127, 1 << 128])
        whole = rng.choice(["0", str(max(0, near + rng.randint(-2, 2))), self.digits(6).lstrip("0") or "0",
                            self.digits(39).lstrip("0") or "0", str(rng.randint(1, 99))])
        part = rng.choice(["", "", ".0", "." + self.digits(3), "." + self.digits(20), "." + "0" * 9 + self.digits(9)])
        exponent = rng.choice(["", "", "", rng.choice("eE") + rng.choice(["", "+", "-"]) + rng.choice(
            ["0", "00", "1", "05", str(rng.randint(0, 40)), str(rng.randint(270, 330))])])
        return rng.choice(["", "", "-"]) + whole + part + exponent

    def letter(self):
        rng = self.random
        kind = rng.random()
        if kind < 0.6:
            return rng.choice("abcXYZ 019.,:;-_#&*!|>'%@`{}[]?=~<>/^$()+")
        if kind < 0.75:
            return "\\" + rng.choice('"\\/bfnrt')
        if kind < 0.85:
            code = rng.choice([rng.randint(0, 0x1F), rng.randint(0x20, 0x7F), rng.randint(0x80, 0xD7FF), 0x85, 0x2028,
                               0xFEFF, 0xFFFE, 0xFFFF, rng.randint(0xE000, 0xFFFF)])
            return rng.choice(["\\u%04x", "\\u%04X"]) % code
        if kind < 0.92:
            code = rng.choice([0x10000, 0x10FFFF, 0x1F600, rng.randint(0x10000, 0x10FFFF)]) - 0x10000
            return rng.choice(["\\u%04x\\u%04x", "\\u%04X\\u%04X"]) % (0xD800 + (code >> 10), 0xDC00 + (code & 0x3FF))
        if kind < 0.92002:
            return "\\u%04x" % rng.randint(0xD800, 0xDFFF)
        return rng.choice(["\u00e9", "\u00a0", "\u0416", "\u4e2d", "\ufffd", "\U0001f600", "\u200b", "\ufeff"])

    def text(self):
        rng = self.random
        words = ["true", "null", "~", "1", "1.5", "", "yes", "0x1F", "<<"]
        words += ["- a", "a: b", "# c", "---", "...", "%YAML", "*a"]
        if rng.random() < 0.3:
            return '"%s"' % rng.choice(words)
        return '"%s"' % "".join(self.letter() for _ in range(rng.randint(0, rng.choice([3, 10, 40]))))

    def key(self):
        """A text, which seldom stands twice, and what seldom is a line break."""
        self.keys += 1
        text = self.text()
        if self.random.random() < 0.99:
            text = '%s%d"' % (text[:-1], self.keys)
        return text + (self.space() if self.random.random() < 0.01 else self.random.choice(["", "", " ", "\t"]))

    def value(self, depth):
        rng = self.random
        kind = rng.random()
        if depth > 5 or kind < 0.5:
            return rng.choice([self.number, self.number, self.text, self.text,
                               lambda: rng.choice(["true", "false", "null"])])()
        inner = [self.value(depth + 1) for _ in range(rng.choice([0, 1, 2, 3, 3, 8]))]
        if kind < 0.72:
            entries, ends = inner, "[]"
        else:
            entries, ends = [self.key() + ":" + self.space() + part for part in inner], "{}"
        if not entries:
            return ends[0] + self.space() + ends[1]
        return ends[0] + ",".join(self.space() + entry + self.space() for entry in entries) + ends[1]

    def nested(self):
        """Collections in one another, or a value."""
        depth = self.random.choice([1, 5, 30, 126, 127])
        ends = [self.random.choice([("[", "]"), ('{"a":', "}")]) for _ in range(depth)]
        return "".join(end[0] for end in ends) + "1" + "".join(end[1] for end in reversed(ends))


def random_texts(seed, count):
    texts = Texts(seed)
    for number in range(count):
        text = texts.nested() if texts.random.random() < 0.01 else texts.value(0)
        before, behind = texts.random.choice(["", "", "", "\n", " "]), texts.random.choice(["", "", "\n"])
        yield "text %d" % number, before + text + behind


def main():
    words = sys.argv[1:]
    if len(words) >= 3 and words[1] == "files":
        texts = files(words[2:])
    elif len(words) == 4 and words[1] == "random":
        texts = random_texts(int(words[2]), int(words[3]))
    else:
        sys.exit(__doc__)
    sys.exit(0 if Comparison(os.path.abspath(words[0])).all(texts) else 1)


if __name__ == "__main__":
    main()
