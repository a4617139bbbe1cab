#!/usr/bin/env python3
"""Compares the events of `yaml_tool` with those of libyaml 0.2.5, text by text.

usage: compare.py PROGRAM random SEED COUNT            random texts
       compare.py PROGRAM mutants SEED COUNT PATH..    changed parts of YAML files, found below the paths
       compare.py PROGRAM files PATH..                 YAML files, found below the paths

PROGRAM is the built yaml_tool. The library comes with `apt-get install -y libyaml-dev`; libyaml_events.c beside this
script is compiled by `cc`. What is compared: events, marks, ends of slices, anchors, tags, texts, styles, and faults
with their context. Prints the first texts that differ, and in the last line how many were compared, how many were left
out by docs/DIFFERENCES.md, and how many differ. Status 0 only if none differs.

Left out are texts that begin with U+FEFF, and, where they differ, texts with a key near 1,024 bytes that is not all
ASCII, and texts with two escapes that JSON has for one character past U+FFFF, which libyaml refuses. Of a text with a
byte that is not allowed, which libyaml meets late if it stands late, only the fault is compared.
"""

import os
import random
import re
import subprocess
import sys
import tempfile

HERE = os.path.dirname(os.path.abspath(__file__))
BATCH = 500
SHOWN = 10
BOM = "\ufeff".encode()
PAIR = re.compile(rb"\\u[dD][89abAB][0-9a-fA-F]{2}\\u[dD][c-fC-F][0-9a-fA-F]{2}")


def build(folder):
    program = os.path.join(folder, "libyaml_events")
    subprocess.run(["cc", "-O2", "-o", program, os.path.join(HERE, "libyaml_events.c"), "-lyaml"], check=True)
    return program


def answers(command, names):
    """The lines that a program prints of each file. libyaml's `hexdecimal` counts as the word that it means."""
    out = subprocess.run(command + names, stdout=subprocess.PIPE).stdout.split(b"\n")
    parts = {}
    for line in out:
        if line.startswith(b"@@ "):
            lines = parts[line[3:].decode()] = []
        elif line:
            lines.append(line.replace(b"hexdecimal", b"hexadecimal"))
    return parts


def from_fault(lines):
    """The lines from the fault of the reader on, or all lines where it has none."""
    for place, line in enumerate(lines):
        if b" !ERR READER " in line:
            return lines[place:]
    return lines


def has_pair(text):
    """Whether the text may have a character as JSON escapes it past U+FFFF: serde_yaml reads it, libyaml refuses it."""
    return PAIR.search(text) is not None


def has_long_key(text):
    """Whether a difference may be that of long keys: libyaml counts characters, serde_yaml bytes."""
    return not text.isascii() and any(len(line) > 1024 for line in text.split(b"\n"))


def is_listed(text):
    """Whether a difference may be one that docs/DIFFERENCES.md lists."""
    return has_pair(text) or has_long_key(text)


class Comparison:
    def __init__(self, program, folder):
        self.ours = [program, "events", "--full"]
        self.theirs = [build(folder)]
        self.folder = folder
        self.count = self.left_out = self.different = self.faults = self.events = 0

    def compare(self, texts):
        """Compares a batch of texts."""
        kept = [text for text in texts if not text.startswith(BOM)]
        self.left_out += len(texts) - len(kept)
        names = []
        # two more files, so that a line names each
        for number, text in enumerate(kept + [b"", b""]):
            names.append(os.path.join(self.folder, str(number)))
            with open(names[-1], "wb") as file:
                file.write(text)
        ours, theirs = answers(self.ours, names), answers(self.theirs, names)
        for name, text in zip(names, kept):
            self.count += 1
            self.one(text, ours.get(name, [b"nothing was printed"]), theirs[name])

    def one(self, text, ours, theirs):
        self.events += len(theirs)
        self.faults += any(b" !ERR " in line for line in theirs[-2:])
        if from_fault(ours) == from_fault(theirs):
            return
        if is_listed(text):
            self.left_out += 1
            return
        self.different += 1
        if self.different <= SHOWN:
            self.show(text, ours, theirs)

    def show(self, text, ours, theirs):
        print("text", text[:600])
        for our, their in zip(ours + [b"the end"], theirs + [b"the end"]):
            if our != their:
                print("  ours   ", our.decode()[:200])
                print("  libyaml", their.decode()[:200])
                break

    def all(self, texts):
        batch = []
        for text in texts:
            batch.append(text)
            if len(batch) == BATCH:
                self.compare(batch)
                batch = []
        self.compare(batch)
        print(
            f"{self.count} texts, {self.events} lines, {self.faults} with a fault: "
            f"{self.different} differ, {self.left_out} left out"
        )
        return self.different == 0


# What texts are made of: indicators alone and with what stands beside them, breaks, and characters of each kind.
PIECES = (
    "a b foo 1 0x1 ~ - -- ? : , [ ] { } # & * ! | > ' \" % @ ` \\ = . / + $ _".split(" ")
    + ["- ", "? ", ": ", ", ", " # c", "-\t", ":\t", " ", "  ", "   ", "\t", "\r", "\r\n", "\n\n"]
    + ["\n"] * 4
    + ["&a ", "&b-1 ", "*a ", "*b", "&", "*", "! ", "!! ", "!t ", "!!str ", "!e!x ", "!<u:v> ", "!<", "!%41 "]
    + ["!%C3%A9 ", "!%8", "!a%ff "]
    + ["''", "'q'", '"q"', '"\\n"', '"\\x41"', '"\\u00e9"', '"\\U0001F600"', '"\\q"', '"\\xg"', "\\ud800"]
    + ["|\n", ">\n", "|-\n", ">+\n", "|2\n", ">1-\n", "|0", "|+9 # c\n"]
    + ["---", "--- ", "---\n", "...", "...\n", "... # c\n", "%YAML 1.1\n", "%YAML 1.2\n", "%YAML 1.3\n", "%YAML 1\n"]
    + ["%YAML 1234567890.1\n", "%TAG ! tag:x,\n", "%TAG !e! e:\n", "%TAG !e! !f\n", "%TAG ", "%FOO x\n"]
    + ["key: ", "k: v\n", "- x\n", "? k\n", "a:b", "a#b", "x y", "[a, b]", "{a: b}"]
    + ["\u00e9", "\u0085", "\u00a0", "\u2028", "\u2029", "\ufeff", "\ufffd", "\U0001f600"]
)
NOT_ALLOWED = ["\x00", "\x07", "\x7f", "\ud800", "\ufffe", "\udc80"]
PROPERTIES = [""] * 6 + ["&a ", "!t ", "!!str &b ", "&c !x ", "! ", "!<u> "]
LEAVES = (
    ["a", "b c", "", "2", "''"] * 3
    + ["a", "x y", "'q'", "'it''s'", '"d\\n"', "*a", "1", "a:b", "-1", "[a, b]", "[]", "{}", "{k: v}", "[a: b, ? c]"]
    + ["{a: b, c, ? d : e, ? f}", "[[x], {y: z}]", '{"a":b}', "[a,\n  b]", "- b", "a: b"]
)
BLOCKS = ["|\n{0}lit\n{0} more\n", ">\n{0}fold\n{0}on\n\n{0}next\n", "|-\n{0}x\n\n", ">+\n{0}x\n\n"]
BLOCKS += ["|1\n{0}x\n", "a\n{0}b\n\n{0}c", '"x\n{0}y\\\n{0} z"', "'x\n\n{0}y'"]
KEYS = ["k", "k1", "'q'", "k2", "a b", "? a\n{0}", "*a ", "[x]", "&b c", "", '"k"']


def leaf(rng, column):
    """A scalar or a flow collection behind what is said of it."""
    if rng.random() < 0.25:
        return rng.choice(BLOCKS).format(" " * (column + rng.choice([0, 1, 1, 2, 2, 2])))
    return rng.choice(LEAVES) + rng.choice([""] * 8 + [" # c"])


def node(rng, depth, column):
    """A block node whose lines begin at a column."""
    said, kind, indent = rng.choice(PROPERTIES), rng.random(), " " * column
    if depth == 0 or kind < 0.35:
        return said + leaf(rng, column)
    lines = []
    for _ in range(rng.randint(1, 3)):
        if kind < 0.7:
            key = rng.choice(KEYS).format(indent)
            below = node(rng, depth - 1, column + rng.choice([0, 1, 2, 2, 4]))
            lines.append(indent + key + ":" + rng.choice(["", "\t", "  "] + [" "] * 12) + below)
        else:
            entry = rng.choice(["- ", "- ", "-   ", "-\n{0}  "]).format(indent)
            lines.append(indent + entry + node(rng, depth - 1, column + 2))
    return said + rng.choice(["\n"] * 6 + [""]) + "\n".join(lines)


def piece(rng):
    return rng.choice(NOT_ALLOWED if rng.random() < 0.002 else PIECES)


def pieces(rng, most):
    return "".join(piece(rng) for _ in range(rng.randint(1, most)))


def changed(rng, text):
    """A text with up to four changes."""
    parts = list(text)
    for _ in range(rng.randint(1, 4)):
        place, kind = rng.randrange(len(parts) + 1), rng.random()
        if kind < 0.35:
            parts[place:place + rng.choice([1, 1, 1, 2, 8])] = []
        elif kind < 0.8:
            parts[place:place] = piece(rng)
        else:
            parts[place:place + 1] = piece(rng)
    return "".join(parts)


def random_texts(seed, count):
    rng = random.Random(seed)
    for _ in range(count):
        kind = rng.random()
        if kind < 0.12:
            text = pieces(rng, 14)
        elif kind < 0.25:
            lines = (" " * rng.choice([0, 0, 0, 1, 2, 2, 4]) + pieces(rng, 5) for _ in range(rng.randint(1, 6)))
            text = "\n".join(lines) + "\n"
        else:
            head = rng.choice(["", "", "", "---\n", "--- ", "%YAML 1.1\n---\n", "%TAG !e! x:\n--- !e!q ", "# c\n"])
            text = head + node(rng, 3, 0) + rng.choice(["", "\n", "\n...\n", "\n---\na\n", "\n--- |\n x\n...\n# c\n"])
            if kind > 0.8:
                text = changed(rng, text)
        yield text.encode("utf-8", "surrogatepass")


def files_below(paths):
    for path in paths:
        if os.path.isfile(path):
            yield path
        for folder, folders, names in os.walk(path):
            folders.sort()
            for name in sorted(names):
                file = os.path.join(folder, name)
                if name.endswith((".yaml", ".yml")) and os.path.isfile(file):
                    yield file


def read(path):
    with open(path, "rb") as file:
        return file.read()


def mutants(seed, count, paths):
    rng = random.Random(seed)
    sources = [read(path).decode("utf-8", "replace") for path in files_below(paths)]
    sources = [source for source in sources if source]
    for _ in range(count):
        lines = rng.choice(sources).splitlines(keepends=True)
        start = rng.randrange(len(lines))
        part = "".join(lines[start:start + rng.randint(1, 30)])[:4000]
        yield changed(rng, part).encode("utf-8", "surrogatepass")


def main():
    if len(sys.argv) < 4:
        sys.exit(__doc__)
    program, task, words = os.path.abspath(sys.argv[1]), sys.argv[2], sys.argv[3:]
    if task == "random" and len(words) == 2:
        texts = random_texts(int(words[0]), int(words[1]))
    elif task == "mutants" and len(words) >= 3:
        texts = mutants(int(words[0]), int(words[1]), words[2:])
    elif task == "files":
        texts = (read(path) for path in files_below(words))
    else:
        sys.exit(__doc__)
    with tempfile.TemporaryDirectory() as folder:
        sys.exit(0 if Comparison(program, folder).all(texts) else 1)


if __name__ == "__main__":
    main()
