#!/usr/bin/env python3
"""Compares the texts of `yaml_emit` with those of libyaml's emitter, byte for byte.

usage: emit_compare.py PROGRAM random SEED COUNT    random streams of events
       emit_compare.py PROGRAM rows FILE..          what the rows with `write:` are written as

PROGRAM is the built yaml_probe, which is given a case `emit` of each stream. The library comes with
`apt-get install -y libyaml-dev`; emit_libyaml.c beside this script, which says what lines it reads and what it prints,
is compiled by `cc`. libyaml is driven as serde_yaml drives it: unicode, no limit of width, implicit documents, and no
end of the stream.

What differs by intent is told apart:
- characters above U+FFFF stand as they are, as in serde_yaml's port of libyaml; libyaml is given others in their place
  that it takes for printable;
- a text with U+2028 or U+2029 stands between double quotes;
- `,`, `[` and `]` in a tag stand as %2C, %5B and %5D;
- a key near 128 bytes with a character above U+FFFF, in whose place libyaml is given one that is a byte shorter.
Prints the first streams that differ, and in the last line how many were compared, how many of them differ by intent,
and how many else. Status 0 only if none of these.
"""

import json
import os
import random
import re
import subprocess
import sys
import tempfile

HERE = os.path.dirname(os.path.abspath(__file__))
BATCH = 5000
SHOWN = 5
# Characters that stand for those above U+FFFF where libyaml is asked. No text has them.
STAND_INS = {"\U00010000": "\ue100", "\U0001F600": "\ue101", "\U0010FFFF": "\ue102"}
SEPARATORS = ("\u2028", "\u2029")

ATOMS = (
    ["a", "b", "Z", "0", "7", " ", " ", "\n", "\n", ":", "#", "-", "?", ",", "[", "]", "{", "}", "&", "*", "!", "|"]
    + [">", "'", '"', "%", "@", "`", ".", "---", "...", "\t", "\r", "\0", "\a", "\x1b", "\x7f", "\x80", "\x85"]
    + ["\u00a0", "\u00e9", "\u2027", "\u2028", "\u2029", "\u4e2d", "\ud7ff", "\ue000", "\ufeff", "\ufffd", "\ufffe"]
    + ["\uffff", *STAND_INS, "\\", "/", "null", "true", "~", "1", "-1", "1.5", "=", "<<", "$", "^", "(", ")", ";", "_"]
    + ["+", ",", ": ", " #", "a: b", "x" * 100]
)
SIMPLE = ["a", "b", "key", "value", "null", "12", "-7", "0x1F", "x y", "", "é", "日本", "007", "~", "1.5", "a-b"]
TAGS = (
    ["!t", "!", "!!int", "tag:yaml.org,2002:int", "tag:yaml.org,2002:", "tag:x", "!a b", "!é", "!<>", "é", "!a,b"]
    + ["![x]", "!~*'()_.-;/?:@&=+$#\"", "!日本", "!%", "tag:yaml.org,2002:a!b"]
    + ["!" + "x" * count for count in (126, 127, 128)]
)
STYLES = ["Any", "Plain", "SingleQuoted", "Literal"]


def digits(text):
    return text.encode().hex()


def random_text(rand, simple):
    kind = rand.random()
    if simple or kind < 0.3:
        return rand.choice(SIMPLE)
    if kind < 0.35:
        return "k" * rand.choice([126, 127, 128, 129, 130])
    if kind < 0.37:
        return "é" * rand.choice([63, 64, 65])
    count = rand.choice([0, 1, 1, 2, 2, 3, 4, 5, 8, 20])
    if kind < 0.6:
        return "".join(rand.choice(ATOMS) for _ in range(count))
    atoms = ["a", " ", "\n", "b", "'"] if kind < 0.8 else ["a", ":", " ", "#", "-", "?", ".", "'", '"']
    return "".join(rand.choice(atoms) for _ in range(count))


def head(rand, name):
    kind = rand.random()
    if kind < 0.8:
        return name
    return "%s <%s>" % (name, digits("!t" if kind < 0.9 else rand.choice(TAGS)))


def random_node(rand, depth, simple):
    kind = rand.random()
    if depth <= 0 or kind < 0.5:
        style = rand.choice(STYLES[:3] if simple else STYLES)
        return ["%s %s %s" % (head(rand, "=VAL"), style, digits(random_text(rand, simple)))]
    count = rand.choice([0, 0, 1, 1, 2, 3])
    name = "SEQ" if kind < 0.75 else "MAP"
    parts = count if name == "SEQ" else 2 * count
    inner = [line for _ in range(parts) for line in random_node(rand, depth - 1, simple)]
    return [head(rand, "+" + name), *inner, "-" + name]


def random_case(rand):
    simple = rand.random() < 0.3
    case = []
    for _ in range(rand.choice([0, 1, 1, 1, 1, 1, 2, 3])):
        case += ["+DOC", *random_node(rand, rand.choice([0, 0, 1, 2, 3, 5]), simple), "-DOC"]
    return case


def unescaped(text):
    """The bytes of a text in a row, as its characters."""
    escapes = {"n": "\n", "t": "\t", "\\": "\\"}
    plain = re.sub(
        r"\\(x[0-9a-fA-F]{2}|.)",
        lambda m: chr(int(m[1][1:], 16)) if m[1][0] == "x" and len(m[1]) == 3 else escapes.get(m[1], m[1]),
        text,
    )
    return plain.encode("latin-1").decode()


def row_case(nodes):
    """The lines of the documents of a row."""
    case, depth = [], 0
    for node in nodes.split("; "):
        if depth == 0:
            case.append("+DOC")
        found = re.match(r"(.SEQ|.MAP|=VAL)(?: <([^>]*)>)?(?: (\w+)(?: (.*))?)?$", node, re.S)
        name, tag, style, text = found.groups()
        line = name if tag is None else "%s <%s>" % (name, digits(unescaped(tag)))
        case.append(line if style is None else "%s %s %s" % (line, style, digits(unescaped(text or ""))))
        depth += {"+": 1, "-": -1, "=": 0}[name[0]]
        if depth == 0:
            case.append("-DOC")
    return case


def row_cases(paths):
    for path in paths:
        with open(path, encoding="utf-8") as rows:
            for row in rows:
                if " write: " in row and " => " in row:
                    nodes = row.rstrip("\n").split(" => ", 1)[1].strip()
                    if not nodes.startswith("!"):
                        yield row_case(nodes)


def escaped(found):
    """The text of hexadecimal digits as a line of yaml_probe has it."""
    return "".join(
        chr(byte) if 32 <= byte <= 126 and byte not in b"\\>" else "\\x%02x" % byte for byte in bytes.fromhex(found[0])
    )


def probe_case(number, case):
    """The case of yaml_probe with these events, whose tags and texts are hexadecimal digits."""
    lines = "\n".join(["@@ %d emit" % number, "+STR", *case, "-STR"]) + "\n"
    return re.sub("(?<=<)[0-9a-f]+(?=>)|(?<=[a-z] )[0-9a-f]+$", escaped, lines, flags=re.M)


def probe_answers(program, cases):
    """The texts that yaml_probe prints, and None for each case that it refuses by a fault."""
    text = "\n" + "".join(probe_case(number, case) for number, case in enumerate(cases))
    out = subprocess.run([program], input=text.encode(), stdout=subprocess.PIPE, check=True).stdout
    told = [line.split("\t") for line in out.decode().splitlines()]
    if [number for number, _, _ in told] != [str(number) for number in range(len(cases))]:
        sys.exit("yaml_probe answers other cases than it is given")
    for number, status, text in told:
        if status == "2":
            sys.exit("yaml_probe reads no case %s: %s" % (number, text))
    return [json.loads(text).encode() if status == "0" else None for _, status, text in told]


def answers(command, text, count):
    """The texts that emit_libyaml prints, and None for each case that it refuses."""
    out = subprocess.run(command, input=text, stdout=subprocess.PIPE, check=True).stdout
    texts, place = [], 0
    for _ in range(count):
        end = out.index(b"\n", place)
        size = int(out[place:end])
        if size < 0:
            place = out.index(b"\n", end + 1) + 1
            texts.append(None)
        else:
            texts.append(out[end + 1 : end + 1 + size])
            place = end + 2 + size
    return texts


def is_shortened(text):
    """Whether a text may be short enough for a key in a line only as libyaml is given it."""
    count = sum(text.count(letter) for letter in STAND_INS)
    return count > 0 and 64 <= len(text.encode()) <= 128 + count


def differs_by_intent(case):
    lines = "\n".join(case)
    tags = [bytes.fromhex(tag) for tag in re.findall("<([0-9a-f]*)>", lines)]
    texts = [bytes.fromhex(text).decode() for text in re.findall("^=VAL .*?([0-9a-f]+)$", lines, re.M)]
    return (
        any(digits(mark) in lines for mark in SEPARATORS)
        or any(set(tag) & set(b",[]") for tag in tags)
        or any(is_shortened(text) for text in texts)
    )


def compare(program, oracle, cases):
    theirs = "".join("\n".join(["+STR", *case, "."]) + "\n" for case in cases)
    for letter, other in STAND_INS.items():
        theirs = theirs.replace(digits(letter), digits(other))
    intended, different = 0, []
    wanted = answers([oracle], theirs.encode(), len(cases))
    for case, want, got in zip(cases, wanted, probe_answers(program, cases)):
        if want is not None:
            for letter, other in STAND_INS.items():
                want = want.replace(other.encode(), letter.encode())
        if want != got:
            if differs_by_intent(case):
                intended += 1
            else:
                different.append((case, want, got))
    return intended, different


def main():
    program, what, *rest = sys.argv[1:]
    if what == "random":
        rand = random.Random(int(rest[0]))
        cases = [random_case(rand) for _ in range(int(rest[1]))]
    else:
        cases = list(row_cases(rest))
    intended = shown = failed = 0
    with tempfile.TemporaryDirectory() as folder:
        oracle = os.path.join(folder, "emit_libyaml")
        source = os.path.join(HERE, "emit_libyaml.c")
        subprocess.run(["cc", "-O2", "-o", oracle, source, "-lyaml"], check=True)
        for start in range(0, len(cases), BATCH):
            few, different = compare(program, oracle, cases[start : start + BATCH])
            intended += few
            failed += len(different)
            for case, want, got in different[: SHOWN - shown]:
                print("; ".join(case), want, got, sep="\n")
                shown += 1
    print("%d compared, %d differ by intent, %d differ" % (len(cases), intended, failed))
    return 1 if failed else 0


if __name__ == "__main__":
    sys.exit(main())
