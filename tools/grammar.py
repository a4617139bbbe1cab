#!/usr/bin/env python3
"""Plays the definition of crates/yaml_grammar, rule by rule, and compares the events with those of libyaml 0.2.5.

usage: grammar.py random SEED COUNT            random texts
       grammar.py mutants SEED COUNT PATH..    changed parts of YAML files, found below the paths
       grammar.py files PATH..                 YAML files, found below the paths, each content once
       grammar.py events FILE                  the events of a text
       grammar.py witness FILE                 the rules by which its documents stand, as a term

A rule of grammar_leaves.py and grammar_nodes.py has the name that it has there, and its premises in the same order.
libyaml comes with `apt-get install -y libyaml-dev`; libyaml_events.c beside this script is compiled by `cc`. What is
compared of each text in which documents stand: events, marks, ends of slices, anchors, tags, texts and styles. Each
relation is asked for all its rules, so that a text with two readings would be found too. Prints the first texts that
differ, how many texts libyaml takes, and in how many of them documents stand. Where DIRECT names a program that
compare_direct.py kept, the events of yaml_direct are compared too, and the first texts are printed that it takes though
nothing stands in them. Status 0 only if none differs.
"""

import hashlib
import os
import random
import sys
import tempfile
import threading

import compare
from grammar_nodes import Alias, Scalar, Sequence, Text, TwoReadings

SHOWN = 10
BATCH = 500

# ---- Events, in the words of `yaml_tool events --full`


def shown(text, numbered):
    out = []
    for c in text:
        if c == 92:
            out.append("\\\\")
        elif c == 10:
            out.append("\\n")
        elif c == 9:
            out.append("\\t")
        elif c < 32 or c > 126 or c == numbered:
            out.append(f"\\x{c:02x}")
        else:
            out.append(chr(c))
    return "".join(out)


def with_names(word, names):
    if names.anchor is not None:
        word += " &" + shown(names.anchor, 32)
    return word if names.tag is None else f"{word} <{shown(names.tag, 62)}>"


def line_of(mark, words):
    return "{}:{}:{} {}".format(*mark, words)


def node_events(node, out):
    if isinstance(node, Alias):
        out.append(line_of(node.start, "=ALI *" + shown(node.anchor, 32)))
    elif isinstance(node, Scalar):
        words = with_names("=VAL", node.names)
        index, line, column = node.start
        out.append(f"{index}..{node.end}:{line}:{column} {words} {node.how}{shown(node.said, None)}")
    elif isinstance(node, Sequence):
        out.append(line_of(node.start, with_names("+SEQ", node.names)))
        for one in node.nodes:
            node_events(one, out)
        out.append(line_of(node.end, "-SEQ"))
    else:
        out.append(line_of(node.start, with_names("+MAP", node.names)))
        for key, value in node.pairs:
            node_events(key, out)
            node_events(value, out)
        out.append(line_of(node.end, "-MAP"))


def events_of(text):
    """The lines of the events, or None where no documents stand in the text."""
    places = Text(text)
    found = places.stands()
    if found is None:
        return None
    out = [line_of((0, 0, 0), "+STR")]
    for document in found[0]:
        out.append(line_of(document.start, "+DOC"))
        node_events(document.root, out)
        out.append(line_of(document.end, "-DOC"))
    out.append(line_of(places.end_mark(0, len(text)), "-STR"))
    return [line.encode() for line in out]


# ---- Comparison

PIECES = (
    "a 1 ~ é = . - -- ? : , [ ] { } # & * ! | > ' \" % @ ` \\ \t".split(" ")
    + ["b c", "x", " ", " ", "  ", "\n", "\n", "\n", "\n", "\n  ", "\n    ", "\n ", "  \n", "\t", "\\\n"]
    + ["- ", "- ", "? ", ": ", ": ", ":", " :", ", ", "\n- ", "\n  - ", "k: ", "\nk: ", "\n  k: ", "\n? ", "\n: "]
    + ["---", "--- ", "---\n", "\n---\n", "\n--- ", "...", "\n...\n", "\n... ", "%YAML 1.1\n", "%YAML 1.2 # c\n---\n"]
    + ["&a ", "&b", "*a", "*a ", "!", "! ", "!t ", "!!str ", "!<x> ", "!%C3%A9 ", "!%", "# c", " # c", "#c"]
    + ["|", ">", "|\n", ">\n", "|-\n", "|+\n", ">2\n", "|1-\n", ">+3 # c\n", "\n x\n", "\n  x\n\n", "\n   y\n"]
    + ['"q"', "'s'", "''", '"\\n"', '"\\x41"', '"\\u00e9"', '"\\q"', '"a: b"', "'it''s'", '"x\\\n y"', "'x\n\n y'"]
    + ["[a, b]", "{a: b}", "[a: b]", "{a, b: }", "[]", "{}", "x\n  y", "a: b", "- a", "a#b", "a:b", "-1", "---a"]
)
LINE_PIECES = ["k: ", "- ", "? ", ": ", "", "", "a", "b c", '"q"', "'s'", "&a ", "!t ", "*a", "[a]", "{a: b}", "|"]
LINE_PIECES += [">-", "# c", "#", "x: y", "- - ", "", "---", "--- ", "...", "\t", "[a,", "b]", "{", "}", '"', "'"]
LINE_PIECES += ["|+", ">2"]


def pieces(rng):
    return "".join(rng.choice(PIECES) for _ in range(rng.choice([1, 2, 3, 4, 5, 6, 8, 10, 14, 20])))


def lines(rng):
    out = []
    for _ in range(rng.choice([1, 2, 3, 4, 5, 7])):
        column = rng.choice([0, 0, 0, 2, 2, 4, 1, 3, 6])
        words = "".join(rng.choice(LINE_PIECES) for _ in range(rng.choice([0, 1, 1, 2, 2, 3])))
        out.append(" " * column + words + rng.choice(["v", "", " ", "1", " # c"]))
    return "\n".join(out) + rng.choice(["", "\n"])


def node_text(rng):
    head = rng.choice(["", "", "", "---\n", "--- ", "%YAML 1.1\n---\n", "# c\n"])
    tail = rng.choice(["", "\n", "\n...\n", "\n---\na\n", "\n--- |\n x\n...\n# c\n", "   ", "\n  # c"])
    text = head + compare.node(rng, 3, 0) + tail
    return text if rng.random() < 0.6 else compare.changed(rng, text)


def random_texts(seed, count):
    rng = random.Random(seed)
    for _ in range(count):
        text = rng.choice([pieces, lines, node_text])(rng)
        yield text.encode("utf-8", "surrogatepass")


def files(paths):
    seen = set()
    for path in compare.files_below(paths):
        try:
            text = compare.read(path)
        except OSError:
            continue
        digest = hashlib.md5(text).digest()
        if digest not in seen:
            seen.add(digest)
            yield text


class Comparison:
    def __init__(self, folder):
        self.program = [compare.build(folder)]
        self.folder = folder
        self.count = self.size = self.taken = self.taken_size = self.standing = self.standing_size = 0
        self.different = self.left = self.events = 0
        self.direct = [os.environ["DIRECT"], "direct"] if os.environ.get("DIRECT") else None
        self.direct_takes = self.direct_alone = self.direct_leaves = 0

    def compare(self, texts):
        names = []
        for number, text in enumerate(texts + [b"", b""]):
            names.append(os.path.join(self.folder, str(number)))
            with open(names[-1], "wb") as file:
                file.write(text)
        theirs = compare.answers(self.program, names)
        direct = compare.answers(self.direct, names) if self.direct else {}
        for name, text in zip(names, texts):
            self.one(text, theirs[name], direct.get(name))

    def one(self, text, theirs, direct):
        takes = not any(b" !ERR " in line for line in theirs[-2:])
        self.count += 1
        self.size += len(text)
        self.taken += takes
        self.taken_size += takes * len(text)
        try:
            ours = events_of(text)
        except TwoReadings as found:
            ours = [b"two readings: " + str(found).encode()]
        if self.direct:
            self.beside(text, ours, direct)
        if ours is None:
            if takes and os.environ.get("LEFT") and self.left < 200:
                self.left += 1
                print("left out", text[:300])
            return
        self.standing += 1
        self.standing_size += len(text)
        self.events += len(ours)
        if ours == theirs:
            return
        self.differs(text, ours, theirs, "libyaml   ")

    def differs(self, text, ours, theirs, whose):
        self.different += 1
        if self.different <= SHOWN:
            print("text", text[:600])
            for our, their in zip(ours + [b"the end"], theirs + [b"the end"]):
                if our != their:
                    print("  definition", our.decode()[:200])
                    print(f"  {whose}", their.decode()[:200])
                    break

    def beside(self, text, ours, direct):
        """Compares the events with those of yaml_direct, and counts the texts that only one of both takes."""
        takes = direct != [b"!ELSEWHERE"]
        self.direct_takes += takes
        if takes and ours is None:
            self.direct_alone += 1
            if self.direct_alone <= SHOWN:
                print("yaml_direct alone", text[:300])
        elif ours is not None and not takes:
            self.direct_leaves += 1
        elif ours != direct and takes:
            self.differs(text, ours, direct, "direct    ")

    def all(self, texts):
        batch = []
        for text in texts:
            batch.append(text)
            if len(batch) == BATCH:
                self.compare(batch)
                batch = []
        self.compare(batch)
        share = 100 * self.standing / max(self.taken, 1)
        share_size = 100 * self.standing_size / max(self.taken_size, 1)
        print(
            f"{self.count} texts, {self.size} bytes; libyaml takes {self.taken}; of these documents stand in "
            f"{self.standing}, {share:.2f}% ({share_size:.2f}% of the bytes), {self.events} events: "
            f"{self.different} differ"
        )
        if self.direct:
            print(
                f"yaml_direct takes {self.direct_takes}, of which nothing stands in {self.direct_alone}; it leaves "
                f"{self.direct_leaves} in which documents stand"
            )
        return self.different == 0


# ---- Witnesses


def witness(rule, column):
    """The derivation as a term whose first line begins in a column: a premise that is a rule stands in brackets."""
    out = rule.name + "".join(f" {{{name} = {place}}}" for name, place in rule.places.items())
    for premise in rule.premises:
        if isinstance(premise, int):
            out += " refl" * premise
            continue
        term = f"({witness(premise, column + 1)})"
        last = out.rsplit("\n", 1)[-1]
        if "\n" in term or column + len(last) + len(term) > 100:
            out += "\n" + " " * column
        else:
            out += " "
        out += term
    return out


def main(words):
    task, words = (words[0], words[1:]) if words else ("", [])
    if task == "random" and len(words) == 2:
        texts = random_texts(int(words[0]), int(words[1]))
    elif task == "mutants" and len(words) >= 3:
        texts = compare.mutants(int(words[0]), int(words[1]), words[2:])
    elif task == "files" and words:
        texts = files(words)
    elif task == "events" and len(words) == 1:
        events = events_of(compare.read(words[0]))
        print("no documents stand in the text" if events is None else b"\n".join(events).decode())
        return True
    elif task == "witness" and len(words) == 1:
        found = Text(compare.read(words[0])).stands()
        print("no documents stand in the text" if found is None else witness(found[1], 4))
        return True
    else:
        sys.exit(__doc__)
    with tempfile.TemporaryDirectory() as folder:
        return Comparison(folder).all(texts)


def with_room(work):
    """Runs with room for deep nestings, and gives the answer."""
    answer = []
    sys.setrecursionlimit(100000)
    threading.stack_size(512 << 20)
    thread = threading.Thread(target=lambda: answer.append(work()))
    thread.start()
    thread.join()
    return answer == [True]


if __name__ == "__main__":
    sys.exit(0 if with_room(lambda: main(sys.argv[1:])) else 1)
