#!/usr/bin/env python3
"""Compares the documents of texts that are handed out one at a time with those that are loaded at once.

usage: compare_documents.py PROGRAM stored                      the texts of rows and runs that are stored here
       compare_documents.py PROGRAM random SEED COUNT           random texts of several documents
       compare_documents.py PROGRAM mutants SEED COUNT LIST     changed parts of files that have several documents,
                                                                among those whose names are a list's lines

PROGRAM is the built yaml_probe, or what fast_build.py builds of it. By its rows `handed` it reads each text by
`DocumentReader` of `yaml_documents`, and by its `load`: each document has to be the same, with its events, their marks
and its fault. How many documents there are is compared with what libyaml 0.2.5 has, up to its fault, which cuts off a
document more. The library comes with `apt-get install -y libyaml-dev`; libyaml_events.c is compiled by `cc`. There,
texts are left out that begin with U+FEFF or have a byte that is not allowed, and, where they differ, those that
compare.py leaves out. Prints the texts that differ, the first ones made as short as they go, and in the last line the
counts. Status 0 only if none differs.
"""

import collections
import glob
import os
import random
import re
import subprocess
import sys
import tempfile

import compare

HERE = os.path.dirname(os.path.abspath(__file__))
BATCH = 400
SHOWN = 10
LARGEST = 200000
# A reader of documents takes events until there are so many, and goes on behind the document that reaches that.
ENOUGH = 256


def line_of(text):
    """The text in a line, as rows spell it, which begins neither a case nor a table."""
    named = {b"\\": b"\\\\", b"\n": b"\\n"}
    return re.sub(rb"^[@%]|[^ !-\[\]-~]", lambda found: named.get(found[0], b"\\x%02x" % ord(found[0])), text)


def spelled(line):
    """The text that a row's line spells."""
    named = {b"n": b"\n", b"r": b"\r", b"t": b"\t", b"b": b"\b", b"0": b"\0"}
    def meant(found):
        word = found[1]
        return bytes([int(word[1:], 16)]) if len(word) == 3 else named.get(word, word)
    return re.sub(rb"\\(x[0-9a-fA-F]{2}|.)", meant, line)


def handed(program, texts):
    """What the program answers of each text."""
    cases = b"".join(b"@@ %d handed\n%s\n" % (number, line_of(text)) for number, text in enumerate(texts))
    done = subprocess.run([program], input=b"any\n\n" + cases, stdout=subprocess.PIPE)
    lines = done.stdout.decode().splitlines()
    told = dict(line.split("\t", 1) for line in lines)
    return [told.get(str(number), "none, and status %d" % done.returncode) for number in range(len(texts))]


def wanted(lines):
    """How many documents libyaml has, by its lines."""
    ends = sum(re.match(rb"\S+ -DOC", line) is not None for line in lines)
    fault = any(b" !ERR " in line for line in lines[-2:])
    return '0\t"%d"' % (ends + fault or 1)


class Comparison:
    def __init__(self, program, folder):
        self.program, self.folder = program, folder
        self.libyaml = compare.build(folder)
        self.counts = collections.Counter()

    def by_libyaml(self, texts):
        names = []
        # two more files, so that a line names each
        for number, text in enumerate(texts + [b"", b""]):
            names.append(os.path.join(self.folder, str(number)))
            with open(names[-1], "wb") as file:
                file.write(text)
        found = compare.answers([self.libyaml], names)
        return [found[name] for name in names[: len(texts)]]

    def differs(self, text, told, lines):
        """Whether the answer is wrong."""
        if not told.startswith('0\t"'):
            return True
        if text.startswith(compare.BOM) or any(b" !ERR READER " in line for line in lines):
            return False
        return told != wanted(lines) and not compare.is_listed(text)

    def batch(self, texts):
        for text, told, lines in zip(texts, handed(self.program, texts), self.by_libyaml(texts)):
            self.counts["texts"] += 1
            self.counts["with a fault"] += any(b" !ERR " in line for line in lines[-2:])
            if told.startswith('0\t"'):
                self.counts["documents"] += int(told[3:-1])
                self.counts["of several documents"] += told != '0\t"1"'
            if self.differs(text, told, lines):
                self.counts["differ"] += 1
                if self.counts["differ"] <= SHOWN:
                    self.show(text, told, lines)

    def still_differs(self, text):
        return self.differs(text, handed(self.program, [text])[0], self.by_libyaml([text])[0])

    def show(self, text, told, lines):
        print("text", text[:500])
        print("  handed", told, "by libyaml", wanted(lines))
        shortest = shortened(text, self.still_differs)
        print("  shortest", shortest, handed(self.program, [shortest])[0], flush=True)

    def all(self, texts):
        part = []
        for text in texts:
            part.append(text)
            if len(part) == BATCH:
                self.batch(part)
                part = []
        self.batch(part)
        print(", ".join(f"{count} {word}" for word, count in self.counts.items() if word != "differ"))
        print(f"{self.counts['differ']} differ")
        return self.counts["differ"] == 0


def shortened(text, holds):
    """A part of the text of which the same holds, and of which it does not where a byte more goes."""
    size = max(len(text) // 2, 1)
    while size:
        place = 0
        while place < len(text):
            shorter = text[:place] + text[place + size:]
            if holds(shorter):
                text = shorter
            else:
                place += size
        size //= 2
    return text


# --- texts


def stored():
    """The texts of rows and runs, each once."""
    found = {}
    for path in sorted(glob.glob(os.path.join(HERE, "..", "crates", "*", "*"))):
        if os.path.basename(path) not in ("stdin", "memory.rows", "runs.txt"):
            continue
        with open(path, "rb") as file:
            for line in file:
                # a text between quotes, or the line of a case; what is none of both is a text too
                between = re.search(rb'"(.*)"', line.rstrip(b"\n"))
                for part in (line.rstrip(b"\n"), between[1] if between else b""):
                    found[spelled(part)] = True
    return list(found)


HEADS = ["", "---\n", "--- ", "--- ", "---\t", "---", "%YAML 1.2\n---\n", "%YAML 1.1 # c\n--- ", "# c\n---\n",
         "%YAML 1.2\n", "%YAML 1.3\n--- ", "%YAML 2.0\n--- ", "%YAML 1.1\n%YAML 1.2\n---\n", "%TAG !e! e:\n---\n",
         "%TAG ! !x\n--- ", "%FOO x\n--- ", "%\n", " %YAML 1.2\n--- ", "\ufeff--- ", "--- # c\n", "--- !t\n",
         "--- &a\n"]
TAILS = ["\n"] * 6 + ["", "\n...\n", "\n...\n", "...\n", "\n... # c\n", "\n... x\n", "\n...\n...\n", "\n# c\n",
         " # c\n", "\n \n", "\n\t\n", "\n....\n", "\n...", "\n...\n\n# c\n"]
LEAVES = ["a", "b c", "", "1", "~", "'q'", '"d\\n"', "'it''s'", "&a x", "*a", "!t y", "!!str 1", "- a\n- b", "k: v",
          "k:\n- a\n- b: c", "[a, b]", "{a: b, c: [d]}", "[]", "{}", "|\n x\n y", ">-\n z\n z", "? a\n: b",
          "- - a\n  - b", "a\n b", "'a\n b'", '"a\\\n b"', "- &a x\n- *a", "# c\na", "{[a]: b}", "é: 😀", "|+\n x\n\n",
          "--- a", "a: |\n x"]
LEFT = ["a\tb", "k:\tv", "[a]: b", "{? a : b}", "!e!x y", "- [[a]: b]", "a\rb", "a\u0085b", "a\u2028b", "a\ufeffb",
        '"\\ud83d\\ude00"', "[a,\n\tb]", "!a%ed%a0%80 b", "[" * 129 + "]" * 129]
FAULTS = ["[a, b", "{a: b", "a: b: c", "- a\nb: 1", '"\\q"', "'a", '"a', "*nope", "[*nope, 1]", "{a: b}}", "]", "@a",
          "`", "&a &b c", "!x!y z", "|\n\tx", "|0\n", "k: - a", "a: 'b'c", "? - a\n- b", ": b", "- : b", "*", "&",
          "!<", "\tk: v", '"\\ud83d"', '"\\xg"', " a: b\nc: d", "a\n...x\n b", "%YAML", "- a\n - b\n- *nope"]
# Documents, and how many events each has.
MANY = [("--- a\n", 3), ("---\n- a\n- b\n", 6), ("--- {a: b}\n...\n", 6), ("--- [a, [b]]\n", 8)]
NOT_ALLOWED = ["a\x01", "\x7f", "\ufffe", "\ud800", "\udcff"]


def document(rng):
    """A document with what stands before and behind it."""
    kind = rng.random()
    leaves = FAULTS if kind < 0.08 else LEFT if kind < 0.16 else LEAVES
    content = rng.choice(NOT_ALLOWED) if rng.random() < 0.002 else rng.choice(leaves)
    if rng.random() < 0.1:
        content = compare.node(rng, 2, 0)
    heads = HEADS[:6] if rng.random() < 0.6 else HEADS
    return rng.choice(heads) + content + rng.choice(TAILS)


SOUND_HEADS = ["---\n", "---\n", "--- ", "--- # c\n", "--- !t\n", "--- &n\n", "---\t"]
SOUND_TAILS = ["\n"] * 4 + ["\n...\n", "\n... # c\n", "\n# c\n", "\n...\n\n# c\n"]


def sound(rng, ended):
    """A document without a fault, most often, which may have directives where another ended with `...`."""
    leaf, head = rng.choice(LEAVES), rng.choice(SOUND_HEADS)
    if re.match(r"[-?#] |[ka]:", leaf):
        head = "---\n"
    if ended and rng.random() < 0.4:
        head = rng.choice(["%YAML 1.2\n", "%YAML 1.1 # c\n", "%TAG !e! e:\n", "# c\n", "\n"]) + head
    return head + leaf + rng.choice(SOUND_TAILS)


def sounds(rng):
    """Such documents, of which one may be one that the direct parser leaves, or have a fault."""
    documents = [sound(rng, True)]
    for _ in range(rng.choice([1, 2, 3, 5, 8, 40])):
        documents.append(sound(rng, "\n..." in documents[-1]))
    if rng.random() < 0.5:
        documents[rng.randrange(len(documents))] = "--- " + rng.choice(LEFT + FAULTS) + rng.choice(SOUND_TAILS)
    return "".join(documents)


def many(rng):
    """So many documents that the next ones are near the end of what is read at a time."""
    content, events = rng.choice(MANY)
    return content * ((rng.choice([1, 1, 1, 2]) * ENOUGH) // events + rng.randint(-2, 2))


def random_text(rng):
    if rng.random() < 0.5:
        text = "".join(document(rng) for _ in range(rng.choice([1, 2, 2, 3, 3, 4, 5, 8])))
    else:
        text = sounds(rng)
    if rng.random() < 0.1:
        text = many(rng) + text
    if rng.random() < 0.1:
        text = compare.changed(rng, text)
    kind = rng.random()
    if kind < 0.1:
        text = text.replace("\n", "\r\n")
    elif kind < 0.15:
        text = "".join(rng.choice([letter, "\r\n"]) if letter == "\n" else letter for letter in text)
    elif kind < 0.17:
        text = text.replace("\n", "\r")
    if rng.random() < 0.03:
        text = "\ufeff" + text
    return text.encode("utf-8", "surrogatepass")


def random_texts(seed, count):
    rng = random.Random(seed)
    for _ in range(count):
        yield random_text(rng)


def parts_of(rng, text):
    """A part of a text around an end of a document, with another head, tail or document put between."""
    ends = [found.start() for found in re.finditer(r"^(---|\.\.\.)", text, re.M)]
    place = rng.choice(ends)
    part = text[max(place - rng.randint(0, 1500), 0):place + rng.randint(3, 1500)]
    part = part[part.find("\n") + 1:] if rng.random() < 0.7 else part
    marks = [found.start() for found in re.finditer(r"^(---|\.\.\.)", part, re.M)] + [len(part)]
    for _ in range(rng.choice([0, 1, 1, 2])):
        at = rng.choice(marks)
        part = part[:at] + rng.choice([document(rng), rng.choice(HEADS), rng.choice(TAILS)]) + part[at:]
    return compare.changed(rng, part) if rng.random() < 0.6 else part


def mutants(seed, count, path):
    rng = random.Random(seed)
    with open(path) as names:
        paths = [name.rstrip("\n") for name in names]
    small = (path for path in paths if os.path.isfile(path) and os.path.getsize(path) < LARGEST)
    texts = {compare.read(path).decode("utf-8", "replace"): True for path in small}
    several = [text for text in texts if re.search(r"\n(---|\.\.\.)\s", text)]
    print(f"{len(several)} files of several documents")
    for _ in range(count):
        yield parts_of(rng, rng.choice(several)).encode("utf-8", "surrogatepass")


def main():
    words = sys.argv[1:]
    if len(words) == 2 and words[1] == "stored":
        texts = stored()
    elif len(words) == 4 and words[1] == "random":
        texts = random_texts(int(words[2]), int(words[3]))
    elif len(words) == 5 and words[1] == "mutants":
        texts = mutants(int(words[2]), int(words[3]), words[4])
    else:
        sys.exit(__doc__)
    with tempfile.TemporaryDirectory() as folder:
        sys.exit(0 if Comparison(os.path.abspath(words[0]), folder).all(texts) else 1)


if __name__ == "__main__":
    main()
