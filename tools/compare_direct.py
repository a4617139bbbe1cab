#!/usr/bin/env python3
"""Compares the events of `yaml_direct` with those of libyaml 0.2.5 and with those of `yaml_parse`, text by text.

usage: compare_direct.py random SEED COUNT [PROGRAM]            random texts, made as compare.py makes them
       compare_direct.py pieces SEED COUNT [PROGRAM]            random texts, made as grammar.py makes them
       compare_direct.py mutants SEED COUNT LIST [PROGRAM]      changed parts of files, whose names are a list's lines
       compare_direct.py files LIST [PROGRAM]                   the files that the lines of a list name
       compare_direct.py every LENGTH FRONT [PROGRAM]           FRONT, and behind it each text of so many bytes at most

PROGRAM is one that an earlier run made, by `KEEP=FILE compare_direct.py ..`; else `rt` proves and builds it of
direct_events.rt.in beside this script, over a copy of the crates, or, with `FAST=1`, fast_build.py builds it without
proofs. The library comes with `apt-get install -y libyaml-dev`; libyaml_events.c is compiled by `cc`.

What is compared: events, marks, both ends of slices, anchors, tags, texts, styles, and whether the start of each
collection tells its end. A text that yaml_direct leaves has to have no events of its own; it is counted, and so is one
of them that libyaml takes. With yaml_parse no difference is left out. With libyaml, texts are that begin with U+FEFF,
whose indexes it counts otherwise, and, where they differ, those that compare.py leaves out. Prints the first texts that
differ, and in the last line the counts. Status 0 only if none differs. OUT names a file for the texts that are left.
"""

import collections
import itertools
import os
import subprocess
import sys
import tempfile

import compare
import grammar

HERE = os.path.dirname(os.path.abspath(__file__))
BATCH = 400
SHOWN = 10
LARGEST = 200000
# The bytes of which `every` makes texts.
SMALL = b"a:,[]{}-?# \n'&"
# What the program stands on beside yaml_direct and what that stands on.
MORE = "yaml_lines yaml_parse yaml_scan yaml_shape"


def build(folder):
    """Makes the program that prints events: proved, or, where FAST says so, by fast_build.py."""
    script = '. "$root/bench/program.sh"; over yaml_direct direct_events < "$root/tools/direct_events.rt.in"; '
    script += f"for crate in {MORE}; do add $crate; done; "
    script += 'sed -i "s/^direct_events:.*/& $more/" "$room/crates.txt"; '
    script += 'if [ -n "${FAST-}" ]; then cd "$room"; "$root/tools/fast_build.py" direct_events "$out"; '
    script += 'else make_program direct_events; cp "$room/crates/direct_events/out/direct_events" "$out"; fi; '
    script += '[ -z "${FAST-}" ] || [ -z "${KEEP-}" ] || cp "$out" "$KEEP"'
    add = 'add() { cp -a "$root/crates/$1" "$room/crates/"; grep "^$1:" "$root/crates.txt" >> "$room/crates.txt"; }; '
    out = os.path.join(folder, "direct_events")
    words = dict(os.environ, root=os.path.dirname(HERE), room=os.path.join(folder, "room"), more=MORE, out=out)
    subprocess.run(["bash", "-euc", add + script], env=words, check=True)
    return out


def is_refused(lines):
    """Whether the lines of libyaml end with a fault."""
    return any(b" !ERR " in line for line in lines[-2:])


def same_but_listed(text, ours, theirs):
    """Whether the lines are those of libyaml, or the text is one that compare.py leaves out."""
    return ours == theirs or text.startswith(compare.BOM) or compare.is_listed(text)


class Comparison:
    def __init__(self, program, folder):
        self.program, self.folder = program, folder
        self.libyaml = compare.build(folder)
        self.counts = collections.Counter()

    def told(self, name, text, direct, today, theirs):
        """Counts a text, and tells whether its lines are those that they have to be."""
        count = self.counts
        count["texts"] += 1
        count["bytes"] += len(text)
        taken = not is_refused(theirs)
        count["libyaml takes"] += taken
        count["bytes that libyaml takes"] += taken * len(text)
        if direct == [b"!ELSEWHERE"]:
            count["left"] += 1
            count["left, which libyaml takes"] += taken
            if taken and "OUT" in os.environ:
                with open(os.environ["OUT"], "a") as out:
                    out.write(f"{name} {text[:300]!r}\n")
            return
        count["read"] += 1
        count["bytes read"] += len(text)
        count["events"] += len(direct)
        if direct == today and same_but_listed(text, direct, theirs):
            return
        count["differ"] += 1
        if count["differ"] <= SHOWN:
            self.show(text, direct, today if direct != today else theirs)

    def show(self, text, direct, other):
        print("text", text[:500])
        for our, their in zip(direct + [b"the end"], other + [b"the end"]):
            if our != their:
                print("  direct", our.decode("utf-8", "replace")[:200])
                print("  other ", their.decode("utf-8", "replace")[:200])
                break

    def batch(self, texts):
        names = []
        # two more files, so that a line names each
        for number, text in enumerate(texts + [b"", b""]):
            names.append(os.path.join(self.folder, str(number)))
            with open(names[-1], "wb") as file:
                file.write(text)
        direct = compare.answers([self.program, "direct"], names)
        today = compare.answers([self.program, "today"], names)
        theirs = compare.answers([self.libyaml], names)
        nothing = [b"nothing was printed"]
        for name, text in zip(names, texts):
            self.told(name, text, direct.get(name, nothing), today.get(name, []), theirs[name])

    def all(self, texts):
        part = []
        for text in texts:
            part.append(text)
            if len(part) == BATCH:
                self.batch(part)
                part = []
        self.batch(part)
        print(", ".join(f"{count} {word}" for word, count in self.counts.items()))
        print(f"{self.counts['differ']} differ")
        return self.counts["differ"] == 0


def listed(path):
    """The contents of the files that a list names, each once."""
    seen = set()
    with open(path) as names:
        for name in names:
            name = name.rstrip("\n")
            if os.path.isfile(name):
                text = compare.read(name)
                if text not in seen:
                    seen.add(text)
                    yield text


def mutants(seed, count, path):
    with open(path) as names:
        paths = [name.rstrip("\n") for name in names]
    small = [path for path in paths if os.path.isfile(path) and os.path.getsize(path) < LARGEST]
    return compare.mutants(seed, count, small)


def every(length, front):
    for size in range(length + 1):
        for text in itertools.product(SMALL, repeat=size):
            yield front + bytes(text)


def main():
    words = sys.argv[1:]
    makers = {"random": (2, lambda s, n: compare.random_texts(int(s), int(n)))}
    makers["pieces"] = (2, lambda s, n: grammar.random_texts(int(s), int(n)))
    makers["mutants"] = (3, lambda s, n, path: mutants(int(s), int(n), path))
    makers["files"] = (1, listed)
    makers["every"] = (2, lambda n, front: every(int(n), front.encode()))
    count, maker = makers.get(words[0] if words else "", (0, None))
    if maker is None or len(words) not in (count + 1, count + 2):
        sys.exit(__doc__)
    with tempfile.TemporaryDirectory() as folder:
        program = os.path.abspath(words[count + 1]) if len(words) == count + 2 else build(folder)
        sys.exit(0 if Comparison(program, folder).all(maker(*words[1 : count + 1])) else 1)


if __name__ == "__main__":
    main()
