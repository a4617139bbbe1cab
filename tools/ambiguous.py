#!/usr/bin/env python3
"""Reads texts that `to_string_unambiguous` printed by other readers of YAML, and tells those that come back otherwise.

usage: ambiguous.py SEED COUNT [FILES]

COUNT random texts, made of what numbers, dates, times and the words of YAML 1.1 are made of, and all texts of up to
three bytes of those; and, where FILES names a list of YAML files, each text in them. They are printed as a list and read
by PyYAML (`safe_load`), and by Ruby's Psych where `ruby` is there. PROGRAM is one that an earlier run made, by
`KEEP=FILE ambiguous.py ..`; else `rt` proves and builds it of ambiguous.rt.in beside this script, or, with `FAST=1`,
fast_build.py builds it without proofs. In the last line is how many texts were compared and how many of them differ, and
how many stand without quotes. Status 0 only if none differs.
"""

import itertools
import json
import os
import random
import shutil
import subprocess
import sys
import tempfile

import yaml

HERE = os.path.dirname(os.path.abspath(__file__))
BATCH = 20000
SHOWN = 20
SMALL = "019-+.:_,eExobafTtZz =<~yYnN"
PIECES = list("0123456789") * 2 + ["00", "12", "59", "60", "2024", "-01-31", "-1-1", "T", "t", "Z", "+02:00", " ", ":30", ":", "::"]
PIECES += ["_", ",", ".", "-", "+", "e", "E", "e5", "E+3", "0x", "0X", "0o", "0b", "1f", "F", "a", "b", ".inf", ".nan", "-.Inf"]
PIECES += ["yes", "Yes", "YES", "yEs", "no", "NO", "on", "oN", "off", "OFF", "y", "n", "true", "TrUe", "false", "null", "nULL", "~"]
PIECES += ["<<", "=", "!", "&", "*", "#", "'", '"', "x", "word", "é", "/", "%", "@", "`", "?", "|", ">", "[", "]", "{", "}"]
RUBY = """
require 'yaml'; require 'json'; require 'date'
STDOUT.write(YAML.safe_load(STDIN.read, permitted_classes: [Date, Time, Symbol]).map { |x| x.is_a?(String) ? x : [x.class.to_s] }.to_json)
"""


def build(folder):
    """Makes the program that prints texts."""
    out = os.path.join(folder, "ambiguous")
    script = '. "$root/bench/program.sh"; over serde_yaml ambiguous < "$root/tools/ambiguous.rt.in"; '
    script += 'if [ -n "${FAST-}" ]; then cd "$room"; "$root/tools/fast_build.py" ambiguous "$out"; '
    script += 'else make_program ambiguous; cp "$room/crates/ambiguous/out/ambiguous" "$out"; fi; '
    script += '[ -z "${FAST-}" ] || [ -z "${KEEP-}" ] || cp "$out" "$KEEP"'
    words = dict(os.environ, root=os.path.dirname(HERE), room=os.path.join(folder, "room"), out=out)
    os.makedirs(words["room"])
    subprocess.run(["bash", "-euc", script], env=words, check=True)
    return out


def read_by_ruby(text):
    """What Ruby reads of a text."""
    ran = subprocess.run(["ruby", "-e", RUBY], input=text, capture_output=True, encoding="utf-8")
    if ran.returncode:
        sys.exit("ruby: " + ran.stderr[:1000])
    return json.loads(ran.stdout)


def scalars(node, found):
    """The texts of a node."""
    if isinstance(node, yaml.ScalarNode):
        found.add(node.value)
    elif node is not None:
        for part in node.value:
            for one in part if isinstance(part, tuple) else (part,):
                scalars(one, found)


def texts_of(files):
    """The texts of the files that are YAML."""
    found = set()
    for name in open(files, encoding="utf-8"):
        try:
            with open(name.rstrip("\n"), encoding="utf-8") as file:
                for node in yaml.compose_all(file, Loader=yaml.CSafeLoader):
                    scalars(node, found)
        except (yaml.YAMLError, OSError, UnicodeDecodeError, RecursionError):
            continue
    return found


def texts(seed, count, files):
    """All texts that are compared."""
    random.seed(seed)
    found = {"".join(letters) for length in range(4) for letters in itertools.product(SMALL, repeat=length)}
    if files:
        found |= texts_of(files)
    made = 0
    while made < count:
        found.add("".join(random.choice(PIECES) for _ in range(random.randint(1, 6))))
        made += 1
    return sorted(text for text in found if text.isprintable())


def main():
    seed, count = int(sys.argv[1]), int(sys.argv[2])
    files = sys.argv[3] if len(sys.argv) > 3 else None
    readers = [("PyYAML", lambda text: yaml.load(text, Loader=yaml.CSafeLoader))]
    if shutil.which("ruby"):
        readers.append(("Psych", read_by_ruby))
    with tempfile.TemporaryDirectory() as folder:
        program = os.environ.get("PROGRAM") or build(folder)
        all_texts, differ, plain = texts(seed, count, files), 0, 0
        for start in range(0, len(all_texts), BATCH):
            batch = all_texts[start : start + BATCH]
            ran = subprocess.run([program], input="\n".join(batch) + "\n", capture_output=True, check=True, encoding="utf-8")
            plain += sum(line[2:3] not in ("'", '"') for line in ran.stdout.splitlines())
            for name, read in readers:
                back = read(ran.stdout)
                wrong = [(text, got) for text, got in zip(batch, back) if text != got]
                wrong += [] if len(back) == len(batch) else [("a list", len(back))]
                for text, got in wrong[: max(0, SHOWN - differ)]:
                    print(f"{name}: {text!r} comes back as {got!r}")
                differ += len(wrong)
    names = " and ".join(name for name, _ in readers)
    print(f"{len(all_texts)} texts by {names}: {differ} differ; {plain} stand without quotes")
    return 1 if differ else 0


if __name__ == "__main__":
    sys.exit(main())
