#!/usr/bin/env python3
"""Reads random texts as types with derives twice, from the tape of a text and exactly, and tells those of which the two
answer otherwise: other values, or texts that one lends and the other copies. A reading from the tape may give nothing.

usage: derived_tape_compare.py SEED COUNT

COUNT random rows, each a type and a text that mostly fits it, of derive_compare.py, a third of them changed in one
place. The exact reading is that of `from_str_merging` with merge keys kept, and for some types that of `from_events`.
What `from_str` answers, value or fault, is compared with it too. The program is made of derived_tapes.rt.in beside this
script by fast_build.py, without proofs, over a copy of the crates in which `yaml` shows its reading of tapes; PROGRAM
names one that an earlier run kept, and KEEP a file to keep it in. Prints each row that is read otherwise, and in the
last line how many rows both refused, how many the exact reading alone gave, how many both gave alike, how many differ,
and how many failed. Status 0 only if none differs or failed.
"""

import os
import shutil
import subprocess
import sys
import tempfile

from derive_compare import MORE, NAMES, SINGLETONS, Texts

HERE = os.path.dirname(os.path.abspath(__file__))
AT_ONCE = 50_000

# Types beside those of derive_compare.py, each with one whose texts fit it.
OTHERS = {
    "Vec<CowStr>": None, "Vec<&str>": None, "[u8;2]": "Vec<u8>", "BTreeMap<&str,Option<CowStr>>": "BTreeMap<String,u8>",
    "BTreeMap<i64,bool>": "Mapping", "BTreeMap<char,()>": "Mapping", "VecDeque<u8>": "Vec<u8>",
    "BTreeSet<String>": None, "Option<Option<u8>>": "Option<u8>", "Vec<Option<Option<u8>>>": None,
    "Vec<Lossy<u8>>": "Vec<Value>", "Vec<Lossy<Figure>>": "Vec<Figure>",
    "BTreeMap<String,Lossy<Scalar>>": "BTreeMap<String,Scalar>", "Deed": "Figure", "Timeout": "String",
    "Service/owned": "Service", "Setting/owned": "Setting", "Mark/owned": "Mark", "Vec<Figure>/owned": "Vec<Figure>",
    "Vec<Scalar>/owned": "Vec<Scalar>", "Value/owned": "Value", "Weather/owned": "Weather", "Drawing/owned": "Drawing",
    "Step/owned": "Step", "Command/owned": "Command",
}
PIECES = ["- ", "a: ", "\n", "  ", " ", "7", "-3", "true", "~", "null", "'q'", '"d"', '"e\\n"', "[", "]", "{", "}", ", ",
          "!!int ", "!!str ", "!a ", "!Dot ", "&x ", "*x", "# c\n", "|\n  lit\n", ">\n  fold\n", "---\n", "...\n", "? ",
          ": ", "é", "\r", "<<: ", "'", '"', "x"]


def build(folder):
    """Makes the program."""
    out = os.path.join(folder, "derived_tapes")
    if os.environ.get("PROGRAM"):
        return os.path.abspath(os.environ["PROGRAM"])
    script = """
        . "$root/bench/program.sh"
        over yaml derived_tapes < "$root/tools/derived_tapes.rt.in"
        cp -a "$root/crates/derived_types" "$room/crates/"
        grep '^derived_types:' "$root/crates.txt" >> "$room/crates.txt"
        sed -i 's/^derived_tapes: /derived_tapes: derived_types /' "$room/crates.txt"
        sed -i 's/^pub use typed::/pub use taped::{read_tape, read_tape_owned};\\n&/' "$room/crates/yaml/src/lib.rt"
        sed -i 's/^pub(crate) fn/pub fn/' "$room/crates/yaml/src/taped.rt"
        cd "$room"
        "$root/tools/fast_build.py" derived_tapes "$out"
    """
    words = dict(os.environ, root=os.path.dirname(HERE), room=os.path.join(folder, "room"), out=out)
    os.makedirs(words["room"])
    subprocess.run(["bash", "-euc", script], env=words, check=True)
    if os.environ.get("KEEP"):
        shutil.copy(out, os.environ["KEEP"])
    return out


def lists(texts, parts):
    return texts.pick("[%s]" % ", ".join(parts), "".join("\n- " + part for part in parts) or "[]")


def fitting(texts, name):
    """A text that mostly fits a type."""
    if name in ("Vec<CowStr>", "Vec<&str>", "BTreeSet<String>"):
        return lists(texts, [texts.word() for _ in range(texts.random.randint(0, 4))])
    if name == "Vec<Option<Option<u8>>>":
        return lists(texts, [texts.of("Option<u8>") for _ in range(texts.random.randint(0, 4))])
    return texts.of(OTHERS.get(name) or name)


def opened(texts, text):
    """The text with its outermost mapping or list on lines of their own, where that is easily done."""
    inner = text[1:-1]
    if len(text) < 3 or text[0] not in "{[" or any(c in inner for c in "{}[]'\"&*!#\n"):
        return text
    parts = inner.split(", ")
    return "\n".join(("- " if text[0] == "[" else "") + part for part in parts)


def changed(texts, text):
    """The text with a change in one place."""
    at = texts.random.randint(0, len(text))
    way = texts.random.random()
    if way < 0.3:
        return text[:at] + text[at + 1 :]
    if way < 0.4 and text:
        end = texts.random.randint(at, len(text))
        return text[:end] + text[at:end] + text[end:]
    return text[:at] + texts.pick(*PIECES) + text[at:]


def rows(seed, count):
    texts = Texts(seed)
    names = [n for n in NAMES + MORE + SINGLETONS if not n.startswith("apply:") and not n.startswith("Service/")]
    names = [n for n in names if not n.endswith("/documents")] + list(OTHERS)
    for _ in range(count):
        name = texts.pick(*names)
        text = fitting(texts, name).replace("\\\\", "\\")
        if texts.often(0.5):
            text = opened(texts, text)
        if texts.often(0.3):
            text = changed(texts, text)
        if texts.often(0.3):
            text = "\n" + text
        yield "%s %s" % (name, text.replace("\n", "\x01"))


def main():
    seed, count = int(sys.argv[1]), int(sys.argv[2])
    sums = [0] * 5
    with tempfile.TemporaryDirectory() as folder:
        program = build(folder)
        waiting = []
        for number, row in enumerate(rows(seed, count), 1):
            waiting.append(row)
            if len(waiting) < AT_ONCE and number < count:
                continue
            ran = subprocess.run([program], input="".join(r + "\n" for r in waiting).encode(), stdout=subprocess.PIPE)
            waiting = []
            lines = ran.stdout.decode().rstrip("\n").split("\n")
            for line in lines[:-1]:
                print(line.replace("\x01", "\\n"))
            if ran.returncode != 0:
                sys.exit("the program ended with status %d" % ran.returncode)
            sums = [a + int(b) for a, b in zip(sums, lines[-1].split())]
    print("both refuse %d, exact alone %d, alike %d, differ %d, failed %d" % tuple(sums))
    sys.exit(any(sums[3:]))


if __name__ == "__main__":
    main()
