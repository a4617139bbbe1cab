#!/usr/bin/env python3
"""Lays YAML texts out by `yaml_layout`, and sees by libyaml and a scanner of its own whether all of each is kept.

usage: layout_compare.py files PATH..                 the YAML files below the paths, each content once
       layout_compare.py mutants SEED COUNT PATH..    changed parts of such files
       layout_compare.py random SEED COUNT            random texts

Each text is laid out in four ways: by two columns and by four, with sequences in mappings further to the right and
not. Of what is printed PyYAML's events, by libyaml, have to be those of the text: kinds, anchors, tags, texts and
styles of scalars, whether a collection stands in brackets, whether documents begin and end with a line of their own,
and directives. Its comments have to be the text's, in their order, by where libyaml's tokens stand. Laid out again it
has to be the same. No line outside of scalars may end in a blank, and no two empty lines may stand there one behind the
other. PROGRAM is a program that an earlier run made, by `KEEP=FILE layout_compare.py ..`; else fast_build.py makes it,
unproved, of layout.rt.in beside this script. Prints the first texts for which that is not so, each reason to refuse one
with how many there are and the first, and in the last line the counts. Status 0 only if nothing differs.
"""

import collections
import os
import re
import subprocess
import sys
import tempfile

import yaml

import compare
from real_files import ENDINGS, files_below

HERE = os.path.dirname(os.path.abspath(__file__))
SHOWN = 5
BATCH = 200
WAYS = ((2, 0), (2, 1), (4, 0), (4, 1))


def build(folder):
    """Makes the program that lays texts out."""
    out = os.path.join(folder, "layout")
    script = '. "$root/bench/program.sh"; over yaml_layout layout < "$root/tools/layout.rt.in"; cd "$room"; '
    script += '"$root/tools/fast_build.py" layout "$out"; [ -z "${KEEP-}" ] || cp "$out" "$KEEP"'
    words = dict(os.environ, root=os.path.dirname(HERE), room=os.path.join(folder, "room"), out=out)
    os.makedirs(words["room"])
    subprocess.run(["bash", "-euc", script], env=words, check=True)
    return out


def answers(program, way, texts):
    """Of each text a word, and what is printed, or where it is refused."""
    asked = b"%d\n%d\n" % way + b"".join(b"%d\n" % len(text) + text for text in texts)
    told = subprocess.run([program], input=asked, capture_output=True, check=True).stdout
    found, at = [], 0
    while at < len(told):
        end = told.index(b"\n", at)
        word, length = told[at:end].split()
        at = end + 1 + int(length)
        found.append((word.decode(), told[end + 1 : at]))
    return found


def events(text):
    """What libyaml's events say, but for their marks, and whether a collection that is empty stands in brackets."""
    said = []
    for event in yaml.parse(text, Loader=yaml.CLoader):
        words = {name: value for name, value in vars(event).items() if not name.endswith("_mark")}
        said.append((type(event).__name__, sorted(words.items(), key=lambda word: word[0])))
    return said


def comments_in(gap):
    """The comments of what stands between two tokens."""
    lines = (line.lstrip(" \t\ufeff") for line in re.split("[\r\n\x85\u2028\u2029]", gap))
    return [line.rstrip(" \t") for line in lines if line[:1] == "#"]


def comments(text):
    """The comments, by where libyaml's tokens stand, and the lines without their scalars."""
    found, left, at = [], [], 0
    for token in yaml.scan(text, Loader=yaml.CLoader):
        start, end = token.start_mark.index, token.end_mark.index
        if end > start:
            found += comments_in(text[at:start])
        if isinstance(token, yaml.ScalarToken):
            left.append(text[at:start])
            if token.style in ("|", ">"):
                header = text[start : text.find("\n", start) + 1 or len(text)]
                found += comments_in(header[header.find(" #") :] if " #" in header else "")
                left.append(header)
            else:
                left.append("x")
            at = end
        elif end > start:
            left.append(text[at:end])
            at = end
    found += comments_in(text[at:])
    left.append(text[at:])
    return found, "".join(left)


def is_tidy(text, rest):
    """Whether the lines outside of scalars end without blanks and feed once."""
    blank = any(line != line.rstrip(" \t") for line in rest.split("\n"))
    return not blank and "\r" not in text and "\n\n\n" not in rest


def wrong(text, out):
    """What was not kept, or None."""
    text, out = text.decode(), out.decode()
    if text[:1] == "\ufeff":
        text = text[1:]
    try:
        if events(text) != events(out):
            return "events"
        (before, _), (after, rest) = comments(text), comments(out)
    except yaml.YAMLError as fault:
        return "PyYAML: " + str(fault)
    if before != after:
        return "comments"
    return None if is_tidy(out, rest) else "lines"


def is_yaml(text):
    """Whether PyYAML reads the text."""
    try:
        for _ in yaml.parse(text, Loader=yaml.CLoader):
            pass
    except (yaml.YAMLError, UnicodeDecodeError, ValueError):
        return False
    return True


def texts_of(task, words):
    if task == "random" and len(words) == 2:
        return compare.random_texts(int(words[0]), int(words[1]))
    if task == "mutants" and len(words) >= 3:
        return compare.mutants(int(words[0]), int(words[1]), words[2:])
    if task == "files" and words:
        return (compare.read(path) for path in files_below(words, ENDINGS["yaml"]))
    sys.exit(__doc__)


def main():
    if len(sys.argv) < 3:
        sys.exit(__doc__)
    texts = list(texts_of(sys.argv[1], sys.argv[2:]))
    counts, firsts, shown = collections.Counter(), {}, 0
    with tempfile.TemporaryDirectory() as folder:
        program = os.environ.get("PROGRAM") or build(folder)
        for way in WAYS:
            for start in range(0, len(texts), BATCH):
                batch = texts[start : start + BATCH]
                told = answers(program, way, batch)
                assert len(told) == len(batch)
                printed = [out for word, out in told if word == "ok"]
                again = iter(answers(program, way, printed))
                for text, (word, out) in zip(batch, told):
                    if word == "ok":
                        found = "again" if next(again) != ("ok", out) else wrong(text, out)
                        counts["wrong" if found else "unchanged" if text == out else "laid out"] += 1
                        if found and shown < SHOWN:
                            shown += 1
                            print(f"{found}: {way} {text[:2000]!r}\n  {out[:2000]!r}")
                        continue
                    word = word if word != "noyaml" or not is_yaml(text) else "noyaml but for PyYAML"
                    counts[word] += 1
                    firsts.setdefault(word, (way, text[:1500], out))
    for word, (way, text, out) in firsts.items():
        first = "" if word in ("noyaml", "utf8") else f", first {way} at line {out.decode()}: {text!r}"
        print(f"{word}: {counts[word]}{first}")
    kept = counts["laid out"] + counts["unchanged"]
    refused = sum(counts[word] for word in firsts)
    print(
        f"{len(texts)} texts in {len(WAYS)} ways: {kept} laid out, {counts['unchanged']} of them as they stood; "
        f"{refused} refused; {counts['wrong']} differ"
    )
    return 1 if counts["wrong"] else 0


if __name__ == "__main__":
    sys.exit(main())
