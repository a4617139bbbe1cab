#!/usr/bin/env python3
"""Reads the YAML or the JSON files of a machine as `yaml::Value`, and tells what was refused.

usage: real_files.py yaml|json PATH.. [--program PROGRAM]

The files are found below the paths, but not in caches, up to 4 MB each, and each content counts once. PROGRAM is one
that an earlier run made, by `KEEP=FILE real_files.py ..`; else `rt` proves and builds it of real_files.rt.in beside
this script, over a copy of the crates, which takes some minutes. libyaml is that of compare.py.

Of YAML files it prints how many were read and why the others were not: those that libyaml refuses too, and else each
cause with how many there are and the first of them, without names and places. Of JSON files, those that Python reads,
the value is printed as JSON, which has to be what Python reads of the file, an integer where it is one and each float
the same. A file that is another value is told. Status 0 only if there is none.
"""

import collections
import hashlib
import json
import os
import re
import subprocess
import sys
import tempfile
from concurrent.futures import ThreadPoolExecutor

import compare

HERE = os.path.dirname(os.path.abspath(__file__))
ENDINGS = {"yaml": (".yaml", ".yml"), "json": (".json",)}
LEFT_OUT = {"/proc", "/sys", "/dev", "/tmp"}
LARGEST = 1 << 22
SHOWN = 5


def files_below(paths, endings):
    """The files whose names end so, each content once."""
    seen = set()
    for path in paths:
        for folder, folders, names in os.walk(path):
            folders[:] = sorted(name for name in folders if name not in (".cache", "cache")
                                and os.path.join(folder, name) not in LEFT_OUT)
            for file in (os.path.join(folder, name) for name in sorted(names) if name.endswith(endings)):
                if os.path.isfile(file) and not os.path.islink(file) and os.path.getsize(file) <= LARGEST:
                    content = hashlib.sha256(compare.read(file)).digest()
                    if content not in seen:
                        seen.add(content)
                        yield file


def answer(program, text):
    """JSON, or `! ` and why the text was not read, or `? ` and why the value has no JSON."""
    out = subprocess.run([program], input=text, stdout=subprocess.PIPE, stderr=subprocess.PIPE)
    return out.stdout.decode("utf-8").rstrip("\n") or "! the program ended with status %d" % out.returncode


def cause(fault):
    """The fault without what stands in quotes, and without places."""
    return re.sub(r"\d+", "N", re.sub(r'`[^`]*`|".*"|\'.*\'', "..", fault.split(" at line ")[0]))


def tagged(value):
    """A value of Python's that is equal to another only where each part has the same type."""
    if isinstance(value, dict):
        return {name: tagged(part) for name, part in value.items()}
    if isinstance(value, list):
        return [tagged(part) for part in value]
    return type(value).__name__, repr(value)


def of_json(text):
    """What Python reads of the JSON text, or None where it is none."""
    def refused(word):
        raise ValueError(word)
    try:
        return tagged(json.loads(text, parse_constant=refused)),
    except (ValueError, RecursionError):
        return None


def compared(kind, program, libyaml, file):
    """What is counted of a file, and what it is told with."""
    text = compare.read(file)
    if kind == "json":
        wanted = of_json(text)
        if wanted is None:
            return "no JSON by Python", None
    told = answer(program, text)
    if told.startswith("! "):
        events = subprocess.run([libyaml, file], stdout=subprocess.PIPE).stdout
        by_both = "libyaml too: " if b" !ERR " in events else ""
        return "refused: " + by_both + cause(told[2:]), told
    if kind == "json":
        return ("the same value", None) if of_json(told) == wanted else ("ANOTHER VALUE", told)
    return "read", None


def build(folder):
    """Makes the program that reads a text."""
    script = ('. "$root/bench/program.sh"; over yaml real_files < "$root/tools/real_files.rt.in"'
              '; sed -i "\\$s/\\$/ serde_json/" "$room/crates.txt"; make_program real_files')
    words = dict(os.environ, root=os.path.dirname(HERE), room=folder)
    subprocess.run(["bash", "-euc", script], env=words, check=True)
    return os.path.join(folder, "crates", "real_files", "out", "real_files")


def main():
    words = sys.argv[1:]
    program = None
    if "--program" in words[:-1]:
        at = words.index("--program")
        program = os.path.abspath(words[at + 1])
        del words[at : at + 2]
    if len(words) < 2 or words[0] not in ENDINGS:
        sys.exit(__doc__)
    kind, paths = words[0], words[1:]
    counts, first = collections.Counter(), collections.defaultdict(list)
    with tempfile.TemporaryDirectory() as folder, ThreadPoolExecutor(os.cpu_count()) as pool:
        libyaml = compare.build(folder)
        program = program or build(folder)
        files = list(files_below(paths, ENDINGS[kind]))
        answers = pool.map(lambda file: compared(kind, program, libyaml, file), files)
        for file, (what, told) in zip(files, answers):
            counts[what] += 1
            if told is not None and len(first[what]) < SHOWN:
                first[what].append("    %s: %s" % (file, told[:200]))
    print("%d files of distinct contents" % len(files))
    for what, count in counts.most_common():
        print("%7d %s" % (count, what), *first[what], sep="\n")
    sys.exit(counts["ANOTHER VALUE"] > 0)


if __name__ == "__main__":
    main()
