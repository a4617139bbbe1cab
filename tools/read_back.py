#!/usr/bin/env python3
"""Prints YAML texts as `yaml_tool convert` does, and sees whether they read back.

usage: read_back.py PROGRAM random SEED COUNT            random texts
       read_back.py PROGRAM mutants SEED COUNT PATH..    changed parts of YAML files, found below the paths
       read_back.py PROGRAM files PATH..                 YAML files, found below the paths

PROGRAM is the built yaml_tool. Of a text whose documents are data, each read as a value of any kind, the printed text
has to show the same data, document by document, and has to print as itself. A text of which a document is a fault has
to be refused by that fault. Prints the first texts for which this is not so, and in the last line how many were
printed, how many were refused, and for how many it is not so. Status 0 only if there is none.
"""

import os
import subprocess
import sys
from concurrent.futures import ThreadPoolExecutor

from compare import files_below, mutants, random_texts, read

SHOWN = 10


def run(program, words, text):
    """What the program prints of a text, and the first fault that it tells, or None."""
    ran = subprocess.run([program] + words + ["--format", "json"], input=text, capture_output=True)
    return ran.stdout, next(iter(ran.stderr.splitlines()), None)


def tried(program, text):
    """How a text fares: whether it was printed, and what is not as it should be, or None."""
    shown, fault = run(program, ["show", "--documents"], text)
    printed, refusal = run(program, ["convert"], text)
    if fault is not None:
        return False, None if refusal == fault and not printed else (b"it is not refused by " + fault, printed)
    again, fault = run(program, ["show", "--documents"], printed)
    if again != shown or fault is not None:
        return True, (b"it shows " + shown, b"and printed " + printed + b" it shows " + again)
    twice, _ = run(program, ["convert"], printed)
    return True, None if twice == printed else (b"it prints as " + printed, b"and that as " + twice)


def texts_of(task, words):
    if task == "random" and len(words) == 2:
        return random_texts(int(words[0]), int(words[1]))
    if task == "mutants" and len(words) >= 3:
        return mutants(int(words[0]), int(words[1]), words[2:])
    if task == "files" and words:
        return (read(path) for path in files_below(words))
    sys.exit(__doc__)


def main():
    if len(sys.argv) < 4:
        sys.exit(__doc__)
    program = os.path.abspath(sys.argv[1])
    printed = refused = wrong = 0
    with ThreadPoolExecutor(os.cpu_count()) as pool:
        texts = list(texts_of(sys.argv[2], sys.argv[3:]))
        for text, (is_printed, found) in zip(texts, pool.map(lambda text: tried(program, text), texts)):
            printed += is_printed
            refused += not is_printed
            if found:
                wrong += 1
                if wrong <= SHOWN:
                    print("text", text[:600], *(part[:400] for part in found), sep="\n  ")
    print(f"{printed} texts were printed and read back, {refused} refused: {wrong} not as they should be")
    sys.exit(0 if wrong == 0 else 1)


main()
