#!/usr/bin/env python3
"""Reads random texts as values of thirty-three types twice, by `from_str`, whose values read themselves from a tape where they
can, and by `from_events` of the parser's events, which never does, and tells those of which the two answer otherwise.

usage: tape_compare.py SEED COUNT

COUNT random texts of up to fourteen pieces. The program is made of tape_readings.rt.in beside this script by
fast_build.py, without proofs. It prints each text that is read otherwise. Its last line counts readings: the same fault,
the same value, and, from the sixth number on, each way to differ. Status 0 only if none differs.
"""

import os
import subprocess
import sys
import tempfile

HERE = os.path.dirname(os.path.abspath(__file__))


def build(folder):
    """Makes the program."""
    out = os.path.join(folder, "tape_readings")
    script = '. "$root/bench/program.sh"; over serde_yaml tape_readings < "$root/tools/tape_readings.rt.in"; '
    script += 'cd "$room"; "$root/tools/fast_build.py" tape_readings "$out"'
    words = dict(os.environ, root=os.path.dirname(HERE), room=os.path.join(folder, "room"), out=out)
    os.makedirs(words["room"])
    subprocess.run(["bash", "-euc", script], env=words, check=True)
    return out


def main():
    seed, count = sys.argv[1:]
    with tempfile.TemporaryDirectory() as folder:
        ran = subprocess.run([build(folder), seed, count], capture_output=True, text=True, check=True)
    print(ran.stdout, end="")
    counts = [int(n) for n in ran.stdout.strip().split("\n")[-1].strip("[]").split(",")]
    sys.exit(any(counts[2:]))


if __name__ == "__main__":
    main()
