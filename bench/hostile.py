#!/usr/bin/env python3
"""Measures what texts take that are made to be dear, and prints rows of docs/PERFORMANCE.md.

usage: hostile.py [MEGABYTES [NAME]..]

Each text has 10 megabytes, or so many. A row tells, of each way to go over it, seconds of processor time, and how many
bytes were held at the most for each byte of the text, beyond the text: by yaml_direct, or `left`; one event after
another by the tokens of yaml_parse, and all of them in a list; the documents one after another, and all at once; and as
a value of any kind, by `serde_yaml` and by `yaml`. Behind a way stands `stack` where it does not end as well within 128
kB of stack. Wants a machine with 8 GB. PROGRAM names a program that an earlier run kept by KEEP; else fast_build.py
makes it of hostile.rt.in beside this script, without proofs.
"""

import os
import resource
import shutil
import subprocess
import sys
import tempfile

HERE = os.path.dirname(os.path.abspath(__file__))
ROOT = os.path.dirname(HERE)
WAYS = "tape events list handed documents value people".split()
MOST = 6 << 30
# A small process between this one and the program, since what a process holds at the most is never less than what the
# one held that it was forked from.
BETWEEN = """
import os, resource, sys
stack, most = int(sys.argv[1]), int(sys.argv[2])
child = os.fork()
if child == 0:
    resource.setrlimit(resource.RLIMIT_AS, (most, most))
    resource.setrlimit(resource.RLIMIT_STACK, (stack, stack))
    os.execve(sys.argv[3], sys.argv[3:], {})
_, status, used = os.wait4(child, 0)
print(used.ru_utime + used.ru_stime, used.ru_maxrss * 1024, status)
"""


def texts(size):
    """The texts, by what they are made of."""

    def times(part):
        return part * (size // len(part))

    return {
        "`[`": times(b"["),
        "`[`, half of them closed by `]`": b"[" * (size // 2) + b"]" * (size // 2),
        "`{a: `": times(b"{a: "),
        "127 open `[`, within them `1,`": b"[" * 127 + times(b"1,"),
        "`- ` on one line": times(b"- "),
        "lines `- a`": times(b"- a\n"),
        "`? `": times(b"? "),
        "lines `a:`": times(b"a:\n"),
        "doubled single quotes in a scalar": b"'" + times(b"''") + b"'\n",
        "`\\n` in a scalar": b'"' + times(b"\\n") + b'"\n',
        "lines `#c`": times(b"#c\n"),
        "blank lines": times(b"\n"),
        "blank lines with carriage returns": times(b"\r\n"),
        "a key of all bytes": b"a" * size + b": b\n",
        "keys of 1,000 bytes": times(b"k" * 1000 + b": v\n"),
        "a tag of `%41`": b"!<" + times(b"%41") + b"> a\n",
        "tags": times(b"- !t\n"),
        "anchors": times(b"- &a b\n"),
        "aliases": b"- &a b\n" + times(b"- *a\n"),
        "line feeds in a scalar": b'"a' + times(b"\n") + b'b"\n',
        "lines of a literal block": b"|\n" + times(b" a\n"),
        "lines of a plain scalar": times(b"a\n"),
        "lines `---`": times(b"---\n"),
        "`[a, a, ..`": b"[" + times(b"a, ") + b"]\n",
    }


def build(folder):
    """Makes the program over a copy of the crates below both doors."""
    kept = os.environ.get("PROGRAM")
    if kept:
        return os.path.abspath(kept)
    lines = [line for line in open(f"{ROOT}/crates.txt") if line[:1].isalpha()]
    below = {line.split(":")[0].split()[0]: line.split(":")[1].split() for line in lines}
    names = set(below["yaml"] + below["serde_yaml"] + ["yaml", "serde_yaml"])
    own = [name for name in below if name in names]
    room = f"{folder}/room"
    for name in own:
        shutil.copytree(f"{ROOT}/crates/{name}", f"{room}/crates/{name}", ignore=shutil.ignore_patterns("out"))
    os.makedirs(f"{room}/crates/hostile/src")
    shutil.copy(f"{HERE}/hostile.rt.in", f"{room}/crates/hostile/src/main.rt")
    with open(f"{room}/crates.txt", "w") as listed:
        listed.writelines(line for line in lines if line.split(":")[0].split()[0] in own)
        listed.write(f"hostile: {' '.join(own)}\n")
    program = f"{folder}/hostile"
    subprocess.run([f"{ROOT}/tools/fast_build.py", "hostile", program], cwd=room, check=True)
    if os.environ.get("KEEP"):
        shutil.copy(program, os.environ["KEEP"])
    return program


def run(program, way, path, stack=resource.RLIM_INFINITY):
    """Seconds, the most bytes, the status and the answer of a run."""
    words = [sys.executable, "-I", "-S", "-c", BETWEEN, str(stack), str(MOST), program, way, path]
    child = subprocess.run(words, stdout=subprocess.PIPE, stderr=subprocess.DEVNULL, check=True)
    told, used = child.stdout.decode().rstrip("\n").rpartition("\n")[::2]
    seconds, most, status = used.split()
    return float(seconds), int(most), int(status), told.strip()


def measured(program, way, path, base, size):
    """What a row tells of a way."""
    seconds, most, status, told = run(program, way, path)
    again = run(program, way, path, 128 * 1024)[2:]
    if status:
        return "no answer"
    left = "left, " if way == "tape" and told == "0" else ""
    narrow = "" if again == (status, told) else ", stack"
    return f"{left}{seconds:.2f}, {max(0, most - base) / size:.1f}{narrow}"


def main():
    size = int(float(sys.argv[1] if len(sys.argv) > 1 else 10) * 1e6)
    wanted = sys.argv[2:]
    with tempfile.TemporaryDirectory() as folder:
        program = build(folder)
        print(f"| {size / 1e6:g} MB of | {' | '.join(WAYS)} |\n|{'---|' * (len(WAYS) + 1)}")
        path = f"{folder}/text"
        for name, text in texts(size).items():
            if wanted and name not in wanted:
                continue
            with open(path, "wb") as out:
                out.write(text)
            base = run(program, "read", path)[1]
            row = [measured(program, way, path, base, len(text)) for way in WAYS]
            print(f"| {name} | {' | '.join(row)} |", flush=True)


if __name__ == "__main__":
    main()
