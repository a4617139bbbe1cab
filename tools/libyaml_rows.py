#!/usr/bin/env python3
"""Prints rows of short random texts with what libyaml 0.2.5 makes of them, as crates/yaml_probe/rows/libyaml.rows.

usage: libyaml_rows.py SEED COUNT

The stored rows are those of `libyaml_rows.py 1 2000`. The texts are those of `compare.py .. random` with the same seed,
of which each short one is taken once. A row has the data that libyaml's events say of each document, or the fault, by
libyaml's own words and marks. The library comes with `apt-get install -y libyaml-dev`.

Left out are texts that begin with U+FEFF, texts with a character as JSON escapes it past U+FFFF, texts that a row can't
hold, and documents that are well formed and still no data: those with a floating point number, with a key twice, or
with an endless alias. Unknown anchors stay.
"""

import os
import re
import sys
import tempfile

from compare import BATCH, BOM, answers, build, has_pair, random_texts

LONGEST = 40
DEEPEST = 20
NULLS = ("", "~", "null", "Null", "NULL")
BOOLEANS = {"true": "true", "True": "true", "TRUE": "true", "false": "false", "False": "false", "FALSE": "false"}
INTEGER = re.compile(r"([+-]?)(?:0x([0-9a-fA-F]+)|0o([0-7]+)|0b([01]+)|(0|[1-9][0-9]*))")
FLOAT = re.compile(r"[+-]?(\d+\.?\d*|\.\d+)([eE][+-]?\d+)?|[+-]?\.(inf|Inf|INF)|\.(nan|NaN|NAN)")
LINE = re.compile(rb"(\d+)(?:\.\.\d+)?:(\d+):(\d+) (\S+) ?(.*)")
SAID = re.compile(rb"(?:&(\S+) ?)?(?:<([^>]*)> ?)?(.*)")
CORE = b"tag:yaml.org,2002:"


class LeftOut(Exception):
    """No row is made of the text."""


def unescaped(text):
    def byte(match):
        if match[2] is not None:
            return bytes([int(match[2], 16)])
        return {b"n": b"\n", b"t": b"\t"}.get(match[1], match[1])

    return re.sub(rb"\\(x([0-9a-f]{2})|.)", byte, text)


def spelled(text):
    """Bytes with the escapes of a line of events."""
    named = {10: "\\n", 9: "\\t", 92: "\\\\"}
    return "".join(named.get(byte) or (chr(byte) if 32 <= byte < 127 else "\\x%02x" % byte) for byte in text)


# --- what is read


class Event:
    def __init__(self, line):
        _, row, column, self.kind, rest = LINE.fullmatch(line).groups()
        self.kind = self.kind.decode()
        self.place = (int(row), int(column))
        self.rest = rest
        self.anchor = self.tag = self.text = None
        if self.kind in ("+SEQ", "+MAP", "=VAL"):
            self.anchor, self.tag, text = SAID.fullmatch(rest).groups()
            self.tag = None if self.tag is None else unescaped(self.tag)
            if self.kind == "=VAL":
                self.style = text[:1].decode()
                self.text = unescaped(text[1:]).decode()


def at(place):
    return "" if place == (0, 0) else " at line %d column %d" % (place[0] + 1, place[1] + 1)


def fault_of(events):
    """The events before the fault that ends them, and the fault, as serde_yaml prints it."""
    for number, event in enumerate(events):
        if event.kind == "!ERR":
            _, offset, problem = event.rest.decode().replace("hexdecimal", "hexadecimal").split(" ", 2)
            shown = problem + (at(event.place) or (" at position " + offset if offset != "0" else ""))
            for context in events[number + 1:]:
                shown += ", " + context.rest.decode() + (at(context.place) if context.place != event.place else "")
            return events[:number], shown
    return events, None


def documents(events, fault):
    """The events of each document, aliases with their targets, and the fault that cuts it off."""
    found, current, skipped = [], None, False
    for event in events:
        if event.kind == "+DOC":
            current, anchors, skipped = [], {}, False
        elif event.kind == "-DOC":
            if not skipped:
                found.append((current, None))
            current, skipped = None, False
        elif current is not None and not skipped:
            if event.kind == "=ALI":
                event.target = anchors.get(event.rest[1:])
                if event.target is None:
                    found.append((current, "unknown anchor" + at(event.place)))
                    skipped = True
                    continue
            elif event.anchor is not None:
                anchors[event.anchor] = len(current)
            current.append(event)
    if fault is not None and not skipped:
        found.append((current or [], fault))
    return found or [([], None)]


# --- the data that it is


def quoted(text):
    out = "".join(chr(byte) if 32 <= byte < 127 else "\\x%02x" % byte for byte in
                  re.sub(rb'(["\\])', rb"\\\1", text.encode()))
    return '"%s"' % out


def integer(text):
    match = INTEGER.fullmatch(text)
    if not match:
        return None
    digits, base = next((part, base) for part, base in zip(match.groups()[1:], (16, 8, 2, 10)) if part)
    number = int(digits, base) * (-1 if match[1] == "-" else 1)
    if not -(2**63) <= number < 2**64:
        raise LeftOut
    return str(number)


def word(text):
    """What a plain scalar says."""
    if text in NULLS:
        return "null"
    shown = BOOLEANS.get(text) or integer(text)
    if shown is None and FLOAT.fullmatch(text) and not re.fullmatch(r"[+-]?0\d+", text):
        raise LeftOut
    return shown or quoted(text)


def scalar(event, tag):
    if tag in (CORE + b"bool", CORE + b"int", CORE + b"float", CORE + b"null"):
        shown = {b"bool": BOOLEANS.get(event.text), b"int": integer(event.text), b"float": None,
                 b"null": "null" if event.text in NULLS[1:] else None}[tag[len(CORE):]]
        if shown is None:
            raise LeftOut
        return shown
    is_word = event.style == ":" and (tag is None or tag.startswith(b"!"))
    return word(event.text) if is_word else quoted(event.text)


class Reader:
    def __init__(self, events):
        self.events, self.place = events, 0

    def next(self):
        self.place += 1
        return self.events[self.place - 1]  # an IndexError where the fault cuts them off

    def ends(self):
        return self.events[self.place].kind in ("-SEQ", "-MAP")

    def node(self, depth):
        if depth > DEEPEST:
            raise LeftOut
        event = self.next()
        if event.kind == "=ALI":
            behind, self.place = self.place, event.target
            shown = self.node(depth + 1)
            self.place = behind
            return shown
        if event.tag is not None and event.tag.startswith(b"!"):
            return "!%s %s" % ((event.tag[1:] or b"!").decode(), self.content(event, None, depth))
        return self.content(event, event.tag, depth)

    def content(self, event, tag, depth):
        if event.kind == "=VAL":
            return scalar(event, tag)
        parts, keys = [], set()
        while not self.ends():
            part = self.node(depth + 1)
            if event.kind == "+MAP":
                if part in keys:
                    raise LeftOut
                keys.add(part)
                part += ": " + self.node(depth + 1)
            parts.append(part)
        self.place += 1
        return ("[%s]" if event.kind == "+SEQ" else "{%s}") % ", ".join(parts)


def answer(events, fault):
    """What is answered of a document."""
    try:
        shown = Reader(events).node(0) if events or fault else "null"
    except IndexError:
        shown = None
    if fault is not None:
        return "! " + fault
    if " | " in shown or "\\u" in shown or shown.startswith("! "):
        raise LeftOut
    units = shown.encode("utf-16-be")
    codes = [units[i] << 8 | units[i + 1] for i in range(0, len(units), 2)]
    return "".join(chr(code) if 32 <= code < 127 else "\\u%04x" % code for code in codes)


# --- the rows


def row(text, lines):
    events, fault = fault_of([Event(line) for line in lines])
    if b"!ERR READER" in b"\n".join(lines):
        events = []
    shown = " | ".join(answer(*document) for document in documents(events, fault))
    made = 'ANY documents  "%s"  => %s' % (spelled(text), shown)
    if made.index("  => ") != len(made) - len(shown) - 5:
        raise LeftOut
    return made


def short_texts(seed):
    seen = set()
    for text in random_texts(seed, 10**9):
        is_left_out = text.startswith(BOM) or has_pair(text)
        if len(text) <= LONGEST and text not in seen and not is_left_out:
            seen.add(text)
            yield text


def rows(program, folder, texts, count):
    made = 0
    while made < count:
        batch = [next(texts) for _ in range(BATCH)]
        names = [os.path.join(folder, str(number)) for number in range(BATCH)]
        for name, text in zip(names, batch):
            with open(name, "wb") as file:
                file.write(text)
        found = answers([program], names)
        for name, text in zip(names, batch):
            try:
                line = row(text, found[name])
            except LeftOut:
                continue
            if made < count:
                print(line)
            made += 1


def main():
    if len(sys.argv) != 3:
        sys.exit(__doc__)
    seed, count = int(sys.argv[1]), int(sys.argv[2])
    print("# Short random texts, and what libyaml 0.2.5 makes of them: `tools/libyaml_rows.py %d %d`." % (seed, count))
    print("\nANY = any\n")
    with tempfile.TemporaryDirectory() as folder:
        rows(build(folder), folder, short_texts(seed), count)


if __name__ == "__main__":
    main()
