"""The rules of crates/yaml_grammar for bytes, scalars and names, in the order of its files in specs/."""

import collections


# ---- Bytes


def at(text, i):
    return text[i] if 0 <= i < len(text) else 0


def is_blank(c):
    return c in (32, 9)


def is_gap(c):
    return c in (32, 9, 10, 0)


def is_bracket(c):
    return c in b",[]{}"


def is_indicator(c):
    return is_bracket(c) or c in b"#&*!|>'\"%@`"


def is_triple(c, text, i):
    return text[i:i + 3] == bytes([c]) * 3 and is_gap(at(text, i + 3))


def parts(text, i):
    return is_triple(45, text, i) or is_triple(46, text, i)


def is_character(c):
    return (
        c in (9, 10) or 0x20 <= c <= 0x7E or 0xA0 <= c <= 0x2027 or 0x202A <= c <= 0xD7FF
        or 0xE000 <= c <= 0xFEFE or 0xFF00 <= c <= 0xFFFD or 0x10000 <= c <= 0x10FFFF
    )


def is_text(text):
    try:
        return all(is_character(ord(c)) for c in set(text.decode()))
    except UnicodeDecodeError:
        return False


# ---- Folding


def folded(count):
    return b"" if count == 0 else b" " if count == 1 else b"\n" * (count - 1)


class Passed:
    """Blanks, line feeds, or a line feed behind a backslash and so many others."""

    def __init__(self):
        self.blanks, self.feeds, self.escaped = b"", None, None

    def said_by(self):
        if self.escaped is not None:
            return b"\n" * self.escaped
        return self.blanks if self.feeds is None else folded(self.feeds)

    def and_blank(self, c):
        if not self.has_feed():
            self.blanks += bytes([c])

    def and_feed(self):
        if self.escaped is not None:
            self.escaped += 1
        else:
            self.feeds = 1 if self.feeds is None else self.feeds + 1

    def has_feed(self):
        return self.feeds is not None or self.escaped is not None

    def is_some_passed(self):
        return self.has_feed() or self.blanks != b""


# ---- Plain: a context is "key", "brackets", or the least column of further lines


def goes_on_in(context, column):
    return context == "brackets" or (context != "key" and context <= column)


def is_safe(flow, c, d):
    return not is_gap(d) and not (flow and (is_bracket(d) or c in (63, 58)))


def stops_plain(context, column, passed, text, i):
    c, d = text[i], at(text, i + 1)
    return (
        is_gap(c) or (c == 58 and is_gap(d)) or (c == 35 and passed.is_some_passed())
        or (context == "brackets" and is_bracket(c))
        or (passed.has_feed() and (not goes_on_in(context, column) or (column == 0 and parts(text, i))))
    )


def is_refused(context, text, i):
    d = at(text, i + 1)
    return context == "brackets" and text[i] == 58 and (is_bracket(d) or d == 63)


def plain_rest(text, context, column, i):
    """The place behind the text, and what it says, or None."""
    end, said, passed = i, [], Passed()
    while i < len(text):
        c = text[i]
        if c == 32:
            column += 1
            passed.and_blank(c)
        elif c == 10:
            column = 0
            passed.and_feed()
        elif stops_plain(context, column, passed, text, i):
            break
        elif is_refused(context, text, i):
            return None
        else:
            if passed.is_some_passed():
                said.append(passed.said_by())
                passed = Passed()
            said.append(text[i:i + 1])
            column += not 0x80 <= c <= 0xBF
            end = i + 1
        i += 1
    return end, b"".join(said)


# ---- Quotes


def single_rest(text, i):
    said, quote, begins, passed = [], False, False, Passed()
    while True:
        if i >= len(text):
            return (i, b"".join(said) + passed.said_by()) if quote else None
        c = text[i]
        if quote:
            if c != 39:
                return i, b"".join(said) + passed.said_by()
            said += [passed.said_by(), b"'"]
            quote, begins, passed = False, False, Passed()
        elif begins and parts(text, i):
            return None
        elif c == 39:
            quote, begins = True, False
        elif c == 10:
            begins = True
            passed.and_feed()
        elif is_blank(c):
            begins = False
            passed.and_blank(c)
        else:
            said += [passed.said_by(), text[i:i + 1]]
            begins, passed = False, Passed()
        i += 1


LETTERS = {
    48: 0, 97: 7, 98: 8, 116: 9, 9: 9, 110: 10, 118: 11, 102: 12, 114: 13, 101: 27, 32: 32, 34: 34, 47: 47, 92: 92,
    78: 0x85, 95: 0xA0, 76: 0x2028, 80: 0x2029,
}
DIGITS = {120: 2, 117: 4, 85: 8}


def digit_value(c):
    return int(chr(c), 16) if chr(c) in "0123456789abcdefABCDEF" else 36


def character_code(code):
    return code if code < 0xD800 or 0xE000 <= code <= 0x10FFFF else None


def double_rest(text, i):
    said, escape, begins, passed = [], None, False, Passed()
    while i < len(text):
        c, code, done = text[i], None, False
        i += 1
        if escape is None:
            if begins and parts(text, i - 1):
                return None
            if c == 34:
                return i, b"".join(said) + passed.said_by()
            begins = c == 10
            if c == 92:
                escape = "backslash"
            elif c == 10:
                passed.and_feed()
            elif is_blank(c):
                passed.and_blank(c)
            else:
                said += [passed.said_by(), bytes([c])]
                passed = Passed()
        elif escape == "backslash":
            if c == 10:
                said.append(passed.said_by())
                escape, begins, passed = None, True, Passed()
                passed.escaped = 0
            elif c in DIGITS:
                escape = (DIGITS[c], 0)
            else:
                code, done = LETTERS.get(c), True
        else:
            left, now = escape[0], 16 * escape[1] + digit_value(c)
            if digit_value(c) >= 16:
                return None
            escape = (left - 1, now)
            if left == 1:
                code, done = character_code(now), True
        if done:
            if code is None:
                return None
            said += [passed.said_by(), chr(code).encode()]
            escape, begins, passed = None, False, Passed()
    return None


# ---- BlockTexts

Header = collections.namedtuple("Header", "chomping step size")


def spaces(line):
    return len(line) - len(line.lstrip(b" "))


def is_spaces(line):
    return spaces(line) == len(line)


def header_of(text, i):
    c, d = at(text, i), at(text, i + 1)
    signs, steps = {45: "strip", 43: "keep"}, {49 + n: n + 1 for n in range(9)}
    if c in signs:
        return Header(signs[c], steps.get(d, 0), 2 if d in steps else 1)
    if c in steps:
        return Header(signs.get(d, "clip"), steps[c], 2 if d in signs else 1)
    return Header("clip", 0, 0)


def is_remark(line):
    stripped = line.lstrip(b" ")
    return stripped == b"" or (stripped[0] == 35 and stripped != line)


class Lines:
    """The lines of a text from a place on: each is what stands up to a line feed, the last one what stands behind."""

    def __init__(self, text, i):
        self.text, self.i = text, i

    def line(self):
        end = self.text.find(b"\n", self.i)
        return self.text[self.i:] if end < 0 else self.text[self.i:end]

    def is_last(self):
        return self.text.find(b"\n", self.i) < 0

    def later(self):
        return Lines(self.text, self.text.find(b"\n", self.i) + 1)


def found_indent(widest, lines):
    while is_spaces(lines.line()) and not lines.is_last():
        widest = max(widest, len(lines.line()))
        lines = lines.later()
    line = lines.line()
    return None if at(line, spaces(line)) == 9 else max(widest, spaces(line))


def joined(folds, last, now, empty):
    if last == "no_row":
        return b"\n" * empty
    if folds and last == now == "flat":
        return folded(empty + 1)
    return b"\n" + b"\n" * empty


def chomped(chomping, row, empty):
    ended = b"" if row == "no_row" else b"\n"
    return {"strip": b"", "clip": ended, "keep": ended + b"\n" * empty}[chomping]


def rows(folds, chomping, indent, lines):
    said, last, empty = [], "no_row", 0
    while True:
        line, is_last = lines.line(), lines.is_last()
        content = line[indent:]
        now = "deep" if is_blank(at(content, 0)) else "flat"
        if is_spaces(line) and len(line) <= indent and not is_last:
            empty += 1
        elif spaces(line) < indent or len(line) <= indent:
            return lines.i, b"".join(said) + chomped(chomping, last, empty)
        else:
            said += [joined(folds, last, now, empty), content]
            if is_last:
                return len(lines.text), b"".join(said)
            last, empty = now, 0
        lines = lines.later()


def block_at(text, least, i):
    if at(text, i) not in (124, 62):
        return None
    header = header_of(text, i + 1)
    lines = Lines(text, i + 1 + header.size)
    if not is_remark(lines.line()):
        return None
    if lines.is_last():
        return len(text), b""
    lines = lines.later()
    indent = found_indent(max(least, 1), lines) if header.step == 0 else max(least - 1, 0) + header.step
    return None if indent is None else rows(text[i] == 62, header.chomping, indent, lines)


# ---- Names

NAME = frozenset(b"0123456789abcdefghijklmnopqrstuvwxyzABCDEFGHIJKLMNOPQRSTUVWXYZ-_")
TAG = NAME | frozenset(b";/?:@&=+$.~*'()%")
WHOLE_TAG = TAG | frozenset(b",[]!")

Names = collections.namedtuple("Names", "anchor tag")
UNNAMED = Names(None, None)


def run_end(among, text, i):
    while i < len(text) and text[i] in among:
        i += 1
    return i


def name_end(text, flow, i):
    end = run_end(NAME, text, i)
    c = at(text, end)
    ends = is_gap(c) or (flow and c in b",]}") or (c == 58 and is_gap(at(text, end + 1)))
    return end if end > i and ends else None


def decoded(text):
    out, i = bytearray(), 0
    while i < len(text):
        if text[i] == 37:
            digits = [digit_value(c) for c in text[i + 1:i + 3]]
            if len(digits) < 2 or max(digits) >= 16:
                return None
            out.append(16 * digits[0] + digits[1])
            i += 3
        else:
            out.append(text[i])
            i += 1
    return bytes(out)


def tag_of(prefix, text):
    text = decoded(text)
    if text is None or 0 in text:
        return None
    try:
        text.decode()
    except UnicodeDecodeError:
        return None
    return prefix + text


def tag_at(text, flow, i):
    handle = {60: "verbatim", 33: "core"}.get(at(text, i + 1), "local")
    start = i + (1 if handle == "local" else 2)
    stop = run_end(WHOLE_TAG if handle == "verbatim" else TAG, text, start)
    end = stop + (handle == "verbatim")
    if handle != "local" and start == stop:
        return None
    if handle == "verbatim" and at(text, stop) != 62:
        return None
    if not (is_gap(at(text, end)) or (flow and at(text, end) == 44)):
        return None
    prefix = {"verbatim": b"", "core": b"tag:yaml.org,2002:", "local": b"!"}[handle]
    tag = tag_of(prefix, text[start:stop])
    return None if tag is None else (tag, end)


def one_name(text, flow, names, i):
    place = run_end(b" ", text, i)
    if at(text, place) == 38 and names.anchor is None:
        end = name_end(text, flow, place + 1)
        return None if end is None else (Names(text[place + 1:end], names.tag), end)
    if at(text, place) == 33 and names.tag is None:
        tag = tag_at(text, flow, place)
        return None if tag is None else (Names(names.anchor, tag[0]), tag[1])
    return names, i


def names_at(text, flow, i):
    one = one_name(text, flow, UNNAMED, i)
    return None if one is None else one_name(text, flow, *one)
