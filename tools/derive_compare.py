#!/usr/bin/env python3
"""Compares what types with derives hold of texts with what serde_yaml 0.9.34 makes of them, row by row.

usage: derive_compare.py THEIRS rows FILE            the rows of a file, as crates/derived_case/stdin
       derive_compare.py THEIRS random SEED COUNT    random rows
       derive_compare.py THEIRS more SEED COUNT      random rows of floats, values of any kind, and merge keys
       derive_compare.py THEIRS single SEED COUNT    random rows of variants that are mappings of one entry
       add OURS.. behind `--` to name our program, as crates/derived_case/out/derived_case: else it is `rt try` in
       crates/derived_case, which proves nothing, and takes some 5,000 rows at a time

THEIRS is the program of tools/derived, built by `cargo build --release` there. Both programs read rows and print each
with its answer. Answers that differ as docs/DIFFERENCES.md says count as listed. Prints the first other ones, then how
many are listed of each kind, and in the last line how many were the same, listed, left out, and how many differ. Status
0 only if none differs. Left out are rows at which the other program panics, and those of types that ours does not have,
as `Singletons<Choice>` and `Singletons<Weather>`, which a copy of `answer_as_singletons` in derived_case can be given.
"""

import math
import os
import random
import re
import subprocess
import sys

HERE = os.path.dirname(os.path.abspath(__file__))
SHOWN = 40

# --- random texts, mostly such as the type can be read of


class Texts:
    def __init__(self, seed):
        self.random = random.Random(seed)
        self.anchors = 0

    def often(self, share):
        return self.random.random() < share

    def pick(self, *choices):
        return self.random.choice(choices)

    def word(self):
        return self.pick("a", "web", "true", "False", "null", "~", "12", "-3", "0x1F", "1.5", "01", "''", "'true'", "'7'",
                         '"a b"', '"a\\\\tb"', "'it''s'", "a b", ".inf", "ö", "''", "!!str 1", "!!int 7", "!!null ''",
                         "!a b", "!!bool yes", "+1", "0o17", "1e3")

    def number(self, low, high):
        near = self.pick(low, high, 0, 1, 7, low - 1, high + 1, self.random.randint(low, high))
        if near >= 0 and self.often(0.1):
            return self.pick("0x%X" % near, "0o%o" % near, "0b" + bin(near)[2:], "+%d" % near)
        return "'%d'" % near if self.often(0.03) else str(near)

    def float(self):
        """A text of a float, or of what is near to one."""
        kind = self.random.random()
        if kind < 0.15:
            return self.pick(".inf", "-.inf", "+.Inf", ".INF", ".nan", ".NaN", "-.nan", ".Nan", "inf", "nan", "+.inf")
        if kind < 0.3:
            return self.pick("12", "-3", "0x10", "0o7", "1_000.5", "'1.5'", "!!float 3", "!!str 1.5", "!!int 1", "-0", "+1",
                             "1.", ".5", "00.5", "0.1", "~", "", "true", "16777217", "12345678901234567890123")
        digits = "".join(self.pick(*"0123456789") for _ in range(self.random.randint(1, self.pick(3, 9, 17, 30))))
        point = self.random.randint(0, len(digits))
        text = self.pick("", "", "-", "+") + digits[:point] + (self.pick(".", "") + digits[point:])
        if self.often(0.4):
            text += self.pick("e", "E") + self.pick("", "+", "-") + str(self.random.randint(0, self.pick(5, 40, 400)))
        return text

    def pairs(self, depth):
        """The entries of a mapping with merge keys, which name what stands before them."""
        keys = self.random.sample(["attempts", "delay", "label", "x", "'y'"], self.random.randint(0, 3))
        entries = []
        for key in keys:
            entries.append("%s: %s" % (key, self.word() if key == "label" else self.number(0, 255)))
        if self.often(0.6):
            entries.insert(self.random.randint(0, len(entries)), "<<: " + self.merged(depth))
        return "{%s}" % ", ".join(entries)

    def merged(self, depth):
        """What stands at a merge key."""
        if self.often(0.04):
            return self.pick("1", "~", "a", "[1]", "[[]]", "!t {a: 1}", "[!t {}]", "*none")
        if self.anchors and self.often(0.7):
            one = "*m%d" % self.random.randint(1, self.anchors)
        else:
            one = self.pairs(depth + 1) if depth < 3 else "{attempts: 1}"
        if self.often(0.3):
            return "[%s]" % ", ".join([one] + ["{delay: %s}" % self.number(0, 255)] * self.random.randint(0, 2))
        return one

    def merging(self, name):
        """A text of which merge keys are applied before it is read."""
        self.anchors = 0
        retries = []
        for at in range(self.random.randint(1, 4)):
            made = self.pairs(0)
            if self.often(0.7):
                made = "&m%d %s" % (self.anchors + 1, made)
                self.anchors += 1
            retries.append(made)
        if name == "apply:Retry":
            return "{<<: [%s], delay: 1}" % ", ".join(retries)
        if name == "apply:Vec<Retry>":
            return "[%s]" % ", ".join(retries)
        if name == "apply:Plan":
            return "jobs: {%s}" % ", ".join("%s: %s" % (letter, made) for letter, made in zip("abcd", retries))
        if name == "apply:BTreeMap<i64,bool>":
            one = "{1: true, <<: {2: false, 1: false}}"
            return self.pick(one, "{<<: [{%s: true}, %s], 3: false}" % (self.number(-5, 5), one), "{<<: %s}" % one)
        maps = [re.sub(r"label: [^,}]*", "label: 1", made) for made in retries]
        return "{%s}" % ", ".join("%s: %s" % (letter, made) for letter, made in zip("abcd", maps))

    def any(self, depth):
        kind = self.random.random()
        if depth > 2 or kind < 0.6:
            return self.word()
        parts = [self.any(depth + 1) for _ in range(self.random.randint(0, 3))]
        if kind < 0.8:
            return "[%s]" % ", ".join(parts)
        return "{%s}" % ", ".join("%s: %s" % (self.pick("a", "b", "r", "c", "1"), part) for part in parts)

    def entries(self, fields, depth):
        chosen = []
        for names, make in fields:
            if self.often(0.93):
                chosen.append((self.pick(*names), make(depth + 1)))
        if self.often(0.08) and chosen:
            chosen.append(self.pick(*chosen))
        if self.often(0.12):
            chosen.append((self.pick("x", "other", "1", "~"), self.any(depth + 1)))
        if self.often(0.5):
            self.random.shuffle(chosen)
        return "{%s}" % ", ".join("%s: %s" % pair for pair in chosen)

    def list(self, makers, depth):
        parts = [make(depth + 1) for make in makers]
        if self.often(0.1):
            parts = parts[:-1] if self.often(0.5) else parts + [self.any(depth + 1)]
        return "[%s]" % ", ".join(parts)

    def of(self, name, depth=0):
        """A text of a type, or of another now and then, perhaps with an anchor."""
        if self.often(0.06):
            return self.any(depth)
        text = self.fitting(name, depth)
        if depth and not text.startswith(("!", "&", "*")) and self.often(0.05):
            return "&a " + text
        return "*a" if depth and self.often(0.02) else text

    def variant(self, name, depth, inner=None):
        """A text of an enum, a variant of which is a mapping of one entry, perhaps with another one."""
        part = (lambda: self.of("Figure", depth + 1)) if inner else (lambda: self.singleton("Figure", depth + 1))
        if name == "Figure":
            made = [("Dot", None), ("none", None), ("Circle", self.entries([(("r",), lambda _: str(self.number(0, 255)))], 0)),
                    ("Line", self.list([lambda deeper: self.of("i8", deeper)] * 2, depth)), ("Label", self.word())]
        elif name == "Deed":
            made = [("Rest", None), ("Draw", part()), ("Each", "[%s]" % ", ".join(part() for _ in range(self.pick(0, 1, 2)))),
                    ("Move", "{what: %s, by: %s}" % (part(), self.of("Option<u8>", depth + 1))),
                    ("Swap", "[%s]" % ", ".join(part() for _ in range(self.pick(2, 2, 2, 1, 3))))]
        elif name == "Size":
            made = [("any", None), ("exact", self.float()),
                    ("range", self.entries([(("low",), lambda _: self.float()), (("high",), lambda _: self.float())], 0))]
        else:
            made = [("Any", self.any(depth)), ("Pairs", "{pairs: %s, size: %s}" % (self.of("Mapping", depth), self.float()))]
        word, content = self.pick(*made)
        if self.often(0.04):
            word = self.pick("Square", "'Dot'", "true", "12", "~", "[Label]", "&k Label", "''")
        kind = self.random.random()
        if kind < 0.03:
            return "!%s %s" % (word, content or "")
        if content is None and kind < 0.97 or kind > 0.99:
            return word
        if kind < 0.05:
            return self.pick("{}", "[%s]" % word, "{%s: %s, Dot: ~}" % (word, content), "{%s: 1, %s: 2}" % (word, word))
        return "{%s: %s}" % (word, content or "~")

    def singleton(self, name, depth):
        """A text of a type, each variant in which is a mapping of one entry."""
        if depth and self.often(0.03):
            return self.pick("*a", self.any(depth))
        if name.startswith("Vec<"):
            parts = [self.singleton(name[4:-1], depth + 1) for _ in range(self.random.randint(0, 3))]
            return "[%s]" % ", ".join("&a " + part if self.often(0.05) and part[0] not in "&*!" else part for part in parts)
        if name.startswith("BTreeMap"):
            keys = self.random.sample(["a", "Rest", "b", "1"], self.random.randint(0, 3))
            return "{%s}" % ", ".join("%s: %s" % (key, self.singleton(name[16:-1], depth + 1)) for key in keys)
        if name.startswith("Option<"):
            return self.pick("~", "", *[self.singleton(name[7:-1], depth)] * 6)
        if name == "Weather":
            return self.entries([(("wind",), lambda _: self.float()), (("size",), lambda _: self.variant("Size", depth + 1))],
                                depth)
        return self.variant(name, depth)

    def fitting(self, name, depth):
        to = lambda other: lambda deeper: self.of(other, deeper)
        number = re.fullmatch(r"([iu])(\d+)", name)
        if number:
            bits = int(number.group(2))
            return self.number(*((0, 2**bits - 1) if number.group(1) == "u" else (-(2 ** (bits - 1)), 2 ** (bits - 1) - 1)))
        if name in ("f32", "f64"):
            return self.float()
        if name.startswith("apply:"):
            return self.merging(name)
        if name == "Value":
            return self.pick(self.any(depth), self.any(depth), self.float(), self.number(-(2**63), 2**64 - 1))
        if name == "Option<Value>":
            return self.pick("~", self.of("Value", depth))
        if name == "Vec<Value>":
            return self.list([to("Value")] * self.random.randint(0, 4), depth)
        if name == "Mapping" or name == "BTreeMap<String,Value>":
            return self.entries([(("a", "b", "1", "c", "'x'", "1.5"), to("Value"))] * self.random.randint(0, 4), depth)
        if name == "Number":
            return self.pick(self.float(), self.number(-(2**63), 2**64 - 1))
        if name == "Weather":
            return self.entries([(("wind",), to("f64")), (("rain",), to("f32")), (("size",), to("Size")), (("hours",),
                                 lambda deeper: self.list([to("f64")] * self.random.randint(0, 3), deeper))], depth)
        if name == "Size":
            return self.pick("any", "!exact " + self.float(), "~", "exact",
                             "!range " + self.entries([(("low",), to("f64")), (("high",), to("f64"))], depth))
        if name == "Parcel":
            return self.entries([(("name",), to("text")), (("given",), to("Value")), (("more",), to("Option<Value>"))],
                                depth)
        if name == "Task":
            return self.entries([(("runs-on",), to("text")), (("with", "env", "if"), to("Value")), (("steps",),
                                 lambda deeper: self.list([to("Mapping")] * self.random.randint(0, 3), deeper))], depth)
        if name == "Sign":
            return self.entries([(("text",), to("text")), (("row",), to("u8")), (("a", "b", "c"), to("Value"))], depth)
        if name == "Either":
            return self.pick(self.of("u8", depth), self.of("Value", depth))
        if name == "Choice":
            return self.pick("!Any " + self.any(depth), "!Pairs " + self.entries(
                [(("pairs",), to("Mapping")), (("size",), to("Number"))], depth), "Any", "!Some 1")
        if name.startswith("Singletons<"):
            return self.singleton(name[11:-1], depth)
        if name == "Drawing":
            return self.entries([(("first",), lambda deeper: self.variant("Deed", deeper, "Figure")),
                                 (("next",), lambda deeper: self.pick("~", self.singleton("Figure", deeper))),
                                 (("others",), lambda deeper: self.singleton("Vec<Deed>", deeper)),
                                 (("tagged",), to("Vec<Figure>"))], depth)
        if name == "text":
            return self.word()
        if name == "bool":
            return self.pick("true", "false", "True", "FALSE", "yes", "'true'", "!!bool true", "!x true")
        if name == "char":
            return self.pick("a", "ö", "1", "~", "ab", "' '", "''")
        if name == "()":
            return self.pick("~", "", "null", "''", "NULL", "{}", "!!null ''", "!a")
        if name == "Option<u8>":
            return self.pick("~", "null", "", "!!null ~", self.number(0, 255))
        if name in ("String", "&str", "CowStr"):
            return self.word()
        if name == "Vec<u8>":
            return self.pick(self.list([to("u8")] * self.random.randint(0, 4), depth), "")
        if name == "(u8,bool)":
            return self.list([to("u8"), to("bool")], depth)
        if name == "BTreeMap<String,u8>":
            return self.entries([(("a", "b", "1", "~", "'x'"), to("u8"))] * self.random.randint(0, 3), depth)
        if name.startswith("Service"):
            return self.entries([(("name",), to("text")), (("listen",), to("Listen")),
                                 (("maxJobs", "maxJobs", "max_jobs"), to("u32")), (("label",), to("text"))], depth)
        if name == "Listen":
            return self.pick("any", "!any", "port", "!port " + self.of("u16", depth), "!port " + self.of("u16", depth),
                             "!socket " + self.entries([(("path",), to("text"))], depth), "!Port 1", "none")
        if name.startswith("Person"):
            return self.entries([(("name",), to("text"))], depth)
        if name == "Note":
            return self.entries([(("text",), to("text"))], depth)
        if name == "Setting":
            return self.entries([(("on", "enabled", "on", "is-on"), to("bool")), (("port",), to("u16")),
                                 (("back-colour",), to("colour")), (("seen",), to("bool"))][:self.pick(3, 3, 4)], depth)
        if name == "colour":
            return self.pick("ff0000", "'000080'", "red", "0c", "12", "true", "7fffffff", "fffffffff")
        if name == "Window":
            return self.entries([(("FULL_WIDTH", "full_width"), to("u16")), (("HEIGHT",), to("u16"))], depth)
        if name == "Mark":
            return self.entries([(("name",), to("text")), (("row",), to("u16")), (("column",), to("u16"))], depth)
        if name == "Figure":
            return self.pick("Dot", "!Dot", "none", "nothing", "!Circle " + self.entries([(("r",), to("u8"))], depth),
                             "!Line " + self.list([to("i8"), to("i8")], depth), "!Label " + self.word(), "!none ~",
                             "Circle", "!Square 1", "{Circle: {r: 1}}", "!Label", "!Line []", "!Circle")
        if name == "Vec<Figure>":
            return self.list([to("Figure")] * self.random.randint(1, 4), depth)
        if name == "Command":
            return self.entries([(("kind",), lambda _: self.pick("stop", "go_to", "go_to", "wait", "Stop", "[a]", "'stop'")),
                                 (("line",), to("u8"))], depth)
        if name == "Step":
            return self.entries([(("t",), lambda _: self.pick("Stay", "Go", "Jump", "Walk")),
                                 (("c",), lambda deeper: self.pick(self.of("i8", deeper), "~",
                                                                   self.entries([(("over",), to("u8"))], deeper)))], depth)
        if name == "Scalar":
            return self.pick(self.of("bool", depth), self.of("i64", depth), self.word(), self.of("Vec<u8>", depth),
                             self.entries([(("left",), to("u8")), (("right",), to("u8"))], depth))
        if name == "Vec<Scalar>":
            return self.list([to("Scalar")] * self.random.randint(0, 6), depth)
        if name == "BTreeMap<String,Scalar>":
            return self.entries([(("a", "b", "1", "~", "'x'"), to("Scalar"))] * self.random.randint(0, 3), depth)
        if name == "Nest":
            return "[%s]" % ", ".join(self.of("Nest", depth + 1) for _ in range(self.random.randint(0, 3 - min(depth, 3))))
        if name == "Passed":
            return self.entries([(("nest",), to("Nest"))], depth)
        if name == "Metres":
            return self.of("u32", depth)
        if name == "Nothing":
            return self.of("()", depth)
        if name == "Pair":
            return self.list([to("i8"), to("u16")], depth)
        if name.startswith("Ends"):
            return self.entries([((end,), to(name[5:-1])) for end in ("from", "to")], depth)
        if name == "Option<Pair>":
            return self.pick("~", self.of("Pair", depth))
        if name == "Percent":
            return self.number(0, 100)
        raise ValueError(name)


NAMES = """bool i8 u8 i64 u64 i128 u128 char () String &str CowStr Option<u8> Vec<u8> (u8,bool) BTreeMap<String,u8>
Service Service/slice Service/events Person Person/documents Note Setting Window Mark Figure Vec<Figure> Command Step
Scalar Vec<Scalar> BTreeMap<String,Scalar> Nest Passed Metres Nothing Pair Ends<i8> Ends<Option<Pair>> Percent""".split()
# Types with floats, parts of any kind, and merge keys.
MORE = """f32 f64 Weather Value Vec<Value> Option<Value> Mapping Number Parcel Task Sign Either Choice BTreeMap<String,Value>
apply:Retry apply:Vec<Retry> apply:Plan apply:BTreeMap<i64,bool> apply:BTreeMap<String,BTreeMap<String,u8>>""".split()
# Types with variants that are mappings of one entry.
SINGLETONS = """Drawing Singletons<Vec<Figure>> Singletons<Deed> Singletons<BTreeMap<String,Option<Deed>>> Singletons<Choice>
Singletons<Weather>""".split()
WEIGHED = NAMES + "Service Setting Mark Figure Vec<Figure> Command Step Scalar".split() * 3
NAMES_OF = {"random": WEIGHED, "more": MORE, "single": SINGLETONS}


def quoted(text):
    out = []
    for letter in text:
        out.append({"\n": "\\n", '"': '\\"', "\\": "\\\\"}.get(letter, letter))
    return '"%s"' % "".join(out)


def unquoted(text):
    return re.sub(r"\\(.)", lambda match: {"n": "\n"}.get(match.group(1), match.group(1)), text[1:-1])


def random_rows(seed, count, names):
    texts = Texts(seed)
    rows = []
    for _ in range(count):
        name = texts.pick(*names)
        text = texts.of(name).replace("\\\\", "\\")
        if texts.often(0.5):
            text = "\n" + text
        if name.endswith("/documents"):
            text = "\n---\n".join([text] + [texts.of(name) for _ in range(texts.random.randint(0, 2))])
        rows.append("%s %s" % (name, quoted(text)))
    return rows


# --- answers


def answers(command, rows, folder):
    text = "".join(row + "\n" for row in rows)
    done = subprocess.run(command, input=text.encode(), stdout=subprocess.PIPE, stderr=subprocess.DEVNULL, cwd=folder)
    lines = done.stdout.decode().split("\n")
    return [line.split("  => ", 1)[-1] for line in lines[: len(rows)]]


PLACE = re.compile(r" at line \d+ column \d+$")
WAY = re.compile(r"^! (\S*): (?=invalid|unknown|missing|duplicate|no [hm]|more than|data did|deserializing)")
EXPECTED = [
    (r"floating point `[^`]*`", "floating point"),
    (r"(invalid value: integer `-?\d+`, expected) [iu](8|16|32|64)\b", r"\1 a number in the range of its type"),
    (r"expected u(8|16|32)\b", "expected u64"),
    (r"expected i(8|16|32)\b", "expected i64"),
    (r"expected (struct|struct variant|internally tagged enum|adjacently tagged enum) [A-Z][\w:]*", "expected a map"),
    (r"(invalid length \d+), expected .*? (with 2 elements|of size \d+|of length 2)", r"\1, expected another length"),
    (r"(invalid length \d+), expected sequence of \d+ elements?", r"\1, expected another length"),
    (r"expected (tuple (struct|variant) [A-Z][\w:]*|a tuple of size \d+)", "expected a sequence"),
    (r"expected (unit struct Nothing|unit variant [A-Z][\w:]*)", "expected unit"),
    (r"expected (struct|tuple|newtype) variant\b", "expected variant with content"),
    (r"untagged enum [A-Z]\w*", "untagged enum"),
    (r"expected variant identifier", "expected field identifier"),
    (r"expected a borrowed string", "expected a string"),
    (r"expected a number(?! in)", "expected f64"),
    (r"expected a YAML mapping", "expected a map"),
    (r"missing field `back-colour`", "missing field `back_colour`"),
    (r"duplicate field `(enabled|is-on)`", "duplicate field `on`"),
]
# Floats, parts of any kind and merge keys: what docs/DIFFERENCES.md lists of them.
FLOATS = {"f32", "f64", "Weather", "Singletons<Weather>"}
VALUES = {"Value", "Vec<Value>", "Option<Value>", "Mapping", "Number", "Parcel", "Task", "Sign", "Either", "Choice",
          "BTreeMap<String,Value>", "Singletons<Choice>"}
# What is copied first by the original: such a fault says how the copy read, and other faults may come before it.
COPIED = {"Mark", "Command", "Step", "Scalar", "Vec<Scalar>", "BTreeMap<String,Scalar>"}
REST = {"Task", "Sign", "Either"}


def plain(answer):
    """An answer without names of types and widths of numbers."""
    for pattern, to in EXPECTED:
        answer = re.sub(pattern, to, answer)
    if "! " in answer:
        answer = re.sub(r"(\\+x[0-9a-f]{2}|\\+u\{[0-9a-f]+\}|\\+[nrt]|[^ -~])+", "?", answer)
    return answer


def kind(name, text, ours, theirs):
    """The kind of the difference, where docs/DIFFERENCES.md lists it, or None."""
    if name.endswith(("/documents", "/stream")):
        return kind_of_documents(name.split("/")[0], text, ours, theirs)
    if "expected a borrowed string" in theirs and not text.isascii():
        return "texts past ASCII that are lent"
    as_it_is, ours, theirs = ours, plain(ours), plain(theirs)
    if ours == theirs:
        return "names of types and widths of numbers"
    if ours.startswith("! floating point numbers are not"):
        return "floating point numbers"
    if name in COPIED:
        return kind_of_copy(name, text, ours, theirs)
    if name in FLOATS | VALUES and (found := kind_of_float(as_it_is)):
        return found
    if name in VALUES and (found := kind_of_value(name, text, ours, theirs)):
        return found
    if name.startswith("apply:"):
        return kind_of_merge(text, ours, theirs)
    if name in SINGLETONS and (found := kind_of_singleton(ours, theirs)):
        return found
    if ours.startswith("! ") and theirs.startswith("! ") and (MISFIT.search(ours + theirs) or "!!float '" in text):
        return "core tags that their texts do not fit"
    if ours.startswith("! ") and "invalid length" in ours and re.search("unknown anchor|did not find expected", theirs):
        return "lengths in a document that is cut off"
    if "Figure" in name and MISFIT.search(ours) and not theirs.startswith("! "):
        return "core tags that their texts do not fit"
    if not (ours.startswith("! ") and theirs.startswith("! ")):
        return None
    our_way, their_way = WAY.match(ours), WAY.match(theirs)
    around = their_way.group(1) if their_way else ""
    if around and not (our_way and our_way.group(1).startswith(around)):
        return None
    if WAY.sub("! ", PLACE.sub("", ours)) == WAY.sub("! ", PLACE.sub("", theirs)):
        return "places and ways of faults"
    return None


def kind_of_documents(name, text, ours, theirs):
    """The same for documents that are read in turn."""
    # theirs goes on with the parser's fault without end
    told, more = plain(ours)[:-1], plain(theirs)
    read, more = more[: len(told)], more[len(told) :].split("--- ")[1:]
    if told == read and len(more) > 1 and more[0].startswith("! ") and len(set(more[:-1])) == 1:
        return "parser's faults without end"
    found = None
    for our, their in zip(ours[1:-1].split("--- "), theirs[1:-1].split("--- ")):
        if our != their:
            found = kind(name, text, *(one.replace("\\n", "") if "! " in one else '"%s"' % one for one in (our, their)))
            if not found:
                return None
        if "unknown anchor" in our:
            # theirs begins the next document amid the one that failed
            return "documents behind an unknown anchor"
    return found


def kind_of_copy(name, text, ours, theirs):
    """The same for types of which theirs reads a copy, by kinds, where ours reads texts."""
    if theirs.startswith("! "):
        # theirs tells the faults of a copy last
        return "faults of what is copied"
    if "!!str" in text:
        return "texts of `!!str` in what is copied"
    if re.search(r"[{,]\s*[\d-]\w*:", text) or re.search(r"^[\d-]\w*:", text, re.M):
        return "keys that are numbers in what is copied"
    if name == "Command" and ours.startswith("! ") and "[" in text:
        return "enums with a tag that are sequences"
    return None


def loose(answer):
    """An answer with bare keys and floats, and null as it may stand."""
    return QUOTED_FLOAT.sub(r"\1", QUOTED_KEY.sub(r"\1:", answer)).replace("~:", "null:")


def is_beyond(text, bits):
    """Whether a text is a float past the greatest of its size."""
    try:
        return abs(float(text)) >= (2.0**128 * (1 - 2.0**-25) if bits == "32" else math.inf)
    except ValueError:
        return False


BEYOND = re.compile(r"floating point `([^`]+)`, expected f(32|64)")
QUOTED_FLOAT = re.compile(r"'([-+]?[\d.]+[eE][-+]?\d+)'")
QUOTED_KEY = re.compile(r"'([-+.\w~]*)':")
MISFIT = re.compile(r'invalid value: string "[^"]*", expected (null|a boolean|an integer|a float)')
TAGGED_NUMBER = re.compile(r"! (size: )?invalid type: (enum|Option)\b.*, expected f64")
QUOTED_NUMBER = re.compile(r'! (?:\S+: )?invalid type: string "(-?\d+)", expected i64')
LABEL = re.compile(r"label: .*?\\n")


def kind_of_float(ours):
    """The same for types with floats."""
    found = BEYOND.search(ours)
    return "floats beyond the range" if found and is_beyond(*found.groups()) else None


def kind_of_singleton(ours, theirs):
    """The same for types with variants that are mappings of one entry."""
    if "expected map with a single key" in ours and "expected map containing 1 entry" in theirs:
        return "an entry too many behind a variant of several parts"
    if "invalid type: enum, expected enum" in theirs:
        return "variants by tags where they are mappings"
    if "invalid type: map, expected unit variant" in theirs:
        return "variants without content that are mappings"
    if re.search("invalid type: .*, expected enum [A-Z]", theirs):
        return "what is no mapping and no text where a variant is"
    return None


def kind_of_merge(text, ours, theirs):
    """The same for what is read once merge keys are applied, of a value there."""
    if ours.startswith("! ") and theirs.startswith("! "):
        return "faults once merge keys are applied"
    quoted_key = QUOTED_NUMBER.match(theirs)
    if quoted_key and re.search(r"[{ ]%s:" % quoted_key.group(1), text) and "'%s':" % quoted_key.group(1) in text:
        # ours does not merge a key that stands there without quotes
        return "keys that are the same by their texts"
    if MISFIT.search(theirs) or "duplicate entry" in theirs or LABEL.sub("", ours) == LABEL.sub("", theirs):
        return "what is a value first"
    return None


def kind_of_value(name, text, ours, theirs):
    """The same for types with parts of any kind."""
    if name in ("Number", "Choice") and TAGGED_NUMBER.match(theirs) and not TAGGED_NUMBER.match(ours):
        return "numbers under a local tag"
    if name in REST and re.search("!!(str|float)", text):
        return "texts of `!!str` and `!!float` in what is copied"
    if re.search(r"integer `-?\d+` as [iu]128, expected", theirs):
        return "integers past 64 bits"
    if ours.startswith('"') and QUOTED_FLOAT.sub(r"\1", ours) == QUOTED_FLOAT.sub(r"\1", theirs):
        return "floats beyond the range"
    if name not in REST:
        return None
    if theirs.startswith("! "):
        return "faults of what is copied"
    if ours.startswith('"') and loose(ours) == loose(theirs):
        return "keys that are no texts in what is copied"
    return None


def main():
    words = sys.argv[1:]
    ours = ["rt", "try"]
    if "--" in words:
        ours = words[words.index("--") + 1 :]
        words = words[: words.index("--")]
    if len(words) == 3 and words[1] == "rows":
        with open(words[2]) as file:
            rows = [line.rstrip("\n") for line in file if line.strip() and not line.startswith("#")]
    elif len(words) == 4 and words[1] in NAMES_OF:
        rows = random_rows(int(words[2]), int(words[3]), NAMES_OF[words[1]])
    else:
        sys.exit(__doc__)
    theirs = answers([words[0]], rows, None)
    ours = answers(ours, rows, None if "--" in sys.argv else os.path.join(HERE, "..", "crates", "derived_case"))
    if len(ours) != len(rows) or len(theirs) != len(rows):
        sys.exit("a program did not answer each row")
    counts = {"same": 0, "listed": 0, "left out": 0, "different": 0}
    kinds = {}
    for row, our, their in zip(rows, ours, theirs):
        name, text = row.split(" ", 1)
        if our == their:
            counts["same"] += 1
        elif their == "panic" or our == "! no such type":
            counts["left out"] += 1
        elif found := kind(name, unquoted(text), our, their):
            counts["listed"] += 1
            kinds[found] = kinds.get(found, 0) + 1
        else:
            counts["different"] += 1
            if counts["different"] <= SHOWN:
                print("%s\n  ours   %s\n  theirs %s" % (row, our, their))
    for found, count in sorted(kinds.items(), key=lambda pair: -pair[1]):
        print("%7d listed: %s" % (count, found))
    print(", ".join("%d %s" % (count, what) for what, count in counts.items()))
    sys.exit(counts["different"] > 0)


if __name__ == "__main__":
    main()
