#!/usr/bin/env python3
"""Compares the floats of `yaml_float` with those of the C library: of texts, and the texts of floats.

usage: compare_floats.py SIZE SEED COUNT [PROGRAM]

COUNT texts are read as `f32` or `f64`, as SIZE says, and as many floats are printed. PROGRAM is one that an earlier run
made, by `KEEP=FILE compare_floats.py ..`; else `rt` proves and builds it of float_lines.rt.in beside this script,
over a copy of the crate, which takes some minutes. floats_libc.c is compiled by `cc`.

Which text is a float is asked of a grammar here, which decimal is which float of strtof and strtod. A text beyond the
range is none. A printed text has to be the one that floats_libc.c makes of the bits: the shortest digits that strtof or
strtod read back, of those the nearest, in ryu's layout. Each pattern of NaN is printed as that of std.

Prints the shortest inputs of those that differ, and a line for the texts and one for the floats: how many were
compared, how many were floats, how many differ, and of `f32` how many are another float by way of `f64`, as the
original goes. Status 0 only if none differs.
"""

import os
import random
import re
import struct
import subprocess
import sys
import tempfile

HERE = os.path.dirname(os.path.abspath(__file__))
BATCH = 100000
SHOWN = 10

DECIMAL = re.compile(rb"[+-]?([0-9]+\.?[0-9]*|\.[0-9]+)([eE][+-]?[0-9]+)?")
INFINITY = re.compile(rb"\+?\.(inf|Inf|INF)")
MINUS_INFINITY = re.compile(rb"-\.(inf|Inf|INF)")
NO_NUMBER = re.compile(rb"\.(nan|NaN|NAN)")

PIECES = (
    [b"1", b"0", b"9", b"5", b".", b"e", b"E", b"-", b"+", b"inf", b".inf", b".Inf", b".INF", b".nan", b".NaN", b".NAN"]
    + [b"nan", b"NaN", b"infinity", b"Infinity", b"_", b"00", b"123456789", b"e308", b"e-324", b"e400", b"e38", b"e-45"]
    + [b" ", b"x", b"0x", b"0o", b",", b"f", b"\t", b"\r", b"\0", b"\xc3\xa9", b"\xff", b"1.5", b"e+", b"E-", b".iNF"]
)
# Decimals whose exponents or zeros go far.
FAR = ["0", "00", "0.0", ".0", "0.", "0e0", "0e99999", "0e-99999", "0e99999999999999999999", "1e99999999999999999999"]
FAR += ["1e-99999999999999999999", "1e18446744073709551616", "1e-18446744073709551617", "1e4294967297", "1e2147483648"]
FAR += ["0." + "0" * 400 + "1e401", "1" + "0" * 400 + "e-400", "0." + "0" * 1100 + "1", "1" + "0" * 1100, "9" * 400]
FIVES = [5**power for power in range(1200)]


class Size:
    """A size of floats: its bits, those of them that are the fraction's, and the power of two of the least float."""

    def __init__(self, name, bits, fraction, least):
        self.name, self.bits, self.fraction, self.least = name, bits, fraction, least
        self.infinity = (1 << bits - 1) - (1 << fraction)
        self.digits = bits // 4

    def parts(self, bits):
        """Integers `m` and `e` of a finite float that is m * 2^e, its sign let go."""
        exponent, fraction = divmod(bits % (1 << self.bits - 1), 1 << self.fraction)
        return (fraction, self.least) if exponent == 0 else (fraction + (1 << self.fraction), self.least + exponent - 1)

    def of_number(self, number):
        """The bits of the float of a number, which is infinite beyond the range."""
        try:
            return int.from_bytes(struct.pack(">f" if self.bits == 32 else ">d", number), "big")
        except OverflowError:
            return self.infinity


SIZES = {"f32": Size("32", 32, 23, -149), "f64": Size("64", 64, 52, -1074)}


def random_finite(rand, size):
    """The bits of a float, not below zero and not infinite: any, or one near where a gap changes, or at an end."""
    kind = rand.random()
    if kind < 0.6:
        return rand.randrange(size.infinity)
    if kind < 0.75:
        return rand.getrandbits(rand.randint(1, size.fraction))
    if kind < 0.9:
        near = (rand.randrange(size.infinity >> size.fraction) << size.fraction) + rand.randint(-2, 2)
        return min(max(near, 0), size.infinity - 1)
    if kind < 0.95:
        return min(size.of_number(rand.randrange(10 ** rand.randint(1, 17)) * 10.0 ** rand.randint(-9, 5)),
                   size.infinity - 1)
    return rand.choice([0, 1, 2, size.infinity - 1, size.infinity - 2])


def random_bits(rand, size):
    """The bits of any float: all patterns alike, or one of those above, or of no finite one."""
    kind = rand.random()
    if kind < 0.6:
        return rand.getrandbits(size.bits)
    if kind < 0.98:
        return random_finite(rand, size) | rand.getrandbits(1) << size.bits - 1
    pattern = size.infinity + rand.choice([0, 0, 1, rand.getrandbits(size.fraction)])
    return pattern | rand.getrandbits(1) << size.bits - 1


def laid_out(rand, number, scale):
    """A text, as bytes, of number * 10^-scale."""
    digits = str(number)
    if rand.random() < 0.1:
        digits = "0" * rand.randint(1, 30) + digits
    if rand.random() < 0.1:
        zeros = rand.randint(1, 30)
        digits, scale = digits + "0" * zeros, scale + zeros
    sign = rand.choice(["", "", "", "-", "-", "+"])
    if rand.random() < 0.5 and abs(scale) < 1200:
        if scale <= 0:
            return (sign + digits + "0" * -scale + rand.choice(["", ".", ".0"])).encode()
        digits = digits.rjust(scale + rand.randint(0, 1), "0")
        return (sign + digits[: len(digits) - scale] + "." + digits[len(digits) - scale :]).encode()
    place = rand.choice([1, 1, len(digits), rand.randint(0, len(digits))])
    exponent = len(digits) - place - scale
    point = "." if place < len(digits) or rand.random() < 0.1 else ""
    letter = rand.choice("eE") + ("-" if exponent < 0 else rand.choice(["", "", "+"])) + rand.choice(["", "", "", "0"])
    return (sign + digits[:place] + point + digits[place:] + letter + str(abs(exponent))).encode()


def random_decimal(rand, size):
    """A decimal of any length, of which the range of floats holds most."""
    count = rand.choice([1, 2, 3, 5, 8, 9, 10, 15, 16, 17, 18, 19, 20, 21, 25, 40, rand.randint(1, 130)])
    if rand.random() < 0.01:
        count = rand.randint(300, 1000)
    number = rand.randrange(10**count)
    if rand.random() < 0.5:
        return laid_out(rand, number, rand.randint(-3, count + 3))
    low, high = (-50, 42) if size.bits == 32 else (-330, 312)
    return laid_out(rand, number, count - rand.randint(low, high))


def random_half(rand, size):
    """The number amid two neighbours, or one next to it, or its first digits."""
    whole, power = size.parts(random_finite(rand, size))
    number, power = 2 * whole + 1, power - 1
    number, scale = (number << power, 0) if power >= 0 else (number * FIVES[-power], -power)
    kind = rand.random()
    if kind < 0.4:
        return laid_out(rand, number, scale)
    if kind < 0.8:
        more = rand.choice([0, 1, 2, 20, rand.randint(0, 60)])
        return laid_out(rand, number * 10**more + rand.choice([-1, 1]), scale + more)
    digits = str(number)
    kept = min(len(digits), rand.choice([9, 17, 18, 19, 20, 21, rand.randint(1, 60), rand.randint(1, 800)]))
    return laid_out(rand, int(digits[:kept]) + rand.randint(0, 1), scale - (len(digits) - kept))


def random_near(rand, size):
    """Such digits as a float is printed with, or one more of the last."""
    whole, power = size.parts(random_finite(rand, size))
    digits, exponent = ("%.*e" % (rand.choice([7, 8]) if size.bits == 32 else rand.choice([15, 16]),
                                  whole * 2.0**power)).split("e")
    number = int(digits.replace(".", "")) + rand.choice([0, 0, -1, 1])
    return laid_out(rand, number, len(digits) - 2 - int(exponent))


def changed(rand, text):
    """The text with a letter more, less, or another."""
    place = rand.randint(0, len(text))
    return text[:place] + rand.choice([b"", rand.choice(PIECES)]) + text[place + rand.randint(0, 1) :]


def random_text(rand, size):
    kind = rand.random()
    if kind < 0.3:
        return random_decimal(rand, size)
    if kind < 0.65:
        return random_half(rand, size)
    if kind < 0.8:
        return random_near(rand, size)
    if kind < 0.89:
        return b"".join(rand.choice(PIECES) for _ in range(rand.randint(0, 6)))
    if kind < 0.9:
        return (rand.choice(["", "-", "+", "--", "+-", "-+", "++"]) + rand.choice(FAR)).encode()
    return changed(rand, rand.choice([random_decimal, random_near])(rand, size))


def answers(program, lines):
    """The lines that a program answers."""
    out = subprocess.run([program], input=b"".join(lines), stdout=subprocess.PIPE, check=True).stdout
    answered = out.split(b"\n")[:-1]
    if len(answered) != len(lines):
        sys.exit("%s did not answer each line" % program)
    return answered


def word_bits(size, text):
    """The answer to a text that is no decimal."""
    if INFINITY.fullmatch(text):
        return b"%0*x" % (size.digits, size.infinity)
    if MINUS_INFINITY.fullmatch(text):
        return b"%0*x" % (size.digits, size.infinity | 1 << size.bits - 1)
    return b"nan" if NO_NUMBER.fullmatch(text) else b"-"


class Comparison:
    def __init__(self, ours, theirs, size):
        self.ours, self.theirs, self.size = ours, theirs, size
        self.compared = self.floats = self.twice = 0
        self.different = []

    def note(self, inputs, got, wanted):
        self.compared += len(inputs)
        self.different += [part for part in zip(inputs, got, wanted) if part[1] != part[2]]

    def read(self, texts):
        name = b"p%s " % self.size.name.encode()
        decimals = [name + text + b"\n" for text in texts if DECIMAL.fullmatch(text)]
        theirs = iter(answers(self.theirs, decimals))
        wanted = []
        for text in texts:
            if DECIMAL.fullmatch(text):
                once, *twice = next(theirs).split(b" ")
                self.twice += len(twice) > 0 and once != b"-" and twice[0] != once
                wanted.append(once)
            else:
                wanted.append(word_bits(self.size, text))
        self.floats += len(texts) - wanted.count(b"-")
        self.note(texts, answers(self.ours, [name + text + b"\n" for text in texts]), wanted)

    def printed(self, patterns):
        lines = [b"w%s %0*x\n" % (self.size.name.encode(), self.size.digits, bits) for bits in patterns]
        self.floats += len(lines)
        self.note(lines, answers(self.ours, lines), answers(self.theirs, lines))

    def told(self, what):
        for text, got, wanted in sorted(self.different, key=lambda part: len(part[0]))[:SHOWN]:
            print("f%s %r: ours %s, theirs %s" % (self.size.name, text, got.decode(), wanted.decode()))
        more = ", %d another by way of f64" % self.twice if what == "texts" and self.size.bits == 32 else ""
        print("f%s: %d %s, %d of them floats, %d differ%s"
              % (self.size.name, self.compared, what, self.floats, len(self.different), more), flush=True)
        return len(self.different)


def compare(ours, theirs, size, seed, count):
    rand = random.Random("%d %s" % (seed, size.name))
    texts, floats = Comparison(ours, theirs, size), Comparison(ours, theirs, size)
    for start in range(0, count, BATCH):
        few = min(BATCH, count - start)
        texts.read([random_text(rand, size) for _ in range(few)])
        floats.printed([random_bits(rand, size) for _ in range(few)])
    return texts.told("texts") + floats.told("patterns of bits")


def build(folder):
    """Makes the program that answers lines by yaml_float."""
    script = '. "$root/bench/program.sh"; over yaml_float float_lines < "$root/tools/float_lines.rt.in"'
    words = dict(os.environ, root=os.path.dirname(HERE), room=folder)
    subprocess.run(["bash", "-euc", script + "; make_program float_lines"], env=words, check=True)
    return os.path.join(folder, "crates", "float_lines", "out", "float_lines")


def main():
    if len(sys.argv) not in (4, 5) or sys.argv[1] not in SIZES:
        sys.exit(__doc__)
    name, seed, count, *program = sys.argv[1:]
    with tempfile.TemporaryDirectory() as folder:
        theirs = os.path.join(folder, "floats_libc")
        source = os.path.join(HERE, "floats_libc.c")
        subprocess.run(["cc", "-O2", "-ffp-contract=off", "-o", theirs, source, "-lm"], check=True)
        ours = program[0] if program else build(folder)
        different = compare(ours, theirs, SIZES[name], int(seed), int(count))
    sys.exit(different > 0)


if __name__ == "__main__":
    main()
