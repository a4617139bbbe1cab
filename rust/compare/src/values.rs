//! Random values.

use crate::random::Random;
use crate::seen::Seen;

const CHARACTERS: &[&str] = &[
    "a",
    "b",
    "z",
    "0",
    "1",
    "7",
    " ",
    " ",
    ":",
    "-",
    "#",
    "'",
    "\"",
    "\\",
    "\n",
    "\n",
    "\t",
    ".",
    ",",
    "[",
    "{",
    "&",
    "*",
    "!",
    "|",
    ">",
    "%",
    "@",
    "~",
    "?",
    "_",
    "e",
    "x",
    "+",
    "=",
    "\u{e9}",
    "\u{1f600}",
    "\u{2028}",
    "\u{85}",
    "\u{7f}",
    "\u{1}",
    "\u{0}",
    "\u{feff}",
    "\u{a0}",
    "true",
    "null",
    "0x",
    "1e5",
    ".inf",
    ": ",
    " #",
    "- ",
    "\r",
];

/// A text of some characters, among which are those that mean something in YAML.
pub fn text(random: &mut Random) -> String {
    (0..random.below(9)).map(|_| random.one(CHARACTERS)).collect()
}

fn float(random: &mut Random) -> f64 {
    match random.below(4) {
        0 => f64::from_bits(random.bits()),
        1 => random.below(100_000) as f64 / 100.0,
        2 => random.bits() as i64 as f64,
        _ => [0.0, -0.0, f64::INFINITY, f64::NEG_INFINITY, f64::NAN, 5e-324, f64::MAX, 1e16, 1e15, 1e-5, 1e-4]
            [random.below(11)],
    }
}

/// A value of some depth.
pub fn value(random: &mut Random, depth: usize) -> Seen {
    match random.below(if depth == 0 { 8 } else { 12 }) {
        0 => Seen::Unit,
        1 => Seen::Bool(random.below(2) == 0),
        2 => Seen::U64(random.bits() >> random.below(64)),
        3 => Seen::I64(-((random.bits() >> random.below(64) >> 1) as i64) - 1),
        4 => match float(random) {
            v if v.is_nan() => Seen::F64(f64::NAN.to_bits()),
            v => Seen::F64(v.to_bits()),
        },
        5 => Seen::U128(u128::from(random.bits()) << 64 | u128::from(random.bits())),
        6 | 7 => Seen::Str(text(random)),
        8 | 9 => Seen::Seq((0..random.below(4)).map(|_| value(random, depth - 1)).collect()),
        _ => Seen::Map((0..random.below(4)).map(|_| (value(random, depth / 3), value(random, depth - 1))).collect()),
    }
}

/// The same where no text is lent, and integers are unsigned if they can be.
pub fn read_back(seen: Seen) -> Seen {
    match seen {
        Seen::Borrowed(text) => Seen::Str(text),
        Seen::I64(v) if v >= 0 => Seen::U64(v as u64),
        Seen::U128(v) if v <= u128::from(u64::MAX) => Seen::U64(v as u64),
        Seen::Seq(v) => Seen::Seq(v.into_iter().map(read_back).collect()),
        Seen::Map(v) => Seen::Map(v.into_iter().map(|(k, v)| (read_back(k), read_back(v))).collect()),
        other => other,
    }
}
