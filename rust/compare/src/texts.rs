//! Random texts.

use crate::random::Random;

/// Texts to begin with.
pub const SEEDS: &[&str] = &[
    "name: web\nport: 80\ntags: [a, b]\nlabel: ~\nratio: 1.5\nsize: !exact 3\n",
    "name: &n web\nport: 8080\ntags: [*n, \"x\\ty\", 'it''s']\nsize: !range {low: -1, high: 2}\n",
    "- name: a\n  port: 1\n- name: &x b\n  port: &p 2\n  label: *x\n- {name: *x, port: *p, ratio: .inf}\n",
    "- {a: true, b: -5, c: [1, ~, 255], d: {e: [1.5, x]}}\n- a: &x false\n  b: 1\n  z: *x\n",
    "a: |\n  two\n  lines\nb: >-\n  folded\n  text\n\nc: \"a\\\n   b\"\n",
    "!two {x: y}",
    "{kind: One, of: 5}",
    "kind: Two\nof:\n  x: z\n",
    "kind: Two\nx: z\ny: true\n",
    "{kind: One, a: 3}",
    "kind: Three\n",
    "- any\n- !exact 5\n- !pair [1, 2]\n- !range {low: 1, high: 2}\n- !whole\n- !whole any\n- !empty ~\n",
    "x: 1\n? [1, 2]\n: 3\n? !exact 3\n: 4\n",
    "--- 1\n--- 2\n...\n--- [3\n",
    "",
    "~",
    "# nothing\n",
    "[1, 2.5, .inf, -.inf, .nan, 0x1f, 0o17, 0b11, 1e3, 12345678901234567890123, -5, +7, 017, 1e400, -0, .5, 5.]",
    "[18446744073709551615, 18446744073709551616, -9223372036854775808, -9223372036854775809, 0x-5, 1_000]",
    "[340282366920938463463374607431768211455, 340282366920938463463374607431768211456, 3.4e38, 1e39, 1.0e-320]",
    "&a [*a]",
    "{a: &b {c: *b}}",
    "&a a: &a b\nc: *a\n? *a\n: d\n",
    "first-name: x\nport: 7\nlabel: y\ninner: {is-on: true, name: q, port: -3}\n",
    "name: x\nlabel: 'yz'\ninner:\n",
    "head: 1\ntail: {head: 2, tail: {head: 3, tail: ~}}\n",
    "a: 1\nb: {a: 2, b: }\n",
    "[a, true, 1, other, 'true', \"1\", !a , !true x]",
    "a: 1\ntrue: 2\n1: 3\nother: 4\n",
    "x: [any, !exact 1]\ny: []\nz:\n",
    "1: [a]\n-2: []\n0x10: [b, c]\n",
    "true: 1\nfalse: [2]\n",
    "!Ok 5",
    "!Err text",
    "[[[{a: [true]}, ~], []], []]",
    "[!!str 1, !!int '2', !!int x, !!bool true, !!bool |\n true, !!null ~, !!null '', !!float 1, !!float .inf]",
    "- !!int |-\n 5\n- !!bool |-\n true\n- !!float |-\n 1.5\n- !!null |-\n ~\n- !!str\n- !!seq []\n- !!map {}\n",
    "[! x, !<a> y, !<tag:yaml.org,2002:int> 3, !e!f z]",
    "%TAG !e! tag:example.com,2000:\n---\n!e!f {a: !e!g 1}\n",
    "127.0.0.1",
    "{secs: 1, nanos: 5}",
    "{start: 1, end: 5}",
    "[true, ~, false, true]",
    "!refuse [1]",
    "- !a [!b {c: !d e}]\n- !a !b c\n",
    "[a, b]: c\n{d: e}: f\n",
    "\u{feff}a: b\n",
    "a: \u{e9}\u{1f600}\nb: \"\\u00e9\\U0001F600\\x41\\N\"\n",
    "- - - a\n    - b\n  - c\n-\n  d: e\n  f:\n  - g\n",
    "[1, 2, 3]",
    "[1, 2.0]",
    "[1, 2.0, x, 4]",
    "a: 'x\n\n  y'\nb: \"x\n  y\\n\"\nc: x\n  y\n  z\n",
    "a: |+\n x\n\n\nb: >2-\n   y\n  z\nc: |1\n  w\n",
];

const PIECES: &[&str] = &[
    "a",
    ":",
    " ",
    "\n",
    "- ",
    "'",
    "\"",
    "[",
    "]",
    "{",
    "}",
    ",",
    "&x ",
    "*x",
    "!exact ",
    "!!str ",
    "~",
    "1",
    "-1",
    "1.5",
    "true",
    "port: ",
    "name: ",
    "\n  ",
    "|\n",
    "#",
    "80",
    "300",
    "x",
    "null",
    "!range ",
    "*n",
    ": ",
    ", ",
    "? ",
    "!!int ",
    "!!float ",
    "!!bool ",
    "!!null ",
    "!",
    "!a ",
    ">-\n ",
    "\t",
    "...\n",
    "---\n",
    "--- ",
    "%YAML 1.1\n",
    "0x1f",
    "0o7",
    "017",
    ".inf",
    ".nan",
    "-.inf",
    "1e5",
    "1e400",
    "-0",
    "+1",
    "99999999999999999999",
    "-99999999999999999999",
    "&a ",
    "*a",
    "\\",
    "\\n",
    "\\u00e9",
    "\u{e9}",
    "\u{2028}",
    "\u{85}",
    "\u{1f600}",
    "\r\n",
    "\r",
    "kind: ",
    "of: ",
    "One",
    "Two",
    "any",
    "\u{7f}",
    "\u{0}",
    "@",
    "`",
    "\u{feff}",
    "''",
    "\"\"",
    "[]",
    "{}",
    "- - ",
    "a: b",
    "<<: ",
    "\n- ",
];

/// A text: one of the pool, with some pieces put in, taken out or joined; or one that is made by a small grammar.
pub fn text(random: &mut Random, pool: &[String]) -> Vec<u8> {
    if random.below(4) == 0 {
        let mut made = String::new();
        let depth = random.below(5);
        node(random, depth, 0, random_flow(depth), &mut made);
        made.push('\n');
        return mutated(random, made.into_bytes());
    }
    let mut text = pool[random.below(pool.len())].clone().into_bytes();
    if random.below(12) == 0 {
        text.extend_from_slice(b"\n");
        text.extend_from_slice(pool[random.below(pool.len())].as_bytes());
    }
    mutated(random, text)
}

fn random_flow(depth: usize) -> bool {
    depth > 3
}

fn mutated(random: &mut Random, mut text: Vec<u8>) -> Vec<u8> {
    for _ in 0..random.below(5) {
        let at = random.below(text.len() + 1);
        match random.below(5) {
            0 if at < text.len() => {
                text.remove(at);
            }
            1 if at < text.len() => {
                let to = (at + random.below(8)).min(text.len());
                text.drain(at..to);
            }
            2 if at < text.len() => {
                let to = (at + random.below(20)).min(text.len());
                let copy = text[at..to].to_vec();
                let at = random.below(text.len() + 1);
                text.splice(at..at, copy);
            }
            _ => {
                let piece = random.one(PIECES);
                text.splice(at..at, piece.bytes());
            }
        }
    }
    text
}

const SCALARS: &[&str] = &[
    "a",
    "b c",
    "1",
    "-7",
    "0x1f",
    "2.5",
    ".inf",
    "true",
    "False",
    "~",
    "null",
    "''",
    "'it''s'",
    "\"a\\tb\"",
    "x",
    "yes",
    "017",
    "1e3",
    "+5",
    "",
    "18446744073709551616",
    "-0",
    "any",
    "z",
    "\u{e9}",
    "'~'",
    "\"1\"",
    "No",
    "0o17",
    "1e400",
    "- x",
    "a#b",
];
const KEYS: &[&str] = &[
    "a", "b", "c", "name", "port", "tags", "x", "1", "true", "~", "kind", "of", "low", "high", "'q'", "head", "tail",
    "label", "size",
];
const HEADS: &[&str] = &[
    "", "", "", "", "", "", "", "", "&a ", "&b ", "!exact ", "!pair ", "!range ", "!!str ", "!!int ", "!t ", "&a !t ",
];

fn node(random: &mut Random, depth: usize, indent: usize, flow: bool, out: &mut String) {
    if random.below(14) == 0 {
        out.push_str(random.one(&["*a", "*b", "*a "]));
        return;
    }
    out.push_str(random.one(HEADS));
    let flow = flow || random.below(3) == 0;
    match random.below(if depth == 0 { 1 } else { 4 }) {
        0 | 1 if !flow && random.below(8) == 0 => {
            let pad = " ".repeat(indent + 1);
            let head = random.one(&["|", ">", "|-", ">+", "|2", ">-"]);
            out.push_str(&format!("{head}\n{pad}text\n{pad} {}\n{pad}end", random.one(SCALARS)));
        }
        0 | 1 => out.push_str(random.one(SCALARS)),
        2 if flow => {
            out.push('[');
            for _ in 0..random.below(4) {
                node(random, depth - 1, indent, true, out);
                out.push_str(", ");
            }
            out.push(']');
        }
        2 => {
            for _ in 0..random.below(4) + 1 {
                out.push('\n');
                out.push_str(&" ".repeat(indent));
                out.push_str("- ");
                node(random, depth - 1, indent + 2, false, out);
            }
        }
        _ if flow => {
            out.push('{');
            for _ in 0..random.below(4) {
                out.push_str(random.one(KEYS));
                out.push_str(": ");
                node(random, depth - 1, indent, true, out);
                out.push_str(", ");
            }
            out.push('}');
        }
        _ => {
            for _ in 0..random.below(4) + 1 {
                out.push('\n');
                out.push_str(&" ".repeat(indent));
                out.push_str(random.one(KEYS));
                out.push_str(": ");
                node(random, depth - 1, indent + 2, false, out);
            }
        }
    }
}
