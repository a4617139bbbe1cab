#!/usr/bin/env bash
# Prints how long texts of many elements take to be read as lists and as maps of types with derives, in milliseconds,
# each the least of RUNS runs (5 at first), as rows of docs/PERFORMANCE.md. Ten times the elements take ten times as
# long, and a little more where memory no longer fits the caches.
#
#     bash bench/derived.sh [SIZE..]
#
# SIZE is a number of elements, by default 3000 and 30000. The script makes a program of its own, which takes some
# minutes, and much longer where the crates are not proved yet. PROGRAM names one that was built before.
set -eu
export LC_ALL=C
root=$(cd "$(dirname "$0")/.." && pwd)
room=$(mktemp -d)
trap 'rm -rf "$room"' EXIT

. "$root/bench/program.sh"
over yaml derived_time <<'END'
//! Times the text of standard input, which is read as a list or a map of elements of a kind, as both arguments say:
//! prints the microseconds that it takes, the value let go too.
#![tactic(auto)]

use serde::Deserialize;
use std::alloc::Global;
use std::collections::BTreeMap;
use std::env;
use std::io::{self, Read};
use std::time::Instant;

/// Variants without names.
#[derive(Drop, Deserialize)]
#[serde(untagged)]
enum Untagged {
    Flag(bool),
    Number(i64),
    Text(String),
    List(Vec<u8>),
    Pair { left: u8, right: u8 },
}

/// Variants without names, around many such.
#[derive(Drop, Deserialize)]
#[serde(untagged)]
enum Around {
    One(Untagged),
    Many(Vec<Untagged>),
    Named(BTreeMap<String, Untagged>),
}

/// Variants that are named by a field beside their own.
#[derive(Drop, Deserialize)]
#[serde(tag = "t")]
enum Internal {
    Stay,
    Jump { over: u8 },
}

/// Variants that are named by a field beside their content.
#[derive(Drop, Deserialize)]
#[serde(tag = "t", content = "c")]
enum Adjacent {
    Go(i8),
    Jump { over: u8 },
}

/// Variants that are named by local tags.
#[derive(Drop, Deserialize)]
enum Tagged {
    Dot,
    Circle { r: u8 },
}

/// A part of a mapping.
#[derive(Drop, Deserialize)]
struct Place {
    row: u8,
    column: u8,
}

/// A struct with the fields of another among its own.
#[derive(Drop, Deserialize)]
struct Flattened {
    name: String,
    #[serde(flatten)]
    place: Place,
}

// Whether the text is a value of the type, which is let go.
fn read<'de, T: Deserialize<'de>>(alloc: Global, text: &'de str) -> bool {
    yaml::from_str::<T>(alloc, text).is_ok()
}

fn read_list(alloc: Global, kind: &str, text: &str) -> bool {
    match kind {
        "untagged" => read::<Vec<Untagged>>(alloc, text),
        "optional_untagged" => read::<Vec<Option<Untagged>>>(alloc, text),
        "internal" => read::<Vec<Internal>>(alloc, text),
        "adjacent" => read::<Vec<Adjacent>>(alloc, text),
        "flattened" => read::<Vec<Flattened>>(alloc, text),
        "tagged" => read::<Vec<Tagged>>(alloc, text),
        "optional_tagged" => read::<Vec<Option<Tagged>>>(alloc, text),
        "struct" => read::<Vec<Place>>(alloc, text),
        "around" => read::<Around>(alloc, text),
        _ => false,
    }
}

fn read_map(alloc: Global, kind: &str, text: &str) -> bool {
    match kind {
        "untagged" => read::<BTreeMap<String, Untagged>>(alloc, text),
        "optional_untagged" => read::<BTreeMap<String, Option<Untagged>>>(alloc, text),
        "internal" => read::<BTreeMap<String, Internal>>(alloc, text),
        "adjacent" => read::<BTreeMap<String, Adjacent>>(alloc, text),
        "flattened" => read::<BTreeMap<String, Flattened>>(alloc, text),
        "tagged" => read::<BTreeMap<String, Tagged>>(alloc, text),
        "optional_tagged" => read::<BTreeMap<String, Option<Tagged>>>(alloc, text),
        "struct" => read::<BTreeMap<String, Place>>(alloc, text),
        "around" => read::<Around>(alloc, text),
        _ => false,
    }
}

fn main(rt: HostRuntime) -> io::Result<()> {
    let arguments: Vec<String> = env::args(&rt)?.skip(1).collect(rt.alloc())?;
    let [form, kind] = arguments.as_slice() else {
        return Ok(());
    };
    let mut text = String::new(rt.alloc());
    rt.stdin().read_to_string(&mut text)?;
    let start = Instant::now(&rt)?;
    let is_read = match form.as_str() {
        "list" => read_list(rt.alloc(), kind.as_str(), text.as_str()),
        _ => read_map(rt.alloc(), kind.as_str(), text.as_str()),
    };
    let took = start.elapsed(&rt)?.as_micros();
    println!(rt; "{took} {is_read}")
}
END

make_program derived_time list struct
cd "$room/crates/derived_time"

# Prints the least time of the text in the form $1, read as elements of the kind $2, in milliseconds.
least() {
    for _ in $(seq "${RUNS:-5}"); do
        out/derived_time "$1" "$2" < "$room/text"
    done | awk -v form="$1" -v kind="$2" '
        $2 != "true" { wrong = 1 }
        NR == 1 || $1 < least { least = $1 }
        END {
            if (wrong || !NR) { print "derived: not read: " form " of " kind > "/dev/stderr"; exit 1 }
            printf "%.1f", least / 1000
        }'
}

# Prints the row of elements that are called $1, of the kind $2, each of which stands as $3, or every other as $4.
row() {
    local form size cells=
    for form in list map; do
        for size in "${sizes[@]}"; do
            awk -v form="$form" -v size="$size" -v one="$3" -v other="${4-$3}" 'BEGIN {
                for (i = 0; i < size; i++) print (form == "list" ? "- " : "k" i ": ") (i % 2 ? other : one)
            }' > "$room/text"
            cells="$cells $(least "$form" "$2") |"
        done
    done
    echo "| $1 |$cells"
}

sizes=("$@")
[ $# -gt 0 ] || sizes=(3000 30000)
row 'a struct' struct '{row: 1, column: 2}'
row 'a struct with flattened fields' flattened '{name: a, row: 1, column: 2}'
row 'an enum, by local tags' tagged '!Circle {r: 1}' Dot
row 'an optional of an enum' optional_tagged '!Circle {r: 1}' '~'
row 'an enum with a `tag`' internal '{over: 3, t: Jump}' '{t: Stay}'
row 'an enum with a `tag` and `content`' adjacent '{c: {over: 3}, t: Jump}' '{t: Go, c: 1}'
row 'an untagged enum, its first variant' untagged true
row 'an untagged enum, its last variant' untagged '{left: 1, right: 2}'
row 'an optional of an untagged enum' optional_untagged '{left: 1, right: 2}' '~'
row 'an untagged enum, within another' around '{left: 1, right: 2}' '[1, 2]'
