#!/usr/bin/env bash
# Prints how long calls on large mappings take, each the least of RUNS runs (5 at first), as rows of
# docs/PERFORMANCE.md.
#
#     bash bench/mappings.sh [SIZE..]
#
# SIZE is a number of keys, by default 100000 and 1000000. The script makes a program of its own over a copy of
# crates/yaml_tree, and `rt` proves and builds it, which takes some minutes.
set -eu
export LC_ALL=C
root=$(cd "$(dirname "$0")/.." && pwd)
room=$(mktemp -d)
trap 'rm -rf "$room"' EXIT

mkdir -p "$room/crates/tree_time/src"
cp -a "$root/crates/yaml_tree" "$room/crates/"
printf 'yaml_tree:\ntree_time: yaml_tree\n' > "$room/crates.txt"
cat > "$room/crates/tree_time/src/main.rt" <<'END'
//! Times calls on a mapping: the first argument is a kind of keys, the second says how many there are.
#![tactic(auto)]

use std::alloc::Global;
use std::env;
use std::io;
use std::time::Instant;
use yaml_tree::{Mapping, Number, Tag, TaggedValue, Value};

fn key(alloc: Global, kind: &str, n: u64) -> Option<Value> {
    let number = Value::Number(Number::from_u64(n));
    match kind {
        "integers" => Some(number),
        "texts" => Some(Value::String(format!(in alloc; "key {n}").ok()?)),
        _ => {
            let tag = Tag::new(alloc, "!t").ok()?;
            let tagged = TaggedValue { tag, value: number };
            Some(Value::Tagged(Box::new(alloc, tagged).ok()?))
        }
    }
}

fn build(alloc: Global, kind: &str, count: u64, backwards: bool) -> Option<Mapping> {
    let mut mapping = Mapping::new(alloc);
    for i in 0..count {
        let n = if backwards { count - 1 - i } else { i };
        let key = key(alloc, kind, n)?;
        mapping.insert(key, Value::Null).ok()?;
    }
    Some(mapping)
}

// How many of the keys are there.
fn found(alloc: Global, mapping: &Mapping, kind: &str, count: u64) -> Option<u64> {
    let mut found: u64 = 0;
    for n in 0..count {
        let key = key(alloc, kind, n)?;
        if mapping.get(&key).is_some() {
            found = found.wrapping_add(1);
        }
    }
    Some(found)
}

fn main(rt: HostRuntime) -> io::Result<()> {
    let arguments: Vec<String> = env::args(&rt)?.skip(1).collect(rt.alloc())?;
    let [kind, count] = arguments.as_slice() else { return Ok(()); };
    let Ok(count) = count.as_str().parse::<u64>() else { return Ok(()); };
    let start = Instant::now(&rt)?;
    let Some(there) = build(rt.alloc(), kind.as_str(), count, false) else { return Ok(()); };
    let built = start.elapsed(&rt)?.as_micros();
    let start = Instant::now(&rt)?;
    let Some(found) = found(rt.alloc(), &there, kind.as_str(), count) else { return Ok(()); };
    let got = start.elapsed(&rt)?.as_micros();
    let Some(other) = build(rt.alloc(), kind.as_str(), count, true) else { return Ok(()); };
    let start = Instant::now(&rt)?;
    let same = there == other;
    let compared = start.elapsed(&rt)?.as_micros();
    let start = Instant::now(&rt)?;
    let Ok(copy) = Value::Mapping(there).copy(rt.alloc()) else { return Ok(()); };
    let copied = start.elapsed(&rt)?.as_micros();
    let whole = Value::Mapping(other) == copy;
    println!(rt; "{built} {got} {compared} {copied} {found} {same} {whole}")
}
END

cd "$room/crates/tree_time"
rt run -- texts 1 > "$room/log" 2>&1 || { tail -n 3 "$room/log"; exit 1; }

# Prints the row of the keys $1, $2 of them: the least of each time, in milliseconds, if the runs found all keys and
# equal mappings.
row() {
    for _ in $(seq "${RUNS:-5}"); do
        out/tree_time "$1" "$2"
    done | awk -v kind="$1" -v size="$2" '
        $5 != size || $6 != "true" || $7 != "true" { wrong = 1 }
        { for (i = 1; i <= 4; i++) if (NR == 1 || $i < least[i]) least[i] = $i }
        END {
            if (wrong || !NR) { print "mappings: " kind ": a wrong answer"; exit 1 }
            printf "| %s, %d |", kind, size
            for (i = 1; i <= 4; i++) printf " %.1f ms |", least[i] / 1000
            print ""
        }'
}

[ $# -gt 0 ] || set -- 100000 1000000
for size in "$@"; do
    for kind in texts integers tags; do
        row "$kind" "$size"
    done
done
