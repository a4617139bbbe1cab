#!/usr/bin/env bash
# Prints how many instructions a scalar of six digits takes to be read under the shape of an integer's type, counted by
# valgrind.
#
#     bash bench/integers.sh [TYPE..]
#
# TYPE is u64, i64, i32 or i128, by default each. The script makes a program of its own, which takes some minutes, and
# much longer where the crates are not proved yet.
set -eu
export LC_ALL=C
root=$(cd "$(dirname "$0")/.." && pwd)
room=$(mktemp -d)
trap 'rm -rf "$room"' EXIT

. "$root/bench/program.sh"
over yaml_scalar integer_count <<'END'
//! Reads 10,000 scalars of six digits twice, as integers of the type that the argument names.
#![tactic(auto)]

use std::alloc::Global;
use std::env;
use std::io;
use yaml_base::{DocScalar, ScalarStyle};
use yaml_scalar::read_scalar;
use yaml_shape::{Data, Shape};

fn build<'a>(alloc: Global, count: u64) -> Option<Vec<DocScalar<'a>>> {
    let mut scalars = Vec::new(alloc);
    for i in 0..count {
        let n = i % 800000 + 100000;
        let value = format!(in alloc; "{n}").ok()?.into_bytes();
        scalars.push(DocScalar { tag: None, value, style: ScalarStyle::Plain, repr: None }).ok()?;
    }
    Some(scalars)
}

fn shape_named(name: &str) -> Shape {
    match name {
        "u64" => Shape::U64,
        "i64" => Shape::I64,
        "i32" => Shape::I32,
        _ => Shape::I128,
    }
}

// The sum of those that are read.
fn sum(alloc: Global, shape: &Shape, scalars: &[DocScalar<'_>]) -> u128 {
    let mut sum: u128 = 0;
    for scalar in scalars {
        match read_scalar(alloc, shape, false, scalar) {
            Ok(Data::Signed(value)) if value > 0 => sum = sum.wrapping_add(1),
            Ok(Data::Unsigned(value)) => sum = sum.wrapping_add(value),
            _ => {}
        }
    }
    sum
}

// How many are read, by a second place that calls what is counted, so that it stays a function of its own.
fn held(alloc: Global, shape: &Shape, scalars: &[DocScalar<'_>]) -> u128 {
    let mut held: u128 = 0;
    for scalar in scalars {
        if read_scalar(alloc, shape, true, scalar).is_ok() {
            held = held.wrapping_add(1);
        }
    }
    held
}

fn main(rt: HostRuntime) -> io::Result<()> {
    let arguments: Vec<String> = env::args(&rt)?.skip(1).collect(rt.alloc())?;
    let [name] = arguments.as_slice() else { return Ok(()); };
    let shape = shape_named(name.as_str());
    let Some(scalars) = build(rt.alloc(), 10000) else { return Ok(()); };
    let sum = sum(rt.alloc(), &shape, scalars.as_slice());
    let held = held(rt.alloc(), &shape, scalars.as_slice());
    println!(rt; "{sum} {held}")
}
END

make_program integer_count u64
cd "$room/crates/integer_count"

[ $# -gt 0 ] || set -- u64 i64 i32 i128
for type in "$@"; do
    valgrind --tool=callgrind --callgrind-out-file="$room/counts" out/integer_count "$type" > /dev/null 2>&1
    callgrind_annotate --inclusive=yes "$room/counts" | awk -v type="$type" '/yaml_scalar::scalar::read_scalar/ {
        gsub(",", "", $1)
        printf "| %s | %.0f |\n", type, $1 / 20000
        exit
    }'
done
