#!/usr/bin/env bash
# Prints what nested texts take on the stack when they are read under shapes that hold themselves, in kB, as rows of
# docs/PERFORMANCE.md: the least limit under which the program ends.
#
#     bash bench/stack.sh [NESTINGS]
#
# NESTINGS is by default 128, the most that a reading goes where no limit is named; with 1 the rows are what the program
# takes by itself. The script makes a program of its own, which takes some minutes, and much longer where the crates are
# not proved yet.
set -eu
export LC_ALL=C
root=$(cd "$(dirname "$0")/.." && pwd)
room=$(mktemp -d)
trap 'rm -rf "$room"' EXIT

. "$root/bench/program.sh"
over yaml_documents stack_probe <<'END'
//! Reads the text of standard input under a shape that holds itself, which the argument names.
#![tactic(auto)]

use std::alloc::Global;
use std::env;
use std::io::{self, Read};
use yaml_documents::load;
use yaml_shape::{Schema, Shape, ShapeId, VariantShape};

fn name(alloc: Global, text: &str) -> Option<String> {
    String::from_str(alloc, text).ok()
}

fn ids(alloc: Global, id: u32) -> Option<Vec<ShapeId>> {
    let mut ids = Vec::new(alloc);
    ids.push(ShapeId(id)).ok()?;
    Some(ids)
}

fn fields(alloc: Global, id: u32) -> Option<Vec<(String, ShapeId)>> {
    let mut fields = Vec::new(alloc);
    fields.push((name(alloc, "a")?, ShapeId(id))).ok()?;
    Some(fields)
}

fn record(alloc: Global, id: u32) -> Option<Shape> {
    Some(Shape::Struct { name: name(alloc, "S")?, fields: fields(alloc, id)? })
}

fn variant(alloc: Global, content: VariantShape) -> Option<Shape> {
    let mut variants = Vec::new(alloc);
    variants.push((name(alloc, "v")?, content)).ok()?;
    Some(Shape::Enum { name: name(alloc, "E")?, variants })
}

fn first_shape(alloc: Global, kind: &str) -> Option<Shape> {
    match kind {
        "any" => Some(Shape::Any),
        "sequence" => Some(Shape::Seq(ShapeId(0))),
        "mapping" => Some(Shape::Map(ShapeId(4), ShapeId(0))),
        "optionals" => Some(Shape::Seq(ShapeId(2))),
        "optional_values" => Some(Shape::Map(ShapeId(4), ShapeId(2))),
        "tuple" => Some(Shape::Tuple(ids(alloc, 0)?)),
        "optional_item" => Some(Shape::Tuple(ids(alloc, 2)?)),
        "list_field" => record(alloc, 1),
        "optional_field" => record(alloc, 2),
        "row" => variant(alloc, VariantShape::Tuple(ids(alloc, 0)?)),
        "optional_in_row" => variant(alloc, VariantShape::Tuple(ids(alloc, 2)?)),
        "around_list" => variant(alloc, VariantShape::Newtype(ShapeId(1))),
        "around_mapping" => variant(alloc, VariantShape::Newtype(ShapeId(3))),
        "around_optionals" => variant(alloc, VariantShape::Newtype(ShapeId(5))),
        "around_optional_values" => variant(alloc, VariantShape::Newtype(ShapeId(6))),
        "list_in_field" => variant(alloc, VariantShape::Struct(fields(alloc, 1)?)),
        "optional_in_field" => variant(alloc, VariantShape::Struct(fields(alloc, 2)?)),
        "around_struct" => variant(alloc, VariantShape::Newtype(ShapeId(7))),
        "around_optional_struct" => variant(alloc, VariantShape::Newtype(ShapeId(8))),
        _ => None,
    }
}

fn shapes(alloc: Global, kind: &str) -> Option<Vec<Shape>> {
    let mut shapes = Vec::new(alloc);
    shapes.push(first_shape(alloc, kind)?).ok()?;
    shapes.push(Shape::Seq(ShapeId(0))).ok()?;
    shapes.push(Shape::Option(ShapeId(0))).ok()?;
    shapes.push(Shape::Map(ShapeId(4), ShapeId(0))).ok()?;
    shapes.push(Shape::Str).ok()?;
    shapes.push(Shape::Seq(ShapeId(2))).ok()?;
    shapes.push(Shape::Map(ShapeId(4), ShapeId(2))).ok()?;
    shapes.push(record(alloc, 2)?).ok()?;
    shapes.push(Shape::Option(ShapeId(7))).ok()?;
    Some(shapes)
}

fn read(alloc: Global, kind: &str, text: &str) -> Option<bool> {
    let Ok(schema) = Schema::new(alloc, shapes(alloc, kind)?) else {
        return None;
    };
    let mut loader = load(alloc, text.as_bytes()).ok()?;
    let document = loader.next_document()?;
    if !schema.has(ShapeId(0)) {
        return None;
    }
    Some(document.deserialize(alloc, &schema, ShapeId(0)).is_ok())
}

fn main(rt: HostRuntime) -> io::Result<()> {
    let arguments: Vec<String> = env::args(&rt)?.skip(1).collect(rt.alloc())?;
    let [kind] = arguments.as_slice() else {
        return Ok(());
    };
    let mut text = String::new(rt.alloc());
    rt.stdin().read_to_string(&mut text)?;
    match read(rt.alloc(), kind.as_str(), text.as_str()) {
        Some(read) => println!(rt; "{read}"),
        None => println!(rt; "none"),
    }
}
END

make_program stack_probe any
cd "$room/crates/stack_probe"
nestings=${1:-128}

# Prints so many openings and closings.
nested() {
    awk -v opening="$1" -v closing="$2" -v depth="$3" 'BEGIN {
        for (i = 0; i < depth; i++) printf "%s", opening
        for (i = 0; i < depth; i++) printf "%s", closing
        print ""
    }'
}

# Prints a collection behind a tag, which may be missing, of such that stand one within another by aliases: each holds
# the one before between an opening and a closing, and the first holds nothing.
chain() {
    awk -v tag="$1" -v opening="$2" -v closing="$3" -v depth="$((nestings - 1))" 'BEGIN {
        print "--- " tag
        part = opening
        sub(/a: $/, "", part)
        for (i = 0; i < depth; i++) {
            print (closing == "]" ? "- " : "k" i ": ") "&a" i " " part closing
            part = opening "*a" i " "
        }
    }'
}

# Prints the least limit under which the program ends that reads the text of standard input under the shape $1. Where $2
# is there, the program has to print it.
least() {
    local low=16 high=4096 middle
    cat > "$room/text"
    if [ $# = 2 ] && [ "$(out/stack_probe "$1" < "$room/text")" != "$2" ]; then
        echo "stack: not read as $1: $(head -c 100 "$room/text")" >&2
        return
    fi
    while [ $((high - low)) -gt 1 ]; do
        middle=$(((low + high) / 2))
        if { (ulimit -s "$middle" && out/stack_probe "$1" < "$room/text"); } > /dev/null 2>&1; then
            high=$middle
        else
            low=$middle
        fi
    done
    echo "$high"
}

# Prints the row of a shape, with its text in sequences and in mappings, of which one may be missing.
row() {
    local lists= maps=
    [ -z "$3" ] || lists=$(nested "$3" ']' "$nestings" | least "$2")
    [ -z "$4" ] || maps=$(nested "$4" '}' "$nestings" | least "$2")
    echo "| $1 | $lists | $maps |"
}

# The same where each turn has two nestings, a mapping and a list in it.
row_of_two() {
    echo "| $1 | | $(nested "$3" ']}' "$(((nestings + 1) / 2))" | least "$2") |"
}

# The same where each collection is an alias in the next one: $4 and $6 are what opens them, $3 and $5 their shapes, and
# $2 is the tag around.
row_of_aliases() {
    echo "| $1 | $(chain "$2" "$4" ']' | least "$3" true) | $(chain "$2" "$6" '}' | least "$5" true) |"
}

row 'any value' any '[' '{a: '
row 'any value, each with a tag' any '!t [' '!t {a: '
row 'a sequence of itself' sequence '[' ''
row 'a mapping of itself' mapping '' '{a: '
row 'a sequence of optionals of itself' optionals '[' ''
row 'a mapping to optionals of itself' optional_values '' '{a: '
row 'a tuple of itself' tuple '[' ''
row 'a tuple of an optional of itself' optional_item '[' ''
row_of_two 'a struct with a list of itself' list_field '{a: ['
row 'a struct with an optional of itself' optional_field '' '{a: '
row 'a variant with itself in a row' row '!v [' ''
row 'a variant with an optional of itself in a row' optional_in_row '!v [' ''
row 'a variant around a list of itself' around_list '!v [' ''
row 'a variant around a mapping of itself' around_mapping '' '!v {a: '
row 'a variant around a list of optionals of itself' around_optionals '!v [' ''
row 'a variant around a mapping to optionals of itself' around_optional_values '' '!v {a: '
row_of_two 'a variant with a list of itself in a field' list_in_field '!v {a: ['
row 'a variant with an optional of itself in a field' optional_in_field '' '!v {a: '
row 'a variant around a struct with an optional of itself' around_struct '' '!v {a: '
row 'a variant around an optional of a struct with an optional of itself' around_optional_struct '' '!v {a: '
row_of_aliases 'any value, each an alias in the next' '' any '[' any '{a: '
row_of_aliases 'any value, each an alias with a tag in the next' '!t' any '!t [' any '!t {a: '
row_of_aliases 'a sequence, or a mapping, of itself, each an alias in the next' '' sequence '[' mapping '{a: '
row_of_aliases 'a variant around a list, or a mapping, of itself, each an alias in the next' '!v' \
    around_list '!v [' around_mapping '!v {a: '
