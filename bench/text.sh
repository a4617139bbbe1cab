#!/usr/bin/env bash
# Prints how many instructions it takes from text to events, the events let go too, in millions: of `yaml_parse::parse`
# and of libyaml's parser, and the ratio of both, as rows of docs/PERFORMANCE.md.
#
#     bash bench/text.sh [PROGRAM]
#
# The script makes a program of its own over copies of the crates below yaml_parse, and `rt` proves and builds it, which
# takes some minutes, or some seconds where the crates are proved. PROGRAM is one that an earlier run made, by which a
# change is compared: KEEP names a file for the program of this run. Wanted are valgrind, `cc` and libyaml's headers.
set -eu
export LC_ALL=C
root=$(cd "$(dirname "$0")/.." && pwd)
room=$(mktemp -d)
trap 'rm -rf "$room"' EXIT
. "$root/bench/texts.sh"

# Makes the program, which reads standard input, and parses it unless its argument says to read alone.
make_program() {
    mkdir -p "$room/crates/text_cost/src"
    for crate in yaml_tree yaml_base yaml_scan yaml_parse; do
        mkdir -p "$room/crates/$crate"
        for part in src specs proofs; do
            [ ! -d "$root/crates/$crate/$part" ] || cp -a "$root/crates/$crate/$part" "$room/crates/$crate/"
        done
        grep "^$crate:" "$root/crates.txt" >> "$room/crates.txt"
    done
    echo 'text_cost: yaml_parse yaml_scan yaml_base yaml_tree' >> "$room/crates.txt"
    cat > "$room/crates/text_cost/src/main.rt" <<'RT'
//! Parses standard input, unless the argument is `read`, and prints how many events or bytes there were.
#![tactic(auto)]

use std::env;
use std::io::{self, Read};

fn main(rt: HostRuntime) -> io::Result<()> {
    let arguments: Vec<String> = env::args(&rt)?.skip(1).collect(rt.alloc())?;
    let mut text: Vec<u8> = Vec::new(rt.alloc());
    rt.stdin().read_to_end(&mut text)?;
    let count = if arguments.is_empty() {
        match yaml_parse::parse(rt.alloc(), text.as_slice()) {
            Ok(parsed) => parsed.events.len(),
            Err(_) => 0,
        }
    } else {
        text.len()
    };
    println!(&rt; "{count}")?;
    Ok(())
}
RT
    (cd "$room/crates/text_cost" && rt run < /dev/null > "$room/log" 2>&1) || { tail -n 20 "$room/log"; exit 1; }
    cp "$room/crates/text_cost/out/text_cost" "$room/program"
}

# Makes the program over libyaml that does the same.
make_other() {
    cat > "$room/other.c" <<'C'
#include <stdio.h>
#include <stdlib.h>
#include <yaml.h>

int main(int argc, char **argv) {
    size_t room = 1 << 24;
    unsigned char *text = malloc(room);
    size_t len = fread(text, 1, room, stdin);
    long count = 0;
    (void)argv;
    if (argc == 1) {
        yaml_parser_t parser;
        yaml_event_t event;
        int ended = 0;
        yaml_parser_initialize(&parser);
        yaml_parser_set_encoding(&parser, YAML_UTF8_ENCODING);
        yaml_parser_set_input_string(&parser, text, len);
        while (!ended && yaml_parser_parse(&parser, &event)) {
            count++;
            ended = event.type == YAML_STREAM_END_EVENT;
            yaml_event_delete(&event);
        }
        yaml_parser_delete(&parser);
    }
    printf("%ld\n", count);
    return 0;
}
C
    cc -O2 -o "$room/other" "$room/other.c" -lyaml
}

# Prints how many instructions a program takes on the row.
count() {
    valgrind --tool=callgrind --callgrind-out-file=/dev/null "$@" < "$room/text" 2>&1 > /dev/null |
        awk '/Collected/ { print $4 }'
}

# Prints a row: $1 is the text, and the rest names it.
row() {
    local name=$1
    shift
    text "$name" > "$room/text"
    local own other
    own=$(($(count "$program") - $(count "$program" read)))
    other=$(($(count "$room/other") - $(count "$room/other" read)))
    awk -v own="$own" -v other="$other" -v title="$*" \
        'BEGIN { printf "| %s | %.1f / %.1f | %.2f |\n", title, own / 1e6, other / 1e6, own / other }'
}

make_other
if [ $# = 0 ]; then
    make_program
    program=$room/program
    [ -z "${KEEP-}" ] || cp "$program" "$KEEP"
else
    program=$1
fi
row mixed mixed
row lines "20,000 lines \`- 7\`"
row nested "20,000 \`- \` on one line"
row pairs "12,000 pairs"
row brackets "20,000 numbers in brackets"
row quoted "8,000 double-quoted texts"
row literal "5,000 literal blocks"
row folded "a folded block of 10,000 lines"
row key "a key of 200,000 bytes"
