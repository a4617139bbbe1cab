#!/usr/bin/env bash
# Times the way from text to events beside libyaml in one process, and prints rows of docs/PERFORMANCE.md.
#
#     bash bench/text_time.sh [small|large]..
#
# A row tells the events, then in milliseconds `yaml_parse::Events` beside libyaml's parser, both of which let go of each
# event before the next, and their ratio, and `yaml_parse::parse` beside libyaml with its events in a list, both lists let
# go at the end, and their ratio: in a process that keeps freed memory, and then in processes that have parsed nothing
# before. Each is the least of RUNS runs (200 of small texts at first, and 40 of others), the sides by turns, of the
# processor's time. At last the most memory that each of the four held beyond the text, in megabytes, counted as malloc
# gives it. TOLD names a file to which all is added that the programs said: of times also those before the events are
# let go, and of memory also what was held at the end, and the largest block.
#
# `small` are the texts of bench/text.sh, `large` such of about a megabyte and of a million events. The script makes a
# static library over copies of the crates below yaml_parse, and `rt` proves and builds it, which takes some minutes, or
# some seconds where the crates are proved. KEEP names a folder in which the programs are kept, and taken from there by
# a later run. Wanted are `cc` and libyaml's headers and static library.
set -eu
export LC_ALL=C
here=$(cd "$(dirname "$0")" && pwd)
root=$(dirname "$here")
room=$(mktemp -d)
trap 'rm -rf "$room"' EXIT
. "$here/texts.sh"
programs=${KEEP:-$room/programs}
mkdir -p "$programs"

# Makes the port's static library.
make_library() {
    mkdir -p "$room/crates/text_library/src" "$room/crates/text_library/c"
    for crate in yaml_tree yaml_base yaml_scan yaml_parse; do
        mkdir -p "$room/crates/$crate"
        for part in src specs proofs; do
            [ ! -d "$root/crates/$crate/$part" ] || cp -a "$root/crates/$crate/$part" "$room/crates/$crate/"
        done
        grep "^$crate:" "$root/crates.txt" >> "$room/crates.txt"
    done
    echo 'text_library staticlib: yaml_parse yaml_scan yaml_base yaml_tree' >> "$room/crates.txt"
    cat > "$room/crates/text_library/src/lib.rt" <<'RT'
//! What is timed, behind C's interface: nothing is promised of what is answered.
#![tactic(auto)]

use std::alloc::Global;

unsafe extern "C" {
    safe fn tick(part: u32);
}

/// Parses the text and lets its events go, with a tick before, between and after. Answers how many events there were.
#[unsafe(no_mangle)]
pub extern "C" fn port_parse(alloc: Global, text: &[u8]) -> u64 {
    tick(0);
    let Ok(parsed) = yaml_parse::parse(alloc, text) else {
        return 0;
    };
    tick(1);
    let count = parsed.events.len() as u64;
    drop(parsed);
    tick(2);
    count
}

/// Lets each event of the text go as it is handed out, with a tick before and behind. Answers how many there were.
#[unsafe(no_mangle)]
pub extern "C" fn port_hand_out(alloc: Global, text: &[u8]) -> u64 {
    tick(0);
    let Ok(mut events) = yaml_parse::Events::new(alloc, text) else {
        return 0;
    };
    let mut count: u64 = 0;
    'events: for _ in 0..u64::MAX {
        let Ok(Some(event)) = events.next_event() else {
            break;
        };
        drop(event);
        count = count.saturating_add(1);
    }
    drop(events);
    tick(1);
    tick(2);
    count
}
RT
    (cd "$room/crates/text_library" && RT_ALLOW_C=text_library rt lib > "$room/log" 2>&1) || {
        tail -n 20 "$room/log"
        exit 1
    }
    cp "$room/crates/text_library/out/libtext_library.a" "$programs/"
}

# Makes both programs: one that times, over the toolchain's allocator, and one that counts memory.
make_programs() {
    local kit
    kit=$(dirname "$(rt doc)")
    cc -O2 -o "$programs/time" "$here/text_time.c" "$programs/libtext_library.a" "$kit/c/liblibc_c.a" \
        -Wl,-Bstatic -lyaml -Wl,-Bdynamic
    cc -O2 -DCOUNT -Wl,--wrap=malloc,--wrap=realloc,--wrap=free,--wrap=strdup -o "$programs/count" \
        "$here/text_time.c" "$programs/libtext_library.a" -Wl,-Bstatic -lyaml -Wl,-Bdynamic
}

# Prints a row: $1 is the text, $2 its size, and the rest names it.
row() {
    local name=$1 size=$2 runs
    shift 2
    text "$name" "$size" > "$room/text"
    runs=${RUNS:-$(($(wc -c < "$room/text") > 400000 ? 40 : 200))}
    {
        "$programs/time" warm "$runs" < "$room/text"
        "$programs/time" fresh "$runs" < "$room/text"
        "$programs/count" < "$room/text"
    } > "$room/told"
    awk -F '\t' -v title="$*" '
        { events[NR] = $2; first[NR] = $3 }
        function near(number) { return sprintf(number >= 100 ? "%.0f" : number >= 10 ? "%.1f" : "%.2f", number) }
        function pair(at) { return sprintf("%s / %s | %.2f", near(first[at] / 1e6), near(first[at + 1] / 1e6), first[at] / first[at + 1]) }
        function held(at) { return sprintf("%s / %s", near(first[at] / 1e6), near(first[at + 1] / 1e6)) }
        END {
            if (events[1] != events[2] || events[1] != events[3] || events[1] != events[4]) {
                print "other events: " title
                exit 1
            }
            printf "| %s | %d | %s | %s | %s | %s | %s | %s |\n", title, events[1], pair(1), pair(3), pair(5), pair(7),
                held(9), held(11)
        }' "$room/told"
    [ -z "${TOLD-}" ] || { echo "# $*"; cat "$room/told"; } >> "$TOLD"
}

[ -e "$programs/libtext_library.a" ] || make_library
[ -x "$programs/time" ] || make_programs
[ $# -gt 0 ] || set -- small large
for size in "$@"; do
    if [ "$size" = small ]; then
        row mixed "" mixed
        row lines "" "20,000 lines \`- 7\`"
        row nested "" "20,000 \`- \` on one line"
        row pairs "" "12,000 pairs"
        row brackets "" "20,000 numbers in brackets"
        row quoted "" "8,000 double-quoted texts"
        row literal "" "5,000 literal blocks"
        row folded "" "a folded block of 10,000 lines"
        row key "" "a key of 200,000 bytes"
    else
        row mixed 4300 "mixed, 1.0 MB"
        row lines 100000 "100,000 lines \`- 7\`"
        row lines 1000000 "1,000,000 lines \`- 7\`"
        row nested 200000 "200,000 \`- \` on one line"
        row pairs 50000 "50,000 pairs"
        row pairs 500000 "500,000 pairs"
        row brackets 100000 "100,000 numbers in brackets"
        row brackets 1000000 "1,000,000 numbers in brackets"
        row quoted 48000 "48,000 double-quoted texts"
        row literal 25000 "25,000 literal blocks"
        row folded 70000 "a folded block of 70,000 lines"
        row key 1000000 "a key of 1,000,000 bytes"
    fi
done
