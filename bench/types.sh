#!/usr/bin/env bash
# Times texts that are read as values of types and values that are printed as texts, beside the original crate where it
# is there, and prints rows of docs/PERFORMANCE.md: nanoseconds an element and the ratio of both, first in processes that
# keep freed memory, each the least of many runs, then in processes that have done nothing before, each the least of four;
# and the most memory that such a process held, in megabytes, of which the python that asks for it holds some 13. The
# sides run by turns.
#
#     bash bench/types.sh [TASK[/KIND]]..
#
# TASK is `read` (from text), `print` (to text), `parse` (from text to events), `load` (from events) or `write` (to
# events); KIND is what is read: integers, texts, lent, pairs, lists, any, config, documents, which are all loaded first,
# or streamed ones, loaded one at a time, as the original has both. Without one all are run.
# The original shows its events to nobody: the last three tasks have a side of it only where PROGRAMS holds a program
# `original_events` that takes the same arguments, `read` too, made of the crate with a list in place of its parser and
# emitter.
#
# ORIGINAL names a folder with the crate serde_yaml 0.9.34, which cargo can build there; without it the port is timed
# alone. PROGRAMS names a folder in which what is built is kept, and taken from there by a later run. SIZES are numbers
# of elements, at first 10000 and 1000000. With COUNT=1 rows tell instructions in place of nanoseconds, counted by
# valgrind, which do not depend on what else a machine does, at first with 10000 elements alone. The port's program is
# made over a copy of the crates, and `rt` proves and builds it, which takes some minutes, and more where the crates are
# not proved yet; with FAST=1 tools/fast_build.py builds it without proofs.
set -eu
export LC_ALL=C
here=$(cd "$(dirname "$0")" && pwd)
room=$(mktemp -d)
trap 'rm -rf "$room"' EXIT
. "$here/texts.sh"
programs=${PROGRAMS:-$room/programs}
mkdir -p "$programs"

# Builds the port's program, over what earlier checks kept of the crates.
make_port() {
    local crates crate
    crates=$(sed -n 's/^yaml: //p; s/^serde_yaml: //p' "$here/../crates.txt" | tr ' ' '\n' | sort -u | grep -v '^serde$')
    crates="$crates yaml serde_yaml"
    mkdir -p "$room/port/crates/bench_port/src"
    for crate in $crates; do
        # a crate of the toolchain has no folder here
        [ -d "$here/../crates/$crate" ] || continue
        cp -al "$here/../crates/$crate" "$room/port/crates/" 2> /dev/null || cp -a "$here/../crates/$crate" "$room/port/crates/"
        grep "^$crate:" "$here/../crates.txt" >> "$room/port/crates.txt"
    done
    echo "bench_port: serde" $crates >> "$room/port/crates.txt"
    cp "$here/port.rt.in" "$room/port/crates/bench_port/src/main.rt"
    if [ -n "${FAST-}" ]; then
        (cd "$room/port" && "$here/../tools/fast_build.py" bench_port "$programs/port")
        return
    fi
    (cd "$room/port/crates/bench_port" && rt run < /dev/null > "$room/log" 2>&1) || { tail -n 20 "$room/log"; exit 1; }
    cp "$room/port/crates/bench_port/out/bench_port" "$programs/port"
}

# Builds the original's program.
make_original() {
    mkdir -p "$room/original/src"
    cp "$here/original.rs" "$room/original/src/main.rs"
    [ ! -d "$ORIGINAL/.cargo" ] || cp -r "$ORIGINAL/.cargo" "$room/original/"
    cat > "$room/original/Cargo.toml" << TOML
[package]
name = "bench_original"
version = "0.0.0"
edition = "2021"
[dependencies]
serde = { version = "1.0", features = ["derive"] }
serde_yaml = { path = "$ORIGINAL" }
[profile.release]
opt-level = 3
lto = true
TOML
    (cd "$room/original" && cargo build --release --offline > "$room/log" 2>&1) || { tail -n 20 "$room/log"; exit 1; }
    cp "$room/original/target/release/bench_original" "$programs/original"
}

# The program of the original that does the task, if it is there.
other_side() {
    local name=original
    case $1 in parse | load | write) name=original_events ;; esac
    [ ! -x "$programs/$name" ] || echo "$name"
}

# The most memory that a program of $1 held on the text, in megabytes.
memory() {
    command -v python3 > /dev/null || { echo -; return; }
    python3 - "$@" "$room/text" << 'PY'
import resource, subprocess, sys
subprocess.run(sys.argv[1:-1], stdin=open(sys.argv[-1]), stdout=subprocess.DEVNULL)
print("%.0f" % (resource.getrusage(resource.RUSAGE_CHILDREN).ru_maxrss / 1024))
PY
}

# The instructions of so many runs of a program $1 on the text, and all that stands around them.
instructions() {
    valgrind --tool=callgrind --callgrind-out-file=/dev/null "$programs/$1" "$2" "$3" "$4" < "$room/text" 2>&1 > /dev/null |
        awk '/Collected/ { print $4 }'
}

# The instructions of one run: what a third run takes more than two. Before it prints or writes, a run reads, and before
# it loads events, it parses them.
count() {
    local took
    took=$(($(instructions "$1" "$2" "$3" 3) - $(instructions "$1" "$2" "$3" 2)))
    case $2 in
        print | write) took=$((took - $(count "$1" read "$3"))) ;;
        load) took=$((took - $(count "$1" parse "$3"))) ;;
    esac
    echo "$took"
}

# Prints the row of a task on a kind of text with so many elements, in instructions.
counted_row() {
    local task=$1 kind=$2 size=$3 own side other=
    typed_text "$kind" "$size" > "$room/text"
    [ "$kind" != config ] || size=1
    own=$(count port "$task" "$kind")
    side=$(other_side "$task")
    [ -z "$side" ] || other=$(count "$side" "$task" "$kind")
    awk -v task="$task" -v kind="$kind" -v size="$size" -v own="$own" -v other="$other" 'BEGIN {
        printf "| %s | %s | %d | %.0f", task, kind, size, own / size
        if (other != "") printf " / %.0f | %.2f |\n", other / size, own / other
        else print " | |"
    }'
}

# The nanoseconds of a task by a program $1 in a process that keeps freed memory, the least of so many runs, or, with one
# run, in a process that has done nothing before.
took() {
    local keep=() found
    [ "$4" = 1 ] || keep=(MALLOC_MMAP_THRESHOLD_=8589934592 MALLOC_TRIM_THRESHOLD_=17179869184)
    found=$(env "${keep[@]}" "$programs/$1" "$2" "$3" "$4" < "$room/text")
    [ -n "$found" ] || { echo "$2 $3: $1 does not do it" >&2; exit 1; }
    echo "$1 $5 $found" >> "$room/times"
}

# Prints the row of a task on a kind of text with so many elements.
row() {
    local task=$1 kind=$2 size=$3 runs turn side other held=- others=-
    typed_text "$kind" "$size" > "$room/text"
    [ "$kind" != config ] || size=1
    runs=$((3000000 / (size * 10) + 3))
    other=$(other_side "$task")
    for turn in 1 2 3 4; do
        for side in port $other; do
            took "$side" "$task" "$kind" "$((runs > 300 ? 300 : runs))" kept
            took "$side" "$task" "$kind" 1 fresh
        done
    done
    held=$(memory "$programs/port" "$task" "$kind" 1)
    [ -z "$other" ] || others=$(memory "$programs/$other" "$task" "$kind" 1)
    awk -v task="$task" -v kind="$kind" -v size="$size" -v other="$other" -v held="$held" -v others="$others" '
        !(($1, $2) in least) || $3 < least[$1, $2] { least[$1, $2] = $3 }
        function told(way, own, its) {
            own = least["port", way] / size
            its = least[other, way] / size
            return other == "" ? sprintf("%.1f | ", own) : sprintf("%.1f / %.1f | %.2f", own, its, own / its)
        }
        END { printf "| %s | %s | %d | %s | %s | %s / %s |\n", task, kind, size, told("kept"), told("fresh"), held, others }
    ' "$room/times"
    rm "$room/times"
}

[ -x "$programs/port" ] || make_port
[ -x "$programs/original" ] || [ -z "${ORIGINAL-}" ] || make_original
[ $# -gt 0 ] || set -- read print parse load write
for wanted in "$@"; do
    case ${wanted%%/*} in
        read) kinds="integers texts lent pairs lists any config documents streamed" ;;
        print) kinds="integers texts pairs any config" ;;
        parse) kinds="integers texts pairs lists any" ;;
        load) kinds="integers texts lent pairs lists any config" ;;
        write) kinds="integers texts pairs config" ;;
        *) echo "there is no task $wanted"; exit 1 ;;
    esac
    [ "$wanted" = "${wanted#*/}" ] || kinds=${wanted#*/}
    for kind in $kinds; do
        for size in ${SIZES:-10000 $([ -n "${COUNT-}" ] || echo 1000000)}; do
            ${COUNT:+counted_}row "${wanted%%/*}" "$kind" "$size"
            # a configuration has one size
            [ "$kind" != config ] || break
        done
    done
done
