#!/usr/bin/env bash
# Prints the user time of the program on large inputs, the least of RUNS runs (5 at first), as rows of
# docs/PERFORMANCE.md.
#
#     bash bench/lines.sh [PROGRAM]
#
# PROGRAM is by default crates/yaml_case/out/yaml_case, which `rt run` in crates/yaml_case builds.
set -eu
export LC_ALL=C
root=$(cd "$(dirname "$0")/.." && pwd)
program=${1:-$root/crates/yaml_case/out/yaml_case}
if [ ! -x "$program" ]; then
    echo "lines: there is no program $program"
    exit 1
fi
room=$(mktemp -d)
trap 'rm -rf "$room"' EXIT

# Prints the lines of an input of the size $2: the events of the row $1.
lines() {
    awk -v row="$1" -v size="$2" '
        function say(text) { print "0:0:0 " text }
        function pair(name) { say("=VAL &" name " :1"); say("=ALI *" name) }
        BEGIN {
            say("+STR")
            if (row == "documents") for (i = 0; i < size; i++) { say("+DOC"); say("=VAL :" i); say("-DOC") }
            else {
                say("+DOC")
                say("+SEQ")
                if (row == "integers") for (i = 0; i < 2 * size; i++) say("=VAL :" i)
                if (row == "rising") for (i = 1; i <= size; i++) pair(sprintf("a%07d", i))
                if (row == "falling") for (i = size; i >= 1; i--) pair(sprintf("a%07d", i))
                if (row == "mixed") for (i = 1; i <= size; i++) pair(sprintf("a%010d", i * 48271 % 2147483647))
                if (row == "one") for (i = 0; i < size; i++) pair("a")
                if (row == "nested") { for (i = 1; i < size; i++) say("+SEQ"); say("!ERR PARSER 0 cut"); exit }
                say("-SEQ")
                say("-DOC")
            }
            say("-STR")
        }'
}

# Prints the least user time, in seconds, of the program with the argument $1 on the input $2.
least() {
    for _ in $(seq "${RUNS:-5}"); do
        TIMEFORMAT=%3U
        { time "$program" "$1" < "$2" > "$room/out" || true; } 2>&1
    done | sort -n | head -n 1
}

# Prints a row: $1 names it, $2 is the argument, $3 the row's events, and the rest are sizes.
row() {
    local title=$1 name=$2 events=$3 cells=
    shift 3
    for size in "$@"; do
        lines "$events" "$size" > "$room/in"
        cells="$cells $(least "$name" "$room/in") s |"
    done
    echo "| $title |$cells"
}

row "documents of one integer, the first read as \`i64\`, which refuses several" i64 documents 100000 1000000
row "a list of integers, twice as many" list integers 100000 1000000
row "different anchors in rising order, each followed by its alias" list rising 100000 1000000
row "different anchors in falling order, each followed by its alias" list falling 100000 1000000
row "different anchors in no order, each followed by its alias" list mixed 100000 1000000
row "one anchor, given again before each alias" list one 100000 1000000
row "starts of sequences, one within another, cut off by the parser's fault, which a list refuses" \
    list nested 100000 1000000
