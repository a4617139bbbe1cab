#!/usr/bin/env bash
# Prints how many instructions an event takes from text to tape by `yaml_direct`, and to a list of events by tokens, the
# events let go too, as rows of docs/PERFORMANCE.md; and a row of how many a byte takes of real files.
#
#     bash bench/tape.sh PROGRAM [LIST]
#
# PROGRAM is one that `FAST=1 KEEP=PROGRAM python3 tools/compare_direct.py ..` kept. LIST names a file, whose lines name
# the real files. Wanted is valgrind.
set -eu
export LC_ALL=C
here=$(cd "$(dirname "$0")" && pwd)
room=$(mktemp -d)
trap 'rm -rf "$room"' EXIT
. "$here/texts.sh"
program=$1

# Prints how many instructions a task of the program takes on files, besides reading them.
count() {
    local task=$1 told=()
    shift
    for task in "$task" read; do
        told+=("$(valgrind --tool=callgrind --callgrind-out-file=/dev/null "$program" "$task" "$@" 2>&1 > /dev/null |
            awk '/Collected/ { print $4 }')")
    done
    echo "$((told[0] - told[1]))"
}

# Prints the row of the text on standard input.
row() {
    cat > "$room/text"
    awk -v title="$1" -v events="$("$program" count "$room/text")" -v tape="$(count count "$room/text")" \
        -v tokens="$(count count_today "$room/text")" \
        'BEGIN { printf "| %s | %.0f | %.0f |\n", title, tape / events, tokens / events }'
}

text lines | row '20,000 lines `- 7`'
text lines | sed 's/$/\r/' | row 'with carriage returns'
text pairs | row '12,000 pairs'
text brackets | row '20,000 numbers in brackets'
text quoted | row '8,000 double-quoted texts'
text literal | row '5,000 literal blocks of two lines'
text literal | sed 's/^  and more of it$/&\n  and the rest of it/' | row '5,000 literal blocks of three lines'
if [ $# -gt 1 ]; then
    mapfile -t files < "$2"
    size=$(cat "${files[@]}" | wc -c)
    awk -v files="${#files[@]}" -v size="$size" -v tape="$(count count "${files[@]}")" \
        -v tokens="$(count count_today "${files[@]}")" \
        'BEGIN {
            printf "| a byte of %d files, %.1f MB", files, size / 1e6
            printf " | %.1f | %.1f |\n", tape / size, tokens / size
        }'
fi
