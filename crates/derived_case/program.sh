#!/bin/sh
# Gives the built program the rows of memory.rows, and compares what it prints and its status. Ends with status 0 only if
# each row has the answer that stands behind it.
#
# usage: program.sh [PROGRAM]   With no PROGRAM it is proved and built first, over what earlier checks kept in out/.
set -u
root=$(cd "$(dirname "$0")" && pwd)
. "$root/../../.ci/program.sh"
start "$root" "${1:-}"

sed 's/  => .*//' "$root/memory.rows" > "$work/in"
count=$(grep -c '^[^#]' "$work/in")
GLIBC_TUNABLES="$one_piece" "$program" < "$work/in" > "$work/out"
status=$?
if [ "$status" != 0 ] || ! diff "$root/memory.rows" "$work/out"; then
    echo "program: rows of refused memory: status $status, and not what is wanted"
    failed=1
fi

finish
