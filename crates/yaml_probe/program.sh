#!/bin/sh
# Runs the built program on inputs and tables that are too large for a line of rows, on a document of each shape that is
# cut off at each event, on a refused table without a case, and on the rows of memory.rows, and compares what it prints
# and its status. Ends with status 0 only if each run is as it should be.
#
# usage: program.sh [PROGRAM]   With no PROGRAM it is proved and built first, over what earlier checks kept in out/.
set -u
root=$(cd "$(dirname "$0")" && pwd)
. "$root/../../.ci/program.sh"
start "$root" "${1:-}"

# Wants these lines, and this status, 0 if none is named, of the program on the input that was made.
want() {
    count=$((count + 1))
    "$program" < "$work/in" > "$work/out"
    status=$?
    if [ "$status" != "${2:-0}" ] || ! cmp -s "$work/out" "$work/wanted"; then
        echo "program: $1: status $status, and not what is wanted:"
        head -c 300 "$work/out"
        failed=1
    fi
}

# A chain of 4,000 optionals, and an integer at its end.
awk 'BEGIN {
    for (shape = 1; shape <= 4000; shape++) print "option " shape
    print "i64\n"
    print "@@ chain shape:0\n0:0:0 +STR\n0:0:0 +DOC\n0:0:0 =VAL :7\n0:0:0 -DOC\n0:0:0 -STR"
    print "@@ absent shape:0\n0:0:0 +STR\n0:0:0 +DOC\n0:0:0 =VAL :~\n0:0:0 -DOC\n0:0:0 -STR"
}' > "$work/in"
awk 'BEGIN {
    for (shape = 1; shape <= 4000; shape++) { left = left "some("; right = right ")" }
    print "chain\t0\t\"" left "7" right "\""
    print "absent\t0\t\"none\""
}' > "$work/wanted"
want "a chain of optionals"

# 100,000 keys of any values, and one of them once more behind them.
awk 'function keys(number) {
    print "0:0:0 +STR\n0:0:0 +DOC\n0:0:0 +MAP"
    for (number = 0; number < 100000; number++) print "0:0:0 =VAL :k" number "\n0:0:0 =VAL :" number
}
BEGIN {
    print "any\n"
    print "@@ keys shape:0"
    keys()
    print "0:0:0 -MAP\n0:0:0 -DOC\n0:0:0 -STR"
    print "@@ twice shape:0"
    keys()
    print "0:0:0 =VAL \047k77777\n0:0:0 =VAL :1\n0:0:0 -MAP\n0:0:0 -DOC\n0:0:0 -STR"
}' > "$work/in"
awk 'BEGIN {
    printf "keys\t0\t\"{"
    for (number = 0; number < 100000; number++) printf "%s\\\"k%d\\\": %d", number ? ", " : "", number, number
    print "}\""
    print "twice\t1\t\"fault: duplicate entry with key \\\"k77777\\\"\""
}' > "$work/wanted"
want "a mapping of 100,000 keys"

# Nodes that are deep or wide, and the limits.
awk -v IN="$work/in" -v WANTED="$work/wanted" -f "$root/large.awk"
want "nodes that are deep or wide"

# Data that is written and calls, deep, wide or many.
awk -v IN="$work/in" -v WANTED="$work/wanted" -f "$root/large_calls.awk"
want "calls that are deep, wide or many"

# A table that is refused, and no case: only the status tells it.
printf 'option 0\n\n' > "$work/in"
: > "$work/wanted"
want "a refused table without a case" 1

# Tables of the most shapes and of one more, cycles of optionals, and structs of many names.
awk 'function shapes(shape, count) { while (count-- > 0) print shape }
function chain(last,    shape) {
    for (shape = 1; shape <= 4095; shape++) print "option " shape
    print last
}
function fields(count, last,    i) {
    printf "struct S"
    for (i = 0; i < count; i++) printf " f%d:0", i
    print " " last ":0"
}
function next_table(name) { print "\n@@ " name " expected:0\n%%" }
BEGIN {
    shapes("seq 0", 4096); next_table("lists")
    shapes("unit", 4097); next_table("one-more")
    shapes("seq 9999", 4097); next_table("one-more-outside")
    chain("unit"); next_table("chain")
    chain("option 0"); next_table("cycle")
    chain("option 4000"); next_table("late-cycle")
    fields(100000, "last"); next_table("fields")
    fields(100000, "f50000"); next_table("field-twice")
    for (i = 0; i < 4096; i++) fields(99, "last")
    print "\n@@ structs expected:0"
}' > "$work/in"
awk 'function told(name, status, text) { printf "%s\t%d\t\"%s\"\n", name, status, text }
BEGIN {
    told("lists", 0, "a sequence\\n")
    told("one-more", 1, "schema: more than 4096 shapes")
    told("one-more-outside", 1, "schema: more than 4096 shapes")
    told("chain", 0, "option\\n")
    told("cycle", 1, "schema: shape 0 is a cycle of options")
    told("late-cycle", 1, "schema: shape 4000 is a cycle of options")
    told("fields", 0, "struct S\\n")
    told("field-twice", 1, "schema: shape 0 has a name twice")
    told("structs", 0, "struct S\\n")
}' > "$work/wanted"
want "large tables" 1

# A document of each shape, cut off behind each of its events: always by what the parser said.
nodes='0 =VAL :true
1 =VAL :1
2 =VAL :x
3 +SEQ|=VAL :1|=VAL :2|-SEQ
4 +MAP|=VAL :k|=VAL :1|-MAP
5 +SEQ|=VAL :1|=VAL :2|-SEQ
6 +SEQ|=VAL :1|=VAL :2|-SEQ
7 +MAP|=VAL :a|=VAL :true|=VAL :b|=VAL :1|-MAP
8 +MAP|=VAL :a|=VAL :true|=VAL :b|=VAL :1|-MAP
9 +SEQ|=VAL :1|-SEQ
10 +SEQ|=VAL :1|-SEQ
11 +SEQ <!A>|=VAL :1|-SEQ
11 +MAP <!B>|=VAL :a|=VAL :true|-MAP
11 =VAL :C
12 +MAP|=VAL :k|+SEQ <!t>|=VAL :1|-SEQ|-MAP
13 +SEQ|+MAP|=VAL :k|=VAL &z :1|=VAL :l|=ALI *z|-MAP|-SEQ
14 =VAL :~
'
{
    printf '%s\n' bool i64 str 'seq 1' 'map 2 1' 'tuple 1 1' 'tuple_struct T 1 1' 'struct S a:0 b:1' \
        'strict_struct S a:0 b:1' 'option 3' 'newtype N 3' 'enum E A:newtype=3 B:struct=a.0 C:unit' any ignored unit ''
    printf '%s' "$nodes" | awk '{
        shape = $1
        sub(/^[0-9]+ /, "")
        count = split($0, event, "|")
        for (cut = 0; cut <= count; cut++) {
            print "@@ " NR "-" cut " shape:" shape "\n0:0:0 +STR\n0:0:0 +DOC"
            for (i = 1; i <= cut; i++) print "0:0:0 " event[i]
            print "10:1:0 !ERR PARSER 0 bad"
        }
    }'
} > "$work/in"
awk '/^@@ / { print $2 "\t1\t\"fault: bad at line 2 column 1\"" }' "$work/in" > "$work/wanted"
want "documents that were cut off"

# Rows that are answered with little memory, or with none.
export GLIBC_TUNABLES="$one_piece"
LC_ALL=C awk -v WANTED="$work/wanted" -f "$root/../../.ci/rows.awk" "$root/memory.rows" "$root/memory.rows" \
    > "$work/in" || exit 1
want "rows of refused memory"
[ "$failed" = 0 ] || diff "$work/wanted" "$work/out"

finish
