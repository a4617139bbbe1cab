#!/bin/sh
# Runs the built program on each run of runs.txt, and on inputs and outputs that no text says, and compares its standard
# output, its standard error, which stays empty, and its status. Ends with status 0 only if each run is as it should be.
#
# usage: program.sh [PROGRAM]   With no PROGRAM it is proved and built first, over what earlier checks kept in out/.
set -u
root=$(cd "$(dirname "$0")" && pwd)
. "$root/../../.ci/program.sh"
start "$root" "${1:-}" -- map

line_feed='
'

# Compares what a run wrote, and its status, with what is wanted.
compare() {
    title=$1 status=$2 wanted=$3
    count=$((count + 1))
    printf '%s' "$4" > "$work/wanted"
    if [ "$status" != "$wanted" ]; then
        echo "program: $title: status $status, not $wanted"
        failed=1
    fi
    if ! cmp -s "$work/out" "$work/wanted"; then
        echo "program: $title: wrong output:"
        head -c 300 "$work/out"
        failed=1
    fi
    if [ -s "$work/err" ]; then
        echo "program: $title: something stands on standard error:"
        head -c 300 "$work/err"
        failed=1
    fi
}

# A list of so many sevens, as it prints.
sevens() {
    awk -v count="$1" 'BEGIN {
        printf "[7"
        for (i = 1; i < count; i++) printf ", 7"
        print "]"
    }'
}

# The runs of runs.txt. Where the arguments are refused, all of the input has to be left.
LC_ALL=C awk -v FOLDER="$work" -f "$root/../../.ci/runs.awk" "$root/runs.txt" || exit 1
number=1
while [ -e "$work/$number.in" ]; do
    arguments=$(cat "$work/$number.arguments")
    eval "set -- $arguments"
    {
        "$program" "$@" > "$work/out" 2> "$work/err"
        status=$?
        cat > "$work/left"
    } < "$work/$number.in"
    compare "run $number ($arguments)" "$status" "$(cat "$work/$number.status")" "$(cat "$work/$number.out")$line_feed"
    if [ "$(cat "$work/out")" = "bad argument" ] && ! cmp -s "$work/left" "$work/$number.in"; then
        echo "program: run $number ($arguments): some of the input was read"
        failed=1
    fi
    number=$((number + 1))
done

# A read that fails, and a write that fails.
cat > "$work/in" << 'END'
0:0:0 +STR
0:0:0 +DOC
0:0:0 +SEQ
0:0:0 =VAL :7
0:0:0 -SEQ
0:0:0 -DOC
0:0:0 -STR
END
"$program" list < / > "$work/out" 2> "$work/err"
compare "a folder as standard input" $? 2 ""
"$program" list <&- > "$work/out" 2> "$work/err"
compare "closed standard input" $? 2 ""
: > "$work/out"
"$program" list < "$work/in" >&- 2> "$work/err"
compare "closed standard output" $? 2 ""
"$program" < "$work/in" >&- 2> "$work/err"
compare "closed standard output and no argument" $? 2 ""
if [ -w /dev/full ]; then
    "$program" list < "$work/in" > /dev/full 2> "$work/err"
    compare "full standard output" $? 2 ""
fi

# An input of twenty million bytes: a hundred thousand lines of 200.
awk 'BEGIN {
    tag = sprintf("%183s", "")
    gsub(/ /, "x", tag)
    print "0:0:0 +STR\n0:0:0 +DOC\n0:0:0 +SEQ"
    for (i = 0; i < 100000; i++) print "0:0:0 =VAL <" tag "> :7"
    print "0:0:0 -SEQ\n0:0:0 -DOC\n0:0:0 -STR"
}' > "$work/long"
"$program" list < "$work/long" > "$work/out" 2> "$work/err"
compare "an input of twenty million bytes" $? 0 "$(sevens 100000)$line_feed"

# Memory that runs out: while the input is read; at the least limit under which the program starts, while the arguments
# are gathered; and with a little more each time from there on, wherever that is, until a run is answered.
if command -v prlimit > /dev/null; then
    yes '0:0:0 =VAL :7' | head -n 1000000 > "$work/large"
    prlimit --as=30000000 "$program" list < "$work/large" > "$work/out" 2> "$work/err"
    compare "an input that is too large" $? 1 "fault: out of memory$line_feed"
    name=$(head -c 100000 /dev/zero | tr '\0' x)
    for limit in 30 32 34 36 38 40 42 44 46 48 50; do
        prlimit --as="${limit}00000" "$program" "$name" "$name" "$name" "$name" "$name" "$name" "$name" "$name" \
            "$name" "$name" "$name" "$name" "$name" "$name" < "$work/in" > "$work/out" 2> "$work/err"
        status=$?
        [ "$status" = 127 ] || break
    done
    compare "arguments that are too large" "$status" 1 "fault: out of memory$line_feed"
    awk 'BEGIN {
        print "0:0:0 +STR\n0:0:0 +DOC\n0:0:0 +SEQ"
        for (i = 0; i < 5000; i++) print "0:0:0 =VAL :7"
        print "0:0:0 -SEQ\n0:0:0 -DOC\n0:0:0 -STR"
    }' > "$work/long"
    refused=0
    limit=3000000
    while [ "$limit" -lt 30000000 ]; do
        prlimit --as="$limit" "$program" list < "$work/long" > "$work/out" 2> "$work/err"
        status=$?
        [ "$status" = 0 ] && break
        if [ "$status" != 127 ]; then
            compare "$limit bytes of memory" "$status" 1 "fault: out of memory$line_feed"
            refused=$((refused + 1))
        fi
        limit=$((limit + 40000))
    done
    compare "enough memory" "$status" 0 "$(sevens 5000)$line_feed"
    if [ "$refused" -lt 10 ]; then
        echo "program: of the runs with little memory, only $refused were refused"
        failed=1
    fi
fi

finish
