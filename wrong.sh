#!/bin/sh
# Tries the wrong bodies crates/NAME/wrong/*.edit, of each crate or of those named: a contract has to refuse each.
#
#     sh wrong.sh [--jobs N] [NAME | NAME/EDIT]..
#
# The edits are made in copies of the tree over the work that earlier checks kept, so `rt all check` comes first: several
# at once in one copy, where no two change one function, and the functions that they change are checked there and no
# others. What was not refused so is tried alone, at last by a check of the whole crate. An edit of what stands in no
# function has a line `refused by: FILE:NAME`, which names one that shows the mistake. A line an edit says how it ended;
# the last line counts them. Ends with status 0 only if a goal that did not prove refused each edit: among others a goal
# of a function that the edit changes. An edit that is not read, one that breaks types or borrows, and one that only
# takes away a name that a proof file cites show nothing of a contract, and are told apart. `--jobs` is how many copies
# are checked side by side, at first as many as there are processors, and memory for 3 GB each. Where WRONG_LOGS names a
# folder, the output of each check is kept there, and what it took, in seconds, in the file `times`.
set -u
export LC_ALL=C
root=$(cd "$(dirname "$0")" && pwd)
cd "$root" || exit 1

jobs=
if [ "${1-}" = --jobs ]; then
    jobs=${2:?--jobs wants a number}
    shift 2
fi
if [ -z "$jobs" ]; then
    jobs=$(nproc)
    room=$(awk '/^MemAvailable:/ { print int($2 / 3000000) }' /proc/meminfo)
    [ "$room" -ge "$jobs" ] || jobs=$room
    [ "$jobs" -ge 1 ] || jobs=1
fi
if [ $# = 0 ]; then
    for folder in crates/*/wrong; do
        set -- "$@" "$(basename "$(dirname "$folder")")"
    done
fi

# kept work is linked where this folder lies on the file system of the tree, else copied; TMPDIR says where it lies
work=$(mktemp -d)
trap 'rm -rf "$work"' EXIT
trap 'exit 1' HUP INT TERM

# Lists the edits, and the crates that they are of.
proved=' '
for named in "$@"; do
    name=${named%%/*}
    found=0
    one=${named#"$name"}
    for edit in "crates/$name/wrong"${one:-/*}.edit; do
        [ -e "$edit" ] || continue
        found=1
        printf '%s\n' "$edit" >> "$work/edits"
    done
    if [ "$found" = 0 ]; then
        echo "$named: there is no such edit below wrong/"
        exit 1
    fi
    case $proved in
        *" $name "*) continue ;;
    esac
    proved="$proved$name "
done

# What takes longest is begun first, and a crate takes the longer the more work it keeps.
by_size() {
    for name in $proved; do
        printf '%s %s\n' "$(du -s "crates/$name/out" 2> /dev/null | cut -f 1)" "$name"
    done | sort -rn | awk '{ print $NF }'
}
proved=" $(by_size | tr '\n' ' ')"

# Proves crates as they stand, in the copy of each job, until none is left that no other job has taken, since a refusal
# of an edit says nothing of a crate that is refused itself. In the tree itself they would wait for one another.
prove_crates() {
    tree=$work/tree.$1
    for name in $proved; do
        mkdir "$work/proof.$name" 2> /dev/null || continue
        begun=$(date +%s)
        (cd "$tree/crates/$name" && rt check --jobs 1) > "$work/proof.$name/log" 2>&1 || : > "$work/proof.$name/failed"
        keep_time "$name"
    done
}

# Runs a step in each job.
run_jobs() {
    job=0
    while [ "$job" -lt "$jobs" ]; do
        job=$((job + 1))
        "$1" "$job" &
    done
    wait
}

# Copies the crate $1 to the tree $2: its files, and links to the work that is kept, which a check replaces and never
# writes to.
copy_crate() {
    rm -rf "$2/crates/$1"
    mkdir -p "$2/crates/$1"
    for part in "crates/$1"/*; do
        case $part in
            */out) cp -al "$part" "$2/crates/$1/" 2> /dev/null || cp -a "$part" "$2/crates/$1/" ;;
            *) cp -a "$part" "$2/crates/$1/" ;;
        esac
    done
}

# Prints how the check ended whose status is $1, whose output is the file $2, and whose edit is $3.
verdict() {
    awk -v status="$1" '
        FNR == NR { if (/^file: /) edited[substr($0, 7)] = 1; next }
        { last = $0 }
        /^logic=not-proved/ { judged = 1 }
        !/^(note: )?[^ ]+:[0-9]+:[0-9]+: / { next }
        {
            said = $0
            sub(/^note: /, "", said)
            place = said
            sub(/:.*/, "", place)
        }
        / error\[/ { if (broken == "") broken = said }
        /^note: .*(: it is not proved that|found no proof)/ { if (goal == "") goal = said }
        / error: / {
            if (first == "") first = said
            # the prover names the declaration that it refused, unless it could not read the text; and a written
            # answer may name what the edit took away, or stand on one that does
            named = said ~ / error: `[^`]*`: /
            lost = said ~ /is not in scope|has no field|has no `|is no name|was not admitted/
            lost = lost || said ~ /\(nearest: |which was rejected/
            if ((place in edited || place ~ /^(src|specs)\//) && (!named || lost)) { if (unread == "") unread = said }
            else if (!lost && goal == "") goal = said
        }
        END {
            if (status == 0) print "NOT REFUSED: the crate is still proved"
            else if (broken != "") print "NOT READ: " broken
            else if (!judged) print "NO VERDICT: " last
            else if (unread != "") print "NOT READ: " unread
            else if (goal != "") print "refused: " goal
            else print "NO GOAL: " (first == "" ? last : first)
        }' "$3" "$2" | cut -c 1-240
}

# Says how an edit ended.
say() {
    printf '%s\n' "$1" | tee -a "$work/said"
}

# Keeps how long a step took that began at $begun, if that is wanted.
keep_time() {
    if [ -n "${WRONG_LOGS-}" ]; then
        printf '%s %s\n' "$(($(date +%s) - begun))" "$1" >> "$WRONG_LOGS/times"
    fi
}

# Keeps the output of a check, and how long it took, if that is wanted.
keep_log() {
    keep_time "$2"
    if [ -n "${WRONG_LOGS-}" ] && [ -e "$1" ]; then
        mv "$1" "$WRONG_LOGS/$2.log"
    fi
}

# Makes a copy of the tree.
copy_tree() {
    mkdir "$1"
    cp crates.txt HANDLES "$1/"
    for folder in crates/*/; do
        copy_crate "$(basename "$folder")" "$1"
    done
}

# Prints the full names of the functions of the crate $1 that the others name as FILE:NAME: those that end in the name and
# lie in the file, or all of the crate that end so where none does, since a method may stand in another file than its
# type. The proof's log names functions of lower crates too, which no edit of this one changes.
full_names() {
    crate=$1
    shift
    awk -v crate="$crate" -v keys="$*" '
        function is_end(end, full) { return substr(full, length(full) - length(end) + 1) == end }
        /^(fn|checked) / {
            full = $2
            sub(/[:,]$/, "", full)
            if (index(full, crate "::") == 1) known[full] = 1
        }
        END {
            wanted = split(keys, key, " ")
            for (i = 1; i <= wanted; i++) {
                split(key[i], part, ":")
                sub(/^src\//, "", part[1])
                sub(/\.rt$/, "", part[1])
                gsub(/\//, "::", part[1])
                inside = 0
                for (full in known) if (is_end("::" part[2], full) && index(full, crate "::" part[1] "::") == 1) inside++
                for (full in known) {
                    if (!is_end("::" part[2], full)) continue
                    if (!inside || index(full, crate "::" part[1] "::") == 1) names[full] = 1
                }
            }
            for (full in names) print full
        }' "$work/proof.$crate/log"
}

# Checks some functions of the edited crate $1, which the others name as FILE:NAME, and no more, in the folder of the
# crate; nothing where none of them is known.
check_functions() {
    : > "$tree/log"
    names=$(full_names "$@")
    [ -n "$names" ] || return
    # shellcheck disable=SC2046
    rt check --jobs 1 $(printf -- ' --only %s' $names) > "$tree/log" 2>&1
}

# Prints the goal that refused one of the functions, named as FILE:NAME by the second and later arguments, in the check
# that was made last; or, where $1 is "broken", an error of types or borrows in one of them.
refusal() {
    ended=$1
    shift
    awk -v keys="$*" -v broken="$ended" -f "$root/.ci/refusals.awk" < "$tree/log" | cut -c 1-200
}

# Tries batches until none is left that no other job has taken. An edit is left for later that no goal of a function
# that it changes refuses; one that breaks types or borrows there is left to be tried alone.
try_batches() {
    tree=$work/tree.$1
    while read -r name number; do
        mkdir "$work/batch.$name.$number" 2> /dev/null || continue
        begun=$(date +%s)
        grep "^$number " "$work/batches.$name" > "$tree/batch"
        cd "$tree/crates/$name" || exit 1
        : > "$tree/made"
        while read -r _ edit keys; do
            if awk -f "$root/.ci/apply.awk" "$edit" > /dev/null; then
                printf '%s %s\n' "$edit" "$keys" >> "$tree/made"
            else
                echo "crates/$name/$edit" >> "$work/alone"
            fi
        done < "$tree/batch"
        # shellcheck disable=SC2046
        check_functions "$name" $(cut -d ' ' -f 2- "$tree/made")
        kind=goals
        ! grep -q ' error\[' "$tree/log" || kind=broken
        while read -r edit keys; do
            # shellcheck disable=SC2086
            found=$(refusal $kind $keys)
            if [ -z "$found" ]; then
                echo "crates/$name/$edit" >> "$work/alone"
            elif [ "$kind" = broken ]; then
                echo "crates/$name/$edit" >> "$work/broken"
            else
                say "$name: $(basename "$edit" .edit): refused: $found"
            fi
        done < "$tree/made"
        cd "$root" || exit 1
        keep_log "$tree/log" "$name.round$round.batch$number"
        copy_crate "$name" "$tree"
    done < "$work/batches"
}

# Tries edits alone until none is left that no other job has taken.
try_edits() {
    tree=$work/tree.$1
    while IFS= read -r edit; do
        name=$(basename "$(dirname "$(dirname "$edit")")")
        title="$name: $(basename "$edit" .edit)"
        mkdir "$work/$name.$(basename "$edit")" 2> /dev/null || continue
        begun=$(date +%s)
        cd "$tree/crates/$name" || exit 1
        keys=$(awk -f "$root/.ci/batches.awk" "$root/$edit" | cut -d ' ' -f 3-)
        if why=$(awk -f "$root/.ci/apply.awk" "$root/$edit"); then
            # shellcheck disable=SC2086
            check_functions "$name" $keys
            line="refused: $(refusal goals $keys)"
            if [ "$line" = "refused: " ]; then
                rt check --jobs 1 > "$tree/log" 2>&1
                line=$(verdict $? "$tree/log" "$root/$edit")
            fi
        else
            line="NOT READ: $why"
        fi
        cd "$root" || exit 1
        say "$title: $line"
        keep_log "$tree/log" "$name.$(basename "$edit" .edit)"
        # the next edit may be of a crate that stands on this one
        copy_crate "$name" "$tree"
    done < "$work/alone"
}

# Lists the edits that are left, in batches of each crate.
make_batches() {
    : > "$work/batches"
    rm -rf "$work"/batch.*
    for name in $proved; do
        sed -n "s|^crates/$name/||p" "$work/alone" > "$work/of_crate"
        [ -s "$work/of_crate" ] || continue
        (cd "crates/$name" && xargs awk -f "$root/.ci/batches.awk") < "$work/of_crate" > "$work/batches.$name"
        cut -d ' ' -f 1 "$work/batches.$name" | sort -n | uniq -c | awk -v name="$name" '{ print name, $2, $1 }' \
            >> "$work/batches"
    done
    # small batches, each of which takes one check or two of a function, fill what is left of the time
    awk '$3 > 2 { print $1, $2 } $3 <= 2 { small[++count] = $1 " " $2 } END { for (i = 1; i <= count; i++) print small[i] }' \
        "$work/batches" > "$work/sorted"
    mv "$work/sorted" "$work/batches"
    : > "$work/alone"
}

job=0
while [ "$job" -lt "$jobs" ]; do
    job=$((job + 1))
    copy_tree "$work/tree.$job"
done

run_jobs prove_crates
for name in $proved; do
    [ -e "$work/proof.$name/failed" ] || continue
    echo "$name: it is not proved without an edit"
    tail -n 3 "$work/proof.$name/log"
    exit 1
done

# Where an edit's function calls one that another edit of the batch breaks, its goals are not tried: so what is left is
# put into batches again, as long as that shows anything.
: > "$work/said"
: > "$work/broken"
cp "$work/edits" "$work/alone"
left=$(wc -l < "$work/alone")
before=$((left + 1))
round=0
while [ "$left" -gt 1 ] && [ "$left" -lt "$before" ]; do
    before=$left
    round=$((round + 1))
    make_batches
    run_jobs try_batches
    left=$(wc -l < "$work/alone")
done
cat "$work/broken" >> "$work/alone"
run_jobs try_edits
awk -v wanted="$(wc -l < "$work/edits")" '
    / refused: / { refused++ }
    END {
        printf "wrong: %d edits, %d refused by a goal, %d not\n", wanted, refused, wanted - refused
        exit refused != wanted
    }' "$work/said"
