#!/bin/sh
# Runs all rows and tests without proofs: the tests of each crate by `rt try --test`, and each program on its stored run
# by `rt try`. Prints each failure, and in the last line how many passed and failed. Status 0 only if none failed.
#
# The runs of crates/NAME/program.sh, which need the built program, are left to the gate, sh .ci/run: of those of
# yaml_case, the ones that read a shape are read here by yaml_probe. Its rows of refused memory use up a process's
# memory, which ends it under the allocator of rt try.
#
# usage: test.sh [CRATE..]   With no CRATE all are run.
#   JOBS=N        N crates at a time, each of which takes up to 1.3 GB; else as many as there are processors
#   RT_SECONDS=N  the seconds that a test may take; else 900
set -u
cd "$(dirname "$0")"

# Adds to the counts of a crate: how many passed, and how many failed.
count() {
    echo "$1 $2" >> "$work/$crate.count"
}

# Tries the tests of a crate.
tests() {
    (cd "crates/$crate" && rt try --test) > "$work/$crate.tests" 2>&1 < /dev/null
    if ! grep -q '^test result: ' "$work/$crate.tests"; then
        echo "$crate: its tests do not run:"
        tail -n 20 "$work/$crate.tests"
        count 0 1
        return
    fi
    awk -v crate="$crate" -v counts="$work/$crate.count" '
        /^test result: / { next }
        /^test .* \.\.\. / {
            failing = $NF != "ok"
            if (failing) print crate ": " $0
            if (failing) failed++; else passed++
            shown = 0
            next
        }
        /^ / && failing && shown++ < 12
        END { print passed + 0, failed + 0 >> counts }
    ' "$work/$crate.tests"
}

# What a program is given, and what it must write, as files of the folder.
stored_run() {
    cp "crates/$crate/stdin" "$work/$crate.in"
    cp "crates/$crate/stdout" "$work/$crate.wanted"
    [ "$crate" = yaml_probe ] || return 0
    echo %% >> "$work/$crate.in"
    LC_ALL=C awk -v WANTED="$work/runs" -f .ci/runs.awk crates/yaml_case/runs.txt >> "$work/$crate.in"
    cat "$work/runs" >> "$work/$crate.wanted"
}

# Tries a program on its stored run. Each line of its output counts, and its status.
program() {
    stored_run
    wanted=$(cat "crates/$crate/status" 2> /dev/null || echo 0)
    # one argument a line
    arguments=$(cat "crates/$crate/args" 2> /dev/null)
    old_ifs=$IFS
    IFS='
'
    set -f
    (cd "crates/$crate" && rt try -- $arguments) < "$work/$crate.in" > "$work/$crate.out" 2> "$work/$crate.err"
    status=$?
    set +f
    IFS=$old_ifs
    if [ "$status" = "$wanted" ]; then
        count 1 0
    else
        echo "$crate: status $status, and not $wanted:"
        tail -n 5 "$work/$crate.err"
        count 0 1
    fi
    awk -v crate="$crate" -v counts="$work/$crate.count" '
        FNR == NR { wanted[rows = FNR] = $0; next }
        FNR <= rows && $0 == wanted[FNR] { passed++; next }
        FNR <= rows { print crate ": wanted " wanted[FNR] "\n" crate ": got    " $0 }
        { failed++ }
        END {
            if (FNR < rows || NR == rows) {
                missing = rows - (NR - rows)
                print crate ": " missing " lines are missing"
                failed += missing
            }
            print passed + 0, failed + 0 >> counts
        }
    ' "$work/$crate.wanted" "$work/$crate.out"
}

# A crate by itself, as xargs calls it below.
if [ "${1:-}" = --one ]; then
    crate=$3 work=$4
    "$2" > "$work/$crate.$2.failures" 2>&1
    cat "$work/$crate.$2.failures"
    exit 0
fi

work=$(mktemp -d)
trap 'rm -rf "$work"' EXIT
trap 'exit 1' HUP INT TERM
export RT_SECONDS="${RT_SECONDS:-900}"

crate=rows
if sh .ci/rows.sh --check; then count 1 0; else count 0 1; fi

# The crates, those with the most code first.
for source in crates/*/src; do
    name=$(basename "$(dirname "$source")")
    [ $# = 0 ] || case " $* " in *" $name "*) ;; *) continue ;; esac
    size=$(find "$source" -name '*.rt' -exec cat {} + | wc -c)
    [ -e "$source/main.rt" ] && [ -e "crates/$name/stdout" ] && echo "$size program $name"
    grep -rq '#\[test\]' "$source" && echo "$size tests $name"
done | sort -rn | cut -d ' ' -f 2- > "$work/crates"
xargs -P "${JOBS:-$(nproc 2> /dev/null || echo 2)}" -L 1 sh -c 'sh test.sh --one "$2" "$3" "$1"' sh "$work" < "$work/crates"

echo "left to the gate: the runs of built programs (crates/*/program.sh), those with refused memory among them"
cat "$work"/*.count | awk '
    { passed += $1; failed += $2 }
    END { print passed + 0 " passed, " failed + 0 " failed"; exit failed > 0 }
'
