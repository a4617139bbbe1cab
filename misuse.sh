#!/bin/sh
# Shows what must not compile, and what must not stand in a source.
#
# Each crates/NAME/misuse/*.edit is applied to a copy of the tree, and the check of names and borrows, which proves
# nothing, has to refuse it with a borrow error and no other. Without the text of its line `misuse:` the same edit has
# to pass that check. Ends with status 0 only if all of it is so.
set -u
export LC_ALL=C
root=$(cd "$(dirname "$0")" && pwd)
cd "$root" || exit 1
failed=0

# No contract says that a copy made by `Clone` is equal, so a `Clone` is derived and never written by hand; and none
# says that memory is given back, so nothing is forgotten or leaked in place of being dropped. A proof would pass both.
forgotten='mem::forget|ManuallyDrop|(^|[^_[:alnum:]])forget\(|[.:]leak\(|into_raw'
cloned='impl(<.*>)? +([a-z]+::)*Clone +for '
if grep -rnE "$forgotten|$cloned" --include='*.rt' crates/*/src; then
    echo "misuse: a value is forgotten, or Clone is written by hand, in the lines above"
    failed=1
fi

# Contracts count the events that a reading goes over by its walk. Those that another walk goes over, or that one whose
# count is begun anew went over before, would be in no count. So one walk is made of a document and one of a single node,
# each with its count, and one count for a cursor, beside those that the two functions of `Tally` make.
made() {
    grep -rnE "$1" --include='*.rt' crates/yaml_read/src | grep -vE "$2"
}
walks=$(made '(^|[^_[:alnum:]])Walk *\{' '(struct|impl|let) Walk \{$')
counts=$(made '(^|[^_[:alnum:]])Tally(::new\(| *\{)' '(struct|impl|for) Tally \{$')
if [ "$(printf '%s\n' "$walks" | wc -l) $(printf '%s\n' "$counts" | wc -l)" != "2 5" ]; then
    printf '%s\n' "$walks" "$counts"
    echo "misuse: other walks or counts than those are made in the lines above"
    failed=1
fi

copy=$(mktemp -d)
trap 'rm -rf "$copy"' EXIT
trap 'exit 1' HUP INT TERM

# Prints how the check of names and borrows ends for the edit $1 of the crate $2, with its misuse, or without where $3
# is 1.
check() {
    rm -rf "$copy/tree"
    mkdir "$copy/tree"
    tar cf - --exclude=out --exclude=.git . | (cd "$copy/tree" && tar xf -)
    cd "$copy/tree/crates/$2" || exit 1
    if ! awk -v control="$3" -f "$root/.ci/apply.awk" "$root/$1"; then
        :
    else
        # with a test to run, sources are read as far as borrows without a proof
        for file in src/lib.rt src/main.rt; do
            [ ! -e "$file" ] || printf '\n#[test]\nfn borrows_are_checked() {}\n' >> "$file"
        done
        rt try --test > "$copy/log" 2>&1
        case $? in
            0) echo passed ;;
            *) awk '/error\[/ && !/error\[borrow-/ { other = $0 } /error\[borrow-/ { found = 1 } { last = $0 }
                END { print other != "" ? other : found ? "refused" : last }' "$copy/log" ;;
        esac
    fi
    cd "$root" || exit 1
}

count=0
for edit in crates/*/misuse/*.edit; do
    [ -e "$edit" ] || continue
    count=$((count + 1))
    name=$(basename "$(dirname "$(dirname "$edit")")")
    with=$(check "$edit" "$name" 0)
    without=$(check "$edit" "$name" 1)
    said="refused, and passes without its misuse"
    if ! grep -q '^misuse: ' "$edit"; then
        said="NO LINE misuse: says which text is the misuse"
    elif [ "$with" != refused ]; then
        said="NOT REFUSED by the check of borrows: $with"
    elif [ "$without" != passed ]; then
        said="WITHOUT ITS MISUSE IT DOES NOT PASS: $without"
    fi
    case $said in refused,*) ;; *) failed=1 ;; esac
    echo "$name: $(basename "$edit" .edit): $said"
done
[ "$count" -gt 0 ] || failed=1
echo "misuse: $count edits, $([ "$failed" = 0 ] && echo all refused || echo FAILED)"
exit "$failed"
