#!/bin/sh
# Makes the stored run of yaml_probe: what crates/yaml_probe/rows/by_hand.* says as it stands, and each file of rows
# beside it, expanded. And the input of derived_case: its output without the answers.
#
# usage: rows.sh [--check]   With --check nothing is written; status 1 where a stored run is not that of the rows, or
# where an edit of rows_only/ can't be made or names a row that is not there.
set -eu
cd "$(dirname "$0")/.."
work=$(mktemp -d)
trap 'rm -rf "$work"' EXIT
probe=crates/yaml_probe
mkdir -p "$work/$probe" "$work/crates/derived_case"
cp $probe/rows/by_hand.stdin "$work/$probe/stdin"
cp $probe/rows/by_hand.stdout "$work/$probe/stdout"
for rows in $probe/rows/*.rows; do
    echo %% >> "$work/$probe/stdin"
    : > "$work/wanted"
    LC_ALL=C awk -v WANTED="$work/wanted" -f .ci/rows.awk "$rows" "$rows" >> "$work/$probe/stdin"
    cat "$work/wanted" >> "$work/$probe/stdout"
done
sed 's/  => .*//' crates/derived_case/stdout > "$work/crates/derived_case/stdin"
for file in $probe/stdin $probe/stdout crates/derived_case/stdin; do
    if [ "${1:-}" != --check ]; then
        cp "$work/$file" $file
    elif ! cmp -s "$work/$file" $file; then
        echo "$file is not what the rows give: run sh .ci/rows.sh"
        exit 1
    fi
done
[ "${1:-}" = --check ] || exit 0
for edit in crates/*/rows_only/*.edit; do
    crate=${edit%/rows_only/*}
    if ! (cd "$crate" && LC_ALL=C awk -v dry=1 -f ../../.ci/apply.awk "../../$edit"); then
        echo "$edit can't be made"
        exit 1
    fi
    row=$(sed -n 's/^row: //p' "$edit")
    if [ -n "$row" ] && ! grep -qF -- "${row#* }" "${row%% *}"; then
        printf '%s names a row that is not there: %s\n' "$edit" "$row"
        exit 1
    fi
done
