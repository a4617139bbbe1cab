#!/bin/sh
# Makes what pages list of the repository: the files of specs/, in docs/DEFINITIONS.md, each with the first sentence that
# stands in it, and how many rows, tests and edits there are, in docs/TESTING.md. Then it sees that what pages name is
# there: a page that is linked to, a file, each name between backquotes in a source or a script, and each row that
# docs/TESTING.md shows.
#
# usage: pages.sh [--check]   With --check nothing is written. Status 1 where a list is another, or a name is not there.
set -eu
cd "$(dirname "$0")/.."
export LC_ALL=C
work=$(mktemp -d)
trap 'rm -rf "$work"' EXIT
pages=$(ls README.md CONTRIBUTING.md rust/README.md docs/*.md crates/*/CALLING.md)

# Files that no public contract leads to, beside those of inner/: whatever they say, no promise changes.
scaffolding='serde_yaml/StreamView serde_yaml/TapeReads uses/FolderLaws yaml_base/StreamMachine yaml_direct/Added
yaml_direct/BlockHeads yaml_direct/BlockRows yaml_direct/Blocks yaml_direct/Bytes yaml_direct/Gaps yaml_direct/Leaves
yaml_direct/LeftByColumns yaml_direct/LeftDocuments yaml_direct/LeftInBrackets yaml_direct/Lines yaml_direct/Places
yaml_direct/PlainTexts yaml_direct/Quoted yaml_direct/Tokens
yaml_documents/OnlyDocument yaml_emit/LayoutMachine yaml_emit/Leaves yaml_lines/DataTextView yaml_load/Gathering
yaml_load/StreamPhases yaml_parse/Frames yaml_parse/Kept yaml_parse/Sources yaml_query/FaultSteps yaml_query/Out
yaml_query/PairFaults yaml_query/Reading yaml_read/QuickReads yaml_round/Survives yaml_scan/Surrogates
yaml_shape/Walks yaml_tree/Code yaml_tree/Entries yaml_tree/EntryText yaml_tree/EqualLaws yaml_tree/Falls
yaml_tree/Hash yaml_tree/Index yaml_tree/Lookup yaml_tree/TakeOut yaml_merge/Writing yaml_types/AnyNodes
yaml_types/ArrayLaws yaml_types/Behind yaml_types/ChoiceLaws
yaml_types/ChoiceReturns yaml_types/MapLaws yaml_types/PlainLaws yaml_types/ReturnLaws yaml_types/RowReturns
yaml_types/SetLaws yaml_types/ShapeLaws yaml_types/StartLaws yaml_types/StructLaws yaml_types/WrittenLaws
yaml_value/Code yaml_value/Entries yaml_value/Falls yaml_value/Hash yaml_value/Index yaml_value/Sizes
yaml_write/Content yaml_write/PartsOf yaml_write/WrittenEvents yaml_write/WrittenParts'
# The one of inner/ that a promise cites: the fault of a document that was cut off.
stated='yaml_read/inner/Reader'
# Names of the toolchain's and the original's, and of C, which stand in no source here.
elsewhere='try_from_fn singleton_map_with nested_singleton_map sizes.rows'

for name in $scaffolding $stated; do
    file=crates/${name%%/*}/specs/${name#*/}.antt
    [ -e "$file" ] || { echo ".ci/pages.sh: there is no $file"; exit 1; }
done

# Prints a table of the files: $1 is 1 for scaffolding, 0 for the others.
files() {
    for folder in crates/*/specs; do
        find "$folder" -name '*.antt' ! -name Lib.antt ! -name inner.antt | sort
    done | xargs awk -v wanted="$1" -v scaffolding="$scaffolding" -v stated="$stated" '
        BEGIN {
            count = split(scaffolding, listed)
            for (i = 1; i <= count; i++) below[listed[i]] = 1
            split(stated, other)
            for (i in other) above[other[i]] = 1
        }
        # ends the file that was read
        function ends() {
            if (said == "") return
            if (match(said, /\. /)) said = substr(said, 1, RSTART)
            sub(/\.$/, "", said)
            if (said ~ /^[A-Z][a-z ]/) said = tolower(substr(said, 1, 1)) substr(said, 2)
            gsub(/\|/, "\\|", said)
            if ((key in below || (key ~ /\/inner\// && !(key in above))) == wanted) {
                if (crate != last) printf "%s| `%s` | ", last == "" ? "" : " |\n", crate
                else printf "; "
                printf "`%s`: %s", name, said
                last = crate
            }
            said = ""
        }
        FNR == 1 {
            ends()
            split(FILENAME, parts, "/")
            crate = parts[2]
            name = FILENAME
            sub(/^crates\/[^\/]*\/specs\//, "", name)
            sub(/\.antt$/, "", name)
            key = crate "/" name
            head = 1
        }
        head && /^-- / { said = said (said == "" ? "" : " ") substr($0, 4); next }
        { head = 0 }
        END { ends(); print " |" }
    '
}

# Counts lines that hold a text.
lines() {
    pattern=$1
    shift
    cat "$@" 2> /dev/null | grep -c -- "$pattern" || true
}

# Prints how many edits stand in a folder of crates, and of which crates.
edits() {
    ls crates/*/"$1"/*.edit | awk -F / '
        { if (!($2 in count)) names[++crates] = $2; count[$2]++ }
        END {
            printf "%d: ", NR
            for (i = 1; i <= crates; i++) printf "%s%d of `%s`", i == 1 ? "" : ", ", count[names[i]], names[i]
            print ""
        }
    '
}

counts() {
    probe=crates/yaml_probe derived=crates/derived_case
    tests=$(grep -rl '#\[test\]' crates --include='*.rt' | grep -v /out/)
    echo '| What | Count |'
    echo '|---|---|'
    echo "| rows of \`yaml_probe\` | $(lines '  => ' $probe/rows/*.rows), $(lines '  => ' $probe/rows/libyaml.rows) of them" \
        "random texts with libyaml's answers; cases by hand: $(lines '^@@ ' $probe/rows/by_hand.stdin) |"
    echo "| rows of \`derived_case\` | $(lines '  => ' $derived/stdout) |"
    echo "| rows of refused memory | $(lines '  => ' $probe/memory.rows) of \`yaml_probe\`," \
        "$(lines '  => ' $derived/memory.rows) of \`derived_case\` |"
    echo "| runs of \`yaml_case\` | $(lines '  => ' crates/yaml_case/runs.txt) |"
    # shellcheck disable=SC2086
    echo "| test functions | $(lines '#\[test\]' $tests), of" \
        "$(echo "$tests" | cut -d / -f 2 | sort -u | sed 's/.*/`&`/' | paste -s -d , - | sed 's/,/, /g') |"
    echo "| wrong bodies of \`must-fail/\` | $(edits must-fail) |"
    echo "| wrong bodies of \`wrong/\` | $(edits wrong) |"
    echo "| mistakes of \`rows_only/\` | $(edits rows_only) |"
    echo "| uses of \`misuse/\` | $(edits misuse) |"
}

# Puts what is read between the lines of a page that mark a list of this name, or compares it with what stands there.
put() {
    page=$1
    awk -v name="$2" -v made="$work/made" '
        $0 == "<!-- end of " name " -->" { inside = 0; found++ }
        !inside
        $0 == "<!-- " name ": made by .ci/pages.sh -->" {
            inside = 1
            print ""
            while ((getline line < made) > 0) print line
            print ""
        }
        END { exit found != 1 }
    ' "$page" > "$work/page" || { echo "$page: its list of $2 is not marked"; exit 1; }
    if cmp -s "$work/page" "$page"; then return; fi
    if [ "$check" ]; then
        echo "$page: its list of $2 is not what the repository has: run sh .ci/pages.sh"
        exit 1
    fi
    cp "$work/page" "$page"
}

check=
[ "${1:-}" != --check ] || check=1
{ echo '| Crate | Statements |'; echo '|---|---|'; files 0; } > "$work/made"
put docs/DEFINITIONS.md statements
{ echo '| Crate | Scaffolding |'; echo '|---|---|'; files 1; } > "$work/made"
put docs/DEFINITIONS.md scaffolding
# with a comma between thousands
counts | sed -e :more -e 's/\([0-9]\)\([0-9][0-9][0-9]\)\([^0-9]\)/\1,\2\3/' -e t\ more > "$work/made"
put docs/TESTING.md counts

# rows that are shown
awk '/^```$/ { inside = !inside; next } inside && /  => /' docs/TESTING.md > "$work/shown"
cat crates/yaml_probe/rows/*.rows crates/derived_case/stdout > "$work/rows"
if grep -vxFf "$work/rows" "$work/shown"; then
    echo "docs/TESTING.md: there are no such rows"
    exit 1
fi

# what is there: files, and the words of sources, of scripts, and of what the crates stand on
git ls-files -co --exclude-standard > "$work/there" 2> /dev/null ||
    find . -type f ! -path '*/out/*' | sed 's/^\.\///' > "$work/there"
grep -E '\.(rt|antt|rs|c|h|py|sh|awk|rows|txt|toml|edit|in|stdin|stdout)$|stdout$|/run$' "$work/there" > "$work/sources"
{ xargs cat < "$work/sources"; sed 's/.*\///' "$work/there"; echo "$elsewhere"; } |
    tr -c 'A-Za-z0-9_\n' '\n' | sort -u > "$work/words"
# shellcheck disable=SC2086
awk -v there="$work/there" -v words="$work/words" -v elsewhere="$elsewhere" '
    BEGIN {
        while ((getline line < there) > 0) {
            file[line] = 1
            short = line
            sub(/^crates\//, "", short)
            file[short] = 1
            while (match(short, /^[^\/]*\//)) {
                short = substr(short, RLENGTH + 1)
                file[short] = 1
            }
            while (match(line, /\/[^\/]*$/)) {
                line = substr(line, 1, RSTART - 1)
                folder[line] = 1
                short = line
                sub(/^.*\//, "", short)
                folder[short] = 1
            }
        }
        while ((getline line < words) > 0) word[line] = 1
    }
    function tell(what) { print FILENAME ":" FNR ": " what; bad = 1 }
    FNR == 1 { code = 0; base = FILENAME; if (!sub(/[^\/]*$/, "", base)) base = "" }
    /^```/ { code = !code; next }
    code { next }
    {
        rest = $0
        while (match(rest, /\]\([^)#: ]*/)) {
            link = base substr(rest, RSTART + 2, RLENGTH - 2)
            rest = substr(rest, RSTART + RLENGTH)
            while (sub(/[^\/.][^\/]*\/\.\.\//, "", link)) { }
            if (link != base && !(link in file)) {
                sub(/\/$/, "", link)
                if (!(link in folder)) tell("there is no page " link)
            }
        }
        rest = $0
        gsub(/``[^`]*(`[^`]+)*``/, "", rest)
        while (match(rest, /`[^`]*`/)) {
            name = substr(rest, RSTART + 1, RLENGTH - 2)
            rest = substr(rest, RSTART + RLENGTH)
            if (name ~ /NAME/ || index(" " elsewhere " ", " " name " ")) continue
            if (name ~ /^[A-Za-z0-9_.\/+-]+\.(rt|antt|md|rs|py|sh|awk|rows|txt|h|c|edit)$/) {
                if (!(name in file)) tell("there is no file " name)
            } else if (name ~ /^[A-Za-z][A-Za-z0-9_]*(::[A-Za-z][A-Za-z0-9_]*)*$/ && name ~ /_.|::|[a-z][A-Z]/) {
                count = split(name, parts, "::")
                for (i = 1; i <= count; i++) if (!(parts[i] in word)) { tell("nothing is called " name); break }
            }
        }
    }
    END { exit bad }
' $pages
