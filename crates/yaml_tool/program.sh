#!/bin/sh
# Runs the built program from the outside: on standard input and on files, with right and wrong words, on inputs that
# can't be read and outputs that can't be written. Compares its standard output and its status, and where it is told
# what is wrong, a part of its standard error. No control character but line feeds may stand in what it writes. Ends
# with status 0 only if each run is as it should be.
#
# usage: program.sh [PROGRAM]   With no PROGRAM it is proved and built first, over what earlier checks kept in out/.
set -u
root=$(cd "$(dirname "$0")" && pwd)
. "$root/../../.ci/program.sh"
start "$root" "${1:-}" -- show

# Compares the status of a run, and what it wrote, with what is wanted; its standard error has to hold a part.
compare() {
    title=$1 status=$2 wanted=$3 part=${5:-}
    count=$((count + 1))
    printf '%s' "$4" > "$work/wanted"
    if [ "$status" != "$wanted" ]; then
        echo "program: $title: status $status, not $wanted"
        failed=1
    fi
    if ! cmp -s "$work/out" "$work/wanted"; then
        echo "program: $title: wrong output:"
        head -c 300 "$work/out"
        failed=1
    fi
    if LC_ALL=C tr -d '\n' < "$work/out" | LC_ALL=C grep -q '[[:cntrl:]]' ||
        LC_ALL=C tr -d '\n' < "$work/err" | LC_ALL=C grep -q '[[:cntrl:]]'; then
        echo "program: $title: a control character stands raw"
        failed=1
    fi
    if [ -z "$part" ] && [ -s "$work/err" ] || ! grep -qF -- "$part" "$work/err" && [ -n "$part" ]; then
        echo "program: $title: wrong standard error:"
        head -c 300 "$work/err"
        failed=1
    fi
}

# Runs the program with these words behind the title, status, output and part of the standard error that are wanted.
run() {
    title=$1 wanted=$2 output=$3 part=$4
    shift 4
    "$program" "$@" < "$work/in" > "$work/out" 2> "$work/err"
    compare "$title" $? "$wanted" "$output" "$part"
}

# The same of a run that prints nothing, and whose standard error is just this.
told() {
    title=$1 wanted=$2 error=$3
    shift 3
    "$program" "$@" < "$work/in" > "$work/out" 2> "$work/err"
    status=$?
    printf '%s' "$error" > "$work/wanted"
    if ! cmp -s "$work/err" "$work/wanted"; then
        echo "program: $title: wrong standard error:"
        head -c 500 "$work/err"
        failed=1
    fi
    compare "$title" "$status" "$wanted" "" "$(head -n 1 "$work/wanted")"
}

cat > "$work/in" << 'END'
web: &p 8080
proxy: [*p, 0x1F91]
END
lf='
'
run "data" 0 '{"web": 8080, "proxy": [8080, 8081]}'"$lf" "" show
run "few nestings" 1 "" "standard input:2:8: recursion limit exceeded" show --nesting 1
run "no follows" 1 "" "standard input: repetition limit exceeded" show --nesting 2 --follows 0
run "another file" 0 '{"web": 8080, "proxy": [8080, 8081]}'"$lf" "" show "$work/in"

# Faults at the start of a text have a place as others have.
run "no nestings" 1 "" "standard input:1:1: recursion limit exceeded" show --nesting 0
printf '1.5\n' > "$work/in"
run "a fault of the root" 1 "" "standard input:1:1: floating point \`1.5\` is not supported" show
run "a fault of the root, converted" 1 "" "standard input:1:1: floating point \`1.5\` is not supported" convert
printf '*a\n' > "$work/in"
run "an anchor that is not there" 1 "" "standard input:1:1: unknown anchor \`a\`" show
printf '@a\n' > "$work/in"
told "the parser's fault" 1 "standard input:1:1: found character that cannot start any token, while scanning for the \
next token
  1 | @a
    | ^
  hint: a text that begins with \`@\` has to stand in quotes
" show
printf '\001\n' > "$work/in"
run "a byte that no text has" 1 "" "standard input:1:1: control characters are not allowed" show
printf 'a\001\n' > "$work/in"
run "such a byte behind another" 1 "" "standard input:1:2: control characters are not allowed" show

# Control characters in keys, texts and tags.
printf '"\\e]0;owned\\a": 1.5\n' > "$work/in"
run "a path" 1 "" "standard input:1:17: \\u{1b}]0;owned\\u{7}: floating point \`1.5\` is not supported" show
run "a path, converted" 1 "" "standard input:1:17: \\u{1b}]0;owned\\u{7}: floating point \`1.5\`" convert
printf '"\\n{\\"x\\": 1}\\nfault": 1.5\n--- {ok: 1}\n' > "$work/in"
run "lines in a path" 1 "{\"ok\": 1}$lf" "standard input:1:24: \\u{a}{\"x\": 1}\\u{a}fault: floating point" show \
    --documents
printf '"\\e[31m\\x85": "a\\nb"\n' > "$work/in"
run "texts" 0 '{"\x1b[31m\xc2\x85": "a\x0ab"}'"$lf" "" show
printf '!%%1B%%5B31m x\n' > "$work/in"
run "a tag" 0 '!\u{1b}[31m "x"'"$lf" "" show
printf '!%%C2%%85 x\n' > "$work/in"
run "a tag with a control character past ASCII" 0 '!\u{85} "x"'"$lf" "" show
printf '!%%0A%%7B%%7D%%0A x\n--- ok\n' > "$work/in"
run "lines in a tag" 0 '!\u{a}{}\u{a} "x"'"$lf"'"ok"'"$lf" "" show --documents
printf '!%%1B x\n' > "$work/in"
run "events" 0 '0:0:0 +STR
0:0:0 +DOC
0:0:0 =VAL <!\x1b> :x
7:1:0 -DOC
7:1:0 -STR
' "" events

printf 'web: 1\n---\n[a\n' > "$work/in"
told "two documents" 1 "standard input:2:1: deserializing from YAML containing more than one document is not supported
  2 | ---
    | ^
  hint: \`--documents\` reads each
" show
run "each document" 1 '{"web": 1}'"$lf" "standard input:4:1: did not find expected ',' or ']', while parsing a flow \
sequence at line 3 column 1" show --documents
printf 'web: 1\n---\n[a]\n---\n' > "$work/in"
run "each of good documents" 0 '{"web": 1}'"$lf"'["a"]'"$lf""null$lf" "" show --documents
printf '1.5\n--- [2.5]\n---\n' > "$work/in"
run "each document, with faults" 1 "null$lf" "standard input:2:6: .[0]: floating point \`2.5\` is not supported" \
    show --documents
printf '' > "$work/in"
# a stream without documents is read as one that stands for nothing
run "no document" 0 "null$lf" "" show --documents

# Documents as YAML text, and what was printed once more.
cat > "$work/in" << 'END'
# two ports
web: &p 8080
proxy: [*p, 0x1F91]   # and another
hosts:
  - {name: "a b", open: true}
  -   - 'x'
      - "true"
      - !local ~
none: {}
? [1, 2]
: >-
  folded
  text
note: |
  two
  lines
END
cat > "$work/converted" << 'END'
web: 8080
proxy:
- 8080
- 8081
hosts:
- name: a b
  open: true
- - x
  - 'true'
  - !local null
none: {}
? - 1
  - 2
: folded text
note: |
  two
  lines
END
run "converted" 0 "$(cat "$work/converted")$lf" "" convert
run "converted, another file" 0 "$(cat "$work/converted")$lf" "" convert "$work/in"
"$program" show < "$work/in" > "$work/shown"
cp "$work/converted" "$work/in"
run "converted once more" 0 "$(cat "$work/converted")$lf" "" convert
run "what was converted" 0 "$(cat "$work/shown")$lf" "" show
printf -- '--- a\n...\n---\n- "1"\n--- {}\n' > "$work/in"
run "converted documents" 0 "a$lf---$lf- '1'$lf--- {}$lf" "" convert
printf 'a: 1\n---\n[b\n---\n[c\n' > "$work/in"
run "converted up to a fault" 1 "" "standard input:4:1: did not find expected ',' or ']', while parsing a flow \
sequence at line 3 column 1" convert
printf 'a: [1]\n' > "$work/in"
run "converted within few nestings" 1 "" "standard input:1:4: recursion limit exceeded" convert --nesting 1
printf -- '- &a 1\n- *a\n' > "$work/in"
run "converted without follows" 1 "" "standard input: repetition limit exceeded" convert --follows 0
printf '# nothing\n' > "$work/in"
run "nothing converted, by its other name" 0 "null$lf" "" format

printf 'web: 1\n---\n[a\n' > "$work/in"
run "events" 1 '0:0:0 +STR
0:0:0 +DOC
0:0:0 +MAP
0:0:0 =VAL :web
5:0:5 =VAL :1
7:1:0 -MAP
7:1:0 -DOC
7:1:0 +DOC
11:2:0 +SEQ
12:2:1 =VAL :a
'"14:3:0 !ERR PARSER 0 did not find expected ',' or ']'$lf" "" events
run "all of events" 1 '0:0:0 +STR
0:0:0 +DOC
0:0:0 +MAP
0..3:0:0 =VAL :web
5..6:0:5 =VAL :1
7:1:0 -MAP
7:1:0 -DOC
7:1:0 +DOC
11:2:0 +SEQ
12..13:2:1 =VAL :a
'"14:3:0 !ERR PARSER 0 did not find expected ',' or ']'$lf""11:2:0 !CONTEXT while parsing a flow sequence$lf" "" \
    events --full

# Files: one, several, and one that is not there.
echo 'a: 1' > "$work/first"
echo '[' > "$work/second"
run "files" 1 "@@ $work/first$lf{\"a\": 1}$lf@@ $work/second$lf" "$work/second:2:1: did not find expected node content, \
while parsing a flow node" show "$work/first" "$work/second"
run "a missing file" 2 "" "yaml: $work/none: it can't be read: No such file or directory (os error 2)" \
    show "$work/none"
run "a missing file and one that is there" 2 "@@ $work/none$lf@@ $work/first$lf{\"a\": 1}$lf" "it can't be read" \
    show "$work/none" "$work/first"
run "a file below a file" 2 "" "it can't be read: Not a directory (os error 20)" show "$work/first/none"
: > "$work/closed"
chmod 0 "$work/closed"
[ -r "$work/closed" ] ||
    run "no permission" 2 "" "it can't be read: Permission denied (os error 13)" show "$work/closed"
odd=$work/$(printf 'a\033[31mb')
run "a missing file with an odd name" 2 "" "yaml: $work/a\\u{1b}[31mb: it can't be read: No such file" show "$odd"
echo 'a: 1' > "$odd"
run "a file with an odd name" 0 "@@ $work/first$lf{\"a\": 1}$lf@@ $work/a\\u{1b}[31mb$lf{\"a\": 1}$lf" "" \
    show "$work/first" "$odd"
run "a word that is no text" 2 "" "yaml: the call: a word of it is not UTF-8" show "$(printf 'a\377')"

# Words.
run "no command" 2 "" "requires a subcommand"
run "a wrong command" 2 "" "unrecognized subcommand 'shov'" shov
run "a second file" 2 "" "unexpected argument '$work/second' found" convert "$work/first" "$work/second"
run "a wrong option" 2 "" "unexpected argument '--documents' found" events --documents
run "a shape, which is no option" 2 "" "unexpected argument '--shape' found" show --shape bool
run "a word with a control character" 2 "" "unexpected argument '--a\\u{1b}[31m' found" show "--a$(printf '\033[31m')"
run "too many nestings" 2 "" "300 is not in 0..=255" show --nesting 300
run "too many follows" 2 "" "1001 is not in 0..=1000" show --follows 1001
run "an option twice" 2 "" "cannot be used multiple times" show --nesting 1 --nesting 2
run "the version" 0 "yaml 0.1.0$lf" "" --version
"$program" --help > "$work/out" 2> "$work/err"
compare "help" $? 0 "$(cat "$work/out")$lf"

# A read that fails, and a write that fails. A pipe whose reader is gone is told to nobody.
"$program" show < / > "$work/out" 2> "$work/err"
compare "a folder as standard input" $? 2 "" "yaml: standard input: it can't be read: Is a directory (os error 21)"
"$program" show <&- > "$work/out" 2> "$work/err"
compare "closed standard input" $? 2 "" "yaml: standard input: it can't be read: Bad file descriptor (os error 9)"
"$program" convert < / > "$work/out" 2> "$work/err"
compare "a folder to convert" $? 2 "" "yaml: standard input: it can't be read"
: > "$work/out"
"$program" show < "$work/first" >&- 2> "$work/err"
compare "closed standard output" $? 2 "" \
    "yaml: standard output: it can't be written: Bad file descriptor (os error 9)"
if [ -w /dev/full ]; then
    full="yaml: standard output: it can't be written: No space left on device (os error 28)"
    "$program" show < "$work/first" > /dev/full 2> "$work/err"
    compare "full standard output" $? 2 "" "$full"
    "$program" show "$work/first" "$work/second" > /dev/full 2> "$work/err"
    compare "full standard output, before a name" $? 2 "" "$full"
    "$program" --help > /dev/full 2> "$work/err"
    compare "full standard output, of help" $? 2 "" "$full"
fi
{
    sleep 1
    "$program" show < "$work/first" 2> "$work/err"
    echo $? > "$work/status"
} | true
: > "$work/out"
compare "standard output that its reader closed" "$(cat "$work/status")" 2 ""

# What the events say, read by yaml_case where it is built, is what is shown.
reader=$root/../yaml_case/out/yaml_case
if [ -x "$reader" ]; then
    for name in "$root/stdin" "$work/first"; do
        "$program" show < "$name" > "$work/shown"
        "$program" events < "$name" | "$reader" any > "$work/out" 2> "$work/err"
        compare "events of $name, read again" 0 0 "$(cat "$work/shown")$lf"
    done
fi

# Hints, colors, and faults for editors.
printf 'a: 1\nb: 2\na: 3\n' > "$work/in"
told "a key that stands twice" 1 "standard input:3:1: duplicate entry with key \"a\"
  3 | a: 3
    | ^
  hint: it stands first at line 1 column 1
" show
told "the same, checked" 1 "standard input:3:1: duplicate entry with key \"a\"
  3 | a: 3
    | ^
  hint: it stands first at line 1 column 1
" check
told "the same for editors" 1 '{"file":"standard input","line":3,"column":1,"message":"duplicate entry with key \"a\"",'\
'"hint":"it stands first at line 1 column 1"}
' check --format json
printf 'base: &defaults {a: 1}\nweb: *defautls\n{b: *x\n' > "$work/in"
told "all faults" 1 "standard input:2:6: unknown anchor \`defautls\`
  2 | web: *defautls
    |      ^
  hint: is \`*defaults\` meant?
standard input:4:1: could not find expected ':', while scanning a simple key at line 3 column 1
  3 | {b: *x
    | ^
" check
printf 'a:\n\tb: 1\n' > "$work/in"
told "a tab" 1 "standard input:2:1: found character that cannot start any token, while scanning for the next token
  2 |     b: 1
    | ^
  hint: tabs can't indent YAML: use blanks
" check
printf 'a: 1\nkey:value\nb: 2\n' > "$work/in"
told "a colon without a blank" 1 "standard input:3:1: could not find expected ':', while scanning a simple key at line 2 column 1
  3 | b: 2
    | ^
  hint: a blank has to stand behind the \`:\` of a key
" check
printf 'a: b: c\n' > "$work/in"
told "a colon in a text" 1 "standard input:1:5: mapping values are not allowed in this context
  1 | a: b: c
    |     ^
  hint: a text with \`: \` in it has to stand in quotes
" check
printf 'a: "b\nc: d\n' > "$work/in"
told "an open quote" 1 "standard input:3:1: found unexpected end of stream, while scanning a quoted scalar at line 1 column 4
  1 | a: \"b
    |    ^
  hint: the quote at line 1 column 4 is not closed
" check
printf '日本: "x" y\n' > "$work/in"
told "wide characters" 1 "standard input:1:9: did not find expected key, while parsing a block mapping at line 1 column 1
  1 | 日本: \"x\" y
    |           ^
" check
"$program" check --color always < "$work/in" > "$work/out" 2> "$work/err"
count=$((count + 1))
printf '\033[1mstandard input:1:9:\033[0m ' > "$work/wanted"
head -c "$(wc -c < "$work/wanted")" "$work/err" | cmp -s - "$work/wanted" || {
    echo "program: colors: wrong standard error"
    failed=1
}
printf 'caf\351: 1\n' > "$work/in"
told "a text that is not UTF-8" 1 "standard input:1:5: invalid trailing UTF-8 octet
  1 | caf�: 1
    |     ^
  hint: the text is not UTF-8
" check

# Folders, and standard input among files.
mkdir -p "$work/folder/below/more" "$work/folder/empty"
echo 'a: 1' > "$work/folder/b.yaml"
echo '[' > "$work/folder/below/a.yml"
echo '{' > "$work/folder/below/more/c.txt"
echo 'b: 2' > "$work/in"
run "a folder" 1 "2 files checked, 1 with faults$lf" "$work/folder/below/a.yml:2:1: did not find expected node content" \
    check "$work/folder"
run "an empty folder" 0 "" "" check "$work/folder/empty"
run "files and standard input" 0 "@@ $work/folder/b.yaml$lf{\"a\": 1}$lf@@ -$lf{\"b\": 2}$lf" "" \
    show "$work/folder/b.yaml" -

# Parts, and JSON.
cat > "$work/in" << 'END'
name: "web"
ports: [80, 0x1F]
"a.b": {1: one, true: [x], ~: 2.50}
load: -0.0
big: 340282366920938463463374607431768211455
base: &base {x: !t 1}
<<: *base
text: "two\nlines \e[1m"
none:
END
json='{"name":"web","ports":[80,31],"a.b":{"1":"one","true":["x"],"null":2.5},"load":-0.0,'
json=$json'"big":340282366920938463463374607431768211455,"base":{"x":1},"<<":{"x":1},'
json=$json'"text":"two\nlines \u001b[1m","none":null}'
run "JSON" 0 "$json$lf" "" json
run "JSON of files" 1 '{"a":1}'"$lf$json$lf" "$work/second:2:1: did not find expected node content" \
    json "$work/first" "$work/second" "$work/in"
run "the whole" 0 "$json$lf" "" get --json .
run "a text by itself" 0 "web$lf" "" get name
run "a number by itself" 0 "31$lf" "" get 'ports[1]'
run "a float by itself" 0 "-0.0$lf" "" get .load
run "a large number by itself" 0 "340282366920938463463374607431768211455$lf" "" get big
run "nothing by itself" 0 "null$lf" "" get none
run "a scalar under a tag" 0 "1$lf" "" get base.x
run "a text of lines" 0 "two${lf}lines \\u{1b}[1m$lf" "" get text
run "the same as JSON" 0 '"two\nlines \u001b[1m"'"$lf" "" get --json text
run "a part as YAML" 0 "- 80$lf- 31$lf" "" get ports
run "a part as JSON" 0 "[80,31]$lf" "" get --json ports
run "a key in quotes, and one that is a number" 0 "one$lf" "" get '"a.b"[1]'
run "a key in other quotes" 0 "1: one${lf}true:$lf- x${lf}null: 2.5$lf" "" get "'a.b'"
run "parts of files" 1 "@@ $work/first$lf@@ $work/in$lf""web$lf" "$work/first: name: there is no such key" \
    get name "$work/first" "$work/in"
told "no such key" 1 "standard input: base.y: there is no such key$lf" get base.y.z
run "a key that is no text" 1 "" 'standard input: "a.b".true: there is no such key' get '"a.b".true'
run "a key below a text" 1 "" "standard input: name.x: there is no such key: a text has none" get name.x
run "a key below a sequence" 1 "" "standard input: ports.x: there is no such key: a sequence has none" get ports.x
run "no such number" 1 "" "standard input: base[0]: there is no such key" get 'base[0]'
run "a place past the end" 1 "" "standard input: ports[2]: there is no such place: the sequence has 2, counted from 0" \
    get 'ports[2].x'
run "a place below null" 1 "" "standard input: none[0]: there is no such place: null has none" get 'none[0]'
told "no path" 2 "yaml: the call: \`a..b\` is no path: it goes wrong at character 3$lf" get a..b
run "a path that ends too soon" 2 "" "is no path: it goes wrong at character 3" get 'a['
run "a path with a control character" 2 "" "yaml: the call: \`[\\u{1b}\` is no path" get "$(printf '[\033')"
run "a place of 65 bits" 2 "" "is no path: it goes wrong at character 21" get '[18446744073709551616]'
run "no path at all" 2 "" "required arguments were not provided" get
printf '"\\x7f": "\\x85\\e\\"\\n"\n' > "$work/in"
run "control characters in JSON" 0 '{"\u007f":"\u0085\u001b\"\n"}'"$lf" "" json
run "control characters by themselves" 0 '\u{85}\u{1b}"'"$lf$lf" "" get "$(printf '\177')"
printf 'a: [b\n' > "$work/in"
for words in json "json --documents" "get a" "get --json --documents a"; do
    # shellcheck disable=SC2086
    run "no YAML, $words" 1 "" "standard input:2:1: did not find expected ',' or ']', while parsing a flow sequence at \
line 1 column 4" $words
done
printf 'a: 1\nb: 2\na: 3\n' > "$work/in"
run "a key that stands twice, as JSON" 1 "" 'standard input:3:1: duplicate entry with key "a"' json
printf 'a: 1\n---\nb: 1.5\n' > "$work/in"
run "two documents as JSON" 1 "" "standard input:2:1: deserializing from YAML containing more than one document" json
run "two documents, a part" 1 "" "standard input:2:1: deserializing from YAML containing more than one document" get a
run "each document as JSON" 0 '{"a":1}'"$lf"'{"b":1.5}'"$lf" "" json --documents
run "a part of each document" 1 "1.5$lf" "standard input: b: there is no such key" get --documents b
printf 'a: 1\n---\n[.inf]\n---\n2\n---\n[c\n' > "$work/in"
run "each document as JSON, with faults" 1 '{"a":1}'"$lf""2$lf" "standard input: .[0]: JSON has no infinite floats" \
    json --documents
run "the last of the faults" 1 '{"a":1}'"$lf""2$lf" "standard input:8:1: did not find expected ',' or ']'" \
    json --documents
printf '' > "$work/in"
run "no document as JSON" 0 "null$lf" "" json --documents
printf 'a: {b: [0, -.inf, .NaN]}\n? {c: 1}\n: 2\n' > "$work/in"
run "an infinite float by itself" 0 "-.inf$lf" "" get 'a.b[1]'
told "an infinite float as JSON" 1 "standard input: a.b[1]: JSON has no infinite floats, and none that are no number
" get --json a
run "the same of a part" 1 "" "standard input: a.b[2]: JSON has no infinite floats" get --json 'a.b[2]'
printf '? {c: 1}\n: 2\n' > "$work/in"
run "a key that is a mapping" 1 "" "standard input: .: JSON has no keys that are sequences or mappings" json
awk 'BEGIN { for (i = 0; i < 129; i++) printf "["; for (i = 0; i < 129; i++) printf "]" }' > "$work/in"
run "too deep for JSON" 1 "" "standard input:1:129: recursion limit exceeded" json
"$program" json < / > "$work/out" 2> "$work/err"
compare "a folder as JSON" $? 2 "" "yaml: standard input: it can't be read: Is a directory (os error 21)"
"$program" get a < / > "$work/out" 2> "$work/err"
compare "a part of a folder" $? 2 "" "yaml: standard input: it can't be read: Is a directory (os error 21)"

# JSON as YAML.
printf '{"a": [1, -2, 1.50, 1e3, null, true, "yes", "", "a: b"], "b": {}, "c": []}' > "$work/in"
cat > "$work/converted" << 'END'
a:
- 1
- -2
- 1.5
- 1000.0
- null
- true
- 'yes'
- ''
- 'a: b'
b: {}
c: []
END
run "JSON as YAML" 0 "$(cat "$work/converted")$lf" "" from-json
run "JSON of a file" 0 "$(cat "$work/converted")$lf" "" from-json "$work/in"
"$program" json < "$work/converted" > "$work/out" 2> "$work/err"
compare "what came of JSON, as JSON" $? 0 '{"a":[1,-2,1.5,1000.0,null,true,"yes","","a: b"],"b":{},"c":[]}'"$lf" ""
printf '[340282366920938463463374607431768211455, -170141183460469231731687303715884105728]' > "$work/in"
run "large numbers of JSON" 0 "- 340282366920938463463374607431768211455
- -170141183460469231731687303715884105728
" "" from-json
printf '"\\ud83d\\ude00\\u001b"' > "$work/in"
run "escapes of JSON" 0 "\"😀\\e\"$lf" "" from-json
printf '{"a": "\\ud800"}' > "$work/in"
told "a lone surrogate" 1 'standard input:1:7: this is no JSON
  1 | {"a": "\ud800"}
    |       ^
' from-json
printf '{"a":\n  [1' > "$work/in"
run "JSON that ends too soon" 1 "" "standard input:2:4: this JSON ends too soon" from-json
printf '{"\303\251": 1,\n "\303\251": 2}' > "$work/in"
run "a key of JSON that stands twice" 1 "" "this JSON stands twice" from-json
printf 'a: 1\n' > "$work/in"
run "YAML that is no JSON" 1 "" "standard input:1:1: this is no JSON" from-json
printf '1 2' > "$work/in"
run "JSON with more behind it" 1 "" "standard input:1:3: this is no JSON" from-json
printf '"caf\351"' > "$work/in"
run "JSON that is not UTF-8" 1 "" "standard input:1:5: this is no JSON" from-json
printf '' > "$work/in"
run "no JSON" 1 "" "standard input:1:1: this JSON ends too soon" from-json
run "two files of JSON" 2 "" "unexpected argument '$work/in' found" from-json "$work/in" "$work/in"

# Each command of the page, in a folder with its files, as it stands there.
page=$root/../../docs/COMMANDS.md
mkdir "$work/page" "$work/bin"
ln -s "$(realpath "$program")" "$work/bin/yaml"
awk -v FOLDER="$work/page" -f "$root/../../.ci/page.awk" "$page" || exit 1
number=1
while [ -e "$work/page/$number.command" ]; do
    (cd "$work/page" && PATH="$work/bin:$PATH" sh "./$number.command") > "$work/out" 2>&1
    count=$((count + 1))
    if ! cmp -s "$work/out" "$work/page/$number.wanted"; then
        echo "program: $page: $(cat "$work/page/$number.command"): wrong output:"
        head -c 500 "$work/out"
        failed=1
    fi
    number=$((number + 1))
done

# Texts that are long or deep.
awk 'BEGIN { for (i = 0; i < 1000000; i++) printf "["; }' > "$work/in"
run "a million brackets" 1 "" "standard input:1:129: recursion limit exceeded" show
awk 'BEGIN { for (i = 0; i < 1000000; i++) printf "- "; }' > "$work/in"
run "a million entries on a line" 1 "" "standard input:1:257: recursion limit exceeded" show
awk 'BEGIN { for (i = 0; i < 1000000; i++) printf "k"; print ": 1" }' > "$work/in"
run "a key of a million bytes" 1 "" "standard input:1:1000001: mapping values are not allowed in this context" show

# Memory that runs out.
if command -v prlimit > /dev/null; then
    yes -- '- 7' | head -n 1000000 > "$work/in"
    prlimit --as=30000000 "$program" show < "$work/in" > "$work/out" 2> "$work/err"
    compare "a text that is too large" $? 2 "" "yaml: standard input: out of memory"
    prlimit --as=30000000 "$program" show "$work/first" "$work/in" "$work/second" > "$work/out" 2> "$work/err"
    compare "a file that is too large among others" $? 2 "@@ $work/first$lf{\"a\": 1}$lf@@ $work/in$lf""\
@@ $work/second$lf" "yaml: $work/in: out of memory"
fi

finish
