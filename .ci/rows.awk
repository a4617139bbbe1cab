# Turns a file of rows into an input of yaml_probe, and into the answers that are wanted of it: awk -v WANTED=FILE
# prints the one and writes the other to the FILE. docs/TESTING.md says what a row is.

# Complains of the row that is read.
function complain(text) {
    print FILENAME ":" FNR ": " text > "/dev/stderr"
    bad = 1
}

# The text with the number of its shape in place of each name of one.
function numbered(text,    out, word) {
    out = ""
    while (match(text, /[A-Z][A-Z_0-9]+/)) {
        word = substr(text, RSTART, RLENGTH)
        out = out substr(text, 1, RSTART - 1) ((word in at) ? at[word] : word)
        text = substr(text, RSTART + RLENGTH)
    }
    return out text
}

# A text between quotes as JSON has it. A unit of UTF-16 that is no printable ASCII stands in it as \u and four digits.
function quoted(text,    out) {
    out = ""
    gsub(/"/, "\\\"", text)
    while (match(text, /\\/)) {
        out = out substr(text, 1, RSTART - 1)
        text = substr(text, RSTART)
        if (text ~ /^\\"/ || text ~ /^\\u[0-9a-f][0-9a-f][0-9a-f][0-9a-f]/) {
            out = out substr(text, 1, 2)
            text = substr(text, 3)
        } else {
            out = out "\\\\"
            text = substr(text, 2)
        }
    }
    out = out text
    gsub(/\\u000a/, "\\n", out)
    return "\"" out "\""
}

# Writes what is wanted of the row: a status and a text, behind what stands before it where memory is refused.
function wanted(status, text) {
    wanted_as_it_stands(status, quoted(text))
}

# The same of a text that stands between quotes already.
function wanted_as_it_stands(status, text) {
    printf "%s:%d\t%s\t\"%s%s\n", topic, FNR, status, before, substr(text, 2) > WANTED
}

# Prints the lines of events, which stand with `; ` between. A line without a mark has its number as its index, line 0,
# and columns that count from the third line on.
function print_events(text,    line, lines, i) {
    lines = split(text, line, "; ")
    for (i = 1; i <= lines; i++)
        print (line[i] ~ /^[0-9]/ ? "" : (i - 1) ":0:" (i > 3 ? i - 3 : 0) " ") line[i]
}

# Prints data, a line each, of a text in which it stands with ` | ` between.
function print_data(text) {
    if (text == "-") return
    gsub(/ \| /, "\n", text)
    print text
}

# Prints shapes, a line each, of a text in which they stand with `; ` between.
function print_shapes(text) {
    gsub(/; /, "\n", text)
    print text
}

# What each document of a stream gives, which stand with ` | ` between, as lines.
function in_turn(text,    part, parts, i, out) {
    parts = split(text, part, / \| /)
    for (i = 1; i <= parts; i++) {
        if (sub(/^! /, "fault: ", part[i])) failing = 1
        out = out part[i] "\\u000a"
    }
    return out
}

# The lines of events that are written, of a text in which they stand with `; ` between, and documents with ` | `.
# Behind `! ` stands why a document is refused, behind which no other is written: nothing is left of it.
function written(text,    part, parts, i, out) {
    out = "+STR; "
    parts = text == "-" ? 0 : split(text, part, / \| /)
    for (i = 1; i <= parts; i++)
        if (sub(/^! /, "", part[i])) failing = part[i]
        else out = out "+DOC; " part[i] "; -DOC; "
    out = (failing == "" ? "" : "fault: " failing "; -- events by then:; ") out "-STR"
    gsub(/; /, "\\u000a", out)
    return out
}

# The lines that calls tell, of a text in which they stand with `; ` between, and documents with ` | `. A document
# begins before its first event and ends behind its last; `..` stands for what is open at the end.
function called(text,    part, parts, line, lines, i, j, first, last, open, out) {
    out = "+STR"
    parts = text == "-" ? 0 : split(text, part, / \| /)
    for (i = 1; i <= parts; i++) {
        lines = split(part[i], line, "; ")
        open = line[lines] == ".."
        first = last = 0
        for (j = 1; j <= lines; j++)
            if (line[j] ~ /^[-+=]/) { last = j; if (!first) first = j }
        for (j = 1; j <= lines - open; j++) {
            if (j == first) out = out "\\u000a+DOC"
            if (sub(/^! /, "", line[j])) {
                failing = 1
                line[j] = "! " ((line[j] in fault) ? fault[line[j]] : line[j])
            }
            out = out "\\u000a" line[j]
            if (j == last && !open) out = out "\\u000a-DOC"
        }
    }
    return out (open ? "" : "\\u000a-STR")
}

# A text with another in the place of its `..`.
function filled(text, inner,    cut) {
    cut = index(text, "..")
    return substr(text, 1, cut - 1) inner substr(text, cut + 2)
}

# The same, without the looks at what is open.
function filled_blindly(text, inner) {
    gsub(/\([a-z_ ]*\); |; \([a-z_ ]*\)|open; |; open/, "", text)
    return filled(text, inner)
}

# Keeps a place of calls: its name, calls with `..` amid them, and what they tell.
function keep_place(    part) {
    split($0, part, /  (=> )?/)
    place[++places] = substr(part[1], 7)
    place_calls[places] = part[2]
    place_told[places] = part[3]
}

# Puts calls, and what they tell, into a place of the text, as a document behind the others.
function put(calls, told, number) {
    all_calls = all_calls (all_calls == "" ? "" : "; ") filled(place_calls[number], calls)
    all_told = all_told (all_told == "" ? "" : " | ") filled(place_told[number], told)
}

# A row of calls: alone, or in places, which are named with commas between, everywhere, or everywhere within each.
function calls_row(where, calls, told,    i, j) {
    all_calls = all_told = ""
    if (where == "") { all_calls = calls; all_told = told }
    for (i = 1; i <= places && where != ""; i++)
        if (where == "within")
            for (j = 1; j <= places; j++)
                put(filled_blindly(place_calls[j], calls), filled_blindly(place_told[j], told), i)
        else if (where == "everywhere" || index("," where ",", "," place[i] ",")) put(calls, told, i)
    if (all_calls == "") complain("no such place: " where)
    if (!cases++) print ""
    print "@@ " topic ":" FNR " calls" room
    gsub(/; /, "\n", all_calls)
    if (all_calls != "-") print numbered(all_calls)
    answer("calls", all_told)
}

# What the layers below a reading tell, as lines, of a text in which they stand with ` | ` between.
function told(text) {
    failing = gsub(/! /, "fault: ", text) > 0
    gsub(/ \| /, "\\u000a", text)
    return text "\\u000a"
}

# Writes what an answer wants: data, `! ` and a fault, `!table ` and why the table is refused, or `? ` and why the case
# is; of an emitter the text that it prints, between quotes, as it stands.
function answer(task, text) {
    failing = 0
    if (task == "emit" && text ~ /^"/) printf "%s:%d\t0\t%s\n", topic, FNR, text > WANTED
    else if (sub(/^!table /, "schema: ", text)) wanted(1, text)
    else if (sub(/^\? /, "", text)) wanted(2, text)
    else if (task == "calls") { text = called(text); wanted(failing, text) }
    else if (task == "typed" && text ~ /^".*"$/) wanted_as_it_stands(0, text)
    else if (task == "write") { failing = ""; text = written(text); wanted(failing != "", text) }
    else if (task == "schema") { gsub(/ \| /, "\\u000a", text); wanted(0, text) }
    else if (task ~ LAYERS) { text = told(text); wanted(failing, text) }
    else if (task == "documents" || task == "texts") { text = in_turn(text); wanted(failing, text) }
    else if (sub(/^! /, "fault: ", text)) wanted(1, text)
    else wanted(0, text)
}

# The lines of events for an emitter, which stand with `; ` between.
function print_emitted(text) {
    gsub(/; /, "\n", text)
    print text
}

# Takes `budget` and `free` out of the words of a row, and gives how many are left.
function left(word, words,    i, kept) {
    room = before = ""
    for (i = 1; i <= words; i++)
        if (word[i] == "budget" || word[i] == "free") room = " " word[i]
        else word[++kept] = word[i]
    if (room == " budget") before = "refused, then: "
    return kept
}

# A row of a type: its name, a text between quotes, and what is wanted.
function typed_row(name, text, want) {
    if (!cases++) print ""
    print "@@ " topic ":" FNR " typed:" name room
    print substr(text, 2, length(text) - 2)
    answer("typed", want)
}

# A row: a shape and words, or what is asked under no shape, the lines of a case, and what is wanted.
function row(    cut, head, lines, want, word, words, i, task, flags, whole, steps, more, bare) {
    cut = index($0, "  => ")
    if (!cut) { complain("no answer"); return }
    head = substr($0, 1, cut - 1)
    want = substr($0, cut + 5)
    cut = index(head, "  ")
    if (!cut) { complain("no events"); return }
    lines = substr(head, cut + 2)
    sub(/^ +/, "", lines)
    words = left(word, split(substr(head, 1, cut - 1), word, " "))
    if (word[1] == "calls") { calls_row(words == 1 ? "" : word[words], lines, want); return }
    if (word[1] == "typed") { typed_row(word[2], lines, want); return }
    task = word[1] ~ ALONE ? word[1] : "shape"
    for (i = 2; i <= words; i++) {
        if (task == "cursor") steps = steps (i > 2 ? " " : "") word[i]
        else if (word[i] == "stream") whole = 1
        else if (word[i] == "call" || word[i] == "expected") task = word[i]
        else if (word[i] == "fits") { task = word[i]; more = "," word[++i] }
        else if (word[i] == "documents") { task = "documents"; whole = 1 }
        else if (word[i] == "limits") flags = flags " limits:" word[++i]
        else if (word[i] == "copy" || word[i] == "schema") task = word[i]
        else complain("no such word: " word[i])
    }
    if (task ~ ALONE) { whole = 1; if (lines ~ /^"/ && task == "loaded") task = "loaded_text" }
    else if (sub(/^write: /, "", lines)) task = "write"
    else if (task == "fits") { }
    else if (lines ~ /^".*"$/) task = task == "documents" ? "texts" : "text"
    bare = task ~ ALONE || task == "schema"
    if (task !~ ALONE && numbered(word[1] more) !~ /^[0-9][0-9,]*$/) complain("no such shape: " word[1] more)
    if (!cases++) print ""
    print "@@ " topic ":" FNR " " task (bare ? "" : ":" numbered(word[1] more)) flags room
    if (task == "cursor") print numbered(steps)
    if (task == "write" || task == "fits") print_data(lines)
    else if (task == "emit") print_emitted(lines)
    else if (task == "schema") print_shapes(lines)
    else if (task == "expected") { }
    else if (task ~ /^text|^events|_text|^(handed|parsers|direct)$/) print substr(lines, 2, length(lines) - 2)
    else if (whole) print_events(lines == "-" ? "" : lines)
    else print_events(lines == "-" ? "+STR; -STR" : "+STR; +DOC; " lines "; -DOC; -STR")
    answer(task, want)
}

# Numbers the shapes of the table that begins behind this line of the file.
function number_shapes(line,    name) {
    split("", at)
    shapes = 0
    for (line++; line <= lines_read && all[line] != "%%"; line++)
        if (match(all[line], /^[A-Z][A-Z_0-9]+ = /)) {
            name = all[line]
            sub(/ .*/, "", name)
            at[name] = shapes++
        }
    cases = places = 0
    split("", fault)
}

BEGIN {
    # what is asked under no shape, and what is asked of the layers below a reading
    ALONE = "^(loaded|loaded_text|marked|events|parsers|direct|cursor|emit|handed)$"
    LAYERS = "^(loaded|loaded_text|marked|events|parsers|direct|cursor|call|fits|expected)$"
}
FNR == NR { all[lines_read = FNR] = $0; next }   # the first reading keeps the lines
FNR == 1 { topic = FILENAME; sub(/.*\//, "", topic); sub(/\.rows$/, "", topic); number_shapes(0) }
/^(#|$)/ { next }
$0 == "%%" { print; number_shapes(FNR); next }
/^[A-Z][A-Z_0-9]+ = / { sub(/^[A-Z_0-9]+ = /, ""); print numbered($0); next }
/^fault [a-z]+ = / { fault[$2] = substr($0, index($0, "=") + 2); next }
/^place / { keep_place(); next }
{ row() }
END { exit bad }
