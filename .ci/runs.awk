# Reads a file of runs of yaml_case, as the head of crates/yaml_case/runs.txt says them. With -v FOLDER=NAME it writes,
# for each run, the files N.arguments, N.in, N.out and N.status into that folder. With -v WANTED=FILE it prints the runs
# that read a shape as an input of yaml_probe, and writes to the file what that must print: the same text and status.

BEGIN {
    shapes = split("bool i64 str list map any ignored u64 option pair basic strict outer", shape, " ")
    for (i = 1; i <= shapes; i++) at[shape[i]] = i - 1
    table = "bool|i64|str|seq 1|map 2 1|any|ignored|u64|option 1|tuple 1 1|struct Basic v:0 w:0"
    table = table "|strict_struct Basic v:0 w:0|enum Outer Inner:newtype=13"
    table = table "|enum Inner Variant:newtype=14 Plain:unit|seq 15|usize"
    gsub(/\|/, "\n", table)
    if (WANTED) print table "\n"
}

# Complains of the run that is read.
function complain(text) {
    print FILENAME ":" FNR ": " text > "/dev/stderr"
    bad = 1
}

# A text with what its escapes stand for.
function plain(text,    out, letter) {
    out = ""
    while (match(text, /\\./)) {
        letter = substr(text, RSTART + 1, 1)
        if (letter == "n") letter = "\n"
        else if (letter == "t") letter = "\t"
        else if (letter == "r") letter = "\r"
        out = out substr(text, 1, RSTART - 1) letter
        text = substr(text, RSTART + 2)
    }
    return out text
}

# The input that a run names.
function input(text,    line, lines, i, out) {
    if (text ~ /^"/) return plain(substr(text, 2, length(text) - 2))
    if (text !~ /^\+STR/) text = "+STR; +DOC; " text "; -DOC; -STR"
    lines = split(text, line, "; ")
    out = ""
    for (i = 1; i <= lines; i++) out = out (line[i] ~ /^[0-9]/ ? "" : "0:0:0 ") line[i] "\n"
    return out
}

# Writes the files of a run.
function run_files(arguments, text, status, output,    name) {
    name = FOLDER "/" ++count
    print (arguments == "-" ? "" : arguments) > (name ".arguments")
    printf "%s", text > (name ".in")
    print output > (name ".out")
    print status > (name ".status")
    close(name ".arguments"); close(name ".in"); close(name ".out"); close(name ".status")
}

# Prints a run as a case of yaml_probe.
function probe_case(arguments, text, status, output,    word, words, limits, cut) {
    words = split(arguments, word, " ")
    if (!(word[1] in at)) complain("no such shape: " word[1])
    if (words == 3) limits = " limits:" (word[2] + 0) "," (word[3] + 0)
    cut = text != "" && text !~ /\n$/
    print "@@ runs:" FNR " shape:" at[word[1]] limits (cut ? " nolf" : "")
    printf "%s", text (cut ? "\n" : "")
    gsub(/\\/, "\\\\\\\\", output)
    gsub(/"/, "\\\"", output)
    printf "runs:%d\t%d\t\"%s\"\n", FNR, status, output > WANTED
}

/^(#|$)/ { next }
{
    cut = index($0, "  ")
    end = index($0, "  =>")
    if (!cut || end <= cut) { complain("no run"); next }
    arguments = substr($0, 1, cut - 1)
    text = input(substr($0, cut + 2, end - cut - 2))
    output = substr($0, end + 4)
    sub(/^ /, "", output)
    status = 0
    if (output == "!" || output ~ /^! /) { status = 1; output = "fault: " substr(output, 3) }
    else if (sub(/^\? /, "", output)) status = 2
    if (FOLDER) run_files(arguments, text, status, output)
    else if (output != "bad argument") probe_case(arguments, text, status, output)
}
END { exit bad }
