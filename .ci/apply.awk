# Applies an edit to files below the current folder: the text of each `old:` line, which stands once in the file that
# the `file:` line before it names, gives way to the text of the `new:` line behind it. The text of a `misuse:` line
# stands once in what was made, and is taken away where `control` is 1. Where `dry` is 1 no file is changed. Ends with
# status 1, and says why, where a text does not stand once.

function give_up(why) {
    print why
    failed = 1
    exit 1
}

function read(file, text, line, got) {
    text = ""
    while ((got = (getline line < file)) > 0) text = text line "\n"
    close(file)
    if (got < 0) give_up("there is no file " file)
    return text
}

function times(part, text, at, found) {
    found = 0
    while (at = index(text, part)) {
        found++
        text = substr(text, at + length(part))
    }
    return found
}

function replace(old, new, text, at, found) {
    if (file == "" || old == "") give_up("a text stands before its file: or old: line")
    if (!(file in texts)) texts[file] = read(file)
    text = texts[file]
    found = times(old, text)
    if (found != 1) give_up("a text stands " found " times in " file ", and not once: " old)
    at = index(text, old)
    texts[file] = substr(text, 1, at - 1) new substr(text, at + length(old))
    pairs++
}

/^file: / { file = substr($0, 7) }
/^old: / { old = substr($0, 6) }
/^new:/ { replace(old, substr($0, 6)); old = "" }
/^misuse: / { part = substr($0, 9); replace(part, control ? "" : part) }

END {
    if (failed) exit 1
    if (!pairs) { print "it changes nothing"; exit 1 }
    if (dry) exit 0
    for (file in texts) {
        printf "%s", texts[file] > file
        close(file)
    }
}
