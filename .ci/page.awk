# Takes the examples out of a page, into a folder: a block of `console` has commands behind `$ `, each with what it writes
# below it, and a block of `yaml NAME` or `json NAME` is a file. Command N becomes N.command, and what it writes N.wanted.
/^```/ {
    if (inside != "") {
        inside = ""
        next
    }
    inside = substr($1, 4)
    if (inside == "") inside = "text"
    file = $2
    next
}
inside == "console" && /^\$ / {
    number++
    print substr($0, 3) > (FOLDER "/" number ".command")
    printf "" > (FOLDER "/" number ".wanted")
    next
}
inside == "console" { print > (FOLDER "/" number ".wanted") }
inside != "" && inside != "console" && file != "" { print > (FOLDER "/" file) }
END {
    if (number < 6) {
        print "page: only " number + 0 " commands"
        exit 1
    }
}
