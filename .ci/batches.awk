# Puts wrong bodies of one crate into batches, of which each changes a function at most once, so that the edits of a
# batch can be tried in one copy. Functions that call each other in a cycle are checked all at once, so what changes one
# of them is kept apart; all else goes into batches of at most 16, which can be tried side by side. Run in the crate's
# folder on its edits; prints a line for each edit: the number of its batch, its file, and the functions that it changes,
# each as FILE:NAME, or those that its lines `refused by:` name.

# The function around the first line of a file that has this text, or nothing; `cyclic` says whether it is in a cycle.
function function_at(file, part, line, name, found, given, own) {
    name = ""
    found = ""
    given = 0
    own = 0
    while ((getline line < file) > 0) {
        if (line ~ /^ *#\[cycle\(/) given = 1
        if (match(line, /^ *(pub(\([a-z]+\))? )?(const )?fn [A-Za-z_0-9]+/)) {
            name = substr(line, RSTART, RLENGTH)
            sub(/.* /, "", name)
            own = given
            given = 0
        }
        if (index(line, part)) {
            found = name
            if (own) cyclic = 1
            break
        }
    }
    close(file)
    return found
}

function end_edit(number, free, i) {
    if (edit == "") return
    for (number = cyclic ? 1 : 1001; ; number++) {
        free = cyclic || size[number] < 16
        for (i = 1; i <= count; i++) if ((number, keys[i]) in taken) free = 0
        if (free) break
    }
    size[number]++
    for (i = 1; i <= count; i++) taken[number, keys[i]] = 1
    printf "%d %s", number, edit
    for (i = 1; i <= count; i++) printf " %s", keys[i]
    printf "\n"
}

FNR == 1 { end_edit(); edit = FILENAME; count = 0; cyclic = 0 }
/^file: / { file = substr($0, 7) }
/^old: / {
    name = function_at(file, substr($0, 6))
    if (name != "") keys[++count] = file ":" name
}
/^refused by: / { keys[++count] = substr($0, 13) }
END { end_edit() }
