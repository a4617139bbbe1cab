# Tells whether a check refused one of some functions by a goal, and prints the first such goal: the check's output is
# standard input, and `keys` names the functions as FILE:NAME, with spaces between. Where `broken` is "broken" it tells
# an error of types or borrows in one of them instead. Run in the folder of the edited crate.

# Whether a place lies in this function of an edited file. The attributes above a function are part of it.
function lies_in(name, file, place, line, number, inside, above, at, found) {
    number = 0
    inside = 0
    above = 0
    found = 0
    while ((getline line < file) > 0) {
        number++
        if (line ~ /^ *#\[/ && number <= place) above = number
        if (match(line, /^ *(pub(\([a-z]+\))? )?(const )?fn [A-Za-z_0-9]+/)) {
            at = substr(line, RSTART, RLENGTH)
            sub(/.* /, "", at)
            inside = at == name
            if (above == place) found = inside
            above = 0
        }
        if (number == place && !above) found = inside
        if (number >= place && !above) break
    }
    close(file)
    return found
}

# Whether this function of an edited file is one of the cycle's, by the attribute above it.
function is_in_cycle(name, file, cycle, line, at, given, found) {
    given = ""
    found = 0
    while ((getline line < file) > 0) {
        if (line ~ /^ *#\[cycle\(/) {
            given = line
            sub(/^ *#\[cycle\(/, "", given)
            sub(/\).*/, "", given)
        }
        if (match(line, /^ *(pub(\([a-z]+\))? )?(const )?fn [A-Za-z_0-9]+/)) {
            at = substr(line, RSTART, RLENGTH)
            sub(/.* /, "", at)
            if (at == name && given == cycle) found = 1
            given = ""
        }
    }
    close(file)
    return found
}

BEGIN { wanted = split(keys, all, " ") }

broken == "broken" ? /^src\/.* error\[/ : /^note: src\/.*: it is not proved that/ {
    said = $0
    sub(/^note: /, "", said)
    split(said, part, ":")
    for (i = 1; i <= wanted; i++) {
        split(all[i], key, ":")
        if (key[1] == part[1] && lies_in(key[2], key[1], part[2])) {
            print said
            exit
        }
    }
}

# a written answer that no longer answers its goal, told by the function's folder; or by its name, where functions that
# call each other have one folder, which is the cycle's and not of the function's file, and answers in files below it
broken != "broken" && /^\.\/proofs\/.*: error: `[^`]*`: / &&
    !/is not in scope|has no field|has no `|is no name|was not admitted|\(nearest: |which was rejected/ {
    split($0, part, ":")
    folders = split(part[1], folder, "/")
    cycle = ""
    for (i = 1; i < folders; i++) if (folder[i] ~ /^\+/) cycle = substr(folder[i], 2)
    split($0, named, "`")
    for (i = 1; i <= wanted; i++) {
        split(all[i], key, ":")
        own = key[1]
        sub(/^src\//, "./proofs/", own)
        sub(/\.rt$/, "/", own)
        is_its_folder = index($0, own) == 1
        is_its_name = index(named[2], key[2] "-") == 1
        if (is_its_folder && (folder[folders - 1] == key[2] || is_its_name)) {
            print
            exit
        }
        if (cycle != "" && is_its_name && is_in_cycle(key[2], key[1], cycle)) {
            print
            exit
        }
    }
}
