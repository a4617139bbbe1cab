# Writes cases of data and of calls that are deep, wide or many to the file IN, and their answers to the file WANTED.

# Begins a case, whose lines are data or calls.
function begin(id, task) {
    print "@@ " id " " task > IN
    printf "%s\t0\t\"+STR", id > WANTED
}

function call(text) {
    print text > IN
}

# An event that is wanted.
function event(text) {
    printf "\\n%s", text > WANTED
}

function calls(text, count) {
    while (count-- > 0) call(text)
}

function events(text, count) {
    while (count-- > 0) event(text)
}

function end() {
    print "\\n-STR\"" > WANTED
}

# So many integers from 0 on, each between these events, if they are named.
function numbers(count, before, behind,    i) {
    for (i = 0; i < count; i++) {
        call("u32 " i)
        if (before != "") event(before)
        event("=VAL Plain " i)
        if (behind != "") event(behind)
    }
}

function written(    i, list, count, levels) {
    begin("written-elements", "write:0")
    event("+DOC")
    event("+SEQ")
    for (i = 0; i < 100000; i++) {
        printf "%s%d", (i ? ", " : "["), i > IN
        event("=VAL Plain " i)
    }
    call("]")
    event("-SEQ")
    event("-DOC")
    end()
    count = split("1 2 128", levels, " ")
    for (i = 1; i <= count; i++) {
        begin("written-lists-" levels[i], "write:2")
        event("+DOC")
        list = sprintf("%" levels[i] "s", "")
        gsub(/ /, "[", list)
        printf "%s", list > IN
        gsub(/\[/, "]", list)
        call(list)
        events("+SEQ", levels[i])
        events("-SEQ", levels[i])
        event("-DOC")
        end()
    }
}

# So many sequences, one within another, around so many integers.
function sequences(levels, count) {
    begin("sequences-" levels, "calls")
    event("+DOC")
    calls("seq", levels)
    events("+SEQ", levels)
    numbers(count)
    calls("end", levels)
    events("-SEQ", levels)
    event("-DOC")
    end()
}

# So many mappings, one within another, each as the value of a key, around an integer.
function mappings(levels,    i) {
    begin("mappings-" levels, "calls")
    event("+DOC")
    for (i = 0; i < levels; i++) {
        call("map")
        call("unit")
        event("+MAP")
        event("=VAL Plain null")
    }
    numbers(1)
    calls("end", levels)
    events("-MAP", levels)
    event("-DOC")
    end()
}

# Many keys and values, elements and entries, and documents.
function wide() {
    begin("keys-and-values", "calls")
    event("+DOC")
    call("map")
    event("+MAP")
    numbers(200000)
    call("end")
    event("-MAP")
    event("-DOC")
    end()
    begin("elements-and-entries", "calls")
    event("+DOC")
    call("seq")
    event("+SEQ")
    calls("element 3 ()", 100000)
    events("=VAL Plain null", 100000)
    call("map")
    event("+MAP")
    calls("entry 3 () 3 ()", 100000)
    events("=VAL Plain null", 200000)
    calls("end", 2)
    event("-MAP")
    event("-SEQ")
    event("-DOC")
    end()
    begin("documents", "calls")
    numbers(100000, "+DOC", "-DOC")
    end()
}

BEGIN {
    print "seq 1\ni64\nseq 2\nunit\n" > IN
    written()
    sequences(128, 100000)
    sequences(100000, 128)
    mappings(1)
    mappings(128)
    mappings(100000)
    wide()
}
