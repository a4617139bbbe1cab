# Writes cases whose nodes or texts are deep, wide or long to the file IN, and their answers to the file WANTED.

# A text so many times.
function repeat(text, count,    out) {
    out = ""
    while (count-- > 0) out = out text
    return out
}

# Begins a case. An event has its number as its index, and columns count from the document's node.
function begin(id, task) {
    print "@@ " id " " task "\n0:0:0 +STR\n1:0:0 +DOC" > IN
    number = 2
}

function event(text) {
    print number ":0:" (number - 2) " " text > IN
    number++
}

function events(text, count) {
    while (count-- > 0) event(text)
}

# Ends a case that is answered by data, or by a fault, which stand there as JSON has them.
function end(id, status, text) {
    print "0:0:0 -DOC\n0:0:0 -STR" > IN
    print id "\t" status "\t\"" text "\"" > WANTED
}

function data(id, text) {
    end(id, 0, text)
}

function fault(id, text) {
    end(id, 1, "fault: " text)
}

# So many collections, one within another, each of which begins with these events, around one more.
function nest(id, task, start, key, inner, stop, count,    i) {
    begin(id, task)
    for (i = 0; i < count; i++) {
        event(start)
        if (key != "") event(key)
    }
    if (inner != "") event(inner)
    events(stop, count)
}

function nestings(    deep) {
    deep = "recursion limit exceeded at line 1 column "
    nest("lists-128", "shape:0", "+SEQ", "", "", "-SEQ", 128)
    data("lists-128", repeat("[", 128) repeat("]", 128))
    nest("lists-129", "shape:0", "+SEQ", "", "", "-SEQ", 129)
    fault("lists-129", deep 129)
    # an empty plain scalar is an empty list, and no nesting
    nest("nothing-in-127", "shape:0", "+SEQ", "", "=VAL :", "-SEQ", 127)
    data("nothing-in-127", repeat("[", 128) repeat("]", 128))
    nest("nothing-in-128", "shape:0", "+SEQ", "", "=VAL :", "-SEQ", 128)
    data("nothing-in-128", repeat("[", 129) repeat("]", 129))
    nest("any-128", "shape:1", "+SEQ", "", "=VAL :x", "-SEQ", 128)
    data("any-128", repeat("[", 128) "\\\"x\\\"" repeat("]", 128))
    nest("any-none-128", "shape:1", "+SEQ", "", "", "-SEQ", 128)
    data("any-none-128", repeat("[", 128) repeat("]", 128))
    nest("any-129", "shape:1", "+SEQ", "", "=VAL :x", "-SEQ", 129)
    fault("any-129", deep 129)
    nest("any-none-129", "shape:1", "+SEQ", "", "", "-SEQ", 129)
    fault("any-none-129", deep 129)
    nest("any-tags-129", "shape:1", "+SEQ <!t>", "", "=VAL :x", "-SEQ", 129)
    fault("any-tags-129", deep 129)
    nest("any-maps-129", "shape:1", "+MAP", "=VAL :k", "=VAL :x", "-MAP", 129)
    fault("any-maps-129", deep 257)
    nest("newtypes-64", "shape:2", "+SEQ", "", "", "-SEQ", 64)
    data("newtypes-64", repeat("new([", 64) repeat("])", 64))
    nest("newtypes-65", "shape:2", "+SEQ", "", "", "-SEQ", 65)
    fault("newtypes-65", deep 65)
    nest("most-255", "shape:1 limits:255,100", "+SEQ", "", "", "-SEQ", 255)
    data("most-255", repeat("[", 255) repeat("]", 255))
    nest("most-256", "shape:1 limits:255,100", "+SEQ", "", "", "-SEQ", 256)
    fault("most-256", deep 256)
}

# A list with 100 aliases, in a list with so many aliases of it: 100 follows, and 101 for each of these.
function aliases(id, task, count) {
    begin(id, task)
    event("+SEQ")
    event("+SEQ &a")
    event("=VAL &z :0")
    events("=ALI *z", 100)
    event("-SEQ")
    events("=ALI *a", count)
    event("-SEQ")
}

function follows(    zeros) {
    zeros = "[0" repeat(", 0", 100) "]"
    # a document of n events may have 100n follows: 1,050,500 of them here, where n is 10,505
    aliases("follows-100", "shape:7", 10400)
    data("follows-100", "[" zeros repeat(", " zeros, 10400) "]")
    aliases("follows-past-100", "shape:7", 10401)
    fault("follows-past-100", "repetition limit exceeded")
    aliases("follows-of-1000", "shape:7 limits:128,1000", 10401)
    data("follows-of-1000", "[" zeros repeat(", " zeros, 10401) "]")
    aliases("nothing-is-followed", "shape:4", 10401)
    data("nothing-is-followed", "ignored")
}

# A list of lists, of which the first has nine texts, and each other nine times the one before it.
function nines(id, task, lists,    i, name) {
    begin(id, task)
    event("+SEQ")
    event("+SEQ &l1")
    events("=VAL :x", 9)
    event("-SEQ")
    for (i = 2; i <= lists; i++) {
        event("+SEQ &l" i)
        events("=ALI *l" (i - 1), 9)
        event("-SEQ")
    }
    event("-SEQ")
}

function bombs(    list, all, i) {
    # four lists have 9 + 90 + 819 follows, of 4,600 that their 46 events may have; five have 7,380 more, of 5,700
    list = "\\\"x\\\""
    for (i = 1; i <= 4; i++) {
        list = "[" list repeat(", " list, 8) "]"
        all = all (i > 1 ? ", " : "") list
    }
    nines("nines-4", "shape:1", 4)
    data("nines-4", "[" all "]")
    nines("nines-5", "shape:1", 5)
    fault("nines-5", "repetition limit exceeded")
    # the last of 26 lists stands for 9 to the power of 26 texts, which no machine could make
    nines("nines-26", "shape:1", 26)
    fault("nines-26", "repetition limit exceeded")
    nines("nines-26-ignored", "shape:4", 26)
    data("nines-26-ignored", "ignored")
}

function wide(    i) {
    begin("elements", "shape:6")
    event("+SEQ")
    events("=VAL :7", 999999)
    event("=VAL :8")
    event("-SEQ")
    print "0:0:0 -DOC\n0:0:0 -STR" > IN
    printf "elements\t0\t\"[" > WANTED
    for (i = 0; i < 999999; i++) printf "7, " > WANTED
    print "8]\"" > WANTED
    begin("pairs", "shape:9")
    event("+MAP")
    for (i = 0; i < 100000; i++) {
        event("=VAL :" i)
        event("=VAL :" i)
    }
    event("-MAP")
    print "0:0:0 -DOC\n0:0:0 -STR" > IN
    printf "pairs\t0\t\"{" > WANTED
    for (i = 0; i < 100000; i++) printf "%s\\\"%d\\\": %d", (i ? ", " : ""), i, i > WANTED
    print "}\"" > WANTED
    begin("late-element", "shape:6")
    event("+SEQ")
    events("=VAL :7", 69999)
    event("=VAL :x")
    event("-SEQ")
    fault("late-element", ".[69999]: invalid type: string \\\"x\\\", expected i64 at line 1 column 70001")
}

# The fields of a struct from the last on, behind some of them, each of which is true.
function fields(id, task, count, before,    name, names, i) {
    begin(id, task)
    event("+MAP")
    names = split(before, name, " ")
    for (i = 1; i <= names; i++) {
        event("=VAL :" name[i])
        event("=VAL :true")
    }
    for (i = count - 1; i >= 0; i--) {
        event("=VAL :f" i)
        event("=VAL :true")
    }
    event("-MAP")
}

function structs(    i, all) {
    fields("fields", "shape:10", 150, "")
    data("fields", "struct(true" repeat(", true", 149) ")")
    fields("field-twice", "shape:10", 150, "f7")
    fault("field-twice", "duplicate field `f7`")
    fields("late-field-twice", "shape:10", 150, "f70")
    fault("late-field-twice", "duplicate field `f70`")
    fields("last-field-twice", "shape:10", 150, "f149")
    fault("last-field-twice", "duplicate field `f149`")
    fields("field-missing", "shape:10", 149, "")
    fault("field-missing", "missing field `f149`")
    for (i = 0; i < 150; i++) all = all (i ? ", " : "") "`f" i "`"
    fields("field-unknown", "shape:10", 0, "f149 f150")
    fault("field-unknown", "unknown field `f150`, expected one of " all " at line 1 column 4")
}

# A text that is read under a shape, and its answer: data, or a fault where the status is 1.
function under(shape, id, spelled, status, told) {
    print "@@ " id " text:" shape "\n" spelled > IN
    print id "\t" status "\t\"" (status ? "fault: " : "") told "\"" > WANTED
}

# The same of any value.
function text(id, spelled, status, told) {
    under(1, id, spelled, status, told)
}

function texts(    key, deep) {
    # a key may be 1,024 bytes long
    key = repeat("k", 1024)
    text("key-1024", key ": 1", 0, "{\\\"" key "\\\": 1}")
    text("key-1025", "k" key ": 1", 1, "mapping values are not allowed in this context at line 1 column 1026")
    text("quoted-1024", "\"" substr(key, 3) "\": 1", 0, "{\\\"" substr(key, 3) "\\\": 1}")
    text("quoted-1025", "\"" substr(key, 2) "\": 1", 1,
        "mapping values are not allowed in this context at line 1 column 1026")
    text("second-key-1024", "a: 1\\n" key ": 1", 0, "{\\\"a\\\": 1, \\\"" key "\\\": 1}")
    text("second-key-1025", "a: 1\\nk" key ": 1", 1,
        "could not find expected ':' at line 2 column 1026, while scanning a simple key at line 2 column 1")
    text("long-key-in-braces", "{k" key ": 1}", 1,
        "did not find expected ',' or '}' at line 1 column 1027, while parsing a flow mapping")
    text("long-key-behind-a-mark", "? k" key "\\n: 1", 0, "{\\\"k" key "\\\": 1}")
    # and nodes 128 deep
    deep = "recursion limit exceeded at line 1 column "
    text("brackets-128", repeat("[", 128) repeat("]", 128), 0, repeat("[", 128) repeat("]", 128))
    text("brackets-129", repeat("[", 129) repeat("]", 129), 1, deep 129)
    text("entries-128", repeat("- ", 128) "x", 0, repeat("[", 128) "\\\"x\\\"" repeat("]", 128))
    text("entries-129", repeat("- ", 129) "x", 1, deep 257)
    text("brackets-100000", repeat("[", 100000) repeat("]", 100000), 1, deep 129)
    text("entries-100000", repeat("- ", 100000) "x", 1, deep 257)
    # what is too deep is refused where it is, whatever follows, unless it is stepped over
    text("brackets-unclosed", repeat("[", 100000), 1, deep 129)
    text("keys-100000", repeat("? ", 100000) "x", 1, deep 257)
    text("brackets-behind-a-document", "a\\n--- " repeat("[", 1000), 1,
        "deserializing from YAML containing more than one document is not supported")
    text("brackets-behind-a-fault", "[*b, " repeat("[", 1000), 1, "unknown anchor at line 1 column 2")
    under(4, "ignored-brackets", repeat("[", 100000) repeat("]", 100000), 0, "ignored")
    under(4, "ignored-entries", repeat("- ", 100000) "x", 0, "ignored")
    under(4, "ignored-brackets-unclosed", repeat("[", 1000) "\\n", 1,
        "did not find expected node content at line 2 column 1, while parsing a flow node")
    under(0, "brackets-of-another-kind", "[{}, " repeat("[", 1000), 1,
        ".[0]: invalid type: map, expected a sequence at line 1 column 2")
    text("a-long-text", repeat("k", 1000000), 0, "\\\"" repeat("k", 1000000) "\\\"")
}

# A text whose documents are handed out one at a time, and how many they are.
function handed(id, spelled, count) {
    print "@@ " id " handed\n" spelled > IN
    print id "\t0\t\"" count "\"" > WANTED
}

# Texts of more documents than are loaded at a time: some 86 of one scalar, and 85 at first.
function batches(    one, i, id) {
    one = "--- a\\n"
    handed("documents-100", repeat(one, 100), 100)
    handed("documents-260", repeat(one, 260) "...\\n", 260)
    # one that is longer than what is loaded at a time: alone, between others, the last, and cut off
    handed("long-alone", repeat("- b\\n", 300), 1)
    handed("long-between", one "---\\n" repeat("- b\\n", 300) "--- c\\n--- d\\n", 4)
    handed("long-last", one "--- [" repeat("b, ", 300) "c]\\n", 2)
    handed("long-cut-off", one "--- [" repeat("b, ", 300) "c\\n", 2)
    # a fault amid those that are loaded at a time: in a document, and in front of one
    handed("fault-at-21", repeat(one, 20) "--- [b\\n", 21)
    handed("fault-at-121", repeat(one, 120) "--- b: [c\\n", 121)
    handed("fault-in-front", repeat(one, 120) "...\\n%YAML 9\\n--- b\\n", 121)
    # an alias that refers to nothing cuts off its document alone
    handed("unknown-anchors", repeat(one "--- [*b, c]\\n", 60) "--- d\\n", 121)
    # an anchor is known in its document alone, wherever that is loaded
    handed("known-anchors", repeat("--- &a b\\n--- *a\\n", 60), 120)
    # what a text ends with, near where the last of those that are loaded at a time ends
    for (i = 84; i < 88; i++) {
        id = "documents-" i
        handed(id, repeat(one, i), i)
        handed(id "-ended", repeat(one, i) "...\\n", i)
        handed(id "-and-none", repeat(one, i) "---\\n", i + 1)
        handed(id "-and-cut-off", repeat(one, i) "--- [b\\n", i + 1)
        handed(id "-and-unknown", repeat(one, i) "--- *b\\n", i + 1)
        handed(id "-and-fault", repeat(one, i) "...\\n%YAML 9\\n", i + 1)
        # bytes that no text has cut off the first document
        handed(id "-and-no-text", repeat(one, i) "--- \\x01\\n", 1)
    }
}

# Ends a case that the parser's fault cuts off, and the answer that tells its events by then.
function cut_off() {
    print "10:1:0 !ERR PARSER 0 bad" > IN
    print "fault: bad at line 2 column 1\\n\"" > WANTED
}

# A list in which so many lists begin, with a fault behind them and with none.
function starts(count,    i) {
    begin("starts", "loaded")
    printf "starts\t1\t\"" > WANTED
    events("+SEQ", count)
    for (i = 0; i < count; i++) printf "+SEQ; " > WANTED
    cut_off()
    begin("starts-unended", "loaded")
    events("+SEQ", count)
    print "starts-unended\t1\t\"fault: event list is not a stream at event " (count + 2) "\\n\"" > WANTED
}

# So many lists with an anchor each and an alias of it within, by names that rise or fall.
function anchors(id, count, step,    i, name) {
    begin(id, "loaded")
    printf "%s\t1\t\"+SEQ; ", id > WANTED
    event("+SEQ")
    name = step > 0 ? 0 : count
    for (i = 0; i < count; i++) {
        event("+SEQ &" sprintf("%06d", name))
        event("=ALI *" sprintf("%06d", name))
        event("-SEQ")
        printf "+SEQ; =ALI %d; -SEQ; ", 3 * i + 1 > WANTED
        name += step
    }
    cut_off()
}

# So many documents.
function documents(count,    i) {
    print "@@ documents loaded\n0:0:0 +STR" > IN
    printf "documents\t0\t\"" > WANTED
    for (i = 0; i < count; i++) {
        print "0:0:0 +DOC\n0:0:0 +SEQ\n0:0:0 -SEQ\n0:0:0 -DOC" > IN
        printf "+SEQ; -SEQ\\n" > WANTED
    }
    print "0:0:0 -STR" > IN
    print "\"" > WANTED
}

BEGIN {
    print "seq 0\nany\nnewtype N 3\nseq 2\nignored\ni64\nseq 5\nseq 6\nstr\nmap 8 5" > IN
    printf "strict_struct Wide" > IN
    for (i = 0; i < 150; i++) printf " f%d:11", i > IN
    print "\nbool\n" > IN
    nestings()
    follows()
    bombs()
    wide()
    structs()
    texts()
    batches()
    starts(300000)
    anchors("rising-anchors", 50000, 1)
    anchors("falling-anchors", 50000, -1)
    documents(50000)
}
