# Texts for scripts that measure. `text ROW [SIZE]` prints the text of a row of so many lines, or parts on one line, to
# be parsed. Without a size it is the one that counts of instructions are told of.

text() {
    awk -v row="$1" -v size="${2-}" '
        function word(i) { return substr("alpha beta  gamma delta omega ", 6 * (i % 5) + 1, 5) }
        function parts(usual) { return size == "" ? usual : size }
        BEGIN {
            if (row == "lines") { n = parts(20000); for (i = 0; i < n; i++) print "- 7" }
            if (row == "nested") { n = parts(20000); for (i = 0; i < n; i++) printf "- "; print "" }
            if (row == "pairs") { n = parts(12000); for (i = 0; i < n; i++) print "name" i ": value " i }
            if (row == "brackets") {
                n = parts(20000)
                printf "[0"
                for (i = 1; i < n; i++) printf ", %d", i
                print "]"
            }
            if (row == "quoted") { n = parts(8000); for (i = 0; i < n; i++) print "- \"some text " i " in quotes\"" }
            if (row == "literal") {
                n = parts(5000)
                for (i = 0; i < n; i++) print "- |\n  some text " i " in a block\n  and more of it"
            }
            if (row == "folded") { n = parts(10000); print "- >"; for (i = 0; i < n; i++) print "  a line of it" }
            if (row == "key") { n = parts(200000); for (i = 0; i < n; i++) printf "k"; print "" }
            if (row == "mixed") { n = parts(1000); for (i = 0; i < n; i++) {
                print "key" i ": " word(i) " and " word(i + 1)
                print "list" i ":\n  - " i "\n  - " word(i) "\n  - {a: 1, b: [2, 3]}"
                print "said" i ": \"" word(i) " \\n " word(i + 2) "\"\nquoted" i ": \047" word(i) "\047"
                print "block" i ": |\n  " word(i) "\n  " word(i + 1)
                print "named" i ": &a" i " !!str " word(i) "\nagain" i ": *a" i
                print "part" i ":\n  name: " word(i + 3) "\n  port: " i "\n# a comment"
            } }
        }'
}

# The text that is read as values of a kind, of so many elements; a configuration has one size.
typed_text() {
    awk -v kind="$1" -v size="$2" '
        function word(i) { return substr("alpha beta  gamma delta omega ", 6 * (i % 5) + 1, 5) }
        BEGIN {
            if (kind == "config") {
                print "name: web\nhost: \"example.org\"\nport: 8080\nworkers: 4\ndebug: false\nroot: /var/www/site"
                print "timeout: 30000\nlabel: main\ntags:\n- alpha\n- beta\nlimits:\n  memory: 1024\n  files: 256"
            }
            for (i = 0; i < size && kind != "config"; i++) {
                if (kind == "integers") print "- " i * 7919 % 1000003
                else if (kind == "texts" || kind == "lent") print "- " word(i) " and " word(i + 1)
                else if (kind == "pairs") printf "key%07d: %d\n", i, i
                else if (kind == "lists") { if (i % 4 == 0) print "-"; print "  - " i }
                else if (kind == "any") print "- name: " word(i) "\n  port: " i "\n  on: true"
                else if (kind == "documents" || kind == "streamed") print "---\n" i
            }
        }'
}
