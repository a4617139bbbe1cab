# Complains of each part of a page's blocks of Rust that does not stand in the sources word for word: a part is what
# stands between empty lines. The sources come first, the page last: awk -f quotes.awk SOURCE.rt.. PAGE.md

# Looks for the part that was read.
function end_part() {
    if (part != "" && !index(sources, part)) {
        print FILENAME ":" begun ": this is in none of the sources: " part
        bad = 1
    }
    part = ""
}

FILENAME !~ /\.md$/ { sources = sources (FNR == 1 ? "\f\n" : "") $0 "\n"; next }
/^```rust$/ { inside = 1; blocks++; next }
/^```$/ { end_part(); inside = 0; next }
inside && /^$/ { end_part(); next }
inside { if (part == "") begun = FNR; part = part $0 "\n" }
END {
    if (!blocks) { print FILENAME ": it has no block of Rust"; bad = 1 }
    exit bad
}
