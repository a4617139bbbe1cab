# What the scripts that run a built program share. A script crates/NAME/program.sh reads this file, and then calls
# `start` before its first run and `finish` behind its last.

count=0
failed=0

# What glibc is told where the memory that is left is measured: to keep no lists of small blocks that were freed, which
# would break that memory up.
one_piece=glibc.malloc.tcache_count=0:glibc.malloc.mxfast=0

# Makes a folder for files, and sets the program: the one that is given, or else the one of the crate in a folder, which
# is proved and built by a run with the arguments behind, over what earlier checks kept in out/.
start() {
    folder=$1 program=$2
    shift 2
    work=$(mktemp -d)
    trap 'rm -rf "$work"' EXIT
    [ -z "$program" ] || return 0
    program=$folder/out/$(basename "$folder")
    if ! (cd "$folder" && rt run "$@" < stdin > "$work/built" 2>&1); then
        cat "$work/built"
        echo "program: NOT BUILT"
        exit 1
    fi
}

# Tells how many runs there were, and ends with status 0 only if each was as it should be.
finish() {
    echo "program: $count runs, $([ "$failed" = 0 ] && echo all as they should be || echo FAILED)"
    exit "$failed"
}
