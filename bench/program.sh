# For scripts that measure by a program of their own. With `root`, this repository, and `room`, an empty folder, set,
# `over CRATE NAME` makes the room a place of copies of the crate and of those that it stands on, with a crate NAME
# beside them, whose src/main.rt is what stands on standard input; and `make_program NAME ARGUMENT..` proves and builds
# it, by `rt`, as $room/crates/NAME/out/NAME. That takes some minutes, and much longer where the crates are not proved.
# Where PROGRAM names a program that an earlier run built, it is taken instead, and KEEP names a file for this run's.

over() {
    local crate crates
    crates=$(sed -n "s/^$1: //p" "$root/crates.txt")
    mkdir -p "$room/crates/$2/src"
    for crate in $crates "$1"; do
        # a crate of the toolchain has no folder here
        [ -d "$root/crates/$crate" ] || continue
        cp -al "$root/crates/$crate" "$room/crates/" 2> /dev/null || cp -a "$root/crates/$crate" "$room/crates/"
        grep "^$crate:" "$root/crates.txt" >> "$room/crates.txt"
    done
    # shellcheck disable=SC2086
    echo "$2: $1" $crates >> "$room/crates.txt"
    cat > "$room/crates/$2/src/main.rt"
}

make_program() {
    local name=$1
    shift
    if [ -n "${PROGRAM-}" ]; then
        mkdir -p "$room/crates/$name/out"
        cp "$PROGRAM" "$room/crates/$name/out/$name"
        return
    fi
    (cd "$room/crates/$name" && rt run -- "$@" < /dev/null) > "$room/log" 2>&1 || { tail -n 3 "$room/log"; exit 1; }
    [ -z "${KEEP-}" ] || cp "$room/crates/$name/out/$name" "$KEEP"
}
