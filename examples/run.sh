# What examples/c/run and examples/rust/run share; each defines `build PROGRAM NAME LIBRARY`, where LIBRARY is the folder that has libexports.a.
#
# run [reply | restart] [BOOK SHEET]
#   reply      prints the desk's reply
#   restart    validates, recovers, compares, reconciles and joins, and prints what each call gave
# Without either, both. Without BOOK and SHEET, on the reference unit, and what is printed is compared with what is expected.
# The library is the one in EXPORTS_DIR, or it is proved and built (`rt lib` in crates/exports).

usage() {
    sed -n 's/^# \(run \[.*\)/usage: \1/p' "$top/examples/run.sh" >&2
    exit 2
}

library() {
    if [ -n "${EXPORTS_DIR:-}" ]; then
        [ -f "$EXPORTS_DIR/libexports.a" ] || { echo "no libexports.a in EXPORTS_DIR, $EXPORTS_DIR" >&2; exit 2; }
        echo "$EXPORTS_DIR"
        return
    fi
    mkdir -p "$top/target"
    echo "rt lib: proves the library; many minutes of processor time the first time, then seconds" >&2
    (cd "$top/crates/exports" && rt lib 2>&1) | tee "$top/target/staticlib.log" |
        awk '/^crate / { name = $2 } /^logic=proved / { print name, $0; fflush() }' >&2 ||
        { tail -5 "$top/target/staticlib.log" >&2; exit 2; }
    echo "$top/crates/exports/out"
}

# examples LANGUAGE [reply | restart] [BOOK SHEET]
examples() {
    local language=$1 names="reply restart" book=$top/crates/desk/data/book.bin sheet=$top/crates/desk/data/sheet.bin compared=yes
    shift
    case ${1:-} in reply | restart)
        names=$1
        shift
        ;;
    esac
    case $# in
    0) ;;
    2) book=$1 sheet=$2 compared= ;;
    *) usage ;;
    esac
    local folder name program
    folder=$(library)
    mkdir -p "$top/target/examples"
    for name in $names; do
        program=$top/target/examples/$language-$name
        build "$program" "$name" "$folder"
        [ -n "$compared" ] || { "$program" "$book" "$sheet"; continue; }
        "$program" "$book" "$sheet" >"$program.out"
        cat "$program.out"
        diff "$(expected "$name")" "$program.out" >&2 || { echo "$name: not as expected" >&2; exit 1; }
        echo "$name: as expected" >&2
    done
}

expected() {
    case $1 in
    reply) echo "$top/crates/desk/stdout" ;;
    restart) echo "$top/examples/expected/restart" ;;
    esac
}
