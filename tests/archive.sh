# Read by tests/bindings and bench/run, in which `top` is the repository: where the archive of a crate is.

# find_archive CRATE FOLDER: sets `found` to the crate's part of the archive that bindings/lib has for this machine,
# taken out into FOLDER. If ARCHIVES is `made`, or bindings/lib has none, `found` is the archive of the crate, which
# `rt lib` has made there, or makes. If there is none, `found` is empty. `origin` is the path that a line shows.
find_archive() {
    origin=bindings/lib/$(uname -m)-$(uname -s | tr 'A-Z' 'a-z')/libzaulinte.a
    found=$2/lib$1.a
    if [ "${ARCHIVES:-}" != made ] && [ -f "$top/$origin" ] && command -v ar > /dev/null; then
        (cd "$2" && ar x "$top/$origin" "$1.o" && ar rcs "$found" "$1.o" && rm "$1.o") && return 0
    fi
    origin=crates/$1/out/lib$1.a
    found=$top/$origin
    [ -f "$found" ] || { command -v rt && (cd "$top/crates/$1" && rt lib); } > "$2/lib$1.log" 2>&1 || true
    [ -f "$found" ] || origin='' found=''
}
