# Read by tests/take-crates and tests/new-monitor: steps in a copy of the repository, in which they begin.
top=$(cd -- "$(dirname -- "${BASH_SOURCE[0]}")/.." && pwd) || exit 1
work=$(mktemp -d) || exit 1
trap 'rm -rf "$work"' EXIT
failed=0
mkdir "$work/here"
tar -C "$top" --exclude=out -c LICENSE HANDLES CHANGELOG.md crates crates.txt zaulinte help tools |
    tar -C "$work/here" -x || exit 1
cd "$work/here" || exit 1

# step WHAT COMMAND..: WHAT is so if the command succeeds. It prints a line, and if it isn't so what the command printed
step() {
    if ("${@:2}") > "$work/log" 2>&1; then
        echo "${0##*/}: $1"
    else
        cat "$work/log"
        echo "${0##*/}: not so: $1"
        failed=1
    fi
}

# hashes FOLDER: of all files below it
hashes() { find "$1" -type f -print0 | LC_ALL=C sort -z | xargs -0r sha256sum; }

# runs_unproved FOLDER: the program there writes its stored output
runs_unproved() { cd "$1" && rt try < /dev/null > "$work/out" && cmp "$work/out" stdout; }
