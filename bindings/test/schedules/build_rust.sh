#!/bin/sh
# Builds the explorer of the running monitor for Rust: build_rust.sh OUT [SOURCES [FLAGS OF RUSTC..]]
# SOURCES is the folder of the crate's sources, by default the crate's own. EXPLORE_O is the explorer, compiled. POLLS=N
# lets threads poll N times, by default 0. `--cfg feature="std"` takes std's port, over fake_std.rs; `--cfg record`
# records all acts. Needs a nightly rustc, else ends with 77.
set -eu
here=$(cd -- "$(dirname -- "$0")" && pwd)
out=$1 sources=${2:-$here/../../rust/src}
[ $# -lt 2 ] && shift || shift 2
rustc +nightly --version > /dev/null 2>&1 || { echo 'build_rust.sh: needs a nightly rustc' >&2; exit 77; }
objects=$(mktemp -d); trap 'rm -rf "$objects"' EXIT

crate() { # NAME KIND FILE FLAGS..
    name=$1 kind=$2 file=$3; shift 3
    rustc +nightly --edition 2021 -O -Zsanitizer=thread -Zexternal-clangrt -Cunsafe-allow-abi-mismatch=sanitizer \
        -Cpanic=abort -Crelocation-model=static -L "$objects" --out-dir "$objects" \
        --crate-type "$kind" --crate-name "$name" "$@" "$file"
}
crate fake_std rlib "$here/fake_std.rs"
crate zaulinte rlib "$sources/lib.rs" --cap-lints allow --extern std="$objects/libfake_std.rlib" "$@"
crate monitor staticlib "$here/monitor_rust.rs" --extern zaulinte "$@"
clang -no-pie @"$here/steps.flags" "$EXPLORE_O" "$objects/libmonitor.a" \
    "$here/../../lib/x86_64-linux/libzaulinte.a" -o "$out"
