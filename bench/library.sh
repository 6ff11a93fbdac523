#!/bin/sh
# Makes the library of the proved functions for the machine that it runs on: bench/library.sh OUT, an archive that a C program links. include/luigi.h
# declares the functions. An archive that is newer than every source stays. Standard output gets one line: what OUT is made of.
set -eu

fail() {
    printf 'library.sh: %s\n' "$1" >&2
    exit 2
}

[ $# -eq 1 ] || fail "name the archive: bench/library.sh OUT"
case $1 in /*) out=$1 ;; *) out=$PWD/$1 ;; esac
cd "$(dirname "$0")/.."
work=$PWD/target/library
printf 'the static library itself\n'
[ ! -e "$out" ] || [ -n "$(find crates.txt crates -name out -prune -o -newer "$out" -print | sed 1q)" ] || exit 0

command -v rt >/dev/null || fail "rt is not on the path"
mkdir -p "$work" "$(dirname "$out")"
: >"$work/started"
(cd crates/exports && rt lib) >"$work/log" 2>&1 || { cat "$work/log" >&2; fail "rt lib failed"; }
cp crates/exports/out/libexports.a "$work/made.a"
# as old as its start, so that a source that changed meanwhile is newer
touch -r "$work/started" "$work/made.a"
mv "$work/made.a" "$out"
