#!/bin/sh
# Calls every function of the library from C (tests/calls.c), with the title in examples/. It needs rt and gcc. The last line is `calls: 0 failed`.
set -eu
unset CDPATH
cd "$(dirname "$0")/.."
work=target/calls
mkdir -p "$work"
bench/library.sh target/libluigi.a >"$work/how"
gcc -O2 -Wall -Wextra -std=c11 -o "$work/calls" tests/calls.c target/libluigi.a
exec "$work/calls" examples/four_in_one.bin examples/four_in_one.cfg examples/four_in_one.label
