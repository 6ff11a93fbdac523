#!/bin/sh
# Builds the library and the C host, runs it on the title in examples/ and compares its words with examples/four_in_one.words; with an image and a list
# named it runs on those: examples/host.sh [IMAGE LIST]. It needs rt and gcc.
set -eu
unset CDPATH
case $# in
0) ;;
2) for n in "$1" "$2"; do [ -r "$n" ] || { printf 'host.sh: %s cannot be read\n' "$n" >&2; exit 2; }; done ;;
*) printf 'host.sh: name an image and a list, or none\n' >&2; exit 2 ;;
esac
here=$(cd "$(dirname "$0")/.." && pwd -P)
work=$here/target/host
mkdir -p "$work"
"$here/bench/library.sh" "$here/target/libluigi.a" >"$work/how"
gcc -O2 -Wall -Wextra -std=c11 -o "$work/host" "$here/examples/host.c" "$here/target/libluigi.a"
[ $# -eq 0 ] || exec "$work/host" "$1" "$2"

cd "$here"
./luigi press examples/four_in_one.bin examples/four_in_one.cfg "$work/four_in_one.luigi" >"$work/press"
"$work/host" "$work/four_in_one.luigi" examples/four_in_one.bus >"$work/words"
diff examples/four_in_one.words "$work/words"
if [ -x target/bin/bus ]; then
    ./luigi bus "$work/four_in_one.luigi" examples/four_in_one.bus >"$work/bus"
    diff "$work/bus" "$work/words"
    also=", and of luigi bus"
fi
cat "$work/words"
printf 'host: the words of examples/four_in_one.words%s\n' "${also:-}"
