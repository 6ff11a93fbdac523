#!/bin/sh
# Builds the proved functions and the C baseline, measures both in one run, and prints a table of ratios. README.md says how to read it.
# bench/run.sh ROW measures the rows alone whose names have ROW in them.
set -eu
cd "$(dirname "$0")/.."
work=$PWD/target/bench

command -v gcc >/dev/null || {
    printf 'run.sh: gcc is not on the path\n' >&2
    exit 2
}
rm -rf "$work"
mkdir -p "$work"
how=$(bench/library.sh target/libluigi.a)
printf 'Rattle: %s.\nC: %s -O2.\n\n' "$how" "$(gcc --version | sed 1q)"

# Four programs, in which the library's code starts 0, 16, 32 and 48 bytes behind a multiple of 64.
for shift in 0 16 32 48; do
    printf '.text\n.p2align 6\n.fill %d, 1, 0\n.section .note.GNU-stack,"",%%progbits\n' "$shift" >"$work/shift.s"
    gcc -O2 -falign-functions=64 -Wall -o "$work/bench" bench/bench.c bench/baseline.c "$work/shift.s" target/libluigi.a
    "$work/bench" "$@" >"$work/table-$shift" || {
        cat "$work/table-$shift" >&2
        exit 1
    }
done

# The middle of four figures is the mean of the two that are neither the least nor the most.
awk -F ' *[|] *' '
    function middle(a, b, c, d,   least, most) {
        least = most = a
        if (b < least) least = b; if (b > most) most = b
        if (c < least) least = c; if (c > most) most = c
        if (d < least) least = d; if (d > most) most = d
        return (a + b + c + d - least - most) / 2
    }
    { file = int((NR - 1) / lines); row = (NR - 1) % lines; name[row] = $2
      ratio[row, file] = $3 + 0; plain[row, file] = $4 + 0; rate[row, file] = $5 + 0; rated[row] = $5 != ""; head[row] = $0 }
    END {
        for (r = 0; r < lines; r++) {
            if (r < 2) { print head[r]; continue }
            printf "| %s | %.2f | %.2f ms |", name[r], middle(ratio[r, 0], ratio[r, 1], ratio[r, 2], ratio[r, 3]), middle(plain[r, 0], plain[r, 1], plain[r, 2], plain[r, 3])
            if (rated[r]) printf " %.1f million a second |\n", middle(rate[r, 0], rate[r, 1], rate[r, 2], rate[r, 3]); else printf " |\n"
        }
    }' lines="$(wc -l <"$work/table-0")" "$work/table-0" "$work/table-16" "$work/table-32" "$work/table-48"
