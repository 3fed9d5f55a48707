#!/usr/bin/env bash
# Machine instructions a step, counted by callgrind: a round of 163,840 steps less one of 81,920. Where the head is held, they are those of a whole hold of
# 2,048 steps, for the table-driven run takes less than one a step. Then those of tidying a trace of 65,536 bytes, less what it takes to make the trace. It
# needs valgrind, target/speed (bench/speed.c) and target/tidy (bench/tidy.c).
set -euo pipefail
cd "$(dirname "$0")/.."
steps=81920
hold=2048

counted() { # counted PROGRAM WORD..
    valgrind --tool=callgrind --callgrind-out-file=/dev/null "$@" 2>&1 | sed -n 's/.*Collected : //p'
}

line() { # line PROGRAM STEPS: of the three ways, the instructions of as many steps
    printf '%s:' "$1"
    for way in 0 1 2; do
        few=$(counted target/speed "$way" "$1" "$steps")
        many=$(counted target/speed "$way" "$1" "$((2 * steps))")
        printf ' %d' "$(((many - few) * $2 / steps))"
    done
}

tidied() { # tidied KIND NAME: of both ways, the instructions of one call
    made=$(counted target/tidy 2 "$1")
    printf 'tidy, %s:' "$2"
    for way in 0 1; do
        printf ' %d' "$(($(counted target/tidy "$way" "$1") - made))"
    done
}

for case in busy mixed interrupts; do
    echo "$(line "$case" 1) instructions a step (C, table-driven run, plain run)"
done
echo "$(line held "$hold") instructions a hold of $hold steps (C, table-driven run, plain run)"
for case in "0 resets" "1 one port" "3 wait and all ports" "5 only waits" "7 gaps of 131,071" "8 at random" "9 short, at random"; do
    echo "$(tidied "${case%% *}" "${case#* }") instructions a trace of 65,536 bytes (C, library)"
done
