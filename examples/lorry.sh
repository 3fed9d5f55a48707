#!/bin/sh
# lorry.sh FOLDER: writes rom.bin and three traces for a lorry with three heads: front.bin is the round of round.sh, with its 22 pulses; rear.bin has four
# pulses, and behind the second a reset, which clears the ports and keeps the count; spare.bin is empty, for no milk goes through that head.
set -eu
sh "$(dirname "$0")/round.sh" "$1"
cd "$1"
mv trace.bin front.bin
: > spare.bin

# A record is a map (0102H: wait and P1; 0180H: wait and reset), a wait, the pins. A pulse is 60 cycles up. The first comes behind the hold of 2,048 cycles, and
# the third behind the one that the reset begins.
for pulse in 1 2 3 4; do
    case $pulse in
    1) printf '\002\001\146\010\002' ;;                 # at 2150
    3) printf '\200\001\144\000\002\001\204\013\002' ;; # the reset 100 cycles behind the second, the pulse 2948 behind the reset
    *) printf '\002\001\204\003\002' ;;                 # 900 behind the one before
    esac
    printf '\002\001\074\000\000'
done > rear.bin
