#!/bin/sh
# check.sh RECORDER LORRY FOLDER: plays the round of round.sh and compares all that the recorder prints with round.expected; then the rounds of lorry.sh, with
# lorry.expected. The folder keeps the round, and in `lorry` those of the three heads.
set -eu
here=$(cd "$(dirname "$0")" && pwd)
recorder=$1
lorry=$2
folder=$3

rm -rf "$folder"
mkdir -p "$folder/lorry"
sh "$here/round.sh" "$folder"
sh "$here/lorry.sh" "$folder/lorry"
cd "$folder"

start() { # start WHAT ROM SAVED BUDGET CALLS: one start of the recorder, with its status
    echo "== $1"
    status=0
    "$recorder" "$2" trace.bin "$3" "$4" "$5" || status=$?
    echo "status $status"
}

set_out() { # set_out WHAT WORD..: one start of the lorry with these words, with its status
    echo "== $1"
    shift
    status=0
    "$lorry" "$@" || status=$?
    echo "status $status"
}

spoil() { # spoil FILE COPY PLACE BYTE: a copy with another byte, in octal, at a place
    cp "$1" "$2"
    printf "$4" | dd of="$2" bs=1 seek="$3" conv=notrunc status=none
}

{
    start "fresh: 1 call of 1500 steps, in all of which the reset holds the head" rom.bin saved.bin 1500 1
    start "resumed: 3 calls of 560 steps, the last of them amid an interrupt" rom.bin saved.bin 560 3
    start "resumed: 1 call of 8 steps" rom.bin saved.bin 8 1
    start "resumed: 2 calls of 1050 steps" rom.bin saved.bin 1050 2
    start "fresh: the same 5288 steps in one call" rom.bin whole.bin 5288 1
    cmp saved.bin whole.bin && echo "both saved the same"
    head -c 600 saved.bin > short.bin
    start "a saved file cut short" rom.bin short.bin 10 1
    spoil saved.bin damaged.bin $((12 + 643)) '\004' # behind mark, version and size
    start "a saved file whose SRB is 4" rom.bin damaged.bin 10 1
    { dd if=saved.bin bs=1 skip=12 count=662 status=none; tail -c 8 saved.bin; } > old.bin
    start "a file of the recorder without the timer, 662 bytes of state and no mark" rom.bin old.bin 10 1
    { head -c 4 saved.bin; printf '\002\000\000\000\230\002\000\000'; dd if=saved.bin bs=1 skip=12 count=664 status=none; tail -c 8 saved.bin; } > unheld.bin
    start "a file of the recorder without the hold, version 2 and 664 bytes of state" rom.bin unheld.bin 10 1
    spoil saved.bin newer.bin 4 '\004'
    start "a file of a newer version" rom.bin newer.bin 10 1
    spoil saved.bin larger.bin 8 '\234'
    start "a file that says 668 bytes of state" rom.bin larger.bin 10 1
    spoil rom.bin undefined-rom.bin 274 '\000'
    start "a round saved with another ROM" undefined-rom.bin saved.bin 10 1
    start "a ROM with an undefined code at 0112H" undefined-rom.bin undefined.bin 3000 1
    start "an empty ROM" /dev/null none.bin 10 1
    start "no calls" rom.bin saved.bin 10 0
    cmp saved.bin whole.bin && echo "the saved round is as it was"
} > printed.txt 2>&1
diff "$here/round.expected" printed.txt
echo "examples: $(grep -c '^==' printed.txt) starts of the recorder as expected"

cd lorry
{
    set_out "three heads: 20 turns of 100 steps a call, 7300 steps" rom.bin front.bin rear.bin spare.bin 100 20 7300
    "$lorry" rom.bin front.bin rear.bin spare.bin 100 20 7300 > whole.txt
    for cut in "1 50" "7 2" "1000 1" "7300 3" "4294967295 4294967295"; do
        "$lorry" rom.bin front.bin rear.bin spare.bin $cut 7300 | cmp - whole.txt && echo "the same in turns of so many steps, and so many turns a call: $cut"
    done
    set_out "in the hold alone" rom.bin front.bin rear.bin spare.bin 64 3 2048
    spoil rom.bin undefined-rom.bin 390 '\000'
    set_out "a ROM with an undefined code at 0186H, where the two heads with pulses come" undefined-rom.bin front.bin rear.bin spare.bin 30 9 3000
    spoil rear.bin damaged.bin 5 '\000'
    set_out "a malformed trace" rom.bin front.bin damaged.bin spare.bin 30 9 3000
    set_out "an empty ROM" /dev/null front.bin rear.bin spare.bin 30 9 3000
    set_out "a file that is missing" rom.bin front.bin missing.bin spare.bin 30 9 3000
    set_out "a folder for a file" rom.bin front.bin . spare.bin 30 9 3000
    set_out "turns of no steps" rom.bin front.bin rear.bin spare.bin 0 9 3000
    set_out "no turns" rom.bin front.bin rear.bin spare.bin 30 0 3000
    set_out "no number" rom.bin front.bin rear.bin spare.bin 30 9 many
    set_out "a number that is too large" rom.bin front.bin rear.bin spare.bin 30 4294967296 3000
    set_out "two traces" rom.bin front.bin rear.bin 30 9 3000
} > printed.txt 2>&1
diff "$here/lorry.expected" printed.txt
echo "examples: $(grep -c '^==' printed.txt) starts of the lorry as expected, and $(grep -c '^the same' printed.txt) cut otherwise"
