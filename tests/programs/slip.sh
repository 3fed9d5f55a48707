#!/bin/sh
# slip.sh SLIP REPLAY FOLDER: starts slip in a folder on rounds and orders written here, and compares status, standard output and standard error. What it should
# print is written out by hand, or counted by awk from what replay prints of the same round. Each start that is not as it should be prints a line, and the last
# line counts.
set -eu
. "$(dirname "$0")/expect.sh"
slip=$1
replay=$2
examples=$(cd "$(dirname "$0")/../../examples" && pwd)
rm -rf "$3"
mkdir -p "$3"
cd "$3"

start() { # the order that stands in `order`
    starts=$((starts + 1)) status=0
    "$slip" < order > out 2> told || status=$?
}

started() { # started WHAT LINE: what stands in `wanted` is printed, and LINE alone is told, or nothing
    start
    expect "$1" [ "$status" -eq 0 ]
    expect "$1" cmp -s out wanted
    expect "$1" [ "$(cat told)" = "$2" ]
}

paid() { # paid WHAT ORDER SLIP [LINE]: order and slip by hand
    printf "$2" > order
    printf "$3" > wanted
    started "$1" "${4-}"
}

refused() { # refused WHAT ORDER WHY
    paid "$1" "$2" '16\n' "slip: the marks are refused (16): $3"
}

unsaid="a line behind the first says no clock from 0 to 4294967295"
fallen="one is not above the one before it"

count() { # count MARK..: the slip of what replay printed
    awk -v marks="$*" '
        BEGIN { n = split(marks, mark, " ") }
        NF == 3 && $2 == 4 {
            bit = $3 % 2
            if (bit == 1 && was == 0) {
                farm = 0
                for (i = 1; i <= n; i++) if (mark[i] + 0 <= $1 + 0) farm = i
                litres[farm]++
            }
            was = bit
        }
        { last = $0 }
        END {
            print "unplaced " litres[0] + 0
            for (i = 1; i <= n; i++) print i, mark[i], litres[i] + 0
            print last
        }' "$played"
}

counted() { # counted WHAT BUDGET LINE MARK..: the folder's round with these marks
    what=$1 budget=$2 line=$3
    shift 3
    played=played.txt
    echo "$budget" | "$replay" > "$played" 2> replay-told
    { echo "$budget"; for mark; do echo "$mark"; done; } > order
    count "$@" > wanted
    started "$what" "$line"
}

# The examples' round, of 22 pulses: P4 bit 0 rises with every second pulse that the head counts, at 2075, 2302, 2602, 2902, 3512, 3812, 4112, 4412, 4922, 5222
# and 5522.
sh "$examples/round.sh" .
cp rom.bin rom.sav
end='0 5288 0 5799 274\n'

paid "no marks" '5288\n' "unplaced 11\n$end"
paid "a mark at the first litre's clock" '5288\n2075\n' "unplaced 0\n1 2075 11\n$end"
paid "a mark one before it" '5288\n2074\n' "unplaced 0\n1 2074 11\n$end"
paid "a mark one after it" '5288\n2076\n' "unplaced 1\n1 2076 10\n$end"
paid "marks at, before and after three litres" '5288\n2302\n3511\n4413\n' "unplaced 1\n1 2302 3\n2 3511 4\n3 4413 3\n$end"
paid "a farm without litres" '5288\n2303\n2602\n2603\n' "unplaced 2\n1 2303 0\n2 2602 1\n3 2603 8\n$end"
paid "a mark at the last litre, and one behind all" '5288\n5522\n5523\n4294967295\n' "unplaced 10\n1 5522 1\n2 5523 0\n3 4294967295 0\n$end"
paid "a mark at 0" '5288\n0\n' "unplaced 0\n1 0 11\n$end"
paid "a mark in the hold" '2000\n1999\n' 'unplaced 0\n1 1999 0\n0 2000 0 2000 256\n'
paid "a budget of 0" '0\n5\n' 'unplaced 0\n1 5 0\n0 0 0 0 256\n'

paid "line ends of two bytes" '5288\r\n2302\r\n3511\r\n' "unplaced 1\n1 2302 3\n2 3511 7\n$end"
paid "no line end behind the last mark" '5288\n2302\n3511' "unplaced 1\n1 2302 3\n2 3511 7\n$end"
paid "blank lines behind the last mark" '5288\n2302\n\n \t\r\n\n' "unplaced 1\n1 2302 10\n$end"
paid "white space around, zeros before" ' 5288\t\n\t002302 \n' "unplaced 1\n1 2302 10\n$end"
none="slip: standard input says no budget from 0 to 4294967295; it counts as 0"
paid "an empty order" '' 'unplaced 0\n0 0 0 0 256\n' "$none"
paid "no budget" 'x\n7\n' 'unplaced 0\n1 7 0\n0 0 0 0 256\n' "$none"
paid "a budget that is too large" '4294967296\n7\n' 'unplaced 0\n1 7 0\n0 0 0 0 256\n' "$none"
paid "a blank first line" '\n7\n' 'unplaced 0\n1 7 0\n0 0 0 0 256\n' "$none"

refused "equal marks" '5288\n2302\n2302\n' "$fallen"
refused "marks that fall" '5288\n2302\n2303\n2301\n' "$fallen"
refused "a blank line before a mark" '5288\n2302\n\n3511\n' "$unsaid"
refused "a word" '5288\n2302\nfarm\n' "$unsaid"
refused "two marks on a line" '5288\n2302 3511\n' "$unsaid"
refused "a mark below 0" '5288\n-1\n' "$unsaid"
refused "a mark that is too large" '5288\n4294967296\n' "$unsaid"
refused "a byte 0" '5288\n2302\n\000' "$unsaid"
paid "no budget and no marks" 'x\ny\n' '16\n' "$none
slip: the marks are refused (16): $unsaid"

counted "one mark" 4000 '' 2452
counted "64 marks" 5288 '' $(seq 2000 50 5150)
counted "64 marks, the litres' clocks among them" 5288 '' $(seq 2075 1 2127) 2302 2602 2902 3512 3812 4112 4412 4922 5222 5522 5523
counted "a budget amid an interrupt" 3180 '' 2074 2303
{ echo 5288; seq 2000 50 5200; } > order
echo 16 > wanted
started "65 marks" "slip: the marks are refused (16): they are more than 64"
{ echo 5288; seq 1 2000; } > order
started "2,000 marks" "slip: the marks are refused (16): they are more than 64"

# an order of 65,536 bytes and one of 65,537, all that is more being spaces
printf '5288%*s\n2302\n%*s' 60000 '' 5526 '' > order
printf "unplaced 1\n1 2302 10\n$end" > wanted
expect "the longest order" [ "$(wc -c < order)" -eq 65536 ]
started "the longest order" ''
printf ' ' >> order
echo 16 > wanted
started "a longer order" "slip: the marks are refused (16): standard input is longer than 65536 bytes"

# rounds that stop, and files that are refused
printf '\000' | dd of=rom.bin bs=1 seek=274 conv=notrunc status=none
counted "an undefined code" 5288 'slip: the run stopped (9): the code is undefined at address 274' 2075 2076
# BITS EMB; SMB 15; LD EA,#0FH; LD PMG2,EA; LD A,#5; LD P4,A; INCS A; JR back to LD P4,A; JR back to INCS A: P4 counts until the log is full
head -c 2048 /dev/zero > rom.bin
printf '\001' | dd of=rom.bin conv=notrunc status=none
printf '\377\220\335\117\201\017\315\352\265\211\364\130\003\004' | dd of=rom.bin bs=1 seek=256 conv=notrunc status=none
counted "a full log" 200000 'slip: the run stopped (12): the log is full; the PC is 265' 2059 2060 30000
cp rom.sav rom.bin
cp trace.bin trace.sav
: > trace.bin
counted "the clock's end" 4294967295 'slip: the run stopped (11): the clock would pass 4294967295; the PC is 274' 7
printf '\200\000\000\000' > trace.bin
counted "a malformed trace" 5288 'slip: trace.bin is refused (6): the record is malformed that starts at byte 2' 2075
rm trace.bin
counted "no trace" 5288 '' 2075
cp trace.sav trace.bin
rm rom.bin
paid "no ROM" '5288\n2075\n2302\n' 'unplaced 0\n1 2075 0\n2 2302 0\n1 0 0 0 0\n' \
    'slip: rom.bin is refused (1): it is not there, or has neither 2048 nor 4096 bytes'
cp rom.sav rom.bin
if [ -c /dev/full ]; then
    starts=$((starts + 1)) status=0
    : > out
    echo 5288 | "$slip" 2> told > /dev/full || status=$?
    expect "output that can't be written" [ "$status" -eq 0 ]
    expect "output that can't be written" [ "$(cat told)" = "slip: the output could not be written whole" ]
fi

# rounds of a season, whose litres their maker counts as it makes the pulses
if command -v python3 > /dev/null; then
    python3 "$examples/season.py" season 20
    for folder in season/*/; do
        starts=$((starts + 1)) status=0
        (cd "$folder" && exec "$slip" < order.txt) > out 2> told || status=$?
        sed '$d' out > litres
        expect "$folder" [ "$status" -eq 0 ]
        expect "$folder" cmp -s litres "$folder/litres.txt"
        expect "$folder" [ "$(tail -n 1 out | cut -d ' ' -f 1)" = 0 ]
        expect "$folder" [ ! -s told ]
    done
else
    echo "slip: no python3, the season is not tried"
fi

echo "programs: $starts starts of slip, $failed checks failed"
[ "$failed" -eq 0 ]
