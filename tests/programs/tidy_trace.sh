#!/bin/sh
# tidy_trace.sh PROGRAM FOLDER: starts tidy_trace in a folder on traces written here by hand, and compares status, standard output and standard error.
# Bytes are in octal, as printf takes them: a wait of 65,535 is \377\377. Each start that is not as it should be prints a line, and the last line counts.
set -eu
. "$(dirname "$0")/expect.sh"
program=$1
mkdir -p "$2"
cd "$2"
rm -rf trace.bin

start() {
    starts=$((starts + 1)) status=0
    "$program" "$@" > out 2> told || status=$?
}

silent() { # the trace.bin that stands there becomes the bytes of `wanted`, and nothing is told
    start
    expect "$1" [ "$status" -eq 0 ]
    expect "$1" cmp -s out wanted
    expect "$1" [ ! -s told ]
}

tidied() { # tidied WHAT TRACE TIDY
    printf "$2" > trace.bin
    printf "$3" > wanted
    silent "$1"
}

told() { # told WHAT LINE: that line alone, status 1, no output
    expect "$1" [ "$status" -eq 1 ]
    expect "$1" [ ! -s out ]
    expect "$1" [ "$(cat told)" = "$2" ]
}

refused() { # refused WHAT TRACE PLACE
    printf "$2" > trace.bin
    start
    told "$1" "tidy_trace: trace.bin is refused with 6 (trace) at $3: the record that starts at this byte is malformed"
}

resets() { # resets BYTES: reset pulses, two bytes each
    printf '%*s' $(($1 / 2)) '' | sed 's/ /x0/g' | tr 'x0' '\200\000' > trace.bin
}

tidied "empty" '' ''
tidied "only waits" '\000\001\001\000\000\001\377\377' ''
tidied "a gap of 0" '\002\000\002' '\002\000\002'
tidied "a gap of 1" '\000\001\001\000\002\000\002' '\002\001\001\000\002'
tidied "a gap of 258" '\000\001\001\000\002\001\001\001\002' '\002\001\002\001\002'
tidied "a gap of 65,535" '\000\001\001\000\200\001\376\377' '\200\001\377\377'
tidied "a gap of 65,536" '\000\001\376\377\200\001\002\000' '\000\001\377\377\200\001\001\000'
tidied "a gap of 131,070" '\000\001\001\000\000\001\377\377\000\001\376\377\002\000\002' '\000\001\377\377\002\001\377\377\002'
tidied "a gap of 131,071" '\000\001\001\000\000\001\377\377\200\001\377\377' '\000\001\377\377\000\001\377\377\200\001\001\000'
tidied "gaps of 65,536 and 65,537" '\000\001\001\000\200\001\377\377\000\001\001\000\000\001\376\377\200\001\002\000' \
    '\000\001\377\377\200\001\001\000\000\001\377\377\200\001\002\000'
tidied "a gap of 196,605 behind an event" '\200\001\007\000\000\001\377\377\000\001\377\377\000\001\377\377\200\000' \
    '\200\001\007\000\000\001\377\377\000\001\377\377\200\001\377\377'
tidied "two records at one time" '\000\001\005\000\002\000\002\002\000\000\200\000' '\002\001\005\000\002\002\000\000\200\000'
tidied "pins that are repeated" '\002\001\005\000\002\002\001\005\000\002' '\002\001\005\000\002\002\001\005\000\002'
tidied "waits behind all" '\002\001\005\000\002\000\001\007\000\000\001\377\377' '\002\001\005\000\002'
tidied "every field and a reset" '\000\001\002\000\377\001\001\000\007\003\017\007\017\017\017' '\377\001\003\000\007\003\017\007\017\017\017'

resets 65536
cp trace.bin wanted
expect "the longest trace" [ "$(wc -c < trace.bin)" -eq 65536 ]
silent "the longest trace"

refused "map 0" '\200\000\000\000\200\000' 2
refused "bit 9" '\002\001\005\000\002\200\002' 5
refused "a wait of 0" '\000\001\001\000\200\001\000\000' 4
refused "an absent pin" '\001\000\010' 0
refused "a record cut off" '\002\001\001\000\002\200\000\002\000' 7
resets 65538
start
told "too long" "tidy_trace: trace.bin is refused with 6 (trace) at 65536: it is longer than a trace may be"

rm trace.bin
start
told "a missing file" "tidy_trace: trace.bin: No such file or directory"
mkdir trace.bin
start
told "a folder in the file's place" "tidy_trace: trace.bin: Is a directory"
rmdir trace.bin
printf '\200\000' > trace.bin
start other.bin
told "a word" "tidy_trace: takes no words; it reads trace.bin of the folder that it is run in"
if [ -c /dev/full ]; then
    starts=$((starts + 1)) status=0
    : > out
    "$program" 2> told > /dev/full || status=$?
    told "output that can't be written" "tidy_trace: standard output: No space left on device"
fi

echo "programs: $starts starts of tidy_trace, $failed checks failed"
[ "$failed" -eq 0 ]
