#!/bin/sh
# round.sh FOLDER: writes rom.bin and trace.bin of a small round made for the examples: a head that counts the pulses on P1.1 (INT1). Of those that come
# while a reset holds it, it knows that there were some: they are counted as one.
set -eu
cd "$1"

put() { # put ADDRESS CODES: writes codes, in octal, at an address of the ROM
    printf "$2" | dd of=rom.bin bs=1 seek="$1" conv=notrunc status=none
}

head -c 2048 /dev/zero > rom.bin
put 0 '\001\000' # the reset vector, 0100H
put 6 '\001\200' # INT1's vector, 0180H

# 0100H: LD EA,#77H; LD PMG1,EA (P0 and P3 are outputs); LD EA,#0FH; LD PMG2,EA (P4); LD EA,#0FFH; LD PMG3,EA (P5 and P6); BITS IE1; EI
put 256 '\201\167\315\350\201\017\315\352\201\377\315\354\377\276\377\262'
# 0110H: IDLE; NOP; NOP; JR back to the IDLE
put 272 '\377\243\240\240\004'
# 0180H: BITS P0.0 (a lamp); INCS L, where 16 pulses make INCS L skip the JR over INCS H; NOP
put 384 '\377\300\132\022\133\240'
# 0186H: LD A,L; LD P4,A; COM A; LD P6,A; LD A,H; LD P5,A; LD A,P2 (the keys); LD P3,A
put 390 '\335\012\211\364\335\077\211\366\335\013\211\365\214\362\211\363'
# 0196H: LD A,#8; INCS A; JR back to the INCS A, until it skips the JR; BITR P0.0; IRET
put 406 '\270\130\001\376\300\325'

# A record is a map (0102H: wait and P1; 0106H: P2 as well), a wait, the pins. Twenty-two pulses, 60 cycles up and mostly 90 down. The head was switched on
# mid-round: the first two come in the 2,048 cycles for which the reset holds it. The ninth and the seventeenth come after a pause, with other keys held.
: > trace.bin
for pulse in 1 2 3 4 5 6 7 8 9 10 11 12 13 14 15 16 17 18 19 20 21 22; do
    case $pulse in
    1) printf '\002\001\130\002\002' ;;     # at 600
    2) printf '\002\001\344\002\002' ;;     # at 1400
    3) printf '\002\001\246\002\002' ;;     # at 2138
    9) printf '\006\001\220\001\002\003' ;;
    17) printf '\006\001\054\001\002\004' ;;
    *) printf '\002\001\132\000\002' ;;
    esac
    printf '\002\001\074\000\000'
done > trace.bin
