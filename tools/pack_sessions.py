#!/usr/bin/env python3
"""pack_sessions.py PROGRAMS.jsonl.gz PACKED EXPECTED: packs sessions of the program `replay` for the program `sessions`, and writes what it must print.

The heads of crates/sessions/src/main.rt and crates/text/src/packed.rt have the packed form. A line of PROGRAMS is a session: `rom` and `trace` in hex, `stdin`, `stdout`.
The sessions are the printed ones as document 02, No. 2, has them worked out anew, others that the rules decide, refused and odd input among them, and
RECORDED ones.
"""
import gzip
import json
import struct
import sys

# ROMs that are refused, ends by done and code, in the hold, at its end and behind it, logs of every port, idle stretches, traces from none to 495 bytes
RECORDED = {4, 5, 9, 11, 13, 14, 15, 19, 24, 26, 29, 30, 33, 36, 39, 41, 42, 44, 45, 46, 48, 50, 53, 57, 58, 59}

ROM = bytearray(2048)
ROM[0x0000] = 0x01
ROM[0x0100:0x0102] = b"\xB1\xB2"
FRESH = "0 0 0 0 256\n"

# LD A,#1; LD A,#2 behind the hold's 2,048 cycles, then an undefined code
BY_RULE = [
    (ROM, b"", b"2", "0 2 0 2 256\n"),
    (ROM, b"", b"3", "0 3 0 3 256\n"),
    (ROM, b"", b"2050", "0 2050 0 2050 258\n"),
    (ROM, b"", b"2051", "9 2050 258 2050 258\n"),
    # a reset at clock 1000, in the hold, starts it anew; at 2049 it takes the place of the second code
    (ROM, b"\x80\x01\xE8\x03", b"3048", "0 3048 0 3048 256\n"),
    (ROM, b"\x80\x01\xE8\x03", b"3051", "9 3050 258 3050 258\n"),
    (ROM, b"\x80\x01\x01\x08", b"2050", "0 2050 0 2050 256\n"),
    # white space around a budget, zeros before it, and the largest
    (ROM, b"", b" \t\r\n2050\v\f\n", "0 2050 0 2050 258\n"),
    (ROM, b"", b"000000000000000000002050", "0 2050 0 2050 258\n"),
    (ROM, b"", b"4294967295\n", "9 2050 258 2050 258\n"),
    # what is no budget counts as 0
    (ROM, b"", b"4294967296", FRESH),
    (ROM, b"", b"18446744073709551618", FRESH),
    (ROM, b"", b"", FRESH),
    (ROM, b"", b" \n", FRESH),
    (ROM, b"", b"-2", FRESH),
    (ROM, b"", b"+2", FRESH),
    (ROM, b"", b"2 2", FRESH),
    (ROM, b"", b"2x", FRESH),
    (ROM, b"", b"0x2", FRESH),
    # refused ROMs
    (b"", b"", b"2", "1 0 0 0 0\n"),
    (ROM[:2047], b"", b"2", "1 0 0 0 0\n"),
    (ROM + ROM + b"\0", b"", b"2", "1 0 0 0 0\n"),
    # traces: map 0, a record cut short, the longest and one byte more
    (ROM, b"\0\0", b"2", "6 0 0 0 256\n"),
    (ROM, b"\x80\x00\x00\x01\x05", b"2", "6 0 2 0 256\n"),
    (ROM, b"\x80\x00" * 32768, b"2050", "0 2050 0 2050 258\n"),
    (ROM, b"\x80\x00" * 32768 + b"\x80", b"2", "6 0 65536 0 256\n"),
]


def words(*numbers):
    return struct.pack("<%dI" % len(numbers), *numbers)


def packed(rom, trace, text):
    return words(len(rom), len(trace), len(text)) + rom + trace + text + b"DONE"


def recorded(source):
    with gzip.open(source, "rt") as lines:
        for case in map(json.loads, lines):
            if case["case"] in RECORDED:
                yield bytes.fromhex(case["rom"]), bytes.fromhex(case["trace"]), case["stdin"].encode(), case["stdout"]


def main():
    source, target, expected = sys.argv[1:]
    sessions = BY_RULE + list(recorded(source))
    with open(target, "wb") as out:
        out.write(b"SAM47SES" + words(1, len(sessions)))
        for rom, trace, text, _ in sessions:
            out.write(packed(rom, trace, text))
    with open(expected, "w") as out:
        for number, session in enumerate(sessions):
            out.write("session %d\n%s" % (number, session[3]))
        out.write("%d of %d sessions\n" % (len(sessions), len(sessions)))


main()
