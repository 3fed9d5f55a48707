#!/usr/bin/env python3
"""season.py FOLDER COUNT [SEED]: makes COUNT rounds of a season, a folder each: rom.bin, the head of round.sh; trace.bin, the pulses of 8 to 24 farms;
order.txt, what `slip` reads on standard input; and litres.txt, the slip that it should print, but for its last line. The same words make the same files.
To pay the season on two cores:
    ls -d FOLDER/*/ | xargs -P 2 -I{} sh -c 'cd "$1" && exec slip < order.txt > slip.txt' sh {}
"""
import pathlib
import random
import subprocess
import sys
import tempfile

HOLD = 2048  # cycles for which the reset holds the head: pulses in it would be counted as one
UP = 60  # cycles of a pulse
LONGEST_WAIT = 65535


def head():
    """round.sh's ROM. It leaves the watchdog on, which would reset it amid a round: so it is begun 4 bytes before, with LD EA,#5AH; LD WDMOD,EA."""
    with tempfile.TemporaryDirectory() as folder:
        subprocess.run(["sh", str(pathlib.Path(__file__).parent / "round.sh"), folder], check=True)
        rom = bytearray((pathlib.Path(folder) / "rom.bin").read_bytes())
    rom[0:2] = b"\x00\xfc"
    rom[0xFC:0x100] = b"\x81\x5a\xcd\x98"
    return bytes(rom)


def record(wait, level):
    """P1.1 at a level after a wait; what is too long for one record is waited before it."""
    before = b""
    while wait > LONGEST_WAIT:
        before += b"\x00\x01\xff\xff"
        wait -= LONGEST_WAIT
    return before + b"\x02\x01" + wait.to_bytes(2, "little") + bytes([2 * level])


def round_of(chance):
    """A trace, its last clock, the marks, the litres of each line. The head shows its count on P4: bit 0 rises with every second pulse, from the first on."""
    trace, clock, count, marks, litres = b"", 0, 0, [], [0]
    gap = HOLD + chance.randrange(1000, 5000)
    rinsed = chance.choice([0, 0, 1, 5])  # pulses before the first farm
    for farm in range(chance.randrange(8, 25) + 1):
        pulses = rinsed if farm == 0 else chance.randrange(20, 61)
        if farm > 0:
            gap += chance.randrange(50000, 500000)  # the drive
            marks.append(clock + gap - chance.randrange(0, 1000))
            litres.append(0)
        for _ in range(pulses):
            trace += record(gap, 1) + record(UP, 0)
            clock += gap + UP
            count += 1
            litres[-1] += count % 2
            gap = chance.randrange(90, 240)
    return trace, clock, marks, litres


def main():
    season, count = pathlib.Path(sys.argv[1]), int(sys.argv[2])
    seed = sys.argv[3] if len(sys.argv) > 3 else "1"
    rom = head()
    for number in range(1, count + 1):
        trace, clock, marks, litres = round_of(random.Random(f"{seed} {number}"))
        folder = season / f"{number:05}"
        folder.mkdir(parents=True, exist_ok=True)
        (folder / "rom.bin").write_bytes(rom)
        (folder / "trace.bin").write_bytes(trace)
        # no step takes less than a cycle, so these come to the end of the trace
        (folder / "order.txt").write_text("".join(f"{n}\n" for n in [clock + 1000] + marks))
        lines = [f"unplaced {litres[0]}"] + [f"{k} {mark} {litres[k]}" for k, mark in enumerate(marks, 1)]
        (folder / "litres.txt").write_text("".join(line + "\n" for line in lines))


main()
