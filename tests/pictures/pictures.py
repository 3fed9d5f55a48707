#!/usr/bin/env python3
"""pictures.py TRACE FOLDER: tries tools/round_pictures.py on the examples' round, whose trace is TRACE, and on small rounds made here.

The VCD file is read back by a reader of its own and held to the log's lines and to the pulses as examples/round.sh describes them; the SVG file must
be docs/example-round.svg; a trace that document 01 refuses must get a message with its place, and exit status 2. Writes into FOLDER."""
import pathlib
import subprocess
import sys
import xml.etree.ElementTree

TOP = pathlib.Path(__file__).resolve().parents[2]
WHOLE = "== fresh: the same 5288 steps in one call"  # the start in examples/round.expected that plays the whole round
REFUSED = {  # a trace, and what the message must say
    b"\x80\x00\x00\x00": "byte 2: map 0000H",
    b"\x00\x02": "byte 0: map 0200H",
    b"\x80\x00\x00\x01\x00\x00": "byte 2: a wait of 0",
    b"\x80\x00\x06\x00\x03": "byte 2: cut short",
    b"\x02\x00\x04": "byte 0: P1 has no pins for 4",
    b"\x80\x00" * 32769: "more than 65536 bytes",
}


def draw(folder, output, trace):
    (folder / "output.txt").write_text(output)
    (folder / "trace.bin").write_bytes(trace)
    words = [sys.executable, TOP / "tools/round_pictures.py", "output.txt", "--trace", "trace.bin", "--vcd", "round.vcd", "--svg", "round.svg"]
    return subprocess.run(words, cwd=folder, capture_output=True, text=True)


def read_vcd(text):
    """For each scope and name its changes, (time, value): an event's value is 1."""
    names, changes, scope, time = {}, {}, None, None
    lines = iter(text.splitlines())
    for line in lines:
        words = line.split()
        if words[0] == "$scope":
            scope = words[2]
        elif words[0] == "$var":
            names[words[3]] = (scope, words[4])
            changes[scope, words[4]] = []
        elif words[0][0] == "#":
            assert time is None or int(words[0][1:]) > time, line
            time = int(words[0][1:])
        elif words[0][0] == "b":
            changes[names[words[1]]].append((time, int(words[0][1:], 2)))
        elif words[0][0] == "1":
            changes[names[line[1:]]].append((time, 1))
        else:
            assert words[0] in ("$comment", "$timescale", "$upscope", "$enddefinitions", "$dumpvars", "$end"), line
    return changes, time


def pulses():
    """P1's and P2's changes in the examples' trace: 60 cycles up and mostly 90 down. The first two are in the hold; 400 cycles are before the ninth, 300 before the seventeenth."""
    clock, p1, p2 = 0, [(0, 0)], [(0, 0)]
    for pulse in range(1, 23):
        clock += {1: 600, 2: 740, 3: 678, 9: 400, 17: 300}.get(pulse, 90)
        p1 += [(clock, 2), (clock + 60, 0)]
        p2 += {9: [(clock, 3)], 17: [(clock, 4)]}.get(pulse, [])
        clock += 60
    return {1: p1, 2: p2}


def whole_round(folder, trace):
    lines = (TOP / "examples/round.expected").read_text().split(WHOLE + "\n")[1].split("status")[0].splitlines(keepends=True)
    drawn = draw(folder, "".join(lines), trace)
    assert drawn.returncode == 0, drawn.stderr
    records = [tuple(map(int, line.split())) for line in lines[:-1]]
    wanted = {("head", f"P{port}"): [(0, 0)] + [(clock, nibble) for clock, of, nibble in records if of == port] for port in (0, 3, 4, 5, 6)}
    wanted.update({("trace", f"P{port}"): pulses().get(port, [(0, 0)]) for port in range(7)})
    wanted["trace", "reset"] = []
    changes, end = read_vcd((folder / "round.vcd").read_text())
    assert changes == wanted and end == int(lines[-1].split()[3]), "the VCD file is not the round"
    assert (folder / "round.svg").read_text() == (TOP / "docs/example-round.svg").read_text(), "docs/example-round.svg is another picture"


def resets(folder):
    """A reset at once, P0 with a reset 5 cycles later, and another behind the round's end, which is not shown."""
    drawn = draw(folder, "0 6 0 10 256\n", b"\x80\x00" + b"\x81\x01\x05\x00\x07" + b"\x80\x01\x06\x00")
    assert drawn.returncode == 0, drawn.stderr
    changes, _ = read_vcd((folder / "round.vcd").read_text())
    assert changes["trace", "reset"] == [(0, 1), (5, 1)] and changes["trace", "P0"] == [(0, 0), (5, 7)], "resets"
    notes = [note.text for note in xml.etree.ElementTree.parse(folder / "round.svg").iter("{http://www.w3.org/2000/svg}title")]
    assert [note for note in notes if "reset" in note] == ["reset, clock 0", "reset, clock 5"], "resets in the SVG"


def main():
    folder = pathlib.Path(sys.argv[2])
    folder.mkdir(parents=True, exist_ok=True)
    whole_round(folder, pathlib.Path(sys.argv[1]).read_bytes())
    resets(folder)
    for trace, words in REFUSED.items():
        drawn = draw(folder, "0 6 0 10 256\n", trace)
        assert drawn.returncode == 2 and words in drawn.stderr, (words, drawn)
    print(f"pictures: the round and its resets as they should be, {len(REFUSED)} traces refused")


if __name__ == "__main__":
    main()
