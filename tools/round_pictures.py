#!/usr/bin/env python3
"""round_pictures.py OUTPUT [--trace TRACE] [--vcd FILE] [--svg FILE] [--from CLOCK] [--to CLOCK]: pictures of a round.

OUTPUT holds the replay's lines, "clock port nibble" and last "number steps address clock pc"; "-" is standard input. TRACE is the round's trace.bin.
The VCD file is for a waveform viewer. The SVG file is a timeline, whole or between two clocks: the five ports that a head drives and, with a trace,
the pins and resets that it was given, each at its due time; the head sees them at its next step. Ports drive 0 before their first record and pins are
0, as a fresh head has them. Input that is no replay's output or no trace gets a message and exit status 2.
"""
import argparse
import re
import sys

PINS = [7, 3, 15, 7, 15, 15, 15]  # the largest nibble of P0 to P6: P0 and P3 have three pins, P1 two
DRIVEN = (0, 3, 4, 5, 6)
WORDS = {0: "done", 1: "ROM", 2: "table", 3: "image", 4: "field", 5: "stale", 6: "trace", 7: "cursor", 8: "log", 9: "code", 10: "reference",
         11: "clock", 12: "full", 17: "register", 18: "bank"}
LARGEST, PC_MOST = 4294967295, 4095  # of steps, address and clock; of the PC
TRACE_MOST = 65536
RESET, WAIT, MAP_MOST = 0x80, 0x100, 0x1FF  # bits of a trace record's map, and the largest map

# the SVG's measures, in pixels
WIDTH, LEFT, RIGHT, TOP, BOTTOM = 1200, 70, 50, 84, 60
HEADING, ROW, BOX, DIGIT = 24, 46, 28, 7
TICKS_MOST = 10


class BadInput(Exception):
    pass


def numbers(line, where):
    words = line.split()
    if not all(re.fullmatch("[0-9]{1,10}", word) for word in words):
        raise BadInput(f"{where}: not a line of decimal numbers")
    return [int(word) for word in words]


def record_fault(record, last, driven):
    """Why a record cannot follow the last one, or None. A step takes a cycle at least, so records of one clock are of one step, ports rising."""
    clock, port, nibble = record
    if not 1 <= clock <= LARGEST:
        return f"clock {clock} is not 1 to {LARGEST}"
    if port not in DRIVEN:
        return f"port {port} is not one of 0, 3, 4, 5, 6"
    if nibble > PINS[port]:
        return f"nibble {nibble} is more than P{port} can drive"
    if (clock, port) <= last:
        return f"clock {clock}, port {port} does not come after clock {last[0]}, port {last[1]}"
    if nibble == driven[port]:
        return f"P{port} drives {nibble} already"
    return None


def read_records(lines):
    records, last, driven = [], (0, -1), dict.fromkeys(DRIVEN, 0)
    for count, line in enumerate(lines, 1):
        record = numbers(line, f"line {count}")
        if len(record) != 3:
            raise BadInput(f'line {count}: not "clock port nibble"')
        fault = record_fault(record, last, driven)
        if fault:
            raise BadInput(f"line {count}: {fault}")
        clock, port, nibble = record
        last, driven[port] = (clock, port), nibble
        records.append((clock, port, nibble))
    return records


def read_end(line, records):
    end = numbers(line, "last line")
    if len(end) != 5 or end[0] not in WORDS or max(end[1:4]) > LARGEST or end[4] > PC_MOST:
        raise BadInput('last line: not "number steps address clock pc"')
    if records and end[3] < records[-1][0]:
        raise BadInput(f"last line: clock {end[3]} is before the last record's")
    return end


def read_round(name):
    if name == "-" and sys.stdin is None:
        raise BadInput("standard input is closed")
    try:
        with (sys.stdin.buffer if name == "-" else open(name, "rb")) as source:
            text = source.read().decode("ascii")
    except UnicodeDecodeError:
        raise BadInput("not a text of decimal numbers") from None
    if not text.endswith("\n"):
        raise BadInput("cut short: the last line has no end")
    lines = text.split("\n")[:-1]
    records = read_records(lines[:-1])
    return records, read_end(lines[-1], records)


def trace_fields(trace, at):
    """The record at a place of the trace: its wait, its ports' pins, whether it resets, and the place behind it."""
    def fault(why):
        return BadInput(f"trace, record at byte {at}: {why}")

    record = trace[at : at + 11]  # a record has a map, a wait and seven pins at most
    fields = int.from_bytes(record[:2], "little")
    ports = [port for port in range(len(PINS)) if fields >> port & 1]
    pins_at = 4 if fields & WAIT else 2
    if len(record) < pins_at + len(ports):
        raise fault("cut short")
    if not 1 <= fields <= MAP_MOST:
        raise fault(f"map {fields:04X}H")
    wait = int.from_bytes(record[2:pins_at], "little")
    if fields & WAIT and wait == 0:
        raise fault("a wait of 0")
    pins = dict(zip(ports, record[pins_at:]))
    for port, nibble in pins.items():
        if nibble > PINS[port]:
            raise fault(f"P{port} has no pins for {nibble}")
    return wait, pins, bool(fields & RESET), at + pins_at + len(ports)


def read_trace(name):
    """The trace's records: due time, ports' pins, whether it resets."""
    with open(name, "rb") as source:
        trace = source.read(TRACE_MOST + 1)
    if len(trace) > TRACE_MOST:
        raise BadInput(f"trace: more than {TRACE_MOST} bytes")
    inputs, due, at = [], 0, 0
    while at < len(trace):
        wait, pins, reset, at = trace_fields(trace, at)
        due += wait
        inputs.append((due, pins, reset))
    return inputs


def driven_changes(records, port):
    return [(clock, nibble) for clock, of, nibble in records if of == port]


def pin_changes(inputs, port):
    """When the port's pins become another nibble; they are 0 at first."""
    changes, held = [], 0
    for due, pins, _ in inputs:
        if pins.get(port, held) != held:
            held = pins[port]
            changes.append((due, held))
    return changes


def reset_times(inputs):
    return [due for due, _, reset in inputs if reset]


def vcd(records, inputs, end):
    """Driven ports are marked a to e; with a trace, pins are marked A to G and a reset R."""
    ports = [(chr(ord("a") + place), f"P{port}", driven_changes(records, port)) for place, port in enumerate(DRIVEN)]
    text = ["$comment One cycle of the head is shown as 1 us: a scale for the viewer, not the head's time. $end"]
    text += ["$timescale 1 us $end", "$scope module head $end"]
    text += [f"$var wire 4 {mark} {name} [3:0] $end" for mark, name, _ in ports]
    text += ["$upscope $end"]
    resets = []
    if inputs is not None:
        pins = [(chr(ord("A") + port), f"P{port}", pin_changes(inputs, port)) for port in range(len(PINS))]
        text += ["$scope module trace $end"]
        text += [f"$var wire 4 {mark} {name} [3:0] $end" for mark, name, _ in pins]
        text += ["$var event 1 R reset $end", "$upscope $end"]
        ports += pins
        resets = [(clock, "1R") for clock in reset_times(inputs)]
    text += ["$enddefinitions $end", "#0", "$dumpvars"] + [f"b0000 {mark}" for mark, _, _ in ports] + ["$end"]
    changes = [(clock, f"b{nibble:04b} {mark}") for mark, _, of in ports for clock, nibble in of]
    time = 0
    for clock, change in sorted(changes + resets, key=lambda change: change[0]):
        if clock > end[3]:
            break
        if clock != time:
            text.append(f"#{clock}")
            time = clock
        text.append(change)
    if end[3] != time:
        text.append(f"#{end[3]}")
    return "\n".join(text) + "\n"


def stretches(changes, first, last):
    """The stretches of one nibble between two clocks: from, to, nibble."""
    changes = [(0, 0)] + changes + [(last, None)]
    for (since, nibble), (until, _) in zip(changes, changes[1:]):
        since, until = max(since, first), min(until, last)
        if since < until:
            yield since, until, nibble


def tick_step(span):
    """The smallest of 1, 2, 5, 10, 20, 50 and so on that makes few enough ticks."""
    scale = 1
    while True:
        for factor in (1, 2, 5):
            if span // (factor * scale) <= TICKS_MOST:
                return factor * scale
        scale *= 10


def text_at(x, y, text, extra=""):
    return f'<text x="{x:.1f}" y="{y:.1f}"{extra}>{text}</text>'


def grid(place, ticks, top, bottom):
    for clock in ticks:
        x = place(clock)
        yield f'<line x1="{x:.1f}" y1="{top}" x2="{x:.1f}" y2="{bottom}" stroke="#d8d8d8"/>'


def axis(place, ticks, bottom):
    for clock in ticks:
        x = place(clock)
        yield f'<line x1="{x:.1f}" y1="{bottom}" x2="{x:.1f}" y2="{bottom + 6}" stroke="#404040"/>'
        yield text_at(x, bottom + 22, f"{clock:,}", ' text-anchor="middle"')
    yield f'<line x1="{LEFT}" y1="{bottom}" x2="{WIDTH - RIGHT}" y2="{bottom}" stroke="#404040"/>'
    yield text_at(WIDTH - RIGHT, bottom + 42, "clock, in cycles", ' text-anchor="end"')


def stretch(since, until, x, end, base, nibble, row):
    """A box for a nibble that is not 0, darker the larger it is, and a line for 0; the nibble in it where it fits."""
    width = end - x
    note = f"<title>{row.says} {nibble}, clock {since:,} to {until:,}</title>"
    if nibble:
        yield f'<rect x="{x:.2f}" y="{base - BOX}" width="{width:.2f}" height="{BOX}" fill="{row.shade(nibble)}" stroke="{row.ink}">{note}</rect>'
    else:
        yield f'<line x1="{x:.2f}" y1="{base}" x2="{end:.2f}" y2="{base}" stroke="{row.ink}">{note}</line>'
    if width >= DIGIT * len(str(nibble)) + 2:
        yield text_at((x + end) / 2, base - BOX / 2 + 4, nibble, ' text-anchor="middle"' + ("" if nibble else ' fill="#909090"'))


class Nibbles:
    """A row of a port's nibbles."""

    def __init__(self, name, says, changes, ink, shade):
        self.name, self.says, self.changes, self.ink, self.shade = name, says, changes, ink, shade

    def drawn(self, place, base, first, last):
        for since, until, nibble in stretches(self.changes, first, last):
            yield from stretch(since, until, place(since), place(until), base, nibble, self)


class Resets:
    """A row with a mark for each reset pulse."""

    name = "reset"

    def __init__(self, times):
        self.times = times

    def drawn(self, place, base, first, last):
        yield f'<line x1="{LEFT}" y1="{base}" x2="{WIDTH - RIGHT}" y2="{base}" stroke="#b03030"/>'
        for clock in self.times:
            if first <= clock <= last:
                x, note = place(clock), f"<title>reset, clock {clock:,}</title>"
                yield f'<line x1="{x:.2f}" y1="{base - BOX}" x2="{x:.2f}" y2="{base}" stroke="#b03030" stroke-width="2">{note}</line>'


def blue(nibble):
    return f"rgb({237 - 7 * nibble},{247 - 7 * nibble},255)"


def orange(nibble):
    return f"rgb(255,{245 - 5 * nibble},{222 - 9 * nibble})"


def groups(records, inputs):
    """What the timeline shows: headings, each with its rows. Of the pins, those of ports that the trace names."""
    driven = [Nibbles(f"P{port}", f"P{port} drives", driven_changes(records, port), "#305090", blue) for port in DRIVEN]
    shown = [("What the head drives", driven)]
    if inputs is not None:
        named = sorted({port for _, pins, _ in inputs for port in pins})
        rows = [Nibbles(f"P{port}", f"P{port}'s pins are", pin_changes(inputs, port), "#a06010", orange) for port in named]
        if reset_times(inputs):
            rows.append(Resets(reset_times(inputs)))
        shown.append(("What the head is given: pins and resets of the trace" if rows else "The trace has no pins and no resets", rows))
    return shown


def title(records, inputs, end, first, last):
    number, steps, address, clock, pc = end
    counts = f"{sum(first <= record[0] <= last for record in records):,} of {len(records):,} log records"
    if inputs is not None:
        counts += f", {sum(first <= record[0] <= last for record in inputs):,} of {len(inputs):,} trace records"
    yield text_at(LEFT, 26, f"A round, clock {first:,} to {last:,}: {counts}", ' font-size="16"')
    yield text_at(LEFT, 48, f"The round ends with {number} ({WORDS[number]}), {steps:,} steps, address {address}, clock {clock:,}, PC {pc:04X}H.")
    yield text_at(LEFT, 66, "A box is a nibble, in decimal; a line is 0." + (" Pins change when their record is due." if inputs else ""))


def svg(records, inputs, end, first, last):
    def place(clock):
        return LEFT + (clock - first) * (WIDTH - LEFT - RIGHT) / (last - first)

    step = tick_step(last - first)
    ticks = range(-(-first // step) * step, last + 1, step)
    body, top = list(title(records, inputs, end, first, last)), TOP
    for heading, rows in groups(records, inputs):
        body.append(text_at(LEFT, top + 16, heading, ' font-weight="bold"'))
        top += HEADING
        body += grid(place, ticks, top, top + ROW * len(rows))
        for row in rows:
            base = top + ROW - (ROW - BOX) // 2
            body.append(text_at(LEFT - 12, base - BOX / 2 + 5, row.name, ' text-anchor="end" font-size="15"'))
            body += row.drawn(place, base, first, last)
            top += ROW
    body += axis(place, ticks, top)
    height = top + BOTTOM
    size = f'width="{WIDTH}" height="{height}" viewBox="0 0 {WIDTH} {height}"'
    head = [f'<svg xmlns="http://www.w3.org/2000/svg" {size} font-family="sans-serif" font-size="12">', '<rect width="100%" height="100%" fill="white"/>']
    return "\n".join(head + body + ["</svg>"]) + "\n"


def span(options, end):
    """The clocks that the SVG shows, at least one cycle."""
    first = options.first
    last = max(end[3], 1) if options.last is None else options.last
    if not first < last <= max(end[3], 1):
        raise BadInput(f"--from {first} --to {last}: not two rising clocks of the round, which ends at {end[3]}")
    return first, last


def clock_option(text):
    if not re.fullmatch("[0-9]{1,10}", text):
        raise argparse.ArgumentTypeError(f"{text!r} is not a clock")
    return int(text)


def options_of(arguments):
    parser = argparse.ArgumentParser(description="Pictures of a round, from what the replay printed and the trace that it read.")
    parser.add_argument("output", help='what the replay printed; "-" is standard input')
    parser.add_argument("--trace", metavar="TRACE", help="the round's trace.bin, to show the pins and resets too")
    parser.add_argument("--vcd", metavar="FILE", help="write a VCD file for a waveform viewer")
    parser.add_argument("--svg", metavar="FILE", help="write a timeline")
    parser.add_argument("--from", dest="first", metavar="CLOCK", type=clock_option, default=0, help="where the timeline begins")
    parser.add_argument("--to", dest="last", metavar="CLOCK", type=clock_option, help="where it ends")
    options = parser.parse_args(arguments)
    if not (options.vcd or options.svg):
        parser.error("neither --vcd nor --svg is given")
    return options


def write(name, text):
    with open(name, "w", encoding="ascii") as target:
        target.write(text)


def main():
    options = options_of(sys.argv[1:])
    try:
        records, end = read_round(options.output)
        inputs = read_trace(options.trace) if options.trace else None
        first, last = span(options, end)
        if options.vcd:
            write(options.vcd, vcd(records, inputs, end))
        if options.svg:
            write(options.svg, svg(records, inputs, end, first, last))
    except (BadInput, OSError) as fault:
        print(f"round_pictures: {fault}", file=sys.stderr)
        return 2
    return 0


if __name__ == "__main__":
    sys.exit(main())
