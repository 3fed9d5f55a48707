#!/usr/bin/env python3
"""mutants.py COUNT [SEED]: how much of the emulator the comparison would notice.

First each misreading of FAULTS is put into a copy of peer.c, each of TIDY_FAULTS into one of tidy.c, each of HEADS_FAULTS into one of heads.c, and each of LITRES_FAULTS into
one of litres.c; all must be noticed by cases 1 to 20000 of compare.c, tidies.c, lorries.c or slips.c, else the exit status is 1. Then COUNT copies of each file are made, fewer where it has fewer places, each with one token changed (0 and 1 exchanged, another
number one larger, an operator turned). A change that no case notices is printed with its line. Such a change may be one that nothing can notice: a reader decides. Run it
by `make -C tests mutants`, which builds what it links with.
"""
import collections
import os
import pathlib
import random
import re
import subprocess
import sys

HERE = pathlib.Path(__file__).resolve().parent
OUT = HERE.parent.parent / "target" / "tests"
LIBRARY = os.environ.get("LIB", str(OUT.parent / "staticlib" / "libsam47.a"))
TURNED = {"==": "!=", "!=": "==", "<=": "<", ">=": ">", "<": "<=", ">": ">=", "+": "-", "-": "+", "&": "|", "|": "&", "&&": "||", "||": "&&"}
TOKEN = re.compile(r"(?<=[\s(])(==|!=|<=|>=|<|>|\+|-|&&|\|\||&|\|)(?=\s)|\b(0x[0-9A-F]+|[0-9]+)\b")
RANGES = (40, 400, 4000, 20000)  # most changes are noticed by the first cases
SECONDS_MOST = 180

# Misreadings of the basic timer, then of the hold, each with the text of peer.c that it changes, which stands there once.
TAPS, RATES = "{12, 12, 12, 9, 12, 7, 12, 5}", "{64, 64, 8, 4}"
RESTART = "{ s->m[BMOD] &= 7; set_bcnt(s, 0); s->m[INTB] &= 14; }"
RECORDS, RATE = "    while (s->due <= s->clock) apply(s);\n", "    unsigned per_cycle = rate(s);\n"
PASSES, NOTES = "    pass(s, cycles * per_cycle);\n", "    if (s->noisy && !note(s, s->clock + cycles)) { *address = 0; return 12; }\n"
PINS_TESTED = "    for (uint32_t i = 0; i < 7; i++) if (m[PINS + i] & ~pinned[i]) return PINS + i;\n"
TIMER_TESTED = "    if (m[TIMER + 1] & 128) return TIMER;\n"
BITE = "    set_bcnt(s, 0);\n    reset(s);\n"
OFF = "s->m[WDMOD] == 10 && s->m[WDMOD + 1] == 5"
HOLDS, FALLS, CYCLE = "    s->hold = HELD_CYCLES;\n", "    s->hold--;\n", "    *cycles = 1;\n    return 0;\n}\n\n/* rules 2 to 4 */"
RULES = "s->hold ? held(s, &cycles) : inner(s, &cycles, address)"
RECORDS_RESET, FRESH = "    if (t[0] & 128) reset(s);\n", "    put_scalars(&s);\n    return 0;\n"
HOLD_TESTED = "    if (le16(m + HOLD) > HELD_CYCLES) return HOLD;\n"
FAULTS = [
    ("fx/2^12 one bit lower", TAPS, "{11, 12, 12, 9, 12, 7, 12, 5}"),
    ("fx/2^9 one bit lower", TAPS, "{12, 12, 12, 8, 12, 7, 12, 5}"),
    ("fx/2^7 one bit higher", TAPS, "{12, 12, 12, 9, 12, 8, 12, 5}"),
    ("fx/2^5 one bit higher", TAPS, "{12, 12, 12, 9, 12, 7, 12, 6}"),
    ("BMOD 001 as 011", TAPS, "{12, 9, 12, 9, 12, 7, 12, 5}"),
    ("BMOD 010 as 011", TAPS, "{12, 12, 9, 9, 12, 7, 12, 5}"),
    ("BMOD 100 as 101", TAPS, "{12, 12, 12, 9, 7, 7, 12, 5}"),
    ("BMOD 110 as 111", TAPS, "{12, 12, 12, 9, 12, 7, 5, 5}"),
    ("overflow at FEH", "if (bcnt < 256) return;", "if (bcnt < 255) return;"),
    ("IRQB not set", "s->m[INTB] |= 1;", ""),
    ("PCON 01 as 4", RATES, "{64, 4, 8, 4}"),
    ("PCON 01 as 8", RATES, "{64, 8, 8, 4}"),
    ("PCON 10 and 11 exchanged", RATES, "{64, 64, 4, 8}"),
    ("all bits of PCON taken", "by_pcon[s->m[PCON] & 3]", "s->m[PCON] < 4 ? by_pcon[s->m[PCON]] : 64"),
    ("clocks by PCON and mode after the rules", PASSES, "    pass(s, cycles * rate(s));\n"),
    ("clocks by PCON and mode before the records", RECORDS + RATE, RATE + RECORDS),
    ("clocks in stop mode", "s->m[MODE] == 2 ? 0", "s->m[MODE] == 3 ? 0"),
    ("no clocks in idle mode", "s->m[MODE] == 2 ? 0", "s->m[MODE] ? 0"),
    ("clocks of one cycle a step", PASSES, "    pass(s, per_cycle);\n"),
    ("watchdog at 6", "s->overflows < 7", "s->overflows < 6"),
    ("no watchdog", BITE, "    s->overflows = 0;\n"),
    ("BCNT counts on after the watchdog's reset", BITE, "    reset(s);\n"),
    ("the phase goes on after the watchdog's reset", BITE, "    set_bcnt(s, 0);\n    reset(s);\n    s->phase = to & (1u << tap) - 1;\n"),
    ("IRQB set after the watchdog's reset", BITE, BITE + "    s->m[INTB] |= 1;\n"),
    ("a reset keeps the phase", "s->phase = s->overflows = 0;", "s->overflows = 0;"),
    ("a reset keeps the watchdog's count", "s->phase = s->overflows = 0;", "s->phase = 0;"),
    ("a reset clears BCNT", "    s->phase = s->overflows = 0;\n", "    s->phase = s->overflows = 0;\n    set_bcnt(s, 0);\n"),
    ("5AH seen by its low nibble", OFF, "s->m[WDMOD] == 10"),
    ("5AH seen by its high nibble", OFF, "s->m[WDMOD + 1] == 5"),
    ("A5H turns the watchdog off", OFF, "s->m[WDMOD] == 5 && s->m[WDMOD + 1] == 10"),
    ("5AH clears the watchdog's count", f"if ({OFF}) return;", f"if ({OFF}) {{ s->overflows = 0; return; }}"),
    ("WDTCF clears nothing", "if (a == 0xF9A && s->m[AT(a)] & 8) s->overflows = 0;", ""),
    ("WDTCF does not stay", "if (a == 0xF9A && s->m[AT(a)] & 8) s->overflows = 0;", "if (a == 0xF9A && s->m[AT(a)] & 8) s->overflows = s->m[AT(a)] = 0;"),
    ("a 0 written to WDTCF clears too", "a == 0xF9A && s->m[AT(a)] & 8", "a == 0xF9A"),
    ("STOP keeps the watchdog's count", "{ s->m[MODE] = 2; s->overflows = 0; }", "s->m[MODE] = 2;"),
    ("IDLE clears the watchdog's count", "s->m[MODE] = 1;", "{ s->m[MODE] = 1; s->overflows = 0; }"),
    ("BMOD.3 clears the phase", RESTART, RESTART.replace("set_bcnt", "s->phase = 0; set_bcnt")),
    ("BMOD.3 clears the watchdog's count", RESTART, RESTART.replace("set_bcnt", "s->overflows = 0; set_bcnt")),
    ("BMOD.3 keeps BCNT", RESTART, RESTART.replace("set_bcnt(s, 0);", "")),
    ("BMOD.3 keeps IRQB", RESTART, RESTART.replace("s->m[INTB] &= 14;", "")),
    ("BMOD.3 clears IEB too", RESTART, RESTART.replace("&= 14", "&= 12")),
    ("BMOD.3 stays", RESTART, RESTART.replace("s->m[BMOD] &= 7;", "")),
    ("a BMOD.3 that stands clears at any write", "if (a < 0xFB0) strobe(s, a);\n}\n\nstatic unsigned rd_bit", "strobe(s, 0xF85);\n}\n\nstatic unsigned rd_bit"),
    ("the log compared before the clocks", PASSES + NOTES, NOTES + PASSES),
    ("bit 15 accepted", TIMER_TESTED, ""),
    ("bit 14 refused", TIMER_TESTED, TIMER_TESTED.replace("128", "192")),
    ("bit 15 at 663", TIMER_TESTED, TIMER_TESTED.replace("return TIMER", "return TIMER + 1")),
    ("bit 15 tested before the pins", PINS_TESTED + TIMER_TESTED, TIMER_TESTED + PINS_TESTED),
    ("held for 2,047 cycles", HOLDS, HOLDS.replace("HELD_CYCLES", "HELD_CYCLES - 1")),
    ("held for 2,049 cycles", HOLDS, HOLDS.replace("HELD_CYCLES", "HELD_CYCLES + 1")),
    ("a fresh head not held", FRESH, "    s.hold = 0;\n" + FRESH),
    ("not held after a record's reset", RECORDS_RESET, "    if (t[0] & 128) { reset(s); s->hold = 0; }\n"),
    ("not held after the watchdog's reset", BITE, BITE + "    s->hold = 0;\n"),
    ("held from the step behind a record's reset", RECORDS_RESET, "    if (t[0] & 128) { reset(s); s->hold++; }\n"),
    ("held in the watchdog's own step", BITE, BITE + "    s->hold--;\n"),
    ("rules in the step of a record's reset", RECORDS + RATE + f"    uint32_t stop = {RULES};\n",
     "    uint32_t was = s->hold;\n" + RECORDS + RATE + f"    uint32_t stop = {RULES.replace('s->hold', 'was', 1)};\n"),
    ("no reset starts a hold anew", HOLDS, "    if (!s->hold) s->hold = HELD_CYCLES;\n"),
    ("a record's reset starts no hold anew", RECORDS_RESET, "    uint32_t was = s->hold;\n    if (t[0] & 128) reset(s);\n    if (was) s->hold = was;\n"),
    ("the watchdog's reset starts no hold anew", BITE, "    set_bcnt(s, 0);\n    uint32_t was = s->hold;\n    reset(s);\n    if (was) s->hold = was;\n"),
    ("no watchdog in the hold", BITE, "    set_bcnt(s, 0);\n    if (s->hold) s->overflows = 0; else reset(s);\n"),
    ("records wait for the hold's end", RECORDS, RECORDS.replace("(s->due", "(!s->hold && s->due")),
    ("edges in the hold not taken", "    const uint8_t *now = s->m + PINS;\n", "    const uint8_t *now = s->m + PINS;\n    if (s->hold) memcpy(old, now, 7);\n"),
    ("interrupts entered in the hold", RULES, RULES.replace("s->hold", "s->hold && (s->m[MODE] || s->m[RELEASE] || served(s) < 0)", 1)),
    ("codes run in the hold", RULES, RULES.replace("s->hold", "s->hold && (s->m[MODE] || s->hold--, s->m[MODE])", 1)),
    ("undefined codes stop in the hold", RULES, RULES.replace("held(s, &cycles)", "!fetch(s, s->pc).len ? (*address = s->pc, 9u) : held(s, &cycles)")),
    ("idle mode's rule in the hold", RULES, RULES.replace("held(s, &cycles)", "s->m[MODE] ? (s->hold--, inner(s, &cycles, address)) : held(s, &cycles)")),
    ("idle mode's rule before the hold", RULES, RULES.replace("s->hold", "s->hold && !s->m[MODE]", 1)),
    ("the remainder stands in stop mode", FALLS, "    s->hold -= s->m[MODE] != 2;\n"),
    ("the remainder stands in idle mode", FALLS, "    s->hold -= s->m[MODE] != 1;\n"),
    ("the hold makes the mode running", FALLS, FALLS + "    s->m[MODE] = 0;\n"),
    ("the hold's end makes the mode running", FALLS, FALLS + "    if (!s->hold) s->m[MODE] = 0;\n"),
    ("the hold drops the effect", FALLS, FALLS + "    s->m[EFFECT] = 0;\n"),
    ("the hold counts the release down", FALLS, FALLS + "    if (s->m[RELEASE]) s->m[RELEASE]--;\n"),
    ("the hold's end is a release", FALLS, FALLS + "    if (!s->hold && s->m[AT(0xFB2)] & 8) s->m[RELEASE] = 2;\n"),
    ("the hold's end clears IRQB", FALLS, FALLS + "    if (!s->hold) s->m[INTB] &= 14;\n"),
    ("the hold clears the watchdog's count", FALLS, FALLS + "    s->overflows = 0;\n"),
    ("the hold clears the phase", FALLS, FALLS + "    s->phase = 0;\n"),
    ("no clocks in the hold", RATE, "    unsigned per_cycle = s->hold ? 0 : rate(s);\n"),
    ("clocks of the hold at 64 a cycle", RATE, "    unsigned per_cycle = s->hold && s->m[MODE] != 2 ? 64 : rate(s);\n"),
    ("clocks of the hold in stop mode too", RATE, "    unsigned per_cycle = s->hold && s->m[MODE] == 2 ? 64 : rate(s);\n"),
    ("no cycle in the hold", CYCLE, CYCLE.replace("= 1", "= 0")),
    ("two cycles a step in the hold", CYCLE, CYCLE.replace("= 1", "= 2")),
    ("no log in the hold", NOTES, NOTES.replace("s->noisy", "s->noisy && !s->hold")),
    ("no end of the clock in the hold", "if (cycles > 0xFFFFFFFFu - s->clock)", "if (!s->hold && cycles > 0xFFFFFFFFu - s->clock)"),
    ("any remainder accepted", HOLD_TESTED, ""),
    ("2,048 refused", HOLD_TESTED, HOLD_TESTED.replace("> HELD", ">= HELD")),
    ("2,049 accepted", HOLD_TESTED, HOLD_TESTED.replace("HELD_CYCLES)", "HELD_CYCLES + 1)")),
    ("a remainder too large at 665", HOLD_TESTED, HOLD_TESTED.replace("return HOLD", "return HOLD + 1")),
    ("the remainder tested before the timer", TIMER_TESTED + HOLD_TESTED, HOLD_TESTED + TIMER_TESTED),
    ("XCH A,A and INCS EA are 9", "    case 0x68: case 0x80: return 17; ", "    case 0x68: case 0x80: return 9; "),
    ("INCS EA is 9", "case 0x68: case 0x80: return 17;", "case 0x68: return 17;"),
    ("78H is 17", "case 0x68: case 0x80: return 17;", "case 0x68: case 0x78: case 0x80: return 17;"),
    ("7CH is 17", "case 0x68: case 0x80: return 17;", "case 0x68: case 0x7C: case 0x80: return 17;"),
    ("D9H x8H is 9", "    case 0xD9: return 17; ", "    case 0xD9: return 9; "),
    ("D9H x8H is 18", "    case 0xD9: return 17; ", "    case 0xD9: return 18; "),
    ("DCH with an odd number is 17", "        if (number) return 9;\n", "        if (number & 6) return 9;\n"),
    ("AND, OR, XOR RRb,EA with EA are 9", "case 0x02: case 0x04: case 0x06: return 17;", "case 0x02: case 0x04: case 0x06: return 9;"),
    ("SBC RRb,EA with EA is 9", "case 0x12: case 0x14: case 0x16: case 0x18: return 17;", "case 0x12: case 0x14: case 0x16: return 17;"),
    ("LD EA,EA is 9", "case 0x1C: case 0x1E: case 0x1F: return 17;", "case 0x1C: case 0x1E: return 17;"),
    ("DCH D0H is 17", "case 0x1C: case 0x1E: case 0x1F: return 17;", "case 0x1A: case 0x1C: case 0x1E: case 0x1F: return 17;"),
    ("LD A,A is 9", "        if (row < 2) return 17; ", "        if (row < 1) return 17; "),
    ("SRB 4 to 15 are 9", "c.b1 >> 4 == 4 || c.b1 >> 4 == 5 ? 18 : 9", "c.b1 >> 4 == 4 ? 18 : 9"),
    ("SMB 2 to 14 are 9", "c.b1 >> 4 == 4 || c.b1 >> 4 == 5 ? 18 : 9", "c.b1 >> 4 == 5 ? 18 : 9"),
    ("DDH 61H, 63H and 65H are 18", "c.b1 >> 4 == 4 || c.b1 >> 4 == 5 ? 18 : 9", "c.b1 >> 4 >= 4 && c.b1 >> 4 <= 6 ? 18 : 9"),
    ("17 and 18 change places", "    case 0x68: case 0x80: return 17; ", "    case 0x68: case 0x80: return 18; "),
    ("a skipped code is always 9", "return undefined(over);", "return 9;"),
    ("a code that is run is always 9", "{ *address = s->pc; return undefined(c); }", "{ *address = s->pc; return 9; }"),
    ("a skipped code told by the code before it", "return undefined(over);", "return undefined(c);"),
    ("a skipped code's address is the PC", "{ *address = d.next; return undefined(over); }", "{ *address = s->pc; return undefined(over); }"),
    ("a REF to an undefined code is told by it", "        if (!refer(s, c.b0, &d)) { *address = s->pc; return 10; }\n",
     "        if (!refer(s, c.b0, &d)) { *address = s->pc; c = fetch(s, (c.b0 & 0xF0u) + 2 * (c.b0 & 7u)); return c.len ? 10 : undefined(c); }\n"),
    ("ADC and SBC stop at the code behind them", "        if (d.skip == SKIP) {\n            if (!over.len)", "        if (d.skip) {\n            if (!over.len)"),
]

# Misreadings of a trace's records and of its tidy form, in the same way in tidy.c.
COUNTED, LAST, KEPT = "        *count += is_event(e);\n", "        last = events[i].due;\n", "    return trace_len;\n"
FULL = "        for (; gap > WAIT_MOST; gap -= WAIT_MOST) {\n            put_two_bytes(w, WAIT);\n            put_two_bytes(w, WAIT_MOST);\n        }\n"
OWN, OWN_WAIT = "        put_event(w, &events[i], gap);\n", "    if (wait > 0)\n        put_two_bytes(w, wait);\n"
MAP = "    unsigned map = (e->is_reset ? RESET : 0) + (wait > 0 ? WAIT : 0);\n"
ORDER = "put(w, number % 256);\n    put(w, number / 256);"
MALFORMED = "    if (end < trace_len)\n        return (struct peer_written){6, (uint32_t)end, 0};\n"
PUT, SHORT = "    put_events(&form, events, count);\n", "    if (out_len < form.length)\n        return (struct peer_written){13, 0, 0};\n"
LONG = "    if (trace_len > TRACE_MOST)\n        return (struct peer_written){6, TRACE_MOST, 0};\n"
COPIED = "    memcpy(out, form.bytes, form.length);\n"
TIDY_FAULTS = [
    ("records at one time merged", COUNTED, "        if (*count > 0 && is_event(e) && e->due == e[-1].due) {\n            e[-1].is_reset |= e->is_reset;\n"
     "            for (unsigned p = 0; p < PORTS; p++) if (e->has_field[p]) e[-1].has_field[p] = 1, e[-1].pins[p] = e->pins[p];\n        } else *count += is_event(e);\n"),
    ("of records at one time the last kept", COUNTED, "        if (*count > 0 && is_event(e) && e->due == e[-1].due) e[-1] = *e; else *count += is_event(e);\n"),
    ("a field that repeats the pins dropped", COUNTED, "        for (unsigned p = 0; p < PORTS; p++) if (*count > 0 && e->has_field[p] && e[-1].has_field[p] && e[-1].pins[p] == e->pins[p]) "
     "e->has_field[p] = 0;\n" + COUNTED),
    ("records that only wait are events", COUNTED, "        ++*count;\n"),
    ("records that only reset are no events", "    int is = e->is_reset;\n", "    int is = 0;\n"),
    ("records that only wait add no time", "        now += wait;\n", "        now += is_event(e) ? wait : 0;\n"),
    ("a reset takes no time", "        now += wait;\n", "        now += e->is_reset ? 0 : wait;\n"),
    ("due times in 16 bits", "        e->due = now;\n", "        e->due = now & 0xFFFF;\n"),
    ("trailing waits kept", KEPT, "    if (*count < EVENTS_MOST && now > (*count ? events[*count - 1].due : 0)) events[(*count)++].due = now;\n" + KEPT),
    ("65,535 as two records", FULL, FULL.replace("gap > WAIT_MOST", "gap >= WAIT_MOST")),
    ("65,536 as one wait", FULL, FULL.replace("gap > WAIT_MOST", "gap > WAIT_MOST + 1")),
    ("multiples of 65,535 without their last wait", FULL, FULL.replace("gap > WAIT_MOST", "gap > WAIT_MOST || (gap == WAIT_MOST && events[i].due - last > gap)")),
    ("at most one record that only waits", FULL, FULL.replace("for (; gap > WAIT_MOST; gap -= WAIT_MOST)", "if (gap > WAIT_MOST && (gap -= WAIT_MOST))")),
    ("the short wait first", FULL + OWN, "        uint32_t own = gap > WAIT_MOST ? (gap - 1) % WAIT_MOST + 1 : 0;\n        if (own) { put_two_bytes(w, WAIT); put_two_bytes(w, own); gap -= own; }\n"
     + FULL + OWN),
    ("waits only in records that only wait", FULL + OWN, FULL + "        if (gap) { put_two_bytes(w, WAIT); put_two_bytes(w, gap); }\n" + OWN.replace("gap", "0")),
    ("waits of 65,534 at most", FULL, FULL.replace("WAIT_MOST", "(WAIT_MOST - 1)")),
    ("gaps of 0 with a wait of 0", MAP, MAP.replace("(wait > 0 ? WAIT : 0)", "WAIT")),
    ("a wait of 0 written without its bit", OWN_WAIT, "    put_two_bytes(w, wait);\n"),
    ("the wait behind the fields", OWN_WAIT + "    for (unsigned port = 0; port < PORTS; port++)\n        if (e->has_field[port])\n            put(w, e->pins[port]);\n",
     "    for (unsigned port = 0; port < PORTS; port++)\n        if (e->has_field[port])\n            put(w, e->pins[port]);\n" + OWN_WAIT),
    ("the first gap from the first event", "    uint32_t last = 0;\n", "    uint32_t last = count ? events[0].due : 0;\n"),
    ("gaps from 0", LAST, ""),
    ("resets dropped", MAP, MAP.replace("e->is_reset ? RESET : 0", "0")),
    ("resets with fields dropped", MAP, MAP.replace("e->is_reset", "e->is_reset && !e->has_field[0]")),
    ("the bytes of numbers swapped", ORDER, "put(w, number / 256);\n    put(w, number % 256);"),
    ("the bytes of the wait swapped", OWN_WAIT, OWN_WAIT.replace("wait);", "wait / 256 + wait % 256 * 256);")),
    ("the wait read high byte first", "    *wait = map & WAIT ? two_bytes(r) : 0;\n", "    *wait = map & WAIT ? two_bytes(r) : 0;\n    *wait = *wait / 256 + *wait % 256 * 256;\n"),
    ("ports falling", "put(w, e->pins[port]);", "put(w, e->pins[PORTS - 1 - port]);"),
    ("map 0 accepted", "map == 0 || (map", "(map"),
    ("bit 15 accepted", "~(unsigned)KNOWN_BITS)", "~(unsigned)(KNOWN_BITS | 0x8000))"),
    ("bit 9 accepted", "~(unsigned)KNOWN_BITS)", "~(unsigned)(KNOWN_BITS | 0x200))"),
    ("a wait of 0 accepted", "map & WAIT && *wait == 0", "0"),
    ("P0's absent pin accepted", "{7, 3, 15, 7, 15, 15, 15}", "{15, 3, 15, 7, 15, 15, 15}"),
    ("P1's absent pin accepted", "{7, 3, 15, 7, 15, 15, 15}", "{7, 7, 15, 7, 15, 15, 15}"),
    ("P3's absent pin accepted", "{7, 3, 15, 7, 15, 15, 15}", "{7, 3, 15, 15, 15, 15, 15}"),
    ("bit 4 of P6 accepted", "{7, 3, 15, 7, 15, 15, 15}", "{7, 3, 15, 7, 15, 15, 31}"),
    ("a record cut off accepted", "    return !r->is_cut;\n", "    return 1;\n"),
    ("a record cut off dropped", MALFORMED, "    if (end < trace_len && trace_len - end > 10)\n        return (struct peer_written){6, (uint32_t)end, 0};\n"),
    ("6 at the record's end", "            return start;\n", "            return trace_len - r.left - (r.left == 0);\n"),
    ("6 at the record's second byte", MALFORMED, MALFORMED.replace("(uint32_t)end", "(uint32_t)end + 1")),
    ("the damaged record dropped, the trace accepted", MALFORMED, ""),
    ("65,537 bytes accepted", LONG, LONG.replace("> TRACE_MOST)", "> TRACE_MOST + 1)")),
    ("65,536 bytes refused", LONG, LONG.replace("> TRACE_MOST)", ">= TRACE_MOST)")),
    ("too long at the trace's length", LONG, LONG.replace("{6, TRACE_MOST", "{6, (uint32_t)trace_len")),
    ("13 before 6", MALFORMED + PUT + SHORT, PUT + SHORT + MALFORMED),
    ("an exact buffer refused", SHORT, SHORT.replace("<", "<=")),
    ("a byte short accepted", SHORT, SHORT.replace("out_len <", "out_len + 1 <")),
    ("13 where the buffer is shorter than the trace", SHORT, SHORT.replace("form.length", "trace_len")),
    ("13 with the length needed", SHORT, SHORT.replace("{13, 0, 0}", "{13, 0, form.length}")),
    ("13 with a place", SHORT, SHORT.replace("{13, 0, 0}", "{13, (uint32_t)out_len, 0}")),
    ("13 writes what fits", SHORT, SHORT.replace("        return", "        return memcpy(out, form.bytes, out_len),")),
    ("6 writes the records before it", MALFORMED, MALFORMED.replace("        return", "        return put_events(&form, events, count), memcpy(out, form.bytes, form.length < out_len ? form.length : out_len),")),
    ("the rest of the buffer cleared", COPIED, COPIED + "    memset(out + form.length, 0, out_len - form.length);\n"),
    ("written to the buffer's end", COPIED, "    memcpy(out + out_len - form.length, form.bytes, form.length);\n"),
    ("the trace's length answered", "{0, 0, form.length}", "{0, 0, trace_len}"),
]

# Misreadings of the dispatcher's refusals, of the heads' parts, and of the turns, in the same way in heads.c.
COUNT = "heads == 0 || heads > PEER_HEADS_MOST || trace_lens_len != heads || log_starts_len != heads"
COUNTED_HEADS, ADDED_UP = f"    if ({COUNT})\n        return HEADS;\n", "    if (!add_up(trace_lens, heads, traces_len))\n        return HEADS;\n"
HAS_STEPS, ROM_FITS = "    if (q == 0)\n        return TURN;\n", "    if (c->rom_len != ROM_C0502 && c->rom_len != ROM_C0504)\n        return ROM;\n"
TABLE_FITS = "    if (c->table_len != TABLE_BYTES_PER_ADDRESS * c->rom_len)\n        return TABLE;\n"
IMAGE_FITS = "    return states_len != heads * (size_t)STATE_BYTES ? IMAGE : DONE;\n"
IMAGE_FIRST = "    if (states_len != heads * (size_t)STATE_BYTES)\n        return IMAGE;\n"
EXCEEDS, OWN_LOG = "        if (lengths[i] > left)\n            return 0;\n", ".log_len = part"
FROM_LOWEST, TEST = "    for (uint32_t i = 0; i < heads; i++) {\n        struct peer_answer a", " = tested(&row[i], &c, i == 0);\n"
REFUSED = "        if (a.number != DONE)\n            return (struct peer_heads){.number = a.number, .address = a.address};\n"
ADDS_STEPS, STOPS = "    a.steps += h->answer.steps;\n", "return h->answer.number != DONE;"
GIVEN, NEXT = "given = 0; given < turns; given++", "        next = now + 1;\n"
NOW = "        uint32_t now = next_going(row, heads, next);\n        if (now == heads)\n            now = next_going(row, heads, 0); /* round again */\n"
TOLD = "        answer.head[i] = row[i].answer;\n"
HEADS_FAULTS = [
    ("no heads accepted", "heads == 0 || ", ""),
    ("eight heads refused", "heads > PEER_HEADS_MOST", "heads >= PEER_HEADS_MOST"),
    ("nine heads accepted", "heads > PEER_HEADS_MOST", "heads > PEER_HEADS_MOST + 1"),
    ("a longer list of trace lengths accepted", "trace_lens_len != heads", "trace_lens_len < heads"),
    ("a shorter list of trace lengths accepted", "trace_lens_len != heads", "trace_lens_len > heads"),
    ("a longer list of log starts accepted", "log_starts_len != heads", "log_starts_len < heads"),
    ("a shorter list of log starts accepted", "log_starts_len != heads", "log_starts_len > heads"),
    ("lengths added up modulo 2^64", EXCEEDS, ""),
    ("lengths in 32 bits", EXCEEDS, EXCEEDS.replace("lengths[i]", "(uint32_t)lengths[i]")),
    ("traces longer than their lengths accepted", "    return left == 0;\n", "    return 1;\n"),
    ("lengths that don't add up are 6", ADDED_UP, ADDED_UP.replace("HEADS", "6")),
    ("turns of no steps accepted", HAS_STEPS, ""),
    ("turns of one step refused", HAS_STEPS, HAS_STEPS.replace("q == 0", "q <= 1")),
    ("15 before 14", COUNTED_HEADS + ADDED_UP + HAS_STEPS, HAS_STEPS + COUNTED_HEADS + ADDED_UP),
    ("15 before the lengths' 14", ADDED_UP + HAS_STEPS, HAS_STEPS + ADDED_UP),
    ("1 before 14", COUNTED_HEADS + ADDED_UP + HAS_STEPS + ROM_FITS, ROM_FITS + COUNTED_HEADS + ADDED_UP + HAS_STEPS),
    ("1 before 15", HAS_STEPS + ROM_FITS, ROM_FITS + HAS_STEPS),
    ("2 before 15", HAS_STEPS + ROM_FITS + TABLE_FITS, ROM_FITS + TABLE_FITS + HAS_STEPS),
    ("2 before 1", ROM_FITS + TABLE_FITS, TABLE_FITS + ROM_FITS),
    ("3 before 1", ROM_FITS, IMAGE_FIRST + ROM_FITS),
    ("3 before 2", TABLE_FITS, IMAGE_FIRST + TABLE_FITS),
    ("3 before 15", HAS_STEPS, IMAGE_FIRST + HAS_STEPS),
    ("the number of states as 14", COUNTED_HEADS, COUNTED_HEADS.replace(COUNT, COUNT + " || states_len / STATE_BYTES != heads")),
    ("more states than heads accepted", IMAGE_FITS, IMAGE_FITS.replace("!=", "<")),
    ("fewer states than heads accepted", IMAGE_FITS, IMAGE_FITS.replace("!=", ">")),
    ("a part of a state accepted", IMAGE_FITS, IMAGE_FITS.replace("states_len !=", "states_len / STATE_BYTES * STATE_BYTES !=")),
    ("4 of all heads before 8 of the first", FROM_LOWEST + TEST + REFUSED, "    for (uint32_t number = 4; number <= 8; number++)\n" + FROM_LOWEST + TEST + REFUSED.replace("!= DONE", "== number")),
    ("4 of all heads first", FROM_LOWEST + TEST + REFUSED, FROM_LOWEST + TEST + REFUSED.replace("!= DONE", "== 4") + "    }\n" + FROM_LOWEST + TEST + REFUSED),
    ("8 of all heads last", FROM_LOWEST + TEST + REFUSED, FROM_LOWEST + TEST + REFUSED.replace("!= DONE", "!= DONE && a.number != 8") + "    }\n" + FROM_LOWEST + TEST + REFUSED),
    ("5 before 4 of the first head", FROM_LOWEST, "    static const uint8_t none[STATE_BYTES];\n    uint8_t fresh[STATE_BYTES];\n    peer_fresh(rom, rom_len, fresh, STATE_BYTES);\n"
     "    if (peer_table_run(rom, rom_len, table, table_len, fresh, STATE_BYTES, none, 0, fresh, 0, 0, 0).number == 5)\n"
     "        return (struct peer_heads){.number = 5, .address = peer_table_run(rom, rom_len, table, table_len, fresh, STATE_BYTES, none, 0, fresh, 0, 0, 0).address};\n" + FROM_LOWEST),
    ("the highest head first", TEST, TEST.replace("i", "heads - 1 - i", 1).replace("i == 0", "i == heads - 1")),
    ("the table tested with the last head", TEST, TEST.replace("i == 0", "i + 1 == heads")),
    ("the table not tested", TEST, TEST.replace("i == 0", "0")),
    ("the first head alone tested", FROM_LOWEST, FROM_LOWEST.replace("i < heads", "i < 1")),
    ("heads without a turn not tested", FROM_LOWEST, FROM_LOWEST.replace("i < heads", "i < heads && i < turns")),
    ("nothing of a head tested for 0 turns", FROM_LOWEST, FROM_LOWEST.replace("i < heads", "i < heads && turns > 0")),
    ("a head's refusal is its own answer", REFUSED, REFUSED.replace("return (struct peer_heads){.number = a.number, .address = a.address}", "row[i].answer = a")),
    ("4 counted in all states", REFUSED, REFUSED.replace("a.address}", "a.address + (a.number == 4) * STATE_BYTES * i}")),
    ("6 counted in all traces", REFUSED, REFUSED.replace("a.address}", "a.address + (uint32_t)(a.number == 6 ? row[i].trace - traces : 0)}")),
    ("a refusal without its address", REFUSED, REFUSED.replace(", .address = a.address", "")),
    ("a refusal with the log starts", REFUSED, REFUSED.replace("a.address}", "a.address, .head[0].log_end = log_starts[0]}")),
    ("a refusal in the head's answer", REFUSED, REFUSED.replace("a.address}", "a.address, .head[0] = {.number = a.number}}")),
    ("parts rounded up", "log_len / heads", "(log_len + heads - 1) / heads"),
    ("parts of whole records", "log_len / heads", "log_len / heads / 6 * 6"),
    ("parts of an eighth", "log_len / heads", "log_len / PEER_HEADS_MOST"),
    ("the remainder for the last head", OWN_LOG, ".log_len = i + 1 < heads ? part : log_len - i * part"),
    ("one log for all heads", "        log += part;\n", ""),
    ("one trace for all heads", "        traces += trace_lens[i];\n", ""),
    ("one state for all heads", "        states += STATE_BYTES;\n", ""),
    ("a log start past the part accepted", OWN_LOG, ".log_len = log_starts[i] > part ? log_starts[i] : part"),
    ("log ends counted in the whole log", TOLD, TOLD + "        answer.head[i].log_end += i * (log_len / heads);\n"),
    ("the steps of the last turn", ADDS_STEPS, ""),
    ("the address of a stop left out", ADDS_STEPS, ADDS_STEPS + "    a.address = 0;\n"),
    ("each turn from the log start", "h->answer.log_end, q)", "h->log_start, q)"),
    ("q steps for all turns of a head", "h->answer.log_end, q)", "h->answer.log_end, q - h->answer.steps)"),
    ("two steps in a turn of one", "h->answer.log_end, q)", "h->answer.log_end, q + (q == 1))"),
    ("stopped heads have turns again, up to their third", STOPS, "return h->answer.number != DONE && h->had > 2;"),
    ("a full log is no stop", STOPS, "return h->answer.number != DONE && h->answer.number != 12;"),
    ("a stop behind steps is none, up to the fifth turn", STOPS, "return h->answer.number != DONE && (h->answer.steps == 0 || h->had > 4);"),
    ("a head that makes all its steps has stopped", STOPS, "return h->had > 0;"),
    ("a stop ends the call", NEXT, "        if (has_stopped(&row[now]))\n            return;\n" + NEXT),
    ("the turn of a stop not counted", NEXT, NEXT + "        given -= has_stopped(&row[now]);\n"),
    ("turns that stopped heads are left out of counted", NOW, "        uint32_t now = next % heads;\n        if (has_stopped(&row[now])) {\n            next = now + 1;\n            continue;\n        }\n"),
    ("a stopped head's turns lost", "        take_turn(&row[now], c, q);\n", "        if (turns > 1000 || row[now].had <= turns / heads)\n            take_turn(&row[now], c, q);\n"),
    ("so many turns for each head", "given < turns", "given / heads < turns"),
    ("only whole rounds", "given < turns", "given < turns / heads * heads"),
    ("one turn more", "given < turns", "given <= turns"),
    ("turns from the last head on", "    uint32_t next = 0;\n", "    uint32_t next = heads - 1;\n"),
    ("turns from the second head on", "    uint32_t next = 0;\n", "    uint32_t next = 1;\n"),
    ("turns from where the last call ended", "    uint32_t next = 0;\n", "    static uint32_t next;\n"),
    ("one head until it stops", NEXT, NEXT.replace("now + 1", "now")),
    ("the round begun anew behind a stop", NEXT, "        next = has_stopped(&row[now]) ? 0 : now + 1;\n"),
    ("two turns in a row", NEXT, NEXT.replace("now + 1", "now + given % 2")),
    ("no log end without a turn", TOLD, "        if (row[i].had > 0)\n    " + TOLD),
    ("a stop in the call's number", TOLD, TOLD + "        answer.number = row[i].answer.number;\n"),
    ("the last stop in the call's number", TOLD, TOLD + "        if (has_stopped(&row[i]) && heads == 1)\n            answer.number = row[i].answer.number;\n"),
    ("turns told", TOLD, TOLD + "        answer.turns += row[i].had;\n"),
]

# Misreadings of the farms' marks, of the log, of what a litre is and of where it belongs, in the same way in litres.c.
RISE, OF_P4, P4_AFTER = "(p4 & 1) > (r->p4 & 1)", "        if (r->next[PORT_AT] == P4) {\n", "            r->p4 = p4;\n        }\n"
BEGUN, NO_LITRES = "struct reader r = {log, log + log_len, 0};", "    uint64_t litres = 0;\n"
UP_TO, BEGINS = "clock_of(r->next) < clock", "return farm < count ? marks[farm] : past_every_clock;"
FIRST_LINE = "    lines.unplaced = litres_before(&r, begins(0, marks, marks_len));\n"
EACH_FARM, ITS_LINE = "farm < marks_len; farm++", "        lines.farm[farm] = litres_before(&r, begins(farm + 1, marks, marks_len));\n"
TOO_MANY, NOT_ABOVE = "marks_len > PEER_FARMS_MOST", "marks[i] <= marks[i - 1]"
FALLEN, DRIVEN, NIBBLE = "clock_of(record) < before", "return port == 0 || (port >= 3 && port <= 6);", "record[NIBBLE_AT] > NIBBLE_MOST"
WHOLE, KEPT_CLOCK = "    if (len % RECORD_BYTES != 0)\n        return 0;\n", "        before = clock_of(record);\n"
NOT_A_RECORD = "clock_of(record) < before || !is_driven(record[PORT_AT]) || record[NIBBLE_AT] > NIBBLE_MOST"
TOLD_16 = "        lines.number = LITRES;\n"
LITRES_FAULTS = [
    ("a falling change counted", RISE, RISE.replace("> (", "< (")),
    ("every change counted", RISE, RISE.replace("> (", "!= (")),
    ("every record with P4.0 set counted", RISE, "p4 & 1"),
    ("a rise of the whole nibble", RISE, "p4 > r->p4"),
    ("a nibble that was 0", RISE, "p4 > 0 && r->p4 == 0"),
    ("P4.0 where the nibble was 0", RISE, "(p4 & 1) && r->p4 == 0"),
    ("any bit that rises", RISE, "(p4 & ~r->p4) != 0"),
    ("P4 bit 1", RISE, RISE.replace("& 1", "& 2")),
    ("P4 bit 3", RISE, RISE.replace("& 1", "& 8")),
    ("rises at one clock counted once", RISE, RISE + " && (litres == 0 || clock_of(r->next) != clock_of(r->next - RECORD_BYTES))"),
    ("P4 as a clock's last record leaves it", OF_P4, OF_P4.replace("== P4", "== P4 && !(r->next + RECORD_BYTES < r->end && clock_of(r->next) == clock_of(r->next + RECORD_BYTES))")),
    ("bit 0 of any port", OF_P4, OF_P4.replace("r->next[PORT_AT] == P4", "1")),
    ("P5 too", OF_P4, OF_P4.replace("== P4", ">= P4 && r->next[PORT_AT] <= 5")),
    ("P5", OF_P4, OF_P4.replace("== P4", "== 5")),
    ("P0", OF_P4, OF_P4.replace("== P4", "== 0")),
    ("P4 as 0 behind another port's record", P4_AFTER, P4_AFTER.replace("}", "} else r->p4 = 0;")),
    ("P4 as 1 before the log", BEGUN, BEGUN.replace("0}", "1}")),
    ("the log's first record no change", BEGUN, BEGUN.replace("0}", "log_len > NIBBLE_AT ? log[NIBBLE_AT] : 0}")),
    ("P4 as 0 before each farm", NO_LITRES, NO_LITRES + "    r->p4 = 0;\n"),
    ("P4 as 1 before each farm", NO_LITRES, NO_LITRES + "    r->p4 = r->next < r->end && r->p4 == 0;\n"),
    ("counts in 8 bits", NO_LITRES, NO_LITRES.replace("uint64_t", "uint8_t")),
    ("counts in 16 bits", NO_LITRES, NO_LITRES.replace("uint64_t", "uint16_t")),
    ("a litre at the mark to the farm before", UP_TO, UP_TO.replace("<", "<=")),
    ("a litre a cycle behind the mark to the farm before", UP_TO, UP_TO.replace("< clock", "<= clock + 1")),
    ("a litre a cycle before the mark to its farm", UP_TO, UP_TO.replace("<", "+ (uint64_t)1 <")),
    ("the last farm ended at 4,294,967,295", BEGINS, BEGINS.replace("past_every_clock", "UINT32_MAX")),
    ("the last farm ended at the log's last clock", BEGUN, BEGUN + "\n    if (log_len > RECORD_BYTES && marks_len > 0 && clock_of(r.end - RECORD_BYTES) > marks[marks_len - 1])\n        r.end -= RECORD_BYTES;"),
    ("the last farm without litres", EACH_FARM, EACH_FARM.replace("farm <", "farm + 1 <")),
    ("the first farm from 0 on", BEGINS, BEGINS.replace("marks[farm]", "farm == 0 ? 0 : marks[farm]")),
    ("marks where a farm ends", FIRST_LINE, FIRST_LINE.replace("begins(0, marks, marks_len)", "0") + "    for (size_t farm = 0; farm < marks_len; farm++)\n"
     "        lines.farm[farm] = litres_before(&r, marks[farm]);\n    lines.unplaced = litres_before(&r, past_every_clock);\n    return lines;\n"),
    ("marks in 16 bits", BEGINS, BEGINS.replace("marks[farm]", "(uint16_t)marks[farm]")),
    ("unplaced left out", FIRST_LINE, FIRST_LINE.replace("lines.unplaced = ", "")),
    ("unplaced to the first farm", ITS_LINE, ITS_LINE + "    lines.farm[0] += lines.unplaced;\n    lines.unplaced = 0;\n"),
    ("unplaced the whole sum", ITS_LINE, ITS_LINE + "    for (size_t farm = 0; farm < marks_len; farm++)\n        lines.unplaced += lines.farm[farm];\n"),
    ("nothing unplaced without marks", FIRST_LINE, FIRST_LINE + "    if (marks_len == 0)\n        lines.unplaced = 0;\n"),
    ("lines that add up", ITS_LINE, ITS_LINE.replace("= ", "= (farm > 0 ? lines.farm[farm - 1] : 0) + ")),
    ("the lines from the last farm on", ITS_LINE, ITS_LINE.replace("lines.farm[farm]", "lines.farm[marks_len - 1 - farm]")),
    ("the lines one farm on", ITS_LINE, ITS_LINE.replace("lines.farm[farm]", "lines.farm[(farm + 1) % PEER_FARMS_MOST]")),
    ("a line behind the last farm's", ITS_LINE, ITS_LINE + "    if (marks_len < PEER_FARMS_MOST)\n        lines.farm[marks_len] = lines.unplaced;\n"),
    ("64 marks refused", TOO_MANY, TOO_MANY.replace(">", ">=")),
    ("65 marks accepted", TOO_MANY, TOO_MANY + " + 1"),
    ("the first 64 of more marks taken", f"    if ({TOO_MANY} || ", f"    if ({TOO_MANY})\n        marks_len = PEER_FARMS_MOST;\n    if ("),
    ("the number of marks in 8 bits", f"    if ({TOO_MANY} || ", "    marks_len = (uint8_t)marks_len;\n" + f"    if ({TOO_MANY} || "),
    ("no marks refused", TOO_MANY, "marks_len == 0 || " + TOO_MANY),
    ("one mark refused", TOO_MANY, "marks_len == 1 || " + TOO_MANY),
    ("equal marks accepted", NOT_ABOVE, NOT_ABOVE.replace("<=", "<")),
    ("falling marks accepted", NOT_ABOVE, NOT_ABOVE.replace("<=", "==")),
    ("marks that only fall as a whole refused", NOT_ABOVE, "marks[count - 1] <= marks[0]"),
    ("marks as signed numbers", NOT_ABOVE, "(int32_t)marks[i] <= (int32_t)marks[i - 1]"),
    ("the last mark not tested", "i < count;", "i + 1 < count;"),
    ("the second mark not tested", "size_t i = 1; i < count", "size_t i = 2; i < count"),
    ("a first mark of 0 refused", "!rise(marks, marks_len)", "(marks_len > 0 && marks[0] == 0) || !rise(marks, marks_len)"),
    ("a first mark other than 0 refused", "!rise(marks, marks_len)", "(marks_len > 0 && marks[0] != 0) || !rise(marks, marks_len)"),
    ("a mark of 4,294,967,295 refused", "!rise(marks, marks_len)", "(marks_len > 0 && marks[marks_len - 1] == UINT32_MAX) || !rise(marks, marks_len)"),
    ("marks behind the log refused", "!rise(marks, marks_len)", "(marks_len > 0 && log_len >= RECORD_BYTES && marks[marks_len - 1] > clock_of(log + log_len - RECORD_BYTES)) || !rise(marks, marks_len)"),
    ("a falling clock accepted", FALLEN, "0"),
    ("a clock that falls by 1 accepted", FALLEN, FALLEN.replace("<", "+ (uint64_t)1 <")),
    ("equal clocks refused", FALLEN, "record > log && " + FALLEN.replace("<", "<=")),
    ("a clock of 0 refused", FALLEN, FALLEN.replace("<", "<= 0 || clock_of(record) <")),
    ("a clock of 4,294,967,295 refused", FALLEN, FALLEN.replace("<", "== UINT32_MAX || clock_of(record) <")),
    ("clocks as signed numbers", FALLEN, "record > log && (int32_t)clock_of(record) < (int32_t)before"),
    ("clocks compared with the first", KEPT_CLOCK, "        before = clock_of(log);\n"),
    ("clocks compared with the last of P4", KEPT_CLOCK, "        before = record[PORT_AT] == P4 ? clock_of(record) : before;\n"),
    ("the clock high byte first", "record[0] | (uint32_t)record[1] << 8 | (uint32_t)record[2] << 16 | (uint32_t)record[3] << 24", "record[3] | (uint32_t)record[2] << 8 | (uint32_t)record[1] << 16 | (uint32_t)record[0] << 24"),
    ("the clock of three bytes", " | (uint32_t)record[3] << 24", ""),
    ("port and nibble exchanged", "PORT_AT = 4, NIBBLE_AT = 5", "PORT_AT = 5, NIBBLE_AT = 4"),
    ("the first record not tested", NOT_A_RECORD, f"record > log && ({NOT_A_RECORD})"),
    ("the last record not tested", NOT_A_RECORD, f"record + RECORD_BYTES < log + len && ({NOT_A_RECORD})"),
    ("the records of P4 alone tested", NOT_A_RECORD, f"record[PORT_AT] == P4 && ({NOT_A_RECORD})"),
    ("nibble 16 accepted", NIBBLE, NIBBLE + " + 1"),
    ("nibble 15 refused", NIBBLE, NIBBLE.replace(">", ">=")),
    ("any nibble accepted", NIBBLE, "0"),
    ("bits 5 to 7 of a nibble not looked at", NIBBLE, "(record[NIBBLE_AT] & 31) > NIBBLE_MOST"),
    ("P0's and P3's absent pin refused", NIBBLE, f"({NIBBLE}) || (record[PORT_AT] <= 3 && record[NIBBLE_AT] > 7)"),
    ("port 1 accepted", DRIVEN, DRIVEN.replace("port == 0", "port <= 1")),
    ("port 2 accepted", DRIVEN, DRIVEN.replace("port >= 3", "port >= 2")),
    ("port 7 accepted", DRIVEN, DRIVEN.replace("port <= 6", "port <= 7")),
    ("port 8 accepted", DRIVEN, DRIVEN.replace("port == 0", "port == 0 || port == 8")),
    ("any port accepted", DRIVEN, "return 1;"),
    ("ports by their low three bits", DRIVEN, DRIVEN.replace("return ", "port &= 7; return ")),
    ("port 0 refused", DRIVEN, DRIVEN.replace("port == 0 || ", "")),
    ("port 3 refused", DRIVEN, DRIVEN.replace("port >= 3", "port >= 4")),
    ("port 6 refused", DRIVEN, DRIVEN.replace("port <= 6", "port <= 5")),
    ("P4 alone accepted", DRIVEN, "return port == P4;"),
    ("a log that is not whole records accepted", WHOLE, ""),
    ("what is left behind whole records dropped", f"    if ({TOO_MANY}", f"    log_len -= log_len % RECORD_BYTES;\n    r.end = log + log_len;\n    if ({TOO_MANY}"),
    ("a byte too many accepted", WHOLE, WHOLE.replace("!= 0", "> 1")),
    ("a byte short accepted", WHOLE, WHOLE.replace("!= 0)", "!= 0 && len % RECORD_BYTES < RECORD_BYTES - 1)")),
    ("an even length accepted", WHOLE, WHOLE.replace("% RECORD_BYTES", "% 2")),
    ("an empty log refused", WHOLE, WHOLE.replace("len %", "len == 0 || len %")),
    ("a refusal with the litres up to the fault", TOLD_16, "        lines.unplaced = litres_before(&r, past_every_clock);\n" + TOLD_16),
    ("a refused log as 6", TOLD_16, "        lines.number = is_log(log, log_len) ? LITRES : 6;\n"),
    ("refused marks as 14", TOLD_16, "        lines.number = is_log(log, log_len) ? 14 : LITRES;\n"),
]

# A file of the emulator, what its copies are linked with beside the library, and its misreadings.
Part = collections.namedtuple("Part", "name objects faults of")
PARTS = [Part("peer.c", ("compare.o", "cases.o"), FAULTS, "the timer, the hold and undefined codes"), Part("tidy.c", ("tidies.o",), TIDY_FAULTS, "the tidy form"),
         Part("heads.c", ("lorries.o", "cases.o", "peer.o"), HEADS_FAULTS, "the heads' turns"),
         Part("litres.c", ("slips.o", "cases.o"), LITRES_FAULTS, "the litres by farm")]


def code_part(line):
    """The line without its comment; nothing of a preprocessor line or of a comment's middle."""
    return "" if line.lstrip().startswith(("#", "/*", "* ", "*/")) else line.split("/*")[0]


def changed(token):
    number = None if token in TURNED else int(token, 0)
    return TURNED[token] if number is None else "0" if number == 1 else str(number + 1)


def places(lines):
    return [(row, match) for row, line in enumerate(lines) for match in TOKEN.finditer(code_part(line))]


def outcome(part, text):
    """What became of a copy: "noticed" where a case differs, "not", "never ended", or "does not compile"."""
    source, program = OUT / "mutant.c", OUT / "mutant"
    source.write_text(text)
    parts = [str(source), *(str(OUT / name) for name in part.objects), LIBRARY]
    compiler = os.environ.get("CC", "cc")
    if subprocess.run([compiler, "-std=c11", "-O1", "-w", f"-I{HERE}", *parts, "-o", str(program)], capture_output=True).returncode != 0:
        return "does not compile"
    for last in RANGES:
        try:
            if subprocess.run([str(program), "1", str(last)], capture_output=True, timeout=SECONDS_MOST).returncode != 0:
                return "noticed"
        except subprocess.TimeoutExpired:
            return "never ended"
    return "not"


def faults_missed(part, text):
    """How many misreadings no case notices; each is printed."""
    missed = 0
    for what, old, new in part.faults:
        if text.count(old) != 1:
            sys.exit(f"mutants: the text for '{what}' does not stand once in {part.name}")
        result = outcome(part, text.replace(old, new))
        if result != "noticed":
            missed += 1
            print(f"{result}: {what}", flush=True)
    print(f"mutants: {len(part.faults)} misreadings of {part.of}, {missed} missed", flush=True)
    return missed


def change_tokens(part, lines, count, seed):
    """Tries as many changes of one token, and prints those that no case notices."""
    all_places = places(lines)
    chosen = random.Random(seed).sample(all_places, min(count, len(all_places)))
    seen = collections.Counter()
    for row, match in sorted(chosen, key=lambda place: (place[0], place[1].start())):
        line = lines[row]
        mutant = line[: match.start()] + changed(match[0]) + line[match.end() :]
        result = outcome(part, "".join([*lines[:row], mutant, *lines[row + 1 :]]))
        seen[result] += 1
        if result == "not":
            print(f"not noticed: {part.name}, line {row + 1}: {mutant.strip()}", flush=True)
    counts = ", ".join(f"{seen[result]} {result}" for result in ("noticed", "not", "never ended", "does not compile"))
    print(f"mutants: {part.name}: {len(all_places)} places, {len(chosen)} tried: {counts}", flush=True)


def main():
    count, seed = int(sys.argv[1]), int(sys.argv[2]) if len(sys.argv) > 2 else 1
    missed = 0
    for part in PARTS:
        lines = (HERE / part.name).read_text().splitlines(keepends=True)
        if outcome(part, "".join(lines)) != "not":
            sys.exit(f"mutants: {part.name} differs from the library as it is")
        missed += faults_missed(part, "".join(lines))
        change_tokens(part, lines, count, seed)
    sys.exit(missed > 0)


if __name__ == "__main__":
    main()
