#!/usr/bin/env python3
"""pack_vectors.py CALLS.jsonl.gz PACKED.xz [CASE..]: packs recorded cases for tests/recorded, and says how many; with numbers of cases, only these.

The heads of tests/recorded/recorded.c, tidied.c, dispatched.c and lined.c have the packed forms. A line of CALLS is a case, bytes in hex. A case of the runs has `table`,
the bytes or the word `predecoded`, and `plain_run` and `table_run`, the answers, the state and the log of either run. A case of the tidy form has `given`, the
trace and the output buffer, and `got`, the answer and that buffer after the call. So has one of the dispatcher, with the heads' buffers, lists and answers, and one of the litres, with the log, the marks and the lines.
"""
import gzip
import json
import lzma
import struct
import sys

PREDECODED = 0xFFFFFFFF
TABLE_ACCEPTED = (0, 6, 7, 8)  # the dispatcher's answers behind the test of the table: it is the one that predecode makes


def words(*numbers):
    return struct.pack("<%dI" % len(numbers), *numbers)


def long_words(numbers):
    return struct.pack("<%dQ" % len(numbers), *numbers)


def answers(run):
    return b"".join(words(*answer) for answer in run["answers"])


def results(run):
    return bytes.fromhex(run["state"]) + bytes.fromhex(run["log"])


def packed_run(case):
    rom, state, trace, log = (bytes.fromhex(case[name]) for name in ("rom", "state", "trace", "log"))
    predecoded = case["table"] == "predecoded"
    table = b"" if predecoded else bytes.fromhex(case["table"])
    plain, driven = case["plain_run"], case["table_run"]
    own = b"" if driven == plain else answers(driven) + results(driven)
    head = words(case["case"], len(rom), PREDECODED if predecoded else len(table), len(state), len(trace), len(log),
                 case["log_start"], len(case["budgets"]), len(own))
    calls = b"".join(words(budget, *answer) for budget, answer in zip(case["budgets"], plain["answers"]))
    return head + rom + table + state + trace + log + calls + results(plain) + own + b"DONE"


def packed_tidy(case):
    given, got = case["given"], case["got"]
    trace, out, left = (bytes.fromhex(text) for text in (given["trace"], given["out"], got["out"]))
    head = words(case["case"], len(trace), len(out), got["number"], got["address"], got["length"])
    return head + trace + out + left + b"DONE"


def packed_dispatch(case):
    given, got = case["given"], case["got"]
    rom, states, traces, log = (bytes.fromhex(given[name]) for name in ("rom", "states", "traces", "log"))
    predecoded = got["number"] in TABLE_ACCEPTED
    table = b"" if predecoded else bytes.fromhex(given["table"])
    head = words(case["case"], given["heads"], given["q"], given["turns"], len(rom), PREDECODED if predecoded else len(table), len(states), len(traces),
                 len(log), len(given["lengths"]), len(given["starts"]), got["number"], got["address"], len(got["answers"]))
    left = bytes.fromhex(got["states"]) + bytes.fromhex(got["log"])
    return head + rom + table + states + traces + log + long_words(given["lengths"] + given["starts"]) + answers(got) + left + b"DONE"


def packed_litres(case):
    given, got = case["given"], case["got"]
    log, marks, farms = bytes.fromhex(given["log"]), given["marks"], got["farms"]
    head = words(case["case"], len(log), len(marks), got["number"], len(farms))
    return head + log + words(*marks) + long_words([got["unplaced"]] + farms) + b"DONE"


def form_of(case):
    """The packed file's mark, and what packs such a case."""
    if "given" not in case:
        return b"SAM47VEC", packed_run
    if "marks" in case["given"]:
        return b"SAM47LIT", packed_litres
    return (b"SAM47DSP", packed_dispatch) if "heads" in case["given"] else (b"SAM47TDY", packed_tidy)


def main():
    source, target, *chosen = sys.argv[1:]
    with gzip.open(source, "rt") as lines:
        cases = [json.loads(line) for line in lines]
    if chosen:
        cases = [case for case in cases if str(case["case"]) in chosen]
    mark, packed = form_of(cases[0])
    with lzma.open(target, "wb", preset=9 | lzma.PRESET_EXTREME) as out:
        out.write(mark + words(1, len(cases)) + b"".join(packed(case) for case in cases))
    print("%d cases" % len(cases))


main()
