#!/usr/bin/env python3
"""edits.py LOG: of a gate's output, a table in Markdown of every must-fail edit with the place of the prover's first error. docs/PROOF.md has it."""
import pathlib
import re
import sys

REFUSED = re.compile(r"^rt: must-fail (\S+)\.edit: refused, as it must be(?: \([^()]*\))?: (?:(?:note|error): )?(?:\./)?((?:src|specs|proofs)/[^:]*:\d+)?")


def table(log):
    """The rows, in the order of their names."""
    found = (REFUSED.match(line) for line in pathlib.Path(log).read_text(encoding="utf-8").splitlines())
    rows = sorted((match.group(1), match.group(2) or "") for match in found if match)
    return "| Edit | First error |\n|---|---|\n" + "".join(f"| {edit} | {place} |\n" for edit, place in rows)


if __name__ == "__main__":
    print(table(sys.argv[1]), end="")
