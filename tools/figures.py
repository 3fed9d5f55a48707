#!/usr/bin/env python3
"""figures.py LOG: brings what docs/PROOF.md counts up to date, from the tree and the output of a gate: the lines of each file of the reading list, the table
of figures (functions proved, edits refused), and where each edit is refused. It says which files the reading list has that are
gone, and which it lacks, and the same of the edits that the tables of contracts name. Run it inside the repository, with everything committed.
"""
import collections
import pathlib
import re
import sys

import edits
import reading

PAGE = pathlib.Path("docs/PROOF.md")
HEAD = "| Crate | Lines of src | Lines of specs | Lines of proofs | Functions proved | Edits refused |\n|---|---|---|---|---|---|\n"
FUNCTION = re.compile(r"^fn ((\w+)::\S+): proved")


def measured(log):
    """Of a gate's output: functions and refused edits of each crate."""
    functions, refused = collections.defaultdict(set), collections.Counter()
    for line in pathlib.Path(log).read_text(encoding="utf-8").splitlines():
        if found := FUNCTION.match(line):
            functions[found.group(2)].add(found.group(1))
        elif found := edits.REFUSED.match(line):
            refused[found.group(1).split("/")[0]] += 1
    return functions, refused


def crates():
    """The crates in the order of crates.txt."""
    lines = pathlib.Path("crates.txt").read_text(encoding="utf-8").splitlines()
    return [line.split(":")[0].split()[0] for line in lines if line.strip() and not line.startswith("#")]


def lines_in(crate, part, ending):
    files = pathlib.Path("crates", crate, part).rglob("*" + ending)
    return sum(len(file.read_text(encoding="utf-8").splitlines()) for file in files)


def table(log):
    """The table of figures, crates in the order of crates.txt."""
    functions, refused = measured(log)
    rows = [[crate, lines_in(crate, "src", ".rt"), lines_in(crate, "specs", ".antt"), lines_in(crate, "proofs", ".antt"), len(functions[crate]), refused[crate]] for crate in crates()]
    whole = ["all"] + [sum(row[k] for row in rows) for k in range(1, 6)]
    return "".join("| " + " | ".join(str(cell) for cell in row) + " |\n" for row in rows + [whole])


def replaced(page, start, rows):
    """The page with the table that starts so in the place of its old one."""
    at = page.index("\n" + start) + 1
    old = re.match(r"(\|.*\n)+", page[at:])
    return page[:at] + rows + page[at + old.end():]


def compare_edits(page):
    """Says which edits the page names beside the contracts that are gone, and which it names nowhere."""
    there = {f"{file.parent.parent.name}/{file.stem}" for file in pathlib.Path("crates").glob("*/must-fail/*.edit")}
    crates = {place.split("/")[0] for place in there}
    words = re.findall(r"\b(\w+)/(\w+)\b(?!\.)", page[:page.index("\n| Edit | First error")])
    named = {f"{crate}/{label}" for crate, label in words if crate in crates}
    for edit in sorted(named - there):
        print(f"the edit {edit} is named and gone")
    for edit in sorted(there - named):
        print(f"the edit {edit} is not named")


def main():
    page = PAGE.read_text(encoding="utf-8")
    compare_edits(page)
    counts, believed = reading.counted("HEAD")
    listed = set()

    def count(row):
        place = row.group(1)
        listed.add(place)
        if place not in counts:
            print(f"{place}.antt is listed and gone")
            return row.group(0)
        own, whole = counts[place]
        return f"| {place}.antt |{row.group(2)}| {f'{own} of {whole}' if own else whole} |"

    page = re.sub(r"\| (\w+/\w+)\.antt \|(.*)\| [0-9 of]+ \|", count, page)
    for place in sorted(set(counts) - listed):
        print(f"{place}.antt is not listed")
    page = re.sub(r"[\d,]+ definitions in [\d,]+ lines", "{:,} definitions in {:,} lines".format(*believed), page)
    page = replaced(page, "| Crate | Lines of src", HEAD + table(sys.argv[1]))
    page = replaced(page, "| Edit | First error", edits.table(sys.argv[1]))
    PAGE.write_text(page, encoding="utf-8")


if __name__ == "__main__":
    main()
