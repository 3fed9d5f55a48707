#!/usr/bin/env python3
"""reading.py [COMMIT]: what an auditor has to believe, by file: the definitions that the promises of the calls, the list of calls, the trainer's step
and the two programs rest on, and how many lines they take, their own comments with them. What is left of specs/ are helpers, which are proved equal to
what is believed, and worked cases. Run it inside the repository.
"""
import collections
import re
import sys

import moved

# what the promises of `sam47`, `budgets::table_runs`, `trainer::step` and the programs cite
ROOTS = (
    ("startup", "Startup", "predecode_number"), ("startup", "Startup", "predecode_table"), ("startup", "Startup", "fresh_number"), ("startup", "Startup", "fresh_state"),
    ("calls", "Calls", "plain_call"), ("calls", "Calls", "table_call"), ("calls", "Calls", "Call"), ("budgets", "Claim", "ListMade"),
    ("trainer", "Trainer", "Trains"), ("playback", "Session", "printed_for"), ("tidy", "Tidy", "tidy_answer"), ("tidy", "Tidy", "tidy_buffer"),
    ("heads", "Call", "dispatch_of"), ("heads", "Call", "Call"), ("litres", "Lines", "lines_of"), ("billing", "Bill", "bill_of"),
)


def lines_of(text):
    """Each declaration of a file with its lines, the comment above it too."""
    found, comment, name = collections.Counter(), 0, None
    for line in text.splitlines():
        if not line.strip() or line.startswith("use "):
            comment = 0
            continue
        if line.startswith("--"):
            comment += 1
            continue
        head = moved.HEAD.match(line)
        if head and line[0] != " ":
            name = head.group(1) or head.group(2)
        if name:
            found[name] += 1 + comment
        comment = 0
    return found


def believed_in(sources):
    """The places of all definitions that the roots rest on."""
    items = [item for path, text in sources.items() for item in moved.items_of(path, text) if item.kind in ("definitions", "types")]
    places = {moved.place(item): item for item in items}
    constructors = {}
    for item in items:
        if item.text.startswith("pub data"):
            for made in re.findall(r"(\S+) :", item.text.split("where", 1)[1]):
                constructors[(item.crate, item.file, made)] = moved.place(item)
    believed, todo = set(), list(ROOTS)
    while todo:
        at = todo.pop()
        at = constructors.get(at, at)
        if at in believed or at not in places:
            continue
        believed.add(at)
        item = places[at]
        names = set(re.findall(r"[^\s(){}.,;:λ→=]+", item.text))
        for name in names:
            origin = moved.origin(item, name, places)
            if origin is None and (item.crate, item.file, name) in constructors:
                origin = (item.crate, item.file, name)
            if isinstance(origin, tuple):
                todo.append(origin)
    return believed


def counted(commit):
    """For each file, as crate/File, the lines to be believed and all its lines; then how many definitions are believed, and in how many lines."""
    sources = {path: moved.own_name(text) for path, text in moved.files(commit)}
    believed = believed_in(sources)
    found = {}
    for path, text in sources.items():
        crate, part = path.split("/")[1:3]
        if part != "specs" or path.endswith("Lib.antt"):
            continue
        file = path.split("/", 3)[3][:-len(".antt")]
        own = sum(lines for name, lines in lines_of(text).items() if (crate, file, name) in believed)
        found[f"{crate}/{file}"] = (own, len(text.splitlines()))
    return found, (sum(1 for at in believed if at[1] != "type"), sum(own for own, _ in found.values()))


def main():
    found, (definitions, lines) = counted(sys.argv[1] if len(sys.argv) > 1 else "HEAD")
    for file in sorted(found):
        print("%-28s %5d of %5d lines" % (file, *found[file]))
    print("believed: %d definitions, %d lines, of %d lines in %d files" % (definitions, lines, sum(whole for _, whole in found.values()), len(found)))


if __name__ == "__main__":
    main()
