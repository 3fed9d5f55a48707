#!/usr/bin/env python3
"""sides.py COMMIT: what signatures, contracts and definitions were at COMMIT and are now, side by side, for docs/DESIGN-PASS.md.

It goes by the toolchain's contracts.py, which reads both trees. A function in which only lent nibbles became `DataMemory`, whose type says the clause on
their length that went, is named alone.
"""
import json
import os
import re
import subprocess
import sys
import tempfile

TOOL = "/opt/rattle/port/contracts.py"
NIBBLES = re.compile(r"^length \w+\.(now|old) ≡ nibbles$")


def compared(commit):
    root = subprocess.check_output(["git", "rev-parse", "--show-toplevel"], text=True).strip()
    with tempfile.TemporaryDirectory() as old:
        archive = subprocess.run(["git", "archive", commit], cwd=root, capture_output=True, check=True).stdout
        subprocess.run(["tar", "x", "-C", old], input=archive, check=True)
        return json.loads(subprocess.check_output([sys.executable, TOOL, old, root, "--json"], text=True))


def place(name):
    """'chip src/memory.rt nib' as 'chip::memory::nib'."""
    crate, file, *rest = name.split(" ")
    module = os.path.splitext(os.path.basename(file))[0]
    return "::".join([crate] + ([] if module in ("lib", "main") else [module]) + rest)


def lent(sign):
    return re.sub(r"&(mut )?\[u8\]", r"&\1_", re.sub(r"&(mut )?DataMemory", r"&\1_", sign))


def facts(clauses):
    out = []
    for _, text in clauses:
        parts = re.split(r" × ", text) if text.startswith("(") else [text]
        out += [p[1:-1] if p.startswith("(") and p.endswith(")") else p for p in parts]
    return sorted(out)


def only_lent(sign, contract):
    if sign and lent(sign[0]) != lent(sign[1]):
        return False
    if not contract:
        return "DataMemory" in sign[1]
    old_requires, old_ensures, requires, ensures = contract
    kept = [f for f in facts(old_requires) if not NIBBLES.match(f)]
    return kept == facts(requires) and [c[1] for c in old_ensures] == [c[1] for c in ensures]


def clause(kind, c):
    return f"{kind} {c[0] + ' ' if c[0] else ''}{{ {c[1]} }}"


def main():
    r = compared(sys.argv[1])
    signs = {row[0]: row[1:] for row in r["signatures changed"]}
    contracts = {row[0]: row[1:] for row in r["contracts changed"]}
    names = sorted(set(signs) | set(contracts))
    alone = [n for n in names if only_lent(signs.get(n), contracts.get(n))]
    print("### Functions whose nibbles became `DataMemory`, and nothing else\n")
    print(f"{len(alone)} functions: `&[u8]` with `requires {{ length mem.now ≡ nibbles }}` is `&DataMemory`, `&mut [u8]` with `requires {{ length mem.old ≡ nibbles }}` is `&mut DataMemory`; "
          "the other clauses have their text, a lone one no name.\n")
    by = {}
    for n in alone:
        by.setdefault(n.split(" ")[0], []).append(place(n).split("::", 1)[1])
    for crate in sorted(by):
        print(f"- {crate}: {', '.join('`%s`' % x for x in by[crate])}")
    print("\n### Other functions\n\n```diff")
    for n in names:
        if n in alone:
            continue
        print(f"  {place(n)}")
        old, new = signs.get(n, (None, None))
        if old:
            print(f"- {old}\n+ {new}")
        if n in contracts:
            old_requires, old_ensures, requires, ensures = contracts[n]
            for kind, a, b in (("requires", old_requires, requires), ("ensures", old_ensures, ensures)):
                a, b = [clause(kind, c) for c in a], [clause(kind, c) for c in b]
                for sign, rows, others in (("-", a, b), ("+", b, a)):
                    for c in rows:
                        if c not in others:
                            print(f"{sign} {c}")
    print("```\n\n### Functions that are no more\n")
    for n in r["functions not found again"]:
        m = re.match(r"(.*) \(requires", n)
        print(f"- `{place(m.group(1))}`")
    print("\n### Definitions\n")
    print("Gone: " + ", ".join("%s `%s`" % tuple(x[:2]) for x in r["definitions"]["gone"]) + ".\n\n```diff")
    for row in r["definitions"]["changed"]:
        print(f"  {' '.join(row[:-2])}")
        for sign, side in (("-", row[-2]), ("+", row[-1])):
            for text in side:
                print(f"{sign} {text}")
    print("```\n\n### Constants\n")
    print("Gone, or of another type: " + ", ".join(f"{x[0]} `{x[-1]}`" for x in r["ghost items and constants"]["gone"]) + ".")


main()
