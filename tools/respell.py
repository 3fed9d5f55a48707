#!/usr/bin/env python3
"""respell.py [--dry]: brings the names that this repository's definitions and lemmas have of its own to the spelling of today's Rattle, once, behind the
toolchain's port.py.

Words are in snake case: wordsOf becomes words_of, and info-among becomes info_among. Types and modules keep theirs, and so do names that Rattle makes of the
source, names of the toolchain's library, functions of src/, strings and pages' prose. Where two names would fall together, the lemma's gets _lem. Names in
backticks follow in comments and, with --docs, in pages.
"""
import collections
import glob
import re
import sys

DECLARED = re.compile(r"^\s*(?:(?:pub|abbrev|unfoldable)\s+)*([^\s:(){}\[\],;.«»λ]+)\s+:\s")
RENAMED_BY_USE = re.compile(r"\bas\s+([^\s:(){}\[\],;.«»λ]+)")
IMPORT = re.compile(r"^\s*(?:pub\s+)?(?:ghost\s+)?use\s+([^\s;{]+?)\.?\{([^}]*)\}")
WORD = re.compile(r"[^\s(){}\[\],;.«»\"`]+")


def files(kind):
    for part in ("specs", "proofs"):
        yield from (f for f in glob.glob(f"crates/*/{part}/**/*.antt", recursive=True) if kind == "all" or not f.endswith("/Proof.antt"))


def snake(name):
    out = re.sub(r"(?<=[a-z0-9])([A-Z]+)(?=[A-Z][a-z])", lambda m: "_" + m.group(1), name)
    out = re.sub(r"(?<=[a-z0-9])([A-Z])", r"_\1", out)
    return out.lower().replace("-", "_").replace("′", "'")


# lemmas that port.py gave the name that a definition beside them gets
AFTER_PORT = {
    "crates/invariant/proofs/Effects.antt": ["return_from", "load_step", "set_reg", "set_pair"],
    "crates/invariant/proofs/Writes.antt": ["pushed_at"],
}


def is_word(name):
    return re.match(r"[a-z]", name) and (re.search(r"[A-Z-]", name))


def collect():
    """Of each own name its places: definitions first."""
    own, foreign, stand = collections.OrderedDict(), set(), set()
    for f in sorted(files("all"), key=lambda f: ("/proofs/" in f, f)):
        text = open(f, encoding="utf-8").read()
        for line in text.splitlines():
            found = IMPORT.match(line)
            if found:
                if not found.group(1).startswith("Rattle.") or found.group(1).startswith("Rattle.std"):
                    foreign.update(n.strip().split(" as ")[0] for n in found.group(2).split(","))
                own_as = RENAMED_BY_USE.findall(line)
                for n in own_as:
                    if is_word(n):
                        own.setdefault(n, f)
                continue
            if f.endswith("/Proof.antt"):
                continue
            found = DECLARED.match(line)
            if found and is_word(found.group(1)):
                own.setdefault(found.group(1), f)
            elif found:
                stand.add(found.group(1))
    return {n: f for n, f in own.items() if n not in foreign}, stand


def mapping(own, stand):
    """From each own name to its new one; definitions choose first, and a lemma that would have one's name gets _lem. stand: the own names that stay."""
    new, taken = {}, set(stand)
    for n in sorted(own, key=lambda n: "-" in n):
        to = snake(n)
        while to in taken if "-" in n else to in new.values():
            to += "_lem"
        new[n] = to
        taken.add(to)
    return new


def in_code(text, new):
    return WORD.sub(lambda m: new.get(m.group(0), m.group(0)), text)


def in_ticks(text, new):
    return re.sub(r"`[^`\n]+`", lambda m: in_code(m.group(0), new), text)


def antt(text, new):
    out = []
    for line in text.splitlines(keepends=True):
        code, mark, comment = line.partition("-- ") if not line.lstrip().startswith("--") else ("", "", line)
        out.append(in_code(code, new) + mark + in_ticks(comment, new))
    return "".join(out)


def source(text, new):
    """Only the lines of ghost items and clauses, and comments: code keeps its names."""
    out, ghost = [], False
    for line in text.splitlines(keepends=True):
        bare = line.strip()
        if bare.startswith("//"):
            out.append(in_ticks(line, new))
            continue
        if re.match(r"(ghost|requires|ensures|decreases|invariant)\b", bare):
            ghost = True
        out.append(in_code(line, new) if ghost else line)
        if ghost and (bare.endswith(";") or bare.endswith("}")):
            ghost = False
    return "".join(out)


def main():
    own, stand = collect()
    new = mapping(own, stand)
    if "--dry" in sys.argv:
        for n, to in new.items():
            if to.endswith("_lem") or "--all" in sys.argv:
                print(n, to, own[n])
        print(len(new), "names")
        return
    for f in files("all"):
        text = open(f, encoding="utf-8").read()
        done = antt(text, new | {n: n + "_lem" for n in AFTER_PORT.get(f, [])})
        if done != text:
            open(f, "w", encoding="utf-8").write(done)
    for f in glob.glob("crates/*/src/**/*.rt", recursive=True):
        text = open(f, encoding="utf-8").read()
        done = source(text, new)
        if done != text:
            open(f, "w", encoding="utf-8").write(done)
    with open("tools/respelled.tsv", "w", encoding="utf-8") as f:
        f.writelines(f"{n}\t{to}\n" for n, to in sorted(new.items()))


if __name__ == "__main__":
    main()
