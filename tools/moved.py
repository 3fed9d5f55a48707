#!/usr/bin/env python3
"""moved.py [--names] OLD NEW: which definitions, promises, signatures, bodies, proofs and edits stayed, moved, changed, came and went between two commits.

Run it inside the repository; `--self-test` tries the parsing. It prints a table in Markdown, then the names, crate by crate; --names lists those too
that stayed. A definition is a declaration of specs/; a type is a struct, an enum or a constant of src/; a promise is a function's clauses (none for one
that has none), its signature what stands before them; a proof is a function's answers or
invariants, and a law a declaration of another file of proofs/. Comments,
white space and imports are not compared.
What kept its text and has another crate, file or name has moved. A definition or promise that kept its text but takes a name from another definition
than before has changed, and the list says which name. References to a crate that was renamed are read as its new name.
"""
import collections
import io
import itertools
import re
import subprocess
import sys
import tarfile

KINDS = ("definitions", "types", "promises", "signatures", "bodies", "proofs", "laws", "edits")
STATES = ("stayed", "moved", "changed", "added", "removed")
CLAUSES = ("requires", "ensures", "decreases")
# the files of a function's proof, and what stands behind its name for each; an older toolchain had one file
PROOFS = {"Proof": "", "Answers": "", "Invariants": " (invariants)"}

# `text` is what is compared, of a function its signature and promise; `names` are the imports of its file, by name
Item = collections.namedtuple("Item", "kind crate file name text body names")


# ---- definitions and proofs --------------------------------------------------------------------------------------

HEAD = re.compile(r"(?:(?:pub|abbrev|unfoldable)\s+)*(?:(?:data|record)\s+(\S+)|([^\s:(){}=]+)\s*:(?=\s))")
ANTT_USE = re.compile(r"use\s+([^\s{]+?)(?:\.\{([^}]*)\})?(?:\s+as\s+(\S+))?\s*$", re.S)


def without_comments(text):
    return re.sub(r"(?m)(^|(?<=\s))--.*$", "", text)


def chunks(text):
    """The lines of a file in chunks that start at the left edge."""
    found = []
    for line in text.splitlines():
        if not line.strip():
            continue
        if line[0] in " )}" and found:
            found[-1].append(line)
        else:
            found.append([line])
    return found


def told(text):
    """A text with its white space made alike."""
    return re.sub(r"\s*([(){}])\s*", r" \1 ", " ".join(text.split())).replace("  ", " ").strip()


def antt(text):
    """The declarations of a file, as (name, text), and its imports."""
    declared, imports = [], {}
    for lines in chunks(without_comments(text)):
        whole = "\n".join(lines)
        first = whole.split(None, 1)[0]
        head = HEAD.match(whole)
        if first == "use":
            imports.update(antt_imports(whole))
        elif first == "module":
            opening = whole.index("where") + len("where")
            body = whole[opening:].splitlines()
            edge = min((len(line) - len(line.lstrip()) for line in body if line.strip()), default=0)
            inner, _ = antt("\n".join(line[edge:] for line in body))
            declared += [[name, whole[:opening] + "\n" + part] for name, part in inner]
        elif head:
            declared.append([head.group(1) or head.group(2), whole])
        elif not whole.startswith("pub mod "):
            assert declared, "no declaration: " + lines[0]
            declared[-1][1] += "\n" + whole
    return [(name, told(part)) for name, part in declared], imports


def antt_imports(whole):
    found = ANTT_USE.match(whole)
    if not found:
        return {}
    path, names, other = found.groups()
    if names is None:
        return {other or path.rsplit(".", 1)[-1]: path}
    pairs = [re.split(r"\s+as\s+", name.strip()) for name in names.split(",") if name.strip()]
    return {pair[-1]: path + "." + pair[0] for pair in pairs}


# ---- code --------------------------------------------------------------------------------------------------------

TOKEN = re.compile(r"""//[^\n]*|b?"(?:\\.|[^"\\])*"|b?'(?:\\.|[^'\\])'|[^\W\d](?:[\w·]|-(?=\w))*|\d\w*|::|->|=>|\S""")
RUST_USE = re.compile(r"(?m)^\s*(?:pub\s+)?(?:ghost\s+)?use\s+([^;]+);")
FIRST_CLAUSE = re.compile(r"(?<= )(?:%s)(?: \w+)? \{" % "|".join(CLAUSES))
CLOSERS = {"(": ")", "[": "]", "{": "}"}


def spaced(tokens):
    return re.sub(r" ,(?= [)\]}])", "", " ".join(tokens))


def closed(tokens, at):
    """The place behind what closes the bracket at `at`."""
    depth = 0
    while at < len(tokens):
        depth += (tokens[at] in CLOSERS) - (tokens[at] in CLOSERS.values())
        at += 1
        if depth == 0:
            break
    return at


def brace(tokens, at):
    """The place of a function's body, or of the brace or semicolon of another item."""
    while at < len(tokens) and tokens[at] not in "{;":
        # a clause may have a name before its braces
        at = closed(tokens, tokens.index("{", at)) if tokens[at] in CLAUSES else closed(tokens, at) if tokens[at] in CLOSERS else at + 1
    return at


def rust(tokens, inside=""):
    """The functions, as (name, signature and promise, body), and the structs, enums and constants, as (name, text, None)."""
    found, at = [], 0
    while at < len(tokens):
        start, here = at, at
        while here < len(tokens) and (tokens[here] in ("#", "pub", "extern", "unsafe", "ghost") or tokens[here][0] == '"'):
            here += 1
            if here < len(tokens) and tokens[here] in ("(", "["):
                here = closed(tokens, here)
        word = tokens[here] if here < len(tokens) else ""
        end = brace(tokens, here + 1)
        at = closed(tokens, end)
        # what an impl answers with for a trait's ghost item
        answer = tokens[here - 1] == "ghost" and tokens[here + 1] == "="
        if answer or word in ("use", "mod", "const", "type"):
            while tokens[at - 1] != ";":
                at = closed(tokens, at)
        if word == "impl":
            found += rust(tokens[end + 1:at - 1], tokens[end - 1] + "::")
        elif word == "fn":
            found.append((inside + tokens[here + 1], spaced(tokens[start:end]), spaced(tokens[end:at])))
        elif word in ("struct", "enum", "const", "type"):
            found.append((inside + tokens[here + 1], spaced(tokens[start:at]), None))
        elif answer:
            found.append((inside + word, spaced(tokens[start:at]), None))
        else:
            assert word in ("use", "mod"), "no item: " + " ".join(tokens[start:start + 8])
    return found


def rust_imports(text):
    found = {}
    for path in RUST_USE.findall(text):
        if "{" in path:
            found.update(antt_imports("use " + path))
        else:
            name = path.split("::")[-1].split()
            found[name[-1]] = path.split()[0]
    return found


def code(text):
    # how a function is proved is no part of what it says
    text = re.sub(r"(?m)^\s*#!?\[tactic\(.*\)\]$", "", text)
    tokens = [token for token in TOKEN.findall(text) if not token.startswith("//")]
    return rust(tokens), rust_imports(re.sub(r"//[^\n]*", "", text))


# ---- a commit ----------------------------------------------------------------------------------------------------


def files(commit):
    packed = subprocess.run(["git", "archive", commit, "crates"], stdout=subprocess.PIPE, check=True, cwd=top()).stdout
    with tarfile.open(fileobj=io.BytesIO(packed)) as tar:
        for entry in tar:
            if entry.isfile() and entry.name.endswith((".antt", ".rt", ".edit")):
                yield entry.name, tar.extractfile(entry).read().decode()


def top():
    return subprocess.run(["git", "rev-parse", "--show-toplevel"], stdout=subprocess.PIPE, check=True).stdout.decode().strip()


def items_of(path, text):
    """What a file of a crate holds."""
    crate, part, rest = path.split("/", 3)[1], path.split("/")[2], path.split("/", 3)[-1]
    file = rest.rsplit(".", 1)[0]
    if part == "must-fail":
        return [Item("edits", crate, "", file, " ".join(text.split()), None, {})]
    if part == "src" and path.endswith(".rt"):
        found, imports = code(text)
        return [Item("types" if body is None else "functions", crate, file, name, said, body, imports) for name, said, body in found]
    if part not in ("specs", "proofs"):
        return []
    found, imports = antt(text)
    whose, _, what = file.rpartition("/")
    if part == "proofs" and what in PROOFS:
        module, _, name = ("/" + whose).rpartition("/")
        return [Item("proofs", crate, module[1:], name + PROOFS[what], " ".join(said for _, said in found), None, imports)]
    return [Item("definitions" if part == "specs" else "laws", crate, file, name, said, None, imports) for name, said in found]


def read(commit):
    return [item for path, text in files(commit) for item in items_of(path, own_name(text))]


def own_name(text):
    """Paths as today's toolchain writes them: an older one had a middle dot, and named a crate's own folder twice."""
    return re.sub(r"Rattle·(\w+)(?:·(?:specs|proofs))?\b", r"Rattle.\1", text)


# ---- two commits -------------------------------------------------------------------------------------------------


def renamed_crates(old, new):
    """The crates that went and came again with most of their names."""
    def names(items):
        found = collections.defaultdict(set)
        for item in items:
            found[item.crate].add((item.kind, item.name))
        return found
    before, after = names(old), names(new)
    gone, come = set(before) - set(after), set(after) - set(before)
    alike = sorted(((len(before[o] & after[n]) / max(len(before[o]), len(after[n])), o, n) for o in gone for n in come), reverse=True)
    found = {}
    for share, o, n in alike:
        if share > 0.5 and o not in found and n not in found.values():
            found[o] = n
    return found


def with_renamed(item, renamed):
    """An item with the new names of crates, but its own crate's."""
    if not renamed:
        return item
    name = "|".join(map(re.escape, renamed))
    pattern = re.compile(r"(?<=Rattle\.)(?:%s)\b|(?<![\w:])(?:%s)(?=\s*::)" % (name, name))
    change = lambda text: text and pattern.sub(lambda found: renamed[found.group()], text)
    return item._replace(text=change(item.text), body=change(item.body), names={n: change(path) for n, path in item.names.items()})


def words(*texts):
    return set(re.split(r"[\s(){}.,;]+", " ".join(text or "" for text in texts)))


def alike(o, n):
    a, b = words(o.text, o.body), words(n.text, n.body)
    return len(a & b) >= 0.4 * len(a | b)


def nameless(item, text):
    """A text of an item without the item's own name."""
    return re.sub(r"(?<![^\s().])%s(?![^\s().,])" % re.escape(item.name.split("::")[-1]), "□", text)


def same(o, n):
    return o.text == n.text or o.name != n.name and nameless(o, o.text) == nameless(n, n.text)


def rows_of(item):
    """An item once for each row of the report that it stands in, with the text that the row compares."""
    if item is None or item.kind != "functions":
        return [item]
    clauses = FIRST_CLAUSE.search(item.text)
    end = clauses.start() if clauses else len(item.text)
    return [item._replace(kind=row, text=text) for row, text in (("promises", item.text[end:]), ("signatures", item.text[:end]), ("bodies", item.body))]


def text_alone(item):
    text = item.text + " " + (item.body or "")
    return nameless(item, text) if len(text) >= 40 else None


def pairs(old, new, renamed):
    """Each item of a kind with what it became, or None: by its place, its name and text, its text alone, and its name where the texts are alike."""
    crate = lambda item, is_old: renamed.get(item.crate, item.crate) if is_old else item.crate
    stages = (
        (lambda item, is_old: (crate(item, is_old), item.file, item.name), False),
        (lambda item, is_old: (item.name, item.text, item.body), False),
        (lambda item, is_old: text_alone(item), False),
        (lambda item, is_old: (crate(item, is_old), item.name), True),
        (lambda item, is_old: item.name, True),
        (lambda item, is_old: item.name.split("::")[-1], True),
    )
    made = []
    for key, by_name in stages:
        places = collections.defaultdict(lambda: ([], []))
        for is_old, items in ((True, old), (False, new)):
            for item in items:
                places[key(item, is_old)][not is_old].append(item)
        places.pop(None, None)
        taken = [(o, n) for olds, news in places.values() for o, n in matched(olds, news, by_name)]
        made += taken
        gone, come = {id(o) for o, _ in taken}, {id(n) for _, n in taken}
        old = [item for item in old if id(item) not in gone]
        new = [item for item in new if id(item) not in come]
    return made + [(o, None) for o in old] + [(None, n) for n in new]


def matched(olds, news, by_name):
    if by_name:
        return [(olds[0], news[0])] if len(olds) == len(news) == 1 and alike(olds[0], news[0]) else []
    order = lambda item: (item.crate, item.file)
    return list(zip(sorted(olds, key=order), sorted(news, key=order)))


def place(item):
    """Where others find an item: a type by its crate, all else by crate and file."""
    return (item.crate, "type" if item.kind == "types" else item.file, item.name)


def origin(item, name, places):
    """Where an item takes a name from, or None if that is not known."""
    path = item.names.get(name)
    if path is None:
        return next((at for at in ((item.crate, item.file, name), (item.crate, "type", name)) if at in places), None)
    parts = re.split(r"\.|::", path.removeprefix("Rattle."))
    if "declared" in parts or "::" in path:
        crate = parts[0] if any(at[0] == parts[0] for at in places) else item.crate
        return next(((crate, "type", part) for part in parts[1:] if (crate, "type", part) in places), None)
    return (parts[0], parts[2], ".".join(parts[3:])) if path.startswith("Rattle.") and len(parts) > 3 else path


def taken_elsewhere(o, n, before, after, became):
    """The names that an item of unchanged text takes from another definition than before."""
    used = words(o.text)
    known = {*o.names, *n.names} | {at[2] for places, item in ((before, o), (after, n)) for at in places if at[0] == item.crate}
    for name in sorted(known):
        if all(part in used for part in name.split("_") if part):
            was, now = origin(o, name, before), origin(n, name, after)
            if was and now and became.get(was, was) != now:
                yield name


def compared(old, new):
    """(row, state, old item, new item, names taken elsewhere) of everything in two commits, and the crates that were renamed."""
    renamed = renamed_crates(old, new)
    old = [with_renamed(item, renamed) for item in old]
    of_kind = lambda items, kind: [item for item in items if item.kind == kind]
    paired = {kind: pairs(of_kind(old, kind), of_kind(new, kind), renamed) for kind in sorted({item.kind for item in old + new})}
    at_new_name = lambda at: (renamed.get(at[0], at[0]),) + at[1:]
    became = {at_new_name(place(o)): place(n) for kind in ("definitions", "types") for o, n in paired.get(kind, ()) if o and n}
    before, after = ({at(place(item)) for item in items if item.kind in ("definitions", "types")} for items, at in ((old, at_new_name), (new, tuple)))
    found = []
    for whole_o, whole_n in (pair for made in paired.values() for pair in made):
        for o, n in itertools.zip_longest(rows_of(whole_o), rows_of(whole_n)):
            row, elsewhere = (o or n).kind, []
            if not o or not n:
                state = "added" if n else "removed"
            elif not same(o, n):
                state = "changed"
            else:
                if row in ("definitions", "types", "promises", "signatures"):
                    at_new = o._replace(crate=renamed.get(o.crate, o.crate))
                    elsewhere = list(taken_elsewhere(at_new, n, before, after, became))
                state = "changed" if elsewhere else "stayed" if o[1:4] == n[1:4] else "moved"
            found.append((row, state, o, n, elsewhere))
    return found, renamed


# ---- the report --------------------------------------------------------------------------------------------------


def line_of(rows, renamed, names):
    """The names of one kind and state in a crate, by file and by the place that they came from."""
    by_place, with_crate = collections.defaultdict(list), 0
    for _, state, o, n, elsewhere in rows:
        notes = ["takes from elsewhere: " + ", ".join(elsewhere)] if elsewhere else []
        source = ""
        if o and n and o.name != n.name:
            notes.append("was " + o.name)
        if o and n and (renamed.get(o.crate, o.crate), o.file) != (n.crate, n.file):
            source = "from " + "/".join(filter(None, (o.crate, o.file)))
        elif state == "moved" and not notes and not names:
            with_crate += 1
            continue
        by_place[(n or o).file, source].append((n or o).name + (" (%s)" % "; ".join(notes) if notes else ""))
    heads = {where: " ".join(filter(None, where)) for where in by_place}
    parts = [(heads[where] and heads[where] + ": ") + ", ".join(sorted(found)) for where, found in sorted(by_place.items())]
    return "; ".join(parts + (["%d with their crate" % with_crate] if with_crate else []))


def report(found, renamed, names):
    count = collections.Counter((row, state) for row, state, *_ in found)
    print("| | " + " | ".join(STATES) + " |\n|---|" + "---|" * len(STATES))
    for kind in KINDS:
        print("| %s | %s |" % (kind, " | ".join(str(count[kind, state]) for state in STATES)))
    if renamed:
        print("\nRenamed crates: " + ", ".join("%s is now %s" % pair for pair in sorted(renamed.items())) + ".")
    crates = collections.defaultdict(list)
    for entry in found:
        crates[entry[3].crate if entry[3] else renamed.get(entry[2].crate, entry[2].crate)].append(entry)
    for crate in sorted(crates):
        lines = []
        for kind in KINDS:
            for state in STATES:
                rows = [entry for entry in crates[crate] if entry[:2] == (kind, state)]
                with_promise = kind in ("signatures", "bodies") and state in ("added", "removed")
                if rows and not with_promise and (names or state != "stayed"):
                    lines.append("- %s %s (%d): %s" % (kind, state, len(rows), line_of(rows, renamed, names)))
        if lines:
            print("\n### %s\n\n%s" % (crate, "\n".join(lines)))


# ---- self-test ---------------------------------------------------------------------------------------------------


def self_test():
    spec = """-- head
use Prim.Native.Nat.{ℕ, _+_}
use Rattle.%s.specs.Low.{low}
-- why
abbrev pub one : ℕ → ℕ
one x =   low x   -- aside
pub data Two : Type 0 where
  here : Two
module _ (n : ℕ) where
  three : ℕ
  unfolding one
  three = n + 1
"""
    source = """// why
use %s::low;
ghost use lib.ListN.{length};
#[no_mangle]
pub fn f(a: &[u8], b: u8) -> bool
    requires { length a.now ≡ 2 }
    ensures { result ≡ one b }
{
    g(a, Pair { left: b'}', right: "}" }) // aside
}
struct Pair { left: u8, right: u8 }
impl Pair {
    fn g(&self) -> u8 { self.left }
}
const K: [u8; 2] = [0; 2];
const L: Pair = Pair { left: 0, right: 1 };
fn last() {}
"""
    declared, imports = antt(spec % "old")
    assert [name for name, _ in declared] == ["one", "Two", "three"], declared
    assert declared[0][1] == "abbrev pub one : ℕ → ℕ one x = low x" and "module _ ( n : ℕ ) where three" in declared[2][1], declared
    assert imports["_+_"] == "Prim.Native.Nat._+_"
    parsed, _ = code(source % "old")
    assert [name for name, _, body in parsed if body is None] == ["Pair", "K", "L"], parsed
    assert [name for name, _, body in parsed if body is not None] == ["f", "Pair::g", "last"], parsed
    name, said, body = parsed[0]
    assert said.startswith("# [ no_mangle ] pub fn f (") and said.endswith("result ≡ one b }") and "Pair {" in body, parsed[0]

    def commit(crate, spec, source):
        parts = (("specs/S.antt", spec), ("src/lib.rt", source))
        return [item for path, text in parts for item in items_of("crates/%s/%s" % (crate, path), own_name(text))]

    def states(old, new):
        return collections.Counter((row, state) for row, state, *_ in compared(old, new)[0])
    old = commit("old", spec % "old", source % "old")
    assert set(states(old, old)) == {(kind, "stayed") for kind in ("definitions", "types", "promises", "signatures", "bodies")}
    assert states(old, commit("new", spec % "new", source % "new"))["definitions", "moved"] == 3
    assert states(old, commit("old", spec % "old", source.replace("g(a", "h(a") % "old"))["bodies", "changed"] == 1
    clause = states(old, commit("old", spec % "old", source.replace("≡ 2", "≡ 3") % "old"))
    assert clause["promises", "changed"] == 1 and clause["signatures", "stayed"] == 3, clause
    wider = states(old, commit("old", spec % "old", source.replace("b: u8)", "b: u32)") % "old"))
    assert wider["signatures", "changed"] == 1 and wider["promises", "stayed"] == 3, wider
    assert states(old, commit("old", spec % "high", source % "old"))["definitions", "changed"] == 1
    print("moved.py: the examples are read as they should be")


def main():
    given = [word for word in sys.argv[1:] if not word.startswith("--")]
    if sys.argv[1:] == ["--self-test"]:
        return self_test()
    if len(given) != 2 or set(sys.argv[1:]) - set(given) - {"--names"}:
        sys.exit(__doc__.splitlines()[0])
    try:
        report(*compared(*map(read, given)), "--names" in sys.argv)
    except subprocess.CalledProcessError:
        sys.exit("moved.py: git can't read these commits")


if __name__ == "__main__":
    main()
