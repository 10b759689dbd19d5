#!/usr/bin/env python3
"""Spells the repository's own definitions and lemmas as today's Rattle does: words in snake case, a dash only between two names.

usage: respell.py [--check]      at the top of the repository, after port.py

A name is what a file of specs/ or proofs/ declares at the head of a line, but for the answers in a function's own proof, which are labels. `dueBy` becomes
`due_by` and `agreeing-same` `agreeing_same`; `length-entryIn` becomes `length-entry_in`, since both sides are functions of specs/ or of the
library. Sources (clauses and ghost items), definitions,
proofs, must-fail edits and the code spans of documents turn. --check prints the table and what falls together, and writes nothing.
"""
import collections
import glob
import re
import sys

TOKEN = re.compile(r"[^\s(){}\[\];,.\"@«»`:|/*]+")
DECLARED = re.compile(r"(?m)^[ \t]*(?:(?:abbrev|unfoldable|pub|private|data|record|const|ruleset)[ \t]+)*([^\s(){}:;.,λ→]+)(?:[ \t]*:(?=[ \t\n])|[ \t]+(?=\S.*:[ \t]*(?:Type|Set)))")
FIELD = re.compile(r"[{;][ \t]*([^\s(){}:;.,λ→]+)[ \t]*:(?=[ \t])")
# The library's functions on lists that lemmas are named after.
OF_LISTS = set("length take drop get_or getD set replicate append map reverse sum".split())
# Names that would meet another one: each with the name that it gets in place of the regular one.
CHOSEN = {"inVain": "is_in_vain", "read_answer": "read_answer_lem", "block_size": "block_size_lem"}


def without_comments(text):
    return re.sub(r"--[^\n]*", "", text)


def files(*kinds):
    found = []
    for kind in kinds:
        found += sorted(glob.glob(kind, recursive=True))
    return [f for f in found if "/out/" not in f]


def is_answers(path):
    return "/proofs/" in path and path.endswith(("/Proof.antt", "/Answers.antt", "/Invariants.antt"))


def declared():
    names = collections.Counter()
    for path in files("crates/*/specs/**/*.antt", "crates/*/proofs/**/*.antt"):
        if is_answers(path):
            continue
        text = without_comments(open(path, encoding="utf-8").read())
        for m in DECLARED.finditer(text):
            names[m[1]] += 1
        for m in FIELD.finditer(text):
            names[m[1]] += 1
    return names


def library_names():
    """The names of the kit's library that some file imports: those keep their spelling."""
    words = set()
    for path in files("crates/*/specs/**/*.antt", "crates/*/proofs/**/*.antt"):
        for m in re.finditer(r"(?m)^(?:pub |unfoldable )*use (?:Prim|native|mathlib|lib|borrow|mir|denote|arsenal|res|Rattle\.(?:std|core))\.[\w.']+\.\{([^}]*)\}", open(path, encoding="utf-8").read()):
            words |= {w.strip() for w in m[1].split(",")}
    return words


def functions():
    """What specs/ defines, by name."""
    names = set()
    for path in files("crates/*/specs/**/*.antt"):
        for m in re.finditer(r"(?m)^(?:(?:abbrev|unfoldable|pub) )+([^\s(){}:;.,λ→-]+) *:", without_comments(open(path, encoding="utf-8").read())):
            names.add(m[1])
    return names


def snake(word):
    if not word[:1].islower():
        return word
    word = re.sub(r"^getD(?![a-z])", "get_or", word)
    return re.sub(r"(?<=[a-z0-9])([A-Z])", lambda m: "_" + m[1].lower(), word)


def spelled(name, names):
    """The name with its words in snake case and a dash kept only where a name stands on both sides."""
    if "⇒" in name:
        return "⇒".join(spelled(part, names) for part in name.split("⇒"))
    parts = name.split("-")
    if len(parts) == 1 or "" in parts:
        return snake(name)
    made = snake(parts[0])
    head = parts[0]
    for part in parts[1:]:
        joint = "-" if head in names and part in names else "_"
        made += joint + (snake(part) if part[:1].islower() else part)
        head = part if joint == "-" else head + "-" + part
    return made


def table():
    own = declared()
    library = library_names()
    names = functions() | OF_LISTS
    rows = {}
    for name in set(own) - library:
        new = CHOSEN.get(name) or spelled(name, names)
        if new != name:
            rows[name] = new
    # a lemma that would have its function's name
    there = {new for old, new in rows.items() if "-" not in old} | {name for name in own if name not in rows}
    for old, new in rows.items():
        if "-" in old and new in there:
            rows[old] = new + "_lem"
    return own, rows


def turn(text, rows):
    return TOKEN.sub(lambda m: rows.get(m[0], m[0]), text)


def may_be_rust(name):
    return re.fullmatch(r"[a-z0-9_]+", name)


def turn_spans(text, rows):
    """Turns the code spans of a document."""
    return re.sub(r"`[^`\n]+`", lambda m: turn(m[0], rows), text)


def clashes(own, rows):
    """Files in which a name's new spelling stands already for something else, and names that fall together."""
    said = []
    met = collections.defaultdict(set)
    for old, new in rows.items():
        met[new].add(old)
    for new, olds in met.items():
        if len(olds) > 1:
            said.append(f"together: {' '.join(sorted(olds))} -> {new}")
        if new in own and new not in rows:
            said.append(f"declared already: {' '.join(sorted(olds))} -> {new}")
    for path in files("crates/*/specs/**/*.antt", "crates/*/proofs/**/*.antt", "crates/*/src/**/*.rt"):
        if is_answers(path):
            continue
        text = open(path, encoding="utf-8").read()
        code = without_comments(text) if path.endswith(".antt") else re.sub(r"//[^\n]*", "", text)
        there = set(TOKEN.findall(code))
        for old, new in rows.items():
            if old in there and new in there:
                said.append(f"{path}: {old} -> {new}, which stands there")
    return said


def main(argv):
    own, rows = table()
    if "--check" in argv:
        for old, new in sorted(rows.items()):
            print(f"{old}\t{new}")
        print("\n".join(clashes(own, rows)), file=sys.stderr)
        return 0
    sources = files("crates/*/specs/**/*.antt", "crates/*/proofs/**/*.antt", "crates/*/src/**/*.rt", "crates/*/must-fail/*.edit")
    pages = files("*.md", "docs/**/*.md", "scripts/*", "include/*.h", "bench/**/*.md", "bench/**/*.sh", "cli/**/*.rs", "cli/**/*.md")
    of_lemmas = {old: new for old, new in rows.items() if not may_be_rust(old)}
    for path in sources:
        text = open(path, encoding="utf-8").read()
        new = turn(text, rows if path.endswith(".antt") and not is_answers(path) else of_lemmas)
        if new != text:
            open(path, "w", encoding="utf-8").write(new)
    for path in pages:
        text = open(path, encoding="utf-8").read()
        new = turn_spans(text, rows)
        if new != text:
            open(path, "w", encoding="utf-8").write(new)
    print(f"{len(rows)} names respelled")
    return 0


if __name__ == "__main__":
    sys.exit(main(sys.argv[1:]))
