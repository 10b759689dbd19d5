#!/usr/bin/env python3
"""Tries the equivalent rewrites of the must-fail edits: each must be accepted by the crate's proofs as they stand.

usage: tools/equivalents.py [--in CHECKOUT] CRATE..

tools/equivalents/CRATE.edits holds blocks, parted by empty lines: a line `edits:` with the names of the edits of crates/CRATE/must-fail/
that the rewrite answers, a line `file:`, and pairs of lines `old:` and `new:`, one line of text each; each old text stands in its file once.
An equivalent changes a line that its edit changes. Blocks whose texts don't meet are laid together and checked by one `rt check`;
where that is refused, each is checked alone. The check goes on in a copy of the checkout, or in CHECKOUT, which is brought back after it.
Says for each crate how many of its edits have an equivalent that was accepted, and at the end `N passed, M failed`.
"""
import pathlib
import subprocess
import sys
import tempfile

TOP = pathlib.Path(__file__).resolve().parent.parent


def parsed(text):
    """The file and the pairs (old, new) of an edit or a block, and the names on its line `edits:`."""
    names, file, pairs = [], None, []
    for line in text.split("\n"):
        key, _, rest = line.partition(":")
        rest = rest[1:] if rest.startswith(" ") else rest
        if key == "edits":
            names = rest.split()
        elif key == "file":
            file = rest.strip()
        elif key == "old":
            pairs.append([rest, None])
        elif key == "new" and pairs:
            pairs[-1][1] = rest
    return names, file, pairs


def spans(text, pairs):
    """Where the old texts stand; None where one does not stand there once."""
    if any(text.count(old) != 1 or new is None for old, new in pairs):
        return None
    return [(text.index(old), text.index(old) + len(old)) for old, _ in pairs]


def rounds(blocks):
    """Blocks by rounds, so that no two of a round change the same text."""
    made = []
    for block in blocks:
        taken = next((r for r in made if not any(meets(block, other) for other in r)), None)
        if taken is None:
            made.append([block])
        else:
            taken.append(block)
    return made


def meets(a, b):
    return a["file"] == b["file"] and any(x[0] <= y[1] and y[0] <= x[1] for x in a["spans"] for y in b["spans"])


def accepted(crate, laid):
    """Whether the crate is proved with these blocks in place. The files are put back."""
    kept = {crate / block["file"]: (crate / block["file"]).read_text() for block in laid}
    for path, text in kept.items():
        changes = [(*span, new) for b in laid if crate / b["file"] == path for span, (_, new) in zip(b["spans"], b["pairs"])]
        for start, end, new in sorted(changes, reverse=True):
            text = text[:start] + new + text[end:]
        path.write_text(text)
    try:
        run = subprocess.run(["rt", "check"], cwd=crate, capture_output=True, text=True)
        return run.returncode == 0 and "logic=proved" in run.stdout + run.stderr
    finally:
        for path, text in kept.items():
            path.write_text(text)


def read_blocks(crate, texts, faults):
    edits = {p.stem: parsed(p.read_text()) for p in sorted((crate / "must-fail").glob("*.edit"))}
    blocks = []
    for part in texts.split("\n\n"):
        names, file, pairs = parsed(part)
        if not names:
            continue
        path = crate / (file or "")
        found = spans(path.read_text(), pairs) if path.is_file() and pairs else None
        if found is None:
            faults.append((names, "its text does not stand in the file once"))
        elif any(old == new for old, new in pairs) or any(name not in edits for name in names):
            faults.append((names, "changes nothing, or names no edit"))
        else:
            blocks.append({"names": names, "file": file, "pairs": pairs, "spans": found})
    return edits, blocks


def tried(top, name):
    """Tries a crate's equivalents. The number of edits with one accepted, and of those without."""
    crate, faults = top / "crates" / name, []
    edits, blocks = read_blocks(crate, (TOP / "tools" / "equivalents" / f"{name}.edits").read_text(), faults)
    good = set()
    for laid in rounds(blocks):
        if accepted(crate, laid):
            good.update(n for block in laid for n in block["names"])
            continue
        for block in laid:
            if len(laid) > 1 and accepted(crate, [block]):
                good.update(block["names"])
            else:
                faults.append((block["names"], "refused"))
    for names, why in faults:
        print(f"{name}: {', '.join(names)}: {why}")
    for missing in sorted(set(edits) - good):
        print(f"{name}: {missing}: no equivalent accepted")
    print(f"{name}: {len(good)} of {len(edits)} edits have an equivalent that is accepted", flush=True)
    return len(good), len(edits) - len(good)


def main(arguments):
    if arguments[:1] == ["--in"]:
        top, names, holder = pathlib.Path(arguments[1]).resolve(), arguments[2:], None
    else:
        holder, names = tempfile.TemporaryDirectory(), arguments
        top = pathlib.Path(holder.name) / "copy"
        subprocess.run(["git", "clone", "--quiet", str(TOP), str(top)], check=True)
    if not names or any(not (TOP / "tools" / "equivalents" / f"{n}.edits").is_file() for n in names):
        print(__doc__, file=sys.stderr)
        return 2
    done = [tried(top, name) for name in names]
    passed, failed = sum(d[0] for d in done), sum(d[1] for d in done)
    print(f"{passed} passed, {failed} failed")
    return 1 if failed else 0


if __name__ == "__main__":
    sys.exit(main(sys.argv[1:]))
