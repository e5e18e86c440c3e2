#!/usr/bin/env python3
"""Prints, as docs/DESIGN-PASS.md ends with it, what changed between a commit and the work tree, old and new beside one another: public signatures, clauses,
type invariants, definitions and theorems of specs/; and what went. Functions are found again by the kit's port/contracts.py.

usage: tools/sides.py COMMIT
"""
import difflib, json, pathlib, re, subprocess, sys, tempfile

TOP = pathlib.Path(__file__).resolve().parent.parent
COMMIT = sys.argv[1]


def run(*words, **more):
    return subprocess.run(words, check=True, capture_output=True, **more).stdout


def declarations(root, part):
    """What the crates' files of a folder declare, as {(crate, name): (file, text)}, comments and imports left out."""
    found = {}
    for path in sorted(root.glob(f"crates/*/{part}/*.antt")):
        crate = path.parts[len(root.parts) + 1]
        text = "\n".join(line for line in path.read_text().split("\n") if not re.match(r"\s*--|use |pub mod|mod ", line))
        for block in re.split(r"\n(?=(?:unfoldable |abbrev )*(?:pub )?(?:record |data )?[^\s:(){}]+ ?(?:[:({]))", "\n" + text):
            head = re.match(r"\n?(?:unfoldable |abbrev )*(?:pub )?(?:record |data )?([^\s:(){}]+)", block)
            if head and head[1] not in ("module", "unfolding", "where"):
                before = found[crate, head[1]][1] + "\n" if (crate, head[1]) in found else ""  # a type, or a clause of the same name
                found[crate, head[1]] = path.name, before + block.strip("\n")
    return found


def sides(old, new):
    """The lines that differ, old ones behind -, new ones behind +."""
    a, b = ([line for line in text.split("\n") if line.strip()] for text in (old, new))
    return [line for line in difflib.unified_diff(a, b, lineterm="", n=0) if not re.match(r"---|\+\+\+|@@", line)]


def cell(text):
    return " ".join(text.split()).replace("|", "\\|")


with tempfile.TemporaryDirectory() as folder:
    before = pathlib.Path(folder)
    subprocess.run(["tar", "-x", "-C", folder], input=run("git", "archive", COMMIT, "crates", "crates.txt", cwd=TOP), check=True)
    kit = pathlib.Path(run("rt", "doc", text=True).strip()).parent
    said = json.loads(run("python3", str(kit / "port/contracts.py"), folder, str(TOP), "--json", text=True))
    then, now = declarations(before, "specs"), declarations(TOP, "specs")
    lemmas_then, lemmas_now = declarations(before, "proofs"), declarations(TOP, "proofs")
    public = {
        (path.parts[len(before.parts) + 1], name)
        for path in before.glob("crates/*/src/*.rt")
        for name in re.findall(r"\bpub (?:extern \"C\" )?fn (\w+)", path.read_text())
    }

is_public = lambda place: (place.split()[0], place.split()[-1]) in public

print("### Public signatures\n\n| function | old | new |\n|---|---|---|")
for place, old, new in said["signatures changed"]:
    if is_public(place):
        print(f"| {place} | `{cell(old)}` | `{cell(new)}` |")

print("\n### Clauses of public functions\n\n| function | old | new |\n|---|---|---|")
for place, requires, ensures, requires_now, ensures_now in said["contracts changed"]:
    if is_public(place):
        both = [
            "; ".join(f"{word} `{cell(clause)}`" for word, clauses in (("requires", r), ("ensures", e)) for _, clause in clauses)
            for r, e in ((requires, ensures), (requires_now, ensures_now))
        ]
        print(f"| {place} | {both[0]} | {both[1]} |")

print("\n### Type invariants\n\nNone stood at the beginning. Those of today:\n")
for path in sorted(TOP.glob("crates/*/src/*.rt")):
    for name, body in re.findall(r"^(?:pub )?struct (\w+)[^\n]*\{\n(.*?)^\}", path.read_text(), re.M | re.S):
        for ghost in re.findall(r"ghost (\w+: \{[^\n]*\}),", body):
            print(f"- {path.relative_to(TOP / 'crates')} `{name}`: `{cell(ghost)}`")

print("\n### Definitions and theorems\n\nOf each the lines that differ. What only stands elsewhere now, with the same text, isn't listed.\n")
for crate in sorted({crate for crate, _ in then}):
    lines = []
    for (of, name), (file, text) in then.items():
        if of == crate and (crate, name) in now and (found := sides(text, now[crate, name][1])):
            lines += [f"{file} {name}", *found, ""]
    if lines:
        print(f"#### {crate}\n\n```diff\n" + "\n".join(lines).rstrip() + "\n```\n")

print("### What went\n\n| crate | functions | definitions | lemmas |\n|---|---|---|---|")
for crate in sorted({crate for crate, _ in then} | {place.split()[0] for place in said["functions not found again"]}):
    functions = [f"`{place.split(' (')[0].split(maxsplit=2)[2]}`" for place in said["functions not found again"] if place.split()[0] == crate]
    gone = [[f"`{n}`" for (c, n) in old if c == crate and (c, n) not in new] for old, new in ((then, now), (lemmas_then, lemmas_now))]
    if functions or any(gone):
        print(f"| {crate} | {', '.join(functions)} | {', '.join(gone[0])} | {', '.join(gone[1])} |")
