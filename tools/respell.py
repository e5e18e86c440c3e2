#!/usr/bin/env python3
"""Brings the repository's own definitions and lemmas to one spelling: words in snake case, types in camel case.

    respell.py [FOLDER]    rewrites the repository at FOLDER, or here, in place; run once, right after port.py (docs/PORT.md)

`wrapOf` and `wrap-near` are words, so `wrap_of` and `wrap_near`; `Wrap-in` is a type, so `WrapIn`. What the library names keeps its spelling,
as do goals (`returns-2`, `loop-init`), functions of src/, exported names and strings. Two names that fall together are an error, and nothing is
written. In comments and pages a name is known by its shape: `wrapOf` and `Wrap-in` anywhere, `wrap-near` between back quotes alone.
"""
import pathlib
import re
import sys

CODE = r"A-Za-z0-9_'′₀-₉-"
TOKEN = re.compile(rf"(?<![{CODE}«])[A-Za-z][{CODE}]*(?![{CODE}»])")
DECLARED = re.compile(r"^( *)((?:pub |abbrev |unfoldable |data |record |ruleset |foreign )*)([A-Za-z][^\s:(){}.,;]*)\s(?=:|\()", re.M)
GOAL = re.compile(r"^(?:returns|invariant|decreases|loop)(?:-|$)|-(?:requires|result|smaller|init|preserved)(?:-|$)")
CAMEL = re.compile(r"[a-z0-9][A-Z]")

# What would fall together: a lemma with its function, which gets _lem, and a theorem with the relation it speaks of.
APART = {
    **{name: respell + "_lem" for name, respell in [
        ("is-nan", "is_nan"), ("nan-bits", "nan_bits"), ("number-text", "number_text"), ("changed-by", "changed_by"),
        ("last-index", "last_index"), ("next-index", "next_index"), ("heard-from", "heard_from"),
    ]},
    "Whole-below": "WholeLess", "whole_below": "whole_less",
}
APART_IN = {
    "karplus_strong": {"room_of": "room_of_lem"}, "line": {"digits_of": "digits_of_lem", "after_line": "after_line_lem"},
    "score": {"after_line": "after_line_lem"}, "score_writer": {"left_by": "left_by_lem"},
}


def snake(word):
    return re.sub(r"(?<=[a-z0-9])(?=[A-Z])", "_", word).lower()


def respelled(name):
    name = re.sub(r"(?<![A-Za-z])getD(?![a-z])", "get_or", name)  # as the library has it now
    if name[0].isupper():
        return "".join(part[:1].upper() + part[1:] for part in name.split("-"))
    return "_".join(snake(part) for part in name.split("-"))


def parts(text, line):
    """The text in turns: code, comment, code, ..; comments begin with `line`."""
    at, turns = 0, []
    for m in re.finditer(rf"(?m)(?:^|(?<=\s)){re.escape(line)}.*$", text):
        turns += [text[at : m.start()], m[0]]
        at = m.end()
    return turns + [text[at:]]


def imports(text):
    """What a file brings in, as (module, names)."""
    for m in re.finditer(r"(?m)^\s*(?:pub )?(?:ghost )?use ([^\s;{]+?)\.?\{([^}]*)\}", text):
        yield m[1], [n.strip() for n in m[2].split(",") if n.strip()]


def clauses(code):
    """Where the code of a .rt file is a clause or brings names in, as (start, end)."""
    for m in re.finditer(r"ghost use [^;]*;", code):
        yield m.start(), m.end()
    for m in re.finditer(r"\b(?:requires|ensures|ghost|invariant)\b\*?(?: \w+)?:? \{", code):
        depth, at = 1, m.end()
        while depth and at < len(code):
            depth += {"{": 1, "}": -1}.get(code[at], 0)
            at += 1
        yield m.end(), at


def main(root):
    crates = sorted(p.name for p in (root / "crates").iterdir() if (p / "src").is_dir())
    antt = {p: p.read_text() for c in crates for part in ("specs", "proofs") for p in sorted((root / "crates" / c / part).rglob("*.antt"))}
    own = lambda module: re.match(r"Rattle\.(\w+)\.", module) and re.match(r"Rattle\.(\w+)\.", module)[1] in crates
    declared, local = set(), {}
    for path, text in antt.items():
        code = "".join(parts(text, "--")[::2])
        here = [m[3] for m in DECLARED.finditer(code)]
        top = [m[3] for m in DECLARED.finditer(code) if not m[1]]
        local[path] = set(top)
        declared |= {n for n in here if not GOAL.search(n)}
        declared |= {n for n in TOKEN.findall(code) if CAMEL.search(n) and n[0].islower() and "-" not in n}
    words = {n: respelled(n) for n in declared if n not in ("T",) and respelled(n) != n and (CAMEL.search(n) and n[0].islower() or "-" in n)}

    def turn(text, keep=(), apart=APART):
        """The text with its names respelled, but for strings."""
        def new(m):
            if m[0] in keep:
                return m[0]
            if m[0] in apart and text[m.start() - 1 : m.start()] != ".":
                return apart[m[0]]
            return words.get(m[0], m[0])

        strings = [(m.start(), m.end()) for m in re.finditer(r'"(?:[^"\\\n]|\\.)*"', text)]
        return TOKEN.sub(lambda m: m[0] if any(a < m.start() < b for a, b in strings) else new(m), text)

    shaped = {n for n in words if CAMEL.search(n) or n[0].isupper()}

    def prose(text):
        text = re.sub(r"`[^`\n]*`", lambda m: turn(m[0]), text)
        return TOKEN.sub(lambda m: APART.get(m[0], words[m[0]]) if m[0] in shaped else m[0], text)

    wrong = []
    made = {}
    for path, text in antt.items():
        lib = {n.split(" as ")[-1] for module, names in imports(text) if not own(module) for n in names}
        lib |= {m[1] for m in re.finditer(r"(?m)^use (?!Rattle\.)\S*\.([^\s.{]+)$", text)}
        turns = parts(text, "--")
        apart = APART | (APART_IN.get(path.relative_to(root / "crates").parts[0], {}) if path.parent.name == "proofs" else {})
        turns[::2] = [turn(t, lib, apart) for t in turns[::2]]
        turns[1::2] = [prose(t) for t in turns[1::2]]
        made[path] = "".join(turns)
        names = {}
        brought = [(n.split(" as ")[-1], own(module)) for module, ns in imports(text) for n in ns]
        for n, mine in brought + [(n, True) for n in local[path]]:
            new = apart.get(n, words.get(n, n)) if mine else n
            if names.setdefault(new, n) != n:
                wrong.append(f"{path}: {names[new]} and {n} are both {new}")
    for path in sorted((root / "crates").glob("*/src/**/*.rt")):
        text = path.read_text()
        turns = parts(text, "//")
        # clauses may be parted by comments, so they are found in the whole code
        code = "\0".join(turns[::2])
        out, at = [], 0
        for start, end in sorted(set(clauses(code))):
            if start < at:
                continue
            out += [code[at:start], turn(code[start:end])]
            at = end
        turns[::2] = "".join(out + [code[at:]]).split("\0")
        turns[1::2] = [prose(t) for t in turns[1::2]]
        made[path] = "".join(turns)
    for path in sorted((root / "crates").glob("*/*/*.edit")):
        rows, file = [], ""
        for row in path.read_text().split("\n"):
            if row.startswith("file: "):
                file = row[6:]
            elif row.startswith(("old:", "new:")):
                clause = not file.startswith("src/") or re.search(r"≡|ghost use|ensures|requires", row)
                row = row[:4] + (turn(row[4:]) if clause else row[4:])
            else:
                row = prose(row)
            rows.append(row)
        made[path] = "\n".join(rows)
    for path in [*root.glob("*.md"), *root.glob("docs/**/*.md"), *root.glob(".ci/*"), *root.glob("host/**/*.rs"), *root.glob("host/c/*"), *root.glob("presets/*")]:
        if path.is_file() and "target" not in path.parts:
            try:
                made[path] = prose(path.read_text())
            except UnicodeDecodeError:
                pass
    if wrong:
        print("\n".join(sorted(set(wrong))))
        return 1
    changed = [p for p, t in made.items() if t != p.read_text()]
    for path in changed:
        path.write_text(made[path])
    print(f"{len(words)} names, {len(changed)} files")
    return 0


if __name__ == "__main__":
    sys.exit(main(pathlib.Path(sys.argv[1] if len(sys.argv) > 1 else ".").resolve()))
