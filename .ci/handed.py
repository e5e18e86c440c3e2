#!/usr/bin/env python3
"""The static library for C: crates/exports_c, which hands out each exported function of the libraries `exports` and `exports_NAME`.

    handed.py            says which of its files are others than they must be
    handed.py --write    writes them

A crate is a library or a static library. These are libraries, which other crates call, so exports_c has each of their exported functions again, under its
name, with its clauses word for word, and calls it. Such a file is made of the library's: nothing of it is written by hand.
"""
import pathlib
import re
import sys
import textwrap

sys.dont_write_bytecode = True  # no folder of compiled files beside this one
from texts import APART, blanked, past

ROOT = pathlib.Path(__file__).resolve().parent.parent
CRATE = "exports_c"
EXPORTED = '#[unsafe(no_mangle)]\npub extern "C" fn '
WIDE, CALL, SHORT = 100, 60, 10  # columns of a line, of a call's inputs and of a short input, as rt fmt lays them out


def exported(text):
    """The exported functions of a source, as (name, names of the inputs, text up to the body)."""
    for m in re.finditer(re.escape(EXPORTED) + r"(\w+)(?=\()", text):
        end = text.index("\n{", m.end())
        inputs = text[m.end() + 1 : past(text, m.end()) - 1]
        yield m[1], re.findall(r"(\w+)\s*:", inputs), text[m.start() : end]


def call(function, inputs):
    """A call as the whole of a body, as rt fmt lays it out."""
    given = ", ".join(inputs)
    if len(given) <= CALL and len(f"    {function}({given})") <= WIDE:
        return f"    {function}({given})\n"
    rows = textwrap.wrap(given + ",", WIDE - 8) if all(len(name) <= SHORT for name in inputs) else [f"{name}," for name in inputs]
    return f"    {function}(\n" + "".join(f"        {row}\n" for row in rows) + "    )\n"


def brought(text, said):
    """The lines `ghost use` of a source, each with the names alone that a text says."""
    words = set(re.findall(rf"{APART}+", said)) | set(re.findall(rf"({APART}+)\.", said))
    for module, names, alias in re.findall(r"^ghost use ([^\s{;]+?)(?:\.\{([^}]*)\}| as (\w+));$", text, re.M):
        wanted = [name for name in map(str.strip, names.split(",")) if name in words or name.split("◌")[1:] and name.strip("◌") in words]
        if wanted:
            yield f"ghost use {module}.{{{', '.join(wanted)}}};\n"
        elif alias in words:
            yield f"ghost use {module} as {alias};\n"


def made(files):
    """The files of exports_c, as {path: text}."""
    found, modules = {}, []
    for path, text in sorted(files.items()):
        m = re.fullmatch(r"crates/(exports(?:_\w+)?)/src/(\w+)\.rt", path)
        functions = list(exported(text)) if m and m[1] != CRATE else []
        if not functions:
            continue
        crate, module = m.groups()
        owner = crate if module == "lib" else f"{crate}::{module}"
        name = f"{crate.removeprefix('exports_')}_calls" if module == "lib" else module
        body = "\n".join(f"{head}\n{{\n{call(f'{owner}::{function}', inputs)}}}\n" for function, inputs, head in functions)
        uses = "".join(brought(text, blanked(".rt", "".join(head for _, _, head in functions))))
        found[f"crates/{CRATE}/src/{name}.rt"] = f"// What `{owner}` exports, with its contracts.\n{uses}\n{body}"
        modules.append(name)
    found[f"crates/{CRATE}/src/lib.rt"] = (
        "// The static library for C, C++ and Rust: each function that the libraries `exports` and `exports_NAME` export, under its name and with its\n"
        "// contract word for word, as a call of it. `.ci/handed.py --write` makes these files of theirs.\n#![tactic(auto)]\n\n"
        + "".join(f"mod {name};\n" for name in sorted(modules))
    )
    return found


def differences(files):
    """The static library for C is each exported function of the libraries with its contract, and a call of it."""
    there = {path for path in files if path.startswith(f"crates/{CRATE}/src/")}
    right = made(files)
    for path, text in files.items():
        found = re.match(r"crates/(\w+)/src/", path)
        if found and not found[1].startswith("exports") and re.search(r"\bextern\b", blanked(".rt", text)):
            yield f"{path}: exports a function that the static library doesn't hand out"
    for path in sorted(there | right.keys()):
        if files.get(path) != right.get(path):
            yield f"{path}: is another than the libraries' functions give, which `python3 .ci/handed.py --write` puts there"


def main():
    files = {str(path.relative_to(ROOT)): path.read_text() for path in ROOT.glob("crates/exports*/src/*.rt")}
    if sys.argv[1:] == ["--write"]:
        for path, text in made(files).items():
            (ROOT / path).parent.mkdir(parents=True, exist_ok=True)
            (ROOT / path).write_text(text)
    else:
        print(*differences(files), sep="\n")


if __name__ == "__main__":
    main()
