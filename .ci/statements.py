"""What the crates state: the theorems of their specs/, each of which proofs/ must have by its name.

Statement files are Promises, Settled and Examples of a crate's specs/, and every file of the crate `examples`. A statement is a
closed type that such a file declares, `pub NAME : Type 0`, abbreviated or not, or `pub record NAME : Type 0 where`; its proof is called as
it is, in small letters, `pub NeverLost` by `never_lost`. A closed record of which the file has a list is none: a table's rows are made of it. A type with
parameters is a part of statements: some other declaration of specs/ must name it, or nothing claims it.
"""
import re

from texts import APART, blanked

FILES = ("Promises.antt", "Settled.antt", "Examples.antt")


def is_statement_file(path):
    found = re.fullmatch(r"crates/(\w+)/specs/([\w-]+\.antt)", path)
    return found is not None and (found[1] == "examples" or found[2] in FILES)


def declarations(text):
    """What a file declares to others, as (name, its text)."""
    starts = [m.start() for m in re.finditer(r"^(?:unfoldable |abbrev )*pub (?!use\b|mod\b)", text, re.M)]
    for start, end in zip(starts, [*starts[1:], len(text)]):
        part = text[start:end]
        yield re.match(r"(?:unfoldable |abbrev )*pub (?:record |data )?(\S+)", part)[1], part


def names(text, name):
    """Whether a text names something."""
    return re.search(rf"(?<!{APART}){re.escape(name)}(?!{APART})", text) is not None


def proof_of(name):
    """The name of a statement's proof."""
    return re.sub(r"(?<=[a-z0-9])(?=[A-Z])", "_", name).lower()


def types(files):
    """The types that statement files declare, named ones and records, as (path, name, whether it is closed)."""
    for path, text in files.items():
        if is_statement_file(path):
            for name, part in declarations(blanked(path, text)):
                head = re.match(r"(?:unfoldable |abbrev )*pub (?!data )(?:record )?\S+(.*(?:\n[ \t]+.*)*)", part)
                said = " ".join(re.split(r"\bwhere\b", head[1])[0].split()) if head else ""
                if re.search(r"(?:→ |: )Type [01]$", said):
                    yield path, name, said in (": Type 0", ": Type 1")


def stated(files):
    """The statements, as (path, name, name of the proof)."""
    for path, name, closed in types(files):
        if closed and not names(blanked(path, files[path]), f"List {name}"):
            yield path, name, proof_of(name)


def unclaimed(files):
    """The types with parameters that nothing else names, as (path, name)."""
    specs = {path: list(declarations(blanked(path, text))) for path, text in files.items() if re.match(r"crates/\w+/specs/", path)}
    for path, name, closed in types(files):
        others = (part for there, parts in specs.items() for label, part in parts if (there, label) != (path, name))
        if not closed and not any(names(part, name) for part in others):
            yield path, name
