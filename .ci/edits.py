#!/usr/bin/env python3
"""Judges what `rt ci` says of each edit that the prover must refuse.

    edits.py LOG    LOG: what `rt ci` or `rt must-fail` printed

rt tries each edit of crates/NAME/must-fail and prints one line about it, with the first thing that failed. It calls an edit bad whose
text doesn't stand once or can't be read, where a name is unknown or a contract no longer well formed, and says where only a name is
missing in a proof file, or only a limit was met. Neither is a refusal here, and nor is a definition of specs/ that is no longer well formed or a
line that names nothing: refused is an edit after which a fact of proofs/ or of the code no longer holds.

Of an edit that changes definition and code together a promise must fail, which Settled isn't, as any definition fulfils it. What fails first, and rt names no
more, must be a lemma then, and no function's own proof or a place in the code. The proof of a promise cites it, or cites what does; or else a promise speaks
of the definition that was changed. The last line is 'N passed, M failed'.
"""
import functools
import pathlib
import re
import sys

sys.dont_write_bytecode = True  # no folder of compiled files beside this one
import statements
from texts import APART, blanked, line

ROOT = pathlib.Path(__file__).resolve().parent.parent


# ---- edits

def changes(edit):
    """The changes that an edit's text asks for, as (file, old, new)."""
    file = old = None
    for row in edit.splitlines():
        if row.startswith("file: "):
            file = row.removeprefix("file: ")
        elif row.startswith("old: "):
            old = row.removeprefix("old: ")
        elif row.startswith("new:"):
            yield file, old, row.removeprefix("new:").removeprefix(" ")


def applied(edit, read):
    """What an edit makes of its files, {file: text}: its changes one after another, as rt makes them. `read` gives a file as it stands."""
    made = {}
    for file, old, new in changes(edit):
        text = made[file] if file in made else read(file)
        if text.count(old) != 1:
            raise ValueError(f"what it takes out stands {text.count(old)} times in {file}")
        made[file] = text.replace(old, new)
    return made


def both(edit):
    """Whether an edit's text changes a definition and the code together."""
    folders = {file.split("/")[0] for file, _, _ in changes(edit)}
    return {"specs", "src"} <= folders


# ---- what the promises of a crate rest on

DECLARED = re.compile(rf"^(?:(?:unfoldable|abbrev|pub|opaque|record|data) )*({APART}+)(?=\s+:\s|\s+\()", re.M)


def flat(text):
    """A file without its comments, and with what stands in a module of no name as if it stood in none."""
    rows, inside = [], False
    for row in blanked(".antt", text).split("\n"):
        inside = row.startswith("module _") or inside and (not row or row.startswith(" "))
        rows.append(row[2:] if inside and row.startswith("  ") else row)
    return "\n".join(rows)


def declarations(files, crate, part):
    """What the files of a crate's specs/ or proofs/ declare, as {(file, name): (first line, what its text cites)}, cited things likewise."""
    texts = {}
    for path, text in files.items():
        if m := re.fullmatch(rf"crates/{crate}/{part}/(\w+)\.antt", path):
            texts[m[1]] = flat(text)
    starts = {}
    for module, text in texts.items():
        told = {}
        for m in DECLARED.finditer(text):
            told.setdefault(m[1], m.start())  # its signature, and no clause after it
        starts[module] = sorted((at, name) for name, at in told.items())
    found = {}
    for module, text in texts.items():
        known = {name: (module, name) for _, name in starts[module]}
        for other, names, alias in re.findall(rf"^(?:\w+ )*?use Rattle\.{crate}\.{part}\.(\w+)(?:\.\{{([^}}]*)\}}| as (\S+))", text, re.M):
            known.update({f"{alias}.{name}": (other, name) for _, name in starts.get(other, []) if alias})
            for name in filter(None, map(str.strip, names.split(","))):
                known[name.split(" as ")[-1].strip()] = other, name.split(" as ")[0].strip()
        for (at, name), end in zip(starts[module], [*(at for at, _ in starts[module][1:]), len(text)]):
            words = re.findall(rf"{APART}+(?:\.{APART}+)*", text[at:end])
            found[module, name] = line(text, at), {known[word] for said in words for word in (said, said.split(".")[0]) if word in known}
    return found


def rested_on(found, first):
    """What these declarations rest on, themselves among them."""
    rests, new = set(), set(first) & found.keys()
    while new:
        rests |= new
        new = set().union(*(found[key][1] for key in new)) & found.keys() - rests
    return rests


def declared_at(found, module, row):
    """What stands at a line of a file."""
    return max(((at, key) for key, (at, _) in found.items() if key[0] == module and at <= row), default=(0, None))[1]


def promises(files, crate):
    """The promises of a crate, without Settled: each with its file, as its statement and as its proof."""
    stated = [(path, name, proof) for path, name, proof in statements.stated(files) if path.startswith(f"crates/{crate}/") and name != "Settled"]
    return {(path.split("/")[-1].removesuffix(".antt"), name) for path, name, _ in stated}, {proof for _, _, proof in stated}


class Promised:
    """What the promises of a crate rest on and speak of."""

    def __init__(self, files, crate):
        self.texts = {path.removeprefix(f"crates/{crate}/"): text for path, text in files.items() if path.startswith(f"crates/{crate}/specs/")}
        self.lemmas, self.definitions = declarations(files, crate, "proofs"), declarations(files, crate, "specs")
        said, proved = promises(files, crate)
        self.rested_on = rested_on(self.lemmas, {key for key in self.lemmas if key[1].removesuffix("_lem") in proved})
        self.spoken_of = rested_on(self.definitions, said)

    def touched(self, module, row, edit):
        """Whether a promise rests on the lemma at a line, or speaks of a definition that an edit changes."""
        changed = [(file.split("/")[-1].removesuffix(".antt"), self.texts[file], old) for file, old, _ in changes(edit) if file in self.texts]
        definitions = {declared_at(self.definitions, there, line(text, text.find(old))) for there, text, old in changed if old in text}
        return declared_at(self.lemmas, module, row) in self.rested_on or not definitions.isdisjoint(self.spoken_of)


# ---- what rt said

SAID = re.compile(r"^rt: must-fail (\w+)/([\w.-]+)\.edit: (.*)$", re.M)
REFUSED = "refused, as it must be"


def judge(said, edit, promised):
    """What is wrong with the refusal of an edit, by what rt says of it, or ''. Of one of definition and code a promise must fail: `promised` gives the
    crate's."""
    if not said.startswith(REFUSED):
        return said
    first = said.removeprefix(REFUSED).lstrip(": ") or "rt names nothing"
    fact = re.match(r"(?:\./)?(proofs/\S+?)\.antt:(\d+):\d+: error: `", first)
    goal = re.match(r"note: (?:\./)?src/\S+?:\d+:\d+: it is not proved ", first)
    if not fact and not goal:
        return f"no fact fails: {first}"
    if both(edit) and (goal or fact[1].count("/") > 1):
        return f"a function's own proof fails first: {first}"
    if both(edit) and not promised().touched(fact[1].split("/")[1], int(fact[2]), edit):
        return f"no promise rests on what fails first, or speaks of what is changed: {first}"
    return ""


def judged(log, files):
    """Each edit of must-fail/ with what is wrong with its refusal, or ''."""
    said = {(crate, name): what for crate, name, what in SAID.findall(log)}
    promised = functools.cache(lambda crate: Promised(files, crate))
    for path, text in sorted(files.items()):
        if m := re.fullmatch(r"crates/(\w+)/must-fail/([\w.-]+)\.edit", path):
            yield path, judge(said.get((m[1], m[2]), "rt said nothing of it"), text, lambda: promised(m[1]))


def main(log):
    parts = [path for part in ("specs", "proofs", "must-fail") for path in sorted(ROOT.glob(f"crates/*/{part}/*")) if path.is_file()]
    files = {str(path.relative_to(ROOT)): path.read_text() for path in parts}
    passed = failed = 0
    for path, wrong in judged(pathlib.Path(log).read_text(errors="replace"), files):
        if wrong:
            print(f"{path}: NO REFUSAL: {wrong}")
        passed, failed = passed + (not wrong), failed + bool(wrong)
    print(f"{passed} passed, {failed} failed")
    return failed > 0


if __name__ == "__main__":
    sys.exit(main(*sys.argv[1:]))
