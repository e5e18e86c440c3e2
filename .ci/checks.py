#!/usr/bin/env python3
"""Checks of the repository that no prover makes.

Each check is one test. It is given the files as {path: text} and says what is wrong, a line each. It comes with examples
that it must refuse, so a check that has gone blind fails. The last line printed is 'N passed, M failed'.
"""
import hashlib
import itertools
import os
import pathlib
import re
import subprocess
import sys
import tempfile

sys.dont_write_bytecode = True  # no folder of compiled files beside this one
import boundary
import contracts
import counts
import edits
import handed
import kept
import statements
from texts import APART, blanked, brings, line, past

ROOT = pathlib.Path(__file__).resolve().parent.parent


def read_files():
    """Every text file that is tracked, or would be by `git add`."""
    listed = subprocess.run(
        ["git", "ls-files", "-z", "--cached", "--others", "--exclude-standard"],
        cwd=ROOT, check=True, capture_output=True, text=True,
    ).stdout
    files = {}
    for path in filter(None, listed.split("\0")):
        try:
            files[path] = (ROOT / path).read_text(encoding="utf-8")
        except (UnicodeDecodeError, FileNotFoundError):
            pass  # a picture; a file that was removed and is tracked until the next commit
    return files


def of_crates(files, folders, endings):
    """The files in such folders of the crates, as (path, name of the crate, text)."""
    for path, text in files.items():
        parts = path.split("/")
        if parts[0] == "crates" and len(parts) > 3 and parts[2] in folders and path.endswith(endings):
            yield path, parts[1], text


# ---- what the crates above may know of sine and powers

PROMISED = {"sin_of", "cos_of", "exp2_of", "pow3000_of"}
OWNERS = ["crates/numeric/specs/Trig.antt", "crates/numeric/specs/Power.antt"]
PROMISES = "crates/numeric/specs/Promises.antt"


def entries(text, at):
    """The entries of the list that starts at `at`, in brackets or of one entry, as (place, entry)."""
    if text[at] != "(":
        yield at, text[at:]
        return
    depth, start = 0, at + 1
    for i in range(at, past(text, at)):
        depth += (text[i] in "([{") - (text[i] in ")]}")
        if depth == 0 or (depth == 1 and text[i] == ","):
            yield start, text[start:i]
            start = i + 1


TACTICS = "simp|rw|rw⁻¹|grw|search|cc|omega|grind"


def listed(text, m):
    """What an `unfolding` names: the rest of its line, and lines below it that stand farther right."""
    column = m.start() - (text.rfind("\n", 0, m.start()) + 1)
    first, *rows = text[m.end() :].split("\n")
    yield from first.split()
    for row in rows:
        if row.strip() and len(row) - len(row.lstrip()) <= column:
            return
        yield from row.split()


def opened(text):
    """The names that a proof looks into, as (place, name): of `unfolding`, `unfold .. in`, heads in the lists of tactics and sets of them, and
    what a function of Rust's has its tactics use or unfold."""
    for m in re.finditer(r"\b(?:using|unfolding)\s*(?=\()", text):
        for name in re.split(r"[\s,]+", text[m.end() + 1 : past(text, m.end()) - 1].replace("::", ".")):
            yield m.start(), name
    for m in re.finditer(rf"(?<!{APART})unfolding(?!{APART})", text):
        for name in listed(text, m):
            yield m.start(), name
    for m in re.finditer(rf"(?<!{APART})unfold\s((?s:.*?))(?<!{APART})in(?!{APART})", text):
        for name in m[1].split():
            yield m.start(), name
    for m in re.finditer(rf"(?<!{APART})(?:{TACTICS}|ruleset\s+\S+\s*=)\s+(?=\S)", text):
        for at, entry in entries(text, m.end()):
            head = re.match(r"[\s(←]*([^\s(),]+)", entry)
            if head:
                yield at, head[1]


def below(files):
    """Modules of numeric's proofs that look into sine, cosine or powers."""
    for path, _, text in of_crates(files, ["proofs"], ".antt"):
        if path.startswith("crates/numeric/") and re.search(r"\.specs\.(?:Trig|Power)\b", text):
            yield path.split("/proofs/")[1].removesuffix(".antt").replace("/", r"\.")


def last(name):
    return name.split(".")[-1]


def only_promises(files):
    """No crate but numeric looks into sine, cosine and powers, or names what is below them or a law of them that is no promise."""
    promises = {statements.proof_of(name) for name in re.findall(r"^abbrev pub ([A-Z]\S*) :", files[PROMISES], re.M)}
    outer = r"Rattle\.numeric\.specs\.(?:Trig|Power)\b(?:\.\{([^}]*)\}|\.(\w+))?"
    inner = rf"Rattle\.numeric\.proofs\.(?:{'|'.join(below(files))})\b(?:\.\{{([^}}]*)\}}|\.(\w+))?"
    defined = {name for path in OWNERS for name in re.findall(r"^unfoldable pub (\S+)", files[path], re.M)}
    if not PROMISED < defined:
        yield f"{OWNERS}: without {PROMISED - defined}"
    for path, crate, text in of_crates(files, ["src", "specs", "proofs"], (".rt", ".antt")):
        text = blanked(path, text).replace("«", "").replace("»", "")
        at_line = lambda at: f"{path}:{line(text, at)}"
        # an alias would be unfolded under another name, and what is passed on could be
        for m in re.finditer(rf"(?<!{APART})({'|'.join(PROMISED)})\s+as\s", text):
            yield f"{at_line(m.start())}: gives {m[1]} another name"
        for m in re.finditer(r"^\s*(?:unfoldable )?pub use\s[^{;]*(?:\{[^}]*\})?", text, re.M):
            if re.search(r"\.specs\.(?:Trig|Power)\b", m[0]) or PROMISED & set(re.findall(rf"{APART}+", m[0])):
                yield f"{at_line(m.start())}: passes sine or powers on"
        if crate == "numeric":
            # to unfold a definition is to unfold what its own line names
            for name, part in statements.declarations(text) if path not in OWNERS else []:
                if re.match("unfoldable|abbrev", part) and PROMISED & {last(named) for _, named in opened(part)}:
                    yield f"{path}: whoever unfolds {name} looks into sine or powers"
            continue
        for m in re.finditer(r"Rattle\.numeric\b(?!\.(?:specs|proofs)\.\w)", text):
            yield f"{at_line(m.start())}: names numeric, or all of its specs/ or proofs/, and not a module of it"
        for pattern, allowed in [(outer, PROMISED), (inner, promises)]:
            for m in re.finditer(pattern, text):
                names = set(re.split(r"[\s,]+", (m[1] or m[2] or "*").strip())) - allowed
                if names:
                    yield f"{at_line(m.start())}: names {', '.join(sorted(names))} of numeric"
        for at, name in opened(text):
            if last(name) in PROMISED:
                yield f"{at_line(at)}: unfolds {name}"


# ---- contracts

def settled(files):
    """Every public function has an `ensures` and no `requires`; what a trait's functions ask only a crate's own types have."""
    for path, _, function in contracts.public(files):
        words = [word for word, _ in function.clauses]
        if "ensures" not in words:
            yield f"{path}:{line(files[path], function.at)}: {function.name} has no ensures"
        if "requires" in words:
            yield f"{path}:{line(files[path], function.at)}: {function.name} has a requires"
    for place, what in contracts.asking(files):
        yield f"{place}: {what}"


def instances(files):
    """Every public function has its instance of Settles in the crate's record Settled, which is proved."""
    functions, fields, proved = {}, {}, set()
    for path, crate, function in contracts.public(files):
        functions.setdefault(crate, []).append((f"{path}:{line(files[path], function.at)}", function.name))
    for path, crate, text in of_crates(files, ["specs"], ".antt"):
        for record in re.findall(r"^pub record Settled : Type [01] where\n((?:  .*\n)+)", text, re.M):
            said = re.findall(r"^  pub (\S+) :((?:.*\n)(?:    .*\n)*)", record, re.M)
            fields[crate] = path, [name for name, text in said if re.search(r"\b(?:Settles|PutSettles)\b", text)]
    for path, crate, text in of_crates(files, ["proofs"], ".antt"):
        if re.search(r"^pub \S+ : Settled$", text, re.M):
            proved.add(crate)
    functions.pop(handed.CRATE, None)  # it has the contracts of other crates
    for crate, found in functions.items():
        for place, name in found:
            if not any(contracts.named_after(field, name) for field in fields.get(crate, ("", []))[1]):
                yield f"{place}: {name} has no instance of Settles"
    for crate, (path, given) in fields.items():
        if len(given) != len(functions.get(crate, [])):
            yield f"{path}: {len(given)} instances of Settles for {len(functions.get(crate, []))} public functions"
        if crate not in proved:
            yield f"{path}: Settled isn't proved"


def repeated(files):
    """Each public contract is equations of what the call leaves with definitions, and stands under Settles in its own text."""
    return contracts.differences(files)


def proves(text, module, name, proof):
    """Whether a proof file has a proof of a module's statement, `_lem` after its name where something else is called so."""
    return brings(text, module, name) and re.search(rf"^pub {re.escape(proof)}(?:_lem)? : {re.escape(name)} *$", text, re.M)


def proved(files):
    """Each statement of Promises, Settled and Examples has a proof of its name and type, and each part of one is part of some."""
    modules = {}
    for path, crate, text in of_crates(files, ["proofs"], "/proofs/Lib.antt"):
        for module in re.findall(r"^pub mod (\S+)", blanked(path, text), re.M):  # the prover reads no others
            there = path.replace("Lib", module)
            modules.setdefault(crate, []).append(blanked(there, files.get(there, "")))
    for path, name in statements.unclaimed(files):
        yield f"{path}: no statement names {name}"
    for path, name, proof in statements.stated(files):
        crate, module = path.split("/")[1], path.split("/")[3].removesuffix(".antt")
        if not any(proves(text, f"Rattle.{crate}.specs.{module}", name, proof) for text in modules.get(crate, [])):
            yield f"{path}: proofs/ has no `pub {proof} : {name}`"


def handed_out(files):
    """The static library for C is each exported function of the libraries with its contract, word for word, and a call of it."""
    return handed.differences(files)


def boundary_holds(files):
    """Every exported function is in the C header and in the safe crate, with its types and order, and nothing else is; the header's numbers are the crates'."""
    return boundary.differences(files)


def kept_while_same(files):
    """host/tools/native takes what it kept while all that it was made from is the same, and else builds it anew."""
    return kept.differences(files)


# ---- what must not stand in the repository

def no_hole(files):
    """No proof has a hole."""
    for path, _, text in of_crates(files, ["specs", "proofs"], ".antt"):
        text = blanked(path, text)
        for m in re.finditer(r"(?<![^\s(,=])\?(?![^\s),])", text):
            yield f"{path}:{line(text, m.start())}: a hole"


LINE = 160  # characters, at most
BEFORES = 5  # in a row, at most: a longer path names its stages


def short_lines(files):
    """No line of a crate's code, definitions and proofs is longer than 160 characters."""
    for path, _, text in of_crates(files, ["src", "specs", "proofs"], (".rt", ".antt")):
        for at, row in enumerate(text.split("\n"), 1):
            if len(row) > LINE:
                yield f"{path}:{at}: {len(row)} characters"


def stages_named(files):
    """No path of a proof goes six or more `.before` back in a row, but where that place is given its name (`let tuned = c.before.. in`)."""
    for path, _, text in of_crates(files, ["proofs"], ".antt"):
        text = blanked(path, text)
        for m in re.finditer(rf"((?<!{APART})let\s+\S+\s+=\s+{APART}+)?((?:\.before)+)(?!{APART})(\s+in(?!{APART}))?", text):
            if m[2].count(".before") > BEFORES and not (m[1] and m[3]):
                yield f"{path}:{line(text, m.end(2))}: {m[2].count('.before')} times .before"


def own_words(files):
    """No file speaks of the place where it was written."""
    words = re.compile(
        r"/(?:work|farm|tmp|root|home)/|/opt/[r]attle|\bdevelopers'[ ]session|\bsub-?[a]gent|\bthe[ ]CEO\b"
        r"|\b(?:this|that|next|last|earlier|previous|another)[ ]session\b",
        re.I,
    )
    for path, text in files.items():
        for m in words.finditer(text):
            yield f"{path}:{line(text, m.start())}: {m[0]!r}"


# The marks of 96 lines of the ported Rust and of the files around it (quiver at 74f0456287): a copy is noticed by them
# where the Rust isn't at hand.
MARKS = """
92e2a9a12fe9 c6140803f78d 45126033a6c7 62647eb8bb97 8e3c2c4f4ebb eebb6700e466 e385d31b0ed5 1af3ad9f8a88
2b941575977c 723db7b1fe48 e198f989351b 729094e94329 843a08260ca9 f1d0956806d9 812c213c604c cb010bc90032
e6c71e4b668e 78269adc4c28 47a4a1eccbb8 17807efa028d 8ed06a659266 ccb7e83a2244 76f2bbdb7aea a01fe29e8238
6498ca26baec 36d9c67e2192 f1939f2d5bdb 91fde2be5ce0 ef879177fd52 fc2e5f83a30a 038fbbbb3b71 36f637b88696
b458ce434e27 48838eb9797b 52d204af755e 186dd66de589 a3e31f19ede5 ff4081163bb7 cefbad357c26 7aae65b6167e
1956152b9ced 66449e65656a e3c8d8c244ea ee2aed51ce48 e3f795d602bb 46cda66b44e6 b1fe35312cf8 e03e4bf01c61
a0611faf3e53 5042f9f48849 489a1dcbe279 0332ced2b234 03963bec67d7 4f796a2e94d5 c457467d1fdc 1360ab661390
248dbd04a5c7 555f86466481 a1398d2e6607 5b8b36506f0f c61bd6ca47f8 5ad2b3a44e04 f358601c3089 b8446c2f3909
af66bcb16d99 16fd6095bb3b 3c0839a1aae6 bda608631a75 e2efb4dbb2e5 db467ca605af 30556f00374d 5c4b25164bb6
423f4fa1942c c01d6b7f26da 73b65cb4d6b4 59827943f305 6eb98f34d763 86753ac2607d c5f8dae4e084 b8edfdf11f84
fdb73ad829b6 9385d5658bac 91b80b8ae121 19be4de92024 6afd983ed310 77e27b85e704 b50b80c03c98 30847a7a1476
f4307eb68b50 e7d0bbba2e61 f6f06bbd2455 10700dbde076 f67e5345bdf5 b0fb7327082e 1c813ceea02b 7d5b4aeb553e
""".split()
COPY = "first line of a copy\n// second line of a copy\n    /// third line of a copy\n"


def marks(text):
    """The mark of each line, taken without indentation and the signs of a comment."""
    bare = (re.sub(r"^[\s/!*#-]+", "", row).strip() for row in text.splitlines())
    return {hashlib.sha256(row.encode()).hexdigest()[:12] for row in bare}


def no_copy(files):
    """The Rust's source isn't committed."""
    known = marks(COPY).union(MARKS)
    for path, text in files.items():
        found = len(known & marks(text))
        if found >= 3:
            yield f"{path}: {found} lines of the Rust's source"


# ---- the proof map

DECLARED = {
    ".antt": r"^(?:abbrev |unfoldable )?pub (?:use [^\n]*[{{ ,]|record |data )?{0}(?=[\s:,}}])",
    ".rt": r"^\s*(?:pub )?(?:extern \"C\" )?(?:fn|struct|enum|const) {0}\b",
    ".rs": r"^\s*(?:pub )?(?:fn|struct|enum|const|trait) {0}\b",
}


def map_holds(files):
    """Each name of the proof map, and of the scope's sentences, stands in the file that the page gives."""
    for path in "docs/PROOFS.md", "docs/SCOPE.md":
        text = files.get(path, "")
        spans = list(re.finditer(r"`([\w/]+(\.antt|\.rt|\.rs)):([^`\s]+)`", text))
        if not spans:
            yield f"{path}: names nothing"
        for m in spans:
            declared = DECLARED[m[2]].format(re.escape(m[3]))
            if m[1] not in files or not re.search(declared, files[m[1]], re.M):
                yield f"{path}:{line(text, m.start())}: {m[1]} has no {m[3]}"


def counted(files):
    """The counts on the page of the proof map are today's."""
    if counts.tables(files) not in files[counts.PAGE]:
        yield f"{counts.PAGE}: its counts are others than today's, which `python3 .ci/counts.py --write` puts there"


# ---- the designers' sheet

TABLE = "crates/wavetable/src/lib.rt"
SHEET = "docs/HARMONICS.md"


def rows(text, part, row, between):
    """The rows in a part of a text, each as its name and its numbers."""
    found = re.search(part, text, re.M | re.S)
    return [[m["name"], *m["numbers"].split(between)] for m in re.finditer(row, found[1] if found else "", re.M)]


def sheet_is_table(files):
    """The designers' sheet is the table that max_harmonic reads: the same eight waves by name, and of each the same number in each level."""
    table = rows(files[TABLE], r"^const MAX_HARMONICS: .* = \[\n(.*?)^\];", r"^    \[(?P<numbers>.*)\], // (?P<name>\w+)$", ", ")
    sheet = rows(files[SHEET], r"^## The sheet\n(.*?)^## ", r"^\| (?P<name>\w+) \| (?P<numbers>.*) \|$", " | ")
    if len(table) != 8:
        yield f"{TABLE}: MAX_HARMONICS has {len(table)} rows with a name"
    for of_table, of_sheet in itertools.zip_longest([["wave", *"01234567"], *table], sheet, fillvalue=["nothing"]):
        if of_table != of_sheet:
            yield f"{TABLE}: {' '.join(of_table)}"
            yield f"{SHEET}: {' '.join(of_sheet)}"


def controls_asked(files):
    """Each control of an oscillator stands in the list that steered asks, and each that is a number in that of the promise NanSteers."""
    named = lambda text: re.findall(r"\bc\.«?(\w+)", text)
    for source in [path for path in files if re.fullmatch(r"crates/\w+/src/lib.rt", path)]:
        controls = re.search(r"^pub struct \w+Controls \{\n(.*?)^\}", files[source], re.M | re.S)
        fields = re.findall(r"^    pub (\w+): ([\w<>]+),$", controls[1], re.M) if controls else []
        of_crate = [path for path in files if path.startswith(source.replace("src/lib.rt", "specs/"))]
        for path, text in ((path, files[path]) for path in of_crate if fields):
            for listed in re.findall(r"^controls_of c = (.*)$", text, re.M):
                if named(listed) != [name for name, _ in fields]:
                    yield f"{path}: controls_of lists {named(listed)}"
            for listed in re.findall(r"^NanSteers = .*?Steers \((.*?)\)", text, re.M | re.S):
                if named(listed) != [name for name, kind in fields if kind in ("f64", "VoltsPerOctave")]:
                    yield f"{path}: NanSteers lists {named(listed)}"
        for stated in ("controls_of c =", "NanSteers ="):
            if fields and not any(f"\n{stated} " in files[path] for path in of_crate):
                yield f"{source}: no {stated} in specs"


# of these crates more edits are tried: those of their later public functions came beside the sixteen
MOST_EDITS = {"answer": 20, "common": 17, "score": 19}

# no edit of these changes definition and code together
WITHOUT_BOTH = {
    "laws": "it has no code",
    "examples": "it has no code",
    **dict.fromkeys(["values", "replay"], "it states nothing: a program that prints, held to its file stdout"),
    **dict.fromkeys(["exports", "exports_score"], "it states nothing but Settled, which any definition fulfils"),
    handed.CRATE: "it has no definitions",
}


def edits_stand(files):
    """Each crate has three to sixteen edits, but for those named above, right in must-fail/, where rt tries them, and what an edit takes out stands once."""
    found = {path.split("/")[1]: [] for path in files if re.match("crates/[^/]+/(src|specs)/", path)}
    for path, text in files.items():
        if not path.endswith(".edit"):
            continue
        if not re.fullmatch(r"crates/\w+/must-fail/[\w.-]+", path):
            yield f"{path}: nothing tries it"
            continue
        crate = path.split("/")[1]
        found.setdefault(crate, []).append(path)
        try:
            edits.applied(text, lambda file: files.get(f"crates/{crate}/{file}", ""))
        except ValueError as wrong:
            yield f"{path}: {wrong}"
    for crate, paths in found.items():
        if not 3 <= len(paths) <= MOST_EDITS.get(crate, 16):
            yield f"crates/{crate}/must-fail/: {len(paths)} edits"
        if crate not in WITHOUT_BOTH and not any(edits.both(files[path]) for path in paths):
            yield f"crates/{crate}/must-fail/: no edit changes definition and code together"


# a crate with a promise, a lemma that it rests on and one that it doesn't, a definition that it speaks of and one that it doesn't; an edit of definition and code
JUDGED = {
    "crates/x/specs/Promises.antt": "use Rattle.x.specs.Words.{half}\n\nabbrev pub KeptWhole : Type 0\nKeptWhole = half ≡ half\n\n"
    "pub record Settled : Type 0 where\n  pub f : Settles other\n",
    "crates/x/specs/Words.antt": "abbrev pub half : A\nhalf = one\n\nabbrev pub other : A\nother = two\n",
    "crates/x/proofs/Laws.antt": "module _ (n : ℕ) where\n  small : A\n  small = refl\n\nlarge : A\nlarge = refl\n",
    "crates/x/proofs/Promises.antt": "use Rattle.x.proofs.Laws.{small as tiny}\nuse Rattle.x.proofs.Laws as laws\n\npub kept_whole : KeptWhole\n"
    "kept_whole = inner\n\ninner : B\ninner = tiny\n\npub settled : Settled\nsettled = laws.large\n",
    "crates/x/must-fail/both.edit": "file: specs/Words.antt\nold: two\nnew: b\nfile: src/lib.rt\nold: a\nnew: b\n",
}
# what rt says where a lemma fails
REFUSAL = "rt: must-fail x/both.edit: refused, as it must be: ./proofs/Laws.antt:3:9: error: `small`: the two types differ\n"


def refusals_judged(files):
    """A refusal of an edit counts where a fact fails, and of an edit of definition and code where a promise rests on that, or speaks of what is changed."""
    spoken_of = JUDGED["crates/x/must-fail/both.edit"].replace("old: two", "old: one")
    for path, wrong in edits.judged(REFUSAL.replace("Laws.antt:3", "Laws.antt:6"), {**JUDGED, "crates/x/must-fail/both.edit": spoken_of}):
        if wrong:
            yield f"{path}: a promise speaks of what it changes: {wrong}"
    for path, wrong in edits.judged(files.get(".ci/refusal", REFUSAL), {**JUDGED, **{path: files[path] for path in JUDGED if path in files}}):
        if wrong:
            yield f".ci/refusal: {path}: {wrong}"


# ---- the count of the host's tests

# a harness of three tests of which each ends in another way; one prints what a harness would say
HARNESS = """#!/bin/sh
case $1 in --list) printf 'a: test\\nb: test\\nc: test\\n'; exit ;; esac
echo 'test result: ok. 99 passed; 0 failed; 0 ignored'
while [ "$1" != --logfile ]; do shift; done
printf 'ok a\\nfailed b\\nignored c\\n' >"$2"
exit 101
"""


def counted_by_runner(harness):
    """The status, and the counts passed, failed and ignored, that .ci/tests.py has of a harness."""
    with tempfile.TemporaryDirectory() as folder:
        program, noted = pathlib.Path(folder) / "harness", pathlib.Path(folder) / "noted"
        program.write_text(harness)
        program.chmod(0o755)
        ran = subprocess.run([sys.executable, ROOT / ".ci" / "tests.py", program], capture_output=True, env={**os.environ, "GRUTTISOL_COUNTS": str(noted)})
        return ran.returncode, noted.read_text().split()


def tests_counted(files):
    """The host's tests are counted by what their harness notes, and not by what they print."""
    found = counted_by_runner(files.get(".ci/harness", HARNESS))
    if found != (101, ["1", "1", "1"]):
        yield f".ci/harness: counted as {found}"


def skips_fail(files):
    """A skipped test makes the gate fail, unless GRUTTISOL_MAY_SKIP is 1, and a failed one does in any case."""
    verdict = re.search(r"^verdict\(\) \{.*?^\}", files[".ci/run"], re.M | re.S)[0]
    skipping = counted_by_runner(HARNESS.replace("failed b", "ok b").replace("exit 101", "exit 0"))[1]
    for counts_said, may, good in [
        (skipping, None, False), (skipping, "", False), (skipping, "0", False), (skipping, "1", True),
        (["3", "1", "0"], "1", False), (["3", "0", "0"], None, True), (["3", "0", "0"], "0", True),
    ]:
        environment = {name: value for name, value in os.environ.items() if name != "GRUTTISOL_MAY_SKIP"}
        environment.update({} if may is None else {"GRUTTISOL_MAY_SKIP": may})
        ran = subprocess.run(["bash", "-c", f'{verdict}\nverdict "$@"', "verdict", *counts_said], capture_output=True, env=environment)
        if (ran.returncode == 0) != good:
            yield f".ci/run: status {ran.returncode} of {' '.join(counts_said)} (passed, failed, skipped) with GRUTTISOL_MAY_SKIP {may}"


# ---- the checks, each with examples that it must refuse

SETTLES = "use Rattle.laws.specs.Machine.{Settles}\n"


def settling(contract, equation, binders, brought=SETTLES):
    """A crate with one function and what its record Settled says of it."""
    return {
        "crates/x/src/lib.rt": f"pub fn f(x: f64, y: f64, z: f64) -> f64\n    ensures value {{ {contract} }}\n{{ x }}\n",
        "crates/x/specs/Settled.antt": f"{brought}\npub record Settled : Type 0 where\n  pub f : {binders}Settles (λ (a : Float). {equation})\n",
    }


def changed(path, old, new):
    """A file with one change."""
    return {path: (ROOT / path).read_text().replace(old, new)}


def header(old, new):
    return changed(boundary.HEADER, old, new)


KEPT = "use Rattle.x.specs.Promises.{Kept}\n"


def keeping(proof, listed="pub mod A\n"):
    """A crate with one statement and a proof file."""
    return {
        "crates/x/specs/Promises.antt": "pub record Kept : Type 0 where\n",
        "crates/x/proofs/Lib.antt": listed,
        "crates/x/proofs/A.antt": proof,
    }


CHECKS = {
    only_promises: [
        {"crates/x/proofs/A.antt": "a : A\nunfolding lt sin_of\na = refl\n"},
        {"crates/x/proofs/A.antt": "a = ap f (unfold lt\n    trig.cos_of in refl)\n"},
        {"crates/x/proofs/A.antt": "a c = simp (c .if1 (b, d), ← exp2_of, e)\n"},
        {"crates/x/proofs/A.antt": "use Rattle.numeric.specs.Trig.{sin_of, kernel_sin}\n"},
        {"crates/x/specs/A.antt": "use Rattle.numeric.specs.Power as power\n"},
        {"crates/x/proofs/A.antt": "use Rattle.numeric.proofs.TrigLaws.{sin_inside, kernel_inside}\n"},
        {"crates/x/proofs/A.antt": "use Rattle.numeric.proofs.PowerLaws as laws\n"},
        {"crates/x/proofs/A.antt": "a : A\nunfolding lt\n    sin_of\na = refl\n"},
        {"crates/x/proofs/A.antt": "a : A\nunfolding «sin_of»\na = refl\n"},
        {"crates/x/proofs/A.antt": "a : A\n{- -- -} unfolding sin_of\na = refl\n"},
        {"crates/x/proofs/A.antt": "ruleset waves = (b, sin_of)\n"},
        {"crates/x/proofs/A.antt": "a = grind (arith, sin_of)\n"},
        {"crates/x/src/lib.rt": "#[tactic(auto, unfolding(numeric::specs::Trig::sin_of))]\nfn f() {}\n"},
        {"crates/x/proofs/A.antt": "use Rattle.numeric.specs.Trig.{sin_of as wave}\n"},
        {"crates/x/proofs/A.antt": "use Rattle.y.specs.Waves.{sin_of as wave}\n"},
        {"crates/x/specs/A.antt": "unfoldable pub use Rattle.numeric.specs.Trig.{sin_of}\n"},
        {"crates/x/proofs/A.antt": "use Rattle.numeric.specs as below\n"},
        {"crates/x/proofs/A.antt": "use Rattle.numeric as below\n"},
        {"crates/x/proofs/A.antt": "use Rattle.numeric.specs.{Trig.kernel_sin}\n"},
        {"crates/numeric/specs/Key.antt": "unfoldable pub key : Type 0\nunfolding sin_of\nkey = Type 0\n"},
        {"crates/numeric/specs/Key.antt": "unfoldable pub use Rattle.numeric.specs.Trig.{kernel_sin}\n"},
    ],
    settled: [
        {"crates/x/src/lib.rt": "pub fn f(x: [u8; 2]) -> [u8; 2] // ensures { x }\n{\n    x\n}\n"},
        {"crates/x/src/lib.rt": 'pub extern "C" fn f(x: u8) -> u8\n    ensures same { x }\n    requires small { x }\n{ x }\n'},
        {"crates/x/src/lib.rt": "pub(crate) fn f(x: u8) -> u8\n{\n    x\n}\n"},
        {"crates/x/src/lib.rt": "mod calls;\n", "crates/x/src/calls.rt": 'pub extern "C" fn f(x: u8) -> u8\n{\n    x\n}\n'},
        {"crates/x/src/lib.rt": "pub const unsafe fn f<'a>(x: u8) -> u8\n{\n    x\n}\n"},
        {"crates/x/src/lib.rt": "pub fn f<F: FnOnce() -> u8>(g: F) -> u8\n{\n    g()\n}\n"},
        {"crates/x/src/lib.rt": "pub fn f<F: FnOnce() -> u8>(g: F, x: u8) -> u8\n    requires { F.pre x }\n    ensures { x }\n{ x }\n"},
        {"crates/x/src/lib.rt": "pub fn f<F: FnOnce() -> u8>(g: F) -> u8\n    requires { F.pre g }\n    ensures { x }\n{ x }\n"},
        {"crates/x/src/lib.rt": "pub fn f<F: Copy>(g: F) -> u8\n    requires { F.pre g }\n    ensures { x }\n{ 0 }\n"},
    ],
    instances: [
        {"crates/x/src/lib.rt": "pub fn f(x: u8) -> u8\n    ensures { x }\n{ x }\n"},
        {"crates/line/specs/Settled.antt": "pub record Settled : Type 0 where\n  pub same : Settles P\n"},
        {"crates/x/specs/Settled.antt": "pub record Settled : Type 0 where\n  pub f : Type 0\n"},
    ],
    repeated: [
        {"crates/x/src/lib.rt": "pub fn f(x: u8) -> u8\n    ensures { result ≡ result }\n{ x }\n"},
        {"crates/x/src/lib.rt": "pub fn f(x: u8) -> u8\n    ensures { result ≡ sin_of result }\n{ x }\n"},
        {"crates/x/src/lib.rt": "pub fn f(x: u8) -> u8\n    ensures { result ≡ x }\n{ x }\n"},
        {"crates/x/src/lib.rt": "pub fn f(x: u8) -> u8\n    ensures* { result ≡ sin_of x }\n{ x }\n"},
        {"crates/x/src/lib.rt": "impl<'a> X<'a> {\n    pub fn f(&mut self)\n        ensures { self.new ≡ sin_of self.new }\n{ }\n}\n"},
        {"crates/x/src/lib.rt": "impl X {\n    pub fn f(&mut self, x: &mut u8)\n        ensures { self.new ≡ sin_of self.old }\n{ }\n}\n"},
        {"crates/x/src/lib.rt": "impl X {\n    pub fn f(&self) -> u8\n        ensures { result ≡ self.now }\n{ self.a }\n}\n"},
        settling("result ≡ sin_of x", "a ≡ cos_of b", "(b : Float) → "),
        settling("result ≡ sin_of x", "a ≡ a", "(b : Float) → "),
        settling("result ≡ clamp_of x x x", "a ≡ clamp_of b c d", "(b c d : Float) → b ≡ c → "),
        settling("result ≡ clamp_of x y z", "a ≡ clamp_of b b c", "(b c : Float) → "),
        settling("result ≡ sin_of x", "a ≡ sin_of b", "(b : Float) (no : ⊥) → "),
        settling("result ≡ wrap_of x.0", "a ≡ wrap_of b.0", "(b : Float × ⊥) → "),
        settling("result ≡ wrap_of x.0", "a ≡ wrap_of b.1", "(b : Float) → "),
        settling("refused_number result ≡ sin_of x", "a ≡ sin_of b", "(b : Float) → "),
        settling("result ≡ sin_of x", "refused_number a ≡ sin_of b", "(b : Float) → "),
        settling("(v : V) → Gives (F.post y) z → result ≡ sin_of v", "a ≡ sin_of b", "(b : Float) → "),
        settling("(v : V) → Lies (F.post y) v → result ≡ sin_of v", "a ≡ sin_of b", "(b : Float) → "),
        settling("result ≡ sin_of x", "a ≡ sin_of b", "(b : Float) (no : IsTrue c) → "),
        settling("result ≡ sin_of x", "a ≡ sin_of b", "{no : Never} (b : Float) → "),
        settling("result ≡ sin_of x", "a ≡ sin_of b", "(b : Float) → ", ""),
        settling("result ≡ sin_of x", "a ≡ sin_of b", "(b : Float) → ", "use Rattle.x.specs.Weak.{Settles}\n"),
        settling("result ≡ sin_of x", "a ≡ sin_of b", "(b : Float) → ", f"{SETTLES}abbrev pub Settles : (Float → Type 0) → Type 0\n"),
        {"crates/x/specs/Weak.antt": "abbrev pub Settles : (Float → Type 0) → Type 0\nSettles P = ⊤\n"},
    ],
    proved: [
        {"crates/lfo/specs/Promises.antt": "abbrev pub NeverLost : Type 0\nNeverLost = Type 0\n"},
        {"crates/lfo/specs/Promises.antt": "abbrev pub NeverLost : Type 0\nNeverLost = Type 0\n-- List NeverLost\n"},
        {"crates/lfo/specs/Promises.antt": "pub NeverLost : Type 0\nNeverLost = Type 0\n"},
        {"crates/lfo/specs/Promises.antt": "abbrev pub NeverLost\n  : Type 0\nNeverLost = Type 0\n"},
        keeping(f"{KEPT}\nkept : Kept\n"),
        keeping("abbrev Kept : Type 0\n\npub kept : Kept\n"),
        keeping(f"{KEPT}\n{{-\npub kept : Kept\n-}}\n"),
        keeping(f"{KEPT}\npub kept : Kept\n", "-- pub mod A\n"),
        keeping(f"{KEPT}\nabbrev Kept : Type 0\npub kept : Kept\n"),
        keeping("use Rattle.x.specs.Promises.{Kept as Other}\nuse lib.Any.{Any as Kept}\npub kept : Kept\n"),
        keeping(f"{KEPT}use lib.Any.{{Any as Kept}}\npub kept : Kept\n"),
        {"crates/x/specs/Promises.antt": "pub record Keeping (n : ℕ) : Type 0 where\n"},
        {"crates/x/specs/Promises.antt": "abbrev pub Kept : Type 1\nKept = (A : Type 0) → A\n"},
    ],
    handed_out: [
        changed("crates/exports_c/src/numeric_calls.rt", "gruttisol_sin(x)", "gruttisol_cos(x)"),
        changed("crates/exports_c/src/numeric_calls.rt", "result ≡ sin_of x", "result ≡ cos_of x"),
        changed("crates/exports_c/src/lfo_calls.rt", "exports_lfo.specs.Calls", "exports_lfo.specs.Other"),
        changed("crates/exports_c/src/lib.rt", "mod lfo_calls;\n", ""),
        {"crates/exports_c/src/more.rt": 'pub extern "C" fn more(x: f64) -> f64\n'},
        {"crates/exports_x/src/lib.rt": handed.EXPORTED + "more(x: f64) -> f64\n    ensures { result ≡ x }\n{\n", "crates/exports_c/src/": ""},
        {"crates/lfo/src/lib.rt": handed.EXPORTED + "more(x: f64) -> f64\n    ensures { result ≡ x }\n{\n"},
    ],
    boundary_holds: [
        {"crates/exports_c/src/more.rt": 'pub extern "C" fn gruttisol_more(x: f64) -> f64\n', "host/": ""},
        header("gruttisol_sin(double x)", "gruttisol_sin(double y)"),
        header("GRUTTISOL_VCO_FLOATS 5", "GRUTTISOL_VCO_FLOATS 4"),
        header("GRUTTISOL_GATE_ISSUE_2 1.0", "GRUTTISOL_GATE_ISSUE_2 1.5"),
        header("GRUTTISOL_CLEAN = 14", "GRUTTISOL_CLEAN = 13"),
        header("GRUTTISOL_SCORE_LONGEST 117", "GRUTTISOL_SCORE_LONGEST 116"),
        header("(const int32_t *microvolts", "(const uint32_t *microvolts"),
        header("#define GRUTTISOL_COUNTS 6", ""),
        header("#define GRUTTISOL_COUNTS 6", "#define GRUTTISOL_COUNTS 6\n#define GRUTTISOL_MORE 5"),
        {"host/gruttisol/src/more.rs": 'unsafe extern "C" {\n'},
        {"host/gruttisol/src/": "", "host/gruttisol/src/more.rs": "exported! {\n    fn sin(x: f32) -> f64;\n}\n"},
    ],
    kept_while_same: [
        changed(kept.TOOL, "src specs proofs", "src specs"),
        changed(kept.TOOL, "for crate in $name $needed; do\n        for part", "for crate in $name; do\n        for part"),
        changed(kept.TOOL, 'for crate in $name $needed; do echo "$crate: $(given "$crate")"; done', ""),
        changed(kept.TOOL, "        rt version\n", ""),
        changed(kept.TOOL, "kept=target/native/$triple", "kept=target/native/any"),
        changed(kept.TOOL, 'mkdir -p "$kept"\n', ""),
        changed(kept.TOOL, '[ "$(key)" = "$made_from" ]', "true"),
        changed(kept.TOOL, '|| rm -f "$old"', "|| true"),
        changed(kept.TOOL, "host/tools/native host/tools/by_function", "host/tools/native"),
        changed(kept.TOOL, '[ "${GRUTTISOL_PROVED:-}" = 1 ] || return 1', "true"),
        changed(kept.TOOL, '&& [ ! -e "crates/$crate/out/rlib/stamp" ]', ""),
        changed(kept.TOOL, 'grep -q "^rt: running', 'true || grep -q "^rt: running'),
    ],
    no_hole: [{"crates/x/proofs/f/Proof.antt": "returns c = ?\n"}],
    short_lines: [
        {"crates/x/src/lib.rt": f"//{159 * 'a'}\n"},
        {"crates/x/specs/A.antt": f"a : A\n--{159 * '≡'}"},
        {"crates/x/proofs/f/Proof.antt": f"{161 * 'a'}\n"},
    ],
    stages_named: [
        {"crates/x/proofs/f/Proof.antt": f"returns c = simp (c{6 * '.before'}.hits)\n"},
        {"crates/x/proofs/f/Proof.antt": f"returns c = let a = c{6 * '.before'}.hits in a\n"},
        {"crates/x/proofs/f/Proof.antt": f"returns c = let a = f c{6 * '.before'} in a\n"},
    ],
    own_words: [{"docs/x.md": "built in /" + "work/ here\n"}],
    no_copy: [{"x.rs": COPY}],
    map_holds: [
        {"docs/PROOFS.md": "`crates/laws/specs/Machine.antt:Settle`\n"},
        {"docs/PROOFS.md": "`crates/laws/specs/Gone.antt:Settles`\n"},
        {"docs/PROOFS.md": "`host/gruttisol/tests/grid.rs:tangent`\n"},
        {"docs/PROOFS.md": "nothing\n"},
        {"docs/SCOPE.md": "`crates/laws/specs/Machine.antt:Settle`\n"},
        {"docs/SCOPE.md": "nothing\n"},
    ],
    counted: [{"docs/PROOFS.md": "nothing\n"}],
    sheet_is_table: [
        changed(SHEET, "| Square | 63 | 31 |", "| Square | 63 | 32 |"),
        changed(SHEET, "| Saw |", "| Sow |"),
        changed(SHEET, "| Pulse25 | 64 | 32 | 16 | 8 | 4 | 2 | 1 | 1 |\n", ""),
        changed(SHEET, "| 7 |\n", "| 8 |\n"),
        changed(SHEET, "| 5 | 2 | 1 | 1 | 1 | 1 | 1 |\n", "| 5 | 2 | 1 | 1 | 1 | 1 |\n"),
        changed(SHEET, "## The sheet", "## A sheet"),
        changed(TABLE, "[63, 31,", "[63, 32,"),
        changed(TABLE, "// Saw", "// Sow"),
        changed(TABLE, "    [64, 32, 16, 8, 4, 2, 1, 1], // Pulse25\n", ""),
        changed(TABLE, "const MAX_HARMONICS", "const HARMONICS"),
        {TABLE: "", SHEET: "## The sheet\n| wave | 0 | 1 | 2 | 3 | 4 | 5 | 6 | 7 |\n## \n"},
    ],
    controls_asked: [
        changed("crates/vco/specs/Vco.antt", "c.pw ∷ c.sync ∷", "c.sync ∷"),
        changed("crates/wavetable/specs/Promises.antt", "∷ c.table ∷ c.morph ∷", "∷ c.morph ∷"),
        changed("crates/lfo/specs/Lfo.antt", "controls_of c = c.rate ∷ c.depth", "controls_of c = c.rate ∷ c.rate"),
        changed("crates/noise_generator/specs/NoiseGenerator.antt", "given_in c.correlation", "[]"),
        {"crates/x/src/lib.rt": "pub struct XControls {\n    pub y: f64,\n}\n"},
    ],
    tests_counted: [
        {".ci/harness": HARNESS.replace("failed b", "ok b")},
        {".ci/harness": HARNESS.replace("exit 101", "exit 0")},
        {".ci/harness": HARNESS.replace("ok a\\n", "")},
    ],
    skips_fail: [
        {".ci/run": 'verdict() {\n    [ "$2" -eq 0 ]\n}\n'},
        {".ci/run": 'verdict() {\n    [ "$2" -eq 0 ] && { [ "$3" -eq 0 ] || [ -n "${GRUTTISOL_MAY_SKIP:-}" ]; }\n}\n'},
        {".ci/run": 'verdict() {\n    [ "$3" -eq 0 ] || [ "${GRUTTISOL_MAY_SKIP:-}" = 1 ]\n}\n'},
        {".ci/run": 'verdict() {\n    [ "$2" -eq 0 ] && [ "$3" -eq 0 ]\n}\n'},
    ],
    refusals_judged: [
        {".ci/refusal": ""},
        {".ci/refusal": REFUSAL.replace("refused, as it must be", "NOT REFUSED")},
        {".ci/refusal": REFUSAL.replace("refused, as it must be: ./", "BAD EDIT: ")},
        {".ci/refusal": REFUSAL.replace("must be", "must be (only by a limit of the prover)")},
        {".ci/refusal": REFUSAL.replace("must be", "must be (only because a proof file names what the edit took away)")},
        {".ci/refusal": REFUSAL.split(": ./")[0] + "\n"},
        {".ci/refusal": REFUSAL.replace("proofs/Laws.antt", "specs/Laws.antt")},
        {".ci/refusal": REFUSAL.replace("proofs/Laws.antt", "proofs/f/Answers.antt")},
        {".ci/refusal": REFUSAL.replace("./proofs/Laws.antt:3:9: error: `small`:", "note: src/lib.rt:3:9: it is not proved that")},
        {".ci/refusal": REFUSAL.replace("Laws.antt:3", "Laws.antt:6")},  # settled alone rests on it
        {".ci/refusal": REFUSAL.replace("Laws.antt:3", "Laws.antt:1")},
        {".ci/refusal": REFUSAL, "crates/x/proofs/Promises.antt": JUDGED["crates/x/proofs/Promises.antt"].replace("inner = tiny", "inner = refl")},
        {".ci/refusal": REFUSAL, "crates/x/proofs/Promises.antt": JUDGED["crates/x/proofs/Promises.antt"].replace("proofs.Laws.{", "proofs.Low.{")},
    ],
    edits_stand: [
        {"crates/laws/must-fail/x.edit": "file: specs/Lists.antt\nold: pub\nnew: y\n"},
        {"crates/laws/must-fail/x.edit": "file: specs/Lists.antt\nold: no such text\nnew: y\n"},
        {"crates/x/must-fail/y.edit": "file: src/lib.rt\nold: y\nnew: z\nold: z\nnew: v\nold: y\nnew: w\n", "crates/x/src/lib.rt": "y\n"},
        {"crates/lfo/must-fail/": "", "crates/lfo/must-fail/y.edit": "file: crates.txt\nold: y\nnew: z\n"},
        {"crates/laws/wrong/y.edit": "file: specs/Lists.antt\nold: y\nnew: z\n"},
        {"crates/laws/must-fail/more/y.edit": "file: specs/Lists.antt\nold: y\nnew: z\n"},
        {
            "crates/x/must-fail/": "",
            "crates/x/src/lib.rt": "y\n",
            **{f"crates/x/must-fail/{name}.edit": "file: src/lib.rt\nold: y\nnew: z\n" for name in "abc"},
        },
        {"crates/x/must-fail/": "", "crates/x/must-fail/y.edit": "file: src/lib.rt\nold: y\nnew: z\n", "crates/x/src/lib.rt": "y\n"},
    ],
}


def main():
    files = read_files()
    passed = failed = 0
    for check, examples in CHECKS.items():
        wrong = list(check(files))
        for example in examples:
            if not any(said.startswith(tuple(example)) for said in check({**files, **example})):
                wrong.append(f"this check doesn't refuse its example {example}")
        print("FAILED" if wrong else "ok    ", check.__doc__)
        print(*(f"       {said}\n" for said in wrong), sep="", end="")
        passed, failed = passed + (not wrong), failed + bool(wrong)
    print(f"{passed} passed, {failed} failed")
    return failed > 0


if __name__ == "__main__":
    sys.exit(main())
