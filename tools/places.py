#!/usr/bin/env python3
"""Counts the places that docs/DESIGN-PASS.md speaks of, in crates/*/src as they stand at a commit, or in the work tree without one: how many there are,
and how many of them are kept with a reason.

A place is kept where a comment that says `Kept:` stands right above the item or inside it, where such a comment of the file names its function in
backticks, or where one above it begins `Kept, below:` and no heading `// ----` comes between.

usage: tools/places.py [COMMIT] [--list | --left]      with --list each place is printed after its count, as file:line: what stands there; with --left those
                                                       without a reason
"""
import re, subprocess, sys
from collections import Counter, defaultdict

commit = next((a for a in sys.argv[1:] if not a.startswith("-")), None)


def git(*words):
    return subprocess.run(["git", *words], check=True, capture_output=True, text=True).stdout


def sources():
    names = git("ls-tree", "-r", "--name-only", commit, "crates") if commit else git("ls-files", "crates")
    for name in sorted(names.split()):
        if re.fullmatch(r"crates/(?!exports_c/)\w+/src/.*\.rt", name):
            yield name, git("show", f"{commit}:{name}") if commit else open(name).read()


SOURCES = list(sources())


def lines(pattern):
    return [(f"{name}:{text.count(chr(10), 0, m.start(1)) + 1}", m[1].strip()) for name, text in SOURCES for m in re.finditer(pattern, text, re.M)]


def enums():
    """Own enums of the shape of Option or Result: two cases, or one that says only refused, failed or malformed."""
    for where, head in lines(r"^((?:pub )?enum \w+ \{\n(?:.*\n)*?\})$"):
        cases = re.findall(r"^    (\w+)(\(|,| =| \{)", head, re.M)
        bare = [c for c, rest in cases if rest == ","]
        if cases and all(rest == " =" for _, rest in cases):
            continue  # an error enum, each case with its number
        if len(cases) == 2 and len(bare) < 2 or re.search(r"\bRefused\(u32\)|\bMalformed\b|\bFailed\b", head):
            yield where, head.split(" {")[0]


def facts():
    """Facts that stand in the contracts of three or more functions of a crate, each function once."""
    seen = defaultdict(dict)
    for name, text in SOURCES:
        for where, clause in [(m.start(), m[1]) for m in re.finditer(r"requires(?: \w+)? \{((?:[^{}]|\{[^}]*\})*)\}", text)]:
            for fact in re.split(r"\s×\s", clause):
                fact = " ".join(fact.split()).strip("() ")
                seen[name.split("/")[1], fact].setdefault(where, f"{name}:{text.count(chr(10), 0, where) + 1}")
    return [(where, fact) for (_, fact), at in seen.items() if len(at) > 2 for where in at.values()]


def together():
    """Parameters that travel together: a run of two or more, by name and type, in three or more functions of a crate."""
    given = []
    for name, text in SOURCES:
        for m in re.finditer(r"^ *(?:pub )?(?:extern \"C\" )?fn (\w+)(?:<[^>(]*>)?\(([^)]*)\)", text, re.M):
            words = [" ".join(p.split()) for p in m[2].split(",") if ":" in p]
            given.append((name.split("/")[1], f"{name}:{text.count(chr(10), 0, m.start()) + 1}", m[1], words))
    pairs = defaultdict(set)
    for crate, where, fn, words in given:
        for pair in zip(words, words[1:]):
            pairs[crate, pair].add((where, fn))
    return sorted({(where, fn) for found in pairs.values() if len(found) > 2 for where, fn in found})


ITEM = re.compile(r"^( *)(?:pub(?:\([^)]*\))? )?(?:extern \"C\" )?(?:const )?(?:fn|struct|enum|trait|impl)\b[^\n]*", re.M)


def reasons(text):
    """The comments of a file that give a reason, as (place, text)."""
    for m in re.finditer(r"(?:^ *//[^\n]*\n)*^ *//[^\n]*$|//[^\n]*$", text, re.M):
        if "Kept:" in m[0] or "Kept, below:" in m[0]:
            yield m.start(), m[0]


def item_of(text, at):
    """The item that a line stands in, as (start of the comments above it, end, its name)."""
    found = 0, len(text), ""
    for m in ITEM.finditer(text):
        if m.start() > at:
            break
        end = re.compile(rf"^{m[1]}\}}|^{m[1]}\S[^\n]*;$", re.M).search(text, m.start())
        if end and at <= end.end():
            above = re.compile(r"(?:^ *(?://|#\[)[^\n]*\n)*\Z", re.M).search(text, 0, m.start())
            name = re.search(r"\b(?:fn|struct|enum|trait) (\w+)", m[0])
            found = above.start(), end.end(), name[1] if name else found[2]
    return found


def kept(where):
    """Whether a reason stands beside a place."""
    name, line = where.rsplit(":", 1)
    text = dict(SOURCES)[name]
    at = sum(len(part) + 1 for part in text.split("\n")[: int(line) - 1])
    start, end, item = item_of(text, at)
    return any(
        start <= place < end and not is_whole(text, start, end)
        or item and f"`{item}`" in said
        or "Kept, below:" in said and place < at and "// ----" not in text[place:at]
        for place, said in reasons(text)
    )


def is_whole(text, start, end):
    """Whether that is the file and no item of it."""
    return (start, end) == (0, len(text))


POINTS = {
    "1 own enums of the shape of Option or Result": list(enums()),
    "1 a flag or a refusal's number beside a value": lines(r"^(    (?:pub )?(?:outcome: Outcome|refused: u32|valid: bool|asked: bool),)"),
    "1 functions that answer 0 or a number that refuses": [
        (w, h) for w, h in lines(r"^( *(?:pub )?fn (?:\w*refusal|sizes|tick_sizes|room|first|count_of|nibble)\([^)]*\)[^{]*?-> (?:u32|u64|isize)\b)") if "count_of(marks" not in h
    ],
    "1 refusals written as a number": lines(r"(\b(?:Refused|Err)\([0-9]+\))"),
    "2 types that differ in a type or a size": lines(r"^((?:pub )?struct (?:\w+(?:Made|Ticked|Block)|Memo[13]|CoefMemo|Taken(?:Whole|Gate|Control|Head))) \{"),
    "2 functions that differ in a type, a size or a constant": lines(
        r"^( *(?:pub )?fn (?:put_(?:made|ticked|block)|volts[0-9]|numbers[0-9]|least|lesser|recall|take_(?:whole|gate|control)"
        r"|(?:read|put)_(?:vco|lfo|supersaw|formant)|(?:vco|lfo|supersaw|formant|three)_(?:refusal|ports|at|controls)))\("
    )
    + [(w, h) for w, h in lines(r"^(    (?:pub )?fn (?:hits|filled)\([^)]*\))")],
    "3 loops by while": lines(r"^( *while [^\n]*)"),
    "4 equality, order, copies and conversions by hand": lines(
        r"^( *(?:pub )?fn (?:same|least|lesser|either|both|first|counter|osc_of|answer_of|owner_of|put_rows|rows_at|nibble|digit|has|from)\()"
    ),
    "5 facts in three or more contracts": facts(),
    "5 functions with parameters that travel together": together(),
    "6 buffers with a length beside, fields by number": lines(r"(\[(?:0|0\.0); 62\])") + lines(r"^( *(?:pub )?p[0-4]: Control,)") + lines(r"^( *(?:pub )?key[0-2]: u64,)"),
    "7 switches on which oscillator's step to run": lines(r"^( *match (?:osc|inputs|controls|k) \{)"),
}
# ---- found by a name that stayed, where the library's method or the one generic function does the work now
LIBRARY = re.compile(r"from_fn|\.get\(|\.ok_or\(|\.min\(|\ba == b\b|get_or_compute|\bkey: K\b")


def by_the_library(where, what):
    """Whether the function at a place is such a one."""
    name, line = where.rsplit(":", 1)
    text = dict(SOURCES)[name]
    at = sum(len(part) + 1 for part in text.split("\n")[: int(line) - 1])
    start, end, item = item_of(text, at)
    return " fn " in f" {what}" and bool(item) and bool(LIBRARY.search(text[at:end]))


for point in "2 functions that differ in a type, a size or a constant", "4 equality, order, copies and conversions by hand":
    POINTS[point] = [place for place in POINTS[point] if not by_the_library(*place)]

for point, places in POINTS.items():
    left = [(where, what) for where, what in places if not kept(where)]
    print(f"{len(places):4} {len(places) - len(left):4} kept  {point}")
    for where, what in places if "--list" in sys.argv else left if "--left" in sys.argv else []:
        print(f"           {where}: {what}")
