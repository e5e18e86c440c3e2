"""What hosts call: functions as the static library exports them, as the C header declares them, and as the safe crate does; the header's numbers.

A function is what it answers and its inputs in order, each a name and a kind: `f64`, or, of a lent slice, `mut f64` or `const f64`.
In C and in the archive a slice is two arguments, the address of its first cell and its length. A number of the header is held against
each place of the crates that says it (`said`); refusals and how much is enough for any call have none.
"""
import re

import handed
from texts import blanked

HEADER = "host/c/gruttisol.h"
HOST = "host/gruttisol/src/"
KINDS = {"double": "f64", "uint8_t": "u8", "int32_t": "i32", "uint32_t": "u32", "uint64_t": "u64", "bool": "bool"}
LACKS = " without a length"


def parts(text):
    """What commas part, without spaces around it."""
    return [part.strip() for part in text.split(",") if part.strip()]


def exported(files):
    """What the static library exports, as {name: (answer, inputs)}."""
    found = {}
    for path, text in files.items():
        if re.match(rf"crates/{handed.CRATE}/src/.*\.rt$", path):
            text = blanked(path, text)
            for m in re.finditer(r"\bextern\s+\"C\"\s+fn\s+(\w+)\s*\(([^)]*)\)\s*(?:->\s*(\w+))?", text):
                inputs = [re.split(r"\s*:\s*", part) for part in parts(m[2])]
                slices = {"&mut [": "mut ", "&[": "const "}
                for given in inputs:
                    for lent, kind in slices.items():
                        if given[1].startswith(lent):
                            given[1] = kind + given[1].removeprefix(lent).rstrip("]")
                found[m[1]] = m[3], [tuple(given) for given in inputs]
    return found


def in_header(text):
    """What the header declares, likewise; an input that it can't read has the kind '?'."""
    found = {}
    for m in re.finditer(r"(\w+)\s+\**(gruttisol_\w+)\s*\(([^)]*)\)\s*;", re.sub(r"/\*.*?\*/", "", text, flags=re.S)):
        inputs = []
        for part in parts(m[3]):
            given = re.fullmatch(r"(const\s+)?(\w+)\s*(\*?)\s*(\w+)", part)
            if given and given[3]:
                inputs.append((given[4], ("const " if given[1] else "mut ") + KINDS.get(given[2], "?") + LACKS))
            elif given and given[2] == "size_t" and inputs and f"{inputs[-1][0]}_len" == given[4]:
                inputs[-1] = inputs[-1][0], inputs[-1][1].removesuffix(LACKS)
            elif part != "void":
                inputs.append((given[4], KINDS.get(given[2], "?")) if given and not given[1] else (part, "?"))
        found[m[2]] = KINDS.get(m[1], "?"), inputs
    return found


def in_host(files):
    """What the safe crate declares by its macros `exported` and `lent`, likewise."""
    found = {}
    for path, text in files.items():
        if not path.startswith(HOST):
            continue
        text = blanked(path, text)
        for block in re.finditer(r"^\s*(exported|lent)! \{\n(.*?)^\s*\}", text, re.M | re.S):
            for m in re.finditer(r"\bfn (\w+)\(([^;)]*)(;[^)]*)?\)(?: -> (\w+))?;", block[2]):
                inputs = [tuple(re.split(r"\s*:\s*", part)) for part in parts(m[2]) + parts((m[3] or "").lstrip(";"))]
                found[f"gruttisol_{m[1]}"] = m[4] or "u32", inputs
    return found


# Numbers of the header that a constant of a crate says: the header's name, the crate, the constant. Beside these FLOATS, WHOLES and SAMPLES of each
# `exports_NAME` are the header's NAME_FLOATS, NAME_WHOLES and NAME_SAMPLES
CONSTANTS = [
    ("COUNTS", "boundary", "COUNTS"),
    ("BANK", "wavetable", "BANK_SIZE"),
    ("TABLE", "wavetable", "PART_SIZE"),
    ("SCORE_MICROVOLTS", "exports_score", "MICROVOLTS"),
    ("SCORE_LONGEST", "score_writer", "LONGEST"),
    *((mark, "answer", f"TOLD_{mark}") for mark in ("CLEARED", "NOTFINITE", "LOST", "CLEAN", "STEERED")),
]
# and that another place says: the text with the number
SAID = [
    ("GATE_ISSUE_1", "common", r"\bconst GATE_THRESHOLD_V: f64 = ([\d.]+);"),
    ("GATE_ISSUE_2", "common", r"\bconst LOW_GATE_THRESHOLD_V: f64 = ([\d.]+);"),
    ("SCORE_TEXT", "score", r"\bif (\d+) < text\.len\(\)"),
    *((f"OSC_{osc.upper()}", "exports_score", rf"\bfn osc_number\b(?s:.*?)\bOsc::{osc} => (\d+)") for osc in ("Vco", "Lfo", "Supersaw", "Formant")),
]
# Numbers that no one place of the crates says: refusals, and what is enough for a string at every rate and for every tick of noise
NOWHERE = r"BAD_\w+|SHORT_LINE|SHORT_TEXT|FEW_DRAWS|LONG_SCORE|OUT_OF_RANGE|KARPLUS_STRONG_(?:LINE|DRAWS)|NOISE_GENERATOR_DRAWS"


def constant(sources, crate, name):
    """The number that a constant of a crate is, a sum or product of numbers and constants, or None."""
    m = re.search(rf"\bconst {name}: u\w+ = ([^;]+);", sources.get(crate, ""))
    if not m:
        return None
    numbers = []
    for word in re.split(r"\s*([+*])\s*", m[1].strip()):
        if word.isdigit() or word in "+*":
            numbers.append(word)
        else:
            owner, _, other = word.rpartition("::")
            value = constant(sources, owner if owner in sources else crate, other)
            if value is None:
                return None
            numbers.append(str(value))
    return eval("".join(numbers))  # digits, + and * alone


def said(files):
    """The numbers of the header as the crates say them, {name: every number that is said}."""
    sources = {}
    for path, text in files.items():
        if re.match(r"crates/\w+/src/.*\.rt$", path):
            crate = path.split("/")[1]
            sources[crate] = sources.get(crate, "") + blanked(path, text)
    found = {name: set(re.findall(place, sources[crate])) for name, crate, place in SAID}
    exported = [(f"{crate.removeprefix('exports_').upper()}_{part}", crate, part)
                for crate in sources if crate.startswith("exports_") for part in ("FLOATS", "WHOLES", "SAMPLES")]
    for name, crate, word in CONSTANTS + exported:
        number = constant(sources, crate, word)
        if number is not None:
            found[name] = {str(number)}
    return found


def wrong_numbers(files):
    """The header's numbers that are others than the crates'."""
    text = re.sub(r"/\*.*?\*/", "", files[HEADER], flags=re.S)
    given = dict(re.findall(r"\bGRUTTISOL_(\w+)(?: +| = )(\d+(?:\.\d+)?)", text))
    crates = said(files)
    for name in sorted(given.keys() | crates.keys()):
        if not re.fullmatch(NOWHERE, name) and crates.get(name) != {given.get(name)}:
            yield f"{HEADER}: GRUTTISOL_{name} is {given.get(name)}, and the crates say {sorted(crates.get(name, []))}"


def differences(files):
    """Every exported function is in the header and in the safe crate, with its types and order, and nothing else is; the header's numbers are the crates'."""
    yield from wrong_numbers(files)
    crates = exported(files)
    for place, declared in [(HEADER, in_header(files[HEADER])), (HOST, in_host(files))]:
        for name in sorted(crates.keys() | declared.keys()):
            if crates.get(name) != declared.get(name):
                yield f"{place}: {name} is {declared.get(name)}, exported {crates.get(name)}"
    for path, text in files.items():
        foreign = re.search(r"extern\s+\"C\"", blanked(path, text)) if path.startswith("host/") and path.endswith(".rs") else None
        if foreign and path not in (HOST + "exported.rs", HOST + "lent.rs"):
            yield f"{path}: declares functions of C itself"
