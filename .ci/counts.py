#!/usr/bin/env python3
"""Counts of what must be read and believed, as the table of docs/PROOFS.md has them.

    counts.py                  prints the table
    counts.py --write [LOG]    puts it into docs/PROOFS.md, between its two marks
    counts.py --held LOG       says whether the page has the axioms that LOG names

Columns: lines of definitions and of statements in specs/, without blank lines, comments, `use` and `pub mod`; a statement file is
Promises, Settled or Examples, and all of the crate examples. Public functions in src/; those of them that an instance of `Settles` is
stated for, and of the static library those whose library's functions have one; edits that the prover must refuse. Axioms of a program are those that
the prover named when it proved it, in what `rt ci` printed (LOG); where it has not, as where it kept the proof, those of the page.
"""
import pathlib
import re
import sys

sys.dont_write_bytecode = True  # no folder of compiled files beside this one
import contracts
import handed
import statements

ROOT = pathlib.Path(__file__).resolve().parent.parent
PAGE = "docs/PROOFS.md"
BEGIN, END = "<!-- counts -->\n", "<!-- end of counts -->"


def lines(text):
    """How many lines of a specification say something."""
    text = re.sub(r"^((?:pub )?use )[^{\n]*\{[^}]*\}", r"\1", text, flags=re.M)
    return sum(not re.match(r"\s*(--.*|use .*|pub mod .*)?$", row) for row in text.splitlines())


def settled(text):
    """How many functions have an instance of Settles: fields of the record Settled."""
    record = re.search(r"^pub record Settled .*\n((?:  .*\n|\n(?=  ))*)", text, re.M)
    return len(re.findall(r"^  pub \S+ :", record[1], re.M)) if record else 0


def crate_counts(files):
    """For each crate: definitions, statements, public functions, settled ones, edits."""
    counts = {}
    for path, text in files.items():
        match = re.fullmatch(r"crates/(\w+)/(specs|src|must-fail)/[\w-]+\.(?:antt|rt|edit)", path)
        if not match:
            continue
        crate, folder = match.groups()
        row = counts.setdefault(crate, [0] * 5)
        if folder == "specs":
            row[statements.is_statement_file(path)] += lines(text)
            row[3] += settled(text)
        elif folder == "must-fail":
            row[4] += 1
    for _, crate, _ in contracts.public(files):
        counts[crate][2] += 1
        counts[crate][3] += crate == handed.CRATE
    return counts


def axioms(files, crate, log=""):
    """What the prover named as a program's axioms, or the page does."""
    part = re.search(rf"^== {crate}\n((?:.*\n)*?)rt: {crate} proved$", log, re.M)
    if part:
        return ", ".join(re.findall(r"^axioms \S+: (.*) \(\d+ of the \d+ declared\)$", part[1], re.M)) or "none"
    said = re.search(rf"^\| `{crate}` \| (.*) \|$", files.get(PAGE, ""), re.M)
    return said[1] if said else "not known"


def programs(files):
    return sorted(path.split("/")[1] for path in files if re.fullmatch(r"crates/\w+/src/main\.rt", path))


def tables(files, log=""):
    counts = crate_counts(files)
    rows = ["| crate | definitions | statements | public functions | of them settled | edits that must fail |"]
    rows.append("|---|---|---|---|---|---|")
    rows += [f"| {crate} | " + " | ".join(map(str, counts[crate])) + " |" for crate in sorted(counts)]
    rows.append("| all | " + " | ".join(str(sum(column)) for column in zip(*counts.values())) + " |")
    rows += ["", "| program | its axioms |", "|---|---|"]
    rows += [f"| `{crate}` | {axioms(files, crate, log)} |" for crate in programs(files)]
    return "\n".join(rows) + "\n"


def placed(page, table):
    """The page with the table between its two marks."""
    return page[: page.index(BEGIN) + len(BEGIN)] + table + page[page.index(END) :]


def main(word="", log=""):
    paths = [path for part in ("specs", "src", "must-fail") for path in sorted(ROOT.glob(f"crates/*/{part}/*")) if path.is_file()]
    files = {str(path.relative_to(ROOT)): path.read_text() for path in paths}
    files[PAGE] = (ROOT / PAGE).read_text()
    said = pathlib.Path(log).read_text(errors="replace") if log else ""
    table = tables(files, said)
    if word == "--write":
        (ROOT / PAGE).write_text(placed(files[PAGE], table))
    elif word == "--held":
        wrong = [crate for crate in programs(files) if axioms(files, crate) != axioms(files, crate, said)]
        print(*(f"{PAGE}: {crate} has the axioms {axioms(files, crate, said)}\n" for crate in wrong), sep="", end="")
        return bool(wrong)
    else:
        print(table, end="")
    return False


if __name__ == "__main__":
    sys.exit(main(*sys.argv[1:]))
