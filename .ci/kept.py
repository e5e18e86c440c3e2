"""Whether host/tools/native takes what it kept only while all that it was made from is the same.

The tool is run over a repository of four small crates, with a kit that proves nothing and whose programs are the sources, joined.
"""
import contextlib
import os
import pathlib
import shutil
import subprocess
import tempfile

TOOL = "host/tools/native"
BY_FUNCTION = "host/tools/by_function"
TARGET = "x86_64-unknown-linux-gnu"

RT = """#!/bin/sh
kit=${0%/bin/rt}
case $1 in
doc) echo "$kit/START-HERE.md" ;;
version) cat "$kit/KIT-ID" ;;
run)
    echo "$*" >>"$kit/asked"
    if grep -q wrong ../*/src/*; then exit 1; fi
    mkdir -p out
    cat ../*/src/* >out/high.$$
    mv -f out/high.$$ out/high
    if [ -e "$kit/meddles" ]; then mv "$kit/meddles" ../low/src/lib.rt; fi
    echo "rt: running out/high; to give it other input, run that file yourself" >&2
    exit 7
    ;;
esac
"""
REPOSITORY = {
    "kit/bin/rt": RT,
    "kit/KIT-ID": "kit 1\n",
    "crates.txt": "low:\nmiddle: low\nhigh status=7: middle\nother:\n",
    "crates/low/src/lib.rt": "low\n",
    "crates/middle/src/lib.rt": "middle\n",
    "crates/high/src/main.rt": "high\n",
    "crates/other/src/lib.rt": "other\n",
    BY_FUNCTION: "by function\n",
}
# what is written over it, one after the other, and whether the program must be built anew then
CHANGES = [
    ("crates/high/must-fail/a.edit", "old: a\n", False),
    ("crates/other/proofs/A.antt", "a\n", False),
    ("crates/high/src/main.rt", "high again\n", True),
    ("crates/high/specs/A.antt", "a\n", True),
    ("crates/high/proofs/f/Proof.antt", "f\n", True),
    ("crates/high/stdin", "a\n", True),
    ("crates/middle/proofs/f/Proof.antt", "f\n", True),
    ("crates/low/src/lib.rt", "low again\n", True),
    ("crates/low/specs/A.antt", "a\n", True),
    ("crates.txt", "low:\nmiddle: low\nhigh status=7: middle low\nother:\n", True),
    (BY_FUNCTION, "by function again\n", True),
    ("kit/KIT-ID", "kit 2\n", True),
]


@contextlib.contextmanager
def repository(tool):
    """A repository with this tool, as a function that writes a file of it."""
    with tempfile.TemporaryDirectory() as folder:
        def write(path, text):
            file = pathlib.Path(folder, path)
            file.parent.mkdir(parents=True, exist_ok=True)
            file.write_text(text)
            file.chmod(0o755)
            return file
        for path, text in {**REPOSITORY, TOOL: tool}.items():
            write(path, text)
        yield write


def differences(files):
    with repository(files[TOOL]) as write:
        asked, out = write("kit/asked", ""), write("out/high", "")
        root = asked.parent.parent
        environment = {**os.environ, "PATH": f"{root}/kit/bin:{os.environ['PATH']}", "LC_ALL": "C"}
        environment.pop("GRUTTISOL_PROVED", None)

        def start(target):
            return subprocess.Popen([root / TOOL, "high", out, target], env=environment, stdout=subprocess.PIPE, stderr=subprocess.STDOUT, text=True)

        def built(target=TARGET):
            """Whether it was built and not taken; None where the tool failed."""
            asked.write_text("")
            out.unlink(missing_ok=True)
            run = start(target)
            run.communicate()
            return None if run.returncode else asked.read_text() != ""

        def held(when, must):
            """What is wrong after a change, and with a second run after it."""
            found = built(), out.exists() and out.read_text(), built(), out.exists() and out.read_text()
            sources = "".join(file.read_text() for file in sorted(root.glob("crates/*/src/*")))
            if found != (must, sources, False, sources):
                yield f"{TOOL}: {when} built, and again: {found}"
            kept = [file.name for file in root.glob(f"target/native/{TARGET}/[!.]*")]
            if len(kept) != 1:
                yield f"{TOOL}: {when} kept: {kept}"

        write(f"target/native/{TARGET}/.high.1", "what a killed run left")
        yield from held("from nothing", True)
        for path, text, must in CHANGES:
            write(path, text)
            yield from held(f"after {path}", must)
        write(TOOL, files[TOOL] + "\n")
        yield from held(f"after {TOOL}", True)
        if built("x86_64-other-linux-gnu") is not True:
            yield f"{TOOL}: another target isn't built"
        for target in "x86_64-pc-windows-msvc", "x86_64-apple-darwin", "aarch64-unknown-linux-gnu", "x86_64-unknown-linux-gnux32", "../linux-gnu":
            if built(target) is not None or out.exists():
                yield f"{TOOL}: {target} isn't refused"
        # a file is changed while it is built, and changed back
        low = (root / "crates/low/src/lib.rt").read_text()
        write("crates/low/src/lib.rt", "low for once\n")
        write("kit/meddles", "low meanwhile\n")
        built()
        write("crates/low/src/lib.rt", "low for once\n")
        yield from held("after a change while it was built", True)
        # what isn't proved gives nothing, and leaves what is kept
        write("crates/low/src/lib.rt", "wrong\n")
        if built() is not None or out.exists():
            yield f"{TOOL}: gives what isn't proved"
        write("crates/low/src/lib.rt", low)
        # two at once
        runs = [start(TARGET), start(TARGET)]
        said = [run.communicate()[0] for run in runs]
        if any(run.returncode for run in runs):
            yield f"{TOOL}: two at once: {said}"
        yield from held("after two at once", False)
        shutil.rmtree(root / "target")
        yield from held("without target/", True)
        # what rt ci left counts where it left it, and where it is asked for alone
        for there, asked_for, must in [(True, "1", None), (True, "0", True), (False, "1", True)]:
            shutil.rmtree(root / "target")
            for crate in "low", "middle":
                write(f"crates/{crate}/out/rlib/{crate}.rlib/format", "")
                stamp = root / "crates" / crate / "out/rlib/stamp"
                stamp.unlink(missing_ok=True)
                if not there:
                    stamp.write_text("")
            environment["GRUTTISOL_PROVED"] = asked_for
            asked.write_text("")
            start(TARGET).communicate()
            if (asked.read_text() != "") != bool(must):
                yield f"{TOOL}: with GRUTTISOL_PROVED={asked_for}, and libraries of rt ci's {there}, rt was asked: {asked.read_text()!r}"
