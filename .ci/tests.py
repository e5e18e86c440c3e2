#!/usr/bin/env python3
"""Runs a program of tests for cargo, as its runner, and adds a line 'PASSED FAILED IGNORED' to the file that GRUTTISOL_COUNTS names.

    tests.py PROGRAM WORD..

The counts are the harness's own: what it lists before any test runs, and what it writes to its log file as each ends. What tests
print is shown and counts for nothing. A test that is listed and never ended counts as failed, so a test that ends the program
early is no way to pass. The program isn't told where the counts go.
"""
import os
import re
import subprocess
import sys
import tempfile


def counts(program, words):
    """Runs the program; answers its status and how many tests passed, failed and were ignored."""
    environment = {name: value for name, value in os.environ.items() if not re.fullmatch(r"GRUTTISOL_COUNTS|CARGO_TARGET_\w+_RUNNER", name)}
    listed = subprocess.run([program, "--list", "--format", "terse"], env=environment, capture_output=True, text=True)
    tests = len(re.findall(r": test$", listed.stdout, re.M))
    with tempfile.TemporaryDirectory() as folder:
        log = os.path.join(folder, "log")
        status = subprocess.run([program, *words, "--logfile", log], env=environment).returncode
        said = open(log, errors="replace").read() if os.path.exists(log) else ""
    passed, failed, ignored = (len(re.findall(rf"^{word}\b", said, re.M)) for word in ("ok", "failed", "ignored"))
    failed = max(failed, tests - passed - ignored, int(status != 0 or listed.returncode != 0))
    return status, passed, failed, ignored


def main():
    status, passed, failed, ignored = counts(sys.argv[1], sys.argv[2:])
    with open(os.environ["GRUTTISOL_COUNTS"], "a") as file:
        file.write(f"{passed} {failed} {ignored}\n")
    return status or int(failed > 0)


if __name__ == "__main__":
    sys.exit(main())
