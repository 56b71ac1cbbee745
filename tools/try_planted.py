"""Tries the edits under planted/, which the gate leaves out: the prover has to refuse each.

    python3 tools/try_planted.py [CRATE..]

In a scratch copy of the last commit the edits of these crates, or of all, take the place of those in must-fail/, and
`rt must-fail` tries them. Printed are rt's lines, and last how many edits were refused, how many were not, and how many could
not be tried. The status is 0 only if all were refused. Each takes about as long as an edit of the gate.
"""
import argparse
import os
import re
import shutil
import subprocess
import sys
import tempfile

ROOT = os.path.join(os.path.dirname(os.path.abspath(__file__)), "..")
TOLD = re.compile(r"rt: must-fail (\S+\.edit): (refused|NOT REFUSED)")


def put_in_place(top, crate):
    """Has the crate's planted edits stand for those that the gate tries, and answers their names as rt writes them."""
    tried = os.path.join(top, "crates", crate, "must-fail")
    shutil.rmtree(tried, ignore_errors=True)
    shutil.move(os.path.join(top, "planted", crate), tried)
    return [f"{crate}/{name}" for name in sorted(os.listdir(tried))]


def told_of(top, crates):
    """What rt says of each edit, by its name; its lines are printed as they come."""
    told = {}
    command = ["rt", "must-fail", *crates]
    with subprocess.Popen(command, cwd=top, stdout=subprocess.PIPE, stderr=subprocess.STDOUT, text=True, errors="replace") as rt:
        for line in rt.stdout:
            print(line, end="", flush=True)
            if found := TOLD.match(line):
                told[found[1]] = found[2]
    return told


def main():
    there = sorted(os.listdir(os.path.join(ROOT, "planted")))
    options = argparse.ArgumentParser(description="Tries the edits under planted/.")
    options.add_argument("crates", nargs="*", metavar="CRATE", help=f"one of {', '.join(there)}; all if none is named")
    crates = sorted(set(options.parse_args().crates)) or there
    if not set(crates) <= set(there):
        options.error(f"only these crates have edits under planted/: {', '.join(there)}")
    with tempfile.TemporaryDirectory(prefix="planted") as folder:
        subprocess.run(["git", "clone", "--quiet", ROOT, folder], check=True)
        edits = [edit for crate in crates for edit in put_in_place(folder, crate)]
        told = told_of(folder, crates)
    kinds = [told.get(edit) for edit in edits]
    print(f"{kinds.count('refused')} refused, {kinds.count('NOT REFUSED')} not refused, {kinds.count(None)} could not be tried")
    return 0 if kinds.count("refused") == len(edits) else 1


if __name__ == "__main__":
    sys.exit(main())
