"""Tests that what the table of rules in docs/PROMISES.md names is there.

    python3 tools/check_table.py

The table names definitions as `CRATE/specs/FILE.antt: NAME, NAME`, functions and types as `CRATE::MODULE::NAME`, with clauses
behind them as `clause`, and tests as a word behind `tested:`. A definition has to stand in that file, a function or type in
the sources of that crate, a clause of that name in some contract of the crate, and a tool or table at that place. Whether the
definition says what the rule says is for a reader. Each name that is not there is printed, and last how many were looked for;
the status is 0 only if all are there.
"""
import os
import re
import sys

ROOT = os.path.join(os.path.dirname(os.path.abspath(__file__)), "..")
HEAD = "## Each rule, its definition and its contract"
DEFINITION = re.compile(r"`(\w+)/specs/(\w+)\.antt: ([^`]*)`")
ITEM = re.compile(r"`([a-z_]+)((?:::\w+)+)`((?:[ ,]*(?:ghost )?`[a-z_]+`)*)")
CLAUSE = re.compile(r"`([a-z_]+)`")
TOOL = re.compile(r"tools/\w+\.py")
TABLE = re.compile(r"cases/(\w+)")


def text_of(*path):
    with open(os.path.join(ROOT, *path), encoding="utf-8") as file:
        return file.read()


def sources_of(crate):
    """The text of a crate's sources; empty where there is no such crate."""
    top = os.path.join(ROOT, "crates", crate, "src")
    return "\n".join(text_of(at, name) for at, _, names in os.walk(top) for name in names)


def rows_of(document):
    """The lines of the table's section."""
    section = document[document.index(HEAD):]
    return [line for line in section.split("\n") if line.startswith("| ")]


def defines(text, name):
    """Whether the text defines the name, as a definition, a record, a case or a field."""
    return re.search(rf"(?m)^\s*(?:(?:pub|abbrev|unfoldable|record|data)\s+)*{re.escape(name)}\b", text) is not None


def missing_definitions(row):
    for crate, file, names in DEFINITION.findall(row):
        path = ("crates", crate, "specs", f"{file}.antt")
        if not os.path.isfile(os.path.join(ROOT, *path)):
            yield f"{crate}/specs/{file}.antt"
            continue
        text = text_of(*path)
        for name in re.split(r",\s*", names):
            yield None if defines(text, name) else f"{crate}/specs/{file}.antt: {name}"


def missing_items(row):
    for crate, path, clauses in ITEM.findall(row):
        sources = sources_of(crate)
        name = path.rsplit("::", 1)[-1]
        declared = rf"\b(?:fn|struct|enum|trait|const|type)\s+{name}\b|\buse [\w:]*\b{name}\b"
        yield None if re.search(declared, sources) else f"{crate}{path}"
        for clause in CLAUSE.findall(clauses):
            said = rf"\b(?:ensures|requires|ghost)\*?\s+{clause}\b"
            yield None if re.search(said, sources) else f"{crate}{path} {clause}"


def missing_tests(row):
    for tool in TOOL.findall(row):
        yield None if os.path.isfile(os.path.join(ROOT, tool)) else tool
    for table in TABLE.findall(row):
        yield None if os.path.isfile(os.path.join(ROOT, "crates", "cases", "data", f"{table}.txt")) else f"cases/{table}"


def main():
    rows = rows_of(text_of("docs", "PROMISES.md"))
    found = [name for row in rows for look in (missing_definitions, missing_items, missing_tests) for name in look(row)]
    missing = [name for name in found if name]
    for name in missing:
        print(f"not there: {name}")
    print(f"{len(found)} names in {len(rows)} rows, {len(missing)} not there")
    return 1 if missing else 0


if __name__ == "__main__":
    sys.exit(main())
