#!/usr/bin/env python3
"""Checks that every name in the tables of docs/RULES.md is there.

    python3 tools/check_rules.py

A table of rules has the columns Rule, Definition, Theorem, Code and Shown by. In the last four each piece in backticks is one of

    CRATE File.name       a definition of crates/CRATE/specs/File.antt
    CRATE name            a public function of crates/CRATE/src, or one of its tests
    CRATE name.clause     a clause of such a function, by the name behind `ensures`
    CRATE Type::name      a method of a type there
    CRATE name.edit       a file of crates/CRATE/must-fail
    PATH                  a file of examples/ or tools/

Each rule has a definition and a code. Its theorem is a name, or the word `contract`: then the contract of the code says that it does what the definition
says; or `tested`: then no theorem does, and something has to show it. It prints each row that is otherwise, and ends with status 1 if there is one.
"""
import functools
import pathlib
import re
import sys

ROOT = pathlib.Path(__file__).resolve().parent.parent
COLUMNS = ["Rule", "Definition", "Theorem", "Code", "Shown by"]


@functools.cache
def sources_of(crate):
    return [path.read_text(encoding="utf-8") for path in sorted((ROOT / "crates" / crate / "src").glob("*.rt"))]


@functools.cache
def specs_of(crate, name):
    path = ROOT / "crates" / crate / "specs" / f"{name}.antt"
    return path.read_text(encoding="utf-8") if path.exists() else ""


def is_defined(crate, file, name):
    return re.search(rf"^ *(?:[a-z]+ )*pub (?:[a-z]+ )*{re.escape(name)}(?=[ :(]|$)", specs_of(crate, file), re.M) is not None


def heads_of(text, name):
    """What stands from a function's name to its body, for each function of this name."""
    for found in re.finditer(rf"^ *(?:pub )?(?:const )?fn {re.escape(name)}\b", text, re.M):
        end = re.compile(r"^ *\{|^ *(?:pub )?(?:const )?fn ", re.M).search(text, found.end())
        yield text[found.start() : end.start() if end else len(text)]


def is_function(crate, name):
    public = re.compile(rf"^ *pub fn {re.escape(name)}\b", re.M)
    test = re.compile(rf"#\[test\]\s+(?:#\[[^\n]*\]\s+)*fn {re.escape(name)}\b")
    return any(public.search(text) or test.search(text) for text in sources_of(crate))


def is_clause(crate, name, clause):
    heads = (head for text in sources_of(crate) for head in heads_of(text, name))
    return any(re.search(rf"\bensures {re.escape(clause)} \{{", head) for head in heads)


def is_method(crate, kind, name):
    blocks = (block for text in sources_of(crate) for block in re.findall(rf"^(?:impl|pub trait)\b[^\n{{]*\b{re.escape(kind)}\b.*?^\}}", text, re.M | re.S))
    return any(next(heads_of(block, name), None) is not None for block in blocks)


def is_there(piece):
    crate, _, name = piece.partition(" ")
    if not name:
        return piece.startswith(("examples/", "tools/")) and (ROOT / piece).exists()
    if not (ROOT / "crates" / crate).is_dir():
        return False
    if name.endswith(".edit"):
        return (ROOT / "crates" / crate / "must-fail" / name).exists()
    if "::" in name:
        return is_method(crate, *name.split("::", 1))
    file, _, inner = name.partition(".")
    if not inner:
        return is_function(crate, name)
    return is_defined(crate, file, inner) if file[0].isupper() else is_clause(crate, file, inner)


def faults_of(cells):
    rule, definition, theorem, code, shown = cells
    if not rule:
        yield "no rule"
    for column, cell in zip(COLUMNS[1:], cells[1:]):
        for piece in re.findall(r"`([^`]+)`", cell):
            if not is_there(piece):
                yield f"{column}: {piece} is not there"
    for column, cell in (("Definition", definition), ("Code", code)):
        if "`" not in cell:
            yield f"{column}: nothing is named"
    if "`" not in theorem and theorem not in ("contract", "tested"):
        yield "Theorem: neither a name nor `contract` nor `tested`"
    if theorem == "tested" and "`" not in shown:
        yield "Shown by: nothing is named, and no theorem"


def rows_of(text):
    """The rows of the tables of rules, with the numbers of their lines."""
    is_rules = False
    for number, line in enumerate(text.splitlines(), 1):
        if not line.startswith("|"):
            is_rules = False
            continue
        cells = [cell.strip() for cell in line.strip("|").split("|")]
        if cells == COLUMNS:
            is_rules = True
        elif is_rules and not set(line) <= set("|-"):
            yield number, cells


def main():
    rows = list(rows_of((ROOT / "docs" / "RULES.md").read_text(encoding="utf-8")))
    faults = 0
    for number, cells in rows:
        found = list(faults_of(cells)) if len(cells) == len(COLUMNS) else [f"{len(cells)} cells in place of {len(COLUMNS)}"]
        for fault in found:
            print(f"docs/RULES.md:{number}: {fault}")
        faults += len(found)
    print(f"{len(rows)} rules, {faults} faults")
    return 1 if faults or not rows else 0


if __name__ == "__main__":
    sys.exit(main())
