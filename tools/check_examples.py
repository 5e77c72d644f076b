#!/usr/bin/env python3
"""Runs the scripts of examples/ and compares what the program answers with what stands beside them.

    python3 tools/check_examples.py [--program COMMAND]

The program is `./ccr replay` at the top of this repository, if none is named. For each examples/NAME.jsonl the answers have to
be examples/NAME.out, byte by byte. The tables of a page examples/NAME.md have to tell each line of the script once and in order,
in the column `Line` (a number, or two with a dash), and the answers of those lines, in the column `Answer`. It prints each
difference, and ends with status 1 if there is one.
"""
import argparse
import pathlib
import re
import shlex
import subprocess
import sys

ROOT = pathlib.Path(__file__).resolve().parent.parent
ROW = re.compile(r"^\| (\d+)(?:-(\d+))? \|.*$")


def output_of(program, script):
    with script.open("rb") as source:
        done = subprocess.run(program, stdin=source, capture_output=True, check=False)
    return done.returncode, done.stdout.decode()


def first_difference(wanted, found):
    for number, (left, right) in enumerate(zip(wanted, found), 1):
        if left != right:
            return f"answer {number}: wanted {left!r}, found {right!r}"
    return f"wanted {len(wanted)} answers, found {len(found)}"


def faults_of_page(page, answers):
    """What the tables of a page tell otherwise than these answers do."""
    behind = 0
    for line in page.read_text(encoding="utf-8").splitlines():
        row = ROW.match(line)
        if row is None:
            continue
        first, last = int(row[1]), int(row[2] or row[1])
        if first != behind + 1:
            yield f"line {first} stands behind line {behind}"
        behind = last
        for number in range(first, last + 1):
            # In a table a bar is escaped.
            if f"`{answers.get(number, '')}`" not in line.replace("\\|", "|"):
                yield f"the answer of line {number} is not told"
    if behind != len(answers):
        yield f"{behind} of {len(answers)} lines are told"


def faults_of(program, script):
    expected = script.with_suffix(".out")
    if not expected.exists():
        yield "it has no .out file"
        return
    wanted = expected.read_text(encoding="utf-8")
    status, found = output_of(program, script)
    if status != 0:
        yield f"the program ended with {status}"
    if found != wanted:
        yield first_difference(wanted.splitlines(), found.splitlines())
    page = script.with_suffix(".md")
    if page.exists():
        answers = {int(line.split(" ", 1)[0]): line for line in wanted.splitlines()}
        yield from faults_of_page(page, answers)


def main():
    parser = argparse.ArgumentParser(description=__doc__, formatter_class=argparse.RawDescriptionHelpFormatter)
    parser.add_argument("--program", default=f"{shlex.quote(str(ROOT / 'ccr'))} replay")
    program = shlex.split(parser.parse_args().program)
    scripts = sorted((ROOT / "examples").glob("*.jsonl"))
    faults = [(script.name, fault) for script in scripts for fault in faults_of(program, script)]
    for name, fault in faults:
        print(f"{name}: {fault}")
    print(f"{len(scripts)} scripts, {len(faults)} faults")
    return 1 if faults or not scripts else 0


if __name__ == "__main__":
    sys.exit(main())
