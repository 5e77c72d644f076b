#!/usr/bin/env python3
"""Checks with which status the built program ends, and what it then says on standard error.

    python3 tools/check_statuses.py [--program COMMAND]

The program is `./ccr` at the top of this repository, if none is named. It is run over a short script, a bad line, a folder in
place of a script, a full device in place of an output, too little memory, and words that it doesn't know. For each the status, the text on
standard error, and the answers have to be those of the table in docs/PROVED.md. It prints each difference, and ends with status 1 if there is one.
"""
import argparse
import json
import os
import pathlib
import resource
import shlex
import subprocess
import sys

ROOT = pathlib.Path(__file__).resolve().parent.parent
CLUSTER = '{"op":"cluster","name":"a"}\n'
CREATE = '{"op":"create","index":"a/l","settings":{"index.number_of_replicas":0}}\n'
MEMORY = 64 << 20


def large_writes(count):
    """Writes whose sources together are far more than the memory that is given."""
    for number in range(count):
        source = {"t": "x" * 400_000}
        yield json.dumps({"op": "write", "index": "a/l", "id": str(number), "source": source}, separators=(",", ":")) + "\n"


def limited():
    resource.setrlimit(resource.RLIMIT_AS, (MEMORY, MEMORY))


def run(program, words, text=None, source=None, out=subprocess.PIPE, before=None):
    given = {"input": text.encode()} if source is None else {"stdin": source}
    done = subprocess.run([*program, *words], stdout=out, stderr=subprocess.PIPE, preexec_fn=before, check=False, **given)
    return done.returncode, done.stderr.decode(), (done.stdout or b"").decode()


def faults(program):
    """Each case with what was found otherwise than wanted."""
    usage = "usage: ccr replay | sample SEED WRITES\n"
    wanted = {
        "done": (0, "", "1 ok\n"),
        "bad line": (2, "", "1 ok\n2 bad NoOp\n"),
        "read fault": (3, "ccr: read failed\n", ""),
        "write fault": (4, "ccr: write failed\n", ""),
        "no words": (64, usage, ""),
        "words behind": (64, usage, ""),
        "sample": (0, "", "writes=12 deletes=3 live=3 same=yes\n"),
    }
    folder = os.open("/", os.O_RDONLY)
    with open("/dev/full", "wb") as full:
        found = {
            "done": run(program, ["replay"], CLUSTER),
            "bad line": run(program, ["replay"], CLUSTER + '{"name":"b"}\n'),
            "read fault": run(program, ["replay"], source=folder),
            "write fault": run(program, ["replay"], CLUSTER, out=full),
            "no words": run(program, [], CLUSTER),
            "words behind": run(program, ["replay", "all"], CLUSTER),
            "sample": run(program, ["sample", "5", "12"], ""),
        }
    os.close(folder)
    for name, want in wanted.items():
        if found[name] != want:
            yield f"{name}: wanted {want}, found {found[name]}"
    script = CLUSTER + CREATE + "".join(large_writes(400))
    status, complaint, answers = run(program, ["replay"], script, before=limited)
    if (status, complaint) != (5, "ccr: out of memory\n"):
        yield f"too little memory: wanted status 5, found {status} and {complaint!r}"
    lines = answers.splitlines(keepends=True)
    if not all(line.startswith(f"{number} ") and line.endswith("\n") for number, line in enumerate(lines, 1)):
        yield f"too little memory: {len(lines)} answers, not all whole"


def main():
    parser = argparse.ArgumentParser(description=__doc__, formatter_class=argparse.RawDescriptionHelpFormatter)
    parser.add_argument("--program", default=shlex.quote(str(ROOT / "ccr")))
    found = list(faults(shlex.split(parser.parse_args().program)))
    for fault in found:
        print(fault)
    print(f"8 runs, {len(found)} faults")
    return 1 if found else 0


if __name__ == "__main__":
    sys.exit(main())
