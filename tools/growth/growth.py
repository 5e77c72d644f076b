#!/usr/bin/env python3
"""Measures how the time and the memory of a run grow with the length of its script.

    python3 tools/growth/growth.py [--program PATH] [--runs N] [--seconds N] [--limit F] [ROW..]
    python3 tools/growth/growth.py --print ROW N

Each row makes two scripts, the second ten times as long as the first, and runs PROGRAM with the word
`replay` on each: where none is named, the one that ./ccr has built in this checkout. README.md beside
this file says what the columns mean. It ends with status 1 where a row is over the limit, or does not do
what it is there for. With --print it writes the script of a row at length N. The rows count:

"""
import argparse
import json
import os
import pathlib
import resource
import sys
import tempfile
import typing

ROOT = pathlib.Path(__file__).resolve().parent.parent.parent

# What ./ccr builds and runs. It is run itself, since ./ccr first looks for changes, which takes time.
BUILT = ROOT / "crates" / "ccr_prog" / "out" / "ccr_prog"

# What a script that is ten times as long may take: twelve times as much, of time and of memory.
LIMIT = 12.0

# The greatest value that a parameter which counts may have.
MANY = 2**31 - 1

LEADER, FOLLOWER = "a/l", "b/f"


def line(op, **fields):
    """A line of a script."""
    return json.dumps({"op": op, **fields}, separators=(",", ":"))


def follow(**params):
    return line("follow", index=FOLLOWER, leader=LEADER, **({"params": params} if params else {}))


def leader(replicas=0):
    """Two clusters, and an index in the first."""
    yield line("cluster", name="a")
    yield line("cluster", name="b")
    yield line("create", index=LEADER, settings={"index.number_of_replicas": replicas})


def pair(replicas=0, **params):
    """A leader and its follower, which is settled, with as many replicas on either side."""
    yield from leader(replicas)
    yield follow(**params)
    yield line("settle")


def write(number, name=None):
    return line("write", index=LEADER, id=name or f"d{number}", source={"n": number})


def writes(count):
    return (write(number) for number in range(count))


def at_leader(op, copy=0):
    return line(op, index=LEADER, copy=copy)


def at_follower(op, **fields):
    return line(op, index=FOLLOWER, **fields)


def deliver(at=0, keep=False):
    return at_follower("deliver", at=at, keep=True) if keep else at_follower("deliver", at=at)


def merged_at_the_end():
    """Settled, with the lease renewed, so that a merge may drop what the follower has."""
    yield line("settle")
    yield at_follower("renew")
    yield line("settle")
    yield at_leader("flush")
    yield at_leader("merge")


def middles(count):
    """The place in the middle of a list that loses one each time, until two are left."""
    return ((count - 2 - taken) // 2 for taken in range(count - 2))


# Each row is a script of n of something. The first line of its text says what that is.


def written(n):
    """writes, each copied to a replica and acknowledged"""
    yield from leader(replicas=1)
    for number in range(n):
        yield write(number)
        yield line("replicate", index=LEADER, copy=1, seq=number)
        yield at_leader("ack", copy=1)


def conditional(n):
    """writes of one document, each on the condition of the one before, and a merge"""
    yield from leader()
    yield write(0, "x")
    for number in range(1, n):
        yield line("write", index=LEADER, id="x", source={"n": number}, if_seq_no=number - 1, if_primary_term=1)
    yield at_leader("flush")
    yield at_leader("merge")


def parts(n):
    """parts of a copy, one for each write, and a merge of all"""
    yield from pair()
    for number in range(n):
        yield write(number)
        yield at_leader("flush")
    yield from merged_at_the_end()


def merges(n):
    """writes over a quarter as many documents, with a flush and a merge behind each hundred"""
    yield from pair()
    for number in range(n):
        yield write(number, f"d{number % (n // 4 + 1)}")
        if number % 100 == 99:
            yield at_leader("flush")
            yield at_leader("merge")
    yield from merged_at_the_end()


def window(n):
    """reads of one operation outstanding at once, answered one by one"""
    yield from pair(max_read_request_operation_count=1, max_outstanding_read_requests=MANY)
    yield from writes(n)
    yield at_follower("wake")
    for _ in range(n):
        yield deliver()
    yield line("settle")


def lost(n):
    """reads lost from the middle of those outstanding, due again one by one"""
    yield from pair(max_read_request_operation_count=1, max_outstanding_read_requests=MANY)
    yield from writes(n)
    yield at_follower("wake")
    yield deliver()
    for place in middles(n):
        yield at_follower("lose", at=place)
    for turn in range(n - 2):
        yield line("clock", cluster="b", now=10 + turn)
    yield line("settle")


def batches(n):
    """batches of one operation outstanding at once, the even ones lost, the odd ones applied from the last on"""
    one_reply = {"max_read_request_operation_count": MANY, "max_read_request_size": "1gb"}
    yield from pair(max_write_request_operation_count=1, max_outstanding_write_requests=MANY, **one_reply)
    yield from writes(n)
    yield at_follower("wake")
    yield deliver()
    for batch in range(0, n, 2):
        yield at_follower("lose_write", write=batch)
    for batch in range(n - 1, 0, -2):
        yield at_follower("apply", write=batch)
    for batch in range(1, n, 2):
        yield at_follower("written", write=batch)
    yield line("settle")


def polls(n):
    """polls parked at once, each woken too early, and then answered by one write"""
    yield from pair(replicas=1)
    for number in range(n):
        yield at_follower("lose", at=0)
        yield line("clock", cluster="b", now=1000 * (number + 1))
        yield deliver()
    for number in range(n):
        yield at_follower("wake", at=number // 2)
    yield write(1)
    yield line("settle")


def leases(n):
    """renewals of a lease, each heard and answered, with the leader's clock moved and expiry tried"""
    yield from pair()
    for number in range(n):
        yield at_follower("renew")
        yield deliver()
        yield deliver()
        yield line("clock", cluster="a", now=number + 1)


def sessions(n):
    """sessions that a leader keeps, by a request for one that is heard again and again, closed at once"""
    yield from leader()
    yield from writes(10)
    yield follow()
    yield deliver()
    yield deliver()
    for _ in range(n):
        yield deliver(keep=True)
    yield line("clock", cluster="a", now=60_001)
    yield line("settle")


def resync(n):
    """operations that a copy takes from a new primary, in place of others that it drops"""
    yield from leader(replicas=2)
    yield from writes(n)
    for number in range(n):
        yield line("replicate", index=LEADER, copy=1, seq=number)
        if number % 2 == 1:
            yield line("replicate", index=LEADER, copy=2, seq=number)
    yield at_leader("promote", copy=1)
    yield at_leader("resync", copy=2)
    yield line("settle")


def new_copy(n):
    """operations that a new copy of a leader takes, and one of its follower"""
    yield from pair()
    yield from writes(n)
    yield line("settle")
    yield line("add_copy", index=LEADER)
    yield line("add_copy", index=FOLLOWER)
    yield line("settle")


def bootstrap(n):
    """operations that a follower begins with"""
    yield from leader()
    yield from writes(n)
    yield follow()
    yield line("settle")


def chunks(n):
    """operations that a follower begins with, in chunks of 16 bytes"""
    yield from leader()
    yield from writes(n)
    yield follow(chunk_size=16)
    yield line("settle")


def behind(n):
    """writes that a follower is behind when all is settled, and a search of both sides"""
    yield from pair()
    yield from writes(n)
    yield line("settle")
    yield line("search", index=LEADER, size=10)
    yield line("search", index=FOLLOWER, size=10)


def each_settled(n):
    """settles, each behind one write, with two copies on either side"""
    yield from pair(replicas=1)
    for number in range(n):
        yield write(number)
        yield line("settle")


def eight_copies(n):
    """writes that are settled with eight copies on either side"""
    yield from pair(replicas=7)
    for number in range(n):
        yield write(number, f"d{number % 100}")
    yield line("settle")


def repeated(n):
    """requests heard again and again, so as many answers in flight, which settling delivers"""
    yield from pair(max_read_request_operation_count=1)
    yield write(0)
    yield at_follower("wake")
    yield deliver()
    yield write(1)
    for _ in range(n):
        yield deliver(keep=True)
    yield line("settle")


def middle(n):
    """frames in flight, dropped from the middle of their list one by one"""
    yield from pair(max_read_request_operation_count=1, max_outstanding_read_requests=MANY)
    yield from writes(n)
    yield at_follower("wake")
    yield deliver()
    for place in middles(n):
        yield at_follower("drop", at=place)
    yield line("settle")


class Row(typing.NamedTuple):
    """A script, its two lengths, and how many of its answers are refusals."""

    make: typing.Callable[[int], typing.Iterator[str]]
    few: int = 20_000
    many: int = 200_000
    refusals: typing.Callable[[int], int] = lambda n: 0


ROWS = {
    "writes": Row(written),
    "conditional": Row(conditional),
    "parts": Row(parts),
    "merges": Row(merges),
    "window": Row(window),
    "lost": Row(lost),
    "batches": Row(batches),
    "polls": Row(polls, refusals=lambda n: n),
    "leases": Row(leases),
    "sessions": Row(sessions),
    "resync": Row(resync),
    "new-copy": Row(new_copy),
    "bootstrap": Row(bootstrap),
    "chunks": Row(chunks),
    "behind": Row(behind),
    "each-settled": Row(each_settled),
    "eight-copies": Row(eight_copies),
    "repeated": Row(repeated),
    "middle": Row(middle),
}


def run(program, script, answers, seconds):
    """Processor seconds, peak memory in megabytes, and the exit status of one run."""
    child = os.fork()
    if child == 0:
        try:
            os.dup2(os.open(script, os.O_RDONLY), 0)
            os.dup2(os.open(answers, os.O_WRONLY | os.O_CREAT | os.O_TRUNC, 0o644), 1)
            resource.setrlimit(resource.RLIMIT_CPU, (seconds, seconds + 5))
            resource.setrlimit(resource.RLIMIT_CORE, (0, 0))
            os.execv(program, [program, "replay"])
        finally:
            os._exit(127)
    _, status, used = os.wait4(child, 0)
    return used.ru_utime + used.ru_stime, used.ru_maxrss / 1024, os.waitstatus_to_exitcode(status)


def refusals(answers):
    """How many answers are refusals, and the first line that is none and ends a run."""
    refused, bad = 0, None
    with open(answers, encoding="utf-8") as lines:
        for text in lines:
            words = text.split(None, 2)
            if words[1:2] == ["refused"]:
                refused += 1
            elif words[1:2] == ["bad"] and bad is None:
                bad = text.strip()
    return refused, bad


class Failed(Exception):
    """A row that can't be measured, and why."""


def check(answers, length, wanted):
    """Fails where the answers to a script of this length are not what the row is there for."""
    refused, bad = refusals(answers)
    if bad is not None:
        raise Failed(f"at {length} a line is answered {bad!r}")
    if refused != wanted:
        raise Failed(f"at {length} there are {refused} refusals, and not {wanted}")


def measure(program, row, runs, seconds, folder):
    """The least processor seconds and the least peak memory at each length of a row, whose runs take turns."""
    script, answers = folder / "script", str(folder / "answers")
    for length in (row.few, row.many):
        with open(f"{script}-{length}", "w", encoding="utf-8") as file:
            file.writelines(text + "\n" for text in row.make(length))
    measured = {row.few: [], row.many: []}
    for turn in range(runs):
        for length, results in measured.items():
            time, peak, status = run(program, f"{script}-{length}", answers, seconds)
            if status == -24:
                raise Failed(f"at {length} it takes more than {seconds} seconds")
            if status != 0:
                raise Failed(f"at {length} it ends with status {status}")
            if turn == 0:
                check(answers, length, row.refusals(length))
            results.append((time, peak))
    return [tuple(map(min, zip(*results))) for results in measured.values()]


def compare(program, name, runs, seconds, folder, limit):
    """Prints the line of a row, and answers whether it is within the limit."""
    row = ROWS[name]
    try:
        (time, peak), (long_time, long_peak) = measure(program, row, runs, seconds, folder)
    except Failed as failed:
        print(f"{name:13} {failed}", flush=True)
        return False
    longer, larger = long_time / max(time, 0.001), long_peak / peak
    within = max(longer, larger) <= limit * row.many / row.few / 10
    print(
        f"{name:13} {row.few:>7} {row.many:>8} {time:>8.3f} {long_time:>8.3f} {longer:>7.1f}"
        f" {peak:>7.1f} {long_peak:>8.1f} {larger:>7.1f}  {'' if within else 'OVER'}".rstrip(),
        flush=True,
    )
    return within


def main():
    names = "\n".join(f"  {name:13} {row.make.__doc__}" for name, row in ROWS.items())
    reader = argparse.ArgumentParser(description=__doc__ + names, formatter_class=argparse.RawDescriptionHelpFormatter)
    reader.add_argument("rows", nargs="*", metavar="ROW")
    reader.add_argument("--program", default=str(BUILT))
    reader.add_argument("--runs", type=int, default=3)
    reader.add_argument("--seconds", type=int, default=120, help="processor seconds after which a run is ended")
    reader.add_argument("--limit", type=float, default=LIMIT, help="how much more ten times the length may take")
    reader.add_argument("--print", nargs=2, metavar=("ROW", "N"), dest="shown")
    words = reader.parse_args()
    unknown = [row for row in [*words.rows, *(words.shown or [])[:1]] if row not in ROWS]
    if unknown:
        reader.error(f"no row is called {unknown[0]}")
    if words.shown:
        sys.stdout.writelines(text + "\n" for text in ROWS[words.shown[0]].make(int(words.shown[1])))
        return 0
    program = os.path.abspath(words.program)
    if not os.access(program, os.X_OK):
        raise SystemExit(f"there is no program {program}: ./ccr builds it")
    with tempfile.TemporaryDirectory(prefix="growth-") as made:
        folder = pathlib.Path(made)
        print("row              few     many  seconds  seconds  growth      MB       MB  growth")
        within = [compare(program, row, words.runs, words.seconds, folder, words.limit) for row in words.rows or ROWS]
    print(f"{len(within)} rows, {within.count(False)} over {words.limit:g}-fold or not measured")
    return 0 if all(within) else 1


if __name__ == "__main__":
    sys.exit(main())
