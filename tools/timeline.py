#!/usr/bin/env python3
"""Draws a script as a timeline: for each of its lines the copies of one leader shard, how many messages are in flight
in its shard world, and the copies of its followers.

    python3 tools/timeline.py SCRIPT [--index C/I] [--shard N] [--program COMMAND] > FILE.svg

The index is the first one that the script creates, if none is named, the shard is 0, and the program is `./ccr replay`
at the top of this repository. What is drawn comes from the program alone. For each line it is run once on the lines up to
there, with `status` of the leader and of its followers behind them, and then `drop` of the first message until there is
none: these are counted. So nothing that is asked for has a part in what a later line does. A script of n lines takes n runs.

A bar has a cell a sequence number. Dark cells are those up to the global checkpoint that the copy knows, light ones those up
to its local checkpoint. `+2` behind a bar says that the copy holds two operations more than that, beyond a gap.
"""
import argparse
import html
import json
import pathlib
import re
import shlex
import subprocess
import sys

ROOT = pathlib.Path(__file__).resolve().parent.parent
MOST_MESSAGES = 100
ROW, TOP, LINE_WIDTH, MESSAGES_WIDTH = 26, 54, 250, 110
SHOWN_FIELDS = ("name", "id", "seq", "copy", "at", "write", "epoch", "now", "shard")
COPY = re.compile(r"(\*?)(\d+):(-?\d+):(-?\d+):(\d+):(\d+)")


def answers_of(program, lines):
    """The answers of the program to these lines, by line number."""
    script = "".join(line + "\n" for line in lines).encode()
    done = subprocess.run(program, input=script, capture_output=True, check=False)
    if done.returncode not in (0, 2):
        sys.exit(f"timeline: {shlex.join(program)} ended with {done.returncode}: {done.stderr.decode()}")
    split = (answer.split(" ", 1) for answer in done.stdout.decode().splitlines())
    return {int(number): text for number, text in split}


def command_of(line):
    try:
        value = json.loads(line)
    except ValueError:
        return {}
    return value if isinstance(value, dict) else {}


def followers_of(commands, answers, leader):
    """The followers of an index, in the order in which they were made."""
    found = []
    for number, command in enumerate(commands, 1):
        answer = answers.get(number, "")
        if command.get("op") == "follow" and command.get("leader") == leader and answer == "ok":
            found.append(command["index"])
        if command.get("op") == "create" and command.get("index") == leader:
            found += re.findall(r"followed=(\S+)", answer)
    return found


def shard_of(status, shard):
    """The words of one shard of a status; none where the index isn't there."""
    if not status.startswith("status "):
        return None
    text = status.removeprefix("status ").split(" ;")[shard]
    return dict(word.split("=", 1) for word in text.split())


def copies_of(words):
    keys = ("is_primary", "number", "local", "known", "floor", "held")
    found = [dict(zip(keys, copy)) for copy in COPY.findall(words["copies"])]
    return [{k: v == "*" if k == "is_primary" else int(v) for k, v in copy.items()} for copy in found]


def states_of(program, lines, indices, shard):
    """For each line: the shard of each index behind it, and how many messages are in flight."""
    drop = json.dumps({"op": "drop", "index": indices[0], "at": 0, "shard": shard})
    asked = [json.dumps({"op": "status", "index": index}) for index in indices] + [drop] * MOST_MESSAGES
    for count in range(1, len(lines) + 1):
        answers = answers_of(program, lines[:count] + asked)
        told = [answers.get(count + 1 + place, "") for place in range(len(asked))]
        drops = told[len(indices):]
        messages = next((n for n, text in enumerate(drops) if text != "ok"), len(drops))
        yield [shard_of(status, shard) for status in told[: len(indices)]], messages


def title_of(command, leader, several):
    words = [command.get("op", "?")]
    if several and command.get("index", leader) != leader:
        words.append(command["index"])
    words += [f"{name} {command[name]}" if name not in ("name", "id") else str(command[name]) for name in SHOWN_FIELDS if name in command]
    return " ".join(words)


class Drawing:
    def __init__(self):
        self.parts = []

    def text(self, x, y, text, kind=""):
        self.parts.append(f'<text x="{x}" y="{y}" class="{kind}">{html.escape(text)}</text>')

    def box(self, x, y, width, height, kind):
        self.parts.append(f'<rect x="{x}" y="{y}" width="{width}" height="{height}" class="{kind}"/>')

    def copy(self, x, y, copy, cell, cells):
        """A copy at this place: its number, its bar, and what it holds beyond a gap."""
        self.text(x, y + 12, ("*" if copy["is_primary"] else "") + str(copy["number"]), "small")
        self.box(x + 18, y + 3, cell * cells, 11, "none")
        self.box(x + 18, y + 3, cell * (copy["local"] + 1), 11, "own")
        self.box(x + 18, y + 3, cell * (min(copy["known"], copy["local"]) + 1), 11, "known")
        beyond = copy["held"] - copy["local"] - 1
        if beyond > 0:
            self.text(x + 20 + cell * cells, y + 12, f"+{beyond}", "small")

    def svg(self, width, height):
        style = (
            "text{font:12px sans-serif;fill:#222}.small{font-size:11px}.head{font-weight:bold}.refused{fill:#b00020}.quiet{fill:#777}"
            ".none{fill:#eee}.own{fill:#8fb8de}.known{fill:#2b5f91}.message{fill:#e0a030}.stripe{fill:#f7f7f7}.paper{fill:#fff}"
        )
        head = f'<svg xmlns="http://www.w3.org/2000/svg" width="{width}" height="{height}" viewBox="0 0 {width} {height}">'
        return "\n".join([head, f"<style>{style}</style>", f'<rect width="{width}" height="{height}" class="paper"/>', *self.parts, "</svg>", ""])


def draw(lines, commands, answers, indices, states):
    copies = [[copies_of(words) if words else [] for words in shards] for shards, _ in states]
    cells = max([copy["held"] for row in copies for side in row for copy in side] + [copy["local"] + 1 for row in copies for side in row for copy in side] + [1])
    cell = max(2, min(8, 64 // cells))
    copy_width = 18 + cell * cells + 24
    widths = [max([len(row[place]) for row in copies] + [1]) * copy_width + (0 if place == 0 else 66) for place in range(len(indices))]
    lefts, left = [], LINE_WIDTH
    for place, width in enumerate(widths):
        lefts.append(left)
        left += max(width, 7 * len(indices[place]) + 10) + (MESSAGES_WIDTH if place == 0 else 12)
    flight = lefts[0] + max(widths[0], 7 * len(indices[0]) + 10)
    drawing = Drawing()
    drawing.text(8, 22, "line", "head")
    for place, index in enumerate(indices):
        drawing.text(lefts[place], 22, index, "head")
        drawing.text(lefts[place], 38, "leader copies" if place == 0 else "follower copies", "small quiet")
    drawing.text(flight, 22, "in flight", "head")
    for place, (shards, messages) in enumerate(states):
        y = TOP + ROW * place
        if place % 2 == 0:
            drawing.box(0, y - 5, left, ROW, "stripe")
        refused = answers.get(place + 1, "").startswith(("refused", "bad"))
        drawing.text(8, y + 12, f"{place + 1}  {title_of(commands[place], indices[0], len(indices) > 2)}", "refused" if refused else "")
        for number in range(min(messages, 6)):
            drawing.box(flight + 14 * number, y + 4, 10, 8, "message")
        if messages > 6:
            drawing.text(flight + 86, y + 12, str(messages), "small")
        for side, words in enumerate(shards):
            if words is None:
                continue
            x = lefts[side]
            if side > 0:
                drawing.text(x, y + 12, words["phase"], "small" + (" refused" if words["phase"] in ("missing", "history") else " quiet"))
                x += 66
            for at, copy in enumerate(copies[place][side]):
                drawing.copy(x + copy_width * at, y, copy, cell, cells)
    return drawing.svg(left + 8, TOP + ROW * len(states) + 6)


def main():
    parser = argparse.ArgumentParser(description=__doc__, formatter_class=argparse.RawDescriptionHelpFormatter)
    parser.add_argument("script", type=pathlib.Path)
    parser.add_argument("--index", help="the leader index, as CLUSTER/INDEX")
    parser.add_argument("--shard", type=int, default=0)
    parser.add_argument("--program", default=f"{shlex.quote(str(ROOT / 'ccr'))} replay")
    given = parser.parse_args()
    program = shlex.split(given.program)
    lines = given.script.read_text(encoding="utf-8").splitlines()
    commands = [command_of(line) for line in lines]
    answers = answers_of(program, lines)
    leader = given.index or next((c["index"] for c in commands if c.get("op") == "create"), None)
    if leader is None:
        sys.exit("timeline: the script creates no index")
    indices = [leader] + followers_of(commands, answers, leader)
    states = list(states_of(program, lines, indices, given.shard))
    sys.stdout.write(draw(lines, commands, answers, indices, states))


if __name__ == "__main__":
    main()
