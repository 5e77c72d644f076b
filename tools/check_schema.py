#!/usr/bin/env python3
"""Checks docs/script.schema.json against lines of scripts.

It reads the scripts of examples/*.jsonl, each line of which the schema must accept, and
examples/schema-lines.txt, whose lines are 'good LINE' or 'bad LINE'. It prints each line that the schema
judges otherwise, and ends with status 1 if there is one. The validator below knows the keywords that the
schema uses and no others: an unknown one is an error.
"""
import json
import pathlib
import re
import sys

ROOT = pathlib.Path(__file__).resolve().parent.parent
NOTES = {"$schema", "$defs", "title", "description", "default"}
TYPES = {
    "object": lambda v: isinstance(v, dict),
    "array": lambda v: isinstance(v, list),
    "string": lambda v: isinstance(v, str),
    "boolean": lambda v: isinstance(v, bool),
    "integer": lambda v: isinstance(v, int) and not isinstance(v, bool),
}


def is_of_type(types, value):
    names = types if isinstance(types, list) else [types]
    return any(TYPES[name](value) for name in names)


def same(left, right):
    return type(left) is type(right) and left == right


def find(root, reference):
    part = root
    for name in reference.removeprefix("#/").split("/"):
        part = part[name]
    return part


def accepts_properties(root, schema, value):
    known = schema.get("properties", {})
    other = schema.get("additionalProperties", True)
    for name, member in value.items():
        rule = known.get(name, other)
        if rule is False or (rule is not True and not accepts(root, rule, member)):
            return False
    return True


def has_dependents(rules, value):
    return all(name not in value or all(n in value for n in needed) for name, needed in rules.items())


# What each keyword says of a value. A keyword on values of one type says nothing of others.
KEYWORDS = {
    "type": lambda root, s, v: is_of_type(s["type"], v),
    "const": lambda root, s, v: same(v, s["const"]),
    "enum": lambda root, s, v: any(same(v, item) for item in s["enum"]),
    "minimum": lambda root, s, v: not TYPES["integer"](v) or v >= s["minimum"],
    "maximum": lambda root, s, v: not TYPES["integer"](v) or v <= s["maximum"],
    "minLength": lambda root, s, v: not isinstance(v, str) or len(v) >= s["minLength"],
    "maxLength": lambda root, s, v: not isinstance(v, str) or len(v) <= s["maxLength"],
    "pattern": lambda root, s, v: not isinstance(v, str) or re.search(s["pattern"], v) is not None,
    "items": lambda root, s, v: not isinstance(v, list) or all(accepts(root, s["items"], i) for i in v),
    "required": lambda root, s, v: not isinstance(v, dict) or all(n in v for n in s["required"]),
    "minProperties": lambda root, s, v: not isinstance(v, dict) or len(v) >= s["minProperties"],
    "maxProperties": lambda root, s, v: not isinstance(v, dict) or len(v) <= s["maxProperties"],
    "properties": lambda root, s, v: not isinstance(v, dict) or accepts_properties(root, s, v),
    "additionalProperties": lambda root, s, v: not isinstance(v, dict) or accepts_properties(root, s, v),
    "dependentRequired": lambda root, s, v: not isinstance(v, dict) or has_dependents(s["dependentRequired"], v),
    "not": lambda root, s, v: not accepts(root, s["not"], v),
    "oneOf": lambda root, s, v: sum(accepts(root, part, v) for part in s["oneOf"]) == 1,
    "$ref": lambda root, s, v: accepts(root, find(root, s["$ref"]), v),
}


def accepts(root, schema, value):
    unknown = schema.keys() - KEYWORDS.keys() - NOTES
    if unknown:
        raise ValueError(f"keywords that this validator doesn't know: {sorted(unknown)}")
    return all(KEYWORDS[name](root, schema, value) for name in schema if name in KEYWORDS)


def reject_constant(name):
    raise ValueError(f"{name} is no JSON")


def is_accepted(schema, line):
    try:
        value = json.loads(line, parse_constant=reject_constant)
    except ValueError:
        return False
    return accepts(schema, schema, value)


def example_lines():
    for path in sorted((ROOT / "examples").glob("*.jsonl")):
        for number, line in enumerate(path.read_text(encoding="utf-8").splitlines(), 1):
            if line.strip(" \t"):
                yield f"{path.name}:{number}", True, line
    path = ROOT / "examples" / "schema-lines.txt"
    for number, line in enumerate(path.read_text(encoding="utf-8").splitlines(), 1):
        word, _, rest = line.partition(" ")
        if word not in ("good", "bad"):
            raise ValueError(f"{path.name}:{number}: neither good nor bad")
        yield f"{path.name}:{number}", word == "good", rest


def main():
    schema = json.loads((ROOT / "docs" / "script.schema.json").read_text(encoding="utf-8"))
    count = wrong = 0
    for place, wanted, line in example_lines():
        count += 1
        if is_accepted(schema, line) != wanted:
            wrong += 1
            print(f"{place}: {'not accepted' if wanted else 'accepted'}: {line}")
    print(f"{count} lines, {wrong} judged otherwise")
    return 1 if wrong or not count else 0


if __name__ == "__main__":
    sys.exit(main())
