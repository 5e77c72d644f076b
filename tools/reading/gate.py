#!/usr/bin/env python3
"""Wrong rules that neither the worked values nor the journals of the gate notice.

    gate.py [--root CHECKOUT] [--only TEXT] [--jobs N] [--names]

Makes each change of rules.jsonl alone, in memory, and evaluates the worked values of ccr_model_values and then the journals of tools/journals, the
shortest first, up to the first that is not as it is told. Prints the rules that nothing notices, with the reason where they have one (`why`),
and `N rules, by worked values A, by journals B, explained C, unnoticed D` last; status 1 where a rule goes unnoticed without a reason, where
one with a reason is noticed, or where a change can't be made any more. --names prints for each rule what notices it first.
"""
import json, os, sys
sys.dont_write_bytecode = True
import journals as J
import worked
from build import Absent
from parse import Bad
from wrong import attempt, begun, changed

RULES = os.path.join(os.path.dirname(os.path.abspath(__file__)), 'rules.jsonl')


def noticed_by(root, rule, worlds):
    """['worked' or 'journal' or 'unread' or 'nothing', where]"""
    try:
        d = changed(root, rule)
        tests = worked.tests_of(d)
    except (Absent, Bad, SyntaxError) as e:
        return ['unread', str(e)[:200]]
    found = worked.first_false(tests)
    if found:
        return ['worked', found]
    for name, start, entries in worlds:
        stop = attempt(lambda: J.run(d, start, entries))
        if stop:
            return ['journal', '%s %s' % (name, stop if isinstance(stop, str) else 'entry %d' % stop[0])]
    return ['nothing', '']


def judged(root, rules, worlds, jobs):
    """(rule, what notices it) of each rule, as they come"""
    todo, running = list(rules), {}
    while todo or running:
        while todo and len(running) < jobs:
            rule = todo.pop(0)
            sys.stdout.flush()
            pid, read = begun(lambda: noticed_by(root, rule, worlds))
            running[pid] = (rule, read)
        pid, read = next((pid, read) for pid, (rule, read) in running.items())
        with os.fdopen(read) as f:
            text = f.read()
        os.waitpid(pid, 0)
        yield running.pop(pid)[0], json.loads(text) if text else ['journal', 'it ends the process']


def main(args):
    found, rest = J.options(args, ['--root', '--only', '--jobs'], ['--names', '--help'])
    if rest or '--help' in found:
        print(__doc__.strip())
        return 2
    root = found.get('--root', '.')
    with open(RULES, encoding='utf-8') as f:
        rules = [rule for rule in map(json.loads, f) if found.get('--only', '') in rule['says']]
    d = J.Definitions(root)
    wrong = worked.first_false(worked.tests_of(d))
    if wrong:
        raise Absent('a worked value is not as the definitions have it before any change: %s' % wrong)
    worlds = [(J.name_of(file), d.start(w), d.entries(w)[0]) for file in J.files_of([os.path.join(root, 'tools', 'journals')]) for _, w in J.worlds_of(file)]
    for name, start, entries in worlds:
        if J.run(d, start, entries):
            raise Absent('%s is not as the definitions have it before any change' % name)
    worlds.sort(key=lambda world: len(world[2]))
    counts, bad = dict.fromkeys(('worked', 'journal', 'explained', 'nothing', 'unread'), 0), 0
    for rule, (kind, where) in judged(root, rules, worlds, int(found.get('--jobs', 1))):
        why = rule.get('why')
        is_bad = kind == 'unread' or (kind == 'nothing') != bool(why)
        bad += is_bad
        counts['explained' if kind == 'nothing' and why else kind] += 1
        if is_bad or kind == 'nothing' or '--names' in found:
            print('%s, %s | %s' % (rule['module'], rule['says'], why if kind == 'nothing' and why else ' '.join((kind, where)).strip()))
    print('%d rules, by worked values %d, by journals %d, explained %d, unnoticed %d; not made %d' % (len(rules), *counts.values()))
    return 1 if bad else 0


if __name__ == '__main__':
    J.command(main)
