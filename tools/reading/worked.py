#!/usr/bin/env python3
"""The worked values of ccr_model_values, by the definitions of a checkout.

    worked.py [--root CHECKOUT] [MODULE..]

Evaluates each record of equations without parameters, and prints the fields that are false and `N records, K false` last; status 1 where
some are. An evaluation is no proof: `rt check` of ccr_model_values is.
"""
import sys
sys.dont_write_bytecode = True
import build
import journals as J

CRATE = 'ccr_model_values'


def modules_of(d):
    """The crate's modules of values, in their order."""
    lines = d.text(CRATE, 'Lib').splitlines()
    return [line.split()[-1] for line in lines if line.startswith('pub mod ') and line.split()[-1] != 'Words']


def tests_of(d, modules=None):
    """[(MODULE.RECORD, test)] of the records that have no parameters"""
    found = []
    for name in modules or modules_of(d):
        m = d.module(CRATE, name)
        for record, (head, _) in m.records.items():
            if not build.parameters_of(head):
                python = d.python_name_of(m, record)
                if python not in d.begun:
                    d.begun.add(python)
                    d.wanted.append((m, record))
                found.append(('%s.%s' % (name, record), python))
    d.make()
    return [(name, d.g[python]) for name, python in found]


def first_false(tests):
    """The first value that is not as it is told, with its fields, or None; a test that fails counts as one."""
    for name, test in tests:
        build.FALSE[0] = ''
        try:
            if test():
                continue
        except Exception as e:
            return '%s fails: %r' % (name, e)
        return '%s.%s' % (name, build.FALSE[0])
    return None


def main(args):
    found, modules = J.options(args, ['--root'], ['--help'])
    if '--help' in found:
        print(__doc__.strip())
        return 2
    tests = tests_of(J.Definitions(found.get('--root', '.')), modules)
    wrong = [w for w in (first_false([test]) for test in tests) if w]
    for line in wrong:
        print(line)
    print('%d records, %d false' % (len(tests), len(wrong)))
    return 1 if wrong else 0


if __name__ == '__main__':
    J.command(main)
