#!/usr/bin/env python3
"""Turns journals of shard worlds into theorems: each journal is legal, by computation.

    journal_theorems.py FILE..           prints the definitions and the proof of each journal
    journal_theorems.py --write          makes crates/ccr_model_journals of all journals of tools/journals
    journal_theorems.py --check FILE..   proves these journals in a temporary copy of the repository

A journal file is a list of shard worlds, each with its start and its entries. A world of no entry is left out.
"""
import json
import os
import re
import shutil
import subprocess
import sys
import tempfile

ROOT = os.path.dirname(os.path.dirname(os.path.abspath(__file__)))
CRATE = 'ccr_model_journals'
JOURNALS = os.path.join(ROOT, 'tools', 'journals')

# what a journal shows, for the documentation of its function
SHOWS = {
    'batches-and-reads': 'A follower with narrow parameters reads and writes in several batches',
    'chunks': 'A follower fetches a file in parts, out of order, until its session closes, and fetches it again from another',
    'commit-counts': 'A flush sets the commit count, beyond which no floor rises',
    'conditional-writes': 'Writes that expect an operation, or no document, are refused where they find another',
    'deleted-document': 'A document that was deleted and merged away is not there at a follower that follows afterwards',
    'deletes-in-merges': 'Merges drop no-ops, deletes and what they supersede, and join parts at the least place that is picked',
    'each-refusal-of-a-follower': 'Each event of a follower is refused where it has to be, and its bootstrap goes to its end with narrow parameters',
    'expired-lease': 'A lease expires, a merge drops what it retained, and the follower that asks for it stops',
    'filled-gap': 'A replica with a gap becomes the primary, and the missing number becomes a no-op',
    'first-path': 'One write travels to the follower and is found there',
    'floor-above-lease': "A lease is answered with the greatest floor of the copies, which is above the primary's",
    'floors-over-promotions': 'Floors, leases and polls over three promotions, two new copies and a copy that leaves',
    'follower-failover': "A follower's primary is lost before its replica has a write's operation, and the write is applied again",
    'follower-over-a-promotion': "A follower's writes, renewals, restart and pause over the promotion of its replica",
    'forced-promotion': 'A stale copy is promoted by force: a new history begins, and the follower of the old one stops',
    'forced-promotion-after-merges': 'A stale copy is promoted by force after merges, while a follower is in its bootstrap',
    'four-copies-and-five-followers': 'Four copies of a leader and five followers of many parameters, in a random order',
    'held-is-not-sent': 'A read that is held back is not sent while the buffer is full, and can not be lost',
    'kept-lease-that-expired': 'A lease expires while its request is kept, and the request comes again',
    'known-counts-after-a-promotion': 'A new primary knows nothing of the others before they are resynced and acked',
    'lose-by-request-number': 'The places of reads that are lost go by their request numbers',
    'merges-and-losses': 'Merges, flushes and lost requests of a leader of two copies and its follower, in a random order',
    'ninth-follower': 'Eight followers of one shard, a ninth that is refused, and a world that settles once the write has ended',
    'not-ready': 'A leader that is not ready after a promotion keeps a request for a lease until each copy has the lease',
    'not-settled-before-ready': 'A world is not settled before its leader is ready',
    'number-used-again': 'An operation that no other copy had is lost with the primary, and its number is used again',
    'old-epoch': 'A write of an epoch that is over is refused',
    'old-read-repeated': 'A read that comes again after a merge is answered as missing, and its follower goes on',
    'pause-keeps-losses': 'A pause leaves the count of losses, which a write that ends sets to 0',
    'pause-with-a-buffer': 'A pause drops the buffer, and the task reads it again after the resumption',
    'poll-over-a-promotion': 'A poll at the lost primary ends with a promotion, and one at another copy stays until that leaves',
    'poll-timeout': 'A read that waited for its time is answered without an operation',
    'promotions-and-expiry': 'Promotions, expiries and a retention setting over a leader of three copies and its follower, in a random order',
    'refusals': 'Events that are refused, each for its cause',
    'renewal-by-waiting-reads': 'A renewal keeps what the least of the sent, held and waiting reads asks for',
    'reordering': 'Answers that come out of order leave a gap, which the late one closes',
    'repeats': 'A repeated answer is ignored, and a repeated batch has nothing new',
    'reply-tells-its-copys-count': 'A read at a replica is answered with what that copy has and knows',
    'resync-from-the-greater-global-count': "A resync begins at the greater of the replica's and the primary's global count, and teaches neither",
    'resync-of-two-replicas': 'Two replicas are resynced after a promotion',
    'retry-count-in-the-bootstrap': 'Each answer to the bootstrap sets the count of losses to 0',
    'routed-deletes': 'Writes and deletes with a routing or without one, at the leader and at a follower that is restored',
    'routed-writes': 'A document is found with the routing of its write, or with none',
    'second-poll-is-woken': 'Of two polls of a follower the second is woken',
    'session-not-ready': 'A session that is asked for before the leader is ready waits for a retry',
    'session-over-a-promotion': 'A session ends with a promotion, and its number is not used again',
    'uncommitted-superseder-by-hand': 'A merge keeps an operation where only one that is not committed supersedes it',
}

PARAMS = ['max_read_request_operation_count', 'max_read_request_size', 'max_outstanding_read_requests',
          'max_write_request_operation_count', 'max_write_request_size', 'max_outstanding_write_requests',
          'max_write_buffer_count', 'max_write_buffer_size', 'max_retry_delay', 'read_poll_timeout', 'chunk_size']

DEFAULTS = dict(zip(PARAMS, [5120, 33554432, 12, 5120, 9223372036854775807, 9, 2147483647, 536870912, 500, 60000, 1048576]))

# the fields of the events and replies that have other fields than `side` and `copy`, or other than none
EVENTS = {
    'Write': ['request'], 'Replicate': ['side', 'copy', 'seq'], 'ForcePromote': ['copy'], 'Resync': ['copy'], 'AddCopy': ['side'],
    'Clock': ['side', 'now'], 'Expire': [], 'CloseSessions': [], 'Tick': ['f'], 'Deliver': ['at', 'copy', 'keep'],
    'Drop': ['at'], 'Wake': ['f', 'at'], 'Lose': ['f', 'at'], 'LoseWrite': ['f', 'write'], 'Take': ['f', 'write'],
    'Apply': ['f', 'epoch', 'write', 'batch'], 'Written': ['f', 'write'], 'Renew': ['f'],
    'Follow': ['params', 'copies', 'name'], 'Pause': ['f'], 'Resume': ['f'], 'Restart': ['f'], 'Unfollow': ['f'],
    'Search': ['side', 'copy', 'search'], 'Status': ['side'], 'Settle': [],
}
REPLIES = {
    'Acked': ['global'], 'Promoted': ['term', 'filled'], 'Forced': ['term', 'filled'], 'Resynced': ['dropped', 'taken'], 'Added': ['copy'],
    'Flushed': ['commit'], 'Merged': ['floor', 'dropped', 'picks'], 'Closed': ['sessions'], 'Took': ['batch'],
    'Applied': ['new'],
}
HEARD = {'Missing': ['from', 'floor'], 'Waiting': ['copy'], 'NotReady': ['copy']}


# ---- antt text

def call(name, *args):
    return ' '.join([name, *args])


def tight(text):
    """The text as one argument."""
    is_group = text.startswith('(') and text.find(')') == len(text) - 1
    return text if ' ' not in text or is_group else f'({text})'


def application(name, *args):
    return call(name, *map(tight, args))


def listing(items):
    return ' ∷ '.join([*items, '[]'])


def boolean(b):
    return 'true' if b else 'false'


def text(s):
    """The bytes of a text in UTF-8."""
    parts = re.findall('[ -~]+|[^ -~]+', s)
    return ' ++ '.join(f'codes {json.dumps(p)}' if ' ' <= p[0] <= '~' else f'({listing(map(str, p.encode()))})' for p in parts) or '[]'


def option(found):
    return 'None' if found is None else application('Some', found)


def pair(numbers):
    return None if numbers is None else f'({numbers[0]}, {numbers[1]})'


def side(f):
    return 'sides.Leader' if f is None else f'sides.Follower {f}'


def operation(o):
    numbers = [str(o['seq']), str(o['term'])]
    if o['kind'] == 'noop':
        return call('no_op', *numbers)
    numbers.append(str(o['version']))
    routing = option(text(o['routing']) if o.get('routing') is not None else None)
    if o['kind'] == 'delete':
        return application('delete', *numbers, text(o['id']), routing)
    return application('index', *numbers, text(o['id']), routing, text(o['body']))


def operations(ops):
    return listing(map(operation, ops))


# ---- queries

def scalar(value):
    if isinstance(value, bool):
        return application('scalars.Truth', boolean(value))
    if isinstance(value, int):
        return application('scalars.Number', f'pos {value}' if value >= 0 else f'negsuc {-value - 1}')
    return application('scalars.Text', text(value))


def query(q):
    (kind, body), = q.items()
    if kind == 'bool':
        trees = [application('trees_of', listing(map(query, body.get(name, [])))) for name in ('must', 'filter', 'should', 'must_not')]
        return application('bool', *trees)
    if kind == 'match_all':
        return 'condition conditions.MatchAll'
    if kind == 'exists':
        return application('condition', application('conditions.Exists', text(body['field'])))
    (field, value), = body.items()
    if kind == 'term':
        args = [scalar(value)]
    elif kind == 'range':
        args = [option(scalar(value[bound]) if bound in value else None) for bound in ('gte', 'gt', 'lte', 'lt')]
    else:
        args = [text(value)]
    return application('condition', application(f'conditions.{kind.capitalize()}', text(field), *args))


def values_at(source, field):
    """The values of a field of a source: lists are gone through, and null is none."""
    if isinstance(source, list):
        return [v for item in source for v in values_at(item, field)]
    if isinstance(source, dict):
        found = []
        for name, value in source.items():
            if field == name:
                found += values_at(value, '')
            elif field.startswith(name + '.'):
                found += values_at(value, field[len(name) + 1:])
        return found
    return [source] if field == '' and source is not None else []


def rank(value):
    return (0, value) if isinstance(value, bool) else (1, value) if isinstance(value, int) else (2, value.encode())


def sorted_hits(hits, keys):
    """The journals have the hits by their ids; an answer has them by the search's keys first."""
    hits = sorted(hits, key=lambda hit: hit[0].encode())
    for field, descends in reversed(keys):
        found = {hit[0]: [rank(v) for v in values_at(json.loads(hit[2]), field)] for hit in hits}
        have = [hit for hit in hits if found[hit[0]]]
        best = max if descends else min
        have.sort(key=lambda hit: best(found[hit[0]]), reverse=descends)
        hits = have + [hit for hit in hits if not found[hit[0]]]
    return hits


# ---- events and replies

def field_of(name, x):
    value = x.get(name)
    if name == 'side':
        return side(value)
    if name == 'request':
        body = None if x['body'] is None else text(x['body'])
        return application('request', text(x['id']), option(text(x['routing']) if x.get('routing') is not None else None), option(body), boolean(x['create']), option(pair(x['expect'])))
    if name == 'batch':
        return operations(value)
    if name == 'keep':
        return boolean(value)
    if name == 'params':
        return 'default_params' if value == DEFAULTS else call('params', *(str(value[p]) for p in PARAMS))
    if name == 'name':
        return text(value)
    if name == 'search':
        keys = listing(application('key', text(field), 'orders.Desc' if descends else 'orders.Asc') for field, descends in x['sort'])
        return application('search_for', query(x['query']), keys)
    if name == 'picks':
        return listing(map(str, value))
    return str(value)


def event(e):
    name = e['e']
    return application(f'events.{name}', *(field_of(field, e) for field in EVENTS.get(name, ['side', 'copy'])))


def refusal(r):
    name = r['name']
    if name == 'Conflict':
        return application('refusals.Conflict', option(pair(r['last'])))
    if name == 'BadSource':
        return f'refusals.BadSource faults.{r["cause"]}'
    return call(f'refusals.{name}', *(str(value) for key, value in r.items() if key not in ('r', 'name')))


def heard(r):
    name = r['heard']
    if name == 'Lease':
        return f'heard.Lease results.{r["result"]} {r["number"]}'
    return call(f'heard.{name}', *(str(r[field]) for field in HEARD.get(name, [])))


def statuses(copies):
    return listing(call('status', *map(str, copy)) for copy in copies)


def reply(r, e):
    name = r['r']
    if name == 'Refused':
        return application('replies.Refused', refusal(r))
    if name == 'Heard':
        return application('replies.Heard', heard(r))
    if name == 'Written':
        result = ''.join(word.capitalize() for word in r['result'].split('_'))
        return application('replies.Written', call('wrote', str(r['seq']), str(r['term']), str(r['version']), f'written.{result}'))
    if name == 'Found':
        hits = listing(application('hit', text(h[0]), option(None if h[1] is None else text(h[1])), text(h[2])) for h in sorted_hits(r['hits'], e['sort']))
        return application('replies.Found', application('found', str(r['count']), boolean(r['gap']), hits))
    if name == 'LeaderStatus':
        leases = listing(application('lease', text(id), str(number), str(stamp)) for id, number, stamp in r['leases'])
        return application('replies.LeaderStatus', str(r['term']), statuses(r['copies']), leases)
    if name == 'FollowerStatus':
        numbers = [str(r[field]) for field in ('reads', 'buffer', 'writes')]
        phase = f'phases.{r["phase"].capitalize()}'
        return application('replies.FollowerStatus', application('follower_status', phase, str(r['epoch']), str(r['term']), statuses(r['copies']), *numbers))
    if name == 'Expired':
        return application('replies.Expired', listing(application('gone', text(id), str(stamp), str(now)) for id, stamp, now in r['list']))
    return application(f'replies.{name}', *(field_of(field, r) for field in REPLIES.get(name, [])))


# ---- modules

USES = f"""use Rattle.std.specs.Prelude.{{true, false, pos, negsuc, List, [], ◌∷◌, ◌++◌, Some, None, codes}}
use Rattle.ccr_doc.specs.declared.scalars.Scalar.TheVariants as scalars
use Rattle.ccr_doc.specs.declared.sources.BadSource.TheVariants as faults
use Rattle.ccr_wire.specs.declared.kind.LeaseResult.TheVariants as results
use Rattle.ccr_query.specs.Queries.{{condition, bool, trees_of}}
use Rattle.ccr_query.specs.declared.conditions.Condition.TheVariants as conditions
use Rattle.ccr_query.specs.declared.sorting.SortOrder.TheVariants as orders
use Rattle.ccr_journal.specs.declared.sides.Side.TheVariants as sides
use Rattle.ccr_journal.specs.declared.sides.Phase.TheVariants as phases
use Rattle.ccr_journal.specs.declared.events.Event.TheVariants as events
use Rattle.ccr_journal.specs.declared.journals.Entry.{{Entry}}
use Rattle.ccr_journal.specs.declared.replies.Heard.TheVariants as heard
use Rattle.ccr_journal.specs.declared.replies.Refusal.TheVariants as refusals
use Rattle.ccr_journal.specs.declared.replies.Reply.TheVariants as replies
use Rattle.ccr_journal.specs.declared.replies.WriteResult.TheVariants as written
use Rattle.ccr_model.specs.Leaders.{{Start}}
use Rattle.{CRATE}.specs.Words.{{begun, default_params, delete, entry, follower_status, found, gone, hit, index, key, lease, no_op, params, request, search_for, status, wrote}}
"""


def used(uses, body):
    """The `use` lines, with the names that stand in the body alone."""
    words = set(re.findall(r'[^\s(){}.;,]+', body))
    lines = []
    for line in uses.splitlines():
        head, brace, names = line.partition('.{')
        if brace:
            kept = [n for n in names.rstrip('}').split(', ') if n.strip('◌') in words]
            if kept:
                lines.append(f'{head}.{{{", ".join(kept)}}}')
        elif line.split()[-1] in words:
            lines.append(line)
    return '\n'.join(lines) + '\n'


class Journal:
    """The journal of one world."""

    def __init__(self, name, world):
        self.name = name.replace('-', '_')
        self.module = ''.join(part.capitalize() for part in re.split('[-_]', name))
        self.shows = SHOWS.get(re.sub('-[0-9]+$', '', name), f'The journal {name}')
        self.start = world['start']
        self.entries = world['entries']

    def definitions(self):
        start = call('begun', *(str(self.start[field]) for field in ('copies', 'history', 'period', 'retention')))
        lines = [f'    entry {tight(event(en["event"]))} {tight(reply(en["reply"], en["event"]))} ∷' for en in self.entries]
        body = '\n'.join([
            f'abbrev pub {self.name}_start : Start', f'{self.name}_start = {start}', '',
            f'abbrev pub {self.name}_entries : List Entry', f'{self.name}_entries =', *lines, '    []', ''])
        return f'-- {self.shows}.\n{used(USES, body)}\n{body}'

    def proof(self):
        size = len(self.entries)
        return '\n'.join([
            'use Rattle.std.specs.Prelude.{refl}',
            f'use Rattle.{CRATE}.proofs.Opened.{{opened}}',
            f'use Rattle.{CRATE}.proofs.{self.name}.Goals as goal', '',
            'pub returns : goal.returns', 'unfolding opened',
            'returns c = ' + '(refl, ' * size + 'tt' + ')' * size, ''])

    def function(self):
        return (f'/// {self.shows}.\npub fn {self.name}()\n'
                f'    ensures {{ IsLegal (start_state {self.name}_start) {self.name}_entries }}\n{{}}\n')


def journals_of(paths):
    for path in paths:
        name = os.path.basename(path)[:-len('.json')]
        with open(path) as file:
            worlds = [world for world in json.load(file) if world['entries']]
        for number, world in enumerate(worlds):
            yield Journal(name if len(worlds) == 1 else f'{name}-{number}', world)


def put(path, content):
    os.makedirs(os.path.dirname(path), exist_ok=True)
    with open(path, 'w') as file:
        file.write(content)


HEAD = """//! Journals of shard worlds as theorems: each of them is legal, that is, each reply is the one that its event gets by
//! the definitions of `ccr_model`. The replies are those of another implementation. Each function has one journal in
//! its contract and does nothing. `tools/journal_theorems.py` writes this crate, but for `specs/Words.antt` and
//! `proofs/Opened.antt`, from files of journals.
"""


def write(crate, journals):
    """Makes the crate of these journals, from what it has of its own: specs/Words.antt and proofs/Opened.antt."""
    for part, own in (('specs', 'Words'), ('proofs', 'Opened')):
        with open(os.path.join(crate, part, own + '.antt')) as file:
            kept = file.read()
        shutil.rmtree(os.path.join(crate, part))
        put(os.path.join(crate, part, own + '.antt'), kept)
    put(os.path.join(crate, 'proofs', 'Lib.antt'), 'pub mod Opened\n')
    put(os.path.join(crate, 'specs', 'Lib.antt'), ''.join(f'pub mod {m}\n' for m in ['Words', *(j.module for j in journals)]))
    uses = ''.join(f'ghost use Rattle.{CRATE}.specs.{j.module}.{{{j.name}_start, {j.name}_entries}};\n' for j in journals)
    common = 'ghost use Rattle.ccr_model.specs.World.{start_state};\nghost use Rattle.ccr_model.specs.Step.{IsLegal};\n'
    functions = '\n'.join(j.function() for j in journals)
    put(os.path.join(crate, 'src', 'lib.rt'), f'{HEAD}#![tactic(auto)]\n\n{common}{uses}\n{functions}')
    for j in journals:
        put(os.path.join(crate, 'specs', j.module + '.antt'), j.definitions())
        put(os.path.join(crate, 'proofs', j.name, 'Answers.antt'), j.proof())


def check(journals):
    """Proves the journals in a temporary copy of the repository, from what earlier checks kept on this machine."""
    with tempfile.TemporaryDirectory() as copy:
        for name in ('crates.txt', 'HANDLES'):
            shutil.copy(os.path.join(ROOT, name), copy)
        crates = os.path.join(copy, 'crates')
        shutil.copytree(os.path.join(ROOT, 'crates'), crates, ignore=shutil.ignore_patterns('out', 'must-fail'))
        write(os.path.join(crates, CRATE), journals)
        return subprocess.run(['rt', 'check'], cwd=os.path.join(crates, CRATE)).returncode


def main(words):
    flag, paths = (words[0], words[1:]) if words and words[0].startswith('--') else ('', words)
    if flag == '--write':
        paths = [os.path.join(JOURNALS, name) for name in sorted(os.listdir(JOURNALS)) if name.endswith('.json')]
    journals = list(journals_of(paths))
    if flag == '--write':
        write(os.path.join(ROOT, 'crates', CRATE), journals)
    elif flag == '--check':
        return check(journals)
    else:
        for journal in journals:
            print(journal.definitions())
            print(journal.proof())
    return 0


if __name__ == '__main__':
    sys.exit(main(sys.argv[1:]))
