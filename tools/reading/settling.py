#!/usr/bin/env python3
"""Settling at every place of journals.

    settling.py [--root CHECKOUT] [--every N] [--seconds S] FOLDER_OR_FILES..

At each N-th place: each event that may settle the world (`may_act`) is not refused and makes the measure smaller; where there is none, a
clock that is set to the least time for which a follower waits makes it smaller; and where there is no such clock either, the world is
settled. Prints what is not so, and `N journals, M places, E events, C clocks, S with nothing left, K wrong` last; status 1 where
something is wrong. No journal is begun after S seconds.
"""
import sys, time
sys.dont_write_bytecode = True
import journals as J
from past import Pasts, copies_in, history_of


class Settling:
    def __init__(self, d):
        self.d = d
        self.may, self.waits = d.model('Settling', 'may_act'), d.model('Settling', 'waits_until')
        self.settled = d.model('Settled', 'is_settled')
        measure = d.function('ccr_law_settling', 'Measure', 'measure')
        self.by_history = measure.__code__.co_argcount == 2      # it is told how many operations each history has
        self.measure_of = measure
        self.counts = {'places': 0, 'events': 0, 'clocks': 0, 'left': 0}

    def measure(self, lengths, s):
        """The numbers in the order in which they are compared."""
        if not self.by_history:
            return list(self.measure_of(s).values())
        return list(self.measure_of(lambda h: lengths.get(tuple(h), 0), s).values())

    def candidates(self, s):
        leader = s['leader']['copies']
        shards = [(('Leader',), leader)] + [(('Follower', f), x['copies']) for f, x in enumerate(s['followers'])]
        for side, copies in shards:
            top = max(max(c['seen']['above'], default=0) + c['seen']['count'] for c in copies_in(copies)) + 2
            for r in copies['replicas']:
                n = r['copy']['number']
                yield from (('Replicate', side, n, seq) for seq in range(top))
                yield ('Ack', side, n)
                yield ('Sync', side, n)
                if side == ('Leader',):
                    yield ('Resync', n)
        for at in range(len(s['flight'])):
            yield ('Deliver', at, leader['primary']['number'], False)
        for f, x in enumerate(s['followers']):
            yield from (('Wake', f, at) for at in range(len(s['leader']['polls']) + 1))
            work = x['work'][1]
            requests = work['reads'] if 'reads' in work else work['stage'][1].get('asks', [None])
            yield from (('Lose', f, at) for at in range(len(requests) + 1))
            for w in work.get('writes', []):
                yield ('Apply', f, x['epoch'], w['number'], w['batch'])
                yield ('Written', f, w['number'])
            yield ('Tick', f)

    def look(self, s, lengths):
        """What is wrong at this place."""
        before, wrong, acts = self.measure(lengths, s), [], False
        self.counts['places'] += 1
        for event in self.candidates(s):
            if self.may(s, event):
                acts = True
                self.counts['events'] += 1
                o = self.d.step(s, event, [])
                after = self.measure(lengths, o['next'])
                if o['reply'][0] == 'Refused' or not after < before:
                    wrong.append('%s: %s, from %s to %s' % (J.plain(event), J.plain(o['reply']), before, after))
        if acts:
            return wrong
        clocks = [(f, until[1]) for f, until in ((f, self.waits(x['work'])) for f, x in enumerate(s['followers'])) if until[0] == 'Some']
        for f, now in clocks:
            self.counts['clocks'] += 1
            after = self.measure(lengths, self.d.step(s, ('Clock', ('Follower', f), now), [])['next'])
            if not after < before:
                wrong.append('the clock of follower %d to %d: from %s to %s' % (f, now, before, after))
        if not clocks:
            self.counts['left'] += 1
            if not self.settled(s):
                wrong.append('nothing is left to be done, and the world is not settled')
        return wrong

    def first_wrong(self, start, entries, every=1):
        """(place, what is wrong before the entry there), or None"""
        s = self.d.start_state(start)
        pasts = Pasts(self.d, start) if self.by_history else None
        for n, (event, reply) in enumerate([*entries, (None, None)]):
            if n % every == 0:
                wrong = self.look(s, pasts.lengths() if pasts else {tuple(history_of(s)): 0})
                if wrong:
                    return n, wrong
            if event is None:
                return None
            s = pasts.step(event, reply)[1]['state'] if pasts else self.d.step(s, event, self.d.picks_in(reply))['next']


def main(args):
    found, rest = J.options(args, ['--root', '--every', '--seconds'], ['--help'])
    if not rest or '--help' in found:
        print(__doc__.strip())
        return 2
    d = J.Definitions(found.get('--root', '.'))
    settling = Settling(d)
    every, limit, began = int(found.get('--every', 1)), float(found.get('--seconds', 'inf')), time.time()
    journals = wrong = 0
    for file in J.files_of(rest):
        if time.time() - began > limit:
            print('left out from %s on' % J.name_of(file))
            break
        journals += 1
        for k, world in J.worlds_of(file):
            start, entries = J.read_world(d, J.name_of(file), k, world)
            place = settling.first_wrong(start, entries, every)
            if place:
                wrong += 1
                for line in place[1][:3]:
                    print('%s world %d before entry %d: %s' % (J.name_of(file), k, place[0], line))
    c = settling.counts
    print('%d journals, %d places, %d events, %d clocks, %d with nothing left, %d wrong' % (journals, c['places'], c['events'], c['clocks'], c['left'], wrong))
    return 1 if wrong else 0


if __name__ == '__main__':
    J.command(main)
