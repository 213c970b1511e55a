"""Random scripts, made from a seed to hit much of what the script program does.

    python3 tests/generate.py SEED      prints the script of a seed

Most lines are accepted, so that the queries at the end have rows to answer
from; some are damaged, so that every refusal occurs.
"""

import random
import re
import sys

from reference_forms import AGGREGATES, COMPARE, TOP

STREAM_NAMES = ['a', 'b', 'test', 'in', 'and', 'abcdefgh', 'k9', 'read', 'show']
COLUMN_NAMES = ['x', 'y', 'k', 'v', 'lot', 'in', 'volts', 'abcdefgh', 'z0', 'of', 'keep']
ROLES = ['r', 's', 'time', 'fitter']
ENTRIES = ['lot', 'n', 'self']
WORDS = ['self.lot', 'time', 'figure', 'self', 'abcdefghi', 'a.abcdefghi', 'zz.x', 'test.zz', 'a.x',
         '-0', '007', '+1', '*', '=', 'self.abcdefghi', 'time.x', 'zz', 'abcdefgh', '1']
NUMBERS_AT_BOUNDS = [TOP, TOP + 1, -TOP - 1, -TOP - 2, 10**30, -10**30, 0, -1]

# Lines that meet or nearly meet a check; Maker.words tells what stands in the places.
ODD_LINES = [
    '(grant r read (of {s}) (show *) (window 0 0))',
    '(grant r sum (of {s}) (show *) (window 1 {edge}))',
    '(grant r sum (of {s}) (show *) (window 1))',
    '(grant r read (of {s}) (show *) (from {edge}))',
    '(grant r read (of {s}) (show *) (from 5) (to 4))',
    '(grant r read (of {s}) (show *) (from 5) (to 5))',
    '(grant r read (of {s}) (show *) (to 5) (from 5))',
    '(grant r read (of {s}) (show *) (to 5) (to 5))',
    '(grant r read (of {s}) (show *) (when {deep}))',
    '(grant r read (of {s}) (show *) (when (= {c} {edge})))',
    '(grant r read (of {s}) (show *) (when (= self.n 1)))',
    '(grant r read (of {s}) (show *) (when (= time 1)))',
    '(grant r read (of {s}) (show *) (when (= {c} time)))',
    '(grant r read (of {s}) (show *) (when (= {c} figure)))',
    '(grant r read (of {s}) (show *) (when (= {c} self)))',
    '(grant r read (of {s}) (show *) (when (= {c} self.abcdefghi)))',
    '(grant r read (of {s}) (show *) (when (= zz.x 1)))',
    '(grant r read (of {s}) (show *) (when (= {c} {s}.zz)))',
    '(grant r read (of {s}) (show *) (when (= {c} {e})))',
    '(grant r read (of {every}) (show *))', '(grant r read (of {every} {s}) (show *))',
    '(grant r read (of {s} zz) (show {c} {c}))', '(grant r read (of {s}) (show {c} {c}))',
    '(grant r read (of {s}) (show {c} *))', '(grant r read (of {s}) (show {e}))',
    '(grant r read (of {s}) (show time))', '(grant r read (of {s}) (show self.n self.n))',
    '(grant r write (of {s}) (show *))', '(grant r read (of {s}))',
    '(grant {reserved} read (of {s}) (show *))', '(grant abcdefghi read (of {s}) (show *))',
    '(stream {s} x)', '(stream {s} a b c d e f g)', '(stream new x x)', '(stream new)',
    '(stream {reserved} x)', '(stream {reserved} x x)', '(stream new x {reserved})',
    '(stream new a b c d e f g)', '(stream new new)', '(stream abcdefghi x)',
    '(stream new x abcdefghi)', '(stream new x.y)', '(stream 9new x)',
    '(clock {past})', '(clock {edge})', '(clock -0)', '(clock {nines})', '(clock)',
    '(row zz 1)', '(row zz -{nines})', '(row {s})', '(row {s} {edges})', '(row {s} {edges} 1)',
    '(row {s} 1 1 1 1 1 1 1)', '(row {reserved} 1)', '(row {c} 1)',
    '(caller)', '(caller (roles))', '(caller (roles ))', '(caller (roles r r))',
    '(caller (roles r s t u))', '(caller (roles r s t u v))', '(caller (self n 1))',
    '(caller (roles r) (self n 1) (self n 2))', '(caller (roles r) (self n {edge}))',
    '(caller (roles abcdefghi))', '(caller (roles r) (self abcdefghi 1))',
    '(caller (roles r) (self a 1) (self b 2) (self c 3) (self d 4))',
    '(caller (roles r) (self a 1) (self b 2) (self c 3) (self d 4) (self e 5))',
    '(clear )', '(clear 1)', ' (clear)', '(clear))', '', ' ', '()', '(', ')', 'clear', '(ask)',
    '(line 1)', '(line (in {s}))', '(ask (in {s}) (in {s}))', '(in {s})',
    'x' * 512, 'x' * 513, '(' * 512, '(' * 513, '(clear)' + ' ' * 505, '(clear)' + ' ' * 506]

ODD_QUERIES = [
    '{many}', '{padded}', '{padded}', '(pick {deep} (in {s}))', '(pick {deep} (in {s}))',
    '(join (= {c} {e}) (in {s}) (in {t}))', '(join (= {c} {e}) {left} {right})',
    '(keep {c} (join (= {c} {e}) {left} {right}))',
    '(in {reserved})', '(in zz)', '(in {c})', '(in {s} {s})', '(in)', '(in abcdefghi)',
    '(pick (= {c} self.n) (in {s}))', '(pick (= self.n 1) (in {s}))',
    '(pick (= {c} time) (in {s}))', '(pick (= figure 1) (in {s}))', '(pick (= 1 time) (in {s}))',
    '(pick (= {c} {edge}) (in {s}))', '(pick (= {c} {nines}) (in {s}))',
    '(pick (= {c} zz.x) (in {s}))', '(pick (= {c} {e}) (in {s}))', '(pick (and) (in {s}))',
    '(pick (not (= {c} 1) (= {c} 1)) (in {s}))', '(pick (= {c} 1) (keep {d} (in {s})))',
    '(keep {c} {c} (in {s}))', '(keep {c} {s}.zz (in {s}))', '(keep {e} (in {s}))',
    '(keep time (in {s}))', '(keep time time (in {s}))', '(keep (in {s}))', '(keep {s} (in {s}))',
    '(keep self.n (in {s}))', '(keep self.n self.n (in {s}))',
    '(keep figure (sum {c} 5 5 (in {s})))', '(keep {c} (sum {c} 5 5 (in {s})))',
    '(pick (= {c} 1) (sum {c} 5 5 (in {s})))', '(pick (< time figure) (sum {c} 5 5 (in {s})))',
    '(pick (< figure time) (sum {c} 5 5 (in {s})))', '(sum {c} 5 5 (sum {c} 5 5 (in {s})))',
    '(sum figure 5 5 (sum {c} 5 5 (in {s})))', '(sum time 5 5 (in {s}))',
    '(sum self.n 5 5 (in {s}))', '(sum {s}.zz 0 0 (in {s}))', '(sum {c} 5 (in {s}))',
    '(sum {c} {size} {offset} (in {s}))', '(sum {c} {size} {offset} (in {s}))',
    '(avg {c} {size} {offset} (keep {all} (in {s})))',
    '(min {c} {size} {offset} (join (= {c} {e}) (in {s}) (in {t})))',
    '(keep {c} (sum {c} {size} {offset} (in {s})))', '(median {c} 5 5 (in {s}))',
    '(join (= {c} {e}) (sum {c} 5 5 (in {s})) (in {t}))',
    '(join (< {c} {e}) (in {s}) (in {t}))', '(join (= {c} 1) (in {s}) (in {t}))',
    '(join (= {c} {d}) (in {s}) (in {t}))', '(join (= {e} {c}) (in {s}) (in {t}))',
    '(join (= time time) (in {s}) (in {t}))', '(join (= {c} self.n) (in {s}) (in {t}))',
    '(join (= {c} {e}) (join (= {c} {e}) (in {s}) (in {t})) (in {u}))',
    '(join (= {c} {e}) (keep {d} (in {s})) (in {t}))', '(join (= zz.x {c}) (in {s}) (in {s}))',
    '(pick (or (= time 9) (< {c} {d})) (join (= {c} {e}) (in {s}) (in {t})))']


def form(*items):
    return '(%s)' % ' '.join(str(item) for item in items)


class Maker:
    """Keeps the streams and grants it has made, to make lines about them.

    A query is mostly made for one of the grants, its target: over the target's
    streams, naming columns that it shows.
    """

    def __init__(self, seed):
        self.random = random.Random(seed)
        self.streams = {}
        self.values = [-2, -1, 0, 0, 1, 1, 1, 2, 2, 3]
        self.clock = 0
        self.grants = []
        self.target = None

    def chance(self, share):
        return self.random.random() < share

    def choice(self, items):
        return self.random.choice(items)

    def some(self, items, least=1):
        """A part of the items, in any order."""
        return self.random.sample(items, self.random.randint(min(least, len(items)), len(items)))

    def number(self):
        if self.chance(0.02):
            return self.choice([TOP, -TOP - 1])
        return self.choice(self.values)

    def column_refs(self, stream):
        return ['%s.%s' % (stream, column) for column in self.streams[stream]]

    # The record

    def stream(self):
        name = self.choice([n for n in STREAM_NAMES if n not in self.streams])
        count = self.choice([1, 2, 2, 3, 3, 3, 4, 4, 6])
        self.streams[name] = self.random.sample(COLUMN_NAMES, count)
        return form('stream', name, *self.streams[name])

    def clock_line(self):
        self.clock += self.choice([0, 1, 1, 2, 3, 5, 10, 20])
        return form('clock', self.clock)

    def row(self):
        stream = self.choice(list(self.streams))
        return form('row', stream, *[self.number() for _ in self.streams[stream]])

    def record_line(self):
        if self.chance(0.03):
            return '(clear)'
        return self.clock_line() if self.chance(0.3) else self.row()

    # Conditions: `offered` are the columns they may name

    def test(self, offered, words, entries):
        left = self.choice(words) if words and self.chance(0.3) else self.choice(offered)
        operator = self.choice(list(COMPARE))
        if left == 'time':
            return form(operator, left, self.random.randint(0, 40))
        if entries and self.chance(0.3):
            return form('=' if self.chance(0.5) else operator, left, 'self.' + self.choice(entries))
        if self.chance(0.25):
            return form(operator, left, self.choice(offered))
        return form(operator, left, self.number())

    def condition(self, offered, words=(), entries=(), depth=2):
        if depth == 0 or self.chance(0.6):
            return self.test(offered, words, entries)
        word = self.choice(['and', 'or', 'or', 'not'])
        count = 1 if word == 'not' else self.random.randint(1, 3)
        parts = [self.condition(offered, words, entries, depth - 1) for _ in range(count)]
        return form(word, *parts)

    # Grants

    def link(self, left, right):
        """An equality of two streams, mostly always the same one."""
        place = 0 if self.chance(0.85) else -1
        refs = [self.column_refs(left)[place], self.column_refs(right)[place]]
        return form('=', *(refs if self.chance(0.5) else reversed(refs)))

    def any_grant(self):
        right = 'read' if self.chance(0.4) else self.choice(AGGREGATES)
        streams = [self.choice(list(self.streams))]
        if len(self.streams) > 1 and self.chance(0.6):
            streams = self.random.sample(list(self.streams), 2)
        return self.grant(right, streams)

    def grant(self, right, streams):
        offered = [ref for stream in streams for ref in self.column_refs(stream)]
        show = ['*'] if self.chance(0.4) else self.some(offered, (len(offered) + 1) // 2)
        parts = [form('of', *streams), form('show', *show)]
        link = self.link(*streams) if len(streams) == 2 else None
        self.grants.append((right, streams, offered if show == ['*'] else show, link))
        when = self.when(link, offered)
        if when:
            parts.append(form('when', *when))
        start, end = sorted(self.random.randint(0, 30) for _ in range(2))
        if self.chance(0.15):
            parts.append(form('from', start // 3))
        if self.chance(0.15):
            parts.append(form('to', end + 10))
        if right != 'read' and self.chance(0.4):
            parts.append(form('window', self.choice([0, 1, 2, 5]), self.choice([0, 1, 2, 4])))
        return form('grant', self.choice(ROLES[:2] + ROLES), right, *parts)

    def when(self, link, offered):
        conditions = []
        if self.chance(0.45):
            conditions.append(self.condition(offered, entries=ENTRIES))
        if link and self.chance(0.9):
            if self.chance(0.1):
                link = form('and', link)
            conditions.insert(self.random.randint(0, len(conditions)), link)
        return conditions

    def caller(self):
        roles = self.some(ROLES, 0) if self.chance(0.1) else list(ROLES)
        entries = self.some(ENTRIES, 0 if self.chance(0.2) else 3)
        parts = [form('self', name, self.number()) for name in entries]
        return form('caller', form('roles', *roles), *parts)

    # Queries: each comes with the columns it offers

    def nameable(self, offered):
        """The offered columns that the target shows, or all."""
        shown = [ref for ref in offered if self.target and ref in self.target[2]]
        return shown if shown and self.chance(0.95) else offered

    def layers(self, text, offered, picks, keeps):
        words = ['time'] if self.chance(0.5) else []
        for _ in range(2):
            if self.chance(picks):
                text = form('pick', self.condition(self.nameable(offered), words), text)
            if self.chance(keeps):
                offered = self.some(offered, (len(offered) + 1) // 2)
                text = form('keep', *offered, text)
        return text, offered

    def side(self, stream, picks):
        return self.layers(form('in', stream), self.column_refs(stream), picks, 0.2)

    def joined(self, streams, link, picks):
        one, left_offered = self.side(streams[0], picks)
        other, right_offered = self.side(streams[1], picks)
        if not set(link[3:-1].split(' ')) <= set(left_offered + right_offered):
            link = form('=', left_offered[0], right_offered[0])
        return form('join', link, one, other), left_offered + right_offered

    def body(self, picks):
        streams, link = [self.choice(list(self.streams))], None
        if self.target:
            streams, link = self.target[1], self.target[3]
        if len(self.streams) > 1 and self.chance(0.3) and not link:
            streams = self.random.sample(list(self.streams), 2)
            link = self.link(*streams)
        if link:
            return self.layers(*self.joined(streams, link, picks / 2), picks, 0.3)
        return self.side(streams[0], picks)

    def query(self):
        self.target = self.choice(self.grants) if self.chance(0.8) else None
        by_figure = self.target and self.target[0] != 'read'
        if not by_figure and self.chance(0.7):
            return self.body(0.3)[0]
        text, offered = self.body(self.choice([0, 0, 0, 0.3]))
        size, offset = self.choice([(1, 1), (5, 5), (10, 10), (10, 5), (7, 3), (64, 1), (20, 40)])
        function = self.target[0] if by_figure else self.choice(AGGREGATES)
        text = form(function, self.choice(self.nameable(offered)), size, offset, text)
        while self.chance(0.3):
            text = form('pick', self.condition(['figure'], ['time']), text)
        return text

    def query_line(self):
        if self.chance(0.4):
            number = self.choice([1, 2, 2, 3, 4, 0, -1, 10**30]) if self.chance(0.25) else 1
            return form('line', number, self.query())
        return form('ask', self.query())

    # Damage

    def damaged(self, line):
        """The line damaged a little, or another one; what fails first may differ."""
        kind = self.random.randrange(16)
        if kind < 2:
            return self.byte_changed(line)
        if kind < 8:
            line = self.word_changed(line)
            return self.word_changed(line) if self.chance(0.3) else line
        if kind < 11:
            return self.odd_line()
        line = self.odd_query()
        return self.word_changed(line) if self.chance(0.2) else line

    def byte_changed(self, line):
        place = self.random.randrange(len(line))
        kind = self.random.randrange(4)
        if kind == 0:
            return line[:place] + line[place + 1:]
        if kind == 1:
            return line[:place] + self.choice('() .-0aZ_*\t\\"\x80\xff') + line[place:]
        spaces = [place for place, letter in enumerate(line) if letter == ' ']
        place = self.choice(spaces or [0])
        return line[:place] + ('  ' if kind == 2 else ' 0') + line[place + 1:]

    def word_changed(self, line):
        """The line with one word after the first put in another's place or doubled."""
        places = [found.span() for found in re.finditer('[^ ()]+', line)][1:]
        if not places:
            return line
        start, end = self.choice(places)
        old = line[start:end]
        refs = [ref for name in self.streams for ref in self.column_refs(name)]
        if '.' in old and self.chance(0.5):
            new = self.choice(refs)
        elif old.lstrip('-').isdigit() and self.chance(0.7):
            new = str(self.choice(NUMBERS_AT_BOUNDS))
        elif self.chance(0.3):
            new = old + ' ' + old
        else:
            new = self.choice(WORDS + refs)
        return line[:start] + new + line[end:]

    def words(self):
        """What stands in the odd lines' places: two streams, their columns, and others."""
        stream, other = [self.choice(list(self.streams)) for _ in range(2)]
        columns, others = self.column_refs(stream), self.column_refs(other)
        return {
            's': stream, 'c': columns[0], 'd': columns[-1], 'all': ' '.join(columns),
            't': other, 'e': others[0], 'every': ' '.join(self.streams),
            'u': self.choice(list(self.streams)), 'nines': '9' * self.choice([10, 300, 450]),
            'edge': self.choice(NUMBERS_AT_BOUNDS), 'past': max(0, self.clock - 1),
            'edges': ' '.join([str(self.choice(NUMBERS_AT_BOUNDS))] * len(columns)),
            'size': self.choice([65, 65, 64, 129, 128, 0, -1, -10**30, TOP, TOP + 1]),
            'offset': self.choice([1, 1, 1, 2, 0, -1, TOP, TOP + 1]),
            'reserved': self.choice(['self', 'time', 'figure']),
            'deep': self.nested(form('=', columns[0], 1), self.choice([5, 6, 7, 70])),
            'many': self.stacked(stream, [6, 7, 10, 11, 12]),
            'left': self.stacked(stream, [4, 5]), 'right': self.stacked(other, [4, 5]),
            'padded': self.padded(form('in', stream), columns[0])}

    def odd_line(self):
        return self.choice(ODD_LINES).format(**self.words())

    def odd_query(self):
        query = self.choice(ODD_QUERIES).format(**self.words())
        number = '9' * 300 if self.chance(0.1) else 1
        return form('ask', query) if self.chance(0.7) else form('line', number, query)

    def nested(self, condition, count):
        for _ in range(count):
            condition = form(self.choice(['and', 'or', 'not']), condition)
        return condition

    def stacked(self, stream, counts):
        query = form('in', stream)
        for _ in range(self.choice(counts)):
            query = form('keep', self.column_refs(stream)[0], query)
        return query

    def padded(self, base, ref):
        """A query whose `ask` line has 511 to 514 bytes in all."""
        wanted = 505 + self.random.randint(0, 3)
        numbers = ['1']
        while len(self.conjunction(ref, numbers + ['1'], base)) <= wanted:
            numbers.append('1')
        place = 0
        while len(self.conjunction(ref, numbers, base)) < wanted:
            numbers[place % len(numbers)] += '1'
            place += 1
        return self.conjunction(ref, numbers, base)

    def conjunction(self, ref, numbers, base):
        return form('pick', form('and', *[form('=', ref, number) for number in numbers]), base)


def mixed(maker):
    """The usual script."""
    count = maker.choice([1, 2, 2, 2, 2, 2, 3, 3, 4, 5])
    lines = [maker.stream() for _ in range(count)]
    for name in list(maker.streams)[4:]:
        del maker.streams[name]
    middle = [maker.record_line() for _ in range(maker.random.randint(6, 11))]
    middle += [maker.grant('read', [name]) for name in maker.streams if maker.chance(0.7)]
    middle += [maker.any_grant() for _ in range(maker.random.randint(3, 5))]
    if maker.chance(0.5):
        middle.sort(key=lambda line: line.startswith('(grant'))
    lines += middle + [form('clock', maker.clock + maker.choice([0, 5, 20, 60])), maker.caller()]
    lines += [maker.query_line() for _ in range(maker.random.randint(4, 7))]
    if maker.chance(0.3):
        lines += [maker.caller(), maker.query_line(), maker.query_line()]
    share = maker.choice([0.1, 0.2, 0.3])
    return [maker.damaged(line) if maker.chance(share) and place >= count else line
            for place, line in enumerate(lines)]


def crowded(maker):
    """Many grants a side, for routes around sixteen."""
    lines = [maker.stream(), maker.stream()]
    left, right = maker.streams
    lines += [maker.row() for _ in range(3)]
    for stream in [left] * maker.choice([3, 4, 5]) + [right] * maker.choice([3, 4, 4]):
        show = maker.choice(['(show *)', form('show', maker.column_refs(stream)[0])])
        lines.append(form('grant', 'r', 'read', form('of', stream), show))
    equality = form('=', maker.column_refs(left)[0], maker.column_refs(right)[0])
    if maker.chance(0.5):
        lines.append(form('grant', 'r', 'read', form('of', left, right), '(show *)',
                          form('when', equality)))
    lines.append('(caller (roles r))')
    join = form('join', equality, form('in', left), form('in', right))
    for query in [join, form('keep', maker.column_refs(left)[-1], join),
                  form('keep', *maker.column_refs(right), join)]:
        lines.append(form('ask', query))
        lines.append(form('line', maker.choice([1, 9, 16, 17, 20, 21, 26]), query))
    return lines


def full(maker):
    """As many grants as there may be, and more."""
    lines = [maker.stream()]
    stream = list(maker.streams)[0]
    grant = form('grant', 'r', 'count', form('of', stream), '(show *)')
    lines += [grant if place < 15 else grant.replace(' r ', ' s ') for place in range(24)]
    lines += [grant, grant.replace('grant r', 'grant R'), grant.replace(stream, 'zz'), maker.row(),
              '(clock 5)']
    query = form('count', maker.column_refs(stream)[0], 1, 1, form('in', stream))
    for roles in ['r', 's', 'r s']:
        lines += [form('caller', form('roles', roles)), form('ask', query), form('line', 17, query)]
    return lines


def long_record(maker):
    """One row more than a stream holds, a clear, and rows again."""
    name = 'a'
    maker.streams[name] = ['x']
    lines = ['(stream a x)', '(stream b x)', '(grant r max (of a) (show *))', '(caller (roles r))']
    for place in range(130):
        lines.append(form('row', name, place % 7))
        if place % 40 == 0:
            lines.append(maker.clock_line())
    lines += ['(row a 1 2)', '(row b 1)', '(ask (max a.x 1 1 (in a)))', '(clear)', '(row a 5)',
              '(clock 200)', '(ask (max a.x 1 1 (in a)))']
    return lines


def dense(maker):
    """Two streams of few values, many grants on both, nothing damaged."""
    maker.values = [0, 0, 0, 1, 1, 2]
    lines = [maker.stream(), maker.stream()]
    lines += [maker.clock_line() if maker.chance(0.3) else maker.row() for _ in range(10)]
    names = list(maker.streams)
    lines += [maker.grant('read', [name]) for name in names]
    for right in ['read', 'read', maker.choice(AGGREGATES), maker.choice(AGGREGATES)]:
        streams = names if maker.chance(0.6) else names[::-1]
        lines.append(maker.grant(right, streams if maker.chance(0.7) else streams[:1]))
    lines += [form('clock', maker.clock + 30), maker.caller()]
    for _ in range(5):
        query = maker.query()
        lines.append(form('ask', query))
        lines += [form('line', number, query) for number in maker.some([1, 2, 3])]
    return lines


def odd(maker):
    """Lines that meet or nearly meet checks, one after the other."""
    lines = [maker.stream() for _ in range(maker.choice([1, 2, 2, 3]))]
    lines += [maker.row() for _ in range(4)] + ['(clock 9)', '(caller (roles r))']
    lines += [form('grant', 'r', 'read', form('of', name), '(show *)') for name in maker.streams]
    maker.clock = 9
    for _ in range(22):
        line = maker.odd_query() if maker.chance(0.5) else maker.odd_line()
        lines.append(maker.word_changed(line) if maker.chance(0.3) else line)
    return lines


def late(maker):
    """Times at their upper bound, where no window can be closed before it."""
    lines = [maker.stream(), '(clock %d)' % (TOP - 1), maker.row(), '(clock %d)' % TOP, maker.row()]
    name = list(maker.streams)[0]
    of, show = form('of', name), '(show *)'
    lines += [form('grant', 'r', 'read', of, show, form('from', TOP)), maker.clock_line(),
              form('grant', 'r', 'read', of, show, form('to', TOP - 1)), form('clock', TOP + 1),
              form('grant', 'r', 'read', of, show, form('from', TOP), form('to', TOP)),
              '(caller (roles r))', form('ask', form('in', name))]
    for number in (1, 2, 3):
        lines.append(form('line', number, form('pick', form('<=', 'time', TOP), form('in', name))))
    return lines


def small_clocks(lines):
    """Windows are told by trying all up to the clock, which must not be far."""
    return ['(clock 199)' if line == form('clock', TOP) else line for line in lines]


def script(seed):
    """The lines of a seed's script, as bytes."""
    maker = Maker(seed)
    if seed % 400 == 399:
        lines = long_record(maker)
    elif seed % 40 == 39:
        lines = full(maker)
    elif seed % 40 == 29:
        lines = late(maker)
    elif seed % 10 == 9:
        lines = crowded(maker)
    elif seed % 10 == 4:
        lines = small_clocks(odd(maker))
    elif seed % 3 == 0:
        lines = dense(maker)
    else:
        lines = small_clocks(mixed(maker))
    return [line.encode('latin-1') for line in lines]


if __name__ == '__main__':
    for line in script(int(sys.argv[1])):
        sys.stdout.buffer.write(line + b'\n')
