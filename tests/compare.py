"""Compares the reference with the definitions, by computation.

    python3 tests/compare.py FIRST LAST [BATCH]
    python3 tests/compare.py --gate

For the seeds from FIRST up to, not including, LAST it writes what the reference
gives as theorems of crate `samples`, one for each script, has them checked, and
tells which fail. It works in a copy of the definitions as they stand in the
working tree. The exit status is 1 where a script differs; with --gate, for the
seeds that are listed below, also where one of the things in `wanted` is not met.
"""

import collections
import os
import random
import re
import shutil
import subprocess
import sys
import tempfile

import generate
import reference
from definitions import make_copy, write_library
from reference_forms import AGGREGATES, COMPARE, Reader, forms, is_entry, read_tree, tests

# Scripts of moderate length that meet all that is wanted.
GATE = [2, 10, 40, 42, 45, 47, 69, 90, 102, 111, 123, 132, 141, 189, 195, 240, 253, 256, 261, 273,
        276, 303, 306, 309, 315, 357, 369, 381, 399, 419, 420, 429, 432, 459, 498, 509, 518, 547, 549, 550,
        552, 562, 611, 615, 636, 640, 651, 669, 678, 681, 693, 704, 732, 737, 765, 769, 785, 789, 798, 799]

COPY = tempfile.mkdtemp()
PROOFS = os.path.join(COPY, 'crates', 'samples', 'proofs')

HEADER = '''-- What the reference gives for random scripts, from the definitions.
use mathlib.Core.Path.{◌≡◌, refl}
use mathlib.Core.List.{List, [], ◌∷◌, ◌++◌, map}
use Prim.Native.Nat.{ℕ, zero, suc}
use lib.IntN.{ℤ, pos, negsuc}
use lib.ListN.{replicate}
use Rattle.syntax.specs.Grammar.{Bytes, bytes}
use Rattle.calls.specs.Scripts.{Outcome, quiet, refusal, cells, text, script, scripts_compute}
'''


# What a script's theorem says

def listed(items):
    return '(%s)' % ' ∷ '.join(items + ['[]'])


def bytes_term(line):
    plain = all(32 <= byte < 127 and byte not in b'"\\' for byte in line)
    if plain:
        return '(bytes "%s")' % line.decode()
    return listed([str(byte) for byte in line])


def integer_term(number):
    return 'pos %d' % number if number >= 0 else 'negsuc %d' % (-number - 1)


def outcome_term(outcome):
    if outcome is None:
        return 'quiet'
    kind, content = outcome
    if kind == 'refused':
        return 'refusal %d' % content
    if kind == 'cells':
        return 'cells %s' % listed([integer_term(number) for number in content])
    return 'text %s' % bytes_term(content)


def theorem(name, lines, outcomes, cells, room):
    return '''
{0} : script (replicate {1} (pos 0)) (replicate {2} 0)
    ({3}) ≡
    ({4})
unfolding scripts_compute
{0} = refl
'''.format(name, cells, room, '\n    ∷ '.join([bytes_term(line) for line in lines] + ['[]']),
           '\n    ∷ '.join([outcome_term(outcome) for outcome in outcomes] + ['[]']))


# What has been compared

def lent(seed, lines):
    """Cells and bytes to lend: some numbers, or just what an answer takes, or one less."""
    chosen = random.Random(seed)
    taken = {'cells': [60, 200], 'text': [60, 300]}
    for outcome in reference.run_script(lines):
        if outcome and outcome[0] in taken and len(outcome[1]) < 500:
            taken[outcome[0]] += [len(outcome[1]), len(outcome[1]) - 1]
    if chosen.random() < 0.6:
        return [max(taken['cells']), max(taken['text'])]
    return [chosen.choice(taken['cells']), chosen.choice(taken['text'])]


def route_kinds(fixture, query):
    """The kind of each route, in order."""
    return [kind for kind, routes in enumerate((fixture.stream_routes, fixture.pair_routes,
                                                fixture.figure_routes), 1)
            for route in routes(query) if fixture.columns(route[2])]


def count_answer(counts, fixture, query):
    """Counts routes by kind; each rewritten line, run plainly, must give its route's rows."""
    routes, kinds = fixture.routes(query), route_kinds(fixture, query)
    for kind in set(kinds):
        counts['answers with a route of kind %d' % kind] += 1
    for route, kind in zip(routes, kinds):
        cells, text = fixture.route_cells(*route), fixture.route_text(query, route)
        assert cells[2:] == fixture.line_cells(text) and len(text) <= 4096, query
        assert len(forms(Reader().query(read_tree(text)))) <= 16, query
        counts['answered routes of kind %d, %s' % (kind, 'rows' if cells[3] else 'no row')] += 1


def count_conditions(counts, place, conditions):
    """Counts the connectives, comparisons and terms of conditions."""
    def walk(condition):
        counts['%s: %s' % (place, condition[0])] += 1
        for part in condition[1] if condition[0] not in COMPARE else []:
            walk(part)
    for condition in conditions:
        walk(condition)
    for _, left, right in tests(conditions):
        counts['%s: %s on the left' % (place, left if isinstance(left, str) else 'a column')] += 1
        kind = 'a number' if isinstance(right, int) else 'an entry' if is_entry(right) else 'a column'
        counts['%s: %s on the right' % (place, kind)] += 1


def count_grant(counts, tree):
    grant = Reader().grant(tree[1:])
    counts['grants: %s' % grant.right] += 1
    counts['grants of %d' % len(grant.streams)] += 1
    counts['grants that show %s' % ('*' if grant.shows_all else 'columns')] += 1
    for part in ('start', 'end', 'window'):
        counts['grants with %s' % part] += getattr(grant, part) is not None
    count_conditions(counts, 'grants', grant.when)


def count_query(counts, query):
    for form in forms(query):
        counts['queries: %s' % form[0]] += 1
        if form[0] == 'pick':
            count_conditions(counts, 'picks', [form[1]])


def count_outcome(counts, fixture, line, outcome):
    kind = outcome[0] if outcome else 'quiet'
    counts['refused %2d' % outcome[1] if kind == 'refused' else kind] += 1
    if kind == 'refused':
        return
    tree = read_tree(line.decode())
    counts['accepted %s' % tree[0]] += 1
    if tree[0] == 'grant':
        count_grant(counts, tree)
    if kind in ('cells', 'text'):
        query = fixture.checked(tree[-1], Reader())
        count_query(counts, query)
        if kind == 'cells':
            count_answer(counts, fixture, query)
        else:
            counts['lines of kind %d' % route_kinds(fixture, query)[int(tree[1]) - 1]] += 1


def wanted():
    """What the scripts of the gate must meet."""
    connectives = ('and', 'or', 'not') + tuple(COMPARE)
    return (['refused %2d' % number for number in range(1, 12)]
            + ['accepted %s' % verb for verb in ('stream', 'grant', 'clock', 'row', 'clear', 'caller', 'ask', 'line')]
            + ['queries: %s' % form for form in ('in', 'pick', 'keep', 'join') + AGGREGATES]
            + ['grants: %s' % right for right in ('read',) + AGGREGATES]
            + ['grants of 1', 'grants of 2', 'grants that show *', 'grants that show columns']
            + ['grants with %s' % part for part in ('start', 'end', 'window')]
            + ['%s: %s' % (place, word) for place in ('picks', 'grants') for word in connectives]
            + ['picks: %s on the left' % term for term in ('a column', 'time', 'figure')]
            + ['picks: %s on the right' % term for term in ('a column', 'a number')]
            + ['grants: %s on the right' % term for term in ('a column', 'a number', 'an entry')]
            + ['answered routes of kind %d, rows' % kind for kind in (1, 2, 3)]
            + ['lines of kind %d' % kind for kind in (1, 2, 3)])


def outcomes_of(seed, counts):
    lines = generate.script(seed)
    cells, room = lent(seed, lines)
    fixture = reference.Fixture(cells, room)
    outcomes = []
    for line in lines:
        outcomes.append(fixture.run(line))
        count_outcome(counts, fixture, line, outcomes[-1])
    counts['scripts'] += 1
    counts['script lines'] += len(lines)
    return lines, outcomes, cells, room


# The check

def write_held(theorems):
    with open(os.path.join(PROOFS, 'Held.antt'), 'w') as held:
        held.write(HEADER + ''.join(theorems))
    write_library(COPY, 'samples', ['Held'])


def check():
    done = subprocess.run(['rt', 'check'], cwd=os.path.join(COPY, 'crates', 'samples'), capture_output=True, text=True)
    return done.returncode, done.stdout + done.stderr


def first_difference(seed):
    """The length of the shortest beginning of a script on which the two differ."""
    lines, outcomes, cells, room = outcomes_of(seed, collections.Counter())
    equal, differ = 0, len(lines)
    while differ - equal > 1:
        middle = (equal + differ) // 2
        write_held([theorem('held_%d' % seed, lines[:middle], outcomes[:middle], cells, room)])
        if check()[0] == 0:
            equal = middle
        else:
            differ = middle
    return differ, lines[differ - 1], outcomes[differ - 1]


def compare(seeds, counts):
    theorems = [theorem('held_%d' % seed, *outcomes_of(seed, counts)) for seed in seeds]
    write_held(theorems)
    code, output = check()
    print('seeds %d to %d: %s' % (seeds[0], seeds[-1], 'all hold' if code == 0 else 'not proved'))
    if code != 0:
        print('\n'.join(re.findall('.*(?:error|rattle): .{0,300}', output)))
        for seed in sorted(set(re.findall(r'`held_(\d+)`', output)))[:2]:
            print('seed %s: line %d, %s, reference %s' % ((seed,) + first_difference(int(seed))))
    sys.stdout.flush()
    return code == 0


def compare_all(seeds, batch):
    """Compares them in batches; gives whether all hold, and what was met."""
    counts = collections.Counter()
    held = [compare(seeds[start:start + batch], counts) for start in range(0, len(seeds), batch)]
    for key in sorted(counts):
        print('%6d %s' % (counts[key], key))
    return all(held), counts


def main():
    gate = sys.argv[1:] == ['--gate']
    seeds = GATE if gate else list(range(int(sys.argv[1]), int(sys.argv[2])))
    batch = int(sys.argv[3]) if len(sys.argv) > 3 else 25
    try:
        make_copy(COPY, {})
        done = subprocess.run(['rt', 'all', 'check'], cwd=COPY, capture_output=True, text=True)
        if done.returncode != 0:
            sys.exit('the definitions are not accepted:\n' + done.stdout[-2000:])
        held, counts = compare_all(seeds, batch)
    finally:
        shutil.rmtree(COPY)
    missed = [thing for thing in wanted() if not counts[thing]] if gate else []
    for thing in missed:
        print('not met: ' + thing)
    return not held or bool(missed)


if __name__ == '__main__':
    sys.exit(main())
