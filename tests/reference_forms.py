"""The reference's forms: their bounds, reading them, walking them, printing them.

Forms are tuples that begin with their word:
    query       ('in', S) ('pick', COND, Q) ('keep', [REF, ..], Q)
                ('join', (REF, REF), Q, Q) (FN, REF, SIZE, OFFSET, Q)
    condition   (OP, REF, TERM) ('and', [COND, ..]) ('or', [COND, ..]) ('not', [COND])
    REF         (S, C), ('self', NAME), 'time' or 'figure'
    TERM        a REF or an int
"""

import operator
import re

MAX_STREAMS, MAX_COLUMNS, MAX_ROWS, MAX_GRANTS = 4, 6, 128, 24
MAX_FORMS, MAX_DEPTH, MAX_LINE, MAX_NAME = 12, 8, 512, 8
MAX_ROLES, MAX_ENTRIES, MAX_ROUTES = 4, 4, 16

TOP = 2**31 - 1
INFINITY = float('inf')
VALUES = (-2**31, TOP)
TIMES = (0, TOP)
SIZES = (-INFINITY, TOP)
ROUTE_NUMBERS = (-INFINITY, INFINITY)

COMPARE = {'=': operator.eq, '/=': operator.ne, '<': operator.lt,
           '<=': operator.le, '>': operator.gt, '>=': operator.ge}
AGGREGATES = ('min', 'max', 'count', 'avg', 'sum')
RESERVED = ('self', 'time', 'figure')

NAME = re.compile('[a-z][a-z0-9]*')
NUMBER = re.compile('0|-?[1-9][0-9]*')


class Refused(Exception):
    def __init__(self, number):
        super().__init__(number)
        self.number = number


def refuse_if(condition, number):
    if condition:
        raise Refused(number)


def repeated(items):
    return any(item in items[:place] for place, item in enumerate(items))


# Lexing

def read_tree(text):
    """The nested lists of words that a line is; one space between items."""
    stack = [[]]
    item_due = True
    for token in re.findall('[() ]|[^() ]+', text):
        if token in (' ', ')'):
            refuse_if(item_due or len(stack) == 1, 1)
            if token == ' ':
                item_due = True
            else:
                done = stack.pop()
                stack[-1].append(done)
        else:
            refuse_if(not item_due, 1)
            if token == '(':
                stack.append([])
            else:
                stack[-1].append(token)
                item_due = False
    refuse_if(item_due or len(stack) != 1, 1)
    return stack[0][0]


def depth(tree):
    """Brackets open at once."""
    return 0 if isinstance(tree, str) else 1 + max(depth(item) for item in tree)


# Forms

def head(tree):
    """The word a form begins with."""
    refuse_if(isinstance(tree, str) or not isinstance(tree[0], str), 1)
    return tree[0]


class Grant:
    """A grant as written; `shown`, its columns in stream order, is added later."""


class Reader:
    """Makes forms of trees and refuses with 1 what is no stated form.

    1 goes before 3, so a name or number beyond its bound is only noted, in `over`.
    """

    def __init__(self):
        self.over = False

    def name(self, item):
        refuse_if(not isinstance(item, str) or not NAME.fullmatch(item), 1)
        self.over |= len(item) > MAX_NAME
        return item

    def number(self, item, bounds):
        refuse_if(not isinstance(item, str) or not NUMBER.fullmatch(item), 1)
        self.over |= not bounds[0] <= int(item) <= bounds[1]
        return int(item)

    def ref(self, item):
        refuse_if(not isinstance(item, str), 1)
        if item in ('time', 'figure'):
            return item
        parts = item.split('.')
        refuse_if(len(parts) != 2, 1)
        return (self.name(parts[0]), self.name(parts[1]))

    def term(self, item):
        if isinstance(item, str) and NUMBER.fullmatch(item):
            return self.number(item, VALUES)
        return self.ref(item)

    def condition(self, tree):
        word, rest = head(tree), tree[1:]
        if word in ('and', 'or') and rest or word == 'not' and len(rest) == 1:
            return (word, self.conditions(rest))
        refuse_if(word not in COMPARE or len(rest) != 2, 1)
        return (word, self.ref(rest[0]), self.term(rest[1]))

    def conditions(self, trees):
        return [self.condition(tree) for tree in trees]

    def equality(self, tree):
        refuse_if(head(tree) != '=' or len(tree) != 3, 1)
        return (self.ref(tree[1]), self.ref(tree[2]))

    def query(self, tree):
        word, rest = head(tree), tree[1:]
        if word == 'in' and len(rest) == 1:
            return (word, self.name(rest[0]))
        if word == 'pick' and len(rest) == 2:
            return (word, self.condition(rest[0]), self.query(rest[1]))
        if word == 'keep' and len(rest) >= 2:
            return (word, [self.ref(item) for item in rest[:-1]], self.query(rest[-1]))
        if word == 'join' and len(rest) == 3:
            return (word, self.equality(rest[0]), self.query(rest[1]), self.query(rest[2]))
        refuse_if(word not in AGGREGATES or len(rest) != 4, 1)
        size, offset = [self.number(item, SIZES) for item in rest[1:3]]
        return (word, self.ref(rest[0]), size, offset, self.query(rest[3]))

    def grant(self, items):
        refuse_if(len(items) < 4, 1)
        grant = Grant()
        grant.role, grant.right = self.name(items[0]), items[1]
        refuse_if(grant.right not in ('read',) + AGGREGATES, 1)
        grant.streams = [self.name(item) for item in self.part(items[2], 'of')]
        show = self.part(items[3], 'show')
        grant.shows_all = show == ['*']
        grant.show = [] if grant.shows_all else [self.ref(item) for item in show]
        options = items[4:]
        given = {}
        for word in ('when', 'from', 'to', 'window'):
            if options and head(options[0]) == word:
                given[word] = self.part(options.pop(0), word)
        refuse_if(options, 1)
        grant.when = self.conditions(given.get('when', []))
        grant.start = self.times(given, 'from', 1)
        grant.end = self.times(given, 'to', 1)
        grant.window = self.times(given, 'window', 2)
        return grant

    def part(self, tree, word):
        """What stands in a part that begins with the word; one item or more."""
        refuse_if(head(tree) != word or len(tree) < 2, 1)
        return tree[1:]

    def times(self, given, word, count):
        """The numbers of an optional part, None where it is absent."""
        if word not in given:
            return None
        refuse_if(len(given[word]) != count, 1)
        return [self.number(item, TIMES) for item in given[word]]

    def entry(self, tree):
        refuse_if(head(tree) != 'self' or len(tree) != 3, 1)
        return (self.name(tree[1]), self.number(tree[2], VALUES))


def tests(conditions):
    """The comparisons in a list of conditions."""
    found = []
    for condition in conditions:
        found += [condition] if condition[0] in COMPARE else tests(condition[1])
    return found


def terms(conditions):
    return [term for test in tests(conditions) for term in test[1:]]


def below(query):
    if query[0] in ('in', 'view'):
        return []
    return [query[2], query[3]] if query[0] == 'join' else [query[-1]]


def forms(query, words=None):
    """The forms of a query that begin with one of the words, outer first, left first."""
    inner = [form for part in below(query) for form in forms(part, words)]
    return [query] + inner if words is None or query[0] in words else inner


def streams_of(query):
    return [form[1] for form in forms(query, ['in'])]


def is_column(term):
    return isinstance(term, tuple) and term[0] != 'self'


def is_entry(term):
    return isinstance(term, tuple) and term[0] == 'self'


def columns_named(query, words):
    """The columns that forms beginning with the words name."""
    found = []
    for form in forms(query, words):
        if form[0] == 'pick':
            found += terms([form[1]])
        elif form[0] in AGGREGATES:
            found.append(form[1])
        elif form[0] != 'in':
            found += form[1]
    return [term for term in found if is_column(term)]


# Printing

def bracketed(*items):
    return '(%s)' % ' '.join(items)


def term_text(term):
    return '.'.join(term) if isinstance(term, tuple) else str(term)


def condition_text(condition):
    if condition[0] in COMPARE:
        return bracketed(condition[0], *map(term_text, condition[1:]))
    return bracketed(condition[0], *map(condition_text, condition[1]))


def query_text(query):
    word = query[0]
    if word == 'in':
        items = [query[1]]
    elif word == 'pick':
        items = [condition_text(query[1])]
    elif word == 'keep':
        items = [term_text(column) for column in query[1]]
    elif word == 'join':
        items = [condition_text(('=',) + query[1])]
    else:
        items = [term_text(item) for item in query[1:4]]
    return bracketed(word, *items, *map(query_text, below(query)))
