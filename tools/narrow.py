"""narrow.py [--numbers] IN.ll OUT.ll: the compiler's module for a machine whose memory has fewer than 2^32 bytes.

- A slice, which the module keeps as a pointer and a length of 64 bits, has a length of 32 bits.
- A pair of which one part is a pointer, as an iterator's next item, is read part by part, each from where the module keeps it.
- A number of 64 bits that is below 2^32 in every run is kept and handed over in 32 bits: a local, an argument or a result of a function that only this module calls.
  That it is below is found by the greatest value each number can have, from constants, narrower numbers, lengths, and the comparisons that a block stands behind; of what is read from memory nothing is known.
A number that is not found below stays as it is, so that no result changes. With --numbers slices stay as they are too, and the module runs on any machine (tests/narrow).
Outside every proof, as tools/retarget.py, which comes after it.
"""
import re
import sys

TOP = 2 ** 64 - 1
HIGH = 2 ** 32 - 1
head = re.compile(r'define (internal )?(.*?)@("[^"]+"|[\w.]+)\((.*)\) (#\d+) \{')
copy = re.compile(r'  call void @llvm\.memmove\.p0\.p0\.i64\(ptr (%\w+), ptr (%\w+), i64 (\d+), i1 false\)')
# Each local of several bytes is first filled with zeros.
fill = re.compile(r'  call void @llvm\.memset\.p0\.i64\(ptr (%\w+), i8 0, i64 (\d+), i1 false\)')
call = re.compile(r'  (?:(%\w+) = )?call ([^@]*)@("[^"]+"|[\w.]+)\((.*)\)(.*)$')


def arguments(text):
    return [a.split(' ') for a in text.split(', ')] if text else []


def read_low(v, place):
    """A number of which the lower half is kept in a place."""
    return ['  %sn = load i32, ptr %s, align 4' % (v, place), '  %s = zext i32 %sn to i64' % (v, v)]


def bodies(lines):
    """Each function with the lines of its body."""
    name = None
    for i, line in enumerate(lines):
        m = head.match(line)
        if m:
            name, start = m.group(3), i
        elif line == '}':
            yield name, start, i
            name = None


# ---- pairs

def parts(lines):
    """The module with each pair that holds a pointer read part by part, from where the module keeps its parts: a narrower machine would look for the second elsewhere."""
    out = []
    for line in lines:
        m = re.match(r'  (%\w+) = ptrtoaddr ptr (%\w+) to i64', line)
        if m:
            out += ['  %sx = ptrtoaddr ptr %s to i32' % m.groups(), '  %s = zext i32 %sx to i64' % (m.group(1), m.group(1))]
            continue
        m = re.match(r'  (%\w+) = load (\{ (?:ptr, (\w+)|(\w+), ptr) \}), ptr (%\w+)', line)
        if not m:
            out.append(line)
            continue
        v, pair, place = m.group(1), m.group(2), m.group(5)
        first, second = pair[2:-2].split(', ')
        out += [
            '  %sx = load %s, ptr %s, align %d' % (v, first, place, 1 if first == 'i8' else 8),
            '  %sp = getelementptr i8, ptr %s, i64 8' % (v, place),
            '  %sy = load %s, ptr %sp, align %d' % (v, second, v, 1 if second == 'i8' else 8),
            '  %sz = insertvalue %s undef, %s %sx, 0' % (v, pair, first, v),
            '  %s = insertvalue %s %sz, %s %sy, 1' % (v, pair, v, second, v),
        ]
    return out


# ---- slices

def slices(lines):
    """The module with 8 bytes a slice: a pointer, and a length of 32 bits."""
    parent, marks = {}, {}

    def find(x):
        while parent.setdefault(x, x) != x:
            parent[x] = x = parent[parent[x]]
        return x

    said = []
    for name, start, end in bodies(lines):
        for line in lines[start + 1:end]:
            m = re.match(r'  (%\w+) = alloca (.*)', line)
            if m:
                said.append(((name, m.group(1)), 'room' if m.group(2) == '[16 x i8], align 8' else 'other'))
                continue
            m = re.match(r'  (%\w+) = ', line)
            if m:
                # A place that is found by a pointer may be part of something wider.
                said.append(((name, m.group(1)), 'other'))
            m = copy.match(line)
            if m:
                for k in 1, 2:
                    said.append(((name, m.group(k)), 'room' if m.group(3) == '16' else 'other'))
                parent[find((name, m.group(1)))] = find((name, m.group(2)))
                continue
            m = fill.match(line)
            if m:
                said.append(((name, m.group(1)), 'room' if m.group(2) == '16' else 'other'))
                continue
            m = re.match(r'  %\w+ = load (\w+), ptr (%\w+)', line) or re.match(r'  store (\w+) \S+, ptr (%\w+)', line)
            if m:
                said.append(((name, m.group(2)), 'pointer' if m.group(1) == 'ptr' else 'other'))
                m = re.match(r'  store ptr (%\w+),', line)
                if m:
                    said.append(((name, m.group(1)), 'other'))
                continue
            m = call.match(line)
            if m and not m.group(3).startswith('llvm.'):
                for i, a in enumerate(arguments(m.group(4))):
                    if a[0] == 'ptr':
                        parent[find((name, a[-1]))] = find((m.group(3), '%%a%d' % i))
    for place, what in said:
        marks.setdefault(find(place), set()).add(what)

    def is_slice(name, v):
        return marks.get(find((name, v)), set()) == {'room', 'pointer'}

    out, at = [], 0
    for name, start, end in bodies(lines):
        out += lines[at:start + 1]
        lengths = set()
        for line in lines[start + 1:end]:
            m = re.match(r'  (%\w+) = alloca \[16 x i8\], align 8', line)
            if m and is_slice(name, m.group(1)):
                out.append('  %s = alloca [8 x i8], align 4' % m.group(1))
                continue
            m = copy.match(line) or fill.match(line)
            if m and is_slice(name, m.group(1)):
                out.append(line.replace('i64 16,', 'i64 8,'))
                continue
            m = re.match(r'(  (%\w+) = getelementptr i8, ptr (%\w+), i64 )8$', line)
            if m and is_slice(name, m.group(3)):
                lengths.add(m.group(2))
                out.append(m.group(1) + '4')
                continue
            m = re.match(r'  (%\w+) = load i64, ptr (%\w+)', line)
            if m and m.group(2) in lengths:
                out += read_low(*m.groups())
                continue
            m = re.match(r'  store i64 (\S+), ptr (%\w+)', line)
            if m and m.group(2) in lengths:
                v, to = m.groups()
                if v[0] == '%':
                    out.append('  %st = trunc i64 %s to i32' % (to, v))
                    v = to + 't'
                out.append('  store i32 %s, ptr %s, align 4' % (v, to))
                continue
            m = re.search(r'ptr (%\w+), align 8', line)
            if m and (m.group(1) in lengths or is_slice(name, m.group(1))):
                line = line.replace('align 8', 'align 4')
            out.append(line)
        at = end
    return out + lines[at:]


# ---- the greatest value of a number

def top(kind):
    return 2 ** int(kind[1:]) - 1


def spread(n):
    return 2 ** n.bit_length() - 1


def result(op, flags, kind, x, y):
    """The greatest result of an operation on numbers of at most x and y."""
    most = top(kind)
    if 'nsw' in flags:
        return most
    if op == 'add':
        return min(x + y, most) if 'nuw' in flags or x + y <= most else most
    if op == 'mul':
        return min(x * y, most) if 'nuw' in flags or x * y <= most else most
    if op == 'sub':
        return x if 'nuw' in flags else most
    if op == 'and':
        return min(x, y)
    if op in ('or', 'xor'):
        return spread(max(x, y))
    if op in ('udiv', 'lshr'):
        return x
    if op == 'urem':
        return min(x, max(y - 1, 0))
    return most


class Function:
    def __init__(self, name, m, body):
        self.name, self.internal, self.body = name, bool(m.group(1)), body
        self.params = m.group(4).split(', ') if m.group(4) else []
        self.result = m.group(2)
        self.locals, kept = {}, set()
        for line in body:
            m = re.match(r'  (%\w+) = alloca (i\d+),', line)
            if m:
                self.locals[m.group(1)] = m.group(2)
                continue
            uses = re.findall(r'%\w+', line)
            m = re.match(r'  %\w+ = load i\d+, ptr (%\w+)', line) or re.match(r'  store i\d+ \S+, ptr (%\w+)', line)
            if m:
                uses.remove(m.group(1))
            kept.update(uses)
        for v in kept:
            self.locals.pop(v, None)
        self.blocks, label = {}, None
        for line in body:
            m = re.match(r'"?([\w.]+)"?:', line)
            if m:
                label = m.group(1)
                self.blocks[label] = []
            elif line.strip():
                self.blocks[label].append(line)


def analyse(f, params, returns):
    """Greatest values in a function of those of its parameters and its callees' results: of all it stores, hands over and returns."""
    order = list(f.blocks)
    ways = {}  # what holds on each way between two blocks
    values = {}

    def value(v, state):
        if re.match(r'-?\d+$', v):
            return int(v) if int(v) >= 0 else TOP
        if v in ('true', 'false'):
            return 1
        if re.match(r'%a\d+$', v):
            return state.get(v, TOP)
        return values.get(v, TOP)

    def block(label, state, found):
        """Leaves what holds after a block on each way out of it."""
        state = dict(state)
        read, tests, flag = {}, {}, {}
        out = []
        for line in f.blocks[label]:
            m = re.match(r'  (%\w+) = load (i\d+), ptr (%\w+)', line)
            if m:
                v, kind, place = m.groups()
                values[v] = state.get(place, top(kind)) if place in f.locals else top(kind)
                if place in f.locals:
                    read[v] = place
                    if place in flag:
                        tests[v] = flag[place]
                continue
            m = re.match(r'  store (i\d+) (\S+), ptr (%\w+)', line)
            if m:
                kind, v, place = m.groups()
                if place in f.locals:
                    state[place] = min(value(v, state), top(kind))
                    read = {k: p for k, p in read.items() if p != place}
                    flag.pop(place, None)
                    if v in tests:
                        flag[place] = tests[v]
                    found.setdefault(('store', place), []).append(state[place])
                continue
            m = re.match(r'  (%\w+) = icmp (\w+) (i\d+) (\S+), (\S+)$', line)
            if m:
                v, op, kind, x, y = m.groups()
                values[v] = 1
                tests[v] = (op, x, y, value(x, state), value(y, state), True)
                continue
            m = re.match(r'  (%\w+) = (zext|trunc)((?: \w+)*) (i\d+) (\S+) to (i\d+)', line)
            if m:
                v, op, flags, kind, x, to = m.groups()
                values[v] = min(value(x, state), top(to)) if op == 'zext' or value(x, state) <= top(to) else top(to)
                if x in tests:
                    tests[v] = tests[x]
                continue
            m = re.match(r'  (%\w+) = xor i1 (%\w+), true', line)
            if m:
                values[m.group(1)] = 1
                if m.group(2) in tests:
                    t = tests[m.group(2)]
                    tests[m.group(1)] = t[:5] + (not t[5],)
                continue
            m = re.match(r'  (%\w+) = (\w+)((?: \w+)*) (i\d+) (\S+), (\S+)$', line)
            if m and m.group(2) in ('add', 'sub', 'mul', 'udiv', 'urem', 'and', 'or', 'xor', 'lshr', 'shl', 'sdiv', 'srem', 'ashr'):
                v, op, flags, kind, x, y = m.groups()
                if op == 'udiv' and re.match(r'\d+$', y) and int(y):
                    values[v] = value(x, state) // int(y)
                else:
                    values[v] = result(op, flags, kind, value(x, state), value(y, state))
                continue
            m = call.match(line)
            if m:
                v, kind, callee, args = m.group(1), m.group(2), m.group(3), arguments(m.group(4))
                if not callee.startswith('llvm.'):
                    for i, a in enumerate(args):
                        if re.match(r'i\d+$', a[0]):
                            found.setdefault(('argument', callee, i), []).append(value(a[-1], state))
                if v:
                    k = re.search(r'\bi\d+', kind)
                    most = top(k.group(0)) if k else TOP
                    values[v] = 32 if callee in ('llvm.ctpop.i32', 'llvm.cttz.i32') else min(most, returns.get(callee, most))
                continue
            m = re.match(r'  ret i\d+ (\S+)', line)
            if m:
                found.setdefault(('return',), []).append(value(m.group(1), state))
                continue
            m = re.match(r'  br label %"?([\w.]+)"?', line)
            if m:
                out.append((m.group(1), state))
                continue
            m = re.match(r'  br i1 (\S+), label %"?([\w.]+)"?, label %"?([\w.]+)"?', line)
            if m:
                for way, holds in ((m.group(2), True), (m.group(3), False)):
                    out.append((way, behind(state, read, tests.get(m.group(1)), holds)))
                continue
            if re.match(r'  switch ', line):
                out += [(way, state) for way in re.findall(r'label %"?([\w.]+)"?', ' '.join(f.blocks[label]))]
                continue
            m = re.match(r'  (%\w+) = ', line)
            if m:
                values[m.group(1)] = TOP
        return out

    def behind(state, read, test, holds):
        """The state behind a comparison."""
        if not test:
            return state
        op, x, y, most_x, most_y, plain = test
        holds = holds == plain
        new = dict(state)

        def limit(v, most):
            place = read.get(v) or (v if re.match(r'%a\d+$', v) else None)
            if place and most < new.get(place, TOP):
                new[place] = max(most, 0)

        if op == 'ult':
            limit(x, most_y - 1) if holds else limit(y, most_x)
        elif op == 'ule':
            limit(x, most_y) if holds else limit(y, most_x - 1)
        elif op == 'eq' and holds or op == 'ne' and not holds:
            limit(x, most_y)
            limit(y, most_x)
        return new

    first = {'%%a%d' % i: min(params[i], top(p.split(' ')[0])) for i, p in enumerate(f.params) if re.match(r'i\d+ ', p)}

    def entry(label):
        comes = [s for (_, b), s in ways.items() if b == label]
        if label == order[0]:
            comes.append(first)
        if not comes:
            return None
        keys = set(comes[0])
        for s in comes[1:]:
            keys &= set(s)
        return {k: max(s[k] for s in comes) for k in keys}

    def turn(limit):
        """All blocks once more: what holds on the ways between them, by what held before."""
        new = {}
        for label in order:
            state = entry(label)
            if state is None:
                continue
            if limit is not None:
                old = limit.setdefault(label, state)
                # what still grows may be anything
                state = limit[label] = {k: v for k, v in state.items() if k in old and v <= old[k]}
            for way, s in block(label, state, {}):
                key = (label, way)
                new[key] = {k: max(s[k], new[key][k]) for k in s if k in new[key]} if key in new else s
        return new

    # up, until nothing changes: what still grows after some turns may be anything
    limit = None
    for n in range(40):
        limit = {} if n == 4 else limit
        seen = dict(values)
        new = turn(limit)
        if new == ways and seen == values:
            break
        ways.clear()
        ways.update(new)
    assert new == ways and seen == values, f.name
    # and down, from what holds
    for _ in range(3):
        new = turn(None)
        assert all(k in new[key] and new[key][k] <= v for key in new for k, v in ways[key].items()), f.name
        ways.clear()
        ways.update(new)
    found = {}
    for label in order:
        state = entry(label)
        if state is not None:
            block(label, state, found)
    return found


def handed(functions, returns):
    """What is found of each function and the greatest values of its parameters, where results are at most what is known of them."""
    params = {n: [-1 if f.internal else TOP] * len(f.params) for n, f in functions.items()}
    found, times = {}, {}
    waiting = [n for n, f in functions.items() if not f.internal]
    while waiting:
        name = waiting.pop()
        f = functions[name]
        if any(v < 0 for v, p in zip(params[name], f.params) if not p.startswith('ptr')):
            continue
        times[name] = times.get(name, 0) + 1
        found[name] = analyse(f, params[name], returns)
        for line in f.body:
            m = call.match(line)
            if m and m.group(3) in functions and m.group(3) not in found and m.group(3) not in waiting:
                waiting.append(m.group(3))
        for key, most in found[name].items():
            if key[0] == 'argument' and key[1] in functions and max(most) > params[key[1]][key[2]]:
                params[key[1]][key[2]] = TOP if times.get(key[1], 0) > 12 else max(most)
                if key[1] not in waiting:
                    waiting.append(key[1])
    return params, found


def greatest(functions):
    """What is found of each function, with the greatest values of all parameters and results: first where nothing is known of results, then by what was found of them."""
    returns = {}
    for _ in range(4):
        params, found = handed(functions, returns)
        returns = {n: max(v[('return',)]) for n, v in found.items() if ('return',) in v}
    return params, returns, found


# ---- narrower numbers

def narrowed(lines):
    functions = {}
    for name, start, end in bodies(lines):
        functions[name] = Function(name, head.match(lines[start]), lines[start + 1:end])
    params, returns, found = greatest(functions)
    small_params = {(n, i) for n, f in functions.items() if f.internal and n in found for i, p in enumerate(f.params) if p.startswith('i64 ') and params[n][i] <= HIGH}
    small_results = {n for n, f in functions.items() if f.internal and n in found and 'i64' in f.result and returns.get(n, TOP) <= HIGH}
    out, at, fresh = [], 0, 0

    def part(v):
        nonlocal fresh
        if v[0] != '%':
            return v
        fresh += 1
        out.append('  %%q%d = trunc i64 %s to i32' % (fresh, v))
        return '%%q%d' % fresh

    for name, start, end in bodies(lines):
        f = functions[name]
        out += lines[at:start]
        at = end
        small = {v for v, kind in f.locals.items() if kind == 'i64' and name in found and max(found[name].get(('store', v), [TOP])) <= HIGH}
        m = head.match(lines[start])
        own = [i for i in range(len(f.params)) if (name, i) in small_params]
        listed = [p.replace('i64', 'i32', 1) + 'n' if i in own else p for i, p in enumerate(f.params)]
        kind = f.result.replace('i64', 'i32') if name in small_results else f.result
        out.append('define %s%s@%s(%s) %s {' % (m.group(1) or '', kind, name, ', '.join(listed), m.group(5)))
        for line in f.body:
            if line == 'start:':
                out.append(line)
                out += ['  %%a%d = zext i32 %%a%dn to i64' % (i, i) for i in own]
                continue
            m = re.match(r'  (%\w+) = alloca i64', line)
            if m and m.group(1) in small:
                out.append('  %s = alloca i32, align 4' % m.group(1))
                continue
            m = re.match(r'  (%\w+) = load i64, ptr (%\w+)', line)
            if m and m.group(2) in small:
                out += read_low(*m.groups())
                continue
            m = re.match(r'  store i64 (\S+), ptr (%\w+)', line)
            if m and m.group(2) in small:
                v = part(m.group(1))
                out.append('  store i32 %s, ptr %s, align 4' % (v, m.group(2)))
                continue
            m = re.match(r'  ret i64 (\S+)', line)
            if m and name in small_results:
                v = part(m.group(1))
                out.append('  ret i32 %s' % v)
                continue
            m = call.match(line)
            if m and m.group(3) in functions:
                v, kind, callee, args, rest = m.groups()
                listed = []
                for i, a in enumerate(arguments(args)):
                    listed.append('i32 ' + part(a[-1]) if (callee, i) in small_params else ' '.join(a))
                if callee in small_results and v:
                    out += ['  %sn = call %s@%s(%s)' % (v, kind.replace('i64', 'i32'), callee, ', '.join(listed)), '  %s = zext i32 %sn to i64' % (v, v)]
                else:
                    if callee in small_results:
                        kind = kind.replace('i64', 'i32')
                    out.append('  %scall %s@%s(%s)%s' % (v + ' = ' if v else '', kind, callee, ', '.join(listed), rest))
                continue
            out.append(line)
    return out + lines[at:]


if __name__ == '__main__':
    source, made = sys.argv[-2:]
    module = open(source).read().split('\n')
    open(made, 'w').write('\n'.join(narrowed(module if '--numbers' in sys.argv else slices(parts(module)))))
