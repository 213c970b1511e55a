"""retarget.py IN.ll OUT.ll CRATES [NAME ..] [+NAME ..]: the compiler's module for a Cortex-M0, with what it leaves unsaid said.

The module hands structs and slices over by pointer to a local of the caller, says nothing of that pointer, and copies what it points to at the start of each function. Said here, so that most of these copies go:
- the target; code for size; a struct of two words, which the module returns as one number, in memory as C expects it there; the named functions are not inlined, those with a + are, for the sake of the stack;
- of a pointer that a function only copies from: how much it points to, that it is read only and is no other argument's (which holds at each call, or it is not said); of the pointer to the result: that it is no other argument's;
- its alignment, where every call gives it; where a function does not write its copy, it has none (a copy whose place is kept may be written by that place; it is not where the sources, below CRATES, have no `let mut` of a parameter);
- where the life of a local begins and ends, so that locals share room; the zeros that a local is filled with are written there, and not where a copy overwrites all of them;
- a copy between two locals, or a local and an argument, does not overlap.
A measurement of the module and no supported target: outside every proof.
"""
import glob
import os
import re
import sys

from narrow import copy, fill, head

lines = open(sys.argv[1]).read().split('\n')
apart = {n for n in sys.argv[4:] if n[0] != '+'}
within = {n[1:] for n in sys.argv[4:] if n[0] == '+'}


def mutable_copies(crates):
    """The functions of the sources that make a mutable copy of a parameter, or have a mutable one."""
    found = set()
    for path in glob.glob(os.path.join(crates, '*', 'src', 'lib.rt')):
        crate, of, fn, params = path.split(os.sep)[-3], '', None, ''
        for line in open(path, encoding='utf-8'):
            m = re.match(r'impl (\w+) \{', line)
            if m:
                of = m.group(1) + '::'
            if line.startswith('}'):
                of = ''
            m = re.match(r'\s*(?:pub )?(?:extern "C" )?fn (\w+)\((.*)', line)
            if m:
                fn, params, open_ = crate + '::' + of + m.group(1), m.group(2), True
                if ')' in m.group(2):
                    open_ = False
                continue
            if fn and open_:
                params += line
                if re.match(r'\s*\)', line):
                    open_ = False
                continue
            m = re.search(r'let mut \w+(?:: [^=]+)? = (\w+);', line)
            if fn and m and re.search(r'\b%s\b' % m.group(1), params):
                found.add(fn)
            if fn and re.search(r'\bmut \w+:', params):
                found.add(fn)
    return found


mutable = mutable_copies(sys.argv[3])
functions, name = {}, None
for i, line in enumerate(lines):
    m = head.match(line)
    if m:
        name = m.group(3)
        functions[name] = dict(at=i, internal=bool(m.group(1)), params=m.group(4).split(', ') if m.group(4) else [], result=m.group(2), base={}, align={}, used={}, calls=[], copies=[])
        continue
    if line == '}' or name is None:
        name = None if line == '}' else name
        continue
    f = functions[name]
    m = re.match(r'  (%\w+) = alloca .*, align (\d+)', line)
    if m:
        f['align'][m.group(1)] = int(m.group(2))
        f['base'][m.group(1)] = (m.group(1), 0)
        continue
    m = re.match(r'  (%\w+) = getelementptr (?:inbounds )?(?:nuw )?i8, ptr (%\w+), i64 (\d+)$', line)
    if m:
        b = f['base'].get(m.group(2), (m.group(2), 0))
        f['base'][m.group(1)] = (b[0], b[1] + int(m.group(3)) if b[1] is not None else None)
        f['used'].setdefault(m.group(2), []).append('part')
        continue
    m = re.match(r'  (%\w+) = getelementptr .*?ptr (%\w+)', line)
    if m:
        b = f['base'].get(m.group(2), (m.group(2), 0))
        f['base'][m.group(1)] = (b[0], None)
        f['used'].setdefault(m.group(2), []).append('part')
        continue
    m = copy.match(line)
    if m:
        f['copies'].append(i)
        f['used'].setdefault(m.group(1), []).append(('to', int(m.group(3))))
        f['used'].setdefault(m.group(2), []).append(('from', int(m.group(3))))
        continue
    m = re.search(r'call [^@]*@("[^"]+"|[\w.]+)\((.*)\)', line)
    if m and not m.group(1).startswith('llvm.'):
        args = [a.split(' ') for a in m.group(2).split(', ')] if m.group(2) else []
        f['calls'].append((m.group(1), [(a[0], a[-1]) for a in args]))
    for v in re.findall(r'%a\d+\b', line):
        f['used'].setdefault(v, []).append('other')


def base_of(f, v):
    return f['base'].get(v, (v, 0))


def part_of(step, at):
    while step > 1 and (at is None or at % step):
        step //= 2
    return step


aligns, sizes, results, lone = {}, {}, set(), set()
for name, f in functions.items():
    for i, p in enumerate(f['params']):
        if not p.startswith('ptr') or not f['internal']:
            continue
        aligns[name, i] = 8
        uses = f['used'].get('%%a%d' % i, [])
        if uses and all(u != 'part' and u != 'other' and u[0] == 'from' for u in uses):
            sizes[name, i] = max(u[1] for u in uses)
            lone.add((name, i))
        elif i == 0 and f['result'].startswith('void') and uses and all(u != 'part' and u != 'other' and u[0] == 'to' for u in uses):
            results.add((name, i))
            sizes[name, i] = max(u[1] for u in uses)
            lone.add((name, i))
changed = True
while changed:
    changed = False
    for name, f in functions.items():
        for callee, args in f['calls']:
            for i, (kind, v) in enumerate(args):
                if kind != 'ptr' or (callee, i) not in aligns:
                    continue
                b, at = base_of(f, v)
                if b in f['align']:
                    step = part_of(f['align'][b], at)
                elif re.match(r'%a\d+$', b):
                    step = part_of(aligns.get((name, int(b[2:])), 1), at)
                else:
                    step = 1
                if step < aligns[callee, i]:
                    aligns[callee, i] = step
                    changed = True
                others = [base_of(f, w)[0] for j, (k, w) in enumerate(args) if k == 'ptr' and j != i]
                if (b in others or b not in f['align']) and (callee, i) in lone:
                    lone.discard((callee, i))
called = {c for f in functions.values() for c, _ in f['calls']}
gone = (apart | within) - {n.strip('"') for n in functions}
if gone:
    sys.exit('retarget.py: no such function: ' + ' '.join(sorted(gone)))


def elided(name, f, j):
    """Whether the copy at line j makes a local that stands for an argument: the local is written by it alone, before any use, and the argument by nothing."""
    m = copy.match(lines[j])
    own, source = m.group(1), m.group(2)
    i = int(source[2:])
    if (name, i) not in lone or (name, i) in results or own not in f['align'] or f['align'][own] > aligns.get((name, i), 1):
        return False
    parts = {v for v, (b, _) in f['base'].items() if b == own}
    fills = [k for k in range(f['at'] + 1, j) if fill.match(lines[k]) and fill.match(lines[k]).group(1) == own and fill.match(lines[k]).group(2) == m.group(3)]
    for k in range(f['at'] + 1, f['end']):
        line = lines[k]
        if k <= j and k > f['at'] + 1 and re.match(r'\S.*:', line):
            return False
        if k == j or k in fills or not parts & set(re.findall(r'%\w+', line)):
            continue
        if re.match(r'  %\w+ = (alloca|getelementptr|load|icmp)', line):
            if k < j and 'alloca' not in line and 'getelementptr' not in line:
                return False
            continue
        if k < j:
            return False
        m = copy.match(line)
        if m:
            if m.group(1) in parts:
                return False
        elif re.match(r'  store ', line):
            if line.split(', ptr ')[1].split(',')[0] in parts:
                return False
            if name.strip('"') in mutable:
                return False
        elif 'call ' in line:
            m = re.search(r'call [^@]*@("[^"]+"|[\w.]+)\((.*)\)', line)
            for n, a in enumerate(m.group(2).split(', ')):
                if a.split(' ')[-1] in parts and ((m.group(1), n) not in sizes or (m.group(1), n) in results):
                    return False
        else:
            return False
    for k in range(f['at'] + 1, f['end']):
        if k == j or k in fills or re.match(r'  %s = alloca ' % re.escape(own), lines[k]):
            lines[k] = ''
        else:
            lines[k] = re.sub(r'%s\b' % re.escape(own), source, lines[k])
    for v in parts:
        f['base'][v] = (source, f['base'][v][1])
    f['copies'].remove(j)
    return True


# A function's own copy of an argument that it only reads is the argument itself.
for name, f in functions.items():
    f['end'] = next(i for i in range(f['at'], len(lines)) if lines[i] == '}')
    while any(elided(name, f, j) for j in list(f['copies']) if re.match(r'%a\d+$', copy.match(lines[j]).group(2))):
        pass
for name, f in functions.items():
    for i in f['copies']:
        m = copy.match(lines[i])
        (a, x), (b, y) = base_of(f, m.group(1)), base_of(f, m.group(2))
        known = [v in f['align'] or re.match(r'%a\d+$', v) for v in (a, b)]
        if not all(known) or a == b or not (a in f['align'] or b in f['align']):
            continue
        step = [part_of(f['align'][v] if v in f['align'] else aligns.get((name, int(v[2:])), 1), at) for v, at in ((a, x), (b, y))]
        lines[i] = '  call void @llvm.memcpy.p0.p0.i64(ptr align %d %s, ptr align %d %s, i64 %s, i1 false)' % (step[0], m.group(1), step[1], m.group(2), m.group(3))
    if not f['internal'] or name not in called:
        continue
    params = []
    for i, p in enumerate(f['params']):
        if p.startswith('ptr'):
            said = ' noundef'
            if aligns.get((name, i), 1) > 1:
                said += ' align %d' % aligns[name, i]
            if (name, i) in lone:
                said += ' noalias captures(none) %s dereferenceable(%d)' % ('writeonly' if (name, i) in results else 'readonly', sizes[name, i])
            p = 'ptr%s %%a%d' % (said, i)
        params.append(p)
    m = head.match(lines[f['at']])
    mark = '#9' if name.strip('"') in apart else '#8' if name.strip('"') in within else m.group(5)
    lines[f['at']] = 'define internal %s@%s(%s) %s {' % (m.group(2), name, ', '.join(params), mark)


def spans(body):
    """Marks of life for the locals of a function that one block alone uses and whose place is not kept anywhere."""
    whose, locals_, kept, fills = {}, {}, set(), {}
    block = 0
    for i, line in enumerate(body):
        if re.match(r'\S.*:', line):
            block += 1
        m = re.match(r'  (%\w+) = alloca ', line)
        if m:
            whose[m.group(1)] = m.group(1)
            locals_[m.group(1)] = []
            continue
        m = fill.match(line)
        if m and m.group(1) in locals_ and m.group(1) not in fills and not locals_[m.group(1)]:
            fills[m.group(1)] = (block, i)
            continue
        names = set(re.findall(r'%\w+', line))
        m = re.match(r'  (%\w+) = getelementptr ', line)
        for v in names:
            if v in whose:
                locals_[whose[v]].append((block, i))
        if m:
            b = re.search(r'ptr (%\w+)', line).group(1)
            if b in whose:
                whose[m.group(1)] = whose[b]
            continue
        m = re.match(r'  store ptr (%\w+),', line)
        if m and m.group(1) in whose:
            kept.add(whose[m.group(1)])
        if re.match(r'  (%\w+ = )?(phi|select|ptrtoint|insertvalue|ret)|  ret', line):
            kept.update(whose[v] for v in names if v in whose)
    before, after, gone = {}, {}, set()
    for v, uses in locals_.items():
        if not uses or v in kept or len({b for b, _ in uses}) != 1:
            continue
        last = uses[-1][1]
        if re.match(r'  (br|switch|ret)', body[last]):
            continue
        begins = before.setdefault(uses[0][1], [])
        begins.append('  call void @llvm.lifetime.start.p0(ptr %s)' % v)
        if v in fills:
            begins.append(body[fills[v][1]])
            gone.add(fills[v][1])
        after.setdefault(last, []).append('  call void @llvm.lifetime.end.p0(ptr %s)' % v)
    out = []
    for i, line in enumerate(body):
        out += before.get(i, []) + [line] * (i not in gone) + after.get(i, [])
    return out


marked, body = [], None
for line in lines:
    if body is None:
        marked.append(line)
        if head.match(line):
            body = []
    elif line == '}':
        marked += spans(body) + [line]
        body = None
    else:
        body.append(line)
text = '\n'.join(marked)
for kind in 'start', 'end':
    if 'declare void @llvm.lifetime.%s' % kind not in text:
        text += '\ndeclare void @llvm.lifetime.%s.p0(ptr captures(none)) #1\n' % kind
text = re.sub(r'^target datalayout.*', 'target datalayout = "e-m:e-p:32:32-Fi8-i64:64-v128:64:128-a:0:32-n32-S64"', text, flags=re.M)
text = re.sub(r'^target triple.*', 'target triple = "thumbv6m-unknown-none-eabi"', text, flags=re.M)
text = re.sub(r'^attributes #0 = .*', 'attributes #0 = { nounwind optsize minsize }\nattributes #9 = { nounwind optsize minsize noinline }\nattributes #8 = { nounwind optsize minsize alwaysinline }', text, flags=re.M)
if '@llvm.memcpy.p0.p0.i64(ptr' in text and 'declare void @llvm.memcpy' not in text:
    text += '\ndeclare void @llvm.memcpy.p0.p0.i64(ptr noalias writeonly captures(none), ptr noalias readonly captures(none), i64, i1 immarg) #1\n'


def in_memory(m):
    return 'define void @%s(ptr sret([8 x i8]) align 4 %%out, %s' % (m.group(1), re.sub(r'^  ret i64 (\S+)', r'  store i64 \1, ptr %out, align 4\n  ret void', m.group(2), flags=re.M))


text = re.sub(r'^define (?:noundef )?i64 @(maltziru_\w+)\((.*?^\})', in_memory, text, flags=re.M | re.S)
open(sys.argv[2], 'w').write(text)
