#!/usr/bin/env python3
"""respell.py [ROOT]: brings the repository's own definitions and lemmas to today's spelling, once, after port.py.

A name that specs/ or proofs/*.antt declares: a dash becomes an underscore, a prime an apostrophe; a type of several words goes together in capitals. Names of src/, of the library, of goals and of
variables stay. It rewrites .antt files, the clauses and `ghost use` lines of .rt files, and the texts of must-fail edits, and prints names that fall together.
"""

import collections
import glob
import os
import re
import sys

TOKEN = re.compile(r"[^\s(){}\[\];,.\"]+")
DECLARED = re.compile(r"\s*(?:(?:unfoldable|abbrev|pub|data|record|mutual|ruleset)\s+)*((?:(?!(?:use|module|where|unfolding|open|mod|let|in|elim)\s)[^\s(){}\[\];,.\":=λ]+\s+)+?)(?:(?:\{[^}]*\}|\([^)]*\))\s*)*:\s")
NAMED = re.compile(r"\s*(?:pub )?(?:data|record|ruleset) (\S+)")
USE = re.compile(r"(?:ghost )?use ([^\s{]+)\.\{(.*)\}")
# Functions of the library, of which a lemma here would have the name.
FUNCTIONS = {'bit_or', 'bit_and'}


def antt(root):
    return sorted(glob.glob(os.path.join(root, 'crates/*/**/*.antt'), recursive=True))


def top(root, path):
    parts = os.path.relpath(path, os.path.join(root, 'crates')).split('/')
    return parts[1] == 'specs' or parts[1] == 'proofs' and len(parts) == 3


def new(name, types):
    plain = name.replace('′', "'")
    if name in types and plain[0].isupper():
        return ''.join(p[:1].upper() + p[1:] for p in plain.split('-'))
    return re.sub(r"(?<=[^\s-])-(?=[^-])", '_', plain)


def declared(root):
    """Names that the repository declares and that a respelling changes: old to new."""
    names, types = set(), set()
    for path in antt(root):
        if not top(root, path):
            continue
        with open(path, encoding='utf-8') as f:
            text = re.sub(r'\{-.*?-\}', '', f.read(), flags=re.S)
        for line in text.split('\n'):
            line = re.sub(r'(^|\s)--.*', '', line)
            if USE.match(line):
                continue
            m = DECLARED.match(line)
            if m:
                names.update(m[1].split())
                if re.search(r':.*\bType \d+( where)?$', line):
                    types.update(m[1].split())
            m = NAMED.match(line)
            if m:
                names.add(m[1])
                if 'ruleset' not in line.split(m[1])[0]:
                    types.add(m[1])
    table = {n: new(n, types) for n in names}
    return {n: m + '_lem' * (m in FUNCTIONS) for n, m in table.items() if n != m}


def foreign(text):
    """Names that a file takes from libraries."""
    found = set()
    for line in text.split('\n'):
        m = USE.match(line)
        if m and (not m[1].startswith('Rattle.') or m[1].startswith('Rattle.std.')):
            found.update(w for n in m[2].split(',') for w in n.strip().split(' as '))
    return found


def turned(text, table, stays):
    """A term's text with its names turned. A word behind a generated module's name stays."""
    def one(m):
        name = m[0]
        if name not in table or name in stays:
            return name
        before = text[:m.start()]
        if re.search(r'\b(tie|goal|reads|lts|[a-z-]+-reads|[a-z-]+-lts)\.$', before[-40:]):
            return name
        return table[name]
    return TOKEN.sub(one, text)


def turned_line(line, table, stays):
    m = re.search(r'(^|\s)--(\s|$)', line)
    code, comment = (line[:m.start()], line[m.start():]) if m else (line, '')
    m = USE.match(code)
    if m and (not m[1].startswith('Rattle.') or m[1].startswith('Rattle.std.')):
        return line
    comment = re.sub(r'`([^`]*)`', lambda q: '`' + turned(q[1], table, set()) + '`', comment)
    return turned(code, table, stays) + comment


def antt_file(root, path, table):
    with open(path, encoding='utf-8') as f:
        text = f.read()
    stays = foreign(text)
    if not top(root, path):
        stays |= {m[1] for m in re.finditer(r"^(?:abbrev )?(?:pub )?(\S+) : tie\.", text, re.M)}
    kept = []
    def hide(m):
        kept.append(m[0])
        return '\x00%d\x00' % (len(kept) - 1)
    hidden = re.sub(r'\{-.*?-\}', hide, text, flags=re.S)
    lines = [turned_line(line, table, stays) for line in hidden.split('\n')]
    return text, re.sub('\x00(\\d+)\x00', lambda m: kept[int(m[1])], '\n'.join(lines))


def clauses(text, table):
    """A .rt text with the names in its clauses, ghost items and `ghost use` lines turned."""
    out, at = [], 0
    for m in re.finditer(r'^ *ghost use [^;]*;|^[ \t]*(?:pub )?(?:requires|ensures|ghost)\b[^{\n]*\{', text, re.M):
        if m.start() < at:
            continue
        out.append(text[at:m.start()])
        end = m.end()
        if not m[0].lstrip().startswith('ghost use'):
            depth = 1
            while depth:
                depth += {'{': 1, '}': -1}.get(text[end], 0)
                end += 1
        piece = text[m.start():end]
        if 'Rattle.std.' in piece and piece.lstrip().startswith('ghost use'):
            out.append(piece)
        else:
            out.append(turned(piece, table, set()))
        at = end
    out.append(text[at:])
    return ''.join(out)


def edit_file(path, table):
    with open(path, encoding='utf-8') as f:
        text = f.read()
    name, lines = '', []
    for line in text.split('\n'):
        m = re.match(r'file: (.*)', line)
        if m:
            name = m[1]
        m = re.match(r'(old: ?|new: ?)(.*)', line)
        if m and name.endswith('.antt'):
            line = m[1] + turned_line(m[2], table, set())
        elif m and re.search(r'(requires|ensures|ghost)\b', m[2]):
            line = m[1] + turned(m[2], table, set())
        lines.append(line)
    return text, '\n'.join(lines)


def together(path, old, table, found):
    """Different names of a file that are one after the turn."""
    words = set(TOKEN.findall(re.sub(r'(^|\s)--.*', '', old, flags=re.M)))
    groups = collections.defaultdict(set)
    for w in words:
        groups[table.get(w, w)].add(w)
    for w, group in groups.items():
        if 1 < len(group):
            found.append('%s: %s' % (path, ', '.join(sorted(group))))


def main():
    root = os.path.abspath(sys.argv[1] if 1 < len(sys.argv) else '.')
    table, found, changed = declared(root), [], 0
    for path in antt(root):
        old, text = antt_file(root, path, table)
        together(os.path.relpath(path, root), old, table, found)
        if text != old:
            changed += 1
            with open(path, 'w', encoding='utf-8') as f:
                f.write(text)
    for path in sorted(glob.glob(os.path.join(root, 'crates/*/src/**/*.rt'), recursive=True)):
        with open(path, encoding='utf-8') as f:
            old = f.read()
        text = clauses(old, table)
        for m in re.finditer(r'fn \w+(?:<[^>]*>)?\(([^)]*)\)([^{;]*(?:(?:requires|ensures)[^{]*\{[^\n]*\n[^{]*)*)', old):
            names = set(re.findall(r'(\w+):', m[1]))
            for w in TOKEN.findall(m[2]):
                if w in table and table[w] in names:
                    found.append('%s: parameter %s, definition %s' % (os.path.relpath(path, root), table[w], w))
        if text != old:
            changed += 1
            with open(path, 'w', encoding='utf-8') as f:
                f.write(text)
    for path in sorted(glob.glob(os.path.join(root, '**/*.edit'), recursive=True)):
        old, text = edit_file(path, table)
        if text != old:
            changed += 1
            with open(path, 'w', encoding='utf-8') as f:
                f.write(text)
    print('respell: %d names, %d files' % (len(table), changed))
    for line in found:
        print('together: ' + line)


main()
