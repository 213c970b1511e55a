"""Compares the script program with the reference, on random scripts.

    python3 tests/program.py FIRST LAST

For the seeds from FIRST up to, not including, LAST it runs crates/program/out/program and
tells which scripts it prints otherwise than the reference. It runs scripts of odd
lines too, with --explain and without: long ones, empty ones, bytes that are no text, no
line feed at the end, more input than a block, more output than is kept.
"""

import os
import subprocess
import sys

import reference

HERE = os.path.dirname(os.path.abspath(__file__))
PROGRAM = os.path.join(os.path.dirname(HERE), 'crates', 'program', 'out', 'program')

ODD = [
    b'', b'\n', b'\n\n', b'(clear)', b'(clear)\n', b'(clear)\n\n', b'(clear)\r\n', b'(clear)\0\n', b'\xff\n(clear)\n(clock 1',
    b'x' * 512 + b'\n' + b'x' * 513 + b'\n(clear)\n' + b'(' * 514, b'x' * 65535 + b'\n(clock -1)', b'x' * 65536 + b'\n(clock -1)\n',
    b'x' * 200001 + b'\n(clear)\n(cleat)', b'(clear)\n' * 20000 + b'(clear', b'(cleat)\n' * 20000 + b'(clock 1)\n(clock 0)',
    b'(stream a x)\n(grant r read (of a) (show *))\n(caller (roles r))\n' + b'(row a 7)\n' * 100 + b'(ask (in a))\n(clear)\n(clock 0)\n' + b'(ask (in a))\n' * 9000,
]


def expected(script):
    lines = script.split(b'\n')
    if lines[-1] == b'':
        lines.pop()
    return ''.join(line + '\n' for outcome in reference.run_script(lines) for line in reference.printed(outcome)).encode()


def main():
    first, last = map(int, sys.argv[1:])
    scripts = [('odd %d %s' % (i, ' '.join(words)), script, words) for i, script in enumerate(ODD) for words in ([], ['--explain'])]
    for seed in range(first, last):
        made = subprocess.run([sys.executable, os.path.join(HERE, 'generate.py'), str(seed)], capture_output=True, check=True)
        scripts.append(('seed %d' % seed, made.stdout, []))
    differ = 0
    for name, script, words in scripts:
        got = subprocess.run([PROGRAM, *words], input=script, capture_output=True, check=True).stdout
        if got != expected(script):
            differ += 1
            print('%s: not what the reference prints' % name)
    print('scripts %d, printed otherwise %d' % (len(scripts), differ))
    sys.exit(1 if differ else 0)


if __name__ == '__main__':
    main()
