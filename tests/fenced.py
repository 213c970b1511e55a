"""The fenced blocks of a page, and the examples among them: a block ```script with its ```output directly below."""

import subprocess


class Wrong(Exception):
    """What is wrong with a page, in words."""


def blocks(text):
    """The fenced blocks: the line each begins on, the words after its fence, its lines."""
    found, opened = [], None
    for number, line in enumerate(text.splitlines(), 1):
        if line.startswith('```') and opened is None:
            opened = (number, line[3:].split(), [])
        elif line.startswith('```'):
            found.append(opened)
            opened = None
        elif opened is not None:
            opened[2].append(line)
    if opened is not None:
        raise Wrong('line %d: a block without an end' % opened[0])
    return found


def of_word(found, word):
    return [block for block in found if block[1][:1] == [word]]


def examples(text):
    """Each script block with the lines of its output: (line number, words, lines, output)."""
    found = blocks(text)
    outputs = {number: lines for number, _, lines in of_word(found, 'output')}
    pairs = []
    for number, words, lines in of_word(found, 'script'):
        below = number + len(lines) + 2
        if below not in outputs:
            raise Wrong('line %d: a script without its output' % number)
        pairs.append((number, words[1:], lines, outputs[below]))
    if len(pairs) < len(outputs):
        raise Wrong('%d outputs, but %d examples' % (len(outputs), len(pairs)))
    if not pairs:
        raise Wrong('no example')
    return pairs


def run(command, lines):
    """The lines that a program prints for a script."""
    script = ''.join(line + '\n' for line in lines)
    said = subprocess.run(command, input=script.encode(), stdout=subprocess.PIPE).stdout.decode()
    if said and not said.endswith('\n'):
        raise Wrong('the last line printed has no end')
    return said.split('\n')[:-1]
