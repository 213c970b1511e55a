"""A copy of the crates of the definitions, as they stand in the working tree, with chosen proof modules alone.

The proofs that rest on a definition's shape are left out, so that what is checked in the copy is what
the definitions compute.
"""

import os
import shutil

ROOT = os.path.dirname(os.path.dirname(os.path.abspath(__file__)))
CRATES = ('lists', 'refusal', 'syntax', 'model', 'calls', 'samples')


def make_copy(copy, modules):
    """Makes the copy; `modules` has the proof modules to keep of each crate, each after those that it names."""
    with open(os.path.join(ROOT, 'crates.txt')) as lines:
        kept = [line for line in lines if line.split(':')[0] in CRATES]
    with open(os.path.join(copy, 'crates.txt'), 'w') as out:
        out.writelines(kept)
    for crate in CRATES:
        source, target = os.path.join(ROOT, 'crates', crate), os.path.join(copy, 'crates', crate)
        for part in ('specs', 'src'):
            if os.path.isdir(os.path.join(source, part)):
                shutil.copytree(os.path.join(source, part), os.path.join(target, part))
        os.makedirs(os.path.join(target, 'proofs'))
        for module in modules.get(crate, []):
            shutil.copy(os.path.join(source, 'proofs', module + '.antt'), os.path.join(target, 'proofs'))
        write_library(copy, crate, modules.get(crate, []))
    keep_declarations(os.path.join(copy, 'crates', 'refusal', 'src', 'lib.rt'))


def write_library(copy, crate, modules):
    with open(os.path.join(copy, 'crates', crate, 'proofs', 'Lib.antt'), 'w') as out:
        out.write(''.join('pub mod %s\n' % module for module in modules))


def keep_declarations(path):
    """Drops the functions, whose contracts would want their proofs."""
    with open(path) as lines:
        declarations = lines.read().split('\nimpl ')[0]
    with open(path, 'w') as out:
        out.write('\n'.join(line for line in declarations.split('\n') if not line.startswith('ghost ')) + '\n')
