"""sizes.py: text and constants of an object by crate, and of each function of 100 bytes or more, from the names and sizes of its symbols."""
import re
import sys
from collections import Counter

functions = Counter()
for line in sys.stdin:
    parts = line.split()
    if len(parts) == 4 and parts[2].lower() in "tr":
        functions[parts[3]] += int(parts[1], 16)


def crate(name):
    m = re.search(r"([a-z_]+)(::|\.\.|\$)", name)
    return m.group(1) if m else name


crates = Counter()
for name, n in functions.items():
    crates[crate(name)] += n
for name, n in crates.most_common():
    print(f"{n:8d}  {name}")
print("-- functions")
for name, n in functions.most_common():
    if n >= 100:
        print(f"{n:8d}  {name}")
print(f"{sum(functions.values()):8d}  all")
