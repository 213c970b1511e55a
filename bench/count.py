"""count.py COUNTS SAID: instructions and milliseconds at 48 MHz of each case, from what bench/cycles.c counted, beside what the program said of it. The first case is no call and is taken off."""
import sys

counts = [tuple(int(x) for x in line.split()) for line in open(sys.argv[1])]
said = [line[1:].rstrip("\n").split("|") for line in open(sys.argv[2]) if line.startswith("#")]
if len(said) != len(counts) or not said:
    sys.exit("the program ended early: " + open(sys.argv[2]).read()[:500])
none = counts[0]
for (_, label, answer, stack, _), (n, cycles) in zip(said, counts):
    print(f"{n - none[0]:10d}  {(cycles - none[1]) / 48000:10.3f}  {stack:>6}  {answer:>4}  {label}")
