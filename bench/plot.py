"""plot.py HERE THERE: reads what bench/growth prints of this machine and of the chip, writes an SVG with one panel for each axis: instructions here, and time on the chip as it was counted there."""
import sys

WIDE, HIGH, FOOT = 500, 320, 30  # of a panel, and of the line below all
LEFT, RIGHT, TOP, LOW = 76, 62, 44, 52  # around its curves
TITLES = {
    "rows of a stream": ("Rows", "rows of each stream"),
    "grants": ("Grants", "grants in the catalogue"),
    "windows of a row": ("Overlapping windows", "windows that hold a row (SIZE / OFFSET)"),
    "bytes of text": ("Text", "bytes of the query (a pick of 0 to 25 comparisons)"),
}
COLOURS = ["#1b5e9e", "#c2501b", "#3a7d44"]
STYLE = "text{font-family:sans-serif;font-size:12px;fill:#222}.t{font-size:15px;font-weight:bold}.g{stroke:#ddd}.a{stroke:#444}"


def read(here, there):
    """axis -> curve -> points (x, instructions here, milliseconds on the chip)"""
    times = {}
    for line in there:
        parts = line.split(None, 4)
        if len(parts) == 5 and ";" in parts[4]:
            times[parts[4].strip()] = float(parts[1])
    panels = {}
    for line in here:
        parts = line.split(None, 3)
        if len(parts) < 4 or ";" not in parts[3]:
            continue
        label = parts[3].strip()
        axis, curve, x = label.split("; ")
        x = int(parts[1]) if axis == "bytes of text" else int(x)
        panels.setdefault(axis, {}).setdefault(curve, []).append((x, int(parts[0]), times[label]))
    return panels


def ticks(top):
    """round numbers from 0 to at least `top`"""
    step = next(m * 10**e for e in range(9) for m in (1, 2, 5) if m * 10**e * 6 >= top)
    return [step * i for i in range(int(-(-top // step)) + 1)]


def text(x, y, s, anchor="middle", more=""):
    return f'<text x="{x:.1f}" y="{y:.1f}" text-anchor="{anchor}"{more}>{s}</text>'


def line(x1, y1, x2, y2, kind):
    return f'<line x1="{x1:.1f}" y1="{y1:.1f}" x2="{x2:.1f}" y2="{y2:.1f}" class="{kind}"/>'


def marks(curves):
    """where the axes have numbers: across at the points, where these do not crowd; up on either side at round numbers, with room for the names of the curves"""
    xs = sorted({p[0] for points in curves.values() for p in points})
    wide = xs[-1]
    kept = [x for i, x in enumerate(xs) if x == wide or (x * 12 >= wide and xs[i + 1] - x >= wide / 12)]
    up = [ticks(max(p[k] for points in curves.values() for p in points) * (8 + len(curves)) / 8) for k in (1, 2)]
    return ([0] if kept[0] else []) + kept, up


def curve(places, colour, there):
    """solid with full points for this machine, dashed with open ones for the chip"""
    dash, fill = (' stroke-dasharray="5 4"', "#fff") if there else ("", colour)
    out = [f'<polyline fill="none" stroke="{colour}" stroke-width="2"{dash} points="{" ".join(f"{x:.1f},{y:.1f}" for x, y in places)}"/>']
    return out + [f'<circle cx="{x:.1f}" cy="{y:.1f}" r="3.5" stroke="{colour}" fill="{fill}"/>' for x, y in places]


def panel(axis, curves, px, py):
    title, unit = TITLES[axis]
    across, up = marks(curves)
    x0, y0, x1, y1 = px + LEFT, py + HIGH - LOW, px + WIDE - RIGHT, py + TOP
    at = lambda x, y, k: (x0 + (x1 - x0) * x / across[-1], y0 - (y0 - y1) * y / up[k][-1])
    out = [text((x0 + x1) / 2, py + 22, title, more=' class="t"'), text((x0 + x1) / 2, y0 + 38, unit)]
    for x, name in ((px + 16, "instructions, x86-64"), (x1 + 50, "ms, Cortex-M0 at 48 MHz")):
        out.append(text(0, 0, name, more=f' transform="translate({x} {(y0 + y1) / 2:.1f}) rotate(-90)"'))
    for y in up[0]:
        out += [line(x0, at(0, y, 0)[1], x1, at(0, y, 0)[1], "g"), text(x0 - 6, at(0, y, 0)[1] + 4, f"{y:,}", "end")]
    for y in up[1]:
        out += [line(x1, at(0, y, 1)[1], x1 + 5, at(0, y, 1)[1], "a"), text(x1 + 9, at(0, y, 1)[1] + 4, f"{y:,}", "start")]
    for x in across:
        out += [line(at(x, 0, 0)[0], y0, at(x, 0, 0)[0], y0 + 5, "a"), text(at(x, 0, 0)[0], y0 + 19, f"{x:,}")]
    out += [line(x0, y0, x1, y0, "a"), line(x0, y0, x0, y1, "a"), line(x1, y0, x1, y1, "a")]
    for i, (name, points) in enumerate(curves.items()):
        for k in 0, 1:
            out += curve([at(p[0], p[k + 1], k) for p in points], COLOURS[i], k)
        out += [f'<rect x="{x0 + 12}" y="{y1 + 4 + 18 * i}" width="12" height="4" fill="{COLOURS[i]}"/>', text(x0 + 30, y1 + 10 + 18 * i, name, "start")]
    return out


def main():
    panels = read(open(sys.argv[1]), open(sys.argv[2]))
    wide, high = 2 * WIDE, 2 * HIGH + FOOT
    out = [f'<svg xmlns="http://www.w3.org/2000/svg" width="{wide}" height="{high}" viewBox="0 0 {wide} {high}">', f"<style>{STYLE}</style>", f'<rect width="{wide}" height="{high}" fill="#fff"/>']
    for i, (axis, curves) in enumerate(panels.items()):
        out += panel(axis, curves, i % 2 * WIDE, i // 2 * HIGH)
    out.append(text(wide / 2, high - 12, "solid, left axis: instructions on x86-64, by callgrind; dashed, right axis: milliseconds on a Cortex-M0 at 48 MHz, counted on the emulated chip"))
    print("\n".join(out + ["</svg>"]))


main()
