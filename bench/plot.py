"""Draws series as one SVG of four panels: ours full, C dashed. Colours follow the reader's light or dark scheme."""
import math
from xml.sax.saxutils import escape

WIDTH, HEIGHT = 880, 720
PANEL_W, PANEL_H = 330, 210
COLUMNS, TOPS = (80, 515), (100, 430)
STYLE = """
text { font: 13px system-ui, sans-serif; fill: #24292f }
.small { font-size: 12px }
.title { font-size: 14px; font-weight: 600 }
.ground { fill: #ffffff }
.grid { stroke: #d0d7de; stroke-width: 1 }
.axis { stroke: #57606a; stroke-width: 1 }
.line { fill: none; stroke-width: 2 }
.c { stroke-dasharray: 6 4 }
.s0 { stroke: #0969da; fill: #0969da }
.s1 { stroke: #bc4c00; fill: #bc4c00 }
.key { stroke: #57606a }
.name { stroke: none }
@media (prefers-color-scheme: dark) {
text { fill: #e6edf3 }
.ground { fill: #0d1117 }
.grid { stroke: #30363d }
.axis, .key { stroke: #8b949e }
.s0 { stroke: #58a6ff; fill: #58a6ff }
.s1 { stroke: #f0883e; fill: #f0883e }
.name { stroke: none }
}
.line { fill: none }
"""


def ticks(most):
    """Round numbers from 0 to the first that is not below `most`."""
    step = 10 ** math.floor(math.log10(most))
    for part in (0.2, 0.5, 1, 2):
        if most / (step * part) <= 6:
            step *= part
            break
    return [k * step for k in range(math.ceil(most / step - 1e-9) + 1)]


def number(x):
    return "{:,}".format(int(x)) if x == int(x) else "%g" % x


def scale(x, most, length):
    return length * x / most


class Panel:
    def __init__(self, left, top, xs, ys):
        self.left, self.top, self.xs, self.ys = left, top, xs, ys

    def x(self, v):
        return self.left + scale(v, self.xs[-1], PANEL_W)

    def y(self, v):
        return self.top + PANEL_H - scale(v, self.ys[-1], PANEL_H)

    def frame(self, title, note, unit):
        bottom = self.top + PANEL_H
        for v in self.ys:
            yield '<line class="grid" x1="%d" x2="%d" y1="%.1f" y2="%.1f"/>' % (self.left, self.left + PANEL_W, self.y(v), self.y(v))
            yield '<text class="small" x="%d" y="%.1f" text-anchor="end">%s</text>' % (self.left - 8, self.y(v) + 4, number(v))
        for v in self.xs:
            yield '<line class="axis" x1="%.1f" x2="%.1f" y1="%d" y2="%d"/>' % (self.x(v), self.x(v), bottom, bottom + 5)
            yield '<text class="small" x="%.1f" y="%d" text-anchor="middle">%s</text>' % (self.x(v), bottom + 19, number(v))
        yield '<line class="axis" x1="%d" x2="%d" y1="%d" y2="%d"/>' % (self.left, self.left + PANEL_W, bottom, bottom)
        yield '<text x="%d" y="%d" text-anchor="middle">%s</text>' % (self.left + PANEL_W // 2, bottom + 40, title)
        yield '<text class="small" x="%d" y="%d" text-anchor="middle">%s</text>' % (self.left + PANEL_W // 2, bottom + 58, note)
        yield '<text class="title" x="%d" y="%d">instructions, %s</text>' % (self.left - 40, self.top - 14, unit)

    def line(self, points, k, kind):
        path = " ".join("%.1f,%.1f" % (self.x(x), self.y(y)) for x, y in points)
        return '<polyline class="line s%d %s" points="%s"/>' % (k, kind, path)

    def dots(self, points, k):
        return ['<circle class="s%d" cx="%.1f" cy="%.1f" r="2.5"/>' % (k, self.x(x), self.y(y)) for x, y in points]

    def series(self, k, name, points):
        ours, twin = [(x, a) for x, a, _ in points], [(x, b) for x, _, b in points]
        yield self.line(twin, k, "c")
        yield self.line(ours, k, "ours")
        yield from self.dots(ours, k)
        x, y = ours[-1]
        yield '<text class="name s%d small" x="%.1f" y="%.1f" text-anchor="end">%s</text>' % (
            k, self.x(x) - 4, min(self.y(y), self.y(twin[-1][1])) - 8, name)


def panel(place, title, note, unit, found):
    flat = [p for _, points in found for p in points]
    xs, ys = ticks(max(p[0] for p in flat)), ticks(1.08 * max(max(p[1:]) for p in flat))
    box = Panel(COLUMNS[place % 2], TOPS[place // 2], xs, ys)
    parts = list(box.frame(title, escape(note), unit))
    for k, (name, points) in enumerate(found):
        parts += box.series(k, name, points)
    return parts


def drawn(panels):
    parts = ['<svg xmlns="http://www.w3.org/2000/svg" viewBox="0 0 %d %d" width="%d" height="%d">' % (WIDTH, HEIGHT, WIDTH, HEIGHT),
             "<title>How the cost of judging grows</title>", "<style>%s</style>" % STYLE,
             '<rect class="ground" width="%d" height="%d"/>' % (WIDTH, HEIGHT),
             '<text class="title" x="40" y="34">How the cost of judging grows, in x86-64 instructions</text>',
             '<line class="line key" x1="560" x2="600" y1="30" y2="30"/><text x="608" y="34">the proved code</text>',
             '<line class="line key c" x1="730" x2="770" y1="30" y2="30"/><text x="778" y="34">in plain C</text>']
    for place, described in enumerate(panels):
        parts += panel(place, *described)
    return "\n".join(parts + ["</svg>"]) + "\n"
