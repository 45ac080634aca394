"""Draws ratios as an SVG: one or two panels, a row for each name, a circle for each ratio, on a log scale with a line
at 1. It is readable on light and on dark ground."""
import math
from collections import namedtuple
from xml.sax.saxutils import escape

# rows: for each name of a row its ratios by size; a size that isn't among the sizes of the legend is drawn as a diamond
Panel = namedtuple("Panel", "title subtitle axis rows")

LEFT, TOP, WIDTH, GAP, ROW, BOTTOM = 100, 134, 380, 36, 26, 64
RADII = (3.5, 5.5, 7.5)
STEPS = (1, 2, 5)
STYLE = """
  .ground { fill: #ffffff } .band { fill: #f3f4f6 }
  text { fill: #1f2328; font: 12px system-ui, "Segoe UI", "DejaVu Sans", sans-serif }
  .title { font-size: 16px; font-weight: 600 } .panel { font-size: 13px; font-weight: 600 } .quiet { fill: #59636e }
  .grid { stroke: #d1d9e0; stroke-width: 1 } .one { stroke: #1f2328; stroke-width: 1.5 }
  .dot { fill: #0969da; fill-opacity: 0.25; stroke: #0969da; stroke-width: 1.5 }
  .code { fill: #bc4c00; fill-opacity: 0.25; stroke: #bc4c00; stroke-width: 1.5 }
  @media (prefers-color-scheme: dark) {
    .ground { fill: #0d1117 } .band { fill: #161b22 } text { fill: #e6edf3 } .quiet { fill: #9198a1 }
    .grid { stroke: #30363d } .one { stroke: #e6edf3 }
    .dot { fill: #58a6ff; stroke: #58a6ff } .code { fill: #f0883e; stroke: #f0883e }
  }
"""


def text(x, y, words, anchor="start", kind=""):
    return f'<text x="{x:.1f}" y="{y:.1f}" text-anchor="{anchor}" class="{kind}">{escape(words)}</text>'


def line(x, y, to_x, to_y, kind):
    return f'<line x1="{x:.1f}" y1="{y:.1f}" x2="{to_x:.1f}" y2="{to_y:.1f}" class="{kind}"/>'


def circle(x, y, radius):
    return f'<circle cx="{x:.1f}" cy="{y:.1f}" r="{radius}" class="dot"/>'


def diamond(x, y):
    return f'<path d="M{x:.1f} {y - 5:.1f}l5 5l-5 5l-5 -5z" class="code"/>'


def ticks_around(ratios):
    """1, 2 and 5 times powers of ten, from the last below all ratios to the first above them; 1 is inside."""
    least, most = min([*ratios, 0.5]), max([*ratios, 2])
    powers = range(math.floor(math.log10(least)) - 1, math.ceil(math.log10(most)) + 1)
    numbers = [step * 10.0**power for power in powers for step in STEPS]
    first = max(at for at, number in enumerate(numbers) if number <= least)
    last = min(at for at, number in enumerate(numbers) if number >= most)
    return numbers[first : last + 1]


def scale_of(ticks, left):
    """Where a ratio stands."""
    low, high = math.log(ticks[0]), math.log(ticks[-1])
    return lambda ratio: left + WIDTH * (math.log(ratio) - low) / (high - low)


def axis(panel, left, bottom, ticks, at):
    """Title, grid and numbers; if they are too dense, powers of ten alone have numbers."""
    dense = WIDTH / len(ticks) < 36
    yield text(left, TOP - 52, panel.title, kind="panel")
    yield text(left, TOP - 34, panel.subtitle, kind="quiet")
    yield text(left, TOP - 14, "← ours takes less", kind="quiet")
    yield text(left + WIDTH, TOP - 14, "ours takes more →", "end", "quiet")
    for tick in ticks:
        yield line(at(tick), TOP, at(tick), bottom, "one" if tick == 1 else "grid")
        if not dense or math.log10(tick).is_integer():
            yield text(at(tick), bottom + 17, f"{tick:g}", "middle")
    yield text(left + WIDTH / 2, bottom + 38, panel.axis, "middle", "quiet")


def marks(ratios, sizes, y, at):
    """The ratios of one row, greater circles first, so that none is hidden."""
    for size, ratio in ratios.items():
        if size not in sizes:
            yield diamond(at(ratio), y)
    for size, radius in reversed(list(zip(sizes, RADII))):
        if size in ratios:
            yield circle(at(ratios[size]), y, radius)


def drawn_panel(panel, number, sizes):
    left, bottom = LEFT + number * (WIDTH + GAP), TOP + ROW * len(panel.rows)
    ticks = ticks_around([ratio for ratios in panel.rows.values() for ratio in ratios.values()])
    at = scale_of(ticks, left)
    for row in range(0, len(panel.rows), 2):
        yield f'<rect x="{left}" y="{TOP + ROW * row}" width="{WIDTH}" height="{ROW}" class="band"/>'
    yield from axis(panel, left, bottom, ticks, at)
    for row, (name, ratios) in enumerate(panel.rows.items()):
        y = TOP + ROW * (row + 0.5)
        if number == 0:
            yield text(LEFT - 12, y + 4, name, "end")
        yield from marks(ratios, sizes, y, at)


def legend(sizes):
    x, y = LEFT, 50
    for size, radius in zip(sizes, RADII):
        yield circle(x + 8, y - 4, radius)
        yield text(x + 22, y, f"mix of {size:,} slots")
        x += 148
    yield diamond(x + 8, y - 4)
    yield text(x + 22, y, "C program")


def drawn(panels, sizes, title):
    """The whole picture, of one or two panels."""
    width = LEFT + 2 * (WIDTH + GAP)
    height = TOP + ROW * max(len(panel.rows) for panel in panels) + BOTTOM
    parts = [text(LEFT, 26, title, kind="title"), *legend(sizes)]
    for number, panel in enumerate(panels):
        parts += drawn_panel(panel, number, sizes)
    space = f'width="{width}" height="{height}" viewBox="0 0 {width} {height}"'
    head = f'<svg xmlns="http://www.w3.org/2000/svg" {space} role="img">'
    ground = f'<rect width="{width}" height="{height}" class="ground"/>'
    return "\n".join([head, f"<title>{escape(title)}</title>", f"<style>{STYLE}</style>", ground, *parts, "</svg>", ""])
