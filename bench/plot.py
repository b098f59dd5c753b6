"""Draws lines over sizes as an SVG picture of small panels, one for each thing that grows: sizes by powers of ten, numbers from 0 up."""

import math
from xml.sax.saxutils import escape

COLUMNS, WIDTH, HEIGHT = 2, 560, 270
LEFT, RIGHT, TOP, BOTTOM, TITLE = 60, 190, 34, 34, 34
COLOURS = ("#1b6ca8", "#c8553d", "#2a9d5c", "#8b5fbf", "#b8860b", "#4a4a4a", "#d1478f", "#008b8b")
LABEL = 13


def rounded(number):
    """The least of 1, 2 and 5 times a power of ten that isn't below the number."""
    power = 10 ** math.floor(math.log10(number))
    return next(times * power for times in (1, 2, 5, 10) if times * power >= number)


def spread(ends):
    """Where the names of lines go, whose ends are given: each a label's height below the one above it, and all within the panel."""
    placed, lowest = {}, TOP
    for name, at in sorted(ends.items(), key=lambda it: it[1]):
        lowest = max(lowest, at)
        placed[name] = lowest
        lowest += LABEL
    beyond = max(0, lowest - LABEL - (HEIGHT - BOTTOM))
    return {name: at - beyond for name, at in placed.items()}


def panel(title, lines):
    """One panel, whose lines are pairs of a size and a number by name."""
    sizes = [size for points in lines.values() for size, _ in points]
    first, last = math.log10(min(sizes)), math.log10(max(sizes))
    most = rounded(max(number for points in lines.values() for _, number in points))
    across = lambda size: LEFT + (math.log10(size) - first) / (last - first) * (WIDTH - LEFT - RIGHT)
    down = lambda number: HEIGHT - BOTTOM - number / most * (HEIGHT - TOP - BOTTOM)
    out = [f'<text x="{LEFT}" y="{TOP - 12}" font-size="13">{escape(title)}</text>']
    for size in sorted(set(sizes)):
        at = across(size)
        out.append(f'<line x1="{at:.1f}" y1="{TOP}" x2="{at:.1f}" y2="{HEIGHT - BOTTOM}" stroke="#ddd"/>')
        out.append(f'<text x="{at:.1f}" y="{HEIGHT - BOTTOM + 15}" text-anchor="middle">{size:,}</text>')
    for part in range(5):
        at = down(most * part / 4)
        out.append(f'<line x1="{LEFT}" y1="{at:.1f}" x2="{WIDTH - RIGHT}" y2="{at:.1f}" stroke="#ddd"/>')
        out.append(f'<text x="{LEFT - 5}" y="{at + 4:.1f}" text-anchor="end">{most * part / 4:g}</text>')
    places = spread({name: down(points[-1][1]) for name, points in lines.items()})
    for index, (name, points) in enumerate(lines.items()):
        colour = COLOURS[index % len(COLOURS)]
        way = " ".join(f"{across(size):.1f},{down(number):.1f}" for size, number in points)
        out.append(f'<polyline points="{way}" fill="none" stroke="{colour}" stroke-width="1.5"/>')
        out.append(f'<text x="{WIDTH - RIGHT + 8}" y="{places[name] + 4:.1f}" fill="{colour}">{escape(name)}</text>')
    return out


def draw(title, panels):
    """The picture of what each panel's lines are."""
    rows = -(-len(panels) // COLUMNS)
    width, height = COLUMNS * WIDTH, TITLE + rows * HEIGHT
    out = [f'<svg xmlns="http://www.w3.org/2000/svg" viewBox="0 0 {width} {height}" font-family="sans-serif" font-size="11">',
           f'<rect width="{width}" height="{height}" fill="white"/>', f'<text x="{LEFT}" y="24" font-size="16">{escape(title)}</text>']
    for index, (name, lines) in enumerate(panels.items()):
        out.append(f'<g transform="translate({index % COLUMNS * WIDTH} {TITLE + index // COLUMNS * HEIGHT})">')
        out += [*panel(name, lines), "</g>"]
    return "\n".join([*out, "</svg>"]) + "\n"
