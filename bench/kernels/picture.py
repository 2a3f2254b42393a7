"""A picture of the table of bench/parallel, as SVG: for each program and length of sections a group of bars, one for each way; the line at 1 is one
mutex. It is drawn for light and dark pages alike."""
import math

COLOURS = ["#888888", "#7fb2e5", "#1f6fb5", "#f0b27a", "#d35400", "#5dae6d"]
WIDTH, LEFT, TOP, ROW, GAP = 900, 60, 60, 130, 44
LEAST, MOST = 1 / 16, 8


def height(ratio):
    """How far up from the bottom of its row, by the logarithm."""
    return ROW * (math.log2(min(max(ratio, LEAST), MOST)) - math.log2(LEAST)) / (math.log2(MOST) - math.log2(LEAST))


def bars_of(bars, name, works, ways, bottom):
    parts, group = [], (WIDTH - LEFT - 20) / len(works)
    for w, work in enumerate(works):
        left, wide = LEFT + w * group, (group - 24) / len(ways)
        for number, way in enumerate(ways):
            ratio = bars.get((name, work, way))
            if ratio is None:
                continue
            high, base = height(ratio), height(1)
            parts.append(f'<rect x="{left + number * wide:.1f}" y="{bottom - max(high, base):.1f}" width="{wide - 2:.1f}" '
                         f'height="{max(abs(high - base), 0.5):.1f}" fill="{COLOURS[number % len(COLOURS)]}"><title>{name}, {work:g} us, {ways[way]}: '
                         f'{ratio:.2f}</title></rect>')
        parts.append(f'<text x="{left + group / 2 - 12:.1f}" y="{bottom + 14}" text-anchor="middle">{work:g} us</text>')
    return parts


def row_of(bars, name, works, ways, top):
    bottom = top + ROW
    parts = [f'<text x="8" y="{top + 14}" font-weight="bold">{name}</text>']
    for ratio in (0.25, 0.5, 1, 2, 4):
        y = bottom - height(ratio)
        parts.append(f'<line x1="{LEFT}" x2="{WIDTH - 20}" y1="{y:.1f}" y2="{y:.1f}" stroke="#999999" stroke-width="{1.2 if ratio == 1 else 0.3}"/>')
        parts.append(f'<text x="{LEFT - 6}" y="{y + 4:.1f}" text-anchor="end">{ratio:g}</text>')
    return parts + bars_of(bars, name, works, ways, bottom)


def picture(bars, programs, works, ways, threads):
    """`bars` has the ratio by program, microseconds and way; `ways` the name of each way."""
    tall = TOP + len(programs) * (ROW + GAP)
    parts = [f'<svg xmlns="http://www.w3.org/2000/svg" viewBox="0 0 {WIDTH} {tall}" font-family="sans-serif" font-size="12" fill="#777777">',
             f'<text x="8" y="18">Sections a second with {threads} threads, as a multiple of those under one mutex</text>']
    for number, way in enumerate(ways):
        left = LEFT + number * 135
        parts.append(f'<rect x="{left}" y="30" width="12" height="12" fill="{COLOURS[number % len(COLOURS)]}"/><text x="{left + 17}" y="41">{ways[way]}</text>')
    for number, name in enumerate(programs):
        parts += row_of(bars, name, works, ways, TOP + number * (ROW + GAP))
    return "\n".join(parts) + "\n</svg>\n"
