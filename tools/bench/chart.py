"""Draws the speed of colfind beside that of ICU as bars, which can be told apart without colour."""

import html

WIDTH, LEFT, RIGHT = 720, 215, 60
BAR, GAP, TOP = 12, 10, 64
STEPS = (10, 20, 25, 50, 100, 200, 250, 500)
OURS, THEIRS = 'fill="#222"', 'fill="url(#lines)" stroke="#222" stroke-width="1"'


def text(x, y, words, anchor="start", size=12):
    return f'<text x="{x:.1f}" y="{y:.1f}" font-size="{size}" text-anchor="{anchor}">{html.escape(words)}</text>'


def bar(y, value, scale, look):
    length = max(value * scale, 1)
    return [
        f'<rect x="{LEFT}" y="{y}" width="{length:.1f}" height="{BAR}" {look}/>',
        text(LEFT + length + 4, y + BAR - 2, f"{value:.0f}", size=11),
    ]


def grid(most, scale, bottom):
    """A thin line at each round number of megabytes."""
    step = next((step for step in STEPS if most / step <= 6), STEPS[-1])
    parts = []
    for value in range(0, int(most) + 1, step):
        x = LEFT + value * scale
        parts.append(f'<line x1="{x:.1f}" y1="{TOP - 6}" x2="{x:.1f}" y2="{bottom}" stroke="#bbb" stroke-width="0.5"/>')
        parts.append(text(x, TOP - 10, str(value), "middle", 10))
    return parts


def drawn(results, caption):
    """The picture of some results, each of which has a speed of ICU."""
    height = TOP + len(results) * (2 * BAR + GAP) + 8
    most = max(max(result.builds[0].best, result.icu.best) for result in results)
    scale = (WIDTH - LEFT - RIGHT) / most
    parts = [
        f'<svg xmlns="http://www.w3.org/2000/svg" width="{WIDTH}" height="{height}" viewBox="0 0 {WIDTH} {height}" '
        'font-family="Helvetica, Arial, sans-serif" role="img">',
        f"<title>{html.escape(caption)}</title>",
        '<defs><pattern id="lines" width="5" height="5" patternUnits="userSpaceOnUse" patternTransform="rotate(45)">'
        '<rect width="5" height="5" fill="#fff"/><rect width="1.5" height="5" fill="#222"/></pattern></defs>',
        f'<rect width="{WIDTH}" height="{height}" fill="#fff"/>',
        text(12, 20, caption, size=13),
        f'<rect x="{WIDTH - 178}" y="28" width="20" height="{BAR}" {OURS}/>',
        text(WIDTH - 153, 38, "colfind"),
        f'<rect x="{WIDTH - 94}" y="28" width="20" height="{BAR}" {THEIRS}/>',
        text(WIDTH - 69, 38, "ICU"),
        *grid(most, scale, height - 8),
    ]
    for place, result in enumerate(results):
        y = TOP + place * (2 * BAR + GAP)
        parts.append(text(LEFT - 8, y + BAR + 4, result.row.name, "end"))
        parts += bar(y, result.builds[0].best, scale, OURS) + bar(y + BAR, result.icu.best, scale, THEIRS)
    return "\n".join([*parts, "</svg>", ""])
