"""A picture of times against sizes, as SVG: a panel for each series, a line for each code that was timed."""

from html import escape

WIDTH, HEIGHT, LEFT, BOTTOM, TOP, RIGHT = 440, 280, 66, 44, 34, 16
COLOURS = {"ours": "#0b6e4f", "the Rust, with reading": "#b5482a"}


def steps(most):
    """Round numbers up to `most`, four or five of them."""
    step = 10 ** (len(str(int(most))) - 1)
    while most / step < 4:
        step /= 2
    while most / step > 8:
        step *= 2
    return [step * n for n in range(int(most / step) + 1)]


def panel(x, y, title, unit, points):
    """One series: points are (size, {name: ns})."""
    across = max(size for size, _ in points)
    up = max(ns for _, times in points for ns in times.values()) / 1e6
    wide, high = WIDTH - LEFT - RIGHT, HEIGHT - TOP - BOTTOM

    def place(size, ms):
        return x + LEFT + wide * size / across, y + TOP + high * (1 - ms / up)

    yield f'<text x="{x + LEFT}" y="{y + 20}" font-weight="bold">{escape(title)}</text>'
    for ms in steps(up):
        left, level = place(0, ms)
        yield f'<path d="M{left:.1f} {level:.1f}h{wide}" stroke="#ddd"/><text x="{left - 6:.1f}" y="{level + 4:.1f}" text-anchor="end">{ms:g} ms</text>'
    for size in steps(across):
        at, foot = place(size, 0)
        yield f'<path d="M{at:.1f} {foot:.1f}v4" stroke="#555"/><text x="{at:.1f}" y="{foot + 17:.1f}" text-anchor="middle">{size:g}</text>'
    yield f'<text x="{x + LEFT + wide / 2:.1f}" y="{y + HEIGHT - 8}" text-anchor="middle">{escape(unit)}</text>'
    for name, colour in COLOURS.items():
        line = [place(size, times[name] / 1e6) for size, times in points]
        yield f'<polyline points="{" ".join(f"{a:.1f},{b:.1f}" for a, b in line)}" fill="none" stroke="{colour}" stroke-width="2"/>'
        yield "".join(f'<circle cx="{a:.1f}" cy="{b:.1f}" r="2.5" fill="{colour}"/>' for a, b in line)


def picture(panels):
    """Panels are (title, unit, points); two in a row."""
    rows = (len(panels) + 1) // 2
    yield f'<svg xmlns="http://www.w3.org/2000/svg" width="{2 * WIDTH}" height="{rows * HEIGHT + 30}" font-family="sans-serif" font-size="12">'
    yield '<rect width="100%" height="100%" fill="white"/>'
    for n, (title, unit, points) in enumerate(panels):
        yield from panel(n % 2 * WIDTH, n // 2 * HEIGHT, title, unit, points)
    for n, (name, colour) in enumerate(COLOURS.items()):
        yield f'<text x="{LEFT + 200 * n}" y="{rows * HEIGHT + 16}" fill="{colour}">{escape(name)}</text>'
    yield "</svg>"
