"""Draws times against sizes, with the line of least squares through each row of points, as an SVG."""

COLOURS = ["#1b6ca8", "#c8553d", "#3c8d5a", "#8a5fa8", "#a8821b", "#555555"]
WIDTH, HEIGHT, LEFT, BOTTOM, TOP, GAP = 340, 260, 60, 46, 34, 24


def line(points):
    """The slope and the start of the line of least squares."""
    n = len(points)
    mean_x, mean_y = sum(x for x, _ in points) / n, sum(y for _, y in points) / n
    square = sum((x - mean_x) ** 2 for x, _ in points)
    slope = sum((x - mean_x) * (y - mean_y) for x, y in points) / square if square else 0.0
    return slope, mean_y - slope * mean_x


def step(most):
    """A round distance between marks of an axis, for some five of them."""
    size = 1.0
    while size * 10 <= most:
        size *= 10
    while size > most:
        size /= 10
    return next(size * k for k in (0.2, 0.5, 1, 2, 5) if most / (size * k) <= 6)


def text(x, y, words, anchor="middle", more=""):
    return f'<text x="{x:.1f}" y="{y:.1f}" text-anchor="{anchor}" {more}>{words}</text>'


def marks(most):
    distance, at, found = step(most), 0.0, []
    while at <= most * 1.0001:
        found.append(at)
        at += distance
    return found


def panel(title, size_name, rows, left):
    """One plot: a row of points (size, nanoseconds) for each kind."""
    most_x = max(x for points in rows.values() for x, _ in points)
    most_y = max(y for points in rows.values() for _, y in points) / 1000
    across = lambda x: left + LEFT + x / most_x * WIDTH
    up = lambda y: TOP + HEIGHT - y / most_y * HEIGHT
    out = [text(left + LEFT + WIDTH / 2, TOP - 14, title, more='font-weight="bold"')]
    for x in marks(most_x):
        out.append(f'<line x1="{across(x):.1f}" y1="{TOP}" x2="{across(x):.1f}" y2="{TOP + HEIGHT}" stroke="#e4e4e4"/>')
        out.append(text(across(x), TOP + HEIGHT + 16, f"{x:,.0f}"))
    for y in marks(most_y):
        out.append(f'<line x1="{left + LEFT}" y1="{up(y):.1f}" x2="{left + LEFT + WIDTH}" y2="{up(y):.1f}" stroke="#e4e4e4"/>')
        out.append(text(left + LEFT - 6, up(y) + 4, f"{y:,.0f}", "end"))
    out.append(text(left + LEFT + WIDTH / 2, TOP + HEIGHT + 34, size_name))
    out.append(text(left + LEFT - 6, TOP - 14, "µs", "end"))
    for k, (kind, points) in enumerate(rows.items()):
        colour = COLOURS[k % len(COLOURS)]
        slope, start = line(points)
        first, last = points[0][0], points[-1][0]
        out.append(f'<line x1="{across(first):.1f}" y1="{up((start + slope * first) / 1000):.1f}" x2="{across(last):.1f}" y2="{up((start + slope * last) / 1000):.1f}" stroke="{colour}"/>')
        out += [f'<circle cx="{across(x):.1f}" cy="{up(y / 1000):.1f}" r="2.4" fill="{colour}"/>' for x, y in points]
        out.append(f'<circle cx="{left + LEFT + 14}" cy="{TOP + 12 + 15 * k}" r="3.5" fill="{colour}"/>')
        out.append(text(left + LEFT + 24, TOP + 16 + 15 * k, kind, "start"))
    return out


def svg(found):
    """The plots of all functions, by (function, kind)."""
    panels = [f for f in ("check", "read", "write") if any(g == f for g, _ in found)]
    out = []
    for i, function in enumerate(panels):
        rows = {kind: points for (g, kind), points in found.items() if g == function}
        out += panel(function, "units" if function == "write" else "octets", rows, i * (LEFT + WIDTH + GAP))
    width, height = len(panels) * (LEFT + WIDTH + GAP), TOP + HEIGHT + BOTTOM
    head = f'<svg xmlns="http://www.w3.org/2000/svg" width="{width}" height="{height}" viewBox="0 0 {width} {height}" font-family="sans-serif" font-size="11">'
    return "\n".join([head, f'<rect width="{width}" height="{height}" fill="white"/>', *out, "</svg>"]) + "\n"
