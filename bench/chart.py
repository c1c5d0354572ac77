"""The bar chart of the ratios, as an SVG text."""

from xml.sax.saxutils import escape

LABELS, WIDTH, LINE, TOP = 250, 520, 24, 64
GOAL = 2


def chart(groups):
    """Bars of (name, ratio, low, high, limit) in titled groups, with a line at the goal; the limit may be None."""
    rows = [row for _, group in groups for row in group]
    top = max([GOAL * 1.25] + [row[1] * 1.15 for row in rows])
    height = TOP + LINE * (len(rows) + len(groups)) + 20
    parts = [head(height), axis(top, height)]
    y = TOP
    for title, group in groups:
        parts.append(label(8, y + 16, title, "start", "bold"))
        y += LINE
        for *row, limit in group:
            parts.append(bar(y, top, *row))
            if limit:
                parts.append(mark(y, top, limit))
            y += LINE
    return "\n".join(parts + [rule(GOAL, top, height, "#c0392b", 2), "</svg>", ""])


def place(value, top):
    """Where a ratio stands on the axis; beyond its end is its end."""
    return LABELS + WIDTH * min(value, top) / top


def head(height):
    """The opening, with a white ground so that it is readable on any page."""
    width = LABELS + WIDTH + 70
    return (f'<svg xmlns="http://www.w3.org/2000/svg" width="{width}" height="{height}" '
            f'viewBox="0 0 {width} {height}" font-family="sans-serif" font-size="12">\n'
            f'<rect width="{width}" height="{height}" fill="white"/>\n'
            + label(8, 20, "Time of the proved code over that of the Rust engine (bar: median ratio of repeats; "
                           "line: quartiles of the repeats)", "start")
            + label(8, 36, "Green mark: the same of a bare pass over the spare bytes, which every call needs", "start"))


def label(x, y, text, anchor, weight="normal"):
    """One piece of text."""
    return f'<text x="{x:.1f}" y="{y:.1f}" text-anchor="{anchor}" font-weight="{weight}">{escape(text)}</text>'


def rule(value, top, height, colour, width):
    """A line down the chart at a ratio."""
    x = place(value, top)
    return (f'<line x1="{x:.1f}" y1="{TOP - 4}" x2="{x:.1f}" y2="{height - 16}" '
            f'stroke="{colour}" stroke-width="{width}"/>')


def axis(top, height):
    """A thin line at each whole ratio; the strong one at the goal comes last, over the bars."""
    return "\n".join(rule(value, top, height, "#ddd", 1) + label(place(value, top), TOP - 8, f"{value}×", "middle")
                     for value in range(int(top) + 1))


def mark(y, top, limit):
    """The limit of a row, over its bar."""
    x = place(limit, top)
    return f'<line x1="{x:.1f}" y1="{y + 1}" x2="{x:.1f}" y2="{y + LINE - 1}" stroke="#2e8b57" stroke-width="3"/>'


def bar(y, top, name, ratio, low, high):
    """A row: its name, its bar, the spread over it and the ratio in figures."""
    colour = "#4a7ebb" if ratio <= GOAL else "#d98c3f"
    left, end, middle = place(0, top), place(ratio, top), y + LINE / 2
    from_x, to_x = place(low, top), place(high, top)
    return "\n".join([
        label(LABELS - 8, middle + 4, name, "end"),
        f'<rect x="{left}" y="{y + 4}" width="{end - left:.1f}" height="{LINE - 8}" fill="{colour}"/>',
        f'<line x1="{from_x:.1f}" y1="{middle}" x2="{to_x:.1f}" y2="{middle}" stroke="#333"/>',
        label(LABELS + WIDTH + 8, middle + 4, f"{ratio:.2f}", "start"),
    ])
