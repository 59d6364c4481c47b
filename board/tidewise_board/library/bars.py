"""A picture of what changes are worth: a bar for each, to the right of a line for gains and to its left for losses."""
from __future__ import annotations

from collections.abc import Callable
from dataclasses import dataclass
from html import escape

WIDTH, ROW, LEFT, RIGHT, HEAD = 720, 26, 220, 110, 34
STYLE = ("text{font:13px system-ui,sans-serif;fill:#222}.gain{fill:#2a7f62}.loss{fill:#b5482f}.open{fill:#999}line{stroke:#888}"
         "@media(prefers-color-scheme:dark){text{fill:#ddd}}")


@dataclass(frozen=True)
class Bar:
    """A change, and by how much it carries more, in tenths of a tonne, as far as that is known; None where nothing fits then, or nothing is
    known."""
    name: str
    least: int | None
    most: int | None
    said: str


def bars(title: str, rows: list[Bar]) -> str:
    """The picture, as SVG. A difference that isn't closed has a pale bar from its least to its most."""
    ends = [0, *(end for row in rows for end in (row.least, row.most) if end is not None)]
    low, high = min(ends), max(ends)
    scale = (WIDTH - LEFT - RIGHT) / max(1, high - low)

    def across(value: int) -> float:
        return round(LEFT + (value - low) * scale, 1)

    height = HEAD + ROW * len(rows) + 10
    lines = [f'<svg xmlns="http://www.w3.org/2000/svg" viewBox="0 0 {WIDTH} {height}" width="{WIDTH}" height="{height}" role="img">',
             f"<title>{escape(title)}</title><style>{STYLE}</style>", f'<text x="8" y="20">{escape(title)}</text>']
    for number, row in enumerate(rows):
        lines += bar(row, HEAD + number * ROW, across)
    lines.append(f'<line x1="{across(0)}" x2="{across(0)}" y1="{HEAD - 4}" y2="{height - 8}"/>')
    return "\n".join([*lines, "</svg>"])


def bar(row: Bar, top: int, across: Callable[[int], float]) -> list[str]:
    """The lines of one row."""
    lines = [f'<text x="{LEFT - 12}" y="{top + 16}" text-anchor="end">{escape(row.name)}</text>',
             f'<text x="{WIDTH - 8}" y="{top + 16}" text-anchor="end">{escape(row.said)}</text>']
    if row.least is not None and row.most is not None:
        closed = row.least == row.most
        first, last = (min(0, row.least), max(0, row.least)) if closed else (row.least, row.most)
        kind = "open" if not closed else "gain" if row.least >= 0 else "loss"
        lines.append(f'<rect class="{kind}" x="{across(first)}" y="{top + 3}" width="{round(across(last) - across(first), 1)}" '
                     f'height="{ROW - 8}"><title>{escape(row.name)}: {escape(row.said)}</title></rect>')
    return lines
