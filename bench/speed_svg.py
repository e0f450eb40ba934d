#!/usr/bin/env python3
"""Draws the first table of docs/SPEED.md as bars: instructions for each byte, as multiples of this parser's.

    bench/speed_svg.py              # writes docs/speed.svg
    bench/speed_svg.py --check      # fails if that is another picture than the table's

It needs nothing but Python. The picture is readable on a dark page too.
"""
import pathlib
import re
import sys

DOCS = pathlib.Path(__file__).resolve().parent.parent / "docs"
NAMES = (("here", "#2f7ed8"), ("libyaml", "#b0b0b0"), ("the Rust crate", "#d89a4a"))
WIDE, LEFT, TOP, BAR, GAP = 720, 110, 62, 10, 9
ROW = re.compile(r"\| `([\w.]+)`[^|]*\| (\d+) \| (\d+) \| (\d+) \|")


def rows(page):
    """Each file of the first table, its instructions here, and all three as multiples of these."""
    table = page[page.index("\n|"):].strip().partition("\n\n")[0]
    found = [(name, *map(int, counts)) for name, *counts in ROW.findall(table)]
    return sorted(((name, here, (1, libyaml / here, crate / here)) for name, here, libyaml, crate in found),
                  key=lambda row: row[2][1])


def legend():
    """The colours' names, in a row."""
    x = LEFT
    for name, color in NAMES:
        yield f'<rect x="{x}" y="32" width="12" height="12" fill="{color}"/><text x="{x + 17}" y="42">{name}</text>'
        x += 50 + 8 * len(name)


def bars(top, name, here, multiples, scale):
    """The bars of a file."""
    yield f'<text x="{LEFT - 8}" y="{top + 2 * BAR}" text-anchor="end">{name}</text>'
    for number, (multiple, (_, color)) in enumerate(zip(multiples, NAMES)):
        y, width = top + number * BAR, multiple * scale
        label = f"{here} a byte" if number == 0 else f"{multiple:.1f}"
        yield (f'<rect x="{LEFT}" y="{y}" width="{width:.1f}" height="{BAR - 1}" fill="{color}"/>'
               f'<text x="{LEFT + width + 4:.1f}" y="{y + BAR - 2}" font-size="9">{label}</text>')


def picture(page):
    """The whole picture."""
    files = rows(page)
    scale = (WIDE - LEFT - 50) / max(max(multiples) for _, _, multiples in files)
    lines = [
        f'<svg xmlns="http://www.w3.org/2000/svg" viewBox="0 0 {WIDE} {TOP + len(files) * (3 * BAR + GAP)}" '
        'font-family="sans-serif" font-size="12">',
        "<style>text{fill:#333}@media(prefers-color-scheme:dark){text{fill:#ddd}}</style>",
        '<text x="8" y="18" font-size="14" font-weight="bold">Instructions for each byte, as multiples of this '
        "parser's: shorter is faster</text>",
        *legend(),
    ]
    for number, row in enumerate(files):
        lines.extend(bars(TOP + number * (3 * BAR + GAP), *row, scale))
    return "\n".join(lines) + "\n</svg>\n"


def main():
    if sys.argv[1:] not in ([], ["--check"]):
        sys.exit(__doc__)
    made, drawn = picture((DOCS / "SPEED.md").read_text(encoding="utf-8")), DOCS / "speed.svg"
    if not sys.argv[1:]:
        drawn.write_text(made, encoding="utf-8")
    elif not drawn.is_file() or drawn.read_text(encoding="utf-8") != made:
        sys.exit("docs/speed.svg is not the table's of docs/SPEED.md: run bench/speed_svg.py")


if __name__ == "__main__":
    main()
