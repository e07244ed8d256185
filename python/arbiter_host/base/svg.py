"""Pieces of pictures as SVG text, each number with at most one decimal."""
from __future__ import annotations

from collections.abc import Callable, Iterable, Iterator, Sequence
from html import escape

from arbiter_host.base.names import shown, width

TYPEFACE = "DejaVu Sans Mono, Menlo, Consolas, monospace"
# Width of a letter of the typeface at 12 pixels, about.
LETTER = 7.3
INK, FAINT, GRID, BRANCH = "#1f2933", "#616e7c", "#d9dee4", "#9aa5b1"
GETS, WANTS, LIMIT, MARK = "#2b6cb0", "#bcd4ec", "#8a5a00", "#b4231f"
Point = tuple[float, float]
# A picture has its own scale where it is lower than this part of the highest one.
FLAT = 8


def escaped(text: str) -> str:
    """A text between tags."""
    return escape(shown(text), quote=False)


def number(value: float) -> str:
    return f"{value:.1f}".rstrip("0").rstrip(".")


def line(begin: Point, end: Point, colour: str, wide: float = 1, dash: str = "") -> str:
    """A straight line."""
    more = f' stroke-dasharray="{dash}"' if dash else ""
    (x1, y1), (x2, y2) = begin, end
    return (f'<line x1="{number(x1)}" y1="{number(y1)}" x2="{number(x2)}" y2="{number(y2)}"'
            f' stroke="{colour}" stroke-width="{number(wide)}"{more}/>')


def box(corner: Point, size: Point, colour: str) -> str:
    """A filled rectangle."""
    return (f'<rect x="{number(corner[0])}" y="{number(corner[1])}"'
            f' width="{number(max(size[0], 0))}" height="{number(size[1])}" fill="{colour}"/>')


def shape(points: Sequence[Point], colour: str, wide: float = 1.5, fill: str = "none",
          dash: str = "") -> str:
    """Straight lines from point to point."""
    more = f' stroke-dasharray="{dash}"' if dash else ""
    text = " ".join(f"{'L' if place else 'M'}{number(x)} {number(y)}"
                    for place, (x, y) in enumerate(points))
    return f'<path d="{text}" fill="{fill}" stroke="{colour}" stroke-width="{number(wide)}"{more}/>'


def words(place: Point, text: str, colour: str = INK, size: float = 12, anchor: str = "start",
          bold: bool = False, title: str = "") -> str:
    """A text, with a tooltip where a title is given."""
    weight = ' font-weight="bold"' if bold else ""
    whole = f"<title>{escaped(title)}</title>" if title else ""
    return (f'<text x="{number(place[0])}" y="{number(place[1])}" fill="{colour}"'
            f' font-size="{number(size)}" text-anchor="{anchor}"{weight} xml:space="preserve">'
            f"{escaped(text)}{whole}</text>")


def words_within(place: Point, text: str, edges: Point, colour: str, size: float) -> str:
    """A text whose middle is at a place, or as near as it stands between two edges."""
    half = wide(shown(text), size) / 2
    x = min(max(place[0], edges[0] + half), edges[1] - half)
    return words((x, place[1]), text, colour, size, "middle")


def wide(text: str, size: float = 12) -> float:
    """Pixels that a text takes, about. Wide letters count twice."""
    return width(text) * LETTER * size / 12


def swatch(y: float, colour: str, tall: float = 12) -> Callable[[float], str]:
    """A filled mark of a legend, at a place from the left."""
    return lambda x: box((x, y), (14, tall), colour)


def legend(x: float, y: float,
           marks: Iterable[tuple[str, float, Callable[[float], str]]]) -> Iterator[str]:
    """The legend of marks: each mark, and behind so much room its name."""
    for name, room, mark in marks:
        yield mark(x)
        yield words((x + room, y), name, INK, 11)
        x += room + wide(name, 11) + 16


def steps(most: float, about: int) -> list[float]:
    """Round numbers from 0 to the greatest that is not above `most`, at most `about` and one."""
    step = 0.001
    while most / step > about:
        step = next(step * more for more in (2, 5, 10)
                    if most / (step * more) <= about or more == 10)
    return [round(place * step, 6) for place in range(int(most / step + 1e-9) + 1)]


def tops(peaks: Sequence[float]) -> list[tuple[float, str]]:
    """The top of the scale of each of some pictures, and its mark: one scale for all, but its own
    for a picture that would be flat on it."""
    most = max(peaks, default=0.0)
    return [(most, "") if peak * FLAT >= most or peak == 0
            else (peak, f"own scale, to {peak:.2g}: the others go to {most:.2g}")
            for peak in peaks]


def head(width_: float, height: float, title: str, space: str = "", typeface: str = "") -> str:
    wide_, tall = number(width_), number(height)
    return (f'<svg{space} width="{wide_}" height="{tall}" viewBox="0 0 {wide_} {tall}"{typeface}'
            f' role="img" aria-label="{escape(shown(title))}">')


def inside(width_: float, height: float, title: str, parts: Sequence[str]) -> str:
    """A picture inside a page, whose letters and ground it has."""
    return "\n".join([head(width_, height, title), *parts, "</svg>"])


def document(width_: float, height: float, title: str, parts: Sequence[str]) -> str:
    """A whole picture."""
    begin = head(width_, height, title, ' xmlns="http://www.w3.org/2000/svg"',
                 f' font-family="{TYPEFACE}"')
    ground = box((0, 0), (width_, height), "#ffffff")
    return "\n".join([begin, f"<title>{escaped(title)}</title>", ground, *parts,
                      "</svg>"]) + "\n"
