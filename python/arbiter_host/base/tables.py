"""Answers as tables: each column is declared once, and here is how each form writes it."""
from __future__ import annotations

from collections.abc import Callable, Collection, Iterator, Mapping, Sequence
from dataclasses import dataclass
from typing import TYPE_CHECKING, Any, Generic, TypeVar

from arbiter_host.base import text
from arbiter_host.base.names import cut, padded, shown, width
from arbiter_host.base.output import Styled, json_text

if TYPE_CHECKING:
    from prometheus_client.core import GaugeMetricFamily

R = TypeVar("R")
Forms = Mapping[str, Callable[[], str | Styled]]
# The forms of columns that people read, and those of columns that are in one of them alone.
TEXT, FILES, PAGES = ("text",), ("csv",), ("html",)
READ = (*TEXT, *FILES, *PAGES)
# Cells that tell nothing.
NOTHING = ("", "-", "0", "0 to 0")
# Letters of a name, of a reason, and of both with what is between them, at least.
LEAST_NAME, LEAST_REASON, LEAST_ROOM = 16, 12, 30


@dataclass(frozen=True)
class Column(Generic[R]):
    """A column of records: its title, and the cells of it that people read, `-` for none. One that
    has a key is in data too, with its values, or with its cells where it has none."""

    title: str
    cell: Callable[[R], str]
    # Whether its cells are words, which begin at the left; None where what they are tells it.
    is_left: bool | None = False
    key: str = ""
    value: Callable[[R], Any] | None = None
    # The forms that have its cells.
    forms: Collection[str] = READ
    # Whether it stands behind the others where people read it, as names do; and whether it is left
    # out where no cell of it tells something.
    is_last: bool = False
    is_optional: bool = False
    # Letters of its cells on a terminal, at least.
    wide: int = 0
    # The words of its metric, whose name is its key; and whether it is a label of metrics.
    metric: str = ""
    is_label: bool = False


def fact(key: str, value: Callable[[R], Any]) -> Column[R]:
    """A column of data alone."""
    return Column("", str, key=key, value=value, forms=())


def fitting(reasons: Sequence[Sequence[str]], room: int) -> list[str]:
    """The reasons whole where none is cut, else each in the longest other form that fits."""
    if all(width(each[0]) <= room for each in reasons):
        return [each[0] for each in reasons]
    return [next((form for form in each[1:] if width(form) <= room), each[-1]) for each in reasons]


def are_words(cells: Sequence[str]) -> bool:
    """Whether cells are no numbers. `-` stands for none."""
    return not all(cell == "-" or cell.lstrip("+-")[:1].isdigit() for cell in cells)


@dataclass(frozen=True)
class Fitted(Generic[R]):
    """Two columns that are made to fit the width of a table: the reasons of records, each in forms
    from long to short, and names, which `cut` cuts.

    Names have up to half of the room beside reasons, unless `keeps_names` is false.
    """

    reasons: Callable[[R], Sequence[str]]
    names: Callable[[R], str]
    cut: Callable[[str, int], str]
    keeps_names: bool = True

    def lines(self, wide: int, cells: Sequence[str], records: Sequence[R]) -> list[str]:
        """The lines of a table, whose other cells are laid out; the first are the heads."""
        names, start = [*map(self.names, records)], width(cells[0]) + 4
        room = max(wide - start, LEAST_ROOM)
        longest = max([5, *map(width, names)]) if self.keeps_names else 0
        most = max(room - max(min(longest, room // 2), LEAST_NAME), LEAST_REASON)
        reasons = fitting([*map(self.reasons, records)], most)
        whys = min(max([3, *map(width, reasons)]), most)
        end = max(wide - start - whys, LEAST_NAME)
        rows = zip(cells, ["why", *(cut(each, whys) for each in reasons)],
                   ["group", *(self.cut(each, end) for each in names)])
        return [f"{each}  {padded(reason, whys)}  {name}".rstrip() for each, reason, name in rows]


@dataclass(frozen=True)
class Table(Generic[R]):
    """Records under columns, in the order in which they are told."""

    columns: Sequence[Column[R]]
    records: Sequence[R]
    title: str = ""
    # The style of a record's line on a terminal.
    style: Callable[[R], str] | None = None
    fitted: Fitted[R] | None = None
    # The letters of a line that is fitted.
    wide: int = 0

    def shown_in(self, form: str) -> list[Column[R]]:
        """The columns of a form that people read, in its order."""
        found = (each for each in self.columns if form in each.forms and not (
            each.is_optional and all(each.cell(record) in NOTHING for record in self.records)))
        return sorted(found, key=lambda each: each.is_last and form != "csv")

    def cells(self, columns: Sequence[Column[R]]) -> list[list[str]]:
        """The cells of each record in some columns."""
        return [[each.cell(record) for each in columns] for record in self.records]

    def lines(self, most: int | None = None) -> list[tuple[str, str]]:
        """The heads and the rows as lines with their styles; of more than so many, their number
        below."""
        columns = self.shown_in("text")
        rows, fitted = self.cells(columns), self.fitted
        heads, left = [each.title for each in columns], left_of(columns, rows)
        styles = [self.style(each) if self.style else "" for each in self.records[:most]]
        lines = text.table([heads, *rows[:most]], left) if fitted is None else fitted.lines(
            self.wide, text.laid_out([heads, *rows], left, [each.wide for each in columns]),
            self.records)
        more = len(rows) - len(styles)
        return [*zip(lines, ["bold", *styles]), *([(f"and {more} more (--all)", "")]
                                                 if more else [])]

    def page(self) -> dict[str, Any]:
        """The table as a template of a page takes it."""
        columns = self.shown_in("html")
        rows = self.cells(columns)
        return {"title": self.title, "heads": [each.title for each in columns],
                "left": [columns[at].title for at in left_of(columns, rows)],
                "rows": [[shown(cell) for cell in row] for row in rows]}

    def data(self) -> list[dict[str, Any]]:
        """The records as data, under the keys of the columns."""
        return [{each.key: (each.value or each.cell)(record) for each in self.columns if each.key}
                for record in self.records]

    def metrics(self) -> Iterator[GaugeMetricFamily]:
        """The columns that have metrics, with labels that have no control character. There is no
        sample for None."""
        from prometheus_client.core import GaugeMetricFamily  # (no other form needs it)
        labels = [each for each in self.columns if each.is_label]
        for each in self.columns:
            if each.metric and each.value:
                family = GaugeMetricFamily(each.key, each.metric, labels=[of.key for of in labels])
                for record in self.records:
                    value = each.value(record)
                    if value is not None:
                        family.add_metric([shown(of.cell(record)) for of in labels], float(value))
                yield family

    def csv(self) -> str:
        """The records as CSV, a row at a time. None of a number is empty there, and names are
        escaped."""
        import csv  # (no other form needs it)
        import io
        written, columns = io.StringIO(), self.shown_in("csv")
        writer = csv.writer(written, lineterminator="\n")
        writer.writerow([each.title for each in columns])
        for record in self.records:
            cells = ((each, each.cell(record)) for each in columns)
            writer.writerow(["" if cell == "-" and not each.is_left else shown(cell)
                             for each, cell in cells])
        return written.getvalue()


def left_of(columns: Sequence[Column[R]], rows: Sequence[Sequence[str]]) -> list[int]:
    """The places of the columns whose cells begin at the left."""
    cells = list(zip(*rows)) or [()] * len(columns)
    return [at for at, each in enumerate(columns)
            if (are_words(cells[at]) if each.is_left is None else each.is_left)]


# Lines with their styles, and tables.
Parts = Sequence[tuple[str, str] | Table[Any]]


@dataclass(frozen=True)
class TableAnswer:
    """An answer: its lines with tables among them, and all of it as data."""

    parts: Callable[[], Parts]
    data: Callable[[], Any]
    # The most rows of a table of text; None for all.
    most: int | None = None
    # The tables of files, where these are others than people read.
    files: Callable[[], Sequence[Table[Any]]] | None = None

    def tables(self) -> list[Table[Any]]:
        return [each for each in self.parts() if isinstance(each, Table)]

    def lines(self) -> Styled:
        """The answer as lines with their styles. Tables that have a title stand below it."""
        lines: list[tuple[str, str]] = []
        for each in self.parts():
            if isinstance(each, Table):
                lines += [("", ""), (f"{each.title}:", "")] if each.title else []
                lines += each.lines(self.most)
            else:
                lines.append(each)
        return lines

    def forms(self) -> Forms:
        """The forms that every answer has."""
        return {"text": self.lines, "json": lambda: json_text(self.data()), "csv": lambda: (
            "\n".join(each.csv() for each in (self.files or self.tables)()))}


def plain(*lines: str) -> list[tuple[str, str]]:
    """Lines without a style."""
    return [(line, "") for line in lines]
