"""The tables of the page. Its script sorts them."""

from __future__ import annotations

from collections.abc import Iterable, Sequence
from typing import NamedTuple, Optional, Union

from . import drawing, text
from .distinct import Distinct
from .tallies import FEW, Entry, Values

# The most rows of a table.
ROWS = 100


class Column(NamedTuple):
    title: str
    is_number: bool = False
    # The order of the rows by this column at first: `ascending`, `descending` or none.
    order: str = ""


class Cell(NamedTuple):
    """HTML, and the number that the column is sorted by, if that isn't the text."""

    html: str
    place: Optional[Union[int, float]] = None


def words(value: Optional[str], none: str = "–") -> Cell:
    """A text of the log. An absent or empty one shows a note in another style."""
    return Cell(text.escaped(value) if value else aside(none if value is None else "empty"))


def aside(note: str) -> str:
    return f'<span class="aside">{text.escaped(note)}</span>'


def number(value: int, missed: int = 0) -> Cell:
    """A count; `≥` if some connections may be missing from it."""
    return Cell(f"{'≥ ' if missed else ''}{text.number(value)}", value)


def counted(entry: Entry) -> Cell:
    return number(entry.count, entry.missed)


def share(part: int, whole: int) -> Cell:
    percent = text.share(part, whole)
    return Cell(
        f'<span class="percent">{text.escaped(percent)}</span>{drawing.bar(part, whole, percent)}', part
    )


def how_many(values: Distinct) -> Cell:
    """The number of distinct values; `≈` if it is an estimate."""
    return Cell(f"{'' if values.is_exact else '≈ '}{text.number(len(values))}", len(values))


def behind(uids: Values, count: int, command: str) -> Cell:
    """A row's connections: the `uid` of the first ones, and the command that lists all."""
    first, *others = uids or ("list",)
    more = count - len(uids)
    uid_lines = "".join(f"<br/><code>{text.escaped(one)}</code>" for one in others) + (
        f"<br/>{aside(f'and {text.number(more)} more')}" if uids and more > 0 else ""
    )
    return Cell(
        f"<details><summary><code>{text.escaped(first)}</code></summary>{uid_lines.removeprefix('<br/>')}"
        f'<pre><code class="command">{text.escaped_line(command)}</code></pre></details>'
    )


def breakable(name: str) -> str:
    """A name as HTML. A line may break after each underscore."""
    return text.escaped(name).replace("_", "_<wbr/>")


def some(values: Sequence[str], most: int = 3, count: int = 0) -> Cell:
    """The first of these texts, and how many more there are. `count` is their number, if not all
    are given."""
    if not values:
        return Cell(aside("–"))
    shown = [breakable(value) for value in values[:most]]
    more = max(len(values), count) - len(shown)
    is_open = len(values) > FEW
    rest = f" {aside(f'and {more}+ more' if is_open else f'and {more} more')}" if more else ""
    return Cell(f"{', '.join(shown)}{rest}")


def table(
    name: str,
    caption: str,
    columns: Sequence[Column],
    rows: Iterable[Sequence[Cell]],
    foot: Sequence[Cell] = (),
) -> str:
    """A table whose first column has the row headers. Sorting leaves the foot at the end. The
    caption is outside of the part that scrolls, so that it can be read on a narrow screen."""
    head = "".join(_head(column) for column in columns)
    body = "".join(f"<tr>{_row(columns, row)}</tr>" for row in rows)
    end = f"<tfoot><tr>{_row(columns, foot)}</tr></tfoot>" if foot else ""
    return (
        f'<div class="block"><h3 id="{name}-caption">{text.escaped(caption)}</h3>'
        f'<div class="scroll" role="region" aria-labelledby="{name}-caption" tabindex="0"><table id="{name}" aria-labelledby="{name}-caption">'
        f"<thead><tr>{head}</tr></thead><tbody>{body}</tbody>{end}</table></div></div>"
    )


def _head(column: Column) -> str:
    order = f' aria-sort="{column.order}"' if column.order else ""
    style = ' class="number"' if column.is_number else ""
    return f'<th scope="col"{style}{order}>{text.escaped(column.title)}</th>'


def _row(columns: Sequence[Column], cells: Sequence[Cell]) -> str:
    parts = []
    for at, (column, cell) in enumerate(zip(columns, cells)):
        tag, scope = ("th", ' scope="row"') if at == 0 else ("td", "")
        style = ' class="number"' if column.is_number else ""
        place = f' data-place="{cell.place}"' if cell.place is not None else ""
        parts.append(f"<{tag}{scope}{style}{place}>{cell.html}</{tag}>")
    return "".join(parts)
