"""A page of a book's period as one HTML file: what it is made of, and what pages of other tools take from it."""

from outage_tools.report.exact import further_table, index_table
from outage_tools.report.major_days import major_days_part
from outage_tools.report.page import Asked, main, page, write
from outage_tools.report.pictures import LONG, day_label, drawn, picture
from outage_tools.report.pieces import (
    COMPUTED,
    PROVED,
    Column,
    Part,
    TableRow,
    behind,
    duration,
    figure,
    hours,
    number,
    numbers,
    table,
)
from outage_tools.report.rankings import WORST
from outage_tools.report.style import STYLE, paper_style
from outage_tools.report.summary import boxes, tiles

__all__ = ["COMPUTED", "LONG", "PROVED", "STYLE", "WORST", "Asked", "Column", "Part", "TableRow", "behind", "boxes"]
__all__ += ["day_label", "drawn", "duration", "figure", "further_table", "hours", "index_table", "main"]
__all__ += ["major_days_part", "number"]
__all__ += ["numbers", "page", "paper_style", "picture", "table", "tiles", "write"]
