"""Feeders and line sections, over the customers of their own."""

from dataclasses import replace

from outage_tools.compare import Checked
from outage_tools.forms import Figures
from outage_tools.rates import GROUP_COLUMNS, GroupRow, group_rows, group_values


def feeder_rows(found: Checked) -> list[GroupRow]:
    """The feeders, over the customers of their sections."""
    rows = group_rows(found, "feeder", lambda each: str(found.book.sections[each.section].feeder))
    return [replace(row, name=int(row.name)) for row in rows]


def section_rows(found: Checked) -> list[GroupRow]:
    """The line sections."""
    return group_rows(found, "section", lambda each: found.book.sections[each.section].name)


def feeders(found: Checked) -> Figures:
    """SAIDI, SAIFI and CAIDI of each feeder, over the customers of its sections."""
    about = [
        "By the home feeder of the customers' sections; customers served are an average over the period: their S / P."
    ]
    rows = [[row.name, *group_values(row)] for row in feeder_rows(found)]
    return Figures("feeders", about, {"feeder": "the home feeder", **GROUP_COLUMNS}, rows)


def sections(found: Checked) -> Figures:
    """The same of each line section."""
    feeder_of: dict[int | str, int] = {section.name: section.feeder for section in found.book.sections.values()}
    about = ["By the customers' section; customers served are an average over the period: their S / P."]
    columns = {"section": "the line section", "feeder": "its home feeder", **GROUP_COLUMNS}
    return Figures(
        "sections", about, columns, [[row.name, feeder_of[row.name], *group_values(row)] for row in section_rows(found)]
    )
