"""The rows of exports by what they are about, so that a command can be told by the row from which it came."""

import argparse
from collections.abc import Iterable
from dataclasses import dataclass

from outage_tools.cli import Once
from outage_tools.keys import fingerprint
from outage_tools.oms.files import Row, add_format_arguments, format_of, read_file
from outage_tools.references import Source

KEYS = {
    "oms": ("ticket", "step"),
    "gis": ("name",),
    "customers": ("customer",),
    "causes": ("code",),
}


def add_export_arguments(parser: argparse.ArgumentParser) -> None:
    """The words that name the exports."""
    group = parser.add_argument_group("the exports from which the rows came, so that their rows are named")
    for export in KEYS:
        group.add_argument(f"--{export}", metavar="FILE", action=Once)
    add_format_arguments(parser)


def name_of(export: str, row: Row) -> str:
    """What a row is about, as a source names it."""
    texts = [row[column] for column in KEYS[export]]
    if export == "oms":
        return f"{texts[0]} {texts[1] or '1'}".upper()
    return texts[0].upper() if export == "gis" else texts[0].lstrip("0")


@dataclass(frozen=True)
class ExportedRows:
    """For each export that is given, the first row of each name."""

    rows: dict[str, dict[str, Row]]

    def told(self, sources: Iterable[Source]) -> str:
        """The first source that an export has, with the row; else the first one alone, and nothing where there is none."""
        listed = list(sources)
        for source in listed:
            row = self.rows.get(source.export, {}).get(source.name)
            if row is not None:
                return f"{source.text}, {row.file} row {row.number}"
        return listed[0].text if listed else ""


def exported_rows(args: argparse.Namespace) -> ExportedRows:
    """The rows of the exports that are given."""
    rows: dict[str, dict[str, Row]] = {}
    for export, columns in KEYS.items():
        for row in read_file(getattr(args, export), columns, (), format_of(args)):
            rows.setdefault(export, {}).setdefault(name_of(export, row), row)
            if export == "customers":
                rows[export].setdefault(fingerprint(row["customer"]), row)
    return ExportedRows(rows)
