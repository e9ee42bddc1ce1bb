"""A book's figures as a workbook of spreadsheets, and filings."""

from outage_tools.workbook.command import main
from outage_tools.workbook.parts import Wanted, sheets_of
from outage_tools.workbook.writing import write_workbook

__all__ = ["Wanted", "main", "sheets_of", "write_workbook"]
