"""The sheet that counts again: formulas over the rows of interruptions, each beside the figure of the program."""

from collections.abc import Iterator, Sequence
from dataclasses import dataclass
from fractions import Fraction

from outage_tools.compare import Checked, figures_of_table
from outage_tools.counts import SETS
from outage_tools.workbook.sheets import Cell, Decimal, Formula, Sheet, letters_of

NAME = "recount"
COLUMNS = {
    "figure": "a count or an index",
    "set": "all interruptions, or the unmarked ones, which don't begin on a marked day",
    "program": "what the program's annual table says; CSI: what follows from the table's SAIDI, P and S",
    "from the rows": "a formula over the sheet of interruptions, and over P and S",
    "equal": "a formula: whole numbers have to be the same, indices within half of the last decimal",
    "how": "the formula in words",
}
NEAR = "0.0005000001"  # half of the third decimal, and what floating numbers need


SUSTAINED, MOMENTARY = ("class", '"sustained"'), ("class", '"momentary"')
LIMIT = 180  # seconds: the limit of the last rows, which the reader may change


class Rows:
    """The columns of the sheets of interruptions, for formulas."""

    def __init__(self, sheets: Sequence[Sheet]) -> None:
        self.sheets = sheets

    def column(self, sheet: Sheet, name: str) -> str:
        letters = letters_of(sheet.columns.index(name))
        return f"'{sheet.name}'!${letters}$2:${letters}${len(sheet.rows) + 1}"

    def total(self, name: str) -> str:
        """The sum of a column."""
        return "+".join(f"SUM({self.column(sheet, name)})" for sheet in self.sheets)

    def total_if(self, name: str, column: str, wanted: str, which: str) -> str:
        """The sum of a column where another one is as wanted: over all rows, or over all without those of marked days."""
        whole = "+".join(f"SUMIFS({self.wanted(sheet, name, column, wanted)})" for sheet in self.sheets)
        marked = (
            f'-SUMIFS({self.wanted(sheet, name, column, wanted)},{self.column(sheet, "marked")},"yes")'
            for sheet in self.sheets
        )
        return whole if which == "all" else whole + "".join(marked)

    def wanted(self, sheet: Sheet, name: str, column: str, wanted: str) -> str:
        return f"{self.column(sheet, name)},{self.column(sheet, column)},{wanted}"


@dataclass(frozen=True)
class Line:
    """A figure with its formula; `value` is what the formula gives, `said` what the program says."""

    figure: str
    set: str
    said: Fraction | int | None
    formula: str
    value: Fraction | int | None
    how: str


def same(place: int, said: Fraction | int | None) -> str:
    """The formula that compares the two figures of a row."""
    if isinstance(said, Fraction):
        near = f'IF(ABS(D{place}-C{place})<={NEAR},"equal","differs")'
        return f'=IF(ISNUMBER(D{place}),{near},"differs")'
    return f'=IF(D{place}=C{place},"equal","differs")'


def given_by(value: Fraction | int | None) -> int | float | str:
    """What a formula gives."""
    if isinstance(value, Fraction):
        return float(value)
    return "undefined" if value is None else value


def cells_of(line: Line, place: int, decimals: str) -> list[Cell]:
    """The cells of a line in a row of the sheet."""
    said: Cell = "undefined" if line.said is None else line.said if isinstance(line.said, int) else Decimal(decimals)
    formula = Formula(line.formula, given_by(line.value), 6 if isinstance(line.value, Fraction) else 0)
    return [line.figure, line.set, said, formula, Formula(same(place, line.said), "equal"), line.how]


class Recount:
    """The lines of the sheet, whose rows are numbered from 2 as in the sheet."""

    def __init__(self, found: Checked, sheets: Sequence[Sheet]) -> None:
        self.found = found
        self.rows = Rows(sheets)
        self.said = figures_of_table(found.table)
        self.length, self.served, self.total = map(int, self.said["P, S and W"].split())
        self.cells: list[list[Cell]] = []

    def index(self, name: str, which: str) -> Fraction | None:
        words = self.said[f"{name} {which}"]
        return None if words == "undefined" else Fraction(words.split()[0])

    def add(self, line: Line) -> str:
        """Adds a line, and gives the cell of its formula."""
        place = len(self.cells) + 2
        decimals = self.said.get(f"{line.figure} {line.set}", "").split()[-1:]
        self.cells.append(cells_of(line, place, decimals[0] if decimals else ""))
        return f"D{place}"

    def given(self, name: str, value: int, how: str) -> str:
        """A figure of the table that no row of interruptions says; gives its cell."""
        self.cells.append([name, "", value, "", "", how])
        return f"C{len(self.cells) + 1}"

    def fill(self) -> None:
        """All rows."""
        length = self.given("P", self.length, "seconds of the period: line 2 of the annual table")
        served = self.given("S", self.served, "customer-seconds in service: line 2 of the annual table")
        formula = f"={self.rows.total('customer_seconds')}"
        self.add(Line("W", "all", self.total, formula, self.total, "the sum of customer_seconds"))
        for which in SETS:
            self.fill_set(which, length, served)
        self.cells.append(self.all_equal())
        self.fill_by_limit(length, served)

    def fill_set(self, which: str, length: str, served: str) -> None:
        """The counts of one of the two sets, and the indices that are their quotients."""
        counts, without = self.found.counts[which], "" if which == "all" else ", without those that are marked"
        indices = self.found.whole[which].indices
        saidi = self.index("SAIDI", which)
        follows = counts.sustained_seconds if saidi is None else int(saidi * 60 * self.served / self.length)
        said = {
            "SUSTAINED": (int(self.said[f"SUSTAINED {which}"]), "customers", SUSTAINED, counts.sustained),
            "MOMENTARY": (int(self.said[f"MOMENTARY {which}"]), "customers", MOMENTARY, counts.momentary),
            "CSI": (follows, "customer_seconds", SUSTAINED, counts.sustained_seconds),
        }
        at: dict[str, str] = {}
        for name, (figure, column, wanted, value) in said.items():
            formula = f"={self.rows.total_if(column, *wanted, which)}"
            kind = wanted[1].strip('"')
            how = f"the sum of {column} of the rows of class {kind}{without}"
            at[name] = self.add(Line(name, which, figure, formula, value, how))
        for name, formula, how in quotients(at["SUSTAINED"], at["CSI"], length, served):
            self.add(Line(name, which, self.index(name, which), formula, indices[name], how))

    def fill_by_limit(self, length: str, served: str) -> None:
        """The same indices by another limit between sustained and momentary, which the reader may change."""
        told = "change it: the rows below count what is longer than so many seconds, as outagebook indices --over prints it"
        limit = self.given("another limit, seconds", LIMIT, told)
        for which in SETS:
            indices = self.found.selected("whole", LIMIT)[which]["whole"].indices
            wanted = ("seconds", f'">"&{limit}')
            customers, seconds = (
                f"({self.rows.total_if(column, *wanted, which)})" for column in ("customers", "customer_seconds")
            )
            for name, formula, how in quotients(customers, seconds, length, served):
                value = Formula(formula, given_by(indices[name]), 6)
                self.cells.append([f"{name} by that limit", which, "", value, "", how])

    def all_equal(self) -> list[Cell]:
        """The row that says whether all are equal."""
        last = len(self.cells) + 1
        lines = sum(isinstance(row[4], Formula) for row in self.cells)
        formula = f'=IF(COUNTIF(E2:E{last},"equal")={lines},"all equal","differs")'
        return ["all of them", "", "", "", Formula(formula, "all equal"), f"{lines} figures"]


def quotients(customers: str, seconds: str, length: str, served: str) -> Iterator[tuple[str, str, str]]:
    """The three indices as formulas over CI, CSI, P and S: name, formula, and the formula in words."""
    for name, above, below, how in (
        ("SAIFI", f"{customers}*{length}", served, "CI x P / S"),
        ("SAIDI", f"{seconds}*{length}", f"(60*{served})", "CSI x P / (60 x S), in minutes"),
        ("CAIDI", seconds, f"(60*{customers})", "CSI / (60 x CI), in minutes"),
    ):
        yield name, f'=IF({below}=0,"undefined",{above}/{below})', how


def recount(found: Checked, sheets: Sequence[Sheet]) -> Sheet:
    """The sheet over the sheets of interruptions."""
    lines = Recount(found, sheets)
    lines.fill()
    about = [
        "Formulas over the rows of interruptions give the indices again: a spreadsheet counts them, not the tool.",
        "CEMI, CAIFI and ASAI aren't in it; rows of interruptions don't say who had several.",
    ]
    how = "counted again by the spreadsheet"
    return Sheet(NAME, about, list(COLUMNS), lines.cells, dict(COLUMNS), "formulas of this workbook", how)
