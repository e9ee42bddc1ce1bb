"""The part on feeders: the worst by SAIDI first and set apart, with their ranks of the year before."""

from outage_tools.charts import Bar, bars_below, lines_of_bars
from outage_tools.compare import Checked
from outage_tools.feeders import feeder_rows
from outage_tools.lists import Names
from outage_tools.ranking import Ranked, Ranks
from outage_tools.report.earlier import Earlier, period_text
from outage_tools.report.pictures import GROUP_HEADS, as_file, by_name, group_cells, rates_heads, saidi_bar
from outage_tools.report.pieces import (
    NONE,
    PROVED,
    Column,
    Part,
    TableRow,
    figure,
    minutes,
    number,
    numbers,
    table,
)

WORST_PART = 20  # one of so many feeders is set apart: 5 %
MOST_BARS = 25
TITLE = "Feeders, the worst by SAIDI first"
CAPTION = "SAIDI by feeder, minutes per customer"


def feeder_text(feeder: int, names: Names) -> str:
    """A feeder's number, with its name where it has one."""
    known = names.get(feeder)
    if known is None:
        return str(feeder)
    return f"{feeder} {known.name}, {known.substation}" if known.substation else f"{feeder} {known.name}"


def feeder_name(feeder: int, names: Names) -> str:
    """A feeder's number and its name, where there is no room for the substation."""
    known = names.get(feeder)
    return str(feeder) if known is None else f"{feeder} {known.name}"


def worst_of(ranks: Ranks) -> int:
    """The last rank that is set apart: that of 5 % of the feeders, of one at least."""
    return -(-len(ranks) // WORST_PART)


def before_heads(earlier: Earlier | None) -> list[Column]:
    """The heads of before_cells."""
    if earlier is None or not earlier.feeders:
        return []
    return numbers("rank", "SAIDI, min", over=f"in {period_text(earlier.before.period)}")


def before_cells(earlier: Earlier | None, feeder: int) -> list[str]:
    """A feeder's rank and SAIDI of the year before, where its book is given."""
    if earlier is None or not earlier.feeders:
        return []
    known = earlier.feeders.get(feeder)
    return [NONE, NONE] if known is None else [str(known.rank), minutes(known.saidi)]


def apart_of(ranked: Ranked) -> set[int]:
    """The feeders that are set apart."""
    worst = worst_of(ranked.by_saidi)
    return {int(name) for name in ranked.names() if ranked.by_saidi.get(int(name), worst + 1) <= worst}


def feeder_bars(found: Checked, names: Names) -> list[Bar]:
    """SAIDI of the worst feeders."""
    ranked, sets = Ranked(found, "all"), by_name(feeder_rows(found))
    apart = apart_of(ranked)
    return [
        saidi_bar(f"feeder {feeder_text(feeder, names)}", sets[feeder]["all"].rates.saidi, feeder in apart)
        for feeder in [int(name) for name in ranked.names()][:MOST_BARS]
    ]


def own_picture(found: Checked, names: Names) -> str:
    """The picture of the feeders as a file of its own."""
    return as_file(lines_of_bars(feeder_bars(found, names), CAPTION))


def feeder_part(found: Checked, names: Names, earlier: Earlier | None = None) -> Part:
    """SAIDI by feeder, and its table."""
    ranked, sets = Ranked(found, "all"), by_name(feeder_rows(found))
    feeders, apart = [int(name) for name in ranked.names()], apart_of(ranked)
    heads = [*numbers("rank"), Column("feeder", "name"), *GROUP_HEADS, *rates_heads(found), *before_heads(earlier)]
    rows = []
    for feeder in feeders:
        cells = [ranked.by_saidi.get(feeder, NONE), feeder_text(feeder, names), *group_cells(found, sets[feeder])]
        rows.append(TableRow([*cells, *before_cells(earlier, feeder)], feeder in apart))
    content = f"""
<p>{said_of_worst(len(feeders), len(apart))} Each is over the customers of its own sections, by their home feeder.</p>
{figure(bars_below(feeder_bars(found, names), "SAIDI by feeder"), note_of(len(feeders)), "below")}
{table(heads, rows)}"""
    return Part("feeders", TITLE, PROVED, content)


def said_of_worst(count: int, apart: int) -> str:
    """Which feeders are set apart."""
    if not apart:
        return f"{number(count)} feeders."
    return f"Set apart: the worst 5 % of the {number(count)} feeders, {number(apart)} of them."


def note_of(count: int) -> str:
    shown = f" The worst {MOST_BARS} of {number(count)} feeders." if count > MOST_BARS else ""
    return f"SAIDI in minutes per customer served of the feeder, all days.{shown}"
