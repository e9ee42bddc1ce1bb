"""Days and months in which there are fewer tickets than in the others: rows may be missing."""

from collections import Counter, defaultdict
from collections.abc import Iterator
from itertools import pairwise
from statistics import median

from outage_tools.implausible.lines import Line, Look, begin_of

FEWEST_DAYS = 10  # of a month that is compared
FEWEST_MONTHS = 3
FEWEST_EXPECTED = 10  # tickets in a month, by the others
Month = tuple[int, int]


def last_day(look: Look) -> int:
    """The number of the last day that can have tickets."""
    return look.draft.period.day_of(max(look.until, look.draft.period.first + 1) - 1)


def days_of_tickets(look: Look) -> list[int]:
    """The numbers of the days on which each ticket begins."""
    period = look.draft.period
    begins = (begin_of(listed[0]) for listed in look.tickets.values())
    return sorted(period.day_of(second) for second in begins if period.first <= second < look.until)


def quiet_days(look: Look) -> int:
    """The days without a ticket at the end, where there were never as many before; else 0."""
    days = sorted(set(days_of_tickets(look)))
    if not days:
        return 0
    quiet = last_day(look) - days[-1]
    longest = max([after - before - 1 for before, after in pairwise(days)], default=0)
    return quiet if quiet > max(longest, look.limits.quiet) else 0


def quiet_end(look: Look) -> Iterator[Line]:
    """Days without a ticket at the end, with what as many of the days before have."""
    quiet = quiet_days(look)
    if quiet:
        period, last = look.draft.period, last_day(look)
        before = last + 1 - quiet
        text = f"days without a ticket at the end ({quiet}): {period.days[before]} to {period.days[last]}; as many days before them have"
        yield Line("quiet", text, look.draft.total * quiet // max(before, 1))


def month_of(look: Look, day: int) -> Month:
    date = look.draft.period.days[day]
    return date.year, date.month


def low_months(look: Look) -> Iterator[Line]:
    """Months with far fewer tickets a day than the others, with what they have less than these."""
    quiet = quiet_days(look)
    days = Counter(month_of(look, day) for day in range(last_day(look) + 1 - quiet))
    days = Counter({month: number for month, number in days.items() if number >= FEWEST_DAYS})
    tickets = Counter(month_of(look, day) for day in days_of_tickets(look))
    if len(days) < FEWEST_MONTHS:
        return
    rates = {month: tickets[month] / number for month, number in days.items()}
    low = {}
    for month, rate in rates.items():
        usual = median(other for each, other in rates.items() if each != month)
        if usual * days[month] >= FEWEST_EXPECTED and rate < look.limits.low_month * usual:
            low[month] = usual * days[month]
    if low:
        others = [month for month in days if month not in low]
        seconds = seconds_by_month(look)
        usual_seconds = sum(seconds[month] for month in others) // max(1, sum(days[month] for month in others))
        missing = sum(max(0, usual_seconds * days[month] - seconds[month]) for month in low)
        texts = (f"{year}-{month:02} {tickets[year, month]} of {usual:.0f}" for (year, month), usual in low.items())
        yield Line(
            "low-month", f"months with far fewer tickets than by the others ({len(low)}): {', '.join(texts)}", missing
        )


def seconds_by_month(look: Look) -> dict[Month, int]:
    """The customer-seconds of the interruptions that begin in each month."""
    found: dict[Month, int] = defaultdict(int)
    for each in look.draft.interruptions:
        found[month_of(look, look.draft.period.day_of(each.since))] += each.customer_seconds
    return found


LINES = (quiet_end, low_months)
