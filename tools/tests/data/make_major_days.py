"""Writes major_days_numpy.csv: thresholds of the series in major_days.csv, worked out by numpy in place of the tools.

    python3 tools/tests/data/make_major_days.py series > tools/tests/data/major_days.csv
    python3 tools/tests/data/make_major_days.py > tools/tests/data/major_days_numpy.csv

A series is the seconds that a day's sustained interruptions lasted, added over customers, of each day of some periods of
forty days; the last period is the one in question. `served` customers are in service all the time.
"""

import csv
import sys
from pathlib import Path

import numpy

SERIES = Path(__file__).with_name("major_days.csv")
DAYS = 40
CASES = {"one-earlier-period": 1, "two": 2, "five": 5, "seven": 7, "one-value": 1, "no-value": 1, "two-values": 2}


def write_series() -> None:
    """Log-normal days with some that have none, and a few storms."""
    rng = numpy.random.default_rng(20_251_231)
    writer = csv.writer(sys.stdout, lineterminator="\n")
    writer.writerow(["case", "period", "day", "served", "seconds"])
    for case, periods in CASES.items():
        for period in range(periods + 1):
            served = 1_000 + 7 * period
            seconds = numpy.rint(numpy.exp(rng.normal(9.0, 1.3, DAYS))).astype(int)
            seconds[rng.random(DAYS) < 0.3] = 0
            seconds[rng.integers(0, DAYS, 2)] *= 60
            if period < periods and case in ("one-value", "no-value", "two-values"):
                seconds[:] = 0
                if case != "no-value":
                    seconds[period] = 90_000 + period
            for day, value in enumerate(seconds):
                writer.writerow([case, period, day, served, int(value)])


def write_thresholds() -> None:
    """Of each case alpha, beta and T_MED, with the days of the last period above it."""
    rows = list(csv.DictReader(SERIES.open()))
    writer = csv.writer(sys.stdout, lineterminator="\n")
    writer.writerow(["case", "days", "alpha", "beta", "t_med", "above"])
    for case, periods in CASES.items():
        minutes = [
            numpy.array([int(r["seconds"]) / 60 / int(r["served"]) for r in rows if (r["case"], r["period"]) == key])
            for key in ((case, str(period)) for period in range(periods + 1))
        ]
        before = numpy.concatenate(minutes[:-1][-5:])
        logarithms = numpy.log(before[before > 0])
        if len(logarithms) < 2:
            writer.writerow([case, len(logarithms), "", "", "", ""])
            continue
        alpha, beta = numpy.mean(logarithms), numpy.std(logarithms, ddof=1)
        threshold = numpy.exp(alpha + 2.5 * beta)
        above = " ".join(str(day) for day in numpy.nonzero(minutes[-1] > threshold)[0])
        writer.writerow([case, len(logarithms), repr(float(alpha)), repr(float(beta)), repr(float(threshold)), above])


if __name__ == "__main__":
    write_series() if sys.argv[1:] == ["series"] else write_thresholds()
