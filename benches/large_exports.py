"""Makes large exports of other systems, the same on every machine: they come from a seed.

    python3 benches/large_exports.py FOLDER [--customers 200000] [--outages 100000] [--day-first]

They are as a utility exports everything that its systems have: many columns that nobody reads, customers of whom half have
left before the period, outages of several years. The period is the year 2025, and as much as a book has room for lies in it.
"""

import argparse
import random
from collections.abc import Iterator
from datetime import datetime, timedelta
from pathlib import Path

PERIOD = "--first 2025-01-01 --days 365 --zone CET-1CEST,M3.5.0,M10.5.0/3"
FEEDERS = 100
SECTIONS = 900
TIES = 200
MOST_CUSTOMERS = 100_000  # of a book
MOST_OUTAGES = 25_000  # of two entries each
CAUSES = ("Wind", "Tree", "Cable", "Digging", "Planned work", "Unknown")
STREETS = ("Mill Lane", "Church Row", "Station Road", "Harbour Street", "Quarry Hill")
BEFORE, YEAR = datetime(2020, 1, 1), datetime(2025, 1, 1)
NOTE = "Called by a customer; crew sent, line patrolled, found and repaired; supply tested at the last house."


def clock(moment: datetime, day_first: bool) -> str:
    return moment.strftime("%d.%m.%Y %H:%M:%S" if day_first else "%Y-%m-%d %H:%M:%S")


def network_rows() -> Iterator[str]:
    """Feeders of nine sections each behind one another, and ties between the ends of neighbours."""
    yield "objectid,type,name,feeder,from,to,normal,since,until,owner"
    yield "1,bus,MAIN,,,,,,,ours"
    yield "2,device,INCOMER,,GRID,MAIN,closed,,,ours"
    for number in range(SECTIONS):
        feeder, place = divmod(number, SECTIONS // FEEDERS)
        above = f"S-{number - 1}" if place else "MAIN"
        yield f"{10 * number},section,S-{number},{feeder + 1},,,,,,ours"
        yield f"{10 * number + 1},device,SW-{number},,{above},S-{number},closed,,,ours"
    for number in range(TIES):
        yield f"{number},device,TIE-{number},,S-{number},S-{number + SECTIONS // 2},open,,,ours"


def customer_rows(rng: random.Random, count: int, day_first: bool) -> Iterator[str]:
    """Customers in any order, those that a book has room for and others who have left."""
    yield "customer,section,since,until,name,street,town,meter,tariff,coordinates,remark"
    stays = [number < MOST_CUSTOMERS for number in range(count)]
    rng.shuffle(stays)
    for number, is_customer in enumerate(stays, 1):
        since = datetime(1980, 1, 1) + timedelta(days=rng.randrange(14_000))
        until = clock(YEAR - timedelta(days=rng.randrange(1, 400)), day_first) if not is_customer else ""
        meter = f"{rng.randrange(10**12):012}"
        street = f"{rng.choice(STREETS)} {rng.randrange(1, 200)}"
        remark = "Meter read by radio since the exchange of the year before last; access by the yard; key at the desk."
        yield (
            f"{number},S-{rng.randrange(SECTIONS)},{clock(since, day_first)},{until},Customer {number},{street},Millbury,"
            f'{meter},A{rng.randrange(9)},"{rng.random() * 9:.9f};{rng.random() * 50:.9f}","{remark} {remark}"'
        )


def outage_rows(rng: random.Random, count: int, day_first: bool) -> Iterator[str]:
    """Outages of the years before and of the period, each device's one behind the other, in the order of their beginnings."""
    yield "ticket,step,device,out,restored,cause,crew,status,caller,remark"
    within = [number < MOST_OUTAGES for number in range(count)]
    ends = {False: (BEFORE, YEAR), True: (YEAR, YEAR + timedelta(days=365))}
    rows = []
    for is_within, (begin, end) in ends.items():
        numbers = [number for number, each in enumerate(within) if each == is_within]
        seconds = (end - begin) // timedelta(seconds=1)
        slot = seconds * SECTIONS // max(1, len(numbers) + SECTIONS)  # of one outage of one device
        for place, _ in enumerate(numbers):
            turn, device = divmod(place, SECTIONS)
            out = begin + timedelta(seconds=turn * slot + rng.randrange(slot // 2))
            rows.append((out, out + timedelta(seconds=rng.randrange(60, min(30_000, slot // 2))), device))
    for number, (out, back, device) in enumerate(sorted(rows), 1):
        if any(
            each.month in (3, 10) and each.hour in (1, 2, 3) for each in (out, back)
        ):  # the clock may be turned then
            out, back = out.replace(hour=4), back.replace(hour=5) if back.date() == out.date() else back.replace(hour=4)
        yield (
            f"T-{number},1,SW-{device},{clock(out, day_first)},{clock(back, day_first)},{rng.choice(CAUSES)},CREW-{rng.randrange(9)},"
            f'done,0{rng.randrange(10**9)},"{NOTE} {NOTE}"'
        )


def write(path: Path, rows: Iterator[str]) -> int:
    with path.open("w", encoding="utf-8", newline="") as file:
        file.writelines(f"{row}\r\n" for row in rows)
    return path.stat().st_size


def main() -> None:
    parser = argparse.ArgumentParser(description="Makes large exports of other systems.")
    parser.add_argument("folder", type=Path)
    parser.add_argument("--customers", type=int, default=200_000)
    parser.add_argument("--outages", type=int, default=100_000)
    parser.add_argument("--day-first", action="store_true", help="dates as 21.10.2025 08:14:05")
    args = parser.parse_args()
    args.folder.mkdir(exist_ok=True)
    rng = random.Random("large exports")
    causes = [
        "code,name,oms",
        *(f"{code},{name.upper().replace(' ', '-')},{name}" for code, name in enumerate(CAUSES, 1)),
    ]
    size = write(args.folder / "causes.csv", iter(causes))
    size += write(args.folder / "gis.csv", network_rows())
    size += write(args.folder / "customers.csv", customer_rows(rng, args.customers, args.day_first))
    size += write(args.folder / "oms.csv", outage_rows(rng, args.outages, args.day_first))
    print(f"{size / 1e6:.1f} MB; {PERIOD}")


if __name__ == "__main__":
    main()
