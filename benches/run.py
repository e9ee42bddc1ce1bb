"""The benchmarks: builds what they need, compares what is computed, takes the time, prints the tables.

    python3 benches/run.py [--repeats N] [--no-build] [--only PART]

Everything that it makes lies in bench-data/. It ends with status 1 where the program and a model of
it differ; the least text on which they do is then bench-data/difference.csv, or the year bench-data/difference.txt.
"""

import argparse
import os
import re
import shutil
import subprocess
import sys
from collections.abc import Sequence
from datetime import date
from pathlib import Path
from statistics import median
from typing import NoReturn

from make_data import large_text, small_text
from make_year import year_lines
from places import BENCHES, DATA, PROGRAM, ROOT
from reference import customer_seconds, read_book

LIBRARY = ROOT / "crates/bench_calls/out"
WORKED = DATA / "worked"
SEARCH = DATA / "search"
BUILD = DATA / "build"
COUNTS = DATA / "counts"
LIVES = DATA / "lives"
YEAR = DATA / "year"
PYTHON_YEAR = BENCHES / "year.py"
PLAIN_TOTAL = DATA / "total"
FIRST_RUN = ROOT / "examples/first-run/first-run.csv"
LARGE = DATA / "large.csv"
SMALL_TEXTS = 200
TOTAL_RUNS = 5
SHEETS = [5_000, 10_000, 20_000]
BUILD_CALLS = 7
BUILD_TURNS = 5
LIVED_SHEETS = [5_000, 20_000]
LIFE_CALLS = 3
LIFE_TURNS = 2
ROLLS = [(5_300, 50_000), (5_300, 100_000), (10_700, 100_000)]
COUNT_CALLS = 11
COUNT_TURNS = 3
YEARS = [10_000, 50_000]
PYTHON_ENTRIES = 10_000
YEAR_CALLS = 2
YEAR_TURNS = 2
SMALL_YEARS = 20
LATE_PAIRS = 500
LATE_SHEETS = [5_000, 10_000, 20_000, 49_000]
LATE_TURNS = 3
ORDERS = ["rising", "falling", "random"]
ORDER_CALLS = 5
YEAR_SEED = 1
OfYear = tuple[float, float, int, int]  # processor seconds, peak in MB, searches, customer-seconds


def run_tool(words: Sequence[str | Path], folder: Path) -> None:
    done = subprocess.run(words, cwd=folder, capture_output=True, text=True)
    if done.returncode:
        sys.exit(f"{' '.join(map(str, words))}\n{done.stdout}{done.stderr}")


def build() -> None:
    """Proves and builds the program and the library, and compiles what is compared with them."""
    rt = shutil.which("rt")
    if rt is None:
        sys.exit("rt is not on the path")
    toolchain = Path(rt).resolve().parent.parent
    run_tool(["rt", "run", "--", "--help"], ROOT / "crates/outagebook")
    run_tool(["rt", "lib"], ROOT / "crates/bench_calls")
    rustc = ["rustc", "--edition", "2024", "-O"]
    library: list[str | Path] = ["-L", LIBRARY, "-l", "static=bench_calls"]
    c_library: list[str | Path] = ["-L", toolchain / "c", "-l", "static=libc_c"]
    programs = [("worked.rs", WORKED), ("search.rs", SEARCH), ("build.rs", BUILD)]
    programs += [("counts.rs", COUNTS), ("lives.rs", LIVES), ("year.rs", YEAR)]
    for source, program in programs:
        run_tool([*rustc, BENCHES / source, "-o", program, *library, *c_library], ROOT)
    run_tool([*rustc, BENCHES / "total.rs", "-o", PLAIN_TOTAL], ROOT)


def compare_worked() -> None:
    """Compares what the calls of the library answer in worked cases."""
    if subprocess.run([WORKED]).returncode:
        sys.exit(1)
    print("the calls of the library answer the worked cases")


def show_searches(repeats: int) -> None:
    """The table of one search of each network."""
    done = subprocess.run([SEARCH, str(repeats)], stdout=subprocess.PIPE, text=True)
    if done.returncode:
        sys.exit(1)
    print("| One search | reached | proved, us | breadth first, us | ratio |")
    print("|---|---|---|---|---|")
    for line in done.stdout.splitlines():
        name, nodes, *nanoseconds = line.split("\t")
        proved, plain = (int(text) / 1e3 for text in nanoseconds)
        print(f"| {name} | {nodes} | {proved:.2f} | {plain:.2f} | {proved / plain:.2f} |")


def measure_build(entries: int) -> tuple[float, float, float, float]:
    """What a process prints: the seconds of network and sheet, of one build, the least, and the peak in MB."""
    words: list[str | Path] = [BUILD, str(entries), str(BUILD_CALLS)]
    done = subprocess.run(words, stdout=subprocess.PIPE, text=True)
    if done.returncode:
        sys.exit(1)
    _, making, build, least, peak, _ = map(float, done.stdout.split("\t"))
    return making, build, least, peak / 1024


def show_builds() -> None:
    """The table of the runs of a year, built from scratch; the sizes take turns."""
    turns = [[measure_build(entries) for entries in SHEETS] for _ in range(BUILD_TURNS)]
    print("| Entries | searches | network and sheet, s | one build, s | least, s | times | peak, MB | times |")
    print("|---|---|---|---|---|---|---|---|")
    first = None
    for entries, measured in zip(SHEETS, zip(*turns)):
        makings, builds, leasts, peaks = zip(*measured)
        least, peak = min(leasts), median(peaks)
        first = first or (least, peak)
        columns = [f"{entries:,}", f"{entries + 1:,}", f"{median(makings):.3f}", f"{median(builds):.3f}"]
        columns += [f"{least:.3f}", f"{least / first[0]:.2f}", f"{peak:.1f}", f"{peak / first[1]:.2f}"]
        print(f"| {' | '.join(columns)} |")


def measure_lives(entries: int) -> tuple[float, float, list[float], float]:
    """What a process prints: the seconds of all lives and of one, the mean and the greatest searches of joining and of leaving,
    and the peak in MB."""
    words: list[str | Path] = [LIVES, str(entries), str(LIFE_CALLS)]
    done = subprocess.run(words, stdout=subprocess.PIPE, text=True)
    if done.returncode:
        sys.exit(1)
    _, all_lives, one, *searches, peak, _ = map(float, done.stdout.split("\t"))
    return all_lives, one, searches, peak / 1024


def show_lives() -> None:
    """The table of devices that join and leave within a year, each time the least of several medians; the sizes take turns."""
    turns = [[measure_lives(entries) for entries in LIVED_SHEETS] for _ in range(LIFE_TURNS)]
    print(
        "| Entries | all lives, s | one, ms | searches of one that joins | at most | of one that leaves | at most | peak, MB |"
    )
    print("|---|---|---|---|---|---|---|---|")
    for entries, measured in zip(LIVED_SHEETS, zip(*turns)):
        all_lives, ones, searches, peaks = zip(*measured)
        columns = [f"{entries:,}", f"{min(all_lives):.2f}", f"{min(ones) * 1e3:.1f}"]
        columns += [f"{count:,.0f}" for count in searches[0]] + [f"{median(peaks):.1f}"]
        print(f"| {' | '.join(columns)} |")


def measure_counts(entries: int, customers: int) -> tuple[float, float, float, float, float]:
    """What a process prints: the runs, the seconds of making, of counts and indices and of a plain count, and the
    peak in MB."""
    words: list[str | Path] = [COUNTS, str(entries), str(customers), str(COUNT_CALLS)]
    done = subprocess.run(words, stdout=subprocess.PIPE, text=True)
    if done.returncode:
        sys.exit(1)
    runs, _, making, counts, plain, peak, _ = map(float, done.stdout.split("\t"))
    return runs, making, counts, plain, peak / 1024


def show_counts() -> None:
    """The table of counts and indices over a year, each time the least of several medians; the sizes take turns."""
    turns = [[measure_counts(*sizes) for sizes in ROLLS] for _ in range(COUNT_TURNS)]
    print("| Customers | runs | all made, s | counts and indices, s | plain Rust, s | ratio | peak, MB |")
    print("|---|---|---|---|---|---|---|")
    for (_, customers), measured in zip(ROLLS, zip(*turns)):
        runs, makings, counts, plains, peaks = zip(*measured)
        counts, plain = min(counts), min(plains)
        columns = [f"{customers:,}", f"{runs[0]:,.0f}", f"{min(makings):.3f}", f"{counts:.3f}"]
        columns += [f"{plain:.3f}", f"{counts / plain:.2f}", f"{median(peaks):.1f}"]
        print(f"| {' | '.join(columns)} |")


def year_text(
    entries: int, seed: int = YEAR_SEED, customers: int = 100_000, order: str = "rising", late: int = 0, lives: int = 0
) -> Path:
    """A made year in a file."""
    path = DATA / f"year-{entries}-{seed}-{customers}-{order}-{late}-{lives}.txt"
    lines = year_lines(entries, seed, customers, order, late, lives)
    path.write_text("".join(line + "\n" for line in lines), encoding="ascii")
    return path


def measure_year(book: str, path: Path, calls: int) -> OfYear:
    """The least processor seconds of a call, the peak in MB, the searches and the customer-seconds of a year."""
    done = subprocess.run([YEAR, book, path, str(calls)], stdout=subprocess.PIPE, text=True)
    if done.returncode:
        sys.exit(1)
    seconds, peak, searches, total = done.stdout.split("\t")
    return float(seconds), int(peak) / 1024, int(searches), int(total)


def measure_years(book: str, paths: list[Path], calls: int = YEAR_CALLS, turns: int = YEAR_TURNS) -> list[OfYear]:
    """The same of some years, each the least of several processes; the years take turns."""
    measured = [[measure_year(book, path, calls) for path in paths] for _ in range(turns)]
    return [min(of_year) for of_year in zip(*measured)]


def measure_python_year(path: Path) -> tuple[float, float, str]:
    """The processor seconds and the peak in MB of one run of the year in Python, and what it prints."""
    child = subprocess.Popen([sys.executable, PYTHON_YEAR, path], stdout=subprocess.PIPE, text=True)
    assert child.stdout is not None
    output = child.stdout.read()
    _, status, usage = os.wait4(child.pid, 0)
    child.returncode = os.waitstatus_to_exitcode(status)
    if child.returncode:
        sys.exit(1)
    return usage.ru_utime + usage.ru_stime, usage.ru_maxrss / 1024, output


def lines_of_table(table: str) -> set[str]:
    """The amounts and indices of an annual table, as the plain books print them."""
    lines = []
    for line in table.splitlines():
        words = line.split()
        if words[0] == "P":
            lines += [f"W {words[5]}", f"S {words[3]}"]
        elif words[0] in ["cause", "feeder"]:
            lines.append(f"{words[0]} {words[1]} {words[-1]}")
        elif words[0] == "day":
            number = (date.fromisoformat(words[1]) - date(2024, 1, 1)).days
            lines.append(f"day {number} {words[2]}")
        elif words[0] != "OUTAGE":
            lines.append(" ".join(words[:3]))
    return {line for line in lines if not re.fullmatch("(cause|feeder|day) [0-9]+ 0", line)}


def year_lines_of(*words: str | Path) -> str:
    done = subprocess.run(words, stdout=subprocess.PIPE, text=True)
    if done.returncode:
        sys.exit(1)
    return done.stdout


def compare_year(path: Path) -> int:
    """Compares the annual table of the proved book with the lines of both plain ones."""
    proved = lines_of_table(year_lines_of(YEAR, "proved", path, "table"))
    plain = set(year_lines_of(YEAR, "plain", path, "table").splitlines())
    python = set(year_lines_of(sys.executable, PYTHON_YEAR, path, "--indices").splitlines())
    if not proved == plain == python:
        shutil.copy(path, DATA / "difference.txt")
        sys.exit("the proved book and the plain ones differ: bench-data/difference.txt")
    return len(proved)


def compare_years() -> None:
    """Compares whole years, and small ones whose network has few customers, in which devices join and leave."""
    count = compare_year(year_text(PYTHON_ENTRIES))
    for seed in range(1, SMALL_YEARS + 1):
        count += compare_year(year_text(200, seed, 300, ORDERS[seed % 3], 20, 45))
    print(f"{SMALL_YEARS + 1} years, {count} amounts, counts and indices are those of both plain books")


def show_years() -> None:
    """The table of whole years."""
    print(
        "| Entries | searches | proved, s | plain Rust, s | ratio | Python, s | ratio | proved, MB | plain Rust, MB | Python, MB |"
    )
    print("|---|---|---|---|---|---|---|---|---|---|")
    for entries in YEARS:
        path = year_text(entries)
        [(proved, proved_peak, searches, total)] = measure_years("proved", [path])
        [(plain, plain_peak, _, plain_total)] = measure_years("plain", [path])
        columns = [f"{entries:,}", f"{searches:,}", f"{proved:.2f}", f"{plain:.2f}", f"{proved / plain:.2f}"]
        python_peak = "-"
        if entries <= PYTHON_ENTRIES:
            python, peak, output = measure_python_year(path)
            python_peak = f"{peak:.1f}"
            columns += [f"{python:.1f}", f"{proved / python:.3f}"]
        else:
            output = f"W {plain_total}\n"
            columns += ["-", "-"]
        if not total == plain_total == int(output.split()[1]):
            sys.exit(f"{path}: the customer-seconds differ")
        columns += [f"{proved_peak:.1f}", f"{plain_peak:.1f}", python_peak]
        print(f"| {' | '.join(columns)} |", flush=True)


def show_late() -> None:
    """The table of short outages that are entered after all others, by the differences to the year without them."""
    print("| Entries before | searches a command | proved, ms a command | plain Rust, ms a command |")
    print("|---|---|---|---|")
    for entries in LATE_SHEETS:
        paths = [year_text(entries), year_text(entries, late=LATE_PAIRS)]
        proved, plain = (measure_years(book, paths, turns=LATE_TURNS) for book in ["proved", "plain"])
        commands = 2 * LATE_PAIRS
        columns = [f"{entries:,}", f"{(proved[1][2] - proved[0][2]) / commands:.0f}"]
        columns += [f"{(after[0] - before[0]) / commands * 1e3:.3f}" for before, after in [proved, plain]]
        print(f"| {' | '.join(columns)} |", flush=True)


def show_connections() -> None:
    """The table of a network and 100,000 customers, in three orders of their numbers."""
    print("| Order of the numbers | proved, s | plain Rust, s | ratio | proved, MB | plain Rust, MB |")
    print("|---|---|---|---|---|---|")
    for order in ORDERS:
        path = year_text(0, order=order)
        proved, plain = (measure_years(book, [path], ORDER_CALLS)[0] for book in ["proved", "plain"])
        columns = [order, f"{proved[0]:.3f}", f"{plain[0]:.3f}", f"{proved[0] / plain[0]:.2f}"]
        columns += [f"{proved[1]:.1f}", f"{plain[1]:.1f}"]
        print(f"| {' | '.join(columns)} |", flush=True)


def output_of(program: Path, data: bytes) -> bytes | None:
    done = subprocess.run([program, "total"], input=data, capture_output=True)
    return done.stdout if done.returncode == 0 else None


def differs(data: bytes) -> bool:
    """Whether the program takes the text and answers another total than the model."""
    output = output_of(PROGRAM, data)
    return output is not None and output != b"W %d\n" % customer_seconds(read_book(data))


def least_difference(data: bytes) -> bytes:
    """A text that differs and of which no row can be left out."""
    rows = data.splitlines()
    place = 2
    while place < len(rows):
        fewer = b"\n".join(rows[:place] + rows[place + 1 :]) + b"\n"
        try:
            is_enough = differs(fewer)
        except KeyError:
            is_enough = False
        if is_enough:
            rows.pop(place)
            place = 2
        else:
            place += 1
    return b"\n".join(rows) + b"\n"


def compare_totals() -> None:
    """Compares the program with the model on both inputs and on the small texts."""
    texts = [FIRST_RUN.read_bytes(), LARGE.read_bytes()]
    texts += [small_text(seed) for seed in range(1, SMALL_TEXTS + 1)]
    for data in texts:
        if output_of(PROGRAM, data) is None:
            refuse(data, "the program refuses a text that it should take")
        if differs(data):
            refuse(least_difference(data), "the program and the model differ")
    if output_of(PLAIN_TOTAL, texts[1]) != output_of(PROGRAM, texts[1]):
        refuse(texts[1], "the program and plain Rust differ")
    print(f"{len(texts)} totals are those of the model: the first run, the large text and small ones")


def refuse(data: bytes, reason: str) -> NoReturn:
    (DATA / "difference.csv").write_bytes(data)
    sys.exit(f"{reason}: bench-data/difference.csv")


def processor_seconds(program: Path, path: Path) -> float:
    """The processor time of one run."""
    with open(path, "rb") as text:
        child = subprocess.Popen([program, "total"], stdin=text, stdout=subprocess.DEVNULL)
        _, status, usage = os.wait4(child.pid, 0)
    child.returncode = os.waitstatus_to_exitcode(status)
    if child.returncode:
        sys.exit(f"{program}: status {child.returncode}")
    return float(usage.ru_utime + usage.ru_stime)


def peak_kilobytes(program: Path, path: Path) -> int:
    """The peak of resident memory of one run."""
    words: list[str | Path] = ["/usr/bin/time", "-f", "%M", program, "total"]
    with open(path, "rb") as text:
        done = subprocess.run(words, stdin=text, capture_output=True, check=True)
    return int(done.stderr)


def show_totals() -> None:
    """The table of `total`, each figure the least of several runs."""
    print("| `total` of | proved, s | plain Rust, s | ratio | proved, MB | plain Rust, MB | ratio |")
    print("|---|---|---|---|---|---|---|")
    runs = range(TOTAL_RUNS)
    for name, path in [("the first run", FIRST_RUN), ("the large text", LARGE)]:
        proved, plain = (min(processor_seconds(program, path) for _ in runs) for program in [PROGRAM, PLAIN_TOTAL])
        columns = [f"{proved:.4f}", f"{plain:.4f}", f"{proved / plain:.2f}"]
        proved, plain = (min(peak_kilobytes(program, path) for _ in runs) / 1024 for program in [PROGRAM, PLAIN_TOTAL])
        columns += [f"{proved:.1f}", f"{plain:.1f}", f"{proved / plain:.2f}"]
        print(f"| {name} | {' | '.join(columns)} |")


def measure_totals(_: int) -> None:
    LARGE.write_bytes(large_text())
    compare_totals()
    show_totals()


def measure_a_year(_: int) -> None:
    compare_years()
    show_years()
    print()
    show_late()
    print()
    show_connections()


PARTS = {
    "worked": lambda _: compare_worked(),
    "totals": measure_totals,
    "searches": show_searches,
    "builds": lambda _: show_builds(),
    "counts": lambda _: show_counts(),
    "lives": lambda _: show_lives(),
    "year": measure_a_year,
}


def main() -> None:
    parser = argparse.ArgumentParser(description="Runs the benchmarks.")
    parser.add_argument("--repeats", type=int, default=100, help="timed calls for each search (100)")
    parser.add_argument("--no-build", action="store_true", help="take what an earlier run has built")
    parser.add_argument("--only", choices=PARTS, help="one part alone")
    words = parser.parse_args()
    DATA.mkdir(exist_ok=True)
    if not words.no_build:
        print("building: the first time this proves each crate below", flush=True)
        build()
    for name, part in PARTS.items():
        if words.only in [None, name]:
            part(words.repeats)
            print()
    print(f"load {os.getloadavg()[0]:.1f} on {os.cpu_count()} processors")


if __name__ == "__main__":
    main()
