"""Made utilities, cut: the book of the cut has the figures of a count on the raw edges, customer by customer."""

import os
import random
import unittest
from collections import defaultdict
from fractions import Fraction
from functools import lru_cache
from pathlib import Path

from outage_tools.compare import Checked, open_book
from outage_tools.oms.network import MOST_NODES
from outage_tools.sums import add_up, read_districts
from tests import exports, many_books, program_books, support
from tests.made_grid import PERIOD, Grid, Interval, made_grid
from tests.network_runs import Cut, run, rows_of

IS_LONG = bool(os.environ.get("OUTAGEBOOK_LONG"))
SIZES = {  # seed, substations, feeders, length of each, tickets
    "small": (1, 2, 4, 30, 400 if IS_LONG else 100),
    "large": (2, 4, 8, 80, 100 if IS_LONG else 20),
    "huge": (3, 31, 8, 103, 60),  # 200,000 edges; of feeders there are 255 at most
}
WORDS = [
    *("--column", "ID=name", "--column", "Type=kind", "--column", "End 1=from", "--column", "End 2=to"),
    *("--column", "Pos=normal", "--word", "closed=1", "--word", "open=0"),
]


@lru_cache(maxsize=None)
def grid_of(size: str) -> Grid:
    return made_grid(*SIZES[size])


def files_of(grid: Grid, name: str) -> dict[str, Path]:
    """The exports of a grid."""
    texts = {"edges": grid.edge_lines(), "customers": grid.customer_lines(), "oms": grid.oms_lines()}
    return {
        each: support.written(f"grid-{name}-{each}.csv", "".join(f"{line}\n" for line in lines))
        for each, lines in texts.items()
    }


def cut_of(grid: Grid, name: str, tickets: str, *words: str) -> Cut:
    files = files_of(grid, name)
    sources = [word for source in grid.sources for word in ("--source", source)]
    said = ["--edges", files["edges"], "--customers", files["customers"], tickets, files["oms"]]
    return run(*said, *sources, *WORDS, *words, to=f"grid-{name}")


def text_of(name: str, folder: Path | None = None) -> Path:
    """The rows of commands of a cut's exports."""
    folder = folder or support.folder() / f"grid-{name}"
    causes = support.written("grid-causes.csv", "code,name\n1,WIND\n")
    words = [
        "--causes",
        causes,
        *(word for each in ("gis", "customers", "oms") for word in (f"--{each}", folder / f"{each}.csv")),
    ]
    text = support.folder() / f"grid-{name}.rows.csv"
    done = exports.run(*words, "--first", PERIOD[0], "--days", PERIOD[1], "--zone", PERIOD[2], "-o", text)
    if done.status:
        raise AssertionError(done.err)
    return text


def book_words(name: str) -> tuple[str, str]:
    """A cut's book and its annual table: the program's, or the model's where it isn't built."""
    text = text_of(name)
    if support.has_program():
        book = program_books.new_book(f"grid-{name}", PERIOD, text)
        table = support.written(f"grid-{name}.table.txt", "".join(f"{line}\n" for line in program_books.table_of(book)))
        return str(book), str(table)
    listed = support.written("grid.list", f"{text} {' '.join(PERIOD)}\n")
    made = support.made(support.folder() / f"grid-{name}-model", "--list", str(listed), "--without-moves")[0]
    return str(made.book), str(made.table)


def by_customer(found: Checked) -> dict[int, list[Interval]]:
    """The interruptions of each customer, by the section and the service that the book has."""
    period, had = found.book.period, defaultdict(list)
    for each in found.interruptions:
        had[each.block.section, each.block.since, each.block.until].append((each.since, each.until))
    rows = found.database.execute("SELECT id, section, since, until FROM customer")
    return {
        number: had[section, max(since, period.first), min(until or period.end, period.end)]
        for number, section, since, until in rows
    }


class Made(unittest.TestCase):
    """Of 2,000 edges, in all detail and coarse, and of 20,000 edges, coarse."""

    def compare(self, name: str, size: str, tickets: str, *words: str) -> tuple[Cut, Grid]:
        grid = grid_of(size)
        found = cut_of(grid, name, tickets, *words)
        self.assertEqual(found.status, 0, found.err)
        with open_book(*book_words(name)) as book:
            self.assertEqual(by_customer(book), grid.interruptions())
            figures = grid.figures()
            for index in ("SAIFI", "SAIDI", "CAIDI", "CAIFI"):
                (line,) = (line for line in book.table if line.split()[:2] == [index, "all"])
                self.assertEqual(Fraction(line.split()[2]), figures[index], line)
            self.assertEqual(book.table[1].split()[5], str(figures["W"]))
            self.assertIn(["MOMENTARY", "all", str(figures["MOMENTARY"])], [line.split() for line in book.table])
        return found, grid

    def test_in_all_detail(self) -> None:
        found, grid = self.compare("detail", "small", "--oms")
        kinds = [edge.kind for edge in grid.edges if edge.kind in ("transformer", "fuse", "switch", "breaker")]
        spare = 3 * len(grid.sources)
        self.assertEqual(len(found.devices), len(kinds) - spare)
        self.assertEqual(len(found.nodes), len(found.devices) - len(grid.ties))

    def test_coarse(self) -> None:
        found, _ = self.compare("coarse", "small", "--only-opened")
        opened = {row[2] for row in rows_of(support.folder() / "grid-coarse" / "oms.csv")}
        self.assertEqual({*opened} - {*found.devices}, set())

    def test_many_edges(self) -> None:
        _, grid = self.compare("many", "large", "--only-opened")
        detail = cut_of(grid, "many", "--oms")
        text = f"nodes with GRID, and a book takes {MOST_NODES}: --only-opened, or outagebook-districts"
        self.assertTrue(detail.err.splitlines()[-1].endswith(text), detail.err)


class Huge(unittest.TestCase):
    """Of 200,000 edges, coarse, in districts whose ties are cut where no ticket closes them."""

    def books(self) -> list[str]:
        """The program's book of each district."""
        done = cut_of(grid_of("huge"), "huge", "--only-opened")
        self.assertEqual(done.status, 0, done.err)
        whole, folder = support.folder() / "grid-huge", support.folder() / "grid-huge-districts"
        files = [whole / "gis.csv", whole / "customers.csv", "--oms", whole / "oms.csv"]
        said = many_books.run("districts", "cut", *files, "-o", folder)
        self.assertEqual(said.returncode, 0, said.stderr)
        names = sorted(path.name for path in folder.iterdir() if path.is_dir())
        return [str(program_books.new_book(name, PERIOD, text_of(name, folder / name))) for name in names]

    @support.needs_program
    def test_districts(self) -> None:
        grid, books = grid_of("huge"), self.books()
        had: dict[int, list[Interval]] = {}
        for book in books:
            with open_book(book, program=str(support.PROGRAM)) as found:
                had |= by_customer(found)
        self.assertEqual(had, grid.interruptions())
        sums = add_up(read_districts(books, [None] * len(books), str(support.PROGRAM)))
        figures = grid.figures()
        for index in ("SAIFI", "SAIDI", "CAIDI", "CAIFI"):
            self.assertEqual(sums.indices("all")[index], figures[index], index)
        self.assertEqual(sums.total, figures["W"])
        self.assertEqual(sums.counts["all"].momentary, figures["MOMENTARY"])


if not IS_LONG:  # it takes minutes
    del Huge


KINDS = ("line", "line", "line", "busbar", "transformer", "fuse", "switch", "breaker")
Joined = dict[str, tuple[str, str]]


def reached(edges: Joined, is_closed: dict[str, bool], start: set[str]) -> set[str]:
    """The nodes to which a walk of closed edges leads."""
    found = set(start)
    while more := {
        node
        for name, ends in edges.items()
        if is_closed[name] and found & {*ends}
        for node in ends
        if node not in found
    }:
        found |= more
    return found


class Random(unittest.TestCase):
    """Small networks drawn at random, most of them with mistakes: refused by rows, or cut so that whichever devices are switched,
    the same customers are supplied as on the raw edges."""

    def drawn(self, seed: int) -> tuple[list[str], list[str], Joined, dict[str, bool], dict[str, str]]:
        draw = random.Random(seed)
        nodes = [f"n{number}" for number in range(draw.randint(3, 12))]
        lines, edges, is_closed = ["name,kind,from,to,normal,circuit"], Joined(), {}
        for number in range(draw.randint(len(nodes) - 1, len(nodes) + 2)):
            near = nodes[draw.randrange(number + 1)] if number < len(nodes) - 1 else draw.choice(nodes)
            far = nodes[number + 1] if number < len(nodes) - 1 else draw.choice(nodes)
            kind, ends = draw.choice(KINDS), draw.sample([near, far], 2)
            position = draw.choice(("closed",) * 9 + ("open",)) if kind in ("fuse", "switch", "breaker") else ""
            if number >= len(nodes) - 1 and draw.random() < 0.7:
                kind, position = "switch", "open"
            circuit = draw.choice(("", "1", "1", "1", "2")) if number else draw.choice(("", "1"))
            lines.append(f"E{number},{kind},{','.join(ends)},{position},{circuit}")
            edges[f"E{number}"] = ends[0], ends[1]
            is_closed[f"E{number}"] = position != "open"
        transformers = [line.split(",")[0] for line in lines if ",transformer," in line]
        register = {str(number): draw.choice(transformers) for number in range(1, 4)} if transformers else {}
        customers = ["customer,transformer,since,until", *(f"{each},{by},2020-01-01," for each, by in register.items())]
        return lines, customers, edges, is_closed, register

    def test_they_are_refused_or_cut(self) -> None:
        cut_whole = 0
        for seed in range(2_000 if IS_LONG else 300):
            lines, customers, edges, is_closed, register = self.drawn(seed)
            draw = random.Random(seed)
            files = [
                support.written(f"random-{name}.csv", "\n".join(text) + "\n")
                for name, text in (("e", lines), ("c", customers))
            ]
            words = draw.choice(((), (), ("--meshed",), ("--device", "fuse,breaker")))
            found = run("--edges", files[0], "--customers", files[1], "--source", "n0", *words)
            if found.status:
                self.assertTrue(found.err.startswith("error: "), f"{seed}: {found.err}")
                continue
            cut_whole += 1
            self.compare(seed, found, edges, is_closed, register)
        self.assertGreater(cut_whole, 30)

    def compare(
        self, seed: int, found: Cut, edges: Joined, is_closed: dict[str, bool], register: dict[str, str]
    ) -> None:
        draw = random.Random(seed)
        devices = {name: (a, b) for name, (a, b, _) in found.devices.items()}
        for _ in range(8):
            positions = is_closed | {name: draw.random() < 0.7 for name in devices}
            raw = reached(edges, positions, {"n0"})
            of_book = reached(devices, positions, {"GRID"})
            for customer, transformer in register.items():
                far = self.far_side(transformer, edges, is_closed)
                self.assertEqual(found.customers[customer] in of_book, far in raw, (seed, customer))

    def far_side(self, transformer: str, edges: Joined, is_closed: dict[str, bool]) -> str:
        """The end that isn't reached without the transformer, where there is one; else either."""
        without = reached(edges, is_closed | {transformer: False}, {"n0"})
        a, b = edges[transformer]
        return a if a not in without else b


if __name__ == "__main__":
    unittest.main()
