"""Books added up: the sums of the parts of a network are the whole's, line by line; books that don't belong together."""

import json
import re
import unittest
from functools import lru_cache
from html.parser import HTMLParser
from io import StringIO
from pathlib import Path
from unittest.mock import patch

from outage_tools import parallel
from outage_tools.counts import fraction_text
from outage_tools.errors import BookError
from outage_tools.sums import District, Sums, add_up, read_district, read_districts, table_lines
from tests import many_books
from tests.browser import assert_paper, needs_browser
from tests.many_books import books_of, district_rows, figures_of, parts_of, run, table_of, with_tables


@lru_cache(maxsize=None)
def district_in(book: Path) -> District:
    return read_district(str(book), str(table_of(book)), "outagebook")


def sums_of(books: list[Path], own_numbers: bool = False) -> Sums:
    """The sums of made books."""
    return add_up([district_in(book) for book in books], own_numbers)


class PartsOfANetwork(unittest.TestCase):
    def test_each_line_is_the_whole_books(self) -> None:
        where = many_books.cut_networks()
        for seed in many_books.SEEDS:
            with self.subTest(seed=seed):
                whole = table_of(where / f"{seed}-whole.db").read_text().splitlines()
                self.assertEqual(figures_of(table_lines(sums_of(parts_of(where, seed)))), figures_of(whole))

    def test_the_networks_have_what_may_go_wrong(self) -> None:
        """Both parts have customers without supply, devices with lives and marks, in many of the networks."""
        where = many_books.cut_networks()
        with_both, with_lives, with_marks = 0, 0, 0
        for seed in many_books.SEEDS:
            districts = [district_in(book) for book in parts_of(where, seed)]
            with_both += all(each.total for each in districts)
            with_marks += bool(districts[0].marks)
            text = (where / f"{seed}-whole.csv").read_text()
            with_lives += "\nlife," in text
        self.assertGreater(min(with_both, with_lives, with_marks), len(many_books.SEEDS) // 8)

    def test_the_daily_saidi_adds_up_to_saidi(self) -> None:
        where = many_books.cut_networks()
        for seed in many_books.SEEDS:
            sums = sums_of(parts_of(where, seed))
            saidi = sums.indices("all")["SAIDI"]
            if saidi is not None:
                self.assertEqual(sum(daily for daily in sums.daily_saidi() if daily is not None), saidi)

    def test_in_many_processes_it_is_the_same(self) -> None:
        where = many_books.cut_networks()
        books = [*parts_of(where, 1)]
        tables = [str(table_of(book)) for book in books]
        alone = [district_in(book) for book in books]
        self.assertEqual(read_districts([str(book) for book in books], tables, "outagebook", 2), alone)

    def test_without_shared_memory_it_is_the_same_one_after_the_other(self) -> None:
        """Without /dev/shm a pool of processes fails as it makes its locks; a file that is no book is named all the same."""
        where = many_books.cut_networks()
        books = [str(book) for book in parts_of(where, 1)]
        tables = [str(table_of(Path(book))) for book in books]
        alone = [district_in(Path(book)) for book in books]
        for failure in (FileNotFoundError(2, "No such file or directory"), PermissionError(13, "denied")):
            with patch("multiprocessing.synchronize.SemLock.__init__", side_effect=failure) as lock:
                self.assertEqual(read_districts(books, tables, "outagebook", 2), alone)
                lock.assert_called_once()
        with patch.object(parallel, "ProcessPoolExecutor", side_effect=NotImplementedError):
            self.assertEqual(read_districts(books, tables, "outagebook", 2), alone)
            with self.assertRaisesRegex(BookError, "nowhere.db"):
                read_districts([books[0], "nowhere.db"], tables, "outagebook", 2)


class AtOnce(unittest.TestCase):
    """How many books are worked on at once."""

    def test_as_many_as_processors_and_memory_allow(self) -> None:
        book = many_books.folder() / "sized.db"
        book.write_bytes(bytes(1_000_000))
        paths = [str(book)] * 40
        each = parallel.memory_of(str(book))
        self.assertGreater(each, parallel.LEAST_MEMORY)
        for processors, free, wanted in ((4, 10**12, 4), (64, 10**12, 40), (4, 3 * each, 3), (4, 1_000, 1)):
            with (
                patch("os.sched_getaffinity", return_value=set(range(processors))),
                patch.object(parallel, "free_memory", return_value=free),
            ):
                self.assertEqual(parallel.processes_for(paths, None), wanted)
                self.assertEqual(parallel.processes_for(paths, 2), 2)

    def test_progress_is_told_at_a_terminal(self) -> None:
        said = StringIO()
        with patch("sys.stderr", said):
            parallel.tell_progress(1, 3, "north.db")
            self.assertEqual(said.getvalue(), "")
            with patch.object(said, "isatty", return_value=True):
                parallel.tell_progress(2, 3, "south.db")
        self.assertEqual(said.getvalue(), "2 of 3: south.db\n")


class BooksThatDontBelongTogether(unittest.TestCase):
    books: dict[str, Path] = {}

    @classmethod
    def setUpClass(cls) -> None:
        north, south = district_rows("N", 1), district_rows("S", 11)
        cls.books = books_of(
            "together",
            {
                "north": north,
                "south": [*south, "mark,M1,2025-03-25,ENG,,,,"],
                "same-customer": district_rows("X", 3),
                "other-code": district_rows("O", 31, code=4),
                "other-names": [*district_rows("P", 41), "cause,C9,4,TREE,,,,"],
            },
        )
        cls.books |= books_of("elsewhen", {"later": []}, ("2025-04-07", 14, many_books.FORTNIGHT[2]))
        cls.books |= books_of("elsewhere", {"utc": []}, ("2025-03-24", 14, "UTC0"))

    def of(self, *names: str) -> list[Path]:
        return [self.books[name] for name in names]

    def test_other_periods_and_zones(self) -> None:
        for other in ("later", "utc"):
            with self.subTest(other), self.assertRaisesRegex(BookError, f"{other} and north .*different periods"):
                sums_of(self.of("north", other))

    def test_a_district_twice(self) -> None:
        with self.assertRaisesRegex(BookError, "north is given 2 times"):
            sums_of(self.of("north", "north"))

    def test_a_customer_in_two_books(self) -> None:
        with self.assertRaisesRegex(BookError, "customer 3 is in north and in same-customer"):
            sums_of(self.of("north", "same-customer"))
        self.assertEqual(sums_of(self.of("north", "same-customer"), own_numbers=True).counts["all"].sustained, 6)

    def test_marks_that_differ_are_told(self) -> None:
        done = run("sum", *with_tables(self.of("north", "south")))
        self.assertEqual((done.returncode, done.stderr), (0, ""))
        self.assertIn("# 2025-03-25 is marked in south, not in north.", done.stdout)
        self.assertIn("day 2025-03-25                               21600 marked in 1 of 2", done.stdout)
        self.assertIn("SUSTAINED all      6", done.stdout)
        self.assertIn("SUSTAINED unmarked 3", done.stdout)

    def test_causes_add_by_name(self) -> None:
        lines = list(table_lines(sums_of(self.of("north", "other-code", "other-names"))))
        self.assertIn("cause   4 TREE                                   0", lines)
        self.assertIn(f"cause   - {'STORM':<24}{3 * (3 * 3_600 + 2 * 300):>16}", lines)

    def test_a_figure_that_differs_ends_with_2_and_its_book(self) -> None:
        books = self.of("north", "south")
        wrong = many_books.folder() / "wrong.txt"
        wrong.write_text(table_of(books[1]).read_text().replace("SUSTAINED all      3", "SUSTAINED all      4"))
        done = run("sum", *books, "--table", table_of(books[0]), "--table", wrong)
        self.assertEqual((done.returncode, done.stdout), (2, ""))
        self.assertIn("south.db", done.stderr)
        self.assertIn("SUSTAINED all", done.stderr)

    def test_a_file_that_is_none_ends_with_1_and_its_name(self) -> None:
        done = run("sum", self.books["north"], "nowhere.db", "--table", table_of(self.books["north"]), "--table", "x")
        self.assertEqual((done.returncode, done.stdout), (1, ""))
        self.assertIn("nowhere.db", done.stderr)

    def test_wrong_words(self) -> None:
        for words in ("--table one a.db b.db", "", "a.db --processes 0"):
            self.assertEqual(run("sum", *words.split()).returncode, 64, words)

    def test_json_says_what_the_table_says(self) -> None:
        books = self.of("north", "other-names")
        done = run("sum", *with_tables(books), "--json")
        found, sums = json.loads(done.stdout), sums_of(books)
        self.assertEqual(found["customer_seconds"], sums.total)
        self.assertEqual(found["indices"]["all"]["SAIDI"], "60/1")
        self.assertEqual(found["by_day"][1]["daily_saidi"], "60/1")
        self.assertEqual([each["district"] for each in found["districts"]], ["north", "other-names", "all"])

    def page(self) -> Path:
        """The page of two districts."""
        page = many_books.folder() / "all.html"
        words = ["-o", page, "--name", "The <company>", "--date", "2025-04-07"]
        done = run("sum", *with_tables(self.of("north", "south")), *words)
        self.assertEqual((done.returncode, done.stdout, done.stderr), (0, "", ""))
        return page

    def test_a_page_of_all(self) -> None:
        text = self.page().read_text()
        Nested().feed(text)
        for part in ("The &lt;company&gt;", "north", "south", "2025-03-25 is marked in south", "STORM"):
            self.assertIn(part, text)
        self.assertIn('on <span class="whole">2025-04-07</span> from 2 districts&#x27; books of 29 commands', text)
        self.assertIn("in no quotient of the annual table: MI", text)
        shown = dict(re.findall(r'<strong>([^<]*)</strong></td><td data-set="all">.*?>([^<>]*)</span></td>', text))
        sums = sums_of(self.of("north", "south"))
        for index, value in {**sums.indices("all"), **sums.further_indices("all")}.items():
            self.assertEqual(shown.get(index), fraction_text(value), index)
        self.assertEqual(run("sum", "a.db", "-o", "x.html", "--date", "7.4.2025").returncode, 64)

    @needs_browser
    def test_paper_has_the_title_the_date_the_books_state_and_numbers(self) -> None:
        assert_paper(
            self.page(),
            "The <company> 2025-03-24 to 2025-04-06",
            "2025-04-07",
            "2 districts' books of 29 commands; compared with the program",
        )


class Nested(HTMLParser):
    """Complains where an element isn't closed in its turn."""

    def __init__(self) -> None:
        super().__init__()
        self.open: list[str] = []

    def handle_starttag(self, tag: str, attrs: object) -> None:
        if tag not in ("meta", "line", "rect", "path", "br"):
            self.open.append(tag)

    def handle_startendtag(self, tag: str, attrs: object) -> None:
        pass

    def handle_endtag(self, tag: str) -> None:
        if not self.open or self.open.pop() != tag:
            raise AssertionError(f"</{tag}> ends something else")


if __name__ == "__main__":
    unittest.main()
