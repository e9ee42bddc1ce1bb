"""The page of a period: whole and without scripts; the parts that are asked for; on narrow screens and on paper."""

import html
import json
import re
import subprocess
import unittest
from dataclasses import replace
from html.parser import HTMLParser
from pathlib import Path
from typing import Any
from xml.etree import ElementTree

from outage_tools.charts import LETTER
from outage_tools.counts import decimal_text
from outage_tools.errors import BookError
from outage_tools.events import read_rule
from outage_tools.lists import read_cause_groups, read_names, read_section_groups
from outage_tools.pack.shown import compare_shown, report_shows, words_of_table
from outage_tools.report import Asked, page
from outage_tools.report.exact import value_text
from outage_tools.report.page import pictures_of, write_pictures
from outage_tools.report.style import css_string
from tests import support
from tests.browser import chromium, needs_browser, printed_pages
from tests.support import text_of
from tests.test_user_lists import TOWNS

Attributes = list[tuple[str, str | None]]

SVG = "{http://www.w3.org/2000/svg}"
BY_CAUSE = {  # customers times seconds of the fortnight, by hand
    "STORM": 2 * 31_500 + 14 * 6_300,
    "TREE": 13 * 1_880 + 5 * 11_390,
    "ANIMAL": 13 * 40,
    "DIGGING": 2 * 2_190,
    "EQUIPMENT": 3 * 4_500 + 3 * 2_400,
    "PLANNED": 8 * 9_000 + 3 * 240,
    "SUPPLIER": 15 * 680,
    "UNKNOWN": 8 * 3_120,
}


class Tags(HTMLParser):
    """Whether each tag that opens is closed, in order, and whether links lead into the page alone."""

    VOID = {"meta", "rect", "line", "path", "br"}

    def __init__(self) -> None:
        super().__init__()
        self.open: list[str] = []
        self.seen: dict[str, int] = {}
        self.names: set[str] = set()
        self.links: set[str] = set()
        self.text: list[str] = []

    def handle_starttag(self, tag: str, attrs: Attributes) -> None:
        self.seen[tag] = self.seen.get(tag, 0) + 1
        if tag not in self.VOID:
            self.open.append(tag)
        for name, value in attrs:
            if name == "id":
                self.names.add(value or "")
            elif name == "href" and value and value.startswith("#"):
                self.links.add(value[1:])
            elif name in ("src", "href") or (value and "url(" in value):
                raise AssertionError(f"{tag} {name}={value} leads outside")

    def handle_startendtag(self, tag: str, attrs: Attributes) -> None:
        self.seen[tag] = self.seen.get(tag, 0) + 1

    def handle_endtag(self, tag: str) -> None:
        if self.open.pop() != tag:
            raise AssertionError(f"{tag} closes another")

    def handle_data(self, data: str) -> None:
        self.text.append(data)


def asked_whole() -> Asked:
    """All parts, of the sample fortnight."""
    book = support.opened(support.fortnight()).book
    names = support.written("page-names.csv", "feeder,name,substation\n1,Mill Lane,Mill\n2,Harbour,Hill\n")
    causes = support.written("page-causes.csv", "cause,group\nPLANNED,planned\nSTORM,unplanned\nTREE,unplanned\n")
    towns = support.written("page-towns.csv", TOWNS)
    return Asked(
        name="Mill and Hill",
        date="2025-04-07",
        names=read_names(str(names), book),
        cause_groups=read_cause_groups(str(causes), book),
        section_groups=read_section_groups(str(towns), book),
        rule=read_rule(r"(?P<ticket>.+)-\d+"),
        has_customers=True,
    )


class Page(unittest.TestCase):
    def test_pages_are_whole_and_need_nothing(self) -> None:
        for made in support.books():
            with self.subTest(made.name):
                asked = Asked("The <utility> & sons\\", rule=read_rule("(?P<ticket>.*)"), has_customers=True)
                text = page(support.opened(made), asked)
                tags = Tags()
                tags.feed(text)
                self.assertEqual(tags.open, [])
                self.assertNotIn("script", tags.seen)
                self.assertNotRegex(text, "https?:|@import|url\\(")
                self.assertIn("The <utility> & sons\\", "".join(tags.text))
                self.assertLessEqual(tags.links, tags.names)

    def test_the_indices_are_those_of_the_program_and_stand_before_their_fractions(self) -> None:
        made = support.fortnight()
        text = page(support.opened(made))
        for line in made.table.read_text().splitlines()[-34:]:
            index, which, *words = line.split()
            value = value_text(index, " ".join(words))
            fraction = f' <span class="fraction">{words[0]}</span>' if len(words) == 2 else ""
            self.assertIn(f'<td data-set="{which}"><b>{value}</b>{fraction}</td>', text)
            self.assertIn(value, [words[-1], "0.99034", "0.99268"])

    def test_a_reader_of_packs_finds_the_programs_figures(self) -> None:
        """Of books with marked days and without: each index and count of both sets, by its decimals and its fraction."""
        for made in support.books():
            shown = report_shows(support.written("shown.html", page(support.opened(made))))
            self.assertIsNone(compare_shown(shown, words_of_table(made.table.read_text())), made.name)

    def test_of_asai_five_decimals_and_per_cent_are_shown(self) -> None:
        text = page(support.opened(support.fortnight()))
        self.assertIn('<b>0.99034</b> <span class="fraction">1246999/1259160</span>', text)
        self.assertIn("<span>ASAI</span><b>99.034 %</b>", text)
        self.assertEqual(value_text("ASAI", "undefined"), "undefined")
        self.assertEqual(value_text("ASAI", "1999999/2000000 1.000"), "1.00000")
        self.assertEqual(decimal_text(None, 5), "")

    def test_pictures_for_slides(self) -> None:
        """Each is a file of its own, also where there is nothing to show; what it says lies within it, and is the page's."""
        for made in support.books()[:9]:
            for name, text in pictures_of(support.opened(made), {}).items():
                drawing = ElementTree.fromstring(text)
                width = float(drawing.attrib["viewBox"].split()[2])
                for each in drawing.iter(f"{SVG}text"):
                    if each.get("text-anchor") is None:
                        self.assertLess(
                            float(each.attrib["x"]) + LETTER * len(each.text or ""), width + 1, (made.name, name)
                        )
        found, names = support.opened(support.fortnight()), asked_whole().names or {}
        pictures = pictures_of(found, names)
        self.assertEqual(sorted(pictures), ["causes", "daily-saidi", "days", "feeders", "months"])
        self.assertEqual(pictures["days"], support.EXAMPLES.joinpath("days.svg").read_text())
        said = {
            name: [each.text for each in ElementTree.fromstring(text).iter(f"{SVG}text")]
            for name, text in pictures.items()
        }
        causes = sorted(BY_CAUSE, key=lambda cause: -BY_CAUSE[cause])
        hours = [f"{BY_CAUSE[cause] / 3_600:.1f} customer-hours" for cause in causes]
        self.assertEqual([words for words in said["causes"] if "hours" in str(words)], hours)
        self.assertTrue(all(str(words).startswith(f"{cause} (") for words, cause in zip(said["causes"][::2], causes)))
        self.assertIn("feeder 1 Mill Lane, Mill", said["feeders"])
        folder = support.folder() / "pictures/new"
        write_pictures(str(folder), pictures)
        self.assertEqual(folder.joinpath("months.svg").read_text(), pictures["months"])
        with self.assertRaises(BookError):
            write_pictures(str(folder / "months.svg"), pictures)

    def test_the_first_page_is_for_readers_of_four_figures(self) -> None:
        """Minutes with one decimal, SAIFI with two, planned and unplanned apart; CEMI and CELID in per cent."""
        text = text_of(page(support.opened(support.fortnight()), asked_whole()))
        first = text.partition("Groups of causes computed here")[0]
        said = [
            "SAIDI 194.1 minutes per customer without major event days 147.2 planned 38.3 unplanned 155.8 SAIFI 2.33",
            "Of 31.3 customers served, each was without supply for 194.1 minutes on average, in 2.33 interruptions of 83.3",
            "A day is marked as a major event day: 2025-03-30.",
            "MAIFI 0.51 0.51 momentary interruptions",
            "all days 102.2 % 67.0 % 31.9 % 16.0 % 16.0 % 0.0 %",
            "CEMI-1 can be above 100 %",
            "all days 6.4 % 6.4 % 0.0 % 0.0 % 16.0 % 6.4 % 6.4 % 0.0 %",
        ]
        for each in said:
            self.assertIn(each, first)
        self.assertIsNone(re.search("[0-9]+/[0-9]{2,}", first))

    def test_without_a_marked_day_there_is_one_set(self) -> None:
        rows = support.EXAMPLES.joinpath("fortnight.csv").read_text().splitlines()
        plain = support.written("unmarked.csv", "".join(f"{row}\n" for row in rows if not row.startswith("mark,")))
        found = support.opened(support.made_of("no-marks", [(plain, support.fortnight().period)])[0])
        whole = page(found, replace(asked_whole(), cover=None))
        self.assertEqual(text_of(whole).count("without major event days"), 1)
        self.assertNotIn("unmarked</", whole)
        self.assertIn(
            '<td data-set="all unmarked"><b>194.126</b> <span class="fraction">4073935/20986</span></td>', whole
        )
        self.assertIn("2025-03 31.1 88.5 45 13 1.447 170.5 117.8 2025-04", text_of(whole))

    def test_the_books_state_is_told_on_the_page_and_on_paper(self) -> None:
        text = page(support.opened(support.fortnight()), Asked(date="2025-04-07"))
        state = "102 commands, the last one OUT-0406-1; compared with the program"
        self.assertIn(f"Written on 2025-04-07 from a book of {state}.", text_of(text))
        self.assertIn(f'@bottom-left {{ content: "{state}"', text)
        self.assertIn('@bottom-right { content: "page " counter(page) " of " counter(pages)', text)

    def test_a_name_cannot_leave_its_string_of_the_style(self) -> None:
        self.assertEqual(css_string('a"b\\c</style>'), '"a\\22 b\\5c c\\3c \\2f style\\3e "')

    def test_parts_are_there_where_they_are_asked_for(self) -> None:
        found = support.opened(support.fortnight())
        plain, whole = text_of(page(found)), text_of(page(found, asked_whole()))
        for title in ("Events", "Worst served customers", "Groups of sections", "Groups of causes"):
            self.assertNotIn(title, plain)
            self.assertIn(title, whole)
        self.assertIn("feeder 1 Mill Lane, Mill", whole)
        self.assertIn("OUT-0327 2025-03-27 14:22:10 2025-03-27 17:32:00 6 18 1356.5 1 TREE", whole)
        self.assertIn("QUARRY 1 Mill Lane 2 5 0 8:45 12:34 ", whole)
        self.assertIn("Millbury 18.0 32 0 1.781 206.1 115.7 98.975 %", whole)
        self.assertIn("Millbury all days 17.964 222 130 32 222 130 0 18", whole)
        self.assertIn("planned 20.2 19.9 % 8 3 0.255 38.3 150.0", whole)

    def test_feeders_stand_by_their_saidi_and_the_worst_is_set_apart(self) -> None:
        text = page(support.opened(support.fortnight()), asked_whole())
        part = text.partition('<section id="feeders">')[2].partition("</section>")[0]
        self.assertIn("Set apart: the worst 5 % of the 2 feeders, 1 of them.", part)
        rows = re.findall("<tr( class=.marked.)?>(<td.*?)</tr>", part)
        self.assertEqual([bool(marked) for marked, _ in rows], [True, False])
        self.assertEqual([text_of(row).split()[:3] for _, row in rows], [["1", "1", "Mill"], ["2", "2", "Harbour,"]])
        self.assertEqual(part.count('<rect class="apart"'), 1)

    def test_a_late_outage_is_shown_by_its_own_size(self) -> None:
        text = text_of(page(support.opened(support.fortnight())))
        halves = "+3 017 910 \u22123 004 410"
        when = "2025-03-26 18:05:00 to 2025-03-26 19:20:00"
        self.assertTrue(f"late outage LATE-0326-1, LATE-0326-2 LBS-22 {when} +13 500 {halves}" in text)

    def test_no_late_work_is_said_without_a_table(self) -> None:
        """A book whose switchings came in the order of their seconds."""
        text = page(support.opened(support.edges()))
        part = text.partition('<section id="late">')[2].partition("</section>")[0]
        self.assertIn("No switching is late, corrected or withdrawn.", part)
        self.assertNotIn("<table", part)

    def test_a_page_is_written_by_the_program_or_not_at_all(self) -> None:
        made, out = support.fortnight(), support.folder() / "page.html"
        self.assertEqual(support.run_tool("report", made.book, "-o", out, table=made).returncode, 0)
        self.assertTrue(out.read_text(encoding="utf-8").startswith("<!DOCTYPE html>"))
        out.unlink()
        other = support.books()[1]
        self.assertEqual(support.run_tool("report", made.book, "-o", out, table=other).returncode, 2)
        self.assertFalse(out.exists())
        done = support.run_tool("report", made.book, "-o", support.folder() / "nowhere/page.html", table=made)
        self.assertEqual(done.returncode, 1)
        towns = support.written("half.csv", "section,group\nNOWHERE,A\n")
        done = support.run_tool("report", made.book, "-o", out, "--by", towns, table=made)
        self.assertEqual((done.returncode, out.exists()), (1, False))
        self.assertIn("half.csv: row 1: the book has no section 'NOWHERE'", done.stderr)
        done = support.run_tool("report", made.book, "-o", out, "--date", "7.4.2025", table=made)
        self.assertEqual(done.returncode, 64)


# What a browser measures of the page: of each letter of a picture that is shown its height in pixels as `letters`, how
# wide page and window are, where fractions wrap and what an index is lies out of sight, which tables scroll, and which regions
# do without a key.
PROBE = """<script>
const shown = each => each.getClientRects().length > 0;
const all = name => [...document.querySelectorAll(name)].filter(shown);
const scale = each => each.ownerSVGElement.getBoundingClientRect().width / each.ownerSVGElement.viewBox.baseVal.width;
const scrolls = each => each.scrollWidth > each.clientWidth + 1;
const found = JSON.stringify({
  window: innerWidth, page: document.documentElement.scrollWidth,
  pictures: all("figure svg[role=img]").map(each => each.getBoundingClientRect().right),
  letters: all("figure svg text").map(each => parseFloat(getComputedStyle(each).fontSize) * scale(each)),
  wrapped: all(".fraction").filter(each => each.getClientRects().length > 1).length,
  fractions: all(".fraction").length,
  meanings: all(".indices td.long").map(each => each.getBoundingClientRect().right),
  scrolling: all(".wide").filter(scrolls).map(each => each.getAttribute("aria-label")),
  keyless: all("*").filter(scrolls).filter(each => !["visible", "hidden"].includes(getComputedStyle(each).overflowX)
    && each.tabIndex < 0).map(each => each.className),
});
parent.postMessage(found, "*");
</script>"""
# The page in a frame of each width, since a window without a screen has 500 pixels at least.
WIDTHS = (390, 700, 1280, 1920)
FRAMES = """<!DOCTYPE html><title>{}</title>
<script>const found = {}; addEventListener("message", event => {
  found[JSON.parse(event.data).window] = JSON.parse(event.data); document.title = JSON.stringify(found); });</script>
""" + "".join(
    f'<iframe src="probed.html" style="border: 0; width: {width}px; height: 900px"></iframe>' for width in WIDTHS
)


@needs_browser
class InBrowser(unittest.TestCase):
    """The page of all parts as Chromium lays it out."""

    text: str
    path: Path

    @classmethod
    def setUpClass(cls) -> None:
        cls.text = page(support.opened(support.fortnight()), asked_whole())
        cls.path = support.folder() / "probed.html"
        cls.path.write_text(cls.text.replace("</body>", f"{PROBE}</body>"), encoding="utf-8")

    def measured(self) -> dict[str, dict[str, Any]]:
        """What is measured, by the widths."""
        frames = self.path.with_name("frames.html")
        frames.write_text(FRAMES, encoding="utf-8")
        dumped = chromium("--window-size=2000,1000", "--virtual-time-budget=3000", "--dump-dom", frames.as_uri())
        found = re.search("<title>(.*?)</title>", dumped, re.S)
        assert found is not None
        values: dict[str, dict[str, Any]] = json.loads(html.unescape(found[1]))
        return values

    def test_pictures_and_indices_can_be_read_at_each_width(self) -> None:
        measured = self.measured()
        self.assertEqual(set(measured), set(map(str, WIDTHS)))
        for width in WIDTHS:
            with self.subTest(width=width):
                found = measured[str(width)]
                self.assertLessEqual(found["page"], width)
                self.assertEqual(len(found["pictures"]), 3)
                self.assertLessEqual(max(found["pictures"]), width)
                self.assertGreaterEqual(min(found["letters"]), 11)
                self.assertEqual((found["wrapped"], found["fractions"]), (0, 72))
                self.assertEqual(len(found["meanings"]), 38)
                self.assertNotIn("Worst served customers", found["scrolling"])
                if width >= 1280:
                    self.assertEqual(found["scrolling"], [])
                self.assertLessEqual(max(found["meanings"]), width)
                self.assertEqual(found["keyless"], [])

    def printed(self) -> list[str]:
        """The pages that are printed, as text with their layout."""
        whole = support.folder() / "whole.html"
        whole.write_text(self.text, encoding="utf-8")
        return printed_pages(whole, support.folder() / "printed.pdf")

    def test_paper_has_numbers_state_and_whole_ends_of_tables(self) -> None:
        pages = self.printed()
        for number, text in enumerate(pages, 1):
            lines = [line.strip() for line in text.strip().splitlines()]
            self.assertRegex(lines[0], "^Mill and Hill 2025-03-24 to 2025-04-06 .*2025-04-07$")
            state = f"102 commands, the last one OUT-0406-1; compared with the program .*page {number} of {len(pages)}$"
            self.assertRegex(lines[-1], f"^{state}")
        together = [
            ("SAIDI", "can be above 100 %", "in all its interruptions"),
            ("Appendix: exact figures", "index"),
            ("SAIDI by month", "Minutes per customer served of the month", "2025-04"),
            (
                "Feeders, the worst by SAIDI first",
                "SAIDI in minutes per customer served of the feeder",
                "Harbour, Hill",
            ),
            ("Causes, greatest first", "Customer-hours without supply under each cause", "STORM"),
        ]
        for words in together:
            self.assertTrue(any(all(word in text for word in words) for text in pages), words)
        self.assertNotIn("opened", "".join(pages))

    def test_no_heading_is_the_last_of_a_page(self) -> None:
        titles = {text_of(title).strip() for title in re.findall("<h[23]>(.*?)</h[23]>", self.text, re.S)}
        for text in self.printed():
            body = [re.sub(" +", " ", line.strip()) for line in text.strip().splitlines() if line.strip()][:-1]
            self.assertNotIn(body[-1], titles)

    def test_no_page_but_the_last_is_a_third_empty(self) -> None:
        self.printed()
        command = ["pdftotext", "-bbox", str(support.folder() / "printed.pdf"), "-"]
        boxes = subprocess.run(command, check=True, capture_output=True, text=True).stdout
        for sheet in boxes.split("<page ")[1:-1]:
            height = float(re.findall('height="([0-9.]+)"', sheet)[0])
            ends = [float(end) for end in re.findall('yMax="([0-9.]+)"', sheet)]
            edge = 17 / 297 * height
            body = [end for end in ends if end < height - edge]
            self.assertGreater(max(body), edge + (height - 2 * edge) * 2 / 3)

    def test_a_long_table_is_printed_though_it_is_closed_on_the_screen(self) -> None:
        closed = self.text.replace("<details open>", "<details>")
        self.assertNotEqual(closed, self.text)
        path, out = support.folder() / "closed.html", support.folder() / "closed.pdf"
        path.write_text(closed, encoding="utf-8")
        text = "".join(printed_pages(path, out))
        self.assertRegex(text, "2025-03-30 +41.0 .*by ENG-4")


class Read(unittest.TestCase):
    def test_a_list_of_another_book_is_refused(self) -> None:
        book = support.opened(support.edges()).book
        with self.assertRaisesRegex(BookError, "towns.csv: row 1: the book has no section 'MILL-LANE'"):
            read_section_groups(str(support.written("towns.csv", TOWNS)), book)
