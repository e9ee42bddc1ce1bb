"""An export that goes into the book by the run that cuts it: whose rows are told, what is kept, and a program that fails."""

import unittest
from pathlib import Path

from tests import exports, support
from tests.network_runs import CUSTOMERS, EDGES, OMS_HEAD, Cut, changed, run, written
from tests.test_sections_changed import AT, PERIOD, kept, rows_by, words_of

TICKET = "1,FU 34,2025-05-01 01:00,2025-05-01 02:00,WIND"
FUSE = ("LN/3,line,N13,N14,,7", "LN/3,line,N13,N99,,7\nFU 900,fuse,N99,N14,closed,7")
LATER = "2025-07-01 00:00:00"


class Import(unittest.TestCase):
    """The small network; the program is that on the path of the tests."""

    def setUp(self) -> None:
        self.book = support.folder() / "import.db"
        for old in support.folder().glob("import.*"):
            old.unlink()
        self.folder = kept("import-first", run(*words_of()))
        period = ("--first", PERIOD[0], "--days", PERIOD[1], "--zone", PERIOD[2])
        text = support.written("import-rows.csv", rows_by(self.folder, *period).out)
        exports.program_at("outagebook", "init", "--book", self.book, *period)
        exports.program_at("outagebook", "import", "--book", self.book, text)

    @property
    def exported(self) -> list[str]:
        """The list beside the book."""
        path = self.book.with_suffix(".exports.csv")
        return path.read_text().splitlines()[1:] if path.exists() else []

    def words(self, *words: object, oms: str | None = None, at: str = AT, earlier: Path | None = None) -> list[object]:
        tickets = written("import-oms", f"{OMS_HEAD}\n{TICKET}\n" if oms is None else oms)
        files = ["--edges", written("edges", changed(FUSE)), "--source", "N0"]
        files += ["--customers", written("customers", CUSTOMERS), "--oms", tickets]
        book = ["--book", self.book, "--as", earlier or self.folder, "--at", at]
        causes = (
            [] if "--causes" in words else ["--causes", support.written("import-causes.csv", "code,name\n1,WIND\n")]
        )
        return [*files, *book, "--import", *causes, *words]

    def said(self, found: Cut) -> list[str]:
        """What was refused."""
        self.assertEqual((found.status, found.files), (1, {}), found.err)
        return [line.replace(f"{support.folder()}/", "") for line in found.err.removeprefix("error: ").splitlines()]

    def test_all_of_it(self) -> None:
        """The rows are those of outagebook-from-oms, and stay in the folder; the list has the export."""
        found = run(*self.words(), to="import-second")
        self.assertEqual((found.status, found.out.splitlines()[-1]), (0, "added 6 again 0"), found.err)
        kinds = [row[0] for row in found.files["rows.csv"]]
        self.assertEqual(kinds, ["section", "device", "life", "device", "switch", "switch"])
        self.assertEqual([row.split(",")[0] for row in self.exported], ["2025-06-01T00:00:00+00:00"])
        again = run(*self.words(at=LATER, earlier=support.folder() / "import-second"), to="import-third")
        self.assertEqual((again.out.splitlines()[-1], len(self.exported)), ("added 0 again 0", 2), again.err)
        stale = run(*self.words(at="2025-08-01 00:00:00"), to="import-fourth")
        last = f"row 2: the last export that went in is that of {support.folder()}/import-third, and --as {self.folder} is another"
        self.assertEqual(self.said(stale), [f"import.exports.csv: {last}".replace(f"{support.folder()}/", "")])
        early = run(*self.words(earlier=support.folder() / "import-third"), to="import-fourth")
        text = "import.exports.csv: row 2: the export of 2025-07-01T00:00:00+00:00 went in, and --at lies before it"
        self.assertEqual(self.said(early), [text])

    def test_the_rows_are_the_users(self) -> None:
        """Also behind a row without any field, which the cut leaves out; nothing is written."""
        text = f"{OMS_HEAD}\n{TICKET}\n,,,,\n2,XF3,2025-05-02 02:00,2025-05-02 01:00,WIND\n3,XF3,2025-05-03 01:00,,METEOR\n"
        said = self.said(run(*self.words(oms=text), to="import-refused"))
        self.assertEqual(said[0], "nothing was written:")
        self.assertRegex(
            said[1], "^network-import-oms.csv: row 3: XF3 is closed normally, and restored .* lies before out "
        )
        self.assertRegex(said[2], "^network-import-oms.csv: row 4: .*'METEOR'")
        self.assertEqual(self.exported, [])

    def test_how_files_are_written(self) -> None:
        """Causes are written as the exports are; dates too."""
        causes = support.folder() / "import-latin.csv"
        causes.write_bytes("code;name;oms\n1;WIND;B\xf6e\n".encode("latin-1"))
        oms = support.folder() / "import-latin-oms.csv"
        oms.write_bytes(f"{OMS_HEAD}\n1,FU 34,1.5.2025 1:00,1.5.2025 2:00,B\xf6e\n".replace(",", ";").encode("latin-1"))
        words = self.words("--causes", causes, "--encoding", "latin-1", "--date-format", "%d.%m.%Y %H:%M")
        words[words.index("--oms") + 1] = oms
        found = run(*words, to="import-second")
        self.assertEqual((found.status, found.out.splitlines()[-1]), (0, "added 6 again 0"), found.err)
        self.assertEqual(found.files["rows.csv"][-1][4], "2025-05-01T01:00:00+00:00")

    def test_times_of_another_zone(self) -> None:
        """They say which name a device had then, too."""
        rows = "1,XF1,2025-05-31 17:00,2025-05-31 18:00,WIND\n2,XF1,2025-05-31 20:00,2025-05-31 21:00,WIND\n"
        found = run(*self.words("--zone", "EST5", oms=f"{OMS_HEAD}\n{rows}"), to="import-second")
        self.assertEqual(found.status, 0, found.err)
        self.assertEqual([row[1] for row in found.files["oms.csv"]], ["XF1", "XF1-2"])
        at = [row[4] for row in found.files["rows.csv"] if row[2].startswith("XF1") and row[3] == "open"]
        self.assertEqual(at, ["2025-05-31T17:00:00-05:00", "2025-05-31T20:00:00-05:00"])

    def failing(self, status: int) -> Path:
        """A program that does all but imports, which end with a status."""
        path = support.folder() / f"failing-{status}"
        path.write_text(
            f'#!/bin/sh\n[ "$1" = import ] && {{ echo "no room" >&2; exit {status}; }}\nexec outagebook "$@"\n'
        )
        path.chmod(0o755)
        return path

    def test_a_program_that_fails(self) -> None:
        """After a refusal the list is as it was too; after a fault the export may be given again, and with its own folder."""
        for status, left, count in ((2, "is as it was", 0), (1, "is as it was, or has all of ", 1)):
            found = run(*self.words("--program", self.failing(status)), to="import-second")
            self.assertEqual((found.status, len(self.exported)), (1, count))
            text = f"error: import of {support.folder()}/import-second/rows.csv: no room; {self.book} {left}"
            self.assertTrue(found.err.splitlines()[-1].startswith(text), found.err)
        found = run(*self.words(), to="import-second")
        self.assertEqual((found.status, found.out.splitlines()[-1]), (0, "added 6 again 0"), found.err)

    def test_words(self) -> None:
        """What doesn't go together ends the run."""
        words = self.words()
        self.assertEqual(run(*words, to="import-first").status, 64)
        self.assertEqual(run(*words_of(), "--import").status, 64)
        for word in (("--causes", "c.csv"), ("--crew", "A"), ("--cancelled", "Storno"), ("--overlaps", "join")):
            found = run(*words_of(), *word)
            self.assertEqual(
                (found.status, found.err.splitlines()[-1]), (64, f"sections.py: {word[0]} goes with --import")
            )


if __name__ == "__main__":
    unittest.main()
