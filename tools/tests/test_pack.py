"""Packs: the same bytes twice, every changed byte found and named, and figures that aren't the program's found by it."""

import contextlib
import io
import shutil
import sqlite3
import unittest
import zipfile
from collections.abc import Callable
from functools import lru_cache
from pathlib import Path

from outage_tools.errors import BookError
from outage_tools.pack.archive import unpack, write_zip
from outage_tools.pack.manifest import NAME, Changed, Manifest, Packed, differing, files_in, packed, read_manifest
from outage_tools.pack.shown import shown_as
from outage_tools.pack.verifying import Findings, verify
from tests import program_books, support
from tests.libreoffice import changed
from tests.support import needs_program

LISTS = ("--causes", "planned.csv", "--names", "names.csv", "--by", "towns.csv")
TABLE_FILES = {"table.txt", "moves.csv"}
FILES = TABLE_FILES | {"book.db", "commands.csv", "interruptions.csv", "workbook.xlsx", "report.html", "readme.txt"}
MORE = {"filing-eia861.csv", "filing-ceer.csv", "lists/causes.csv", "lists/names.csv", "lists/by.csv"}


def pack(to: Path, *words: str) -> None:
    """Packs the sample fortnight with all that a pack may have."""
    lists = [str(support.EXAMPLES / word) if word.endswith(".csv") else word for word in LISTS]
    given = ["--filing", "eia861", "--filing", "ceer", *lists, "--program", str(support.PROGRAM), *words]
    done = support.run_tool("pack", program_books.sample(), to, *given)
    if done.returncode:
        raise AssertionError(done.stderr)


@lru_cache(maxsize=None)
def sample(name: str = "pack") -> Path:
    path = support.folder() / name
    pack(path)
    return path


def copied(name: str) -> Path:
    """A copy of the sample to change."""
    path = support.folder() / f"pack-{name}"
    shutil.rmtree(path, ignore_errors=True)
    shutil.copytree(sample(), path)
    return path


def flip(path: Path, place: int) -> None:
    """Changes one byte of a file."""
    data = bytearray(path.read_bytes())
    data[place] ^= 0x20
    path.write_bytes(data)


def with_right_sums(folder: Path, **about: object) -> Path:
    """The manifest as if nobody had changed a file."""
    manifest = read_manifest(folder / NAME)
    (folder / NAME).write_text(Manifest({**manifest.about, **about}, packed(folder)).text())
    return folder


def found_in(path: Path, has_replay: bool = False) -> Findings:
    return verify(path, str(support.PROGRAM), has_replay)


def wrong_in(path: Path, has_replay: bool = False) -> dict[str, str]:
    """The files that are named, each with why."""
    return dict(found_in(path, has_replay).wrong)


def replaced(old: str, new: str) -> Callable[[Path], None]:
    """A change of a text file, which has what is replaced."""

    def change(path: Path) -> None:
        text = path.read_text()
        assert old in text, old
        path.write_text(text.replace(old, new))

    return change


def with_another_saidi(path: Path) -> None:
    """A workbook that shows another SAIDI than the program."""
    other = path.with_name("other.xlsx")
    changed(
        path, other, lambda name, text: text.replace("<v>194.126</v>", "<v>194.127</v>") if "sheet" in name else text
    )
    assert other.read_bytes() != path.read_bytes()
    other.replace(path)


def with_another_row(path: Path) -> None:
    """A workbook that has other customer-seconds of an interruption than the pack's rows."""
    other = path.with_name("other.xlsx")
    changed(path, other, lambda name, text: text.replace("<v>54000</v>", "<v>54060</v>") if "sheet" in name else text)
    assert other.read_bytes() != path.read_bytes()
    other.replace(path)


def without_last_row(path: Path) -> None:
    path.write_text("".join(path.read_text().splitlines(keepends=True)[:-1]))


FORGED: dict[str, tuple[str, Callable[[Path], None]]] = {
    "a figure of the table": ("table.txt", replaced("194.126", "194.127")),
    "an amount that moved": ("moves.csv", replaced(",-", ",-1")),
    "another cause of a command": ("commands.csv", replaced("TREE", "TRAE")),
    "a command left out": ("commands.csv", without_last_row),
    "the seconds of an interruption": ("interruptions.csv", replaced(",54000,", ",54001,")),
    "an interruption left out": ("interruptions.csv", without_last_row),
    "another class": ("interruptions.csv", replaced(",sustained,", ",momentary,")),
    "an index of the workbook": ("workbook.xlsx", with_another_saidi),
    "a row of the workbook": ("workbook.xlsx", with_another_row),
    "an index of the report": ("report.html", replaced("<b>194.126</b>", "<b>194.127</b>")),
    "a fraction of the report": ("report.html", replaced("4073935/20986", "4073936/20986")),
}
BY_TOOLS_ALONE: dict[str, tuple[str, Callable[[Path], None]]] = {
    "a line of a filing": ("filing-eia861.csv", replaced("194.126", "194.125")),
    "the order of commands": ("commands.csv", lambda path: swap_rows(path)),
}


def swap_rows(path: Path) -> None:
    head, first, second, *rest = path.read_text().splitlines(keepends=True)
    path.write_text("".join([head, second, first, *rest]))


@needs_program
class Packs(unittest.TestCase):
    def test_the_files(self) -> None:
        self.assertEqual(set(files_in(sample())), FILES | MORE)
        done = support.run_tool("verify", sample(), "--replay", "--program", support.PROGRAM)
        self.assertEqual((done.returncode, done.stderr), (0, ""))
        self.assertEqual(done.stdout.splitlines()[-1], "verified")
        self.assertIn("commands.csv: imported into a fresh book it gives the same table and moves", done.stdout)
        self.assertIn("made again, byte for byte: commands.csv, interruptions.csv", done.stdout)
        self.assertIn("checked by the same file", done.stdout)

    def test_the_book_and_the_commands(self) -> None:
        """The book is the user's own file; the commands and the table are those that the pages show."""
        self.assertEqual((sample() / "book.db").read_bytes(), program_books.sample().read_bytes())
        wanted = (support.EXAMPLES / "fortnight.table.txt").read_bytes()
        self.assertEqual((sample() / "table.txt").read_bytes(), wanted)
        self.assertEqual((sample() / "moves.csv").read_bytes(), (support.EXAMPLES / "fortnight.moves.csv").read_bytes())

    def test_same_bytes_twice(self) -> None:
        again, zips = sample("again"), [support.folder() / f"{name}.zip" for name in ("one", "two")]
        self.assertEqual(sorted(files_in(again)), sorted(files_in(sample())))
        for name in [NAME, *files_in(again)]:
            self.assertEqual((again / name).read_bytes(), (sample() / name).read_bytes(), name)
        for path in zips:
            pack(path)
        self.assertEqual(zips[0].read_bytes(), zips[1].read_bytes())
        self.assertEqual(wrong_in(zips[0]), {})
        with zipfile.ZipFile(zips[0]) as archive:
            self.assertEqual({entry.date_time for entry in archive.infolist()}, {(1980, 1, 1, 0, 0, 0)})
            self.assertEqual(set(archive.namelist()), FILES | MORE | {NAME})

    def test_a_book_in_use(self) -> None:
        """A pack of a book that the program has open is that of the same commands."""
        book = program_books.fortnight("in-use")
        with program_books.at_work(book):
            to = support.folder() / "in-use-pack"
            done = support.run_tool("pack", book, to, "--program", support.PROGRAM)
        self.assertEqual((done.returncode, done.stderr), (0, ""))
        self.assertEqual((to / "table.txt").read_bytes(), (sample() / "table.txt").read_bytes())
        self.assertEqual(wrong_in(to), {})

    def test_what_is_refused(self) -> None:
        program = ("--program", support.PROGRAM)
        done = support.run_tool("pack", program_books.sample(), sample(), *program)
        self.assertEqual(done.returncode, 1)
        self.assertIn("exists, and stays as it is", done.stderr)
        for book, words in (
            (support.written("no.db", "no book"), program),
            (program_books.sample(), ("--program", "/no/program")),
        ):
            to = support.folder() / "refused"
            done = support.run_tool("pack", book, to, *words)
            self.assertEqual(done.returncode, 1)
            self.assertEqual([path.name for path in support.folder().glob("*refused*")], [])
        self.assertEqual(support.run_tool("pack", program_books.sample()).returncode, 64)

    def test_a_book_that_the_audit_refuses_is_not_packed(self) -> None:
        book = program_books.fortnight("spoilt")
        with contextlib.closing(sqlite3.connect(book)) as database:
            database.execute("UPDATE moved SET delta = delta + 1 WHERE rowid = 1")
            database.commit()
        to = support.folder() / "spoilt-pack"
        done = support.run_tool("pack", book, to, "--program", support.PROGRAM)
        self.assertEqual(done.returncode, 2)
        self.assertIn("audit differs moved", done.stderr)
        self.assertFalse(to.exists())


@needs_program
class ChangedBytes(unittest.TestCase):
    def test_one_byte_of_each_file(self) -> None:
        """First, last, and some in between: the file is named, and no other."""
        for name in sorted(FILES | MORE):
            size = (sample() / name).stat().st_size
            for place in sorted({0, size - 1, *range(size // 7, size, size // 5)}):
                folder = copied("byte")
                flip(folder / name, place)
                wrong = wrong_in(folder)
                self.assertEqual(set(wrong), {name}, place)
                self.assertIn("sha256", wrong[name])
        done = support.run_tool("verify", folder, "--program", support.PROGRAM)
        self.assertEqual((done.returncode, done.stdout), (2, "not verified\n"))
        self.assertTrue(done.stderr.startswith(f"differs: {name}: its sha256 is "), done.stderr)

    def test_each_byte_of_the_manifest(self) -> None:
        text = (sample() / NAME).read_bytes()
        path = support.folder() / "changed-manifest.json"
        for place in range(len(text)):
            path.write_bytes(text)
            flip(path, place)
            with self.assertRaises(Changed, msg=str(place)):
                read_manifest(path)
        folder = copied("manifest")
        flip(folder / NAME, 40)
        self.assertEqual(set(wrong_in(folder)), {NAME})

    def test_bytes_of_a_zip(self) -> None:
        """All of the heads, and some of the rest: each is found, and the file or the ZIP file is named."""
        whole, path = support.folder() / "whole.zip", support.folder() / "byte.zip"
        pack(whole)
        data = whole.read_bytes()
        start = data.rindex(b"PK\x01\x02", 0, len(data)) - 1_000
        for place in [*range(0, 60, 2), *range(100, start, len(data) // 40), *range(start, len(data), 9)]:
            path.write_bytes(data)
            flip(path, place)
            try:
                wrong = wrong_in(path)
            except BookError as error:
                self.assertIn("byte.zip", str(error))
                continue
            self.assertTrue(wrong, place)
            self.assertLessEqual(
                set(wrong), FILES | MORE | {NAME, path.name} | {n for n in wrong if "no file of a pack" in wrong[n]}
            )

    def test_files_more_or_less(self) -> None:
        folder = copied("more")
        (folder / "notes.txt").write_text("more")
        (folder / "moves.csv").unlink()
        (folder / "table.txt").unlink()
        (folder / "table.txt").symlink_to(sample() / "table.txt")
        wrong = wrong_in(folder)
        self.assertEqual(
            wrong, {"notes.txt": "it isn't in the manifest", "moves.csv": "it is missing", "table.txt": "it is a link"}
        )
        (folder / NAME).unlink()
        with self.assertRaises(BookError):
            found_in(folder)


@needs_program
class Forged(unittest.TestCase):
    """Files that were changed, with the sums of a manifest that was written anew."""

    def test_what_the_program_catches(self) -> None:
        """Also where the manifest says that other tools have made the pack."""
        for number, (what, (name, change)) in enumerate(FORGED.items()):
            folder = copied(f"forged-{number}")
            change(folder / name)
            wrong = wrong_in(with_right_sums(folder, tools_sha256="0" * 64))
            self.assertEqual(set(wrong), {name}, what)

    def test_what_the_same_tools_catch(self) -> None:
        for number, (what, (name, change)) in enumerate(BY_TOOLS_ALONE.items()):
            folder = copied(f"tools-{number}")
            change(folder / name)
            self.assertEqual(set(wrong_in(with_right_sums(folder))), {name}, what)
            found = found_in(with_right_sums(folder, tools_sha256="0" * 64))
            self.assertEqual(found.wrong, [])
            self.assertTrue(any(name in note and "other versions" in note for note in found.notes), what)

    def test_rows_and_workbook_that_differ(self) -> None:
        """A name in a row, of which no count tells: the workbook has another one."""
        folder = copied("rows")
        replaced("CHURCH-ROW", "CHURCH-WAY")(folder / "interruptions.csv")
        self.assertEqual(set(wrong_in(with_right_sums(folder))), {"interruptions.csv", "workbook.xlsx"})
        wrong = wrong_in(with_right_sums(folder, tools_sha256="0" * 64))
        self.assertEqual(wrong, {"workbook.xlsx": "row 1 of its interruptions isn't that of interruptions.csv"})

    def test_a_book_that_was_changed(self) -> None:
        folder = copied("book")
        with contextlib.closing(sqlite3.connect(folder / "book.db")) as database:
            database.execute("PRAGMA journal_mode = delete")
            database.execute("UPDATE posting SET amount = amount + 60 WHERE dim = 1 AND k = 2")
            database.commit()
        wrong = wrong_in(with_right_sums(folder))
        self.assertEqual(wrong, {"book.db": "the program's audit says: audit differs posting"})

    def test_another_book(self) -> None:
        """A whole book, but of other commands than the rest of the pack."""
        folder, other = copied("other-book"), program_books.fortnight("corrected")
        done = program_books.run_program("import", "--book", other, support.EXAMPLES / "corrections.csv")
        self.assertEqual(done.returncode, 0)
        shutil.copyfile(other, folder / "book.db")
        wrong = wrong_in(with_right_sums(folder))
        self.assertLessEqual(
            {"table.txt", "moves.csv", "commands.csv", "interruptions.csv", "workbook.xlsx", "report.html"}, set(wrong)
        )

    def test_commands_in_another_order(self) -> None:
        """Each of them is the book's, so only a replay finds without the same tools that a fresh book moves otherwise."""
        folder = copied("replay")
        head, *rows = (folder / "commands.csv").read_text().splitlines(keepends=True)
        places = [place for place, row in enumerate(rows) if row.startswith("switch,OUT-0325-")]
        rows[places[0]], rows[places[1]] = rows[places[1]], rows[places[0]]
        (folder / "commands.csv").write_text("".join([head, *rows]))
        forged = with_right_sums(folder, tools_sha256="0" * 64)
        self.assertEqual(wrong_in(forged), {})
        self.assertEqual(set(wrong_in(forged, has_replay=True)), {"commands.csv"})


class Parts(unittest.TestCase):
    """What needs no program."""

    def test_manifest_is_read_as_it_was_written(self) -> None:
        path = support.folder() / "small" / NAME
        path.parent.mkdir(exist_ok=True)
        (path.parent / "a.txt").write_text("a")
        about = {name: "" for name in ("period", "program", "program_sha256", "tools_sha256", "made_with")}
        manifest = Manifest({**about, "asked": {"name": "Ün"}}, packed(path.parent))
        path.write_text(manifest.text())
        self.assertEqual(read_manifest(path), manifest)
        self.assertEqual(list(differing(path.parent, manifest)), [])
        self.assertEqual(manifest.files["a.txt"].bytes, 1)
        path.write_text(Manifest({"program": "outagebook 2"}).text())
        with self.assertRaisesRegex(BookError, "a form that is not known"):
            read_manifest(path)
        other = Manifest(manifest.about, {"a.txt": Packed(2, "0" * 64)})
        self.assertEqual(list(differing(path.parent, other)), [("a.txt", "it has 1 bytes, in the manifest 2")])

    def test_names_that_lead_out_of_the_folder(self) -> None:
        path, to = support.folder() / "bad.zip", support.folder() / "bad"
        to.mkdir()
        with zipfile.ZipFile(path, "w") as archive:
            for name in ("../out.txt", "/out.txt", "a/../../out.txt", "a/b/c.txt", "A.txt", "good.txt"):
                archive.writestr(name, "x")
        self.assertEqual(len(unpack(path, to)), 5)
        self.assertEqual([each.name for each in to.rglob("*") if each.is_file()], ["good.txt"])
        self.assertFalse((support.folder() / "out.txt").exists())

    def test_zips_depend_on_names_and_bytes_alone(self) -> None:
        one, other = (support.folder() / name for name in ("folder-1", "folder-2"))
        for folder, names in ((one, ("b.txt", "a.txt", NAME)), (other, (NAME, "a.txt", "b.txt"))):
            folder.mkdir()
            for name in names:
                (folder / name).write_text(name)
        (other / "a.txt").chmod(0o600)
        written = [io.BytesIO(), io.BytesIO()]
        for folder, file in zip((one, other), written):
            write_zip(folder, file)
        self.assertEqual(written[0].getvalue(), written[1].getvalue())

    def test_how_figures_are_shown(self) -> None:
        self.assertEqual(shown_as("SAIDI", "1/8 0.125"), ("0.125", "1/8"))
        self.assertEqual(shown_as("ASAI", "2/3 0.667"), ("0.66667", "2/3"))
        self.assertEqual(shown_as("CAIDI", "undefined"), ("", "undefined"))
        self.assertEqual(shown_as("SUSTAINED", "73"), ("73", ""))
