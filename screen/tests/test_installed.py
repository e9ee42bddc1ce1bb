"""The screen as install.sh leaves it."""

import json
import shlex
import shutil
import subprocess
from pathlib import Path

import support

UNITS = ("outagebook.service", "outagebook-screen.service", "outagebook@north.service")
ANALYZE = shutil.which("systemd-analyze")


class Installed(support.Case):
    def install(self, prefix: Path, **told: str) -> None:
        told |= {"PATH": "/usr/bin:/bin", "PROGRAM": str(support.PROGRAM)}
        subprocess.run(["sh", support.ROOT / "install.sh", prefix], check=True, capture_output=True, env=told)

    def test_it_starts_from_its_place(self) -> None:
        prefix = support.folder() / "prefix"
        self.install(prefix)
        book = support.fortnight("installed")
        screen = self.screen(command=prefix / "bin/outagebook-screen", program=prefix / "bin/outagebook", book=book)
        self.assertEqual(screen.call("/health")[1]["desk"], "here")
        for route in ("/", "/static/now.js", "/static/screen.css", "/report", "/download/commands.csv"):
            self.assertEqual(support.call(screen.url + route)[0], 200, route)
        self.assertEqual(json.loads(support.call(f"{screen.url}/api/now")[1])["customers_out"], 3)

    def test_the_units(self) -> None:
        """The units of systemd are sound where install.sh's DESTDIR has put what they start, and the words with which the
        screen's unit starts it, with the book and the ports of here, start it."""
        root = support.folder() / "root"
        self.install(Path("/usr/local"), DESTDIR=str(root))
        shipped = root / "usr/local/share/doc/outagebook/deploy"
        units = root / "etc/systemd/system"
        units.mkdir(parents=True)
        for unit in UNITS:
            text = (shipped / unit.replace("@north", "@")).read_text()
            (units / unit).write_text(text.replace("/usr/local/", f"{root}/usr/local/"))
        if ANALYZE is not None:
            verify = [ANALYZE, "verify", *(str(units / unit) for unit in UNITS)]
            done = subprocess.run(verify, capture_output=True, text=True, check=False)
            self.assertEqual((done.returncode, done.stdout + done.stderr), (0, ""))
        desk = self.desk()
        line = next(row for row in (units / UNITS[1]).read_text().splitlines() if row.startswith("ExecStart="))
        line = line.replace("/var/lib/outagebook/book.db", str(desk.book)).replace("http://127.0.0.1:${PORT}", desk.url)
        line = line.replace("${SCREEN_PORT}", "0").replace("${SCREEN_HOST}", "screen.example.org")
        started = shlex.split(line.partition("=")[2])
        with subprocess.Popen(started, stdout=subprocess.PIPE, text=True) as process:
            assert process.stdout is not None
            port = process.stdout.readline().strip().rpartition(":")[2]
            headers = {"Host": "screen.example.org", "X-Remote-User": "desk-anna"}
            status, me = support.call(f"http://127.0.0.1:{port}/api/me", headers=headers)
            process.terminate()
        self.assertEqual((status, json.loads(me)["may_send"], process.returncode), (200, True, 0))

    def test_words_and_statuses(self) -> None:
        def status(*words: str) -> tuple[int, str]:
            command = [str(support.SCREEN / "outagebook-screen"), *words]
            done = subprocess.run(command, capture_output=True, text=True, check=False, timeout=60)
            return done.returncode, done.stderr

        book, program = str(support.fortnight("statuses")), str(support.PROGRAM)
        for wrong in (
            (),
            ("--book", book, "--port", "99999"),
            ("--book", book, "--desk", "http://127.0.0.1:1", "--no-desk"),
        ):
            self.assertEqual(status(*wrong)[0], 64, wrong)
        self.assertEqual(status("--book", f"{book}.nowhere", "--program", program)[0], 1)
        self.assertIn("can't be run", status("--book", book, "--program", "/nowhere/outagebook")[1])
        other = support.folder() / "other.db"
        other.write_text("no book")
        self.assertIn("fault 21 Store", status("--book", str(other), "--program", program)[1])
