"""A PostgreSQL server of one's own, in a folder that goes away: for tests, and to paste a page.

    python3 tools/tests/own_postgres.py COMMAND ..      # runs a command with PGHOST, PGUSER and PGDATABASE set for it

The server listens on a socket in its folder and nowhere else. PostgreSQL doesn't run as root: then the user `postgres`
of Debian's package runs it.
"""

import os
import shutil
import subprocess
import sys
import tempfile
import time
from collections.abc import Iterator
from contextlib import contextmanager
from pathlib import Path

PLACES = sorted(Path("/usr/lib/postgresql").glob("*/bin"), key=lambda place: int(place.parent.name))
STARTS_IN = 60  # seconds
RUNUSER = shutil.which("runuser") or "/usr/sbin/runuser"


def missing() -> str | None:
    """Why there can be no server, where there can't."""
    if not PLACES:
        return "Debian's package postgresql isn't installed"
    try:
        import psycopg  # noqa: F401
    except ImportError:
        return "Debian's package python3-psycopg isn't installed"
    return None


def as_postgres(words: list[str]) -> list[str]:
    return [RUNUSER, "-u", "postgres", "--", *words] if os.geteuid() == 0 else words


@contextmanager
def server() -> Iterator[dict[str, str]]:
    """A new server, ended with the block: what libpq's environment has to say to reach it."""
    folder = Path(tempfile.mkdtemp(prefix="outagebook-pg-"))
    try:
        if os.geteuid() == 0:
            shutil.chown(folder, "postgres", "postgres")
        data = folder / "data"
        words = ["-D", str(data), "-A", "trust", "-U", "postgres", "-E", "UTF8", "--no-sync", "--locale=C.UTF-8"]
        run = {"check": True, "capture_output": True, "cwd": "/"}
        subprocess.run(as_postgres([str(PLACES[-1] / "initdb"), *words]), **run)  # type: ignore[call-overload]
        options = ["-c", "listen_addresses=", "-c", "fsync=off", "-k", str(folder)]
        with (folder / "log").open("w") as log:
            child = subprocess.Popen(
                as_postgres([str(PLACES[-1] / "postgres"), "-D", str(data), *options]), stdout=log, stderr=log, cwd="/"
            )
        try:
            wait_for(folder, child)
            yield {"PGHOST": str(folder), "PGUSER": "postgres", "PGDATABASE": "postgres"}
        finally:
            subprocess.run(
                as_postgres([str(PLACES[-1] / "pg_ctl"), "-D", str(data), "stop", "-m", "immediate"]),
                check=False,
                capture_output=True,
                cwd="/",
            )
            child.wait()
    finally:
        shutil.rmtree(folder, ignore_errors=True)


def wait_for(folder: Path, child: "subprocess.Popen[bytes]") -> None:
    import psycopg

    end = time.monotonic() + STARTS_IN
    while True:
        try:
            psycopg.connect(host=str(folder), user="postgres", dbname="postgres").close()
            return
        except psycopg.Error:
            if child.poll() is not None or time.monotonic() > end:
                raise RuntimeError((folder / "log").read_text()) from None
            time.sleep(0.05)


def main() -> int:
    if len(sys.argv) < 2 or missing():
        print(missing() or "usage: own_postgres.py COMMAND ..", file=sys.stderr)
        return 64
    python = Path(sys.executable).parent  # a page's `python3` is the Python that runs this
    with server() as environment:
        environment["PATH"] = f"{python}:{os.environ.get('PATH', '')}"
        return subprocess.run(sys.argv[1:], env={**os.environ, **environment}, check=False).returncode


if __name__ == "__main__":
    sys.exit(main())
