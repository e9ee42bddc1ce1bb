"""The sum of many books on three hosts: it is that of one machine, also if a worker is killed meanwhile; and its times.

    python3 tests/cluster_hosts.py FOLDER [--districts 12] [--customers 20000] [--entries 2000] [--made 4] [--plain] [--runs 1]

Each host is a network namespace, joined to this one by a bridge, with one worker on a processor of its own. The books of
FOLDER, made there with their tables if they are missing (benches/many_books.py), lie on the first host; the others see an
empty folder, so the books are sent to them. The tables are given, so the times are the tools' own, with the program's lists
of interruptions; of several runs they are the least. It needs root, iproute2 and python3-distributed, and ends with 1
if a sum differs.
"""

from __future__ import annotations

import argparse
import os
import shutil
import subprocess
import sys
import time
from contextlib import ExitStack
from pathlib import Path

from places import PROGRAM, ROOT
from many_books import make_books

HOSTS = 3
NAME = f"ob{os.getpid() % 100_000}"
HEAD = "10.77.0.1"
PORT = 8786
ADDRESS = f"tcp://{HEAD}:{PORT}"
PYTHON = "/usr/bin/python3"
STARTS_IN = 120  # seconds


def ip(*words: str) -> None:
    subprocess.run(["ip", *words], check=True)


def add_bridge(stack: ExitStack) -> None:
    """The network that the hosts share, with this machine in it."""
    ip("link", "add", NAME, "type", "bridge")
    stack.callback(ip, "link", "del", NAME)
    ip("addr", "add", f"{HEAD}/24", "dev", NAME)
    ip("link", "set", NAME, "up")


def add_host(stack: ExitStack, number: int) -> str:
    """A network namespace with an address of its own."""
    host, inside, outside = f"{NAME}-{number}", f"{NAME}i{number}", f"{NAME}o{number}"
    ip("netns", "add", host)
    stack.callback(ip, "netns", "del", host)
    ip("link", "add", outside, "type", "veth", "peer", "name", inside, "netns", host)
    ip("link", "set", outside, "master", NAME, "up")
    for words in (["addr", "add", f"10.77.0.{10 + number}/24", "dev", inside], ["link", "set", inside, "up"]):
        ip("-n", host, *words)
    ip("-n", host, "link", "set", "lo", "up")
    return host


def start(stack: ExitStack, words: list[str]) -> "subprocess.Popen[bytes]":
    """A process that ends with the block."""
    environment = {**os.environ, "PYTHONPATH": str(ROOT / "tools")}
    child = subprocess.Popen(words, env=environment, stdout=subprocess.DEVNULL, stderr=subprocess.DEVNULL)
    stack.callback(child.wait)
    stack.callback(child.kill)
    return child


def start_worker(stack: ExitStack, host: str, number: int, books: Path) -> "subprocess.Popen[bytes]":
    """A worker on a host; on the first alone the books are seen."""
    words = [PYTHON, "-m", "distributed.cli.dask_worker", ADDRESS, "--nthreads", "1", "--no-nanny", "--no-dashboard"]
    words = ["taskset", "-c", str((number - 1) % (os.cpu_count() or 1)), *words]
    if number > 1:
        words = ["unshare", "--mount", "sh", "-c", f'mount -t tmpfs hidden "{books}"; exec "$@"', "sh", *words]
    return start(stack, ["ip", "netns", "exec", host, *words])


def wait_for_workers(count: int) -> None:
    """Waits until the scheduler has so many workers."""
    code = f"import distributed; distributed.Client('{ADDRESS}').wait_for_workers({count}, timeout={STARTS_IN})"
    subprocess.run([PYTHON, "-W", "ignore", "-c", code], check=True)


def sum_words(folder: Path, districts: int, program: str, *more: str) -> list[str]:
    books = [str(folder / f"d{number}.db") for number in range(1, districts + 1)]
    tables = [word for number in range(1, districts + 1) for word in ("--table", str(folder / f"d{number}.txt"))]
    return [PYTHON, str(ROOT / "tools/sum.py"), *books, *tables, "--program", program, "--own-numbers", *more]


def timed_sum(words: list[str]) -> tuple[str, float]:
    began = time.monotonic()
    said = subprocess.run(words, check=True, capture_output=True, text=True).stdout
    return said, time.monotonic() - began


def told(what: str, wanted: str, words: list[str], runs: int) -> float:
    """Tells the least seconds of some runs, each of which has to give the same sum."""
    done = [timed_sum(words) for _ in range(runs)]
    if any(said != wanted for said, _ in done):
        sys.exit(f"{what}: the sum differs")
    least = min(seconds for _, seconds in done)
    print(f"{what}: the same sum in {least:.1f} s", flush=True)
    return least


def try_hosts(folder: Path, districts: int, program: str, runs: int) -> None:
    """Sums on one machine, on one host, two and three, and on three of which one is killed in the midst."""
    one = sum_words(folder, districts, program, "--processes", "1")
    wanted, _ = timed_sum(one)
    told("one machine, one process", wanted, one, runs)
    words = sum_words(folder, districts, program, "--cluster", ADDRESS)
    with ExitStack() as stack:
        add_bridge(stack)
        hosts = [add_host(stack, number) for number in range(1, HOSTS + 1)]
        scheduler = ["-m", "distributed.cli.dask_scheduler", "--host", HEAD, "--port", str(PORT), "--no-dashboard"]
        start(stack, [PYTHON, *scheduler])
        workers = []
        for number, host in enumerate(hosts, 1):
            workers.append(start_worker(stack, host, number, folder))
            wait_for_workers(number)
            seconds = told(f"hosts {number}", wanted, words, runs)
        began = time.monotonic()
        with subprocess.Popen(words, stdout=subprocess.PIPE, text=True) as child:
            time.sleep(seconds / 2)
            workers[1].kill()
            said = child.communicate()[0]
        what = f"hosts {HOSTS}, one killed after {seconds / 2:.1f} s"
        if child.returncode or said != wanted:
            sys.exit(f"{what}: the sum differs")
        print(f"{what}: the same sum in {time.monotonic() - began:.1f} s", flush=True)


def main() -> None:
    words = argparse.ArgumentParser(description="Adds up many books on three hosts, and measures it.")
    words.add_argument("folder", type=Path)
    words.add_argument("--districts", type=int, default=12)
    words.add_argument("--customers", type=int, default=20_000)
    words.add_argument("--entries", type=int, default=2_000)
    words.add_argument("--made", type=int, default=4, help="so many books are made, the others are copies of them")
    words.add_argument("--runs", type=int, default=1, help="how often each sum is made; the least seconds are told")
    words.add_argument("--plain", action="store_true", help="make the books by the plain office")
    words.add_argument(
        "--program", default=PROGRAM, help="what makes the books, prints their tables, and lists their interruptions"
    )
    given = words.parse_args()
    if os.geteuid() or not shutil.which("ip"):
        sys.exit("cluster_hosts: it needs root and iproute2")
    given.folder.mkdir(parents=True, exist_ok=True)
    make_books(given.folder, given.districts, given)
    try_hosts(given.folder.resolve(), given.districts, str(Path(given.program).resolve()), given.runs)


if __name__ == "__main__":
    main()
