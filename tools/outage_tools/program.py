"""The proved program, asked once for an answer."""

import subprocess

from outage_tools.errors import BookError


def run_program(program: str, *words: object) -> subprocess.CompletedProcess[str]:
    """The program's answer."""
    command = [program, *map(str, words)]
    try:
        return subprocess.run(command, capture_output=True, text=True, encoding="utf-8", check=False)
    except OSError as error:
        raise BookError(f"the program {program} can't be run ({error.strerror}): --program PATH names it") from None


def answer_of(program: str, *words: object) -> str:
    """What the program prints; an answer that isn't well is an error."""
    done = run_program(program, *words)
    if done.returncode:
        raise BookError(f"{program} {words[0]} ended with status {done.returncode}: {done.stderr.strip()}")
    return done.stdout
