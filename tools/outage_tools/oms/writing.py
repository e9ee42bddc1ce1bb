"""Files that are there whole or not at all."""

import os
import shutil
import sys
import tempfile
from collections.abc import Iterator
from contextlib import contextmanager
from pathlib import Path
from typing import IO

from outage_tools.errors import BookError


@contextmanager
def whole_file(path: Path) -> Iterator[IO[str]]:
    """A new file in the place of one, once the block has ended well; as it was, where it didn't."""
    if path.exists() and not path.is_file():
        raise BookError(f"{path} is no file")
    try:
        handle, name = tempfile.mkstemp(prefix=f".{path.name[:50]}-", dir=path.parent)
    except OSError as error:
        raise BookError(f"{path} can't be written: {error.strerror}") from None
    try:
        with open(handle, "w", encoding="utf-8", errors="backslashreplace", newline="") as file:
            yield file
            file.flush()
            os.fsync(file.fileno())
        mask = os.umask(0)
        os.umask(mask)
        os.chmod(name, 0o666 & ~mask)
        os.replace(name, path)
    except OSError as error:
        raise BookError(f"{path} can't be written: {error.strerror}") from None
    finally:
        Path(name).unlink(missing_ok=True)


@contextmanager
def whole_output() -> Iterator[IO[str]]:
    """What is written on standard output, once the block has ended well."""
    with tempfile.TemporaryFile("w+", encoding="utf-8", newline="") as file:
        yield file
        file.seek(0)
        shutil.copyfileobj(file, sys.stdout)
