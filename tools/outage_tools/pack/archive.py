"""A folder as one ZIP file, whose bytes depend on the files' names and bytes alone; and such a file as a folder."""

import re
import shutil
import zipfile
import zlib
from pathlib import Path
from typing import BinaryIO

from outage_tools.errors import BookError
from outage_tools.pack.manifest import NAME, files_in

FIXED = (1980, 1, 1, 0, 0, 0)
MODE = 0o100644
GOOD_NAME = re.compile(r"[a-z0-9_-]+(\.[a-z0-9]+)?(/[a-z0-9_-]+(\.[a-z0-9]+)?)?")


def zlib_version() -> str:
    """What compresses: another version may write other bytes for the same files."""
    return f"zlib {zlib.ZLIB_RUNTIME_VERSION}"


def entry_of(name: str) -> zipfile.ZipInfo:
    """A file's heading: a fixed time, and rights that are the same everywhere."""
    entry = zipfile.ZipInfo(name, FIXED)
    entry.compress_type = zipfile.ZIP_DEFLATED
    entry.create_system = 3
    entry.external_attr = MODE << 16
    return entry


def write_zip(folder: Path, file: BinaryIO) -> None:
    """The files of a folder, the manifest first."""
    with zipfile.ZipFile(file, "w") as archive:
        for name in [NAME, *files_in(folder)]:
            entry = entry_of(name)
            entry.file_size = (folder / name).stat().st_size
            with (folder / name).open("rb") as source, archive.open(entry, "w") as target:
                shutil.copyfileobj(source, target, 1 << 20)


def unpack(path: Path, folder: Path) -> list[tuple[str, str]]:
    """Writes the files of a ZIP file into a folder; answers those that are damaged, each with how."""
    damaged: list[tuple[str, str]] = []
    try:
        with zipfile.ZipFile(path) as archive:
            for entry in archive.infolist():
                if not GOOD_NAME.fullmatch(entry.filename) or (folder / entry.filename).exists():
                    damaged.append((entry.filename, "no file of a pack has such a name, or it is there twice"))
                    continue
                try:
                    copy_entry(archive, entry, folder / entry.filename)
                except (zipfile.BadZipFile, zlib.error, EOFError, NotImplementedError, RuntimeError) as error:
                    damaged.append((entry.filename, f"it is damaged: {error}"))
    except OSError as error:
        raise BookError(f"{path} can't be read: {error.strerror}") from None
    except (zipfile.BadZipFile, NotImplementedError, ValueError) as error:
        raise BookError(f"{path} is no whole ZIP file: {error}") from None
    return damaged


def copy_entry(archive: zipfile.ZipFile, entry: zipfile.ZipInfo, to: Path) -> None:
    to.parent.mkdir(exist_ok=True)
    with archive.open(entry) as source, to.open("wb") as target:
        shutil.copyfileobj(source, target, 1 << 20)


def same_bytes(one: Path, other: Path) -> bool:
    """Two files have the same bytes."""
    if one.stat().st_size != other.stat().st_size:
        return False
    with one.open("rb") as here, other.open("rb") as there:
        while part := here.read(1 << 20):
            if part != there.read(len(part)):
                return False
    return True
