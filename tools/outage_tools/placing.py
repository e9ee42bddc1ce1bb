"""Files that are made elsewhere, and get their names once they are whole; and the folder in which they are made.

A run that is killed leaves no file under a name: the file that is written has none before all its bytes are on the disk. Where
a file system has no files without a name (some that come over a network), it is a hidden one, `.NAME.new`, which the next run
removes. What a killed run leaves in its own folder, the next run removes too.
"""

import errno
import fcntl
import os
import shutil
import tempfile
from collections.abc import Iterator
from contextlib import contextmanager, suppress
from dataclasses import dataclass
from pathlib import Path
from typing import BinaryIO

from outage_tools.errors import BookError
from outage_tools.parallel import free_memory

SHARED_MEMORY = Path("/dev/shm")
FOLDER = "outagebook-make"
NO_UNNAMED = (errno.EOPNOTSUPP, errno.EISDIR, errno.EINVAL)  # what a system answers that has no files without a name
BESIDE_A_BOOK = ("-wal", "-journal", "-shm")  # files of SQLite, which would be taken for those of a new book


# A file that is there whole or not at all.


def check_free(path: Path) -> None:
    """Nothing has the name."""
    if os.path.lexists(path):
        raise BookError(f"{path} exists, and stays as it is: give another name, or move it away")


def check_free_book(path: Path) -> None:
    """Nothing has a book's name, nor that of a file that SQLite would take for the book's."""
    check_free(path)
    for suffix in BESIDE_A_BOOK:
        other = path.with_name(path.name + suffix)
        if os.path.lexists(other):
            raise BookError(f"{other} exists, and would be taken for the new book's: move it away")


@contextmanager
def writing(path: Path) -> Iterator[None]:
    """What can't be written of a file ends the run in plain words."""
    try:
        yield
    except OSError as error:
        raise BookError(f"{path} can't be written: {error.strerror}") from None


@contextmanager
def new_file(path: Path) -> Iterator[BinaryIO]:
    """A new file, which gets its name once the block has ended well and its bytes are on the disk."""
    with writing(path):
        handle, hidden = open_without_name(path)
    file = open(handle, "wb")
    try:
        yield file
        with writing(path):
            file.flush()
            os.fsync(file.fileno())
            name_file(file, hidden, path)
    finally:
        with suppress(OSError):  # of a file that couldn't be written: its error has been raised
            file.close()
        if hidden is not None:
            hidden.unlink(missing_ok=True)


def open_without_name(path: Path) -> tuple[int, Path | None]:
    """A file in the folder of a path: without a name, or under a hidden one where the file system wants one."""
    check_free(path)
    try:
        return os.open(path.parent, os.O_TMPFILE | os.O_WRONLY, 0o666), None
    except OSError as error:
        if error.errno not in NO_UNNAMED or not path.parent.is_dir():
            raise
    hidden = path.with_name(f".{path.name}.new")
    hidden.unlink(missing_ok=True)
    return os.open(hidden, os.O_CREAT | os.O_EXCL | os.O_WRONLY, 0o666), hidden


def name_file(file: BinaryIO, hidden: Path | None, path: Path) -> None:
    """Gives a whole file its name, which nothing may have got meanwhile."""
    folder = os.open(path.parent, os.O_RDONLY | os.O_DIRECTORY)
    try:
        if hidden is None:
            os.link(f"/proc/self/fd/{file.fileno()}", path.name, dst_dir_fd=folder, follow_symlinks=True)
        else:
            check_free(path)
            os.rename(hidden, path)
        os.fsync(folder)
    finally:
        os.close(folder)


# The folder in which it is made.


@dataclass(frozen=True)
class Lock:
    """A folder that this process holds."""

    folder: Path
    handle: int


def place_for(size: int) -> Path:
    """Where the folder is made: in memory if that has room for so many bytes, else where temporary files are."""
    with suppress(OSError):
        room = os.statvfs(SHARED_MEMORY)
        if min(room.f_bavail * room.f_frsize, free_memory() // 2) >= size and os.access(SHARED_MEMORY, os.W_OK):
            return SHARED_MEMORY
    return Path(tempfile.gettempdir())


@contextmanager
def own_folder(place: Path) -> Iterator[Path]:
    """A folder for the block, in which its temporary files are made too; those that killed runs have left go away first."""
    before = tempfile.tempdir
    try:
        remove_left(place)
        lock = locked_folder(place)
    except OSError as error:
        raise BookError(f"{place}: {error.strerror}") from None
    try:
        tempfile.tempdir = str(lock.folder)
        yield lock.folder
    finally:
        tempfile.tempdir = before
        shutil.rmtree(lock.folder, ignore_errors=True)
        os.close(lock.handle)


def prefix() -> str:
    return f"{FOLDER}-{os.getuid()}-"


def locked_folder(place: Path) -> Lock:
    """A new folder, locked. A run that looks for what others have left may have removed it before it was."""
    while True:
        folder = Path(tempfile.mkdtemp(prefix=prefix(), dir=place))
        with suppress(FileNotFoundError):
            handle = os.open(folder, os.O_RDONLY | os.O_DIRECTORY)
            fcntl.flock(handle, fcntl.LOCK_EX)
            if folder.exists():
                return Lock(folder, handle)
            os.close(handle)


def remove_left(place: Path) -> None:
    """Removes folders of this user that no run holds."""
    for folder in place.glob(f"{prefix()}*"):
        with suppress(OSError):
            handle = os.open(folder, os.O_RDONLY | os.O_DIRECTORY | os.O_NOFOLLOW)
            try:
                fcntl.flock(handle, fcntl.LOCK_EX | fcntl.LOCK_NB)
                if os.fstat(handle).st_uid == os.getuid():
                    shutil.rmtree(folder)
            finally:
                os.close(handle)
