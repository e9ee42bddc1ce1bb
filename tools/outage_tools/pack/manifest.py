"""The manifest of a pack: what made it, and the size and SHA-256 of each file. Its last line is the sum of its own text."""

import hashlib
import json
import re
from collections.abc import Iterator
from dataclasses import dataclass, field
from pathlib import Path
from typing import Any

from outage_tools.errors import BookError
from outage_tools.versions import sum_of

NAME = "manifest.json"
FORM = 1
ABOUT = {"period", "program", "program_sha256", "tools_sha256", "made_with", "asked"}  # what each manifest says
OWN_SUM = re.compile(r',\n "manifest_sha256": "([0-9a-f]{64})"\n}\n\Z')
END = "\n}\n"


@dataclass(frozen=True)
class Packed:
    """A file's size and sum."""

    bytes: int
    sha256: str


@dataclass(frozen=True)
class Manifest:
    """What made a pack, what was asked for, and its files by their names."""

    about: dict[str, Any]
    files: dict[str, Packed] = field(default_factory=dict)

    def text(self) -> str:
        """The manifest as it is written, ended by the sum of all before it."""
        files = {name: {"bytes": each.bytes, "sha256": each.sha256} for name, each in sorted(self.files.items())}
        text = json.dumps({"pack": FORM, **self.about, "files": files}, indent=1) + "\n"
        return f'{text.removesuffix(END)},\n "manifest_sha256": "{own_sum(text)}"{END}'


def own_sum(text: str) -> str:
    return hashlib.sha256(text.encode()).hexdigest()


class Changed(Exception):
    """The manifest isn't as it was written."""


def read_manifest(path: Path) -> Manifest:
    """The manifest of a pack, whose own sum is right."""
    try:
        text = path.read_bytes().decode()
    except OSError as error:
        raise BookError(f"{path} can't be read: {error.strerror}") from None
    except UnicodeDecodeError:
        raise Changed("it is no text") from None
    end = OWN_SUM.search(text)
    if end is None:
        raise Changed("it doesn't end with its own sum")
    if own_sum(text[: end.start()] + END) != end[1]:
        raise Changed("its own sum is another one")
    try:
        about = json.loads(text)
        if about.pop("pack") != FORM or not ABOUT <= about.keys():
            raise BookError(f"{path} is of a form that is not known here")
        del about["manifest_sha256"]
        files = {name: Packed(each["bytes"], each["sha256"]) for name, each in about.pop("files").items()}
    except (KeyError, TypeError, ValueError, AttributeError) as error:
        raise BookError(f"{path} can't be read as a manifest: {error!r}") from None
    return Manifest(about, files)


def files_in(folder: Path) -> list[str]:
    """The names of all files in a folder and the folders in it, the manifest left out."""
    names = (
        path.relative_to(folder).as_posix() for path in folder.rglob("*") if path.is_symlink() or not path.is_dir()
    )
    return sorted(name for name in names if name != NAME)


def packed(folder: Path) -> dict[str, Packed]:
    """The size and the sum of each file in a folder."""
    return {name: Packed((folder / name).stat().st_size, sum_of(folder / name)) for name in files_in(folder)}


def differing(folder: Path, manifest: Manifest) -> Iterator[tuple[str, str]]:
    """The files that aren't as the manifest says, each with what is wrong."""
    there = set(files_in(folder))
    for name in sorted(there - manifest.files.keys()):
        yield name, "it isn't in the manifest"
    for name, wanted in sorted(manifest.files.items()):
        if name not in there:
            yield name, "it is missing"
        elif (folder / name).is_symlink():
            yield name, "it is a link"
        elif (size := (folder / name).stat().st_size) != wanted.bytes:
            yield name, f"it has {size} bytes, in the manifest {wanted.bytes}"
        elif (found := sum_of(folder / name)) != wanted.sha256:
            yield name, f"its sha256 is {found}, in the manifest {wanted.sha256}"
