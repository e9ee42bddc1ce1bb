"""What goes wrong in a tool, in words for its user."""

import sys


class BookError(Exception):
    """A book, a table, a text or a program that can't be read: what, in plain words."""


def lacks(work: str, package: str) -> BookError:
    """This Python hasn't one of Debian's packages, which are those of /usr/bin/python3; `work` is what it is for."""
    way = "install it, or run the tool by /usr/bin/python3"
    return BookError(f"{work} by Debian's {package}, which {sys.executable} doesn't have: {way}")


class Differs(Exception):
    """A figure that was found here isn't the program's."""

    def __init__(self, which: str, here: object, there: object):
        super().__init__(f"{which}: found here {here}, in the book or its table {there}")
