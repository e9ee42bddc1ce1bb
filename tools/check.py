#!/usr/bin/python3
"""Exports looked at before a book is made: outage_tools/check.py."""

import sys

from outage_tools.check import main

if __name__ == "__main__":
    sys.exit(main())
