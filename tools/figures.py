#!/usr/bin/env python3
"""Figures of a book: outage_tools/figures.py."""

import sys

from outage_tools.figures import main

if __name__ == "__main__":
    sys.exit(main())
