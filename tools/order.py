#!/usr/bin/env python3
"""Rows of commands in the order that costs a book least: outage_tools/reordering.py."""

import sys

from outage_tools.reordering import main

if __name__ == "__main__":
    sys.exit(main())
