#!/usr/bin/env python3
"""Compares a book with its program: outage_tools/compare.py."""

import sys

from outage_tools.by_oracle import main

if __name__ == "__main__":
    sys.exit(main())
