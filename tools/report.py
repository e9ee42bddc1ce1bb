#!/usr/bin/python3
"""A page of a book's period: outage_tools/report.py."""

import sys

from outage_tools.report import main

if __name__ == "__main__":
    sys.exit(main())
