#!/usr/bin/env python3
"""A book's figures as a workbook, and filings: outage_tools/workbook/."""

import sys

from outage_tools.workbook import main

if __name__ == "__main__":
    sys.exit(main())
