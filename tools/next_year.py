#!/usr/bin/env python3
"""The beginning of the next period's book: outage_tools/next_year.py."""

import sys

from outage_tools.next_year import main

if __name__ == "__main__":
    sys.exit(main())
