#!/usr/bin/env python3
"""See outage_tools/sums.py."""

import sys

from outage_tools.sums import main

if __name__ == "__main__":
    sys.exit(main())
