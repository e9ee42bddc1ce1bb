#!/usr/bin/env python3
"""See outage_tools/major_days.py."""

import sys

from outage_tools.major_days import main

if __name__ == "__main__":
    sys.exit(main())
