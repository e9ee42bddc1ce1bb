#!/usr/bin/env python3
"""Years side by side: outage_tools/years.py."""

import sys

from outage_tools.years import main

if __name__ == "__main__":
    sys.exit(main())
