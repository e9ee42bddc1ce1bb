#!/usr/bin/python3
"""See outage_tools/districts.py."""

import sys

from outage_tools.districts import main

if __name__ == "__main__":
    sys.exit(main())
