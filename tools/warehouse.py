#!/usr/bin/env python3
"""See outage_tools/warehouse.py."""

import sys

from outage_tools.warehouse import main

if __name__ == "__main__":
    sys.exit(main())
