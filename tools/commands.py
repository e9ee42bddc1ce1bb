#!/usr/bin/env python3
"""A book's commands as CSV: outage_tools/commands.py."""

import sys

from outage_tools.commands import main

if __name__ == "__main__":
    sys.exit(main())
