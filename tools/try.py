#!/usr/bin/env python3
"""A dry run of rows on a copy of a book: outage_tools/trial.py."""

import sys

from outage_tools.trial import main

if __name__ == "__main__":
    sys.exit(main())
