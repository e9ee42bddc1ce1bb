#!/usr/bin/python3
"""A checked book of four exports, by one command: outage_tools/make.py."""

import sys

from outage_tools.make import main

if __name__ == "__main__":
    sys.exit(main())
