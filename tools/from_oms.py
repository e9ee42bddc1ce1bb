#!/usr/bin/env python3
"""Exports of other systems into rows of commands: outage_tools/oms/convert.py."""

import sys

from outage_tools.oms.convert import main

if __name__ == "__main__":
    sys.exit(main())
