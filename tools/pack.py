#!/usr/bin/env python3
"""A pack of one period to hand in: outage_tools/pack/."""

import sys

from outage_tools.pack.packing import main

if __name__ == "__main__":
    sys.exit(main())
