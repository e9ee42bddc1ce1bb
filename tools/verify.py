#!/usr/bin/env python3
"""A pack, checked by the program: outage_tools/pack/."""

import sys

from outage_tools.pack.verifying import main

if __name__ == "__main__":
    sys.exit(main())
