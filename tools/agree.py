#!/usr/bin/python3
"""An OMS's own counts beside a book's: outage_tools/agree.py."""

import sys

from outage_tools.agree import main

if __name__ == "__main__":
    sys.exit(main())
