#!/usr/bin/python3
"""From raw connectivity to sections: outage_tools/sections/command.py. Debian's networkx is found by /usr/bin/python3."""

import sys

from outage_tools.sections.command import main

if __name__ == "__main__":
    sys.exit(main())
