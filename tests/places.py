"""Where files are. After importing this module a program may import those of benches/ and oracle/ too."""

import sys
from pathlib import Path

ROOT = Path(__file__).resolve().parent.parent
BENCHES = ROOT / "benches"
TESTS = ROOT / "tests"
sys.path[1:1] = [str(BENCHES), str(ROOT / "oracle")]

from compare import DATA, EXAMPLES, FORTNIGHT, PROGRAM  # noqa: E402

__all__ = ["BENCHES", "DATA", "EXAMPLES", "FORTNIGHT", "PROGRAM", "ROOT", "TESTS"]
