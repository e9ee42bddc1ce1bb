"""Where things stand. Whoever imports this module may import those of oracle/ from then on."""

import sys
from pathlib import Path

ROOT = Path(__file__).resolve().parent.parent
BENCHES = ROOT / "benches"
sys.path.insert(1, str(ROOT / "oracle"))

from compare import DATA, EXAMPLES, FORTNIGHT, PROGRAM  # noqa: E402

__all__ = ["BENCHES", "DATA", "EXAMPLES", "FORTNIGHT", "PROGRAM", "ROOT"]
