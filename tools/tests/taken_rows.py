"""Says of texts of commands whether the oracle's model takes all their rows. A program of its own, as made_books.py is.

    python3 tools/tests/taken_rows.py FIRST DAYS ZONE [TEXT] < texts.json

Each line of standard input is a text as a JSON string. For each one a line is printed: `taken`, or the refusal with its row.
Where TEXT is given, the book has its rows already.
"""

import copy
import json
import sys
from pathlib import Path

# The oracle's modules import one another by their names.
sys.path[0] = str(Path(__file__).resolve().parents[2] / "oracle")

from make_commands import Accepted  # noqa: E402
from state import Period  # noqa: E402


def main() -> None:
    first, days, zone, *texts = sys.argv[1:]
    start = Accepted(Period(first, int(days), zone))
    for text in texts:
        start.import_text(Path(text).read_bytes())
    for line in sys.stdin:
        refusal = copy.deepcopy(start).import_text(json.loads(line).encode())[2]
        print(refusal or "taken", flush=True)


if __name__ == "__main__":
    main()
