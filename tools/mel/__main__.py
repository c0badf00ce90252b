# PYTHON_ARGCOMPLETE_OK
"""Runs `mel`: `python3 -m mel`, or `python3 tools/mel`."""

import sys
from pathlib import Path

sys.path.insert(0, str(Path(__file__).resolve().parent))

from cli import main  # noqa: E402

if __name__ == "__main__":
    sys.exit(main(sys.argv[1:]))
