"""Runs `melc`: `python3 -m melc`, or `python3 tools/melc`."""

import sys
from pathlib import Path

sys.path.insert(0, str(Path(__file__).resolve().parent.parent))

from melc import main  # noqa: E402

if __name__ == "__main__":
    sys.exit(main(sys.argv[1:]))
