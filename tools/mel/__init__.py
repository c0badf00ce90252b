"""The tools of a writer of applications, and of a laboratory: the command `mel`, whose modules they are.

Each module is a program of its own, too, as `python3 -m mel.film`. So they name each other without the package, and this folder is on the
path of modules.
"""

import sys
from pathlib import Path

HERE = str(Path(__file__).resolve().parent)
if HERE not in sys.path:
    sys.path.append(HERE)
