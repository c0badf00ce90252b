#!/usr/bin/env python3
"""`meldesk` with the job `names` for drafts whose only names are those of STATIC lines, for tests where the program has no such job."""

import json
import os
import pathlib
import subprocess
import sys

sys.path.insert(0, str(pathlib.Path(__file__).resolve().parent.parent / "mel"))

from card import program_path  # noqa: E402


def main():
    if sys.argv[1:] != ["names"]:
        os.environ.pop("MELDESK", None)
        sys.exit(subprocess.run([program_path("meldesk"), *sys.argv[1:]], check=False).returncode)
    section, offset = None, 0
    for number, line in enumerate(sys.stdin.read().splitlines(), 1):
        fields = line.partition(";")[0].split()
        if fields[:1] == ["app"]:
            section, offset = fields[1:3], 0
        elif section and fields[:1] == ["STATIC"]:
            size = int(fields[2])
            print(json.dumps({"section": section[0], "aid": section[1], "name": fields[1], "register": "SB", "offset": offset, "size": size,
                              "line": number}))
            offset += size


main()
