"""The forms that a client chooses by its request `initialize`: lines and columns from 0 or 1 on, and paths or addresses of files."""

from __future__ import annotations

from dataclasses import dataclass
from pathlib import Path
from typing import Any, Dict
from urllib.parse import unquote, urlsplit

LINES, COLUMNS = ("line", "endLine"), ("column", "endColumn")


@dataclass
class Form:
    """What a client chose."""

    first_line: int = 1
    first_column: int = 1
    is_uri: bool = False

    def shown(self, told: Any) -> Any:
        """Returns what is sent, with its lines, columns and paths as the client has them."""
        if isinstance(told, list):
            return [self.shown(it) for it in told]
        if not isinstance(told, dict):
            return told
        made: Dict[str, Any] = {}
        for name, value in told.items():
            if name in LINES and isinstance(value, int):
                value = max(value - 1 + self.first_line, 0)
            elif name in COLUMNS and isinstance(value, int):
                value = max(value - 1 + self.first_column, 0)
            elif name == "path" and isinstance(value, str):
                value = Path(value).as_uri() if self.is_uri and value.startswith("/") else value
            made[name] = self.shown(value)
        return made

    def line(self, number: int) -> int:
        """Returns the draft's number of a line that the client named."""
        return number + 1 - self.first_line

    def path(self, given: str) -> str:
        """Returns the path of a file that the client named; what is no address is taken as it is."""
        try:
            return unquote(urlsplit(given).path) if self.is_uri and given.startswith("file:") else given
        except ValueError:
            return given
