"""Task files as Python's own reader takes them: it reads TOML 1.0, and the program TOML 1.1.

A text comes here once the program has read it, so it is a document of TOML 1.1 that describes a task set. Two forms of it are
rewritten: inline tables over several lines or with a comma at their end, and the escapes ``\\e`` and ``\\xHH``.
"""

from __future__ import annotations

import importlib
import re
from typing import Any, Dict, List

_TOKENS = re.compile(
    r'"""(?:[^\\]|\\.)*?"""(?:"{0,2})|' r"'''.*?'''(?:'{0,2})|" r'"(?:[^"\\\n]|\\.)*"|' r"'[^'\n]*'|" r"#[^\n]*|[\[\]{},\n]|[^\S\n]+"
    r'|[^"' r"'#\[\]{},\s]+", re.DOTALL,
)
_ESCAPES = re.compile(r"\\(?:x([0-9A-Fa-f]{2})|.)", re.DOTALL)


def loads(text: str) -> Dict[str, Any]:
    """The tree of a document that the program has read."""
    reader = _reader()
    tree: Dict[str, Any]
    try:
        tree = reader.loads(text)
    except reader.TOMLDecodeError:
        tree = reader.loads(as_of_1_0(text))
    return tree


def _reader() -> Any:
    """The reader that Python has from 3.11 on, or the package that it comes from."""
    for name in ("tomllib", "tomli"):
        try:
            return importlib.import_module(name)
        except ImportError:
            pass
    raise ImportError("task files need Python 3.11 or later, or the package tomli")


def _escape(found: "re.Match[str]") -> str:
    """An escape of TOML 1.0 for one of 1.1."""
    if found[1]:
        return "\\u00" + found[1]
    return "\\u001b" if found[0] == "\\e" else found[0]


def as_of_1_0(text: str) -> str:
    """A document of TOML 1.1 in the forms of TOML 1.0."""
    pieces: List[str] = []
    open_brackets: List[str] = []
    last = -1  # the place of the last piece that is neither blank nor a comment
    for found in _TOKENS.finditer(text.replace("\r\n", "\n")):
        piece = found[0]
        inline = open_brackets[-1:] == ["{"]
        if piece.isspace() or piece.startswith("#"):
            pieces.append(" " if inline else piece)
            continue
        if piece in "[{":
            open_brackets.append(piece)
        elif piece in "]}":
            if piece == "}" and pieces[last] == ",":
                pieces[last] = ""
            open_brackets.pop()
        elif piece.startswith('"'):
            piece = _ESCAPES.sub(_escape, piece)
        last = len(pieces)
        pieces.append(piece)
    return "".join(pieces)
