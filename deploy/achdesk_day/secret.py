"""Where keys and other secrets are."""

from __future__ import annotations

import os
from pathlib import Path

KEYS = Path("/etc/achdesk/keys")


def secret_path(word: str) -> Path:
    """Returns the file of a secret: a path, or a name, which is a credential of the unit if it has one, and otherwise a file of
    /etc/achdesk/keys. A unit's credential with the text `none` stands for a file that was not there."""
    if "/" in word:
        return Path(word)
    loaded = Path(os.environ.get("CREDENTIALS_DIRECTORY", "/nonexistent"), word)
    try:
        if loaded.read_bytes().strip() not in (b"", b"none"):
            return loaded
    except OSError:
        pass
    return KEYS / word
