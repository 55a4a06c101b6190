#!/usr/bin/env python3
"""Writes the hashes of the console's script and style into its policy: `python3 judge/seal_console.py`.

Run it after each change of console/index.html; judge/console.py fails if it was forgotten.
"""

import base64
import hashlib
import re
from pathlib import Path

PAGE = Path(__file__).resolve().parent.parent / "console" / "index.html"


def sealed(page):
    """The page with the hashes of the script and the style that it has."""
    for tag in ("script", "style"):
        (text,) = re.findall(rf"<{tag}>(.*?)</{tag}>", page, re.S)
        digest = base64.b64encode(hashlib.sha256(text.encode()).digest()).decode()
        page, count = re.subn(rf"{tag}-src 'sha256-[^']*'", lambda _: f"{tag}-src 'sha256-{digest}'", page)
        if count != 1:
            raise SystemExit(f"the policy has no {tag}-src with one hash")
    return page


if __name__ == "__main__":
    PAGE.write_text(sealed(PAGE.read_text()))
