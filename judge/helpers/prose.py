"""Counts habits of wording that make a page hard to read. Each word is right somewhere; a page with many of them is not."""

import re

HABITS = (
    r"\b(?:stands?|stood|standing)\b", r"\b(?:tells?|told)\b", r"(?:(?<=[.:] )|^)Where\b|, where\b", r"(?:(?<=[.:] )|^)What\b(?![^.]*\?)",
    r"(?:(?<=[.:] )|^)So\b", r"\b(?:is|are|was|were) (?:no|none)\b", r"\b(?:anew|beside|whoever|kin|thereby|therein|so many|as long as there)\b",
    r"\b(?:comes?|came) back\b", r"\bhand(?:s|ed)? in\b", r"\bof (?:a |the )?processors?\b",
    r"\b(?:and no (?:verdict|proof)|of which|by which|such a)\b", r"\bsays? (?:what|which|who|how|so)\b", r"(?:(?<=[.:] )|^)It (?:is|has)\b",
)
ANY = re.compile("|".join(f"(?:{it})" for it in HABITS), re.M)


def habits(text):
    """Returns how many habits a text has in a thousand words."""
    words = len(text.split())
    return round(1000 * len(ANY.findall(text)) / words, 1) if words else 0.0
