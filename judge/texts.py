#!/usr/bin/env python3
"""Counts the statements of a desk over tables: `python3 judge/texts.py`. It needs no program.

The engine keeps the plans of 64 texts, so that no more may be used while a desk serves; set-up and migration are aside.
Stock SQLite must find the rows of each of them by a key or an index, but for the lists that are read or emptied whole.
The last line counts the checks; the status is 1 where one failed.
"""

import re
import sqlite3

from helpers.running import TOP, Checks

MOST = 64
SERVING = ("sql_statements", "sql_queries", "sql_reads", "sql_measures", "sql_writes", "sql_store")
# A text of Rust, whose lines may be joined by a backslash.
LITERAL = re.compile(r'"((?:[^"\\]|\\[^x])*)"')
STATEMENT = re.compile(r"(SELECT|INSERT|UPDATE|DELETE|CREATE) ")
# Each has all rows of its table for its answer, or takes them all away.
WHOLE = ("FROM companies ORDER BY id", "FROM holidays ORDER BY day", "FROM suspense ORDER BY no", "DELETE FROM holidays")


def texts_of(crates):
    """The statements in the sources of crates, each once, and "" where a transaction is tried by an empty one."""
    texts = set()
    for crate in crates:
        for path in sorted((TOP / "crates" / crate / "src").rglob("*.rt")):
            code = "\n".join(line for line in path.read_text().split("\n") if not line.lstrip().startswith("//"))
            for literal in LITERAL.findall(code):
                text = re.sub(r"\\\n\s*", "", literal)
                if not text or STATEMENT.match(text):
                    texts.add(text)
    return sorted(texts)


def scans(database, text):
    """Does stock SQLite walk over a whole table or index for the statement, and not only to its first row?"""
    places = len(set(re.findall(r"\?\d+", text))) or text.count("?")
    steps = [row[3] for row in database.execute(f"EXPLAIN QUERY PLAN {text}", (1,) * places)]
    return not text.endswith("LIMIT 1") and any(re.match(r"SCAN (?!\d+ CONSTANT ROWS)", step) for step in steps)


def main():
    checks = Checks()
    database = sqlite3.connect(":memory:")
    made = [text for text in texts_of(["sql_setup"]) if text.startswith("CREATE INDEX") or text.endswith(" STRICT")]
    for text in sorted(made, reverse=True):
        database.execute(text)
    checks.that("tables and indexes are made", len(made), 20)
    texts = texts_of(SERVING)
    print(f"{len(texts)} texts")
    checks.that(f"at most {MOST} texts", len(texts) <= MOST, True)
    for text in texts:
        if text:
            is_whole = text.endswith(WHOLE)
            checks.that(f"rows are found: {text[:90]}", scans(database, text) and not is_whole, False)
    checks.end()


main()
