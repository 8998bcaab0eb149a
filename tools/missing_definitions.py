#!/usr/bin/env python3
"""Lists the files of definitions that `docs/definitions.md` doesn't name, and the names there that are no file.

Usage, at the top of the repository: `python3 tools/missing_definitions.py`. A row of the table names its files as
`crate/specs/File.antt`; a name without a folder stands in the folder of the name before it. The status is 1 where
something is listed, and else 0.
"""
import pathlib
import re
import sys

TOP = pathlib.Path(__file__).resolve().parent.parent


def named(text):
    """The files that the rows name, in their order."""
    files = []
    folder = ""
    for row in text.splitlines():
        if not row.startswith("|"):
            continue
        for name in re.findall(r"`([\w/]*\w\.antt)`", row):
            before, slash, _ = name.rpartition("/")
            folder = before if slash else folder
            files.append(name if slash else f"{folder}/{name}")
    return files


def main():
    rows = named((TOP / "docs" / "definitions.md").read_text())
    found = {
        str(path.relative_to(TOP / "crates"))
        for path in (TOP / "crates").glob("*/specs/*.antt")
        if path.name != "Lib.antt"
    }
    missing = sorted(found - set(rows))
    unknown = sorted(set(rows) - found)
    for path in missing:
        print(f"not in the table: {path}")
    for path in unknown:
        print(f"no such file: {path}")
    return 1 if missing or unknown else 0


if __name__ == "__main__":
    sys.exit(main())
