"""Puts a section into docs/BENCHMARKS.md between two marks of its own: in the place of the one that was there, or at the end.

    python3 bench/keep.py MARK HEADING < TEXT
"""

import os
import sys

PATH = os.path.join(os.path.dirname(os.path.abspath(__file__)), "..", "docs", "BENCHMARKS.md")


def keep(mark, heading, text):
    """Put the section there, and leave the rest of the page as it is."""
    if "--" in mark:
        sys.exit(f"{mark}: a name to keep figures by cannot have two hyphens in a row")
    begin, end = f"<!-- {mark}: begin -->", f"<!-- {mark}: end -->"
    section = f"{begin}\n## {heading}\n\n{text.strip()}\n{end}"
    with open(PATH) as file:
        page = file.read()
    if begin in page and end in page:
        page = page[: page.index(begin)] + section + page[page.index(end) + len(end) :]
    else:
        page = page.rstrip("\n") + "\n\n" + section + "\n"
    with open(PATH, "w") as file:
        file.write(page)
    print(f"{mark.split()[0]}: kept in docs/BENCHMARKS.md, {heading}", file=sys.stderr)


if __name__ == "__main__":
    if len(sys.argv) != 3:
        sys.exit(__doc__)
    keep(sys.argv[1], sys.argv[2], sys.stdin.read())
