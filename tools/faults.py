"""The rows of docs/FAULTS.md."""
import collections
import os

PAGE = os.path.join(os.path.dirname(os.path.dirname(os.path.abspath(__file__))), "docs", "FAULTS.md")
Row = collections.namedtuple("Row", "section name says why change")


def rows():
    found, section = [], ""
    with open(PAGE, encoding="utf-8") as file:
        for line in file:
            if line.startswith("## "):
                section = line[3:].strip()
            cells = [it.strip() for it in line.strip().strip("|").split(" | ")]
            if line.startswith("| ") and len(cells) == 4 and cells[0] != "Name":
                found.append(Row(section, *cells))
    return found


def rows_of(name):
    """The rows of a name, in whatever case; a hyphen may stand for a blank."""
    return [it for it in rows() if it.name.lower() == name.lower().replace("-", " ")]
