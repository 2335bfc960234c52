"""What to do about a refusal: the tables of docs/language.md that have a column *what to do*."""
import re

from .sources import HOME

PAGE = HOME / "docs" / "language.md"


def cells(line):
    """The cells of a line of a table."""
    return [cell.strip().replace("\\|", "|") for cell in re.split(r"(?<!\\)\|", line.strip())[1:-1]]


def named(cell, head):
    """What a row is about, as the report has it: `rule 4`, `pointer cast`."""
    return f"rule {cell}" if head == "rule" else re.sub(r"^\d+ ", "", cell).strip("`")


def advised():
    """For each answer what the page advises, a line for each case."""
    found, head, name = {}, None, ""
    try:
        page = PAGE.read_text()
    except OSError:
        return found
    for line in page.splitlines():
        row = cells(line) if line.startswith("|") else None
        if row is None:
            head = None
        elif row[-1] == "what to do":
            head = row
        elif head and not set(row[0]) <= set("-") | {""} or head and row[0] == "":
            name = named(row[0], head[0]) if row[0] else name
            where = f"{row[1]}: " if head[1] == "is broken where" and row[1] else ""
            if row[-1]:
                found.setdefault(name, []).append(where + row[-1])
    return found


def advice(name):
    """What the page advises about an answer."""
    return advised().get(name, [])
