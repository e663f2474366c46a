"""Tables of Markdown, and the parts of a document that a command writes: what stands between `<!-- NAME -->` and `<!-- end -->`, on lines of their own.
For bench/run and tools/size."""
import pathlib
import re
import sys

TOP = pathlib.Path(__file__).resolve().parent.parent
PERFORMANCE = TOP / "docs" / "PERFORMANCE.md"


def table(head, rows):
    """A table whose columns are aligned: the first to the left, the others to the right."""
    rows = [[str(cell) for cell in row] for row in rows]
    widths = [max(len(row[i]) for row in [head, *rows]) for i in range(len(head))]
    lines = ["| " + " | ".join(cell.ljust(width) for cell, width in zip(row, widths)) + " |" for row in [head, *rows]]
    lines.insert(1, "|" + "|".join("-" * (width + 2) if i == 0 else "-" * (width + 1) + ":" for i, width in enumerate(widths)) + "|")
    return "\n".join(lines)


def put(name, text):
    """Writes the named part of docs/PERFORMANCE.md anew."""
    old = PERFORMANCE.read_text()
    part = re.compile(rf"(<!-- {re.escape(name)} -->\n).*?(<!-- end -->\n)", re.S)
    new, count = part.subn(lambda found: found[1] + "\n" + text + "\n\n" + found[2], old)
    if count != 1:
        sys.exit(f"docs/PERFORMANCE.md has no part {name}")
    PERFORMANCE.write_text(new)
