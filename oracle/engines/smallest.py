"""The smallest inputs of the rows of docs/DIFFERENCES.md that are about readers, from the table itself: each text in backticks of its second column. The word
before a text says as what it is read, up to the next `;`; without one it is plain. `aaa..a` is as many letters as make 1,025 bytes, `\\x00` the byte 0."""
import collections
import pathlib
import re

DOCUMENT = pathlib.Path(__file__).resolve().parent.parent.parent / "docs" / "DIFFERENCES.md"
OPS = {"plain": "plain", "zoned": "zoned", "instant": "instant", "time": "time", "year-month": "ym", "month-day": "md", "finder": "cal", "duration": "dur"}
LONG, LONG_SIZE = "aaa..a", 1025

Input = collections.namedtuple("Input", "row op text")


def written(text):
    text = text.replace("\\x00", "\0")
    return text.replace(LONG, "a" * (LONG_SIZE - len(text) + len(LONG)))


def inputs():
    readers = DOCUMENT.read_text().partition("\n## Readers\n")[2].partition("\n## ")[0]
    found = []
    for row, cell in re.findall(r"^\| (\d+) \| (.*?) \| ", readers, re.MULTILINE):
        for piece in cell.split("; "):
            op = OPS[re.match(r"(?:([a-z-]+) )?`", piece)[1] or "plain"]
            found += [Input(int(row), op, written(text)) for text in re.findall(r"`([^`]*)`", piece)]
    return found
