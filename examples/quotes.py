"""Compares what the pages quote with the files: a line `<!-- FILE -->` or `<!-- FILE 3-9 -->` right before a fenced block
says that the block is the whole file, or its lines 3 to 9."""
import re
from pathlib import Path

QUOTE = re.compile(r"^<!-- (\S+)(?: (\d+)-(\d+))? -->\n+(```+)[^\n]*\n(.*?)^\4$", re.M | re.S)
MARK = re.compile(r"^<!-- \S+( \d+-\d+)? -->$", re.M)


def quoted(path, first, last):
    """The lines that a page quotes, or None where there is no such file."""
    if not Path(path).is_file():
        return None
    lines = Path(path).read_text().splitlines(keepends=True)
    return "".join(lines[int(first) - 1:int(last)] if first else lines)


def wrong():
    """Each quote of the pages, and why it is wrong, or an empty text."""
    for page in [Path("README.md"), Path("CONTRIBUTING.md"), *sorted(Path("docs").glob("*.md"))]:
        text = page.read_text() if page.is_file() else ""
        found = QUOTE.findall(text)
        yield page, "a mark has no block below it" if len(found) != len(MARK.findall(text)) else ""
        for path, first, last, _, block in found:
            lines = quoted(path, first, last)
            if lines is None:
                yield page, f"it quotes {path}, which is not there"
            else:
                yield page, "" if block == lines else f"what it quotes of {path} isn't what the file has"
