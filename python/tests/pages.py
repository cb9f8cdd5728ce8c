"""The pages as they stand: their code blocks, and a run of them."""
import re
from collections import namedtuple

from trial import Different, holds, read, same

Block = namedtuple("Block", "language text")

# Where the programs of a page are kept: the name stands in the first line, in a comment.
PROGRAMS = {"c": r"/\* (\S+) \*/", "rust": r"// (\S+)", "python": r"# (\S+)"}

# What the commands say while they build depends on the machine, and is no part of a page.
PROGRESS = re.compile(r"(?m)^\w+: (?:the first build|still building|another build|\S+ proved \().*\n")


def blocks(page):
    found = re.findall(r"(?ms)^```(\w*)\n(.*?)^```$", read(page).decode())
    return [Block(*one) for one in found]


def run(page, folder):
    """Keeps each program of a page, runs each `sh` block, and holds what it prints, on both outputs, to the `text` block after it."""
    found = blocks(page)
    for block, after in zip(found, found[1:] + [Block("", "")]):
        if block.language in PROGRAMS:
            folder.put(re.match(PROGRAMS[block.language], block.text).group(1), block.text)
        elif block.language == "sh":
            wanted = after.text if after.language == "text" else ""
            gave = folder.shell("exec 2>&1\n" + block.text)
            printed(PROGRESS.sub("", gave.out.decode()), wanted, block.text)
            same(gave.status != 0, "refused" in wanted, f"{page}: the exit status of {block.text!r}")
        elif block.language != "text":
            raise Different(f"{page}: a block in {block.language or 'no language'}, which nothing tries:\n{block.text}")
    holds([block for block in found if block.language == "sh"], f"{page} has no command")


def printed(got, wanted, command):
    """Holds the output to the page's; a line of three dots there stands for any lines."""
    parts = [re.escape(part) for part in re.split(r"(?m)^\.\.\.\n", wanted)]
    if not re.fullmatch("(?:.*\n)*".join(parts), got):
        raise Different(f"{command!r} printed\n{got}\nand the page has\n{wanted}")


def tables(page, heading):
    """The rows of each table whose first column has this heading, as lists of cells, the headings first."""
    found = []
    for table in re.findall(r"(?m)(?:^\|.*\n)+", read(page).decode()):
        rows = [[cell.strip() for cell in line.strip("|").split("|")] for line in table.splitlines()]
        if rows[0][0] == heading:
            found.append([rows[0]] + rows[2:])
    return found
