"""The fenced blocks of a page, and what is to be done with each.

A block fenced as `sh` is a command block. If the next fence is `output`, that is what it prints, standard output and standard error in
one; else it prints nothing. One that begins with `#!/bin/sh` is a file: its second line is `# NAME: ..`, and later blocks of the page find
it under that name. Other fences (`text`, `rust`) are to look at.
"""

import re
import typing

FENCE = re.compile(r"^```(\w*)$")


class Block(typing.NamedTuple):
    page: str
    line: int
    kind: str
    text: str

    def first(self):
        """The first line, by which a block is named."""
        return self.text.split("\n", 1)[0].strip()

    def file(self):
        """The name of the file that the block is, or None."""
        lines = self.text.split("\n")
        named = re.match(r"# (\w+):", lines[1]) if lines[0] == "#!/bin/sh" else None
        return named.group(1) if named else None


def blocks(page, text):
    """The page's fenced blocks, in their order."""
    found, kind, start, lines = [], None, 0, []
    for number, line in enumerate(text.split("\n"), 1):
        fence = FENCE.match(line)
        if fence and kind is None:
            kind, start, lines = fence.group(1), number, []
        elif fence:
            found.append(Block(page, start, kind, "\n".join(lines)))
            kind = None
        elif kind is not None:
            lines.append(line)
    return found


def commands(page, text):
    """Each command block with what it is to print."""
    found = blocks(page, text)
    for block, after in zip(found, found[1:] + [None]):
        if block.kind == "sh":
            yield block, after.text + "\n" if after and after.kind == "output" else ""


def complaints(page, text, exists):
    """What is wrong with a page as text: a link that leads nowhere, a line that is too long, commands that nobody would run."""
    in_fence = False
    for number, line in enumerate(text.split("\n"), 1):
        in_fence ^= bool(FENCE.match(line))
        if len(line) > 140 and not line.startswith("|"):
            yield f"{page}:{number}: {len(line)} characters"
        if line.startswith("|") and len(line.rstrip(" |").rsplit("|", 1)[0]) > 140:
            yield f"{page}:{number}: a table passes 140 characters before its last column"
        if not in_fence and re.match(r" {4}(target/bin|rt |\.ci/|tests/|docs/)", line):
            yield f"{page}:{number}: a command that stands in no fence"
        for target in [] if in_fence else re.findall(r"\]\(([^)#:]+)(?:#[^)]*)?\)", line):
            if not exists(target):
                yield f"{page}:{number}: {target} is not there"
