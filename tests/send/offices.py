"""The cases: the files that an office sends, the console it sends them to, and every line that it must say."""

import pathlib
import random
from typing import NamedTuple

HERE = pathlib.Path(__file__).resolve().parent
REPLAY = str(HERE.parent.parent / "target" / "bin" / "replay")
KITTY_SIDE = str(HERE.parent / "kitty" / "terminal")
STAND_IN = str(HERE.parent / "kitty" / "stand_in")

FINISHED = "finish written: a commit that is done has no reply, so it is not confirmed here"
UNFINISHED = "finish not written"


class File(NamedTuple):
    """`kind`: a regular file, a folder, nothing at all, a pipe, or the page of a process that ends meanwhile."""
    local: str
    size: int = 0
    kind: str = "file"
    name: str = ""

    def content(self):
        """Random bytes, the same in every run."""
        return random.Random(self.local).randbytes(self.size)


class Case(NamedTuple):
    name: str
    files: tuple
    says: tuple
    console: tuple = (REPLAY,)
    session: str = "m"
    terminal: bool = False
    arrives: bool = False


def whole(*files):
    return tuple(f"whole {file.size} {file.local}" for file in files)


def last(count, files, line=FINISHED):
    return (line, f"{count} of {len(files)} files whole")


def good(name, files, **more):
    return Case(name, files, whole(*files) + last(len(files), files), **more)


def edited(way, name, files, says):
    """Replay whose replies are edited on their way, by a way of tests/kitty/edits.py."""
    return Case(name, files, says, (STAND_IN, way, REPLAY))


def after(count, then):
    """Replay behind a line that takes so many bytes and then does something else."""
    return ("sh", "-c", f"(dd bs=1 count={count}; {then}) | '{REPLAY}'")


SIZES = tuple(File(f"owners-{size}", size) for size in (0, 1, 4095, 4096, 4097, 100000))
LETTERS = tuple(File(chr(65 + i), (0, 1, 2, 3, 100, 4095, 4096, 4097, 8192, 8193, 20000)[i % 11]) for i in range(26))
A, B, BIG = File("a", 3), File("b", 5000), File("big", 100000)
ROOM = tuple(File(f"f{i}", i) for i in range(33))
LOST, FOLDER = File("lost", kind="nothing"), File("folder", kind="folder")
LONG, BAD = File("long", 9, name="/" * 7000), File("bad", 9, name="../x")
ENDS = File("page", kind="page")

PLAIN = (
    good("sizes", SIZES),
    good("letters", LETTERS),
    good("pipe", (A, File("stream", 10000, "pipe"), B)),
    Case("unread", (A, LOST, FOLDER, B), (whole(A) + ("unread lost", "unread folder") + whole(B) + last(2, range(4)))),
    Case("read-fails", (A, ENDS, B), whole(A) + ("unread PAGE", "unsent b") + last(1, range(3), UNFINISHED), after(6000, "sleep 2; cat")),
    Case("too-many", ROOM, whole(*ROOM[:32]) + ("refused 17 f32",) + last(32, ROOM)),
    Case("long-name", (LONG, A), ("refused 9 long",) + whole(A) + last(1, "LA")),
    Case("bad-name", (BAD, A), ("stopped EINVAL bad",) + whole(A) + last(1, "BA")),
    Case("bad-session", (A,), ("refused 62", "unsent a") + last(0, "A", UNFINISHED), session="a;b"),
    edited("denies", "denied", (A, B), ("stopped EPERM", "unsent a", "unsent b") + last(0, "AB", UNFINISHED)),
    edited("first-file-fails", "file-fails", (A, B), ("stopped EIO a",) + whole(B) + last(1, "AB")),
    edited("wrong-size", "wrong-size", (A, B), ("differs 3 4 a", "differs 5000 5001 b") + last(0, "AB")),
    Case("line-ends", (A, BIG, B), whole(A) + ("line ended", "unsent big", "unsent b") + last(1, "ABB", UNFINISHED), after(50000, ":")),
    Case("line-ends-at-once", (A, B), ("line ended", "unsent a", "unsent b") + last(0, "AB", UNFINISHED), ("true",)),
    good("terminal", (A, B), terminal=True),
)

KITTY = tuple(case._replace(console=("kitty", "+launch", KITTY_SIDE), arrives=True) for case in PLAIN[:3]) + (
    Case("denied", (A,), ("stopped EPERM:User refused the transfer", "unsent a") + last(0, "A", UNFINISHED),
         ("kitty", "+launch", KITTY_SIDE, "denies")),
)
