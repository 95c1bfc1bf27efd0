"""The cases: what is sent, how the client is called, and what must come of it."""

import os
import random
from typing import NamedTuple


class Item(NamedTuple):
    """One file or directory. `marks`: what its file command must say of zip, ft and tt. `closes`: the status that must end
    it, empty where no reply may come."""
    path: str
    size: int = 0
    marks: dict = {}
    closes: str = "OK"
    to: str = ""

    def is_directory(self):
        return self.marks.get("ft") == "directory"

    def content(self):
        """Random bytes, the same in every run."""
        return random.Random(self.path).randbytes(self.size)


class Case(NamedTuple):
    """One call of the client. An empty destination: mirror mode, with the scratch folder as home. `waits`: the client is
    expected to sit still, and is sent ctrl-c."""
    name: str
    items: tuple
    destination: str = "/srv/registry/"
    options: tuple = ()
    status: int = 0
    waits: bool = False
    session: tuple = ("OK",)
    keep: bool = False

    def arguments(self):
        sources = [item.path for item in self.items if "/" not in item.path]
        return [*self.options, *sources, self.destination] if self.destination else ["--mode=mirror", *self.options, *sources]

    def remote_name(self, item):
        return (self.destination or f"~/{self.name}/") + item.path


def directory(path):
    return Item(path, marks={"ft": "directory"})


def one_of(size, suffix=""):
    return Case(f"size-{size}", (Item(f"owners{suffix}", size),))


def letters():
    """One file for each letter, of the sizes where parts begin and end."""
    sizes = (0, 1, 2, 3, 100, 4095, 4096, 4097, 8192, 8193, 20000)
    items = (Item(f"{chr(65 + i)}.gz", sizes[i % len(sizes)]) for i in range(26))
    return Case("letters", tuple(items))


def tree(big):
    return (directory("office"), Item("office/A", 40), Item("office/B.gz", big), directory("office/old"), Item("office/old/C"),
            directory("office/none"))


def waiting(name, *items, **more):
    """The client sits still until ctrl-c: it then sends cancel, and ends with 1."""
    return Case(name, items, status=1, waits=True, **{"session": ("OK", "CANCELED"), **more})


WORKING = (
    one_of(0), one_of(1), one_of(4095), one_of(4096), one_of(4097, ".gz"), one_of(100000, ".gz"),
    letters(),
    Case("room", tuple(Item(f"{i}.dat", i) for i in range(32))),
    Case("directory", tree(20000)),
    Case("home", (Item("A", 12),), destination="~/inbox/"),
    Case("mirror-three", (Item("A"), Item("B", 1), Item("C", 300)), destination="", keep=True),
    Case("mirror-parts", (Item("A.gz", 9000),), destination="", keep=True),
    Case("mirror-directory", tree(4097), destination="", keep=True),
)

REFUSED = (
    waiting("compressed", Item("A.dat", 4097, {"zip": "zlib"}, "")),
    waiting("compressed-among-others", Item("A.dat", 4096), Item("B.dat", 4097, {"zip": "zlib"}, ""), Item("C.gz", 5000)),
    waiting("relative", Item("A", 12, closes="EINVAL"), destination="inbox/"),
    waiting("parent", Item("A", 12, closes="EINVAL"), destination="/srv/../registry/"),
    waiting("directory-alone", directory("none")),
    waiting("password", Item("A", 12, closes=""), options=("-p", "secret"), session=()),
    Case("too-many", tuple(Item(f"{i}.dat", i, closes="OK" if i < 32 else "EMFILE") for i in range(35)), status=1),
    Case("links", (Item("A", 12), Item("B", 0, {"ft": "symlink"}, "ENOTSUP", "A"), Item("C", 0, {"ft": "link"}, "ENOTSUP", "A")),
         status=1),
    Case("rsync", (Item("A", 12), Item("B.gz", 4097, {"tt": "rsync"}, "ENOTSUP")), options=("--transmit-deltas",), status=1),
)

ALL = WORKING + REFUSED


def make(item, folder):
    """Puts one item under the folder."""
    path = os.path.join(folder, item.path)
    if item.is_directory():
        os.mkdir(path)
    elif item.marks.get("ft") == "symlink":
        os.symlink(item.to, path)
    elif item.marks.get("ft") == "link":
        os.link(os.path.join(folder, item.to), path)
    else:
        with open(path, "wb") as file:
            file.write(item.content())
