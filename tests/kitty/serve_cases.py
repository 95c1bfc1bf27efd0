"""The cases of `serve`: the paths that the client asks for, what lies there, and what must come of it."""

import os
import random
import re
from typing import NamedTuple

import wire

OTHER = "other"


class Item(NamedTuple):
    """One path: a file of random bytes in the case's folder; of size None, nothing lies there; or, with `at`, another path as it
    stands. `given`: it is among the server's arguments. `asked`: the client names it. `answer`: the status that its request
    gets in place of data."""
    name: str
    size: int | None = 0
    given: bool = True
    asked: bool = True
    answer: str = ""
    at: str = ""

    def path(self, folder):
        return self.at or os.path.join(folder, "from", self.name)

    def content(self):
        """Random bytes, the same in every run."""
        return random.Random(self.name).randbytes(self.size)

    def make(self, folder):
        if self.size is not None and not self.at:
            with open(self.path(folder), "wb") as file:
                file.write(self.content())


def cleaned(name):
    """A listed name as the client reads it: without control characters."""
    return re.sub("[\0-\x09\x0b-\x1f\x7f-\x9f]", "", name)


class End(NamedTuple):
    """How the client leaves: its last command, if it is not a path or a request; whether CANCELED comes for it; whether it sat still
    before and was sent ctrl-c; whether it ends 5 s after; and what it says. Its exit status is 0 in any case."""
    last: str
    says: str
    canceled: bool = False
    waits: bool = False
    lingers: bool = False


FINISHES = End("finish", "Queueing transfer of")
SITS = End("cancel", "Interrupt requested", canceled=True, waits=True)
GIVES_UP = End("cancel", "Permission for transfer denied", canceled=True)
LINGERS = End("cancel", "Permission for transfer denied", lingers=True)
SITS_AND_LINGERS = End("cancel", "Interrupt requested", waits=True, lingers=True)
QUITS = End("", "Failed to process some sources")


class Case(NamedTuple):
    """One call of the client. `refused`: the fields of the statuses that come in place of OK and a listing, where these do not. `earlier`:
    what another session sent before, and `heard`, the statuses that it got. `mirror`: without a destination."""
    name: str
    items: tuple
    end: End = FINISHES
    refused: tuple | None = None
    earlier: tuple = ()
    heard: tuple = ()
    reverse: bool = False
    mirror: bool = False
    options: tuple = ()

    def asked(self):
        return [item for item in self.items if item.asked]

    def paths(self, folder):
        return [item.path(folder) for item in self.asked()]

    def call(self, folder):
        """The client's arguments."""
        paths = self.paths(folder)
        return ["--direction=receive", *self.options, *(["--mode=mirror", *paths] if self.mirror else [*paths, "to/"])]

    def arguments(self, folder):
        """The server's."""
        given = [item.path(folder) for item in self.items if item.given]
        return given[::-1] if self.reverse else given

    def is_numbered(self, folder):
        """The server's arguments begin with the paths, each once: then it is plain which number is a file's own id."""
        paths = self.paths(folder)
        return self.arguments(folder)[:len(paths)] == paths and len(set(paths)) == len(paths)

    def is_served(self):
        """The client gets as far as requests: no refusal, and no listing error."""
        return self.refused is None and all(item.size is not None for item in self.asked())

    def arrives(self, item):
        return item.asked and self.is_served() and not item.answer

    def arrival(self, folder):
        """Where the files must come to lie. In mirror mode, for the home `/`, the client takes the path from its current folder for one
        from its own home."""
        return os.path.join(folder, "home", "from") if self.mirror else os.path.join(folder, "to")

    def ahead(self, folder):
        """The frames that stand before the client's own."""
        commands = {
            "send": {"ac": "send", "id": OTHER},
            "receive": {"ac": "receive", "id": OTHER, "sz": "1"},
            "file": {"ac": "file", "id": OTHER, "fid": "0", "n": os.fsencode(self.items[0].path(folder))},
            "finish": {"ac": "finish", "id": OTHER},
        }
        return b"".join(wire.frame(commands[action]) for action in self.earlier)


def one_of(size):
    return Case(f"size-{size}", (Item("owners.csv", size),))


def letters():
    """One file for each letter, of the sizes where parts begin and end."""
    sizes = (0, 1, 2, 3, 100, 4095, 4096, 4097, 8192, 8193, 20000)
    return Case("letters", tuple(Item(chr(65 + i), sizes[i % len(sizes)]) for i in range(26)))


def numbered(name, count, *more):
    return Case(name, tuple(Item(f"{i}.dat", 131 * i) for i in range(count)), *more)


SIZES = (0, 1, 4096, 4097, 100000)
FIVE = tuple(Item(f"{size}.dat", size) for size in SIZES)
A, B = Item("A.dat", 9000), Item("B.dat", 5000)
EPERM, EINVAL, EINVAL_0 = ({"st": b"EPERM"},), ({"st": b"EINVAL"},), ({"fid": "0", "st": b"EINVAL"},)

WORKING = (
    *map(one_of, SIZES),
    Case("five", FIVE),
    letters(),
    numbered("room", 32),
    Case("two", (A, B)),
    Case("names", (Item("Grundbücher – 土地 1.dat", 5000), Item("-n;'\"$.gz", 4097), Item("n" * 255, 12))),
    Case("more-arguments", (A, B, Item("C.dat", 7, asked=False))),
    Case("other-order", (A, B), reverse=True),
    Case("same-twice", (A, A)),
    Case("after-finish", (A,), earlier=("receive", "file", "finish"), heard=("OK", "1", "OK")),
    Case("after-send", (A,), earlier=("send",), heard=("EPERM",)),
    Case("mirror", (A,), mirror=True),
)

REFUSED = (
    Case("denied", (Item("A.dat", 9000, given=False),), LINGERS, EPERM),
    Case("denied-among-others", (A, Item("B.dat", 5000, given=False), Item("C.dat", 7)), LINGERS, EPERM),
    Case("occupied", (A,), LINGERS, EPERM, earlier=("receive", "file"), heard=("OK", "1", "OK")),
    numbered("too-many", 33, LINGERS, EINVAL),
    Case("relative", (Item("A.dat", 9000, at="from/A.dat"),), GIVES_UP, EINVAL_0),
    Case("parent", (Item("A.dat", 9000, at="/srv/../A.dat"),), GIVES_UP, EINVAL_0),
    Case("password", (A,), SITS_AND_LINGERS, (), options=("-p", "secret")),
    Case("missing", (Item("A.dat", None),), QUITS),
    Case("missing-among-others", (A, B, Item("C.dat", None)), QUITS),
    Case("unlisted", (A, Item("be\x07ll.dat", 6, answer="EINVAL"), B), SITS),
    Case("read-error", (A, Item("mem", 0, answer="EIO", at="/proc/self/mem"), B), SITS),
)

ALL = WORKING + REFUSED
