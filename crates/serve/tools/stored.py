#!/usr/bin/env python3
"""Writes the stored run of serve (args, stdin, stdout, data/), from the page of receive sessions and not from a run of the program.

    crates/serve/tools/stored.py [--to FOLDER]          # below FOLDER, to be compared, and not in the project
"""

import base64
import pathlib
import sys

TOP = pathlib.Path(sys.argv[2]) if sys.argv[1:2] == ["--to"] else pathlib.Path(__file__).resolve().parents[3]
HERE = TOP / "crates" / "serve"
PART = 4096
A, B, C, D, E = (f"~/nz/{letter}" for letter in "ABCDE")
CONTENT = {A: b"abc", B: bytes((13 * i + i // 256) % 256 for i in range(PART + 1)), D: bytes((i * i) % 251 for i in range(PART)), E: b""}
OTHER = "/etc/passwd"
line, answers = [], []


def frame(fields):
    texts = (key + "=" + (base64.b64encode(value).decode() if isinstance(value, bytes) else value) for key, value in fields.items())
    return b"\x1b]5113;" + ";".join(texts).encode() + b"\x1b\\"


def office(**fields):
    line.append(frame(fields))


def console(**fields):
    answers.append(frame(fields))


def status(key, word, **more):
    """fid stands before the name, and that before the word."""
    console(ac="status", id=key, **more, st=word.encode())


def receive(key, paths, **more):
    office(ac="receive", id=key, **more, sz=str(len(paths)))
    for fid, name in paths.items():
        office(ac="file", id=key, fid=fid, n=name.encode())


def entry(key, fid, name, number):
    """Of an empty file, and of one over 4,096 bytes, no size is given."""
    size = {"sz": str(len(CONTENT[name]))} if 0 < len(CONTENT[name]) <= PART else {}
    console(ac="file", id=key, fid=fid, prm="420", **size, n=name.encode(), st=str(number).encode())


def request(key, fid, name, **more):
    office(ac="file", **more, id=key, fid=fid, **({"n": name.encode()} if name else {}))


def parts(key, fid, name):
    """A part that is not full is the last, also an empty one."""
    rest = CONTENT[name]
    while len(rest) >= PART:
        console(ac="data", id=key, fid=fid, d=rest[:PART])
        rest = rest[PART:]
    console(ac="end_data", id=key, fid=fid, **({"d": rest} if rest else {}))


# Three paths, in another order than the arguments', one with no file.
line.append(b"login: \r\n")
receive("m", {"x": B, "y": C, "z": A})
status("m", "OK")
entry("m", "x", B, 1)
status("m", "ENOENT", fid="y")
entry("m", "z", A, 3)
status("m", "OK", n=b"/")
# Meanwhile another receive session, though it names an argument, and a send session are denied.
receive("k", {"x": A})
status("k", "EPERM")
office(ac="send", id="s")
status("s", "EPERM")
# The requests. What this session has not listed is not supplied, nor is a delta.
request("m", "1", B)
parts("m", "1", B)
request("m", "2", A)
parts("m", "2", A)
request("m", "3", C)
status("m", "EINVAL", fid="3")
request("m", "4", D)
status("m", "EINVAL", fid="4")
request("m", "5", OTHER)
status("m", "EINVAL", fid="5")
request("m", "6", A, tt="rsync")
status("m", "EINVAL", fid="6")
request("m", "7", "")
status("m", "EINVAL", fid="7")
office(ac="finish", id="m")
# One path of two is no argument.
receive("n", {"x": A, "y": OTHER})
status("n", "EPERM")
office(ac="send", id="s")
status("s", "EPERM")
# A quiet session: only the statuses are held back.
receive("o", {"x": D, "y": E}, q="1")
entry("o", "x", D, 1)
entry("o", "y", E, 2)
request("o", "x", D)
parts("o", "x", D)
request("o", "y", E)
parts("o", "y", E)
office(ac="cancel", id="o")
# A session that is withdrawn before its last path leaves the turn to the next.
office(ac="receive", id="p", sz="2")
office(ac="file", id="p", fid="x", n=OTHER.encode())
office(ac="cancel", id="p")
status("p", "CANCELED")
receive("p", {"x": A})
status("p", "OK")
entry("p", "x", A, 1)
status("p", "OK", n=b"/")

HERE.mkdir(parents=True, exist_ok=True)
(HERE / "args").write_text("".join(name + "\n" for name in (A, B, C, D, E)))
(HERE / "stdin").write_bytes(b"".join(line))
(HERE / "stdout").write_bytes(b"".join(answers))
for name, content in CONTENT.items():
    path = HERE / "data" / name
    path.parent.mkdir(parents=True, exist_ok=True)
    path.write_bytes(content)
