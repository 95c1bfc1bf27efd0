"""What must hold of a run of the client against `serve`: each check yields a complaint for each thing that does not."""

import os
import pathlib
from itertools import groupby

import wire
from checks import differs
from serve_cases import FINISHES, OTHER, cleaned

PART, LISTED_SIZE, MODE, LINGER = 4096, 4096, 0o644, 4.5
FIELDS = "ac zip ft tt id fid pw q mod prm sz n st pr d".split()


def all_of(case, folder, run):
    """Every complaint about one run. A stream that cannot be read is a complaint too."""
    try:
        sent, replies = wire.commands(run.sent), wire.commands(run.replied)
        own = [[command for command in line if command["id"] != OTHER] for line in (sent, replies)]
        key = own[0][0]["id"] if own[0] else ""
        line = [*in_order(replies), *others(case, replies), *client(case, folder, key, own[0]), *server(case, folder, key, own[1])]
    except (ValueError, KeyError) as fault:
        line = [f"a frame that does not read: {fault!r}"]
    return [*arrived(case, folder), *ends(case, run), *line]


def arrived(case, folder):
    """What lies in the folder is what lies where it was asked for, byte for byte, and nothing else is there."""
    to = pathlib.Path(case.arrival(folder))
    wanted = {cleaned(item.name): item for item in case.items if case.arrives(item)}
    yield from differs("names that arrived", sorted(os.listdir(to)) if to.exists() else [], sorted(wanted))
    for name, item in wanted.items():
        there, here = pathlib.Path(item.path(folder)).read_bytes(), to / name
        if there != item.content():
            yield f"{name}: the file itself is changed"
        if here.is_file() and here.read_bytes() != there:
            yield f"{name}: what arrived is not the file: {here.stat().st_size} bytes, not {len(there)}"
        if here.is_file() and case.end == FINISHES:
            yield from differs(f"{name}: mode", oct(here.stat().st_mode & 0o7777), oct(MODE))


def ends(case, run):
    """Both programs' ends, and that the server writes frames alone. Where all goes well and nobody is denied, it has nothing to say."""
    yield from differs("the client's exit status", run.status, 0)
    yield from differs("the client sat still", run.waited, case.end.waits)
    yield from differs("the client took 5 s to end", run.lingered >= LINGER, case.end.lingers)
    if case.end.says not in wire.between(run.sent).decode("utf-8", "replace"):
        yield f"the client does not say: {case.end.says}"
    yield from differs("the server's exit status", run.receiver_status, 0)
    yield from differs("bytes between the frames", wire.between(run.replied), b"")
    if case.end == FINISHES and "EPERM" not in case.heard:
        yield from differs("the server's standard error", run.receiver_errors, b"")


def in_order(replies):
    """Each frame has its fields in the writer's order."""
    for reply in replies:
        if list(reply) != sorted(reply, key=FIELDS.index):
            yield f"fields out of order: {list(reply)}"
            return


def others(case, replies):
    """What the earlier session was answered: each command's status."""
    yield from differs("the other session's replies", tuple(r["st"].decode() for r in replies if r["id"] == OTHER), case.heard)


def first_difference(what, seen, wanted):
    """The first place where two lists of commands differ."""
    for place in range(max(len(seen), len(wanted))):
        pair = [line[place] if place < len(line) else None for line in (seen, wanted)]
        if pair[0] != pair[1]:
            yield f"{what}, {place + 1}: {shown(pair[0])}, not {shown(pair[1])}"
            return


def shown(command):
    """A command in a complaint, of its data the length only."""
    return {**command, "d": len(command["d"])} if command and "d" in command else command


def client(case, folder, key, sent):
    """All that it sends: receive, the paths (fid from 0), after the listing the requests (fid from 1), and how it leaves."""
    paths = [os.fsencode(path) for path in case.paths(folder)]
    names = [os.fsencode(cleaned(path)) for path in case.paths(folder)] if case.is_served() else []
    wanted = [{"id": key, "ac": "receive", "sz": str(len(paths))}]
    wanted += [{"id": key, "ac": "file", "fid": str(i), "n": path} for i, path in enumerate(paths)]
    wanted += [{"id": key, "ac": "file", "fid": str(i), "n": name} for i, name in enumerate(names, 1)]
    wanted += [{"id": key, "ac": case.end.last}] if case.end.last else []
    seen = [{field: value for field, value in command.items() if field != "pw"} for command in sent]
    yield from first_difference("the client's commands", seen, wanted)
    yield from differs("passwords", sum("pw" in command for command in sent), case.options.count("-p"))


def server(case, folder, key, replies):
    """All that comes back: the opening, each request's answer in turn, and CANCELED where the client cancels an open session."""
    refused = [{"ac": "status", "id": key, **status} for status in case.refused or ()]
    opening = listing(case, folder, key) if case.refused is None else refused
    closing = [{"ac": "status", "id": key, "st": b"CANCELED"}] if case.end.canceled else []
    rest = len(replies) - len(closing)
    compared = list if case.is_numbered(folder) else unnumbered
    yield from first_difference("opening", compared(replies[:len(opening)]), compared(opening))
    yield from first_difference("closing", replies[max(rest, 0):], closing)
    answers = [(fid, list(run)) for fid, run in groupby(replies[len(opening):rest], lambda reply: reply.get("fid"))]
    items = case.asked() if case.is_served() else []
    yield from differs("files answered, in turn", [fid for fid, _ in answers], [str(i + 1) for i in range(len(items))])
    for item, (fid, answer) in zip(items, answers):
        yield from one_answer(item, {"id": key, "fid": fid}, answer)


def listing(case, folder, key):
    """OK, an entry or an error for each path, and the OK with the home."""
    entries = [entry(item, item.path(folder), number, {"id": key, "fid": str(number - 1)}) for number, item in enumerate(case.asked(), 1)]
    return [{"ac": "status", "id": key, "st": b"OK"}, *entries, {"ac": "status", "id": key, "n": b"/", "st": b"OK"}]


def entry(item, path, number, ids):
    if item.size is None:
        return {"ac": "status", **ids, "st": b"ENOENT"}
    size = {"sz": str(item.size)} if 0 < item.size <= LISTED_SIZE else {}
    return {"ac": "file", **ids, "prm": str(MODE), **size, "n": os.fsencode(path), "st": b"%d" % number}


def unnumbered(opening):
    """Without the files' own ids: the page leaves open whose number it is where arguments and paths differ."""
    return [{key: value for key, value in reply.items() if reply["ac"] != "file" or key != "st"} for reply in opening]


def one_answer(item, ids, answer):
    """The parts of one file, full but for the last that has bytes, and the last of all is the one end_data (which may be empty, since the
    page does not say how the end is known); or the status in their place."""
    if item.answer:
        yield from first_difference(f"{item.name}: answer", answer, [{"ac": "status", **ids, "st": item.answer.encode()}])
        return
    parts = [reply.get("d", b"") for reply in answer]
    wanted = [{"ac": "data", **ids}] * (len(answer) - 1) + [{"ac": "end_data", **ids}]
    bare = [{key: value for key, value in reply.items() if key != "d"} for reply in answer]
    yield from first_difference(f"{item.name}: parts", bare, wanted)
    lengths = [len(part) for part in parts]
    if any(length != PART for length in lengths[:-2 if lengths[-1] == 0 else -1]) or max(lengths) > PART:
        yield f"{item.name}: the parts have {lengths} bytes"
    if b"".join(parts) != item.content():
        yield f"{item.name}: the parts are not the file's content"
