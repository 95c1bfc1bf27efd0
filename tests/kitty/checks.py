"""What must hold of a run: each check yields a complaint for each thing that does not."""

import wire


def all_of(case, run):
    """Every complaint about one run. A stream that cannot be read is a complaint too."""
    try:
        sent, replies = wire.commands(run.sent), wire.commands(run.replied)
        return [*ends(case, run), *session(case, sent, replies), *files(case, sent, replies)]
    except (ValueError, KeyError) as fault:
        return [f"a frame that does not read: {fault!r}"]


def differs(what, seen, wanted):
    if seen != wanted:
        yield f"{what}: {seen!r}, not {wanted!r}"


def ends(case, run):
    """Both programs' ends, and that the receiver writes replies alone."""
    yield from differs("the client's exit status", run.status, case.status)
    yield from differs("the client sat still", run.waited, case.waits)
    yield from differs("the receiver's exit status", run.receiver_status, 0)
    yield from differs("the receiver's standard error", run.receiver_errors, b"")
    yield from differs("bytes between the replies", wire.between(run.replied), b"")


def session(case, sent, replies):
    """One session, its own replies (those without a file), and how the client leaves it."""
    yield from differs("sessions", len({command["id"] for command in sent + replies}), 1)
    yield from differs("actions of replies", {reply["ac"] for reply in replies}, {"status"} if replies else set())
    yield from differs("the session's replies", tuple(words(replies, None)), case.session)
    yield from differs("the first reply, of the session", tuple(words(replies[:1], None)), case.session[:1])
    actions = [command["ac"] for command in sent]
    yield from differs("sends", (actions[:1], actions.count("send")), (["send"], 1))
    last = "cancel" if case.waits else "finish"
    yield from differs("the last command", actions[-1:], [last])
    yield from differs("cancels", actions.count("cancel"), int(case.waits))


def words(replies, fid):
    return [reply["st"].decode() for reply in replies if reply.get("fid") == fid]


def files(case, sent, replies):
    """Each item has one file command, under its name, and nothing else is sent or answered."""
    named = {command["n"].decode(): command for command in sent if command["ac"] == "file"}
    yield from differs("names", sorted(named), sorted(map(case.remote_name, case.items)))
    yield from differs("file commands", [command["ac"] for command in sent].count("file"), len(case.items))
    known = {command["fid"] for command in named.values()} | {None}
    yield from differs("files unknown to the client", {reply.get("fid") for reply in replies} - known, set())
    for item in case.items:
        command = named.get(case.remote_name(item))
        if command:
            yield from one_file(item, command, sent, replies)


def one_file(item, command, sent, replies):
    """The command's marks, the data sent, and the list of all replies for the file."""
    fid = command["fid"]
    marks = {key: command[key] for key in ("zip", "ft", "tt") if key in command}
    yield from differs(f"{item.path}: marks", marks, item.marks)
    parts = [c.get("d", b"") for c in sent if c.get("fid") == fid and c["ac"] in ("data", "end_data")]
    accepted = item.closes == "OK" and not item.is_directory()
    if b"".join(parts) != (item.content() if accepted else b""):
        yield f"{item.path}: the data sent is not the file's content"
    seen = [(reply["st"].decode(), reply.get("sz")) for reply in replies if reply.get("fid") == fid]
    yield from differs(f"{item.path}: replies", seen, wanted(item, parts[:-1]) if accepted else refused(item))


def wanted(item, before_last):
    """STARTED, a PROGRESS with the count so far for each part but the last, and one OK with the file's true size (zero: no sz)."""
    counts = [sum(map(len, before_last[:i + 1])) for i in range(len(before_last))]
    progress = [("PROGRESS", str(count)) for count in counts]
    return [("STARTED", None), *progress, ("OK", str(item.size) if item.size else None)]


def refused(item):
    """A directory's OK, the refusal alone, or nothing."""
    return [(item.closes, None)] if item.closes else []
