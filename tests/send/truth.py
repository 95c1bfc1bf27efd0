"""What must hold of a run: each check yields a complaint for each thing that does not."""

import wire


def all_of(case, run):
    sent, replies = wire.commands(run.sent), wire.commands(run.replied)
    yield from differs("exit status", run.status, 0)
    yield from differs("bytes between the commands", wire.between(run.sent), b"")
    yield from differs("lines", run.lines, list(case.says))
    yield from order(case, sent, replies)
    true = {file.local for file in case.files if is_whole(case, run, file, sent, replies)}
    yield from differs("whole", {line.split(" ", 2)[2] for line in run.lines if line.startswith("whole ")}, true)
    yield from differs("the last line", run.lines[-1:], [f"{len(true)} of {len(case.files)} files whole"])
    if case.terminal:
        yield from shown(case, run)
    if case.arrives:
        yield from arrived(case, run)


def differs(what, seen, wanted):
    if seen != wanted:
        yield f"{what}: {seen!r}, not {wanted!r}"


def order(case, sent, replies):
    """Only send is written before the session's OK, then file after file, and finish exactly where that is said."""
    actions = [command["ac"] for command in sent]
    yield from differs("send", actions[:1], ["send"] if actions else [])
    if not any(reply["st"] == b"OK" and "fid" not in reply for reply in replies):
        yield from differs("written without an OK", actions[1:], [])
    yield from differs("finish", actions.count("finish"), int(any(line.startswith("finish written") for line in case.says)))
    fids = [command["fid"] for command in sent if command["ac"] == "file"]
    yield from differs("file ids", fids, [str(i + 1) for i in range(len(fids))])
    pieces = [(command["fid"], len(command.get("d", b""))) for command in sent if "d" in command]
    yield from differs("pieces over 4,096", [size for _, size in pieces if size > 4096], [])


def is_whole(case, run, file, sent, replies):
    """By the copies of both directions."""
    name = (file.name or str(run.arrived(file))).encode()
    fids = [command["fid"] for command in sent if command.get("n") == name]
    if len(fids) != 1:
        return False
    own = [command for command in sent if command.get("fid") == fids[0]]
    content = b"".join(command.get("d", b"") for command in own)
    closed = any(r.get("fid") == fids[0] and r["st"] == b"OK" and r.get("sz", "0") == str(len(content)) for r in replies)
    return closed and own[-1]["ac"] == "end_data" and content == file.content()


def shown(case, run):
    """Each file with pieces is shown while it is sent, in one line that is written over."""
    for file in case.files:
        yield from differs(f"{file.local} is shown", f"\r\x1b[Ksending 0 of {file.size} {file.local}".encode() in run.said, True)


def arrived(case, run):
    for file in case.files:
        yield from differs(f"{file.local} arrived", run.arrived(file).read_bytes() == file.content(), True)
