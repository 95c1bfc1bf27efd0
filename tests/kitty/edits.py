"""The ways in which a stand-in is wrong: what becomes of each frame that passes."""

import re
import sys

import wire

OPENER = b"\x1b]5113;"
WAYS = {}


def way(function):
    """Makes a function a way: from the fields of a frame to what is passed on for it, fields or bytes."""
    WAYS[function.__name__.replace("_", "-")] = function
    return function


class Editor:
    """Edits the frames of a stream that comes in pieces; a frame is held back until it is whole. Other bytes pass as they are."""

    def __init__(self, way):
        self.way, self.held = WAYS[way], b""

    def edited(self, piece):
        data = self.held + piece
        place = unfinished(data)
        self.held = data[place:]
        return wire.FRAME.sub(self.replaced, data[:place])

    def replaced(self, frame):
        return b"".join(part if isinstance(part, bytes) else wire.frame(part) for part in self.way(wire.fields(frame[1])))


def unfinished(data):
    """Where a frame begins that is not yet whole: its opener, or a part of one, at the end. The end if there is none."""
    start = data.rfind(OPENER)
    if start >= 0 and b"\x1b\\" not in data[start:]:
        return start
    return re.search(rb"(\x1b(\](5(1(1(3)?)?)?)?)?)?\Z", data).start()


def end(way, status):
    """How the stand-in ends, if the receiver ended with this status."""
    if way == "complains":
        print("something is odd", file=sys.stderr)
    return 3 if way == "fails" else status


def about(reply, word, of_file=True):
    return reply.get("st") == word and ("fid" in reply) == of_file


# The receiver's replies.

@way
def nothing(reply):
    return [reply]


WAYS["complains"] = WAYS["fails"] = nothing


@way
def wrong_size(reply):
    """The count that closes a file is one too many."""
    return [{**reply, "sz": str(int(reply.get("sz", 0)) + 1)} if about(reply, b"OK") else reply]


@way
def no_size(reply):
    return [{key: value for key, value in reply.items() if key != "sz"} if about(reply, b"OK") else reply]


@way
def second_ok(reply):
    return [reply, reply] if about(reply, b"OK") else [reply]


@way
def no_progress(reply):
    return [] if about(reply, b"PROGRESS") else [reply]


@way
def lost_answer(reply):
    """The OK to the session's send is lost."""
    return [] if about(reply, b"OK", of_file=False) else [reply]


@way
def lost_started(reply):
    return [] if about(reply, b"STARTED") else [reply]


@way
def lost_ok(reply):
    """A file's last OK is lost."""
    return [] if about(reply, b"OK") else [reply]


@way
def denies(reply):
    """EPERM to the session's send."""
    return [{**reply, "st": b"EPERM"} if about(reply, b"OK", of_file=False) else reply]


@way
def first_file_fails(reply):
    """EIO to the open of the first file; the client numbers its files from 1."""
    return [{**reply, "st": b"EIO"} if about(reply, b"STARTED") and reply["fid"] == "1" else reply]


@way
def every_file_fails(reply):
    return [{**reply, "st": b"EIO"} if about(reply, b"STARTED") else reply]


@way
def other_session(reply):
    """A reply more, of a session that the client does not have."""
    return [reply, {**reply, "id": "other"}] if about(reply, b"OK") else [reply]


@way
def other_file(reply):
    """A reply more, of a file that the client does not have."""
    return [reply, {**reply, "fid": "other"}] if about(reply, b"OK") else [reply]


@way
def chatters(reply):
    """Bytes that are no reply."""
    return [reply, b"\r\n"]


# The sender's commands.

@way
def changed_byte(command):
    """The first byte of each part is another one."""
    part = command.get("d")
    return [{**command, "d": bytes([part[0] ^ 1]) + part[1:]} if part else command]


@way
def lost_part(command):
    return [] if command["ac"] == "data" else [command]


@way
def twice_a_part(command):
    return [command, command] if command["ac"] == "data" else [command]


# The server's listing and parts.

WAYS["allows-all"] = nothing
KEPT = []


def last_part(reply):
    return reply["ac"] == "end_data"


@way
def lost_last_part(reply):
    """The end comes, without its bytes."""
    return [{key: value for key, value in reply.items() if key != "d"} if last_part(reply) else reply]


@way
def lost_end(reply):
    return [] if last_part(reply) else [reply]


@way
def data_for_end(reply):
    return [{**reply, "ac": "data"} if last_part(reply) else reply]


@way
def end_for_data(reply):
    """Each part is an end."""
    return [{**reply, "ac": "end_data"} if reply["ac"] == "data" else reply]


@way
def halved_parts(reply):
    """Each part but the last as two."""
    half = len(reply.get("d", b"")) // 2
    return [{**reply, "d": reply["d"][:half]}, {**reply, "d": reply["d"][half:]}] if reply["ac"] == "data" else [reply]


@way
def end_apart(reply):
    """The last part as data, and then an end with no bytes: this is not wrong."""
    return [{**reply, "ac": "data"}, {key: value for key, value in reply.items() if key != "d"}] if last_part(reply) else [reply]


@way
def swapped_parts(reply):
    """Each part but the last changes places with the one after it."""
    if reply["ac"] == "data" and not KEPT:
        KEPT.append(reply["d"])
        return []
    return [{**reply, "ac": "data"}, {**reply, "d": KEPT.pop()}] if KEPT else [reply]


def to_file(reply, of, to):
    return [{**reply, "fid": to} if reply["ac"] == "data" and reply["fid"] == of else reply]


@way
def to_the_next_file(reply):
    """The first file's parts, but the last, under the second one's id."""
    return to_file(reply, "1", "2")


@way
def to_the_former_file(reply):
    return to_file(reply, "2", "1")


@way
def to_the_path(reply):
    """Parts under the id that the path had: one less than the request's."""
    return [{**reply, "fid": str(int(reply["fid"]) - 1)} if "d" in reply else reply]


@way
def other_field_order(reply):
    return [dict(reversed(reply.items()))]


@way
def other_name(reply):
    """The listing names another file than the one that is there."""
    return [{**reply, "n": reply["n"] + b"x"} if reply["ac"] == "file" else reply]


@way
def lists_twice(reply):
    return [reply, reply] if reply["ac"] == "file" else [reply]


@way
def other_mode(reply):
    return [{**reply, "prm": "438"} if reply["ac"] == "file" else reply]


@way
def true_size(reply):
    """The listing tells the size of a file over 4,096 bytes too (as of the file of 9,000)."""
    return [{**reply, "sz": "9000"} if reply["ac"] == "file" else reply]


@way
def lost_home(reply):
    return [] if "n" in reply and about(reply, b"OK", of_file=False) else [reply]


@way
def error_for_end(reply):
    """A read error at the last part."""
    return [{"ac": "status", "id": reply["id"], "fid": reply["fid"], "st": b"EIO"} if last_part(reply) else reply]
