"""The stand-ins, each with a case of the test, what the test must say of it, and what the client does meanwhile."""

import pathlib
from typing import NamedTuple

import cases
import edits

PROGRAM = pathlib.Path(__file__).resolve().parent / "stand_in"


class StandIn(NamedTuple):
    """`told`: a part of a complaint that must come; empty where none may. `status`, `waits`: the client's end, and whether
    it sat still before. `sends`: the edit is of what the client sends, not of the replies."""
    way: str
    case: str
    told: str
    status: int = 0
    waits: bool = False
    sends: bool = False

    def receiver(self, program):
        return [program] if self.sends else [PROGRAM, self.way, program]

    def sender(self):
        return edits.Editor(self.way).edited if self.sends else bytes

    def wrong(self, run, complaints):
        """What is not as it must be, in words."""
        if not self.told and complaints:
            yield "told: " + "; ".join(complaints)
        if self.told and not any(self.told in complaint for complaint in complaints):
            yield f"not told, but: {'; '.join(complaints) or 'nothing'}"
        if (run.status, run.waited) != (self.status, self.waits):
            yield f"the client's exit status {run.status}, sat still {run.waited}, not {self.status}, {self.waits}"


NONE = StandIn("nothing", "letters", "")

ALL = (
    StandIn("wrong-size", "letters", "A.gz: replies"),
    StandIn("no-size", "letters", "B.gz: replies"),
    StandIn("second-ok", "letters", "A.gz: replies"),
    StandIn("no-progress", "mirror-parts", "A.gz: replies"),
    StandIn("lost-answer", "home", "the session's replies", 1, True),
    StandIn("lost-started", "home", "A: replies", 1, True),
    StandIn("lost-ok", "home", "A: replies", 1, True),
    StandIn("denies", "home", "the session's replies", 1),
    StandIn("first-file-fails", "mirror-three", "A: replies", 1),
    StandIn("every-file-fails", "mirror-three", "A: replies", 1, True),
    StandIn("other-session", "home", "sessions"),
    StandIn("other-file", "home", "files unknown to the client"),
    StandIn("chatters", "home", "bytes between the replies"),
    StandIn("complains", "home", "the receiver's standard error"),
    StandIn("fails", "home", "the receiver's exit status"),
    StandIn("changed-byte", "home", "A: the data sent is not the file's content", sends=True),
    StandIn("lost-part", "mirror-parts", "A.gz: the data sent is not the file's content", sends=True),
    StandIn("twice-a-part", "mirror-parts", "A.gz: the data sent is not the file's content", sends=True),
)


def case_of(stand_in):
    return next(case for case in cases.ALL if case.name == stand_in.case)
