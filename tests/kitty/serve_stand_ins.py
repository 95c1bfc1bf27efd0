"""The servers that are wrong in one way, each with a case, what the test must say of it, and whether the client sits still meanwhile."""

import serve_cases
from stand_ins import StandIn

RIGHT = (StandIn("nothing", "letters", ""), StandIn("end-apart", "five", ""))

ALL = (
    StandIn("lost-last-part", "size-1", "owners.csv: what arrived is not the file"),
    StandIn("lost-part", "two", "A.dat: what arrived is not the file"),
    StandIn("twice-a-part", "two", "A.dat: what arrived is not the file"),
    StandIn("changed-byte", "five", "1.dat: what arrived is not the file"),
    StandIn("swapped-parts", "size-4097", "owners.csv: what arrived is not the file"),
    StandIn("to-the-next-file", "two", "B.dat: what arrived is not the file"),
    StandIn("to-the-former-file", "two", "files answered, in turn"),
    StandIn("to-the-path", "two", "files answered, in turn"),
    StandIn("data-for-end", "two", "B.dat: parts", waits=True),
    StandIn("end-for-data", "two", "A.dat: what arrived is not the file"),
    StandIn("halved-parts", "two", "A.dat: the parts have [2048, 2048, 2048, 2048, 808] bytes"),
    StandIn("lost-end", "two", "B.dat: parts", waits=True),
    StandIn("error-for-end", "two", "A.dat: parts", waits=True),
    StandIn("other-name", "two", "opening", waits=True),
    StandIn("lists-twice", "two", "opening"),
    StandIn("other-mode", "two", "A.dat: mode"),
    StandIn("true-size", "two", "the client's commands", waits=True),
    StandIn("lost-answer", "two", "opening"),
    StandIn("lost-home", "two", "opening", waits=True),
    StandIn("denies", "two", "opening"),
    StandIn("allows-all", "denied", "names that arrived: ['A.dat'], not []"),
    StandIn("other-field-order", "two", "fields out of order"),
    StandIn("chatters", "two", "bytes between the frames"),
    StandIn("complains", "two", "the server's standard error"),
    StandIn("fails", "two", "the server's exit status"),
)


def case_of(stand_in):
    return next(case for case in serve_cases.ALL if case.name == stand_in.case)
