"""The client receives, and `serve` is the program under test: the mode `serve` of tests/kitty/run."""

import os
import shutil
import time

import line
import serve_cases
import serve_checks
import serve_stand_ins
from saying import missing, tell

LIMIT, QUIET, PATIENCE, WHOLE = 30, 3, 8, 90  # seconds: for a client; before ctrl-c, where it must sit still and elsewhere; for the mode


class Ahead:
    """Puts bytes before the first piece that the client writes."""

    def __init__(self, first):
        self.first = first

    def __call__(self, piece):
        first, self.first = self.first, b""
        return first + piece


class Mode:
    """One run of the mode: the program under test, and the folder where each case has its own with `from`, `to` and the client's home."""

    def __init__(self, server, out):
        self.server, self.out = server, out

    def run_case(self, case, server, quiet):
        """Makes the files, runs the client, keeps both directions and the server's diagnostics, and answers the run."""
        folder = self.folder(case)
        for part in ("from", "home"):
            (folder / part).mkdir(parents=True)
        for item in case.items:
            item.make(folder)
        env = {"PATH": os.environ["PATH"], "HOME": str(folder / "home"), "TERM": "xterm-kitty", "LANG": "C.UTF-8"}
        argv = ["kitty", "+kitten", "transfer", *case.call(folder)]
        run = line.Run(argv, env, folder, server, LIMIT, quiet, Ahead(case.ahead(folder)))
        for suffix, kept in (("rec", run.sent), ("replies", run.replied), ("errors", run.receiver_errors)):
            (folder / f"line.{suffix}").write_bytes(kept)
        return run

    def folder(self, case):
        return self.out / case.name

    def try_case(self, case):
        folder = self.folder(case)
        shutil.rmtree(folder, ignore_errors=True)
        run = self.run_case(case, [self.server, *case.arguments(folder)], QUIET if case.end.waits else PATIENCE)
        paths, commands, replies = len(case.asked()), run.sent.count(b"\x1b]5113;"), run.replied.count(b"\x1b]5113;")
        figures = f"paths {paths}, commands {commands}, frames back {replies}, exit status {run.status}, {run.seconds:.1f} s"
        return tell(case.name, serve_checks.all_of(case, folder, run), figures)

    def try_stand_in(self, one):
        """Runs one stand-in and says what the test told of it. Answers whether all was as it must be."""
        case = serve_stand_ins.case_of(one)
        folder = self.folder(case)
        shutil.rmtree(folder, ignore_errors=True)
        given = case.paths(folder) if one.way == "allows-all" else case.arguments(folder)
        run = self.run_case(case, [*one.receiver(self.server), *given], QUIET)
        complaints = serve_checks.all_of(case, folder, run)
        wrong = list(one.wrong(run, complaints))
        conduct = f"client: {run.seconds:.1f} s, exit status {run.status}{', sat still' if run.waited else ''}"
        word = "NOT " if wrong else "told" if complaints else "well"
        said = "; ".join(wrong) or next((complaint for complaint in complaints if one.told in complaint), "nothing is told")
        print(f"{word}  {one.way}: {said[:110]}; {conduct}", flush=True)
        return not wrong

    def try_stand_ins(self, chosen):
        """Those that are right come first: where one is told, what is told of the others says nothing."""
        if not all([self.try_stand_in(one) for one in serve_stand_ins.RIGHT]):
            return False
        results = [self.try_stand_in(one) for one in chosen]
        print(f"{results.count(True)} of {len(results)} stand-ins told")
        return all(results)

    def try_cases(self, chosen):
        results, until = [], time.monotonic() + WHOLE
        for case in chosen:
            in_time = time.monotonic() < until
            results.append(self.try_case(case) if in_time else tell(case.name, ["not run: the time is over"], ""))
        print(f"{results.count(True)} well, {results.count(False)} not")
        return all(results)


def choose(known, names, what):
    """Those of these names, or all; a name that is none of them must not pass as a run with nothing wrong."""
    if not known.keys() >= set(names):
        missing(f"no such {what}; there are: " + " ".join(known))
    return [known[name] for name in dict.fromkeys(names)] or list(known.values())


def chosen(names):
    """What the mode's arguments ask for: whether stand-ins, and which of them or of the cases."""
    if names[:1] == ["stand-ins"]:
        return True, choose({one.way: one for one in serve_stand_ins.ALL}, names[1:], "stand-in")
    return False, choose({case.name: case for case in serve_cases.ALL}, names, "case")
