"""One run of send_files and a console, joined by pipes."""

import os
import re
import subprocess
import time

LIMIT = 20


def start(argv, taken, given, **more):
    return subprocess.Popen(argv, stdin=taken, stdout=given, **more)


class Run:
    """send_files, tee, the console and tee again, each writing to the next, and the last to the first. Afterwards: its exit status,
    the lines that it said, what was written each way."""

    def __init__(self, sender, case, folder, limit=LIMIT):
        self.folder, self.others, began = folder, [], time.monotonic()
        words = [word for file in case.files for word in (self.made(file), file.name or str(self.arrived(file)))]
        ends = [os.pipe() for _ in range(4)]
        said = os.openpty() if case.terminal else (None, os.open(self.copy("said"), os.O_RDWR | os.O_CREAT))
        chain = [
            start([*sender, case.session, *words], ends[3][0], ends[0][1], stderr=said[1], cwd=folder),
            start(["tee", self.copy("sent")], ends[0][0], ends[1][1], stderr=subprocess.DEVNULL),
            start(case.console, ends[1][0], ends[2][1], stderr=subprocess.DEVNULL),
            start(["tee", self.copy("replied")], ends[2][0], ends[3][1], stderr=subprocess.DEVNULL),
        ]
        for end in [end for pair in ends for end in pair] + [said[1]]:
            os.close(end)
        self.status = self.end_of(chain, began + limit)
        self.said = all_of(said[0]) if case.terminal else self.kept("said")
        self.sent, self.replied = self.kept("sent"), self.kept("replied")
        self.lines = [left(line) for line in self.said.decode().split("\n")[:-1]]
        self.seconds = time.monotonic() - began

    def made(self, file):
        """Makes one file, and answers its path."""
        path = self.folder / file.local
        if file.kind == "file":
            path.write_bytes(file.content())
        elif file.kind == "folder":
            path.mkdir()
        elif file.kind == "pipe":
            os.mkfifo(path)
            writer = start(["sh", "-c", f"cat > '{path}'"], subprocess.PIPE, None)
            writer.stdin.write(file.content())
            writer.stdin.close()
            self.others.append(writer)
        elif file.kind == "page":
            self.others.append(start(["sleep", "1"], None, None))
            return f"/proc/{self.others[-1].pid}/smaps"
        return file.local

    def arrived(self, file):
        return self.folder / "arrived" / file.local

    def copy(self, name):
        return f"{self.folder}.{name}"

    def kept(self, name):
        with open(self.copy(name), "rb") as copy:
            return copy.read()

    def end_of(self, chain, until):
        """The sender's exit status; None where it had to be killed. A process whose page is sent is gone once it is waited for."""
        while chain[0].poll() is None and time.monotonic() < until:
            for other in self.others:
                other.poll()
            time.sleep(0.01)
        status = chain[0].poll()
        for process in chain + self.others:
            if status is None:
                process.kill()
            process.wait()
        return status


def left(line):
    """What is left of a line after what a terminal wrote over, with PAGE for the path of a process."""
    return re.sub(r"/proc/\d+/smaps", "PAGE", line.rstrip("\r").rpartition("\x1b[K")[2])


def all_of(terminal):
    """What a terminal was written whose program has ended: it then reads as an error."""
    pieces = []
    try:
        while piece := os.read(terminal, 65536):
            pieces.append(piece)
    except OSError:
        pass
    return b"".join(pieces)
