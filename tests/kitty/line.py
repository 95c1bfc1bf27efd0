"""The line: a client on a pseudo-terminal joined to a receiver on pipes, with a copy of what passes each way."""

import fcntl
import os
import pty
import select
import signal
import struct
import subprocess
import tempfile
import termios
import time
import tty

CTRL_C = b"\x03"


def start_client(argv, env, folder):
    """Runs argv with a raw terminal of 80 columns as its controlling terminal. Answers its pid and the terminal's other end."""
    pid, end = pty.fork()
    if pid == 0:
        tty.setraw(0)
        fcntl.ioctl(0, termios.TIOCSWINSZ, struct.pack("HHHH", 24, 80, 800, 480))
        os.chdir(folder)
        os.execvpe(argv[0], argv, env)
    os.set_blocking(end, False)
    return pid, end


def start_receiver(argv, errors):
    return subprocess.Popen(argv, stdin=subprocess.PIPE, stdout=subprocess.PIPE, stderr=errors, bufsize=0)


class Line:
    """Both ends, and both directions' bytes from the start; what is not yet passed on is what follows the place reached.
    `sender`: what is made of each piece that the client writes, before it counts as sent."""

    def __init__(self, terminal, receiver, sender):
        self.terminal, self.receiver, self.sender = terminal, receiver, sender
        self.sent, self.passed_on = bytearray(), 0
        self.replied, self.answered = bytearray(), 0
        self.last_command = None

    def pump(self, until, quiet=None):
        """Passes bytes on until the client hangs up (True), or the time is over or no command passed for `quiet` seconds (False)."""
        while time.monotonic() < until and not self.is_quiet(quiet):
            if not self.turn():
                return True
        return False

    def is_quiet(self, seconds):
        return bool(seconds and self.last_command) and time.monotonic() - self.last_command > seconds

    def turn(self):
        """One round of reading and writing. False when the client has hung up."""
        reads, writes, _ = select.select([self.terminal, self.receiver.stdout], self.waiting_to_write(), [], 0.1)
        if self.receiver.stdin in writes:
            self.to_receiver()
        if self.terminal in writes:
            self.answered += os.write(self.terminal, self.replied[self.answered:])
        if self.receiver.stdout in reads:
            self.from_receiver()
        return self.terminal not in reads or self.from_client()

    def waiting_to_write(self):
        ends = [self.receiver.stdin] if self.passed_on < len(self.sent) else []
        return ends + ([self.terminal] if self.answered < len(self.replied) else [])

    def to_receiver(self):
        """A piece that a pipe ready for writing takes at once. A receiver that has ended takes nothing: the rest is dropped."""
        try:
            self.passed_on += os.write(self.receiver.stdin.fileno(), self.sent[self.passed_on:self.passed_on + select.PIPE_BUF])
        except BrokenPipeError:
            self.passed_on = len(self.sent)

    def from_receiver(self):
        piece = os.read(self.receiver.stdout.fileno(), 65536)
        self.replied += piece
        if piece:
            self.last_command = time.monotonic()
        else:
            time.sleep(0.05)  # the receiver has ended: do not spin

    def from_client(self):
        """A terminal whose client has ended reads as an error."""
        try:
            piece = os.read(self.terminal, 65536)
        except OSError:
            return False
        self.sent += self.sender(piece)
        if b"\x1b]5113;" in piece:
            self.last_command = time.monotonic()
        return bool(piece)

    def press(self, key):
        os.write(self.terminal, key)

    def hang_up(self):
        """Gives the receiver what is left and the end of its input, and takes its last replies. Answers its exit status."""
        os.close(self.terminal)
        try:
            last, _ = self.receiver.communicate(bytes(self.sent[self.passed_on:]), timeout=10)
        except subprocess.TimeoutExpired:
            self.receiver.kill()
            last, _ = self.receiver.communicate()
        self.replied += last
        return self.receiver.returncode


def end_of(pid, until):
    """The client's exit status; None where it had to be killed."""
    while time.monotonic() < until:
        done, status = os.waitpid(pid, os.WNOHANG)
        if done:
            return os.waitstatus_to_exitcode(status)
        time.sleep(0.02)
    os.kill(pid, signal.SIGKILL)
    os.waitpid(pid, 0)
    return None


class Run:
    """One run of the client against the receiver, whole. `waited`: it sat still for `quiet` seconds and was sent ctrl-c. `lingered`: the
    seconds from the last command, of either, to its end."""

    def __init__(self, argv, env, folder, receiver, limit, quiet, sender=bytes):
        start, errors = time.monotonic(), tempfile.TemporaryFile()
        pid, terminal = start_client(argv, env, folder)
        line = Line(terminal, start_receiver(receiver, errors), sender)
        closed = line.pump(start + limit, quiet)
        self.waited = not closed
        if self.waited:
            line.press(CTRL_C)
            line.pump(time.monotonic() + 8)
        self.lingered = time.monotonic() - (line.last_command or start)
        self.status = end_of(pid, time.monotonic() + 1)
        self.receiver_status = line.hang_up()
        errors.seek(0)
        self.receiver_errors = errors.read()
        self.sent, self.replied = bytes(line.sent), bytes(line.replied)
        self.seconds = time.monotonic() - start
