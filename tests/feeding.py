"""Runs a command program on a stream that is fed to it in one of four ways, and tells what it did.

whole    its input is a file
bytes    a pipe that hands over one byte at each read
pieces   a pipe: the next few bytes come when the program has read those before
answers  a pipe: the next command comes when the program has answered the one before; the heading comes first of all

A program is started once for each stream. Its process is its own group, so that Ctrl-C ends the caller alone."""

import collections
import fcntl
import os
import select
import shutil
import signal
import struct
import sys
import termios
import time

import streams

WAYS = ["whole", "bytes", "pieces", "answers"]
SECONDS = 60  # in which a program must end, and answer: far more than it takes on a busy machine
PIECES = 12
# what it printed, its status, what it said on standard error, and what else went wrong
Done = collections.namedtuple("Done", "printed status said fault")


def ready(fd, what, seconds):
    """Whether a descriptor can be read or written, or is at its end, within that time."""
    poll = select.poll()
    poll.register(fd, what)
    return bool(poll.poll(1000 * seconds))


def unread(fd):
    """How many bytes wait in a pipe."""
    return struct.unpack("i", fcntl.ioctl(fd, termios.FIONREAD, b"\0" * 4))[0]


class Child:
    """A started program; its standard error goes to a file."""

    def __init__(self, words, source, sink, said, ignore_closed_pipe=False):
        places = [(os.POSIX_SPAWN_DUP2, fd, k) for k, fd in enumerate((source, sink, said)) if fd is not None]
        places += [(os.POSIX_SPAWN_CLOSE, 0)] * (source is None)
        reset = [] if ignore_closed_pipe else [signal.SIGPIPE]
        self.pid = os.posix_spawnp(words[0], words, os.environ, file_actions=places, setpgroup=0, setsigdef=reset)

    def end(self, seconds):
        """Its status, or nothing when it had to be killed."""
        handle = os.pidfd_open(self.pid)
        try:
            late = not ready(handle, select.POLLIN, seconds)
            if late:
                os.kill(self.pid, signal.SIGKILL)
            status = os.waitpid(self.pid, 0)[1]
            return None if late else os.waitstatus_to_exitcode(status)
        finally:
            os.close(handle)


class Program:
    """A command program, and the files that its streams, logs and messages stand in."""

    def __init__(self, words, seconds=SECONDS):
        if not shutil.which(words[0]):
            sys.exit(f"{words[0]} is not there; `make run` builds the command program, `make model` the reference model")
        self.words, self.seconds = words, seconds
        self.source, self.sink, self.said = (os.memfd_create(name) for name in ("input", "output", "said"))

    def run(self, stream, way="whole", log=None, rng=None):
        for fd in (self.source, self.sink, self.said):
            os.ftruncate(fd, 0)
            os.lseek(fd, 0, os.SEEK_SET)
        return {"whole": self.whole, "bytes": self.bytes, "pieces": self.pieces, "answers": self.answers}[way](stream, log, rng)

    def ended(self, child, fault="", printed=None):
        status = child.end(0.05 if fault else self.seconds)
        if status is None and not fault:
            fault = f"no end within {self.seconds} seconds"
        return Done(self.held(self.sink) if printed is None else printed, status, self.held(self.said), fault)

    @staticmethod
    def held(fd):
        return os.pread(fd, os.fstat(fd).st_size, 0)

    def whole(self, stream, _log, _rng):
        os.pwrite(self.source, stream, 0)
        return self.ended(Child(self.words, self.source, self.sink, self.said))

    def bytes(self, stream, _log, _rng):
        # a pipe in packet mode hands over one write at each read
        out, into = os.pipe2(os.O_CLOEXEC | os.O_DIRECT)
        child = Child(self.words, out, self.sink, self.said)
        os.close(out)
        fault = self.fed(into, (stream[k : k + 1] for k in range(len(stream))))
        os.close(into)
        return self.ended(child, fault)

    def fed(self, into, parts, before=lambda: True):
        """Writes the parts; what went wrong. A program that has ended reads no more."""
        os.set_blocking(into, False)
        for k, part in enumerate(parts):
            while part:
                try:
                    part = part[os.write(into, part) :]
                except BrokenPipeError:
                    return ""
                except BlockingIOError:
                    if not ready(into, select.POLLOUT, self.seconds):
                        return f"part {k} of the input not read within {self.seconds} seconds"
            if not before():
                return f"part {k} of the input not read within {self.seconds} seconds"
        return ""

    def pieces(self, stream, _log, rng):
        out, into = os.pipe2(os.O_CLOEXEC)
        child = Child(self.words, out, self.sink, self.said)

        def read_away():
            stop = time.monotonic() + self.seconds
            while unread(out):
                # a program that ends at a bad command leaves the rest
                if os.waitid(os.P_PID, child.pid, os.WEXITED | os.WNOHANG | os.WNOWAIT):
                    return True
                if time.monotonic() > stop:
                    return False
                time.sleep(0)
            return True

        most = max(2, 2 * len(stream) // PIECES)
        cuts = [0]
        while cuts[-1] < len(stream):
            cuts.append(min(len(stream), cuts[-1] + rng.randint(1, most)))
        fault = self.fed(into, (stream[a:b] for a, b in zip(cuts, cuts[1:])), read_away)
        os.close(into)
        os.close(out)
        return self.ended(child, fault)

    def answers(self, stream, log, _rng):
        talk = Talk(self.words, self.said, self.seconds)
        fault = talk.heard(streams.line_end(log, 0), "no heading before any input")
        at = 0
        for step in () if fault else streams.steps(stream, log):
            talk.say(stream[at : step.end])
            if step.end > len(stream):
                talk.hush()
            fault = talk.heard(step.shown, f"no answer to the command at offset {at}")
            at = step.end
            if fault:
                break
        # a bad command ends the program though its input is open
        ended_itself = log.rsplit(b"\n", 2)[-2].startswith(b"bad")
        if not ended_itself:
            talk.hush()
        fault = fault or talk.rest()
        done = self.ended(talk.child, fault, talk.printed)
        talk.close()
        return done


class Talk:
    """A program at the other end of two pipes."""

    def __init__(self, words, said, seconds, **more):
        out, self.into = os.pipe2(os.O_CLOEXEC)
        self.back, sink = os.pipe2(os.O_CLOEXEC)
        self.child = Child(words, out, sink, said, **more)
        os.close(out)
        os.close(sink)
        self.printed, self.seconds = b"", seconds

    def say(self, data):
        try:
            os.write(self.into, data)
        except BrokenPipeError:
            pass

    def hush(self):
        """Ends the program's input."""
        if self.into is not None:
            os.close(self.into)
            self.into = None

    def heard(self, size, missing):
        """Reads until so much has been printed; what is missing, if it is."""
        while len(self.printed) < size:
            if not ready(self.back, select.POLLIN, self.seconds):
                return f"{missing} within {self.seconds} seconds"
            part = os.read(self.back, 1 << 16)
            if not part:
                return ""
            self.printed += part
        return ""

    def rest(self):
        """Reads to the end of what is printed; what went wrong."""
        stop = time.monotonic() + self.seconds
        while time.monotonic() < stop and ready(self.back, select.POLLIN, self.seconds):
            part = os.read(self.back, 1 << 16)
            if not part:
                return ""
            self.printed += part
        return f"no end within {self.seconds} seconds"

    def close(self):
        self.hush()
        os.close(self.back)
