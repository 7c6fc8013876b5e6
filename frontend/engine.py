"""The proved program: where it is found, and how it is run on a stream."""

import os
import shlex
import signal
import subprocess
import threading

MOST_LOG = 32 * 2**20
MOST_SAID = 200  # bytes of what it says on standard error
PLACES = ("overlay_log", os.path.join("target", "bin", "overlay_log"))


class Failure(Exception):
    """The program cannot be run, or did not end well."""


def split_words(text):
    """A program and its arguments. The name of a file is taken whole, blanks too, and before a command of the PATH."""
    words = [os.path.abspath(text)] if os.path.isfile(text) else shlex.split(text)
    if not words:
        raise ValueError("no program")
    return words


def found(here):
    """The program beside the script, or where `make run` leaves it."""
    for place in PLACES:
        path = os.path.join(here, place)
        if os.path.isfile(path):
            return [path]
    raise Failure("the proved program is not built; `make run` builds it")


def run(program, stream):
    """What the program prints on a stream; and why that cannot be taken, or None."""
    pipes = dict.fromkeys(("stdin", "stdout", "stderr"), subprocess.PIPE)
    try:
        process = subprocess.Popen(program, **pipes)
    except (OSError, ValueError) as e:
        raise Failure(f"cannot run {program[0]}: {getattr(e, 'strerror', None) or e}") from None
    said, started = [], []
    try:
        for work, given in ((feed, (process.stdin, stream)), (hear, (process.stderr, said))):
            thread = threading.Thread(target=work, args=given, daemon=True)
            thread.start()
            started.append(thread)
        log = process.stdout.read(MOST_LOG + 1)
        if len(log) > MOST_LOG:
            process.kill()
    except BaseException as e:
        process.kill()
        if isinstance(e, RuntimeError):  # no thread can be started
            raise Failure(f"cannot run {program[0]}: {e}") from None
        raise
    finally:
        process.stdout.close()
        process.wait()
        for thread in started:
            thread.join()
    return log, trouble(process.returncode, said[0], len(log))


def feed(pipe, stream):
    """Writes the stream. A program that does not read it to its end tells so by its log."""
    try:
        with pipe:
            pipe.write(stream)
    except OSError:
        pass


def hear(pipe, said):
    """Reads what the program says on standard error to its end; the first of it is kept."""
    with pipe:
        said.append(pipe.read(MOST_SAID))
        while pipe.read(1 << 16):
            pass


def trouble(status, said, length):
    """Why a run did not end well, or None."""
    if length > MOST_LOG:
        return f"the log is longer than {MOST_LOG} bytes"
    words = f"; it said: {' '.join(said.decode('utf-8', 'replace').split())}" if said else ""
    if status < 0:
        try:
            name = signal.Signals(-status).name
        except ValueError:
            name = "unknown"
        return f"the program was ended by signal {-status} ({name}){words}"
    if status:
        return f"the program ended with status {status}{words}"
    return f"the program wrote to standard error{words}" if said else None
