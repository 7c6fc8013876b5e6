#!/usr/bin/env python3
"""Fixed checks of a command program at its edges: reads that fail, an output that is closed or full, a terminal, a pause, input that
goes on after `bad`, long input, and memory. What it must print is written down here; no model is asked.

usage: edges.py PROGRAM [ARGUMENT ..]"""

import os
import select
import signal
import socket
import sys
import time
import tty

import feeding
import streams

HEADING = b"overlay log\n"
NOWHERE = streams.command("6 1 65535,3")  # it prints `6 0 65535` on a chart that was not loaded
TRIANGLE = streams.command("1 U")
BAD = b"\x08"
MEGABYTE = 1 << 20
SIXTEEN_MEGABYTES = 1 << 24
MORE_MEMORY = 512  # kilobytes that a long input may add: pages of buffers that are touched late
SECONDS = feeding.SECONDS


# ---- reads that fail


def ends_with(words, source, wanted):
    """Runs on an open descriptor, or on none, and compares."""
    program = feeding.Program(words, SECONDS)
    done = program.ended(feeding.Child(words, source, program.sink, program.said))
    if (done.printed, done.status, done.said) != (wanted, 0, b""):
        return f"printed {done.printed[:80]}, status {done.status}, said {done.said[:80]} {done.fault}"
    return None


def folder(words):
    """a folder as input is empty input"""
    source = os.open("/", os.O_RDONLY | os.O_CLOEXEC)
    try:
        return ends_with(words, source, HEADING)
    finally:
        os.close(source)


def closed_input(words):
    """a closed input is empty input"""
    return ends_with(words, None, HEADING)


def broken_input(words):
    """a read that fails after some input ends it as the end of input does"""
    program = feeding.Program(words, SECONDS)
    near, far = socket.socketpair()
    # a peer that closes with something unread resets the connection
    far.send(b"unread")
    back, sink = os.pipe2(os.O_CLOEXEC)
    child = feeding.Child(words, far.fileno(), sink, program.said)
    os.close(sink)
    far.close()
    near.send(NOWHERE + b"\x03\x00")
    printed, wanted = b"", HEADING + b"6 0 65535\n"
    while len(printed) < len(wanted) and feeding.ready(back, select.POLLIN, SECONDS):
        part = os.read(back, 4096)
        if not part:
            break
        printed += part
    near.close()
    done = program.ended(child, printed=printed)
    printed += os.read(back, 4096)
    os.close(back)
    if (printed, done.status, done.said) != (wanted + b"bad 6\n", 0, b""):
        return f"printed {printed[:80]}, status {done.status}, said {done.said[:80]} {done.fault}"
    return None


# ---- an output that is closed


def closed_output(words, ignored=False):
    """a closed pipe ends it without a message, though its input is open"""
    program = feeding.Program(words, SECONDS)
    talk = feeding.Talk(words, program.said, SECONDS, ignore_closed_pipe=ignored)
    fault = talk.heard(5, "no heading before any input")
    os.close(talk.back)
    for _ in range(3):
        talk.say(NOWHERE)
        time.sleep(0.05)
    status = talk.child.end(SECONDS)
    talk.hush()
    said = program.held(program.said)
    if status is None or said:
        return f"said {said[:80]}" + f", no end within {SECONDS} seconds" * (status is None)
    return fault or None


def closed_output_unsignalled(words):
    """the same where the signal of a closed pipe is ignored"""
    return closed_output(words, ignored=True)


def full_output(words):
    """a write that fails ends it without a message, though its input is open"""
    program = feeding.Program(words, SECONDS)
    out, into = os.pipe2(os.O_CLOEXEC)
    sink = os.open("/dev/full", os.O_WRONLY | os.O_CLOEXEC)
    child = feeding.Child(words, out, sink, program.said)
    os.close(out)
    status, said = child.end(SECONDS), program.held(program.said)
    os.close(sink)
    os.close(into)
    if status is None or said:
        return f"said {said[:80]}" + f", no end within {SECONDS} seconds" * (status is None)
    return None


# ---- a terminal, and a pause


def terminal(words):
    """a terminal that brings single bytes gets each answer, and its end is the end of input"""
    program = feeding.Program(words, SECONDS)
    near, far = os.openpty()
    tty.setraw(far)
    child = feeding.Child(words, far, far, program.said)
    os.close(far)
    printed, wanted = b"", HEADING
    try:
        for given, line in ((b"", b""), (TRIANGLE, b""), (b"\x02\x00", b"2 0 7\n"), (NOWHERE, b"6 0 65535\n"), (b"\x07", b"7 0 0 7\n")):
            for k in range(len(given)):
                os.write(near, given[k : k + 1])
            wanted += line
            while len(printed) < len(wanted) and feeding.ready(near, select.POLLIN, SECONDS):
                printed += os.read(near, 4096)
            if printed != wanted:
                break
    except OSError:  # the program has ended
        pass
    os.close(near)
    done = program.ended(child, printed=printed)
    if (done.printed, done.status, done.said) != (wanted, 0, b""):
        return f"printed {printed[-80:]}, not {wanted[-80:]}, status {done.status}, said {done.said[:80]} {done.fault}"
    return None


def pause(words):
    """stopped and continued while it waits for input, it goes on"""
    program = feeding.Program(words, SECONDS)
    talk = feeding.Talk(words, program.said, SECONDS)
    fault = talk.heard(len(HEADING), "no heading before any input")
    for k in (signal.SIGSTOP, signal.SIGCONT):
        os.kill(talk.child.pid, k)
        os.waitid(os.P_PID, talk.child.pid, os.WSTOPPED | os.WCONTINUED | os.WEXITED | os.WNOWAIT)
    talk.say(NOWHERE)
    talk.hush()
    fault = fault or talk.rest()
    done = program.ended(talk.child, fault, talk.printed)
    talk.close()
    if (done.printed, done.status, done.said) != (HEADING + b"6 0 65535\n", 0, b""):
        return f"printed {done.printed[:80]}, status {done.status}, said {done.said[:80]} {done.fault}"
    return None


# ---- input that goes on


def open_input(words):
    """after `bad` it ends though its input is open"""
    for command in (BAD, streams.command("3 2 1,1")):
        program = feeding.Program(words, SECONDS)
        talk = feeding.Talk(words, program.said, SECONDS)
        talk.say(NOWHERE + command)
        fault = talk.rest()
        done = program.ended(talk.child, fault, talk.printed)
        talk.close()
        if (done.printed, done.status, done.said) != (HEADING + b"6 0 65535\nbad 6\n", 0, b""):
            return f"after {command.hex(' ')}: printed {done.printed[:80]}, status {done.status}, said {done.said[:80]} {done.fault}"
    return None


# ---- long input and memory


def long_input(words, command=NOWHERE, line=b"6 0 65535\n", least=MEGABYTE, silent=0):
    """an offset beyond a megabyte"""
    count = least // len(command) + 1
    done = feeding.Program(words, 60).run(command * count + BAD)
    wanted = HEADING + line * (count - silent) + b"bad %d\n" % (count * len(command))
    if done.printed != wanted or done.status or done.said:
        return f"the log ends with {done.printed[-40:]}, not {wanted[-40:]}; status {done.status}, said {done.said[:80]} {done.fault}"
    return None


def longest_input(words):
    """an offset beyond 16,777,216"""
    return long_input(words, command=TRIANGLE, line=b"1 4\n", least=SIXTEEN_MEGABYTES, silent=streams.MOST_WAITING)


def peak(pid):
    """The most memory that a process has had, in kilobytes."""
    with open(f"/proc/{pid}/status") as f:
        return next(int(l.split()[1]) for l in f if l.startswith("VmHWM"))


def memory(words):
    """a long input takes no more memory than a short one"""
    program = feeding.Program(words, SECONDS)
    talk = feeding.Talk(words, program.said, SECONDS)
    size, peaks, told = len(HEADING), [], 0
    for upto in (60000, MEGABYTE):
        while told < upto:
            talk.say(NOWHERE * 1000)
            told, size = told + 1000 * len(NOWHERE), size + 1000 * len(b"6 0 65535\n")
            fault = talk.heard(size, f"no answer to the commands before offset {told}")
            # one that prints more is told at once: its pipe would be full in time, and both would wait
            if fault or len(talk.printed) != size:
                talk.hush()
                program.ended(talk.child, "no answer")
                return fault or f"{len(talk.printed)} bytes printed for {told} of input, not {size}"
        peaks.append(peak(talk.child.pid))
    talk.hush()
    talk.rest()
    program.ended(talk.child)
    talk.close()
    if peaks[1] > peaks[0] + MORE_MEMORY:
        return f"{peaks[0]} kilobytes after 60,000 bytes of input, {peaks[1]} after a megabyte"
    return None


CHECKS = [folder, closed_input, broken_input, closed_output, closed_output_unsignalled, full_output, terminal, pause, open_input]
CHECKS += [long_input, longest_input, memory]


def faults(words):
    """What the checks find."""
    found = ((check.__doc__.split("\n")[0], check(words)) for check in CHECKS)
    return [f"fixed check: {name}: {fault}" for name, fault in found if fault]


def main():
    found = faults(sys.argv[1:])
    print("\n".join(found) if found else f"{len(CHECKS)} fixed checks pass")
    return 1 if found else 0


if __name__ == "__main__":
    sys.exit(main())
