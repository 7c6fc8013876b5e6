"""The command line: which form of a paper is asked, what is run, and the exit status."""

import os
import sys
from collections import namedtuple

from . import VERSION, commands, counting, engine, files, forms, log, numbers, paper, stream
from .faults import FAILED, UNMET, WRONG, Fault, Faults, clean, listed, of_file, plural

VARIABLE = "CHARTKEY_ENGINE"
FORMS = ("--json", "--csv", "--log", "--bytes", "--from-bytes", "-q")
PLAIN = ("--help", "-h", "--version")
NO_BREAK = "\u00a0"  # a blank at which no line is broken
VERBS = {"check": (None, "--json"), "numbers": (None,)}  # and the forms that each has

# what is asked: a verb or None, a form or None, the paper or None for standard input, the program or None
Asked = namedtuple("Asked", "verb form name program")
# what comes of it: exit status, bytes for standard output, text for standard error
Outcome = namedtuple("Outcome", "status out err", defaults=(b"", ""))


class Usage(Exception):
    """A command line that cannot be understood."""


def help_text():
    """Within a screen; the lines of a paper come from the tables."""
    head = """usage: chartkey [OPTIONS] [PAPER]  the key of a paper (or of standard input)
       chartkey check [PAPER]      read it, tell its faults, run nothing
       chartkey numbers [N]        what the numbers mean, and what to do
  --json --csv --log --bytes       other forms of the answer
  --from-bytes                     PAPER is a stream of commands: print a paper
  -q                               only the key
  --engine PROGRAM                 another program than the proved one
  --version, --help
a paper has a command a line; # starts a comment; a point is x,y:"""
    written = [paper.LINES[word] for word in ("title", "id", "question")]
    written += [commands.form(row) for row in commands.COMMANDS if row.count == commands.WAITS] + [paper.LINES["triangles"]]
    written += [commands.form(row) for row in commands.COMMANDS if row.count != commands.WAITS]
    rows = ["".join(f"{text:24}" for text in written[k : k + 3]) for k in range(0, len(written), 3)]
    can = ", ".join(paper.answer_form(e).replace(" ", NO_BREAK) for e in commands.all_expectations())
    answers = "\n".join(forms.wrapped("    ", can.split(" "))).replace(NO_BREAK, " ")
    tail = f"""  expect ANSWER           of the command above: one of
{answers}
{"; ".join(map(paper.names_told, commands.all_names()))}
docs/PAPERS.md tells more
exit status: 0 well, 1 refused, 2 wrong paper, 3 expectation not met, 4 failure
"""
    return head + "".join(f"\n  {row.rstrip()}" for row in rows) + "\n" + tail


def asked(arguments):
    """What the command line asks."""
    verb, names, form, program, options = None, [], None, None, True
    left = iter(arguments)
    for word in left:
        if word == "--" and options:
            options = False
        elif options and word in VERBS and not verb and not names:
            verb = word
        elif not options or word == "-" or not word.startswith("-"):
            names.append(word)
        elif word == "--engine" or word.startswith("--engine="):
            program = word[9:] if "=" in word else next(left, None)
            if not program:
                raise Usage("--engine wants a program")
        elif word not in FORMS:
            raise Usage(f"unknown option {clean(word)}")
        elif form not in (None, word):
            raise Usage(f"{form} and {word} are two forms, and one can be had")
        else:
            form = word
    if "" in names:
        raise Usage("a name is empty")
    if len(names) > 1:
        raise Usage(f"one paper at a time: {clean(names[1])} is too much")
    if verb and form not in VERBS[verb]:
        raise Usage(f"`{verb}` has no form {form}")
    return Asked(verb, form, None if names in ([], ["-"]) else names[0], program)


def told_numbers(which):
    """The numbers in words."""
    rows = [row for row in numbers.NUMBERS if which is None or str(row.number) == which]
    if not rows:
        raise Usage(f"there is no number {clean(which)}; they are {commands.choice([str(row.number) for row in numbers.NUMBERS], 'and')}")
    lines = [line for row in rows for line in forms.number_lines(row)]
    return Outcome(0, "".join(line + "\n" for line in lines).encode())


def failed(ask, fault, status=FAILED, out=b""):
    """The outcome of one fault that is not the paper's."""
    if ask.form == "--json":
        return Outcome(status, forms.errors_json([fault], 1, status).encode())
    faults = Faults()
    faults.add(fault, status)
    return Outcome(status, out, listed(faults))


def from_bytes(ask, data, name):
    lines = []
    for line in stream.as_paper(data):
        lines.append(line + "\n")
        if len(lines) > paper.MOST_COMMANDS:
            return failed(ask, of_file(name, f"it has over {paper.MOST_COMMANDS} commands"), WRONG)
    return Outcome(0, "".join(lines).encode())


def checked(ask, read):
    """The outcome of `check` on a paper without faults."""
    if ask.form == "--json":
        return Outcome(0, forms.errors_json([], 0, 0).encode())
    said = f"{plural(len(read.calls), 'command')}, {plural(len(read.expected), 'expectation')}, no fault"
    return Outcome(0, f"{read.name}: {said}\n".encode())


def faulty(ask, read):
    """The outcome of a paper with faults."""
    faults = read.faults
    if ask.form == "--json":
        return Outcome(faults.status, forms.errors_json(faults.kept, faults.count, faults.status).encode())
    rest = "" if read.whole else ", the rest was not read"
    return Outcome(faults.status, b"", listed(faults, f"{plural(faults.count, 'error')}{rest}; nothing was run"))


def program_of(ask, here, environ):
    """The program's words, and its version where it is the project's own."""
    named = ask.program or environ.get(VARIABLE)
    if not named:
        return engine.found(here), VERSION
    try:
        return engine.split_words(named), None
    except ValueError as e:
        raise Usage(f"{clean(named)} is no program: {e}") from None


def ran(ask, read, here, environ):
    """The outcome of a paper that is run."""
    program, version = program_of(ask, here, environ)
    printed, trouble = engine.run(program, stream.to_bytes(read.calls))
    out = printed if ask.form == "--log" else b""
    if trouble:
        return failed(ask, of_file(program[0], trouble), out=out)
    try:
        answers = forms.Answers(read, *counting.settled(program, read.calls, printed))
    except log.Misfit as e:
        return failed(ask, Fault("log", e.line, 1, len(e.text), f"{e.message} ({read.name})", e.text), out=out)
    except counting.Untold as e:
        return failed(ask, of_file(program[0], f"asked how many triangles came by an insert: {e}"), out=out)
    if ask.form == "--json":
        return Outcome(answers.status, forms.answers_json(answers, version).encode())
    form = {"--csv": forms.csv, "-q": forms.only_key}.get(ask.form, forms.people)
    return Outcome(answers.status, out or form(answers).encode(), complaints(answers, ask.form is not None))


def complaints(answers, refusals):
    """What was not as the paper says: expectations, and refusals where the form does not show them."""
    faults = Faults()
    for step in answers.unexpected if refusals else []:
        text = commands.written(step.call.row, step.call.values)
        message = f"refused {step.number}: {forms.meaning(step)}"
        faults.add(Fault(answers.paper.name, step.call.line, 1, len(text), message, text, numbers.row_of(step.number).todo))
    for expected, found in answers.unmet:
        place = expected.place
        message = f"expected {expected.text}, found {found}"
        faults.add(Fault(place.file, place.number, expected.column, expected.length, message, place.text), UNMET)
    return listed(faults)


def outcome(arguments, here, stdin, environ):
    """What comes of a command line."""
    if any(word in PLAIN for word in arguments):
        return Outcome(0, f"chartkey {VERSION}\n".encode() if "--version" in arguments else help_text().encode())
    ask = Asked(None, "--json" if "--json" in arguments else None, None, None)
    try:
        ask = asked(arguments)
        if ask.verb == "numbers":
            return told_numbers(ask.name)
        name = "standard input" if ask.name is None else clean(ask.name)
        if ask.name is None and stdin and stdin.isatty():
            tell("chartkey: reads from the terminal; Ctrl-D ends it, and chartkey --help tells more\n")
        data = files.read(ask.name, stdin)
        if ask.form == "--from-bytes":
            return from_bytes(ask, data, name)
        read = paper.read(data, name, ask.name)
        if read.faults.count:
            return faulty(ask, read)
        if ask.verb == "check":
            return checked(ask, read)
        return Outcome(0, stream.to_bytes(read.calls)) if ask.form == "--bytes" else ran(ask, read, here, environ)
    except Usage as e:
        return failed(ask, of_file("chartkey", str(e), "chartkey --help"), WRONG)
    except files.Unreadable as e:
        return failed(ask, of_file(name, str(e)))
    except engine.Failure as e:
        return failed(ask, of_file("chartkey", str(e)))


def main(arguments, here):
    """Runs a command line on the standard streams; its exit status."""
    try:
        come = outcome(arguments, here, sys.stdin and sys.stdin.buffer, os.environ)
        status = write(come.out, come.status)
        tell(come.err)
        return status
    except KeyboardInterrupt:
        return 130
    except MemoryError:
        tell("chartkey: error: there is not enough memory\n")
        return FAILED


def tell(text):
    """Text to standard error, where that is open."""
    try:
        if text and sys.stderr:
            sys.stderr.buffer.write(text.encode("utf-8", "replace"))
            sys.stderr.flush()
    except OSError:
        pass


def write(out, status):
    """Bytes to standard output. A closed pipe ends it quietly."""
    try:
        if out and not sys.stdout:
            raise OSError(0, "it is closed")
        if out:
            sys.stdout.buffer.write(out)
            sys.stdout.flush()
        return status
    except BrokenPipeError:
        shut()
        return status
    except OSError as e:
        shut()
        tell(f"chartkey: error: cannot write to standard output: {e.strerror}\n")
        return FAILED


def shut():
    """Nothing more is written at the end of the run."""
    if sys.stdout:
        os.dup2(os.open(os.devnull, os.O_WRONLY), sys.stdout.fileno())
