"""How many triangles a chart has after an insert. The log does not tell whether one came or two, so the program is asked.

A flip of a triangle with itself changes nothing: it is refused, with 9 where the triangle is there and with 6 where it is not. The paper
is run again with such a question after each insert whose count is not told. It asks for the middle of what is open: each run halves that,
and nine are enough for any paper. The paper's own stream and log are left as they are."""

from . import commands, engine, log, stream

THERE, NOT_THERE = 9, 6


class Untold(Exception):
    """A count that the program does not tell, with why."""


def settled(program, calls, printed):
    """The steps of a paper's log, with every count known, and how many triangles wait."""
    bounds = {}
    while True:
        steps, waiting, untold = log.read(printed, calls, bounds)
        if not untold:
            return steps, waiting
        bounds.update(answered(program, calls, steps, bounds, untold))


def answered(program, calls, steps, bounds, untold):
    """What one more run tells of the counts: the least and the most, by the call's id."""
    asked, questions = [], {}
    for call in calls:
        asked.append(call)
        if id(call) in untold:
            chart, least, most = untold[id(call)]
            middle = (least + most) // 2
            asked.append(commands.Call(commands.by_word("flip"), (chart, middle, middle), call.line))
            questions[id(asked[-1])] = id(call), {THERE: (middle + 1, most), NOT_THERE: (least, middle)}
    found = answers(program, asked, bounds)
    if [step for step in found if id(step.call) not in questions] != steps:
        raise Untold("it answers the paper otherwise than before")
    told = [(step, *questions[id(step.call)]) for step in found if id(step.call) in questions]
    for step, _, can in told:
        if step.number not in can:
            raise Untold(f"`{commands.written(step.call.row, step.call.values)}` gives {step.number}")
    return {call: can[step.number] for step, call, can in told}


def answers(program, asked, bounds):
    """The steps of a run with questions."""
    printed, trouble = engine.run(program, stream.to_bytes(asked))
    if trouble:
        raise Untold(trouble)
    try:
        return log.read(printed, asked, bounds)[0]
    except log.Misfit as e:
        raise Untold(f"line {e.line} of its log: {e.message}") from None
