"""The forms of answers: for people, CSV, JSON. Every number in them was read from a log, or counts what was read."""

import json
import textwrap

from . import commands, numbers
from .faults import UNMET, plural

FORMAT = "chartkey/2"
WIDTH = 80
REFUSED = 1  # exit status


class Answers:
    """A paper's steps, which refusals and expectations were as the paper says, and the exit status."""

    def __init__(self, paper, steps, waiting):
        self.paper, self.steps, self.waiting = paper, steps, waiting
        self.refused = [step for step in steps if step.number]
        groups = grouped(paper, steps)
        foreseen = set()  # the groups whose refusal is expected
        self.unmet = []  # an expectation and what was found
        for expected in paper.expected:
            span = (expected.first, expected.last)
            answer = found(expected, groups[span])
            if answer != expected.text:
                self.unmet.append((expected, answer))
            elif expected.wanted is commands.REFUSED:
                foreseen.add(span)
        as_said = {id(step) for span in foreseen for step in groups[span]}
        self.unexpected = [step for step in self.refused if id(step) not in as_said]
        self.status = max(REFUSED if self.unexpected else 0, UNMET if self.unmet else 0)
        self.overlays = [step for step in steps if step.pairs is not None]


def grouped(paper, steps):
    """The steps of each line that something is expected of, by its first and last call."""
    by_call = {id(step.call): step for step in steps}
    spans = {(expected.first, expected.last) for expected in paper.expected}
    return {span: [by_call[id(call)] for call in paper.calls[slice(*span)] if id(call) in by_call] for span in spans}


def found(expected, group):
    """What a command answered, in the words of an expectation."""
    refused = next((step for step in group if step.number), None)
    if refused:
        return f"{commands.REFUSED.word} {refused.number}"
    field = expected.wanted.field
    if field is None:
        return commands.ACCEPTED.word
    step = group[0]
    value = step.values[field.name]
    return commands.mark_of(step.call.row, step.values).nothing if value is None else commands.in_answer(field, value)


def meaning(step):
    """The words of a refusal, with the numbers that the log and the counts give."""
    row = numbers.row_of(step.number)
    chart = commands.chart_of(step.call)
    where = step.written and (step.written.where or f"line {step.written.line}")
    return numbers.meaning(step.number, step.values.get(row.beside, "T"), None if chart is None else step.counts[chart], where or "")


# ---- for people


def answer(step):
    """One command's answer."""
    if step.number:
        return f"REFUSED {step.number}: {meaning(step)}"
    row, values = step.call.row, step.values
    mark = commands.mark_of(row, values)
    parts = [commands.for_people(field, values[field.name]) for field in row.prints if values[field.name] is not None]
    parts += [mark.nothing] if mark else []
    if row.count is None:
        return ", ".join(parts)
    return "accepted: " + ", ".join([plural(step.counts[commands.chart_of(step.call)], "triangle")] + parts)


def table(answers):
    """Each command with its answer."""
    rows = [("line", "command", "answer")]
    rows += [(str(s.call.line), commands.written(s.call.row, s.call.values), answer(s)) for s in answers.steps]
    wide = max(len(row[1]) for row in rows)
    return [f"{line:>5}  {command:{wide}}  {said}" for line, command, said in rows]


def wrapped(head, words):
    """Words after a head, in as many lines as they need."""
    margin = " " * len(head)
    return textwrap.wrap(" ".join(words), WIDTH, initial_indent=head, subsequent_indent=margin, break_on_hyphens=False)


def key(step):
    """The key of one overlay, by bed triangle."""
    first, second = commands.CHARTS
    lines = [f"Key of line {step.call.line}: each {first} triangle, and every {second} triangle that shares ground with it", ""]
    partners = {}
    for i, j in step.pairs:
        partners.setdefault(i, []).append(str(j))
    lines += [f"  {first}  pairs  {second}"] if partners else ["  no pair"]
    for i, js in partners.items():
        lines += wrapped(f"{i:>5}{len(js):>7}  ", js)
    return lines + [""] + alone(step)


def alone(step):
    """What is in no pair."""
    lines = []
    for k, (name, count) in enumerate(zip(commands.CHARTS, step.counts)):
        paired = {pair[k] for pair in step.pairs}
        lines.append(f"{name} {' '.join(str(i) for i in range(count) if i not in paired) or '(none)'}")
    return wrapped("  in no pair: ", ["; ".join(lines)])


def keys(answers):
    """The keys of all overlays."""
    return "\n\n".join("\n".join(key(step)) for step in answers.overlays)


def refusals(answers):
    """How many commands were refused, and whether the paper says so."""
    refused, unexpected = len(answers.refused), len(answers.unexpected)
    if not refused:
        return "nothing refused"
    head = f"{plural(refused, 'command')} refused"
    return f"{head}, as expected" if not unexpected else f"{head}, {'' if unexpected == refused else f'{unexpected} of them '}not expected"


def summary(answers):
    parts = []
    if answers.overlays:
        pairs = plural(sum(len(step.pairs) for step in answers.overlays), "pair")
        parts.append(pairs if len(answers.overlays) == 1 else f"{len(answers.overlays)} overlays, {pairs}")
    parts.append(refusals(answers))
    if answers.paper.expected:
        unmet = len(answers.unmet)
        parts += [f"{plural(unmet, 'expectation')} not met"] if unmet else []
    if answers.waiting:
        parts.append(f"{plural(answers.waiting, 'triangle')} still waiting")
    return "; ".join(parts)


def advice(answers):
    """What to do about refusals that were not expected, each number once."""
    rows = [numbers.row_of(n) for n in sorted({step.number for step in answers.unexpected})]
    return [line for row in rows for line in wrapped(f"{row.number:>5}  ", row.todo.split())]


def number_lines(row):
    """A number in words, and what to do."""
    return wrapped(f"{row.number:>2}  ", numbers.meaning(row.number).split()) + wrapped("    what to do: ", row.todo.split())


def people(answers):
    """The default form."""
    texts = answers.paper.texts
    head = "  ".join(filter(None, (texts.get("title"), f"({texts['id']})" if "id" in texts else None)))
    todo = advice(answers)
    parts = [head, "\n".join(table(answers)) if answers.steps else "", "\n".join(["What to do:"] + todo) if todo else ""]
    return "\n\n".join(filter(None, parts + [keys(answers), summary(answers)])) + "\n"


def only_key(answers):
    return keys(answers) + "\n" if answers.overlays else ""


def csv(answers):
    rows = [f"{step.call.line},{i},{j}" for step in answers.overlays for i, j in step.pairs]
    return "\n".join([",".join(("overlay",) + commands.CHARTS)] + rows) + "\n"


# ---- JSON


def dumped(value):
    """One step or error a line, so that two answers can be compared line by line."""
    lines = []
    for name, part in value.items():
        if isinstance(part, list) and part:
            part = "[\n  " + ",\n  ".join(json.dumps(p, ensure_ascii=False) for p in part) + "]"
        else:
            part = json.dumps(part, ensure_ascii=False)
        lines.append(f"{json.dumps(name)}: {part}")
    return "{" + ",\n ".join(lines) + "}\n"


def step_json(step):
    call = step.call
    made = {"line": call.line, **({"from": call.where} if call.where else {}), "command": call.row.word}
    for operand, value in zip(call.row.operands, call.values):
        made[operand.name] = commands.shown(operand, value) if operand.names else value
    made["number"] = step.number
    if step.number:
        return {**made, **step.values, "meaning": meaning(step)}
    if call.row.count is not None:
        made["triangles"] = step.counts[commands.chart_of(call)]
    values = {field.name: commands.in_json(field, step.values[field.name]) for field in call.row.prints if field is not call.row.lists}
    return {**made, **values, **({call.row.lists.name: step.pairs} if call.row.lists else {})}


def answers_json(answers, engine):
    texts = answers.paper.texts
    return dumped(
        {
            "format": FORMAT,
            "title": texts.get("title"),
            "id": texts.get("id"),
            "engine": engine,
            "steps": [step_json(step) for step in answers.steps],
            "waiting": answers.waiting,
            "refused": len(answers.refused),
            "unexpected": len(answers.unexpected),
            "unmet": [{"line": e.place.number, "expected": e.text, "found": said} for e, said in answers.unmet],
            "status": answers.status,
        }
    )


def errors_json(kept, count, status):
    """Faults, of which some may not be kept."""
    return dumped({"format": FORMAT, "errors": [fault._asdict() for fault in kept], "more": count - len(kept), "status": status})
