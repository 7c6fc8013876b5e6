"""The JSON Schema of `chartkey --json`, made from the tables. `python3 -m frontend.schema` prints it for docs/chartkey.schema.json."""

import json

from . import commands, forms, numbers

NUMBER = {"type": "integer", "minimum": 0, "maximum": commands.MOST}
COUNT = {"type": "integer", "minimum": 0}
TEXT = {"type": "string"}
SHAPES = {
    "chart": {"enum": list(commands.CHARTS)},
    "number": NUMBER,
    "point": {"type": "array", "items": NUMBER, "minItems": 2, "maxItems": 2},
}


def nullable(kind):
    return {"type": [kind, "null"]}


def record(fields, optional=()):
    """An object with these fields and no other."""
    return {
        "type": "object",
        "properties": fields,
        "required": [name for name in fields if name not in optional],
        "additionalProperties": False,
    }


def listed(items, most=None):
    return {"type": "array", "items": items, **({} if most is None else {"maxItems": most})}


def head(row):
    """The fields that stand in every step of a command."""
    fields = {"line": {"type": "integer", "minimum": 1}, "from": TEXT, "command": {"const": row.word}}
    return {**fields, **{o.name: SHAPES[o.kind] for o in row.operands}}


def field_shape(field):
    if field.values:
        return {"enum": [commands.in_json(field, value) for value in range(field.least, field.most + 1)]}
    most = commands.MOST - 1 if field.most == commands.TRIANGLES else field.most
    return {"type": "integer", "minimum": field.least, "maximum": most}


def accepted(row, printed):
    """An accepted command that printed so many of its fields; the others are null."""
    fields = {**head(row), "number": {"const": 0}}
    if row.count is not None:
        fields["triangles"] = COUNT
    fields.update({field.name: field_shape(field) if k < printed else {"const": None} for k, field in enumerate(row.prints)})
    if row.lists:
        fields[row.lists.name] = listed(SHAPES["point"], row.lists.most)
    return record(fields, ["from"])


def refused(row, number):
    beside = numbers.row_of(number).beside
    return record({**head(row), "number": {"const": number}, **({beside: NUMBER} if beside else {}), "meaning": TEXT}, ["from"])


def steps():
    """Every step that a command can have."""
    for row in commands.COMMANDS:
        if row.count != commands.WAITS:
            yield accepted(row, len(row.prints))
        for k, field in enumerate(row.prints):
            if field.nothing:
                yield accepted(row, k)
        for number in row.refusals:
            yield refused(row, number)


def schema():
    place = {"line": nullable("integer"), "column": nullable("integer"), "length": nullable("integer")}
    error = record({"file": TEXT, **place, "message": TEXT, "text": nullable("string"), "hint": nullable("string")})
    unmet = record({"line": {"type": "integer", "minimum": 1}, "expected": TEXT, "found": TEXT})
    answers = {
        "format": {"const": forms.FORMAT},
        "title": nullable("string"),
        "id": nullable("string"),
        "engine": nullable("string"),
        "steps": listed({"oneOf": list(steps())}),
        "waiting": {**COUNT, "maximum": commands.MOST_WAITING},
        "refused": COUNT,
        "unexpected": COUNT,
        "unmet": listed(unmet),
        "status": {"enum": [0, 1, 3]},
    }
    errors = {"format": {"const": forms.FORMAT}, "errors": listed(error, 20), "more": COUNT, "status": {"enum": [0, 2, 4]}}
    return {
        "$schema": "https://json-schema.org/draft/2020-12/schema",
        "title": "What chartkey --json prints: the answers of a paper, or errors",
        "oneOf": [record(answers), record(errors)],
    }


def text():
    return json.dumps(schema(), indent=1) + "\n"


if __name__ == "__main__":
    print(text(), end="")
