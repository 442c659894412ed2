"""What a model may hold, as a schema whose lists are as long as the plant asks for; and what is wrong with a model, a line for each fault: its key and place, and what is expected there."""
import difflib
import math
import re

from .libraries import need

need("jsonschema")
import jsonschema

from .design_text import STAGES, STATES

GREATEST = 1e15
LEAST = 1e-15
WORDS = r"^[^\x00-\x1f\x7f-\x9f,\ud800-\udfff]{0,60}$"
ROWS = 12
INPUTS = 3
DENOMINATOR = 1048576


def finite(_: object, value: object) -> bool:
    """A number of a model: not an infinity, no truth value."""
    return isinstance(value, (int, float)) and not isinstance(value, bool) and (isinstance(value, int) or math.isfinite(value))


def bound(_: object, value: object) -> bool:
    """A bound: a number, or an infinity for no limit."""
    return finite(_, value) or (isinstance(value, float) and math.isinf(value))


def whole(_: object, value: object) -> bool:
    return isinstance(value, (int, float)) and finite(_, value) and value == int(value)


Validator = jsonschema.validators.extend(
    jsonschema.Draft202012Validator,
    type_checker=jsonschema.Draft202012Validator.TYPE_CHECKER.redefine_many({"number": finite, "integer": whole, "bound": bound}),
)

NUMBER = {"type": "number", "minimum": -GREATEST, "maximum": GREATEST, "expected": f"a number of at most {GREATEST:g}"}
POSITIVE = {"type": "number", "minimum": LEAST, "maximum": GREATEST, "expected": f"a number above 0, from {LEAST:g} to {GREATEST:g}"}
PART = {"type": "number", "minimum": 0, "maximum": GREATEST, "expected": f"a number from 0 to {GREATEST:g}"}
BOUND = {"type": "bound", "expected": f"a number of at most {GREATEST:g}, or inf for no limit"}
WORD = {"type": "string", "pattern": WORDS, "expected": "a name of at most 60 characters, without a comma"}
FLAG = {"type": "boolean", "expected": "true or false"}


def whole_from(least: int, most: int) -> dict:
    return {"type": "integer", "minimum": least, "maximum": most, "expected": f"a whole number from {least} to {most}"}


def list_of(item: dict, count: int | None, words: str) -> dict:
    """A list, of this many items where that is known."""
    if count is None:
        return {"type": "array", "items": item, "expected": f"a list of {words}"}
    words = re.sub(r"^(\w+)s\b", r"\1", words) if count == 1 else words
    return {"type": "array", "items": item, "minItems": count, "maxItems": count, "expected": f"a list of {count} {words}"}


def table_of(properties: dict, required: tuple = (), words: str = "a table") -> dict:
    return {"type": "object", "properties": properties, "required": list(required), "additionalProperties": False, "expected": words}


def tables_of(item: dict, most: int, words: str) -> dict:
    return {"type": "array", "items": item, "maxItems": most, "expected": f"at most {most} {words}"}


def schema_of(version: int, n: int | None, p: int | None, held: int, plant_alone: bool = False) -> dict:
    """The schema of a model with so many states and inputs of its plant, and so many held states; where a number isn't known, with lists of any length. Of a plant alone no cost
    and no box are needed."""
    states, inputs = list_of(NUMBER, n, "numbers, one for each state"), list_of(NUMBER, p, "numbers, one for each input")
    sizes = lambda count, of: list_of(POSITIVE, count, f"numbers above 0, one for each {of}")
    parts = list_of(PART, n, "numbers of at least 0, one for each state")
    names = lambda count, of: list_of(WORD, count, f"names, one for each {of}")
    helds = list_of(NUMBER, held, "numbers, one for each held state")
    cost_row = table_of({"state": states, "held": helds, "last": inputs, "target": NUMBER, "weight": POSITIVE}, ("weight",), "a table as { state = [..], weight = .. }")
    limit = {"name": WORD, "state": states, "held": helds, "input": inputs, "change": inputs, "bound": BOUND, "least": BOUND, "tolerance": POSITIVE}
    plane = {"name": WORD, "state": states, "held": helds, "last": inputs, "bound": BOUND, "least": BOUND}
    still = {"name": WORD, "into": states, "lo": NUMBER, "hi": NUMBER, "unit": POSITIVE}
    return table_of(
        {
            "version": whole_from(1, 3),
            "period": POSITIVE,
            "stages": whole_from(1, STAGES[version]),
            "sampled": FLAG,
            "delay": whole_from(0, 1),
            "plan": {"enum": ["inputs", "changes"], "expected": "'inputs' or 'changes'"},
            "a": list_of(list_of(NUMBER, n, "numbers, one for each state"), n, "lists, one for each state"),
            "b": list_of(list_of(NUMBER, p, "numbers, one for each input"), n, "lists, one for each state"),
            "states": names(n, "state"),
            "inputs": names(p, "input"),
            "coordinates": table_of(
                {
                    "rows": list_of(states, n, "lists, one for each state"),
                    "held": list_of(helds, n, "lists, one for each state"),
                    "last": list_of(inputs, n, "lists, one for each state"),
                    "names": names(n, "state"),
                },
                ("rows",),
            ),
            "units": table_of(
                {
                    "states": sizes(n, "state"),
                    "inputs": sizes(p, "input"),
                    "changes": sizes(p, "input"),
                    "den": whole_from(1, DENOMINATOR),
                    "limits": whole_from(1, DENOMINATOR),
                    "weights": whole_from(1, DENOMINATOR),
                    "rounding": {"type": "number", "minimum": 1e-6, "maximum": 0.1, "expected": "a number from 0.000001 to 0.1"},
                }
            ),
            "held": tables_of(table_of(still, ("hi",), "a table with hi"), STATES[version], "held states"),
            "limit": tables_of(table_of(limit, ("tolerance",), "a table with bound or least, and tolerance"), ROWS, "limits"),
            "region": tables_of(table_of(plane), ROWS, "half-planes"),
            "cost": table_of({"input": sizes(p, "input"), "rows": tables_of(cost_row, ROWS, "rows"), "final": tables_of(cost_row, ROWS, "rows")}, ("input",)),
            "box": table_of({"hi": states, "lo": states, "last": sizes(p, "input"), "grid": whole_from(0, 24), "stay": parts, "disturbed": parts}, ("hi",)),
        },
        ("period", "a", "b") + (() if plant_alone else ("cost", "box")),
    )


def place_words(path: list) -> str:
    """A place as `limit[2].bound`, lists counted from 1."""
    out = ""
    for part in path:
        out += f"[{part + 1}]" if isinstance(part, int) else f"{'.' if out else ''}{part}"
    return out or "the model"


def shown(value: object) -> str:
    """What stands at a place, in a few characters."""
    if isinstance(value, dict):
        return "a table"
    if isinstance(value, list):
        return f"a list of {len(value)}"
    if value is None or isinstance(value, bool):
        return "null" if value is None else str(value).lower()
    text = f"{value:.6g}" if isinstance(value, float) else repr(value) if isinstance(value, (str, int)) else f"a {type(value).__name__}"
    return text if len(text) <= 40 else text[:37] + ".."


def words_of(error: jsonschema.ValidationError) -> list[str]:
    """The faults that a validator's error tells of."""
    at, value, schema = list(error.absolute_path), error.instance, error.schema
    if error.validator == "additionalProperties":
        known = list(schema["properties"])
        near = {key: difflib.get_close_matches(key, known, 1) for key in value if key not in known}
        return [f"{place_words(at + [key])}: no such key{f'; {found[0]} is one' if found else ''} (there are {', '.join(known)})" for key, found in near.items()]
    if error.validator == "required":
        missing = [key for key in schema["required"] if key not in value]
        return [f"{place_words(at + [key])}: is missing; {schema['properties'][key]['expected']} is expected" for key in missing]
    return [f"{place_words(at)}: {schema.get('expected', 'another value')} is expected, and {shown(value)} stands there"]


def tables(value: object) -> bool:
    return isinstance(value, list) and bool(value) and all(isinstance(row, list) and row for row in value)


def plant_faults(model: dict) -> list[str]:
    """What is wrong with the sizes of the plant."""
    version = version_of(model)
    out = []
    if "version" in model and (isinstance(model["version"], bool) or model["version"] not in tuple(STATES)):
        out.append(f"version: version is 1, 2 or 3, not {shown(model['version'])}")
    n, stages, still = len(model["a"]) if tables(model.get("a")) else 0, model.get("stages", 10), held_count(model)
    states = n + still + last_count(model)
    stages = stages if finite(None, stages) else 10
    if states > STATES[version] or stages > STAGES[version]:
        found = f"{states} states ({n} of the plant, {states - n} added)" if states > n else f"{states} states"
        out.append(
            f"{'a' if states > STATES[version] else 'stages'}: version {version} has at most {STATES[version]} states and {STAGES[version]} stages"
            + (": version = 2 has more" if version == 1 else f", and this model has {found} and {shown(stages)} stages")
        )
    if tables(model.get("b")) and len(model["b"][0]) > INPUTS:
        out.append(f"b: at most {INPUTS} inputs are expected, and {len(model['b'][0])} stand there")
    return out


def version_of(model: dict) -> int:
    found = model.get("version")
    return next((version for version in STATES if version == found and not isinstance(found, bool)), 1)


def held_count(model: dict) -> int:
    return len(model["held"]) if isinstance(model.get("held"), list) else 0


def changed(model: dict) -> list[int]:
    """The inputs whose last values are states: all with a delay or where changes are planned, else those whose changes are limited."""
    p = len(model["b"][0]) if tables(model.get("b")) else 0
    if model.get("plan") == "changes" or finite(None, model.get("delay", 0)) and model.get("delay", 0) == 1:
        return list(range(p))
    limits = [limit for limit in model["limit"] if isinstance(limit, dict)] if isinstance(model.get("limit"), list) else []
    factors = [limit["change"] for limit in limits if isinstance(limit.get("change"), list)]
    return [l for l in range(p) if any(l < len(row) and row[l] not in (0, 0.0) for row in factors)]


def last_count(model: dict) -> int:
    return len(changed(model))


def faults_of(model: dict, plant_alone: bool = False) -> list[str]:
    """What is wrong with a model's keys and values."""
    n = len(model["a"]) if tables(model.get("a")) else None
    p = len(model["b"][0]) if tables(model.get("b")) else None
    schema = schema_of(version_of(model), n or None, p or None, held_count(model), plant_alone)
    found = plant_faults(model)
    for error in Validator(schema).iter_errors(model):
        words = words_of(error)
        if not (list(error.absolute_path) in (["version"], ["stages"]) and any(w.startswith(error.absolute_path[0]) for w in found)):
            found += words
    for key in ("a", "b"):
        if key in model and not tables(model[key]) and not any(words.startswith(key) for words in found):
            found.append(f"{key}: a list of lists of numbers is expected, one for each state, and one of these is empty")
    found += limit_faults(model) if not found else []
    return list(dict.fromkeys(found))


def limit_faults(model: dict) -> list[str]:
    """What is wrong between the keys of limits and box, each of which is right by itself."""
    out = []
    for number, limit in enumerate(model.get("limit", []), 1):
        if not any(any(limit.get(key, [])) for key in ("state", "held", "input", "change")):
            out.append(f"limit[{number}]: a factor other than 0 is expected, in input, change or state")
        elif not any(any(limit.get(key, [])) for key in ("state", "input", "change")):
            out.append(f"limit[{number}]: a factor other than 0 is expected in input, change or state, since nothing moves a held state")
        if "bound" not in limit and "least" not in limit:
            out.append(f"limit[{number}]: bound or least is expected (inf and -inf are no limit)")
        if not limit.get("least", -math.inf) <= limit.get("bound", math.inf):
            out.append(f"limit[{number}].least: at most bound is expected, and {shown(limit['least'])} stands there")
        if limit.get("bound") == -math.inf or limit.get("least") == math.inf:
            out.append(f"limit[{number}]: no value is within these: inf is expected for no limit above, -inf for none below")
        for key in ("bound", "least"):
            if key in limit and math.isfinite(limit[key]) and abs(limit[key]) > GREATEST:
                out.append(f"limit[{number}].{key}: {BOUND['expected']} is expected, and {shown(limit[key])} stands there")
    for number, plane in enumerate(model.get("region", []), 1):
        if not any(plane.get("state", [])):
            out.append(f"region[{number}].state: a factor other than 0 is expected")
        if not any(math.isfinite(plane.get(key, math.inf)) for key in ("bound", "least")):
            out.append(f"region[{number}]: bound or least is expected")
        if any(factor and l not in changed(model) for l, factor in enumerate(plane.get("last", []))):
            out.append(f"region[{number}].last: zeros are expected for inputs whose last values are no states")
    for key in ("rows", "final"):
        for number, row in enumerate(model.get("cost", {}).get(key, []), 1):
            if not any(row.get("state", []) + row.get("held", []) + row.get("last", [])):
                out.append(f"cost.{key}[{number}]: a factor other than 0 is expected, in state, held or last")
            if any(factor and l not in changed(model) for l, factor in enumerate(row.get("last", []))):
                out.append(f"cost.{key}[{number}].last: no such key here, since the last inputs are no states: plan = 'changes', delay = 1 or a limit on a change makes them so")
    for number, row in enumerate(model.get("coordinates", {}).get("last", []), 1):
        if any(factor and l not in changed(model) for l, factor in enumerate(row)):
            out.append(f"coordinates.last[{number}]: zeros are expected for inputs whose last values are no states: plan = 'changes', delay = 1 or a limit on a change makes them so")
    rows = sum(math.isfinite(limit.get("bound", math.inf)) + math.isfinite(limit.get("least", -math.inf)) for limit in model.get("limit", []))
    ends = 2 * sum(map(bool, model.get("box", {}).get("stay", [])))
    if rows + ends > ROWS:
        out.append(f"limit: at most {ROWS} sides are expected, above and below, and {rows} stand there" + f", beside {ends} ends of the box" * bool(ends))
    if "changes" in model.get("units", {}) and model.get("plan") != "changes":
        out.append("units.changes: no such key here, since inputs are planned: plan = 'changes' plans their changes")
    if model.get("plan") == "changes" and model.get("delay", 0):
        out.append("delay: 0 is expected where changes are planned")
    box = model.get("box", {"hi": []})
    for i, high in enumerate(box["hi"]):
        if "lo" in box and box["lo"][i] > high:
            out.append(f"box.lo[{i + 1}]: at most hi is expected, {shown(high)}, and {shown(box['lo'][i])} stands there")
        if "lo" not in box and high < 0:
            out.append(f"box.hi[{i + 1}]: at least 0 is expected where lo is left out, and {shown(high)} stands there")
        inside = box.get("stay", box["hi"])[i] and box.get("stay", [0.0] * len(box["hi"]))[i] + box.get("disturbed", [0.0] * len(box["hi"]))[i]
        half = (high - box["lo"][i]) / 2 if "lo" in box else high
        if inside >= half and inside > 0:
            out.append(f"box.stay[{i + 1}]: less than half of the box is expected, {shown(half)}, with what is disturbed, and {shown(inside)} stands there")
    for number, still in enumerate(model.get("held", []), 1):
        if still.get("lo", -still["hi"]) > still["hi"]:
            out.append(f"held[{number}].lo: at most hi is expected, {shown(still['hi'])}, and {shown(still.get('lo', -still['hi']))} stands there")
    return out
