"""A model as TOML, for models that a command makes of others."""
import json
from typing import Any

# why a model has another cost or other stages than were asked for, in its first line
TIMELY = "so that it can be run in time"


def value_text(value: Any) -> str:
    """A value as TOML writes it, tables inline."""
    if isinstance(value, bool):
        return "true" if value else "false"
    if isinstance(value, str):
        return json.dumps(value, ensure_ascii=False)
    if isinstance(value, (list, tuple)):
        return "[" + ", ".join(value_text(one) for one in value) + "]"
    if isinstance(value, dict):
        return "{ " + ", ".join(f"{key} = {value_text(one)}" for key, one in value.items()) + " }"
    return repr(value)


def is_tables(value: Any) -> bool:
    """Whether a value is written as headed tables of its own."""
    return isinstance(value, list) and bool(value) and all(isinstance(one, dict) for one in value)


def model_text(model: dict[str, Any], title: str) -> str:
    """The text of a model's keys: plain ones first, then its tables."""
    lines = [f"# {title}"]
    lines += [f"{key} = {value_text(value)}" for key, value in model.items() if not isinstance(value, dict) and not is_tables(value)]
    for key, value in model.items():
        for head, table in [(f"[{key}]", value)] if isinstance(value, dict) else [(f"[[{key}]]", one) for one in value] if is_tables(value) else []:
            lines += ["", head, *(f"{name} = {value_text(one)}" for name, one in table.items())]
    return "\n".join(lines) + "\n"
