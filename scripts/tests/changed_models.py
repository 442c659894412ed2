"""Models that are changed by chance: a key, a value or some characters of one."""
import copy
import os
import random
import tomllib

from .worked import EXAMPLES

NUMBERS = (0, -1, 1, 2.5, -0.25, 1e300, -1e300, 1e-300, 10**40, 5000, float("nan"), float("inf"), -float("inf"), 1e9, 1e-9, 3, 64)
VALUES = NUMBERS + (True, "", "x", "a\nb", "x,y", [], [[]], {}, [1.0], [[1.0]], [{}], ["x"], None)


def places_of(value: object, at: tuple = ()) -> list[tuple]:
    """The place of each table, list and value of a model, the model itself left out."""
    inner = value.items() if isinstance(value, dict) else enumerate(value) if isinstance(value, list) else ()
    return [place for key, item in inner for place in [(*at, key), *places_of(item, (*at, key))]]


def changed_value(draw: random.Random, model: dict) -> dict:
    """A model with one value in another's place, dropped, doubled or named otherwise."""
    model = copy.deepcopy(model)
    *path, last = draw.choice(places_of(model))
    holder = model
    for key in path:
        holder = holder[key]
    kind = draw.randrange(6)
    if kind == 0:
        del holder[last]
    elif kind == 1 and isinstance(holder, list):
        holder.insert(last, copy.deepcopy(holder[last]))
    elif kind == 2 and isinstance(holder, dict):
        holder[draw.choice((last[::-1], last + "s", "target", "x"))] = holder.pop(last)
    elif kind == 3 and isinstance(holder[last], (int, float)):
        holder[last] = holder[last] * draw.choice((-1, 0, 0.5, 10, 1e3, 1e6, 1e-3, 1e-6, 1e12))
    else:
        holder[last] = draw.choice(VALUES)
    return model


def changed_text(draw: random.Random, text: str) -> str:
    """A text with some characters put in, taken out or doubled."""
    for _ in range(draw.randrange(1, 4)):
        place = draw.randrange(len(text))
        kind = draw.randrange(3)
        if kind == 0:
            text = text[:place] + draw.choice("0123456789-.[]{}=\"#e, \n\x00'") + text[place:]
        elif kind == 1:
            text = text[:place] + text[place + draw.randrange(1, 8) :]
        else:
            end = place + draw.randrange(1, 40)
            text = text[:end] + text[place:end] + text[end:]
    return text


def changed_models(count: int, seed: int) -> list[str | dict]:
    """So many changed models of the examples, every third one by its text, each over at most two stages, so that a design of it is soon made."""
    draw, texts = random.Random(seed), []
    for name in sorted(os.listdir(EXAMPLES)):
        path = os.path.join(EXAMPLES, name, "model.toml")
        if os.path.exists(path):
            with open(path, encoding="utf-8") as file:
                texts.append("".join("stages = 2\n" if line.startswith("stages") else line for line in file))
    models = []
    for number in range(count):
        text = draw.choice(texts)
        models.append(changed_text(draw, text) if number % 3 == 0 else changed_value(draw, tomllib.loads(text)))
    return models
