"""Costs whose plans ask for little beyond the limits, so that a run of a controller takes few steps: the model's with inputs that weigh more, and one of the box's own coordinates, each weighed by
its half width and the inputs by their limits (Bryson's rule)."""
from __future__ import annotations

import math
from dataclasses import dataclass

from .libraries import need

need("numpy")
import numpy

from .design_text import plain
from .models import Model

# how much more inputs weigh, and how much the coordinates of the box together with them, what served most plants first
HEAVIER = (4.0, 16.0)
OF_BOX = ((3.0, "final"), (1.0, "rows"), (1.0, "final"), (0.3, "rows"), (10.0, "final"), (3.0, "rows"), (0.3, "final"), (0.1, "rows"))
# what counts as nothing beside numbers that meet in a sum
NOTHING = 1e-6


@dataclass(frozen=True)
class Weighing:
    """How often as much as the model says its inputs weigh; or, where `key` names the rows that they stand in, how much the box's coordinates do, each at its end, where all inputs at their limits
    weigh 1."""

    times: float = 1.0
    key: str = ""

    def cost(self, model: Model, text: dict, reach: list[float]) -> dict:
        """The cost of a model whose keys are these, with inputs that come to so much at most. Of the box's coordinates it counts how far they are from where the model's loops rest, whatever is
        held."""
        cost, inputs = text["cost"], text["cost"]["input"]
        if not self.key:
            return cost | {"input": [neat(self.times * weight) for weight in inputs]}
        turn, box = model.coordinates(text.get("coordinates", {"rows": numpy.eye(model.own)})), text["box"]
        ends = [(high - low) / 2 for low, high in zip(box.get("lo", [-v for v in box["hi"]]), box["hi"])]
        whole = self.times * sum(weight * most**2 for weight, most in zip(inputs, reach))
        return {"input": inputs, self.key: [row_of(model, turn[i]) | {"weight": neat(whole / end**2)} for i, end in enumerate(ends) if end > 0]}

    @property
    def words(self) -> str:
        if self.key:
            where = "at each stage" if self.key == "rows" else "at the last stage"
            return f"a cost of the box's coordinates {where}, {plain(self.times)} times what the inputs at their limits cost, in place of the model's"
        return f"inputs weighing {plain(self.times)} times as much as the model says"


SAME = Weighing()


def row_of(model: Model, turn: numpy.ndarray) -> dict:
    """The row of a coordinate, less what it is where loops rest."""
    kept, last = model.own + len(model.held), numpy.zeros(model.p)
    last[model.last] = turn[kept:]
    held = [float(f"{factor - turn @ place:.9g}") for factor, place in zip(turn[model.own : kept], rests(model)[0])]
    out = {"state": [float(v) for v in turn[: model.own]]} | ({"held": [v if abs(v) > NOTHING else 0.0 for v in held]} if held else {})
    return out | ({"last": [float(v) for v in last]} if any(last) else {})


def rests(model: Model) -> tuple[list[numpy.ndarray], float]:
    """Where loops rest at which no row of the cost costs anything, in the plant's states, with 1 of each held state; and how far the nearest such places are from being such."""
    back, still, count = numpy.linalg.inv(model.to), model.a - numpy.eye(model.n), len(model.held)
    costly = [model.row(row) / model.state_units for key in ("rows", "final") for row in model.text["cost"].get(key, [])]
    held = [numpy.eye(model.n)[model.own + k] @ back for k in range(count)]
    top = numpy.vstack([still, *costly, *held])
    left = numpy.hstack([top, numpy.vstack([model.b, numpy.zeros((len(top) - model.n, model.p))])])
    right = numpy.vstack([numpy.zeros((len(left) - count, count)), numpy.eye(count)])
    found = numpy.linalg.lstsq(left, right, rcond=None)[0]
    return list((back @ found[: model.n]).T), float(abs(left @ found - right).max(initial=0.0))


def neat(value: float) -> float:
    return float(f"{value:.3g}")


def weighings(model: Model, reach: list[float]) -> list[Weighing]:
    """What can be tried in place of a model's cost; where it has targets other than 0, or nowhere rests whatever is held, with its own rows alone."""
    targets = any(row.get("target", 0) for key in ("rows", "final") for row in model.text["cost"].get(key, []))
    of_box = not targets and all(map(math.isfinite, reach)) and rests(model)[1] < NOTHING
    return [Weighing(times) for times in HEAVIER] + [Weighing(times, key) for times, key in OF_BOX if of_box]
