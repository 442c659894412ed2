"""A continuous model in physical units, as a text:

    version = 2                                  # optional: up to 6 states and 30 stages, and each limit row has its own violation; 1: up to 4 and 20; 3: as 2, for the accelerated machine
    period = 0.005                               # seconds a stage
    stages = 4
    a = [[0.0, 1.0], [0.0, -26.3]]               # x' = a x + b u
    b = [[0.0], [520.8]]
    states = ["angle rad", "speed rad/s"]        # a name, then the unit
    inputs = ["voltage V"]
    sampled = false                              # true where a and b are of a plant that is sampled already: x+ = a x + b u
    delay = 0                                    # 1 where an input acts one stage after it is planned: its last value is then a state
    plan = "inputs"                              # or "changes": the design's inputs are how much the model's change from stage to stage, and the last inputs are states

    [coordinates]                                # optional: the design's states as sums of the model's
    rows = [[1.0, 0.01], [0.0, 1.0]]
    held = [[-1.0], [0.0]]                       # what of the held states is added to each, as angle - target; left out: nothing
    last = [[0.0], [0.0]]                        # and of the last inputs, where these are states
    names = ["angle soon rad", "speed rad/s"]

    [units]                                      # how much 1 of the design is; left out: chosen so that the row sums of |A| + |B| are small
    states = [0.0625, 5.0]
    inputs = [1.0]
    changes = [0.25]                             # of an input's change, where these are planned; left out: as inputs, or where that is left out, too, chosen like the others
    den = 64                                     # the plant's denominator; left out: the least power of two at which responses are within 0.1 % and no coupling is lost
    rounding = 0.001                             # by how much of itself a weight, a target or a limit may move, or a limit of its tolerance
    limits = 64                                  # the limits' denominator; left out: the least at which they move by no more than that
    weights = 64                                 # the weights' denominator, over which they are rounded up; left out: such that they move by no more than that

    [[held]]                                     # optional: a state that stays: a reference that you move, a disturbance that you measure, an offset (lo = hi)
    name = "target rad"
    into = [0.0, 0.0]                            # what 1 of it adds to x' (to x+ where the plant is sampled)
    hi = 1.0                                     # its box; lo is -hi where it is left out
    unit = 0.25                                  # how much 1 of the design is; left out: chosen

    [[limit]]                                    # input, change (of an input from stage to stage), state and held: factors; a limit on states alone holds for the next state
    name = "voltage"
    input = [1.0]
    bound = 16.0                                 # at most this; inf or left out: no limit above
    least = -16.0                                # at least this; -inf or left out: no limit below
    tolerance = 2.0                              # by how much it may be exceeded at most

    [[region]]                                   # optional: starts are meant at which this holds, no others of the box: what meets nowhere, as a full charge and much polarisation
    name = "voltage"
    state = [1.0, 3.0]                           # and held, last: factors
    bound = 80.0                                 # at most this; least: at least this

    [cost]
    input = [1.0]                                # weights of the squares of the inputs, or of their changes where these are planned
    rows = [{ state = [1.0, 0.0], weight = 500.0 }]   # of the square of what a row of states comes to, less its target: { .., held = [-1.0], target = 0.0 };
                                                 # last = [1.0]: of last inputs, where these are states
    final = []                                   # such rows at the last stage alone

    [box]                                        # of the design's states, in physical units
    hi = [1.0, 125.0]                            # lo is -hi where it is left out
    last = [16.0]                                # of last inputs, where these are states; left out: their limits and tolerances
    grid = 2
    stay = [0.125, 0.0]                          # no loop is to leave the box: each next state is limited, so much inside its ends, and may exceed that by as much at most. 0: no such limit
    disturbed = [0.0, 0.0]                       # by how much a next state is moved from outside at most: these limits are so much further inside

The same keys may stand in a .json. In place of a and b there may be `plant = "FILE"`, beside the model: a .mat with variables A and B, or a struct of them, or a .json, each
with Ts or dt where it is sampled.
"""
import json
import math
import os
import tomllib
from dataclasses import dataclass
from typing import Any

from .libraries import Refusal, need

need("numpy", "scipy", "jsonschema")
import numpy
import scipy.io
import scipy.linalg

from .design_text import Design, Name, plain
from .files import read_bytes
from .model_schema import changed, faults_of, version_of

NUMERATOR = 2147483647
# by how much a pole may multiply in a stage, and over the horizon
MOST_GROWTH, MOST_FAR = 4, 1e5
# the unit of a change, as a part of that of its input
CHANGE = 0.15


class Model:
    """A model; its plant sampled, in the design's coordinates and units, with held states and last inputs as further states."""

    def __init__(self, text: str | dict, plant_alone: bool = False):
        t = text if isinstance(text, dict) else toml_of(text)
        refuse(faults_of(t, plant_alone))
        self.text, self.period, self.stages = t, float(t["period"]), int(t.get("stages", 10))
        self.version = version_of(t)
        self.own, self.p = len(t["a"]), len(t["b"][0])
        self.held, self.last = t.get("held", []), changed(t)
        self.n = self.own + len(self.held) + len(self.last)
        self.delay, self.by_changes = int(t.get("delay", 0)), t.get("plan") == "changes"
        turn = t.get("coordinates", {})
        self.to = self.coordinates(turn)
        if not numpy.all(numpy.isfinite(self.to)) or numpy.linalg.cond(self.to) > 1e12:
            refuse(["coordinates.rows: rows of which none is a sum of the others are expected, and these give no state back"])
        self.input_names = [split_name(v, f"u{i + 1}") for i, v in enumerate(t.get("inputs", [""] * self.p))]
        self.planned_names = [(f"change of {word}", unit) for word, unit in self.input_names] if self.by_changes else self.input_names
        self.names = self.state_names(turn.get("names", t.get("states", [""] * self.own)))
        self.lo, self.hi = self.box()
        self.stay, self.disturbed = (list(map(float, t.get("box", {}).get(key, [0.0] * self.own))) for key in ("stay", "disturbed"))
        with numpy.errstate(all="ignore"):
            self.sample(numpy.array(t["a"], float), numpy.array(t["b"], float))
        units = t.get("units", {})
        self.choose_units(units)
        self.den, self.limit_den, self.weight_den = (int(units[key]) if key in units else None for key in ("den", "limits", "weights"))
        self.rounding = float(units.get("rounding", 0.001))

    def coordinates(self, turn: dict) -> numpy.ndarray:
        """The design's states as sums of the plant's, the held ones and the last inputs."""
        to, kept = numpy.eye(self.n), self.own + len(self.held)
        to[: self.own, : self.own] = numpy.array(turn.get("rows", numpy.eye(self.own)), float)
        if "held" in turn and self.held:
            to[: self.own, self.own : kept] = numpy.array(turn["held"], float)
        if "last" in turn:
            to[: self.own, kept:] = numpy.array(turn["last"], float)[:, self.last]
        return to

    def state_names(self, own: list) -> list:
        names = [split_name(v, f"x{i + 1}") for i, v in enumerate(own)]
        names += [split_name(still.get("name", ""), f"held{i + 1}") for i, still in enumerate(self.held)]
        return names + [(f"last {self.input_names[l][0]}", self.input_names[l][1]) for l in self.last]

    def box(self) -> tuple[list, list]:
        """The least and the greatest values of the design's states."""
        box = self.text.get("box", {"hi": [1.0] * self.own})
        hi = [float(v) for v in box["hi"]]
        lo = [float(v) for v in box["lo"]] if "lo" in box else [-v for v in hi]
        for still in self.held:
            hi.append(float(still["hi"]))
            lo.append(float(still.get("lo", -still["hi"])))
        for l in self.last:
            least, most = self.reach_of_input(l)
            hi.append(most)
            lo.append(least)
        return lo, hi

    def reach_of_input(self, l: int) -> tuple[float, float]:
        """What an input's last value can be: as the box says, else within the limits on it alone and their tolerances."""
        if "last" in self.text.get("box", {}):
            most = float(self.text["box"]["last"][l])
            return -most, most
        least, most = -math.inf, math.inf
        for limit in self.text.get("limit", []):
            if self.input_alone(limit) == l:
                factors = limit["input"]
                ends = [(limit.get("least", -math.inf) - limit["tolerance"]) / factors[l], (limit.get("bound", math.inf) + limit["tolerance"]) / factors[l]]
                least, most = max(least, min(ends)), min(most, max(ends))
        if not -math.inf < least <= most < math.inf:
            refuse([f"box.last: is missing; the greatest last value of input {l + 1} is expected, since it is a state and no limits keep the input on both sides"])
        return least, most

    def input_alone(self, limit: dict) -> int | None:
        """The input on which alone a limit is, where it is on one."""
        factors = [l for l, factor in enumerate(limit.get("input", [])) if factor]
        return factors[0] if len(factors) == 1 and not any(any(limit.get(key, [])) for key in ("state", "held", "change")) else None

    def sample(self, a: numpy.ndarray, b: numpy.ndarray) -> None:
        """A and B of all states, in the design's coordinates."""
        into = numpy.array([still.get("into", [0.0] * self.own) for still in self.held], float).reshape(-1, self.own).T
        if self.text.get("sampled", False):
            moved = numpy.hstack([b, into])
        else:
            a, moved = hold(a, numpy.hstack([b, into]), self.period)
        own_b, into = moved[:, : self.p], moved[:, self.p :]
        held, last = len(self.held), len(self.last)
        natural, driven = numpy.zeros((self.n, self.n)), numpy.zeros((self.n, self.p))
        kept = self.own + held
        natural[: self.own, : self.own], natural[: self.own, self.own : kept] = a, into
        natural[self.own : kept, self.own : kept] = numpy.eye(held)
        for place, l in enumerate(self.last):
            driven[kept + place, l] = 1.0
        if self.delay or self.by_changes:
            natural[: self.own, kept:] = own_b
        if self.by_changes:
            natural[kept:, kept:] = numpy.eye(last)
        if not self.delay:
            driven[: self.own] = own_b
        self.a, self.b = self.to @ natural @ numpy.linalg.inv(self.to), self.to @ driven
        self.moving = (self.to[:, : self.own] @ own_b)[:kept]
        if not (numpy.all(numpy.isfinite(self.a)) and numpy.all(numpy.isfinite(self.b)) and max(abs(self.a).max(), abs(self.b).max()) < 1e9):
            refuse([f"a: over a period of {self.period:g} s the plant grows beyond 10^9: slower numbers, other units or a shorter period are expected"])

    def choose_units(self, units: dict) -> None:
        kept, reach = self.own + len(self.held), [max(abs(l), abs(h)) or 1.0 for l, h in zip(self.lo, self.hi)]
        states, inputs = units_for(self.a[:kept, :kept], self.moving, reach[:kept])
        # a state that is one number is 1 of its unit, so that its box holds it
        states = [abs(h) if l == h != 0 else unit for unit, l, h in zip(states, self.lo, self.hi)]
        states = list(units.get("states", states[: self.own])) + [still.get("unit", unit) for still, unit in zip(self.held, states[self.own :])]
        # a change that adds to the last input in a unit of its own, so that its row has little more than the 1 of the last input
        changes = list(units.get("changes", units.get("inputs", [neat(CHANGE * v) for v in inputs])))
        inputs = list(units.get("inputs", inputs))
        self.state_units = numpy.array(states + [inputs[l] for l in self.last], float)
        self.input_units = numpy.array(changes if self.by_changes else inputs, float)
        a, b = self.scaled()
        if not max(abs(a).max(), abs(b).max()) <= NUMERATOR:
            refuse(["units: units are expected in which no number of the plant is above 2^31"])

    def ends(self) -> tuple[list[int], list[int]]:
        """The box over 2^grid in the design's units: its least and its greatest values."""
        grid = int(self.text.get("box", {}).get("grid", 4))
        lo, hi = ([int(round(v / u * 2**grid)) for v, u in zip(values, self.state_units)] for values in (self.lo, self.hi))
        return lo, hi

    def scaled(self) -> tuple[numpy.ndarray, numpy.ndarray]:
        """A and B in the design's units."""
        into = 1 / self.state_units
        return into[:, None] * self.a * self.state_units[None, :], into[:, None] * self.b * self.input_units[None, :]

    def row(self, factors: dict) -> numpy.ndarray:
        """Factors over the model's states, held states, inputs and their changes, as factors over the design's states."""
        own = numpy.array(factors.get("state", [0.0] * self.own), float)
        held = numpy.array(factors.get("held", [0.0] * len(self.held)), float)
        # an input is its last value and its change, a change is the input less its last value
        of = numpy.array(factors.get("input", [0.0] * self.p), float) if self.by_changes else -numpy.array(factors.get("change", [0.0] * self.p), float)
        last = (of + numpy.array(factors.get("last", [0.0] * self.p), float))[self.last]
        return numpy.r_[own, held, last] @ numpy.linalg.inv(self.to) * self.state_units

    def planned(self, factors: dict) -> numpy.ndarray:
        """Factors over the inputs and their changes, as factors over the design's inputs."""
        return (numpy.array(factors.get("input", [0.0] * self.p), float) + numpy.array(factors.get("change", [0.0] * self.p), float)) * self.input_units


@dataclass
class Pole:
    """By what a stage multiplies, and for a continuous plant the pole over a second; how often it turns within a stage."""

    a_stage: complex
    a_second: complex | None
    turns: float

    @property
    def told(self) -> str:
        return number_words(self.a_stage) + (f" (pole {number_words(self.a_second)} /s)" if self.a_second is not None else "")


def number_words(value: complex) -> str:
    """A number of a pair with its other."""
    real = plain(value.real if abs(value.real) > 1e-12 else 0.0)
    return real if abs(value.imag) < 1e-9 * max(1.0, abs(value)) else f"{real} ± {plain(abs(value.imag))}j"


def poles_of(model: "Model") -> list[Pole]:
    """The poles of a model's own states, one of each pair, what grows most first."""
    a, sampled = numpy.array(model.text["a"], float), model.text.get("sampled", False)
    values = [v for v in numpy.linalg.eigvals(a) if v.imag >= 0]
    with numpy.errstate(all="ignore"):
        made = [Pole(v, None, 0.0) if sampled else Pole(numpy.exp(v * model.period), v, abs(v.imag) * model.period / (2 * math.pi)) for v in values]
    return sorted(made, key=lambda pole: -abs(pole.a_stage))


def refuse_growth(model: "Model") -> None:
    """Ends where a pole multiplies more over a stage, or over the horizon, than plans could follow: with the pole, before anything is searched."""
    pole = poles_of(model)[0]
    grown, far = abs(pole.a_stage), abs(pole.a_stage) ** model.stages
    if grown > MOST_GROWTH or far > MOST_FAR:
        key, other = ("a", "a plant") if model.text.get("sampled") else ("period", "a shorter period, or a plant")
        expected = f"{other} that grows by at most {MOST_GROWTH} a stage, and fewer stages than take it beyond {MOST_FAR:g} are expected"
        refuse([f"{key}: a stage multiplies a state by {pole.told}, {model.stages} stages by {plain(far)}: {expected}"])


def refuse(faults: list[str]) -> None:
    """Ends with these faults, a line each, where there are any."""
    if faults:
        raise Refusal("\n".join(faults))


def split_name(text: str, other: str) -> tuple[str, str]:
    """A name and its unit."""
    words = text.split()
    return (text or other, "") if len(words) < 2 else (" ".join(words[:-1]), words[-1])


def named(words: tuple[str, str], size: float) -> Name:
    return Name(words[0], float(size), words[1] or ("units" if size != 1 else ""))


def hold(a: numpy.ndarray, b: numpy.ndarray, period: float) -> tuple[numpy.ndarray, numpy.ndarray]:
    """The plant over one period with its input held: exact for a continuous model."""
    n, p = b.shape
    both = numpy.block([[a, b], [numpy.zeros((p, n + p))]]) * period
    if not numpy.all(numpy.isfinite(both)) or abs(both).sum(1).max() > 1e6:
        refuse([f"period: a period in which the plant changes less than 10^6 times is expected, and {period:g} stands there"])
    both = scipy.linalg.expm(both)
    return both[:n, :n], both[:n, n:]


def neat(value: float) -> float:
    """A number of two digits."""
    return float(f"{value:.2g}")


def units_for(a: numpy.ndarray, b: numpy.ndarray, reach: list) -> tuple[list, list]:
    """Units in which the row sums of |A| + |B| are small: the growth of |A| between the box's sizes, and inputs in units that add 15 %."""
    box = numpy.array(reach, float)
    coupled = abs(a) * box[None, :] / box[:, None] + 0.05
    values, vectors = numpy.linalg.eig(coupled)
    states = box * abs(vectors[:, numpy.argmax(values.real)].real)
    inputs = numpy.array([0.15 / max(max(abs(b[:, l]) / states), 1e-12) for l in range(b.shape[1])])
    scale = 16 / max(box / states)
    return [neat(v / scale * 4) for v in states], [neat(v / scale * 4) for v in inputs]


# ---- where models are


def toml_of(text: str) -> dict:
    try:
        return tomllib.loads(text)
    except (ValueError, RecursionError) as fault:
        raise Refusal(f"no TOML document: {fault}") from None


def json_of(text: str) -> dict:
    try:
        value = json.loads(text)
    except (ValueError, RecursionError) as fault:
        raise Refusal(f"no JSON document: {fault}") from None
    refuse([] if isinstance(value, dict) else ["the model: an object of keys is expected"])
    return value


def text_in(data: bytes) -> str:
    try:
        return data.decode("utf-8-sig")
    except UnicodeDecodeError as fault:
        raise Refusal(f"no UTF-8: {fault.reason} at byte {fault.start + 1}") from None


def matrices_of(path: str) -> dict[str, Any]:
    """The variables of a .mat, or the fields of the struct in it that has A and B, as lists and numbers."""
    try:
        found = scipy.io.loadmat(path)
    except OSError:
        raise
    except Exception as fault:  # scipy has many words for a file that is none
        raise Refusal(f"no .mat file that scipy reads, of version 7 at most: {fault}") from None
    fields = {key: value for key, value in found.items() if not key.startswith("__")}
    for value in list(fields.values()):
        names = getattr(getattr(value, "dtype", None), "names", None)
        if names and value.size == 1 and {"A", "B"} <= set(names):
            fields = {key: value.reshape(-1)[0][key] for key in names}
    plain = lambda value: value.toarray().tolist() if hasattr(value, "toarray") else value.tolist() if hasattr(value, "tolist") else value
    return {key: plain(value) for key, value in fields.items() if getattr(getattr(value, "dtype", None), "kind", "") in "biufc" or hasattr(value, "toarray")}


def plant_of(found: dict[str, Any], path: str) -> dict[str, Any]:
    """The keys of a model that a plant's variables give: A and B, and of a sampled plant its period (Ts or dt)."""
    lower = {"A": "a", "B": "b"}
    plant = {lower.get(key, key): value for key, value in found.items() if key in ("A", "B", "a", "b")}
    refuse([f"plant: {path} has no {key.upper()}" for key in ("a", "b") if key not in plant])
    period = next((found[key] for key in ("Ts", "dt") if key in found), None)
    while isinstance(period, list) and len(period) == 1:
        period = period[0]
    if period in (None, 0, []):
        return plant
    if period is True or period == -1:
        return plant | {"sampled": True}
    return plant | {"sampled": True, "period": period}


def with_plant(model: dict[str, Any], folder: str) -> dict[str, Any]:
    """A model with the plant of the file that it names."""
    path = model.get("plant")
    if "plant" not in model:
        return model
    refuse(["plant: the name of a .mat or .json is expected"] if not isinstance(path, str) or not path.endswith((".mat", ".json")) or "\0" in path else [])
    refuse([f"{key}: is given by plant, too" for key in ("a", "b") if key in model])
    path = os.path.join(folder, str(path))
    plant = plant_of(matrices_of(path) if path.endswith(".mat") else json_of(text_in(read_bytes(path))), path)
    if "period" in plant and "period" in model and model["period"] != plant["period"]:
        refuse([f"period: {plant['period']} is expected, which the plant of {path} is sampled with, and {model['period']} stands there"])
    return {key: value for key, value in model.items() if key != "plant"} | plant


def of_control(model: dict[str, Any]) -> dict[str, Any]:
    """A model whose plant stands in it as A, B, C, D and dt, as python-control has it, with our keys."""
    if not {"A", "B"} <= set(model):
        return model
    rest = {key: value for key, value in model.items() if key not in ("A", "B", "C", "D", "dt", "Ts", "name")}
    names = {"state_labels": "states", "input_labels": "inputs"}
    rest = {names.get(key, key): value for key, value in rest.items() if key != "output_labels"}
    return rest | plant_of(model, "the model")


def read_model(path: str, plant_alone: bool = False) -> Model:
    """The model of a file, or its plant where it has no cost and no box; Refusal, with the file's name in each line, where something is wrong with it."""
    data = b"" if path.endswith(".mat") else read_bytes(path)
    try:
        if path.endswith(".mat"):
            raise Refusal(f'a .mat has a plant alone: a text with limits, cost and box is expected, that names it by plant = "{os.path.basename(path)}"')
        text = text_in(data)
        model = of_control(json_of(text)) if path.endswith(".json") else toml_of(text)
        return Model(with_plant(model, os.path.dirname(path)), plant_alone)
    except Refusal as fault:
        raise Refusal("\n".join(f"{path}: {line}" for line in str(fault).splitlines())) from None


def grid_disturbances(model: Model, design: Design) -> tuple[list[int], list[int]]:
    """The least and the greatest that is added to a next state, over `2^grid`."""
    own = [math.ceil(v / u * 2**design.grid - 1e-9) for v, u in zip(model.disturbed, model.state_units)]
    most = own + [0] * (design.states - len(own))
    return [-v for v in most], most
