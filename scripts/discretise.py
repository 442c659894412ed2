"""Samples a continuous model and rounds it to whole numerators over a denominator, and says what rounding does.

    ./mpc discretise MODEL [--den D ..]

For each denominator (8 to 1024 where none is given) it prints the greatest row sum of |a| + |b| over den, the bits of `prediction` where numbers are exact and where
they are enclosures, the poles before and after, and by how much the step responses of the stages are off; and it warns of each coupling that is rounded to 0. With
one denominator, given or named by the model, it prints the plant table of the design. How a model is written: ./mpc draft --help.
"""
from .common.libraries import need, run

need("numpy", "scipy")
import numpy

from .common.arguments import Parser, several
from .common.design_text import plain
from .common.models import Model, read_model

# what responses may be off by where no denominator is named
WITHIN = 0.001


def rounded(a: numpy.ndarray, b: numpy.ndarray, den: int) -> tuple[numpy.ndarray, numpy.ndarray]:
    """The numerators over den."""
    return numpy.rint(a * den).astype(int), numpy.rint(b * den).astype(int)


def lost(a: numpy.ndarray, b: numpy.ndarray, den: int) -> list[str]:
    """The couplings that are rounded to 0, as words."""
    out = []
    for word, exact, whole in zip("ab", (a, b), rounded(a, b, den)):
        for (i, j), v in numpy.ndenumerate(exact):
            if whole[i, j] == 0 and abs(v) > max(1e-9, 1e-3 * abs(exact).max()):
                out.append(f"{word}[{i + 1}][{j + 1}] = {plain(v)}")
    return out


def step_responses(a: numpy.ndarray, b: numpy.ndarray, stages: int) -> numpy.ndarray:
    state, out = numpy.zeros(b.shape), []
    for _ in range(stages):
        state = a @ state + b
        out.append(state)
    return numpy.array(out)


def response_error(a: numpy.ndarray, b: numpy.ndarray, den: int, stages: int) -> float:
    """By how much the step responses are off, as a part of each state's greatest."""
    whole_a, whole_b = rounded(a, b, den)
    exact, other = step_responses(a, b, stages), step_responses(whole_a / den, whole_b / den, stages)
    return float((abs(exact - other).max((0, 2)) / (abs(exact).max((0, 2)) + 1e-12)).max())


def free_error(a: numpy.ndarray, b: numpy.ndarray, den: int, stages: int, reach: list) -> float:
    """By how much the responses to states of the box are off, as a part of each state's greatest."""
    box = numpy.diag(numpy.array(reach, float))
    exact, other, most, off = box, box, abs(box).max(1), numpy.zeros(len(a))
    whole_a = rounded(a, b, den)[0] / den
    for _ in range(stages):
        exact, other = a @ exact, whole_a @ other
        most, off = numpy.maximum(most, abs(exact).max(1)), numpy.maximum(off, abs(exact - other).max(1))
    return float((off / (most + 1e-12)).max())


def responses_error(a: numpy.ndarray, b: numpy.ndarray, den: int, stages: int, reach: list) -> float:
    """By how much the step responses or those to states of the box are off."""
    return max(response_error(a, b, den, stages), free_error(a, b, den, stages, reach))


def least_den(a: numpy.ndarray, b: numpy.ndarray, stages: int, reach: list) -> int:
    """The least power of two at which responses are within 0.1 % and no coupling is lost; the greatest denominator where there is none."""
    dens = [2**k for k in range(21)]
    return next((den for den in dens if not lost(a, b, den) and responses_error(a, b, den, stages, reach) <= WITHIN), dens[-1])


def row_sum(a: numpy.ndarray, b: numpy.ndarray, den: int) -> int:
    """The greatest row sum of |a| + |b|, of numerators."""
    whole_a, whole_b = rounded(a, b, den)
    return int((abs(whole_a).sum(1) + abs(whole_b).sum(1)).max())


def growth_bits(sum_: int, den: int, stages: int) -> tuple[float, float]:
    """`prediction` in bits: of exact numbers, and of enclosures over 2^40."""
    return stages * numpy.log2(sum_), 40 + numpy.log2(sum_) + stages * numpy.log2(sum_ / den)


def poles(a: numpy.ndarray) -> str:
    return ", ".join(
        plain(v.real) if abs(v.imag) < 1e-9 else f"{plain(v.real)}{'+' if v.imag > 0 else '-'}{plain(abs(v.imag))}j"
        for v in sorted(numpy.linalg.eigvals(a), key=lambda v: (-abs(v), v.imag))
    )


def tell(model: Model, den: int) -> None:
    a, b = model.scaled()
    sum_, stages = row_sum(a, b, den), model.stages
    exact, fine = growth_bits(max(sum_, den), den, stages)
    print(
        f"den {den}: row sums up to {sum_}/{den}, {stages} stages of it pass {plain(exact)} bits of 126, in enclosures {plain(fine)}; "
        f"step responses off by {plain(100 * response_error(a, b, den, stages))} %"
    )
    print(f"  poles {poles(a)} -> {poles(rounded(a, b, den)[0] / den)}")
    for word in lost(a, b, den):
        print(f"  warning: {word} is rounded to 0: a finer denominator or other units are needed")


def main() -> int:
    parser = Parser(__doc__)
    parser.add_argument("model", metavar="MODEL")
    parser.add_argument("--den", type=several, nargs="+")
    given = parser.parse_args()
    model = read_model(given.model, plant_alone=True)
    dens = given.den or ([model.den] if model.den else [2**k for k in range(3, 11)])
    print("units of states", ", ".join(map(plain, model.state_units)) + "; of inputs", ", ".join(map(plain, model.input_units)))
    for den in dens:
        tell(model, den)
    if len(dens) == 1:
        whole_a, whole_b = rounded(*model.scaled(), dens[0])
        print(f"[plant]\nden = {dens[0]}\na = {whole_a.tolist()}\nb = {whole_b.tolist()}")
    return 0


if __name__ == "__main__":
    run(main)
