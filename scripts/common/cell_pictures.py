"""The cells of a box over two coordinates, each with its K."""
from .libraries import need

need("matplotlib")
import matplotlib.pyplot as pyplot
from matplotlib.colors import LogNorm
from matplotlib.figure import Figure
from matplotlib.patches import Rectangle

from .design_text import Design

FEW = 100


def axes_of(cells: list) -> list[int]:
    """The two coordinates, from 0, with the most parts; the first two where these are as many."""
    parts = [len({cell.design.lo[i] for cell in cells}) for i in range(cells[0].design.states)]
    return sorted(sorted(range(len(parts)), key=lambda i: -parts[i])[:2])


def shown_in(design: Design, cells: list, axes: list[int]) -> list:
    """The cells that hold the middle of the box in all other coordinates."""
    middle = [(low + high) // 2 for low, high in zip(design.lo, design.hi)]
    others = [i for i in range(design.states) if i not in axes]
    return [cell for cell in cells if all(cell.design.lo[i] <= middle[i] <= cell.design.hi[i] for i in others)]


def draw(design: Design, cells: list) -> Figure:
    """Each cell as a rectangle, darker the more steps it takes. A box of one coordinate is drawn as high as wide."""
    axes = axes_of(cells)
    names = [design.name("state", i + 1) for i in axes]
    sizes = [name.size / 2**design.grid for name in names]
    figure, plane = pyplot.subplots(figsize=(6.4, 4.2))
    steps = [cell.steps for cell in cells]
    colors = LogNorm(min(steps), max(max(steps), min(steps) + 1))
    kept = shown_in(design, cells, axes)
    for cell in kept:
        ends = [(cell.design.lo[i] * size, cell.design.hi[i] * size) for i, size in zip(axes, sizes)] + [(0.0, 1.0)] * (2 - len(axes))
        (left, right), (low, high) = ends
        shade = colors(cell.steps)
        plane.add_patch(Rectangle((left, low), right - left, high - low, facecolor=pyplot.cm.Blues(0.15 + 0.7 * shade), edgecolor="white", linewidth=1.0))
        if len(kept) <= FEW:
            plane.text((left + right) / 2, (low + high) / 2, str(cell.steps), ha="center", va="center", fontsize=8, color="white" if shade > 0.6 else "black")
    plane.autoscale_view()
    plane.set_xlabel(f"{names[0].word} {names[0].unit}".strip(), fontsize=8)
    if len(axes) > 1:
        plane.set_ylabel(f"{names[1].word} {names[1].unit}".strip(), fontsize=8)
    plane.tick_params(labelsize=7)
    figure.tight_layout()
    return figure
