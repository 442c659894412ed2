"""Pictures as files: by the end of a name, and the same bytes for the same picture."""
import io
import os

from .libraries import Refusal, need

need("matplotlib")
import matplotlib

matplotlib.use("Agg")
from matplotlib.figure import Figure

from . import files

SALT = "loop"
# by the end of a name, with what keeps the same lines the same bytes
FORMATS = {".svg": {"Date": None}, ".pdf": {"CreationDate": None}, ".png": {}}


def format_of(path: str) -> str:
    """The end of a picture's name."""
    end = os.path.splitext(path)[1].lower()
    if end not in FORMATS:
        raise Refusal(f"{path} ends in none of {', '.join(FORMATS)}: the name says the picture's format", 2)
    return end


def prepare() -> None:
    """What keeps the same picture the same bytes, with text as text."""
    matplotlib.rcParams["svg.hashsalt"], matplotlib.rcParams["svg.fonttype"] = SALT, "none"


def write(figure: Figure, path: str) -> None:
    """Writes a figure whose parts were made after `prepare`."""
    end, picture = format_of(path), io.BytesIO()
    figure.savefig(picture, format=end[1:], metadata=FORMATS[end])
    files.write(path, picture.getvalue())
