"""The program, by its launcher, as the scripts run it."""
import os
import shutil
import subprocess
import sys
import tempfile

from .texts import records_text

BESIDE = os.path.join(os.path.dirname(os.path.dirname(os.path.dirname(os.path.realpath(__file__)))), "mpc")
# that of the checkout; of an installed package the first on the path
LAUNCHER = BESIDE if os.path.exists(BESIDE) else shutil.which("mpc") or "mpc"


def solved(controller: str, states: list[list[int]], launcher: str = LAUNCHER) -> list[str]:
    """The lines that the program prints for these states; where it refuses, this ends with its status."""
    with tempfile.NamedTemporaryFile("w", suffix=".csv") as file:
        file.write(records_text(states))
        file.flush()
        got = subprocess.run([launcher, "solve", controller, file.name], stdout=subprocess.PIPE, text=True)
    if got.returncode:
        sys.exit(got.returncode)
    return got.stdout.splitlines()
