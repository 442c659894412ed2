"""The field's libraries, or the name of the package that brings one; and a script's end without a traceback."""
import importlib.util
import os
import signal
import sys
from collections.abc import Callable
from typing import NoReturn

PACKAGES = {"numpy": "python3-numpy", "scipy": "python3-scipy", "cvxopt": "python3-cvxopt", "matplotlib": "python3-matplotlib", "jsonschema": "python3-jsonschema"}
# these matrices are small, and threads for them only wait for each other
for _name in ("OMP_NUM_THREADS", "OPENBLAS_NUM_THREADS"):
    os.environ.setdefault(_name, "1")
SYSTEM = "/usr/bin/python3"
# names the Python that the launcher runs scripts with; where it is set, no other is tried
PYTHON = "MPC_PYTHON"


class Refusal(ValueError):
    """What is wrong with a file or an argument, in lines that stand alone, and the exit status of it."""

    def __init__(self, words: str, status: int = 1) -> None:
        super().__init__(words)
        self.status = status


def missing(*names: str) -> list[str]:
    """Those of these libraries that this Python doesn't have."""
    return [name for name in names if importlib.util.find_spec(name) is None]


def need(*names: str) -> None:
    """Goes on where all of these libraries are there. Else the script starts anew with the system's Python, which the packages serve; where that lacks one too,
    it ends with the package's name. What was installed stays with the Python that it was installed for."""
    lacking = missing(*names)
    if not lacking:
        return
    if __name__ == "scripts.common.libraries" and os.path.exists(SYSTEM) and os.path.realpath(SYSTEM) != os.path.realpath(sys.executable) and PYTHON not in os.environ:
        os.environ[PYTHON] = SYSTEM
        os.execv(SYSTEM, [SYSTEM, *sys.orig_argv[1:]])
    packages = " ".join(PACKAGES[name] for name in lacking)
    sys.exit(f"{os.path.basename(sys.argv[0])}: {sys.executable} has no {' and no '.join(lacking)}: apt-get install {packages}")


def say(*words: object) -> None:
    """A line on standard error, where there is one."""
    if sys.stderr is not None:
        print(*words, file=sys.stderr)


def run(main: Callable[[], int | None]) -> NoReturn:
    """Ends with the answer of `main`, or with a line where a file can't be read or written or isn't of the form that it should have, never with a traceback. A closed pipe ends it
    quietly."""
    signal.signal(signal.SIGPIPE, signal.SIG_DFL)
    status = answered(main)
    # what is printed reaches the output here, and no later
    flushed = answered(lambda: sys.stdout.flush() if sys.stdout else None)
    if flushed:
        os._exit(flushed)
    sys.exit(status)


def answered(call: Callable[[], int | None]) -> int:
    """The exit status of a call, its fault said."""
    name = os.path.basename(sys.argv[0])
    try:
        return call() or 0
    except SystemExit as ended:
        if isinstance(ended.code, int) or ended.code is None:
            return ended.code or 0
        say(ended.code)
    except Refusal as fault:
        say("\n".join(f"{name}: {line}" for line in str(fault).splitlines()))
        return fault.status
    except OSError as fault:
        say(f"{name}: {fault.filename or 'standard output'}: {fault.strerror}")
    except KeyError as fault:
        say(f"{name}: a file lacks {fault}: {name} --help says what it should have")
    except (ValueError, TypeError, IndexError, AttributeError, ArithmeticError, RecursionError) as fault:
        say(f"{name}: a file has not the form that it should have: {fault}")
    except KeyboardInterrupt:
        return 130
    except MemoryError:
        say(f"{name}: out of memory")
    return 1
