"""Runs a command of this package: nuddrwyn NAME ..; where none is named, it lists them."""
import os
import pkgutil
import runpy
import sys


def main() -> None:
    names = sorted(module.name for module in pkgutil.iter_modules([os.path.dirname(__file__)]) if not module.ispkg and module.name != "__main__")
    if sys.argv[1:2] in ([], ["--help"]):
        print("nuddrwyn NAME ..\n\n    " + "\n    ".join(names))
    elif sys.argv[1] not in names:
        sys.exit(f"nuddrwyn: `{sys.argv[1]}` is none of its commands: {', '.join(names)}")
    else:
        del sys.argv[0]
        runpy.run_module(f"{__package__}.{sys.argv[0]}", run_name="__main__", alter_sys=True)


if __name__ == "__main__":
    main()
