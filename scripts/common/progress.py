"""How far a command is, on a terminal alone: a file or a pipe is told nothing."""
import os
import sys
import time
from types import TracebackType

# nothing is told in the first seconds, and then at most so often
FIRST, EVERY = 2.0, 0.5


class Progress:
    """Counts up to a whole, and tells it on standard error where that is a terminal: `1200 of 1000000 states`."""

    def __init__(self, what: str, whole: int) -> None:
        self.what, self.whole, self.began, self.told, self.done = what, whole, time.monotonic(), 0.0, 0
        self.shows = sys.stderr is not None and sys.stderr.isatty()

    def __enter__(self) -> "Progress":
        return self

    def __exit__(self, kind: type[BaseException] | None, fault: BaseException | None, trace: TracebackType | None) -> None:
        self.clear()

    def clear(self) -> None:
        """Takes the line away."""
        if self.told:
            sys.stderr.write("\r\033[K")
            sys.stderr.flush()

    def reach(self, done: int) -> None:
        self.done = done
        self.tell(f"{done} of {self.whole} {self.what}")

    def tell(self, words: str) -> None:
        """These words, where a terminal waits for some already."""
        now = time.monotonic()
        if self.shows and now - self.began > FIRST and now - self.told > EVERY:
            self.told = now
            sys.stderr.write(f"\r\033[K{os.path.basename(sys.argv[0])}: {words}")
            sys.stderr.flush()
