"""The time that a search has: it is told every few seconds, in a file too, how far the search is and what is best so far; an interrupt ends it, and the best is kept."""
import signal
import sys
import threading
import time
from types import FrameType, TracebackType
from typing import Any

from .libraries import say

EVERY = 4.0


class Budget:
    """Counts trials up to a time. Within it lines are told whatever the search does, and an interrupt ends no more than the search; a second one ends the command."""

    def __init__(self, seconds: float) -> None:
        self.seconds, self.trials, self.best, self.ended = seconds, 0, "nothing yet", False
        self.began = time.monotonic()
        self.left = threading.Event()
        self.before: Any = None
        self.teller: threading.Thread | None = None

    def __enter__(self) -> "Budget":
        self.before = signal.signal(signal.SIGINT, self.interrupted)
        # what a trial says may be kept from standard error, and these lines are not
        if sys.stderr is not None:
            self.teller = threading.Thread(target=self.tell, args=(sys.stderr,), daemon=True)
            self.teller.start()
        return self

    def __exit__(self, kind: type[BaseException] | None, fault: BaseException | None, trace: TracebackType | None) -> None:
        self.left.set()
        if self.teller is not None:
            self.teller.join()
        signal.signal(signal.SIGINT, self.before)

    def tell(self, out: Any) -> None:
        """A line every few seconds, until it is left."""
        while not self.left.wait(EVERY):
            print(f"{min(100, round(100 * self.part))} % of {self.seconds:g} s, {self.trials} trials: {self.best}", file=out, flush=True)

    def interrupted(self, number: int, frame: FrameType | None) -> None:
        if self.ended:
            raise KeyboardInterrupt
        self.ended = True
        say("interrupted: the best so far is kept")

    @property
    def part(self) -> float:
        """How much of the time is gone."""
        return (time.monotonic() - self.began) / self.seconds

    def goes_on(self, part: float = 1.0) -> bool:
        """Whether one more trial may begin, within this part of the time."""
        self.trials += 1
        return not self.ended and self.part < part
