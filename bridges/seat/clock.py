"""When ticks are due, by the machine's steady clock."""
import time

# A tick is 2 hundredths of a second of the show. All moments here are nanoseconds of the steady clock.
TICK = 20_000_000
# Where a tick is later than this, the clock begins afresh: the program was stopped, and the show is not to leap.
AFRESH = 1_000_000_000


class Clock:
    """Ticks that don't drift: the n-th is due n times 20 ms after the start, however late the ones before it were.

    Where ticks are late they are due at once, until all are caught up.
    """

    def __init__(self) -> None:
        """Begins now."""
        self._start = time.monotonic_ns()
        self._ticks = 0
        self.late = 0
        self.worst = 0
        self.pauses = 0

    def seconds_left(self) -> float:
        """Seconds until the next tick is due."""
        return max(0, self._next() - time.monotonic_ns()) / 1e9

    def take(self) -> int:
        """How many ticks are due now. They count as done; `late` is how late the first of them is."""
        late = time.monotonic_ns() - self._next()
        if late < 0:
            return 0
        if late > AFRESH:
            self._start, self._ticks, late = time.monotonic_ns() - TICK, 0, 0
            self.pauses += 1
        ticks = 1 + late // TICK
        self._ticks += ticks
        self.late, self.worst = late, max(self.worst, late)
        return ticks

    def _next(self) -> int:
        """When the next tick is due."""
        return self._start + (self._ticks + 1) * TICK
