"""Which cue runs when: the rules of keys, follow-ons and rest, over cue numbers and times alone. No level is worked out here.

The program's replies don't tell the position, so it is followed by the rules of docs/FORMATS.md; view/test.py asks the program for it.
"""
from dataclasses import dataclass, field

BACK = 500
RUNS = 512


@dataclass
class Structure:
    """Of each cue in rising order: its key in thousandths, its number, its follow-on time and how long a run of it takes, in hundredths."""
    keys: list[int] = field(default_factory=list)
    cues: dict[int, tuple[str, int | None, int]] = field(default_factory=dict)

    def above(self, key: int) -> int | None:
        """The next cue above a number."""
        return next((each for each in self.keys if each > key), None)

    def below(self, key: int) -> int | None:
        """The cue below a number."""
        return next((each for each in reversed(self.keys) if each < key), None)


@dataclass
class Playback:
    """One cue list's position, the ends of its live runs and the moment at which its follow-on is due."""
    base: int = 0
    live: list[tuple[int, int]] = field(default_factory=list)
    due: int | None = None

    def position(self) -> int:
        """The cue that runs, or ran last."""
        return self.live[-1][0] if self.live else self.base

    def press(self, words: list[str], now: int, structure: Structure) -> None:
        """A key that the program accepted."""
        position = self.position()
        if words[0] == "settle":
            self.base, self.live, self.due = position, [], None
        elif words[0] == "back":
            self.live.append((structure.below(position), now + BACK))
            self.due = None
        else:
            self.run(key_of(words[1]) if words[0] == "goto" else structure.above(position), now, structure)

    def run(self, key: int, now: int, structure: Structure) -> None:
        """A run of a cue in its own times."""
        _, follow, longest = structure.cues[key]
        self.live.append((key, now + longest))
        self.due = None if follow is None else now + follow

    def tick(self, now: int, structure: Structure) -> bool:
        """The tick that ends at this moment; whether a cue followed by itself."""
        fired = False
        if self.due is not None and self.due <= now:
            self.due, above = None, structure.above(self.position())
            if above is not None and len(self.live) < RUNS:
                self.run(above, now, structure)
                fired = True
        if self.live and self.due is None and not self.busy(now):
            self.base, self.live = self.position(), []
        return fired

    def busy(self, now: int) -> bool:
        """Whether a level may change at the next tick."""
        return any(end > now for _, end in self.live)


def key_of(number: str) -> int:
    """A cue number in thousandths."""
    whole, _, parts = number.partition(".")
    return int(whole or 0) * 1000 + int(parts.ljust(3, "0"))


def hundredths(text: str) -> int:
    """A time of a canonical text."""
    whole, _, parts = text.partition(".")
    return int(whole) * 100 + int(parts.ljust(2, "0"))


def structure_of(text: str) -> Structure:
    """The cues of a canonical text, of which the moves may be left out."""
    structure, key = Structure(), 0
    for line in text.split("\n"):
        word, _, rest = line.partition(" ")
        if word == "CUE":
            key = key_of(rest)
            structure.keys.append(key)
            structure.cues[key] = (rest, None, 0)
        elif key and word in ("UP", "DOWN"):
            number, follow, longest = structure.cues[key]
            structure.cues[key] = (number, follow, max(longest, sum(map(hundredths, rest.split()))))
        elif key and word == "FOLLOWON":
            number, _, longest = structure.cues[key]
            structure.cues[key] = (number, hundredths(rest), longest)
    return structure
