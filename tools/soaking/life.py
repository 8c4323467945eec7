"""A desk that is killed and started again at random, and what is seen of its process meanwhile."""
from __future__ import annotations

import random
import time

from serving import Serving


class Life:
    """The desk's life: it is killed some seconds after it began to listen, until the soak is over.

    `turns` is even while the desk is there, and grows by one with each kill and each start."""

    def __init__(self, desk: Serving, seconds: float, seed: str) -> None:
        self.desk, self.end, self.chance = desk, time.monotonic() + seconds, random.Random(f"{seed} life")
        self.turns = 0
        self.failed = ""
        self.samples: list[tuple[int, int]] = []

    def is_over(self) -> bool:
        return bool(self.failed) or time.monotonic() > self.end

    def was_away(self, began: int) -> bool:
        """Whether the desk was away at some time since its turns were so many."""
        return began % 2 == 1 or self.turns != began

    def wait(self) -> None:
        """Waits until the desk is there."""
        while self.turns % 2 == 1 and not self.failed:
            time.sleep(0.01)

    @property
    def kills(self) -> int:
        return (self.turns + 1) // 2

    def run(self) -> None:
        """Kills the desk and starts it again, and looks at its memory and its descriptors each second."""
        while not self.is_over():
            until = time.monotonic() + self.chance.uniform(1, 20)
            while time.monotonic() < min(until, self.end):
                time.sleep(min(1, max(0.0, until - time.monotonic())))
                self.sample()
            if not self.is_over():
                self.kill_and_start()

    def sample(self) -> None:
        try:
            self.samples.append((self.desk.memory(), self.desk.descriptors()))
        except (OSError, AttributeError):
            self.failed = self.failed or f"the desk ended by itself with {self.desk.program.poll()}"

    def kill_and_start(self) -> None:
        """One kill. Before the next start the desk may be away for a moment."""
        self.turns += 1
        self.desk.kill()
        time.sleep(self.chance.choice((0, 0, self.chance.uniform(0, 0.5))))
        self.desk.start()
        if self.desk.listens():
            self.turns += 1
        else:
            self.failed = f"the desk doesn't listen after kill {self.kills}: it ended with {self.desk.program.poll()}"

    def most(self) -> tuple[tuple[int, int], tuple[int, int]]:
        """The most memory in kilobytes and the most descriptors, in the first and in the second half of the soak."""
        half = max(1, len(self.samples) // 2)
        first, second = self.samples[:half], self.samples[half:] or self.samples[:half]
        return most_of(first), most_of(second)


def most_of(samples: list[tuple[int, int]]) -> tuple[int, int]:
    """The most memory and the most descriptors in some samples."""
    return max(memory for memory, _ in samples), max(files for _, files in samples)
