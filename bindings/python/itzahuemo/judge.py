"""The verdict on a recorded run."""

from __future__ import annotations

from dataclasses import dataclass
from typing import Iterable, Optional

from ._library import Octets, answer, call, octets, room
from .channel import Settings

_PASS = 1


@dataclass(frozen=True)
class Verdict:
    """How a run stands: `fault` is None where a conforming transmitter can have sent it, and else the index, from 0, of the first frame
    that breaks the rules, or the number of frames where the run ends within a packet. As a condition it is true for a pass alone."""

    fault: Optional[int]

    def __bool__(self) -> bool:
        return self.passed

    @property
    def passed(self) -> bool:
        """Whether there is no fault."""
        return self.fault is None

    def __str__(self) -> str:
        return "pass" if self.fault is None else f"fault {self.fault}"


class Judge:
    """Judges a recorded run, frame by frame or a tape of frames at a time."""

    def __init__(self, settings: Settings) -> None:
        self.settings = settings
        self._record = answer(4)
        self._store = room(settings.limit)

    def frame(self, frame: Octets) -> None:
        """Takes the run's next frame, of any octets. One beyond the 16,777,216th raises `Refused`."""
        call("judge_frame", self.settings.numbers(), self._record, self._store, octets(frame))

    def tape(self, tape: Octets) -> None:
        """Takes the run's next frames, any number of them end to end, each of `settings.frame_length` octets; an empty tape has none. The
        judge then stands as if they had been taken one by one. A tape with a frame beyond the 16,777,216th (`Refusal.LAST`), or one that
        ends within a frame (`Refusal.LENGTH`), which is no fault of the run, raises `Refused`; then no frame of it is taken."""
        call("judge_tape", self.settings.numbers(), self._record, self._store, octets(tape))

    def verdict(self) -> Verdict:
        """How the run stands if it ends here."""
        said = answer(2)
        call("judge_close", self.settings.numbers(), self._record, self._store, said)
        return Verdict(None if said[0] == _PASS else said[1])


def judge(settings: Settings, frames: Iterable[Octets]) -> Verdict:
    """The verdict on a whole run."""
    taking = Judge(settings)
    for frame in frames:
        taking.frame(frame)
    return taking.verdict()
