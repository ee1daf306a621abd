"""Packets out of frames."""

from __future__ import annotations

import enum
from dataclasses import dataclass
from typing import Any, Optional, Union

from ._library import Damage, Octets, answer, call, damage_of, octets, room
from .channel import Settings
from .packets import Front, Header, read_header

# What the calls answer.
_STEP_DAMAGED, _STEP_SPENT = 3, 4
_IN_FRAME = 1


class Reason(enum.IntEnum):
    """Why a frame does not go on from what came before it."""

    NONE = 0
    LOST = 1
    POINTER = 2
    DAMAGED = 3


@dataclass(frozen=True)
class Entered:
    """What a frame says as it is entered: its count (of 24 or 28 bits, by the edition) and replay flag, the frames missing before it
    (modulo 2^24 or 2^28), the held octets that were dropped, and why. `damage` is what is wrong with the held header where the reason is
    `Reason.DAMAGED`, and None with any other."""

    count: int
    replay: bool
    lost: int
    dropped: int
    reason: Reason
    damage: Optional[Damage] = None


@dataclass(frozen=True)
class Packet:
    """A whole packet, idle ones too."""

    header: Header
    octets: bytes


@dataclass(frozen=True)
class Damaged:
    """No packet can begin where one should, and why; the rest of the zone is given up."""

    damage: Damage


Event = Union[Entered, Packet, Damaged]


class Extractor:
    """Takes packets out of the frames of a channel, and says what is missing between them."""

    def __init__(self, settings: Settings) -> None:
        self.settings = settings
        self._record = answer(4)
        self._store = room(settings.limit)

    def feed(self, frame: Octets) -> list[Event]:
        """All that a frame brings, first what it says as it is entered. A frame that is not of this channel, or whose trailer is wrong,
        raises `Refused`, and the extractor goes on as if it had not been there."""
        lent = octets(frame)
        events: list[Event] = [self._enter(lent)]
        while True:
            step = answer(5)
            call("extractor_step", self.settings.numbers(), self._record, self._store, lent, step)
            found, *_part, damage = step
            if found == _STEP_SPENT:
                return events
            events.append(Damaged(Damage(damage)) if found == _STEP_DAMAGED else self._packet(lent, step))

    def _enter(self, frame: Any) -> Entered:
        said = answer(7)
        call("extractor_enter", self.settings.numbers(), self._record, self._store, frame, said)
        _entered, count, replay, lost, dropped, reason, damage = said
        return Entered(count, bool(replay), lost, dropped, Reason(reason), damage_of(damage))

    def _packet(self, frame: Any, step: Any) -> Packet:
        shown = answer(3)
        call("show", step, frame, self._store, shown)
        place, start, length = shown
        held = frame if place == _IN_FRAME else self._store
        packet = bytes(held[start : start + length])
        header = read_header(self.settings.limit, packet)
        assert not isinstance(header, Front), "a packet that was taken out has a header"
        return Packet(header, packet)
