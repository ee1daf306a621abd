"""Packets into frames."""

from __future__ import annotations

from typing import Iterable, Optional

from ._library import Octets, answer, call, octets, room
from .channel import Settings

_FLUSH_FRAME = 2


class Multiplexer:
    """Lays packets end to end into frames; the first has the count 0."""

    def __init__(self, settings: Settings) -> None:
        self.settings = settings
        self._record = answer(4)
        call("mux_begin", self._record)
        self._frame = room(settings.frame_length)

    def put(self, packet: Octets) -> list[bytes]:
        """Takes a whole packet; the frames that it fills. A packet that is not well formed raises `Refused`."""
        lent = octets(packet)
        frames = []
        full = taken = 0
        while not taken:
            said = answer(3)
            call("mux_put", self.settings.numbers(), self._record, lent, self._frame, said)
            full, taken, _damage = said
            if full:
                frames.append(bytes(self._frame))
        return frames

    def flush(self) -> Optional[bytes]:
        """Closes a begun zone with one idle packet; its frame, or None where no zone is begun."""
        said = answer(1)
        call("mux_flush", self.settings.numbers(), self._record, self._frame, said)
        return bytes(self._frame) if said[0] == _FLUSH_FRAME else None

    def idle(self) -> bytes:
        """A frame whose zone carries no packet at all. A zone that is begun raises `Refused`."""
        call("mux_idle", self.settings.numbers(), self._record, self._frame)
        return bytes(self._frame)


def multiplex(settings: Settings, packets: Iterable[Octets]) -> list[bytes]:
    """The frames of a whole run: every packet in its turn, and then a flush."""
    multiplexer = Multiplexer(settings)
    frames = [frame for packet in packets for frame in multiplexer.put(packet)]
    last = multiplexer.flush()
    return frames if last is None else [*frames, last]
