"""Bits into frames and out of them."""

from __future__ import annotations

from dataclasses import dataclass
from typing import Any, Iterator

from ._library import Octets, Refusal, Refused, answer, call, number_of, numbers, octets, room
from .channel import Edition, frame_length


@dataclass(frozen=True)
class BitSettings:
    """A spacecraft (0 to 255), one of its channels (0 to 62), the octets of a frame's bitstream zone (1 to 2,047), the octet whose
    bits fill the rest of a zone, and, as in `Settings`, whether frames end with a trailer and the edition that they follow. A number
    out of range raises `Refused`."""

    spacecraft: int
    channel: int
    width: int
    fill: int = 0x55
    trailer: bool = False
    edition: Edition = Edition.FORMER

    def __post_init__(self) -> None:
        # The settings are looked at before the frame, and no frame is empty.
        if number_of("bits_read", self.numbers(), answer(3), octets(b""), answer(6)) == Refusal.SETTING:
            raise Refused(Refusal.SETTING)

    @property
    def frame_length(self) -> int:
        """The octets of a frame."""
        return frame_length(self.width, self.trailer)

    def numbers(self) -> Any:
        """As the calls take them."""
        return numbers([self.spacecraft, self.channel, self.width, self.fill, self.trailer, self.edition])


class BitWriter:
    """Writes bits into frames; the first has the count 0."""

    def __init__(self, settings: BitSettings) -> None:
        self.settings = settings
        self._record = answer(1)

    def write(self, bits: Octets, number: int) -> bytes:
        """A frame with the first `number` of the bits, the first in the top of the first octet. More bits than the zone has room for, or
        than the octets hold, raise `Refused`."""
        frame = room(self.settings.frame_length)
        call("bits_write", self.settings.numbers(), self._record, octets(bits), number, frame)
        return bytes(frame)


@dataclass(frozen=True)
class Bits:
    """The bits of a frame: its count (of 24 or 28 bits, by the edition) and replay flag, whether frames were lost since the last frame
    with bits, how many bits it has, and the octets that hold them. A frame without bits never says that frames were lost: the next one
    with bits does."""

    count: int
    replay: bool
    lost: bool
    number: int
    octets: bytes

    def __iter__(self) -> Iterator[bool]:
        return (bool(self.octets[at // 8] << at % 8 & 0x80) for at in range(self.number))


class BitReader:
    """Reads bits out of frames."""

    def __init__(self, settings: BitSettings) -> None:
        self.settings = settings
        self._record = answer(3)

    def read(self, frame: Octets) -> Bits:
        """The bits of a frame. One that is not of this channel, or whose trailer is wrong, raises `Refused`."""
        lent = octets(frame)
        said = answer(6)
        call("bits_read", self.settings.numbers(), self._record, lent, said)
        count, replay, lost, number, start, length = said
        return Bits(count, bool(replay), bool(lost), number, bytes(lent[start : start + length]))
