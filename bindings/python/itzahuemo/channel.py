"""The settings of a channel that carries packets."""

from __future__ import annotations

import enum
from dataclasses import dataclass
from typing import Any

from ._library import Refusal, Refused, answer, number_of, numbers, octets

# The octets in front of a frame's zone, and those of a trailer behind it.
_HEAD = 8
_TRAILER = 2


def frame_length(zone: int, trailer: bool) -> int:
    """The octets of a frame with so long a zone."""
    return _HEAD + zone + (_TRAILER if trailer else 0)


class Edition(enum.IntEnum):
    """The edition of the standard that the frames of a channel follow, and with it the bits of their counts. It decides on the signalling
    octet, the one behind the three of the count, whose first bit is the replay flag at each of them. In CCSDS 701.0-B-2, `FORMER`, the
    other seven are spare. In CCSDS 732.0-B-3 they are the usage of the count, two spare bits, and four bits of the count's cycle: with
    usage 1, `CYCLE_USED`, the cycle stands above the 24 bits of the count, and counts have 28 bits; with usage 0, `CYCLE_UNUSED`, it is
    0, and the frames are to the octet those of `FORMER`."""

    FORMER = 0
    CYCLE_UNUSED = 1
    CYCLE_USED = 2


@dataclass(frozen=True)
class Settings:
    """A spacecraft (0 to 255), one of its channels (0 to 62), the octets of a frame's packet zone (1 to 2,046), the greatest total
    length of a packet (from the greater of 7 and `zone` to 65,542), the octet that fills idle space, whether frames end with a
    trailer (the error control field of CCSDS 132.0-B: two octets more, the 16-bit remainder of all octets before them), and the edition
    that frames follow. A number out of range raises `Refused`."""

    spacecraft: int
    channel: int
    zone: int
    limit: int
    fill: int = 0x55
    trailer: bool = False
    edition: Edition = Edition.FORMER

    def __post_init__(self) -> None:
        # The settings are looked at before the store, and an empty store holds no packet.
        if number_of("judge_close", self.numbers(), answer(4), octets(b""), answer(2)) == Refusal.SETTING:
            raise Refused(Refusal.SETTING)

    @property
    def frame_length(self) -> int:
        """The octets of a frame."""
        return frame_length(self.zone, self.trailer)

    def numbers(self) -> Any:
        """As the calls take them."""
        return numbers([self.spacecraft, self.channel, self.zone, self.limit, self.fill, self.trailer, self.edition])
