"""Packets and their headers."""

from __future__ import annotations

from dataclasses import dataclass
from typing import Optional, Union

from ._library import Damage, Octets, answer, call, damage_of, numbers, octets, room

# What the calls answer.
_WHOLE = 3
_SPACE = 1
_FORMED = 1

# The longest header that wrapping writes, and the octets of a space packet's primary header.
_MOST_HEADER = 8
_SPACE_HEADER = 6


@dataclass(frozen=True)
class Front:
    """What stands at the front of some octets where it is no header: `damage` says why no packet begins like this, and is None where more
    octets are needed. As a condition it is false: `if read_header(..)` is true for a header alone."""

    damage: Optional[Damage]

    def __bool__(self) -> bool:
        return False


@dataclass(frozen=True)
class Header:
    """A packet's header. A space packet has an APID, an encapsulation packet a protocol; the other of the two is None."""

    apid: Optional[int]
    protocol: Optional[int]
    idle: bool
    length: int
    total: int


def read_header(limit: int, front: Octets) -> Union[Header, Front]:
    """The header at the front of octets that may end anywhere. The limit is 7 to 65,542, here and below."""
    said = answer(7)
    call("read_header", limit, octets(front), said)
    found, kind, idle, name, length, total, damage = said
    if found != _WHOLE:
        return Front(damage_of(damage))
    is_space = kind == _SPACE
    return Header(name if is_space else None, None if is_space else name, bool(idle), length, total)


def well_formed(limit: int, packet: Octets) -> bool:
    """Whether the octets are one whole packet, well formed and no longer than the limit."""
    said = answer(1)
    call("well_formed", limit, octets(packet), said)
    return bool(said[0] == _FORMED)


def wrap(limit: int, protocol: int, data: Octets, extension: int = 0) -> bytes:
    """An encapsulation packet around a data unit, with the smallest header that fits. The protocol is 1 to 7, the extension 0 to 15
    with protocol 6 and 0 with any other."""
    unit = octets(data)
    packet = room(_MOST_HEADER + len(unit))
    said = answer(2)
    call("wrap", limit, protocol, extension, unit, packet, said)
    total, _damage = said
    return bytes(packet[:total])


@dataclass(frozen=True)
class Unwrapped:
    """What an encapsulation packet carries."""

    protocol: int
    extension: int
    data: bytes


def unwrap(limit: int, packet: Octets) -> Unwrapped:
    """The data unit in an encapsulation packet."""
    lent = octets(packet)
    said = answer(5)
    call("unwrap", limit, lent, said)
    part = answer(2)
    call("unit_part", said, lent, part)
    start, length = part
    return Unwrapped(said[0], said[1], bytes(lent[start : start + length]))


@dataclass(frozen=True)
class SpaceHeader:
    """A space packet's primary header, field by field. The length field is the number of data octets less one."""

    apid: int
    length_field: int
    sequence_flags: int = 3
    sequence_count: int = 0
    packet_type: int = 0
    secondary_header: int = 0
    version: int = 0

    @classmethod
    def read(cls, front: Octets) -> SpaceHeader:
        """The header at the front of octets. Fewer than six of them, and another version than 000, raise `Refused`."""
        said = answer(8)
        call("read_space", octets(front), said)
        _total, version, packet_type, secondary_header, apid, flags, count, length_field = said
        return cls(apid, length_field, flags, count, packet_type, secondary_header, version)

    def to_octets(self) -> bytes:
        """The header's six octets. A field that is wider than its place raises `Refused`."""
        written = room(_SPACE_HEADER)
        fields = [self.version, self.packet_type, self.secondary_header, self.apid]
        fields += [self.sequence_flags, self.sequence_count, self.length_field]
        call("write_space", numbers(fields), written)
        return bytes(written)

    @property
    def total(self) -> int:
        """The octets of the whole packet."""
        return self.length_field + _SPACE_HEADER + 1
