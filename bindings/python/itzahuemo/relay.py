"""Where space packets go, by their APID."""

from __future__ import annotations

from typing import Iterable

from ._library import Octets, answer, call, numbers, octets, room

# The entries of a table at most, and so the destinations of a packet.
_MOST_ENTRIES = 32


class RelayTable:
    """Up to 32 entries, each an APID (0 to 2,046) and a destination (0 to 255); an APID may have several destinations."""

    def __init__(self, entries: Iterable[tuple[int, int]] = ()) -> None:
        self._record = answer(1 + 2 * _MOST_ENTRIES)
        self.load(entries)

    def load(self, entries: Iterable[tuple[int, int]]) -> None:
        """Replaces the whole table by these entries. A number out of range, more than 32 entries and the same one twice raise
        `Refused`; the table then stays as it was."""
        row = [number for apid, destination in entries for number in (apid, destination)]
        call("relay_load", numbers(row), self._record)

    def route(self, limit: int, packet: Octets) -> list[int]:
        """The destinations of a packet, in table order; an empty list where it has no path: its APID has no entry, or it is an idle or an
        encapsulation packet. The limit is 7 to 65,542. A packet that is not well formed raises `Refused`."""
        destinations = room(_MOST_ENTRIES)
        said = answer(3)
        call("relay_route", limit, self._record, octets(packet), destinations, said)
        _what, count, _damage = said
        return list(destinations[:count])
