"""The calls of include/itzahuemo.h, over octets and rows of numbers."""

from __future__ import annotations

import ctypes
import enum
import os
from pathlib import Path
from typing import Any, Iterable, Optional, Union

Octets = Union[bytes, bytearray, memoryview]


class Refusal(enum.IntEnum):
    """Why a call was refused."""

    SETTING = 1
    ROOM = 2
    LENGTH = 3
    VERSION = 4
    CHANNEL = 5
    SPARE = 6
    POINTER = 7
    PACKET = 8
    MOMENT = 9
    RECORD = 10
    LAST = 11
    TABLE = 12
    TRAILER = 13


_WHY = {
    Refusal.SETTING: "a setting or an argument is out of range",
    Refusal.ROOM: "a lent buffer is too short",
    Refusal.LENGTH: "the frame does not have exactly its length, or the tape ends within a frame",
    Refusal.VERSION: "the frame's version is not 01",
    Refusal.CHANNEL: "the frame is of another spacecraft or channel",
    Refusal.SPARE: "a spare bit is 1, the count is of another edition, or a field that must be 0 is not",
    Refusal.POINTER: "the frame's pointer is one that cannot be",
    Refusal.PACKET: "the packet is not well formed, or the data unit cannot be wrapped",
    Refusal.MOMENT: "the wrong moment for this call",
    Refusal.RECORD: "the record or the held octets cannot have been left by a call",
    Refusal.LAST: "a frame, alone or in a tape, beyond the judge's last",
    Refusal.TABLE: "more than 32 relay entries, an APID above 2,046, or two the same",
    Refusal.TRAILER: "the frame's trailer is not that of the octets before it",
}


class Damage(enum.IntEnum):
    """What is wrong with a packet's header; at most one of these is."""

    VERSION = 1
    NOT_IDLE = 2
    BELOW_HEADER = 3
    OVER_LIMIT = 4

    @property
    def why(self) -> str:
        """The same in words."""
        return _WRONG[self]


_WRONG = {
    Damage.VERSION: "the packet's version is neither 000 nor 111",
    Damage.NOT_IDLE: "a packet of one octet is not idle",
    Damage.BELOW_HEADER: "the packet's length is below that of its header",
    Damage.OVER_LIMIT: "the packet's length is over the limit",
}


class Refused(ValueError):
    """A refused call; it has changed nothing. Where a lent packet is refused (`Refusal.PACKET`) and its header is damaged, `damage` says
    what is wrong with it; else it is None."""

    def __init__(self, refusal: Refusal, damage: Optional[Damage] = None) -> None:
        why = _WHY[refusal] if damage is None else f"damaged {int(damage)}: {damage.why}"
        super().__init__(f"refused {int(refusal)}: {why}")
        self.refusal = refusal
        self.damage = damage


# What each call is lent: n a number, o octets that are read, O octets that are written, a numbers that are read, A numbers that are
# written. All but a number are lent as a pointer and a length.
_CALLS = {
    "read_header": "noA",
    "well_formed": "noA",
    "wrap": "nnnoOA",
    "unwrap": "noA",
    "unit_part": "aoA",
    "read_space": "oA",
    "write_space": "aO",
    "mux_begin": "A",
    "mux_put": "aAoOA",
    "mux_flush": "aAOA",
    "mux_idle": "aAO",
    "extractor_enter": "aAooA",
    "extractor_step": "aAOoA",
    "show": "aooA",
    "judge_frame": "aAOo",
    "judge_tape": "aAOo",
    "judge_close": "aaoA",
    "bits_write": "aAonO",
    "bits_read": "aAoA",
    "relay_load": "aA",
    "relay_route": "naoOA",
}

# A `bytes` is lent as it lies, which only an untyped pointer allows.
_READ: list[Any] = [ctypes.c_void_p, ctypes.c_size_t]
_WRITTEN: list[Any] = [ctypes.POINTER(ctypes.c_uint8), ctypes.c_size_t]
_NUMBERS: list[Any] = [ctypes.POINTER(ctypes.c_uint64), ctypes.c_size_t]
_LENT = {"n": [ctypes.c_uint64], "o": _READ, "O": _WRITTEN, "a": _NUMBERS, "A": _NUMBERS}

_MOST = 2**64 - 1

_NAME = "libitzahuemo.so"


def _file() -> str:
    """The shared library: the one that ITZAHUEMO_LIBRARY names, or that lies here or where `make` at the project's top writes it, or
    else the system's."""
    named = os.environ.get("ITZAHUEMO_LIBRARY")
    if named:
        return named
    here = Path(__file__).resolve().parent
    places = [here / _NAME, here / "../../../target/lib" / _NAME]
    return next((str(place) for place in places if place.exists()), _NAME)


def _load() -> dict[str, Any]:
    library = ctypes.CDLL(_file())
    calls = {}
    for name, lent in _CALLS.items():
        function = getattr(library, f"itz_{name}")
        function.restype = ctypes.c_uint64
        function.argtypes = [kind for letter in lent for kind in _LENT[letter]]
        calls[name] = function
    return calls


_LOADED = _load()


def numbers(values: Iterable[int]) -> Any:
    """A row of numbers to be lent. One that has no place in 64 bits is out of range for every call."""
    row = list(values)
    if not all(0 <= value <= _MOST for value in row):
        raise Refused(Refusal.SETTING)
    return (ctypes.c_uint64 * len(row))(*row)


def answer(size: int) -> Any:
    """Room for an answer or a record of so many numbers."""
    return (ctypes.c_uint64 * size)()


def room(size: int) -> Any:
    """Octets that a call may write."""
    return (ctypes.c_uint8 * size)()


def octets(given: Octets) -> bytes:
    """Octets that a call only reads, copied where they are no `bytes`. A number is none, nor is a list of them: those raise
    `TypeError`."""
    return given if isinstance(given, bytes) else memoryview(given).tobytes()


def damage_of(number: int) -> Optional[Damage]:
    """The damage that an answer names, None for 0."""
    return Damage(number) if number != 0 else None


def number_of(name: str, *lent: Any) -> int:
    """Makes a call, and answers the number of its refusal, 0 where it was not refused."""
    words: list[Any] = []
    for given in lent:
        if isinstance(given, int):
            words += numbers([given])
        else:
            words += [given, len(given)]
    return int(_LOADED[name](*words))


def call(name: str, *lent: Any) -> None:
    """Makes a call that has to be answered."""
    refusal = number_of(name, *lent)
    if refusal == Refusal.PACKET:
        # Every call that refuses so is lent its answer last. The answer's last number is the damage, where there is any, and else 0.
        raise Refused(Refusal.PACKET, damage_of(lent[-1][-1]))
    if refusal != 0:
        raise Refused(Refusal(refusal))
