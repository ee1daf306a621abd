"""Packets in and out of the AOS telemetry frames of one virtual channel.

A face on the proved library: what has to be remembered between calls is kept here, and a refused call raises `Refused`.

    settings = Settings(spacecraft=66, channel=3, zone=10, limit=1024)
    frames = multiplex(settings, packets)
    extractor = Extractor(settings)
    for frame in frames:
        for event in extractor.feed(frame):
            print(event)
    print(judge(settings, frames))

A `RelayTable` says where the packets go from there. Frames that were recorded end to end are judged in one call by `Judge.tape`. With
`trailer=True` the settings are those of a channel whose frames end with an error control field, and with `edition=Edition.CYCLE_USED`
of one whose counts have 28 bits. Where a packet's header is damaged, a `Damage` says what is wrong with it.

An extractor, a judge, a multiplexer, a reader or a writer of bits or a relay table is used by one thread at a time; different ones may
be used at the same time.
"""

from ._library import Damage, Refusal, Refused
from .bits import BitReader, Bits, BitSettings, BitWriter
from .channel import Edition, Settings
from .extractor import Damaged, Entered, Event, Extractor, Packet, Reason
from .judge import Judge, Verdict, judge
from .multiplexer import Multiplexer, multiplex
from .packets import Front, Header, SpaceHeader, Unwrapped, read_header, unwrap, well_formed, wrap
from .relay import RelayTable

__all__ = [
    "BitReader",
    "BitSettings",
    "BitWriter",
    "Bits",
    "Damage",
    "Damaged",
    "Edition",
    "Entered",
    "Event",
    "Extractor",
    "Front",
    "Header",
    "Judge",
    "Multiplexer",
    "Packet",
    "Reason",
    "Refusal",
    "Refused",
    "RelayTable",
    "Settings",
    "SpaceHeader",
    "Unwrapped",
    "Verdict",
    "judge",
    "multiplex",
    "read_header",
    "unwrap",
    "well_formed",
    "wrap",
]
