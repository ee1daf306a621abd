"""Two packets into frames, out of them again, and the verdict on the run."""

from __future__ import annotations

import sys
from pathlib import Path

sys.path.insert(0, str(Path(__file__).resolve().parents[1]))

from itzahuemo import Entered, Event, Extractor, Packet, Settings, judge, multiplex  # noqa: E402


def line(event: Event) -> str:
    """An event as `aosread` prints it."""
    if isinstance(event, Entered):
        return f"frame {event.count} lost {event.lost} dropped {event.dropped} reason {int(event.reason)}"
    if isinstance(event, Packet):
        header = event.header
        if header.idle:
            return f"idle {header.total}"
        return f"space {header.apid} {header.total}" if header.protocol is None else f"encap {header.protocol} {header.total}"
    return f"damaged {int(event.damage)}"


def main() -> None:
    """The sample run."""
    settings = Settings(spacecraft=66, channel=3, zone=10, limit=1024)
    packets = [bytes.fromhex("0005C0000001AABB"), bytes.fromhex("E905112233")]
    frames = multiplex(settings, packets)
    extractor = Extractor(settings)
    for frame in frames:
        for event in extractor.feed(frame):
            print(line(event))
    print(judge(settings, frames))


if __name__ == "__main__":
    main()
