"""Reads a run file from standard input, and prints what the program `aosread` prints of it."""

from __future__ import annotations

import sys
from typing import Iterator, Optional

from sample import line

from itzahuemo import Extractor, Judge, Refused, Settings

SETUP, FRAME, END = 1, 2, 3

# The octets of a setup's body, and the greatest limit of a run file.
SETUP_BODY = 7
MOST_LIMIT = 4096


class BadRecord(Exception):
    """The present record is bad."""


class Records:
    """The records not yet taken, and the number of the one that is read."""

    def __init__(self, run: bytes) -> None:
        self.rest = run
        self.number = 0

    def take(self, size: int) -> bytes:
        """The next octets."""
        if len(self.rest) < size:
            raise BadRecord
        taken, self.rest = self.rest[:size], self.rest[size:]
        return taken

    def kind(self) -> int:
        """The kind of the next record."""
        return self.take(1)[0]


def setup(records: Records) -> Settings:
    """The settings of the run."""
    if records.kind() != SETUP:
        raise BadRecord
    body = records.take(SETUP_BODY)
    limit = int.from_bytes(body[4:], "big")
    try:
        settings = Settings(body[0], body[1], int.from_bytes(body[2:4], "big"), limit)
    except Refused as refused:
        raise BadRecord from refused
    if limit > MOST_LIMIT:
        raise BadRecord
    return settings


def taken(judge: Judge, frame: bytes) -> bytes:
    """A frame that the judge takes."""
    try:
        judge.frame(frame)
    except Refused as refused:
        raise BadRecord from refused
    return frame


def events(extractor: Extractor, frame: bytes) -> list[str]:
    """The lines of a frame."""
    try:
        return [line(event) for event in extractor.feed(frame)]
    except Refused as refused:
        return [f"refused {int(refused.refusal)}"]


def lines(records: Records) -> Iterator[str]:
    """The lines of a run, as long as its records are good."""
    settings = setup(records)
    yield f"setup {settings.spacecraft} {settings.channel} zone {settings.zone} limit {settings.limit}"
    extractor, judge = Extractor(settings), Judge(settings)
    kind: Optional[int] = None
    while kind != END:
        records.number += 1
        kind = records.kind()
        if kind == FRAME:
            yield from events(extractor, taken(judge, records.take(settings.frame_length)))
        elif kind != END:
            raise BadRecord
    records.number += 1
    if records.rest:
        raise BadRecord
    yield str(judge.verdict())


def report(run: bytes) -> Iterator[str]:
    """All lines on a run file."""
    records = Records(run)
    try:
        yield from lines(records)
    except BadRecord:
        yield f"bad record {records.number}"


if __name__ == "__main__":
    for text in report(sys.stdin.buffer.read()):
        print(text)
