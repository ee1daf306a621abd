"""Every call, where it is answered and where it is refused."""

from __future__ import annotations

import unittest
from typing import Any, Callable, Iterator, Optional

from itzahuemo import (
    BitReader,
    Bits,
    BitSettings,
    BitWriter,
    Damage,
    Damaged,
    Edition,
    Entered,
    Extractor,
    Front,
    Header,
    Judge,
    Multiplexer,
    Packet,
    Reason,
    Refusal,
    Refused,
    RelayTable,
    Settings,
    SpaceHeader,
    Unwrapped,
    Verdict,
    judge,
    multiplex,
    read_header,
    unwrap,
    well_formed,
    wrap,
)

SPACE = bytes.fromhex("0005C0000001AABB")
ENCAPSULATION = bytes.fromhex("E905112233")
LIMIT = 1024
SETTINGS = Settings(66, 3, 10, LIMIT)
FRAMES = multiplex(SETTINGS, [SPACE, ENCAPSULATION])

# Octets that begin with a damaged header, and what is wrong with it; those over the limit state 1,025 or more.
DAMAGED = [
    ("33", Damage.VERSION),
    ("2005", Damage.VERSION),
    ("DF0000000000", Damage.VERSION),
    ("EC", Damage.NOT_IDLE),
    ("E405", Damage.NOT_IDLE),
    ("FC000000", Damage.NOT_IDLE),
    ("E901", Damage.BELOW_HEADER),
    ("EA000003", Damage.BELOW_HEADER),
    ("EB00000000000007", Damage.BELOW_HEADER),
    ("0005C00003FA", Damage.OVER_LIMIT),
    ("EA000401", Damage.OVER_LIMIT),
    ("EB000000FFFFFFFF", Damage.OVER_LIMIT),
]

# The same channel with trailers, and its frames of both packets.
TRAILED = Settings(66, 3, 10, LIMIT, trailer=True)
TRAILED_FRAMES = [
    bytes.fromhex("5083000000000000 0005C0000001AABB E905 2D75"),
    bytes.fromhex("5083000001000003 112233 E1075555555555 4363"),
]


def with_count(frame: bytes, octets: bytes) -> bytes:
    """A frame with other octets of its count, and another signalling octet behind them."""
    return frame[:2] + octets + frame[6:]


def octets_of(edition: Edition, count: int) -> bytes:
    """The octets of a count and the signalling octet behind them, as an edition has them."""
    cycle, *octets = count.to_bytes(4, "big")
    return bytes([*octets, 0x40 | cycle if edition == Edition.CYCLE_USED else 0])


def with_a_bit_changed(frame: bytes) -> Iterator[bytes]:
    """A frame with one of its bits changed, each in its turn."""
    for at in range(8 * len(frame)):
        changed = bytearray(frame)
        changed[at // 8] ^= 0x80 >> at % 8
        yield bytes(changed)


class Calls(unittest.TestCase):
    """Answers and refusals."""

    def refused(self, refusal: Refusal, call: Callable[..., Any], *lent: Any) -> None:
        """A call that has to be refused, without damage."""
        with self.assertRaises(Refused) as caught:
            call(*lent)
        self.assertEqual(caught.exception.refusal, refusal)
        self.assertIsNone(caught.exception.damage)

    def refused_packet(self, packet: bytes, damage: Optional[Damage]) -> None:
        """A packet that each call has to refuse that is lent one."""
        calls = [
            lambda: Multiplexer(SETTINGS).put(packet),
            lambda: unwrap(LIMIT, packet),
            lambda: RelayTable().route(LIMIT, packet),
        ]
        for call in calls:
            with self.assertRaises(Refused) as caught:
                call()
            self.assertEqual(caught.exception.refusal, Refusal.PACKET)
            self.assertEqual(caught.exception.damage, damage)

    def test_settings(self) -> None:
        self.assertEqual(SETTINGS.frame_length, 18)
        Settings(255, 62, 2046, 65542, 255)
        for numbers in [
            (256, 3, 10, 1024),
            (66, 63, 10, 1024),
            (66, 3, 0, 1024),
            (66, 3, 2047, 4096),
            (66, 3, 10, 9),
            (66, 3, 1, 6),
            (66, 3, 10, 65543),
            (66, 3, 10, 1024, 256),
            (66, 3, 10, 1024, 0x55, 2),
            (66, 3, 10, 1024, 0x55, False, 3),
            (66, 3, 10, 1024, 0x55, True, 4),
            (66, 3, 10, 1024, 0x55, False, 2**32),
            (66, 3, 10, 1024, 0x55, False, 2**32 + 2),
            (66, 3, 10, 1024, 0x55, False, -1),
            (-1, 3, 10, 1024),
            (2**64 + 66, 3, 10, 1024),
        ]:
            self.refused(Refusal.SETTING, Settings, *numbers)
        self.assertEqual(BitSettings(66, 3, 2047).frame_length, 2055)
        self.refused(Refusal.SETTING, BitSettings, 66, 3, 2048)
        self.refused(Refusal.SETTING, BitSettings, 66, 3, 1, 0x55, 2)
        for number in [3, 4, 2**32, 2**32 + 2, -1]:
            self.refused(Refusal.SETTING, BitSettings, 66, 3, 1, 0x55, False, number)
        self.assertEqual(TRAILED.frame_length, 20)
        self.assertEqual(BitSettings(66, 3, 2047, trailer=True).frame_length, 2057)
        self.assertEqual(SETTINGS, Settings(66, 3, 10, LIMIT, 0x55, False, Edition.FORMER))
        self.assertEqual(BitSettings(66, 3, 1), BitSettings(66, 3, 1, 0x55, False, Edition.FORMER))
        for edition in Edition:
            self.assertEqual(Settings(66, 3, 10, LIMIT, edition=edition).frame_length, 18)
            self.assertEqual(BitSettings(66, 3, 1, edition=edition).frame_length, 9)

    def test_headers(self) -> None:
        self.assertEqual(read_header(LIMIT, SPACE), Header(5, None, False, 6, 8))
        self.assertEqual(read_header(LIMIT, b"\xe0"), Header(None, 0, True, 1, 1))
        self.assertEqual(read_header(LIMIT, memoryview(SPACE)[:5]), Front(None))
        self.assertEqual(read_header(LIMIT, b""), Front(None))
        self.assertFalse(read_header(LIMIT, b""))
        self.assertEqual(read_header(LIMIT, bytearray(b"\x33")), Front(Damage.VERSION))
        self.assertEqual(read_header(7, SPACE), Front(Damage.OVER_LIMIT))
        self.assertFalse(read_header(7, SPACE))
        self.refused(Refusal.SETTING, read_header, 6, SPACE)
        self.assertTrue(well_formed(LIMIT, SPACE))
        self.assertFalse(well_formed(LIMIT, SPACE[:7]))
        self.assertFalse(well_formed(7, SPACE))
        self.refused(Refusal.SETTING, well_formed, 2**64 + 7, SPACE)

    def test_wrapping(self) -> None:
        self.assertEqual(wrap(LIMIT, 2, b"\x11\x22\x33"), ENCAPSULATION)
        self.assertEqual(wrap(LIMIT, 6, b"\xdd", extension=5), bytes.fromhex("FA050005DD"))
        self.refused(Refusal.SETTING, wrap, LIMIT, 0, b"\x01")
        self.refused(Refusal.PACKET, wrap, LIMIT, 2, b"")
        self.refused(Refusal.PACKET, wrap, 7, 2, bytes(6))
        self.assertEqual(unwrap(LIMIT, ENCAPSULATION), Unwrapped(2, 0, b"\x11\x22\x33"))
        self.assertEqual(unwrap(LIMIT, b"\xe9\x02").data, b"")
        self.refused(Refusal.PACKET, unwrap, LIMIT, SPACE)
        self.refused(Refusal.SPARE, unwrap, LIMIT, bytes.fromhex("EA050005DD"))
        for size, header in [(1, 2), (253, 2), (254, 4), (65531, 4), (65532, 8)]:
            packet = wrap(65542, 3, bytes(size))
            self.assertEqual(len(packet), size + header)
            self.assertEqual(unwrap(65542, packet).data, bytes(size))

    def test_space_headers(self) -> None:
        header = SpaceHeader(apid=5, length_field=1)
        self.assertEqual(SpaceHeader.read(SPACE), header)
        self.assertEqual(header.to_octets(), SPACE[:6])
        self.assertEqual(header.total, 8)
        full = SpaceHeader(2047, 65535, 3, 16383, 1, 1)
        self.assertEqual(full.to_octets(), bytes.fromhex("1FFFFFFFFFFF"))
        self.assertEqual(SpaceHeader.read(full.to_octets()), full)
        command = SpaceHeader(apid=5, length_field=1, packet_type=1)
        self.assertEqual(command.to_octets(), bytes.fromhex("1005C0000001"))
        self.assertEqual(SpaceHeader.read(command.to_octets()), command)
        self.refused(Refusal.SETTING, SpaceHeader(2048, 0).to_octets)
        self.refused(Refusal.SETTING, SpaceHeader(5, 1, version=1).to_octets)
        self.refused(Refusal.PACKET, SpaceHeader.read, SPACE[:5])
        self.refused(Refusal.PACKET, SpaceHeader.read, ENCAPSULATION)
        self.refused(Refusal.PACKET, SpaceHeader.read, b"\x33" * 6)

    def test_multiplexing(self) -> None:
        self.assertEqual(FRAMES[1], bytes.fromhex("5083000001000003 112233 E1075555555555"))
        multiplexer = Multiplexer(SETTINGS)
        self.assertIsNone(multiplexer.flush())
        self.assertEqual(multiplexer.idle(), bytes.fromhex("50830000000007FE") + bytes([0x55] * 10))
        self.refused(Refusal.PACKET, multiplexer.put, SPACE[:7])
        self.assertEqual(multiplexer.put(SPACE), [])
        self.refused(Refusal.MOMENT, multiplexer.idle)
        (filled,) = multiplexer.put(SPACE)
        self.assertEqual(filled[2:8], bytes.fromhex("000001000000"))
        self.assertEqual(len(multiplexer.put(wrap(LIMIT, 1, bytes(30)))), 3)
        last = multiplexer.flush()
        assert last is not None
        self.assertEqual(last[2:5], b"\0\0\5")

    def test_extracting(self) -> None:
        extractor = Extractor(SETTINGS)
        entered, space = extractor.feed(FRAMES[0])
        self.assertEqual(entered, Entered(0, False, 0, 0, Reason.NONE))
        self.assertEqual(space, Packet(Header(5, None, False, 6, 8), SPACE))
        _entered, encapsulation, idle = extractor.feed(FRAMES[1])
        self.assertEqual(encapsulation, Packet(Header(None, 2, False, 2, 5), ENCAPSULATION))
        self.assertEqual(idle, Packet(Header(None, 0, True, 2, 7), FRAMES[1][11:]))

    def test_what_is_missing(self) -> None:
        extractor = Extractor(SETTINGS)
        extractor.feed(FRAMES[0])
        later = bytearray(FRAMES[1])
        later[4:6] = b"\x02\x80"
        entered, _idle = extractor.feed(later)
        self.assertEqual(entered, Entered(2, True, 1, 2, Reason.LOST))

    def test_damage(self) -> None:
        for front, damage in DAMAGED:
            octets = bytes.fromhex(front)
            self.assertEqual(read_header(LIMIT, octets), Front(damage))
            self.assertFalse(well_formed(LIMIT, octets))
            self.refused_packet(octets, damage)
            frame = bytearray(FRAMES[0])
            frame[8 : 8 + len(octets)] = octets
            entered, given_up = Extractor(SETTINGS).feed(frame)
            self.assertEqual(entered, Entered(0, False, 0, 0, Reason.NONE))
            self.assertEqual(given_up, Damaged(damage))
        self.refused_packet(bytes.fromhex("0005C00003FA") + bytes(LIMIT - 5), Damage.OVER_LIMIT)

    def test_packets_refused_without_damage(self) -> None:
        for packet in [b"", b"\xe9", SPACE[:5], SPACE[:7], ENCAPSULATION[:4], ENCAPSULATION + b"\x44"]:
            self.refused_packet(packet, None)
        for call in [read_header, unwrap, RelayTable().route]:
            self.refused(Refusal.SETTING, call, 6, b"\x33")

    def test_a_held_header_damaged(self) -> None:
        """The first frame ends with the first of a header's four octets; the second has the header's length, and an idle packet."""
        first = bytes.fromhex("5083000000000000 0005C0000001AABB E0 EA")
        for length, dropped, reason, damage in [
            (4, 0, Reason.NONE, None),
            (3, 1, Reason.DAMAGED, Damage.BELOW_HEADER),
            (0, 1, Reason.DAMAGED, Damage.BELOW_HEADER),
            (1025, 1, Reason.DAMAGED, Damage.OVER_LIMIT),
            (1024, 1, Reason.POINTER, None),
        ]:
            extractor = Extractor(SETTINGS)
            extractor.feed(first)
            second = bytes.fromhex("5083000001000003 00") + length.to_bytes(2, "big") + bytes.fromhex("E1075555555555")
            entered, *packets = extractor.feed(second)
            self.assertEqual(entered, Entered(1, False, 0, dropped, reason, damage))
            self.assertTrue(all(isinstance(packet, Packet) for packet in packets))

    def test_frames_of_elsewhere(self) -> None:
        extractor = Extractor(SETTINGS)
        extractor.feed(FRAMES[0])
        for at, octet, refusal in [
            (0, 0x10, Refusal.VERSION),
            (1, 0x84, Refusal.CHANNEL),
            (5, 0x01, Refusal.SPARE),
            (7, 0x0A, Refusal.POINTER),
        ]:
            spoilt = bytearray(FRAMES[1])
            spoilt[at] = octet
            self.refused(refusal, extractor.feed, spoilt)
        self.refused(Refusal.LENGTH, extractor.feed, FRAMES[1][1:])
        self.assertEqual(len(extractor.feed(FRAMES[1])), 3)

    def test_judging(self) -> None:
        self.assertEqual(judge(SETTINGS, FRAMES), Verdict(None))
        self.assertTrue(judge(SETTINGS, []).passed)
        self.assertEqual(str(judge(SETTINGS, FRAMES[:1])), "fault 1")
        self.assertEqual(judge(SETTINGS, FRAMES[1:]).fault, 0)
        self.assertFalse(judge(SETTINGS, [FRAMES[0], b""]).passed)
        self.assertTrue(judge(SETTINGS, FRAMES))
        self.assertFalse(judge(SETTINGS, FRAMES[1:]))

    def test_tapes(self) -> None:
        tape = b"".join(FRAMES)
        taking = Judge(SETTINGS)
        taking.tape(b"")
        self.assertTrue(taking.verdict())
        for end in [*range(1, 18), *range(19, 36)]:
            self.refused(Refusal.LENGTH, taking.tape, tape[:end])
            self.assertTrue(taking.verdict())
        taking.tape(memoryview(tape)[:18])
        self.assertEqual(taking.verdict().fault, 1)
        taking.tape(b"")
        taking.tape(bytearray(tape[18:]))
        self.assertTrue(taking.verdict())
        taking.tape(tape)
        self.assertEqual(taking.verdict().fault, 2)
        taking.frame(FRAMES[0])
        self.assertEqual(taking.verdict().fault, 2)

    def test_tapes_against_frames(self) -> None:
        for settings, frames in [(SETTINGS, FRAMES), (TRAILED, TRAILED_FRAMES)]:
            for tape in with_a_bit_changed(b"".join(frames)):
                first, second = tape[: settings.frame_length], tape[settings.frame_length :]
                verdict = judge(settings, [first, second])
                whole, ahead, behind = Judge(settings), Judge(settings), Judge(settings)
                whole.tape(tape)
                ahead.tape(first)
                ahead.frame(second)
                behind.frame(first)
                behind.tape(second)
                self.assertEqual([taking.verdict() for taking in [whole, ahead, behind]], [verdict] * 3)

    def test_the_last_of_tapes(self) -> None:
        """65,536 frames of nine octets, each as the frame before it, and so a fault from the second on."""
        settings = Settings(66, 3, 1, 7)
        frame = Multiplexer(settings).idle()
        tape = frame * 65536
        taking = Judge(settings)
        for _ in range(255):
            taking.tape(tape)
        taking.tape(tape[18:])
        self.refused(Refusal.LAST, taking.tape, tape[:28])
        self.refused(Refusal.LAST, taking.tape, tape[:27])
        self.refused(Refusal.LENGTH, taking.tape, tape[:26])
        taking.tape(tape[:18])
        taking.tape(b"")
        self.refused(Refusal.LENGTH, taking.tape, tape[:8])
        self.refused(Refusal.LAST, taking.tape, tape[:9])
        self.refused(Refusal.LAST, taking.tape, tape[:10])
        self.refused(Refusal.LAST, taking.frame, frame)
        self.assertEqual(taking.verdict().fault, 1)

    def test_bits(self) -> None:
        settings = BitSettings(66, 3, 1)
        writer = BitWriter(settings)
        frame = writer.write(b"\x70", 4)
        self.assertEqual(frame[6:], b"\x00\x03\x75")
        self.refused(Refusal.SETTING, writer.write, b"\x70", 9)
        self.refused(Refusal.ROOM, writer.write, b"", 1)
        reader = BitReader(settings)
        bits = reader.read(frame)
        self.assertEqual(bits, Bits(0, False, False, 4, b"\x75"))
        self.assertEqual(list(bits), [False, True, True, True])
        self.assertTrue(reader.read(frame).lost)
        self.refused(Refusal.LENGTH, reader.read, frame[1:])
        replayed = bytearray(frame)
        replayed[4:6] = b"\x01\x80"
        self.assertEqual(reader.read(replayed), Bits(1, True, False, 4, b"\x75"))
        none = writer.write(b"", 0)
        self.assertEqual(none[6:8], b"\x3f\xfe")
        self.assertEqual(list(reader.read(none)), [])

    def test_a_loss_waits_for_bits(self) -> None:
        settings = BitSettings(66, 3, 1)
        writer = BitWriter(settings)
        first, fill, lost, more, last, after = [writer.write(b"\x71", number) for number in [8, 0, 0, 0, 8, 8]]
        reader = BitReader(settings)
        self.assertEqual([reader.read(frame).lost for frame in [first, fill, more]], [False, False, False])
        self.refused(Refusal.LENGTH, reader.read, lost[1:])
        self.assertEqual([reader.read(frame).lost for frame in [last, after]], [True, False])

    def test_trailers_written(self) -> None:
        self.assertEqual(multiplex(TRAILED, [SPACE, ENCAPSULATION]), TRAILED_FRAMES)
        idle = Multiplexer(TRAILED).idle()
        self.assertEqual(idle, bytes.fromhex("50830000000007FE") + bytes([0x55] * 10) + b"\x29\xbb")
        for zone in [1, 2046]:
            settings = Settings(255, 62, zone, 65542, trailer=True)
            frame = Multiplexer(settings).idle()
            self.assertEqual(len(frame), zone + 10)
            self.assertTrue(judge(settings, [frame]))

    def test_trailers_read(self) -> None:
        extractor, trailed = Extractor(SETTINGS), Extractor(TRAILED)
        for frame, longer in zip(FRAMES, TRAILED_FRAMES):
            self.assertEqual(trailed.feed(longer), extractor.feed(frame))
            self.refused(Refusal.LENGTH, trailed.feed, frame)
            self.refused(Refusal.LENGTH, extractor.feed, longer)
        other = bytearray(Multiplexer(Settings(66, 4, 10, LIMIT, trailer=True)).idle())
        self.refused(Refusal.CHANNEL, trailed.feed, other)
        other[18] ^= 1
        self.refused(Refusal.TRAILER, trailed.feed, other)
        self.refused(Refusal.LENGTH, trailed.feed, other[1:])

    def test_a_bit_changed(self) -> None:
        extractor = Extractor(TRAILED)
        extractor.feed(TRAILED_FRAMES[0])
        for changed in with_a_bit_changed(TRAILED_FRAMES[1]):
            self.refused(Refusal.TRAILER, extractor.feed, changed)
        entered, encapsulation, _idle = extractor.feed(TRAILED_FRAMES[1])
        self.assertEqual(entered, Entered(1, False, 0, 0, Reason.NONE))
        self.assertEqual(encapsulation, Packet(Header(None, 2, False, 2, 5), ENCAPSULATION))

    def test_trailers_judged(self) -> None:
        first, second = TRAILED_FRAMES
        self.assertTrue(judge(TRAILED, TRAILED_FRAMES))
        self.assertEqual(judge(TRAILED, FRAMES).fault, 0)
        self.assertEqual(judge(TRAILED, [first, second[:18]]).fault, 1)
        for changed in with_a_bit_changed(second):
            self.assertEqual(judge(TRAILED, [first, changed]).fault, 1)

    def test_bits_with_trailers(self) -> None:
        settings = BitSettings(66, 3, 1, trailer=True)
        writer = BitWriter(settings)
        frame = writer.write(b"\x70", 4)
        self.assertEqual(frame, bytes.fromhex("5083000000000003 75 5AC0"))
        none = writer.write(b"", 0)
        self.assertEqual(none, bytes.fromhex("5083000001003FFE 55 58FA"))
        reader = BitReader(settings)
        self.assertEqual(reader.read(frame), Bits(0, False, False, 4, b"\x75"))
        for changed in with_a_bit_changed(none):
            self.refused(Refusal.TRAILER, reader.read, changed)
        self.refused(Refusal.LENGTH, reader.read, none[:9])
        self.assertEqual(reader.read(none), Bits(1, False, False, 0, b""))

    def test_editions(self) -> None:
        self.assertEqual([Edition(number).name for number in range(3)], "FORMER CYCLE_UNUSED CYCLE_USED".split())

    def test_editions_written(self) -> None:
        for edition, signalling in zip(Edition, [b"\x00", b"\x00", b"\x40"]):
            settings = Settings(66, 3, 10, LIMIT, edition=edition)
            frames = multiplex(settings, [SPACE, ENCAPSULATION])
            counts = [b"\0\0\0" + signalling, b"\0\0\1" + signalling]
            self.assertEqual(frames, [with_count(frame, octets) for frame, octets in zip(FRAMES, counts)])
            self.assertEqual(Multiplexer(settings).idle()[:8], b"\x50\x83" + counts[0] + b"\x07\xfe")
            self.assertTrue(judge(settings, frames))
            writer = BitWriter(BitSettings(66, 3, 1, edition=edition))
            self.assertEqual(writer.write(b"\x70", 4), b"\x50\x83" + counts[0] + b"\x00\x03\x75")
            self.assertEqual(writer.write(b"", 0), b"\x50\x83" + counts[1] + b"\x3f\xfe\x55")

    def test_every_signalling_octet(self) -> None:
        of_bits = bytes.fromhex("5083000000000003 75")
        for edition in Edition:
            settings = Settings(66, 3, 10, LIMIT, edition=edition)
            bit_settings = BitSettings(66, 3, 1, edition=edition)
            for signalling in range(256):
                octets = bytes([0xBC, 0xDE, 0xF1, signalling])
                frame = with_count(FRAMES[0], octets)
                bit_frame = with_count(of_bits, octets)
                right = signalling & 0x70 == 0x40 if edition == Edition.CYCLE_USED else signalling & 0x7F == 0
                if not right:
                    self.refused(Refusal.SPARE, Extractor(settings).feed, frame)
                    self.refused(Refusal.SPARE, BitReader(bit_settings).read, bit_frame)
                    self.assertEqual(judge(settings, [frame]).fault, 0)
                    continue
                count = (signalling & 0x0F) << 24 | 0xBCDEF1
                replay = signalling >= 0x80
                entered, _space = Extractor(settings).feed(frame)
                self.assertEqual(entered, Entered(count, replay, 0, 0, Reason.NONE))
                self.assertEqual(BitReader(bit_settings).read(bit_frame), Bits(count, replay, False, 4, b"\x75"))
                self.assertEqual(judge(settings, [frame]).fault, 1)

    def test_losses_round_the_wheel(self) -> None:
        of_bits = bytes.fromhex("5083000000003FFF 75")
        for edition, last, count, lost in [
            (Edition.FORMER, 0xFFFFFF, 0, 0),
            (Edition.FORMER, 7, 7, 0xFFFFFF),
            (Edition.CYCLE_UNUSED, 0xFFFFFF, 0, 0),
            (Edition.CYCLE_UNUSED, 7, 7, 0xFFFFFF),
            (Edition.CYCLE_USED, 0xFFFFFF, 0x1000000, 0),
            (Edition.CYCLE_USED, 0xFFFFFF, 0, 0xF000000),
            (Edition.CYCLE_USED, 7, 0x1000008, 0x1000000),
            (Edition.CYCLE_USED, 0xFFFFFFF, 0, 0),
            (Edition.CYCLE_USED, 0xFFFFFFF, 2, 2),
            (Edition.CYCLE_USED, 7, 7, 0xFFFFFFF),
            (Edition.CYCLE_USED, 0x1000000, 0xFFFFFF, 0xFFFFFFE),
        ]:
            settings = Settings(66, 3, 10, LIMIT, edition=edition)
            idle = Multiplexer(settings).idle()
            first, second = [with_count(idle, octets_of(edition, number)) for number in [last, count]]
            extractor = Extractor(settings)
            self.assertEqual(extractor.feed(first), [Entered(last, False, 0, 0, Reason.NONE)])
            reason = Reason.LOST if lost else Reason.NONE
            self.assertEqual(extractor.feed(second), [Entered(count, False, lost, 0, reason)])
            self.assertEqual(judge(settings, [first, second]).fault, 1 if lost else None)
            reader = BitReader(BitSettings(66, 3, 1, edition=edition))
            told = [reader.read(with_count(of_bits, octets_of(edition, number))) for number in [last, count]]
            self.assertEqual([(bits.count, bits.lost) for bits in told], [(last, False), (count, bool(lost))])

    def test_editions_with_trailers(self) -> None:
        settings = Settings(66, 3, 10, LIMIT, trailer=True, edition=Edition.CYCLE_USED)
        first, second = multiplex(settings, [SPACE, ENCAPSULATION])
        self.assertEqual(first, with_count(FRAMES[0], b"\0\0\0\x40") + b"\x77\xa5")
        self.assertEqual(second, with_count(FRAMES[1], b"\0\0\1\x40") + b"\x19\xb3")
        self.assertTrue(judge(settings, [first, second]))
        extractor = Extractor(settings)
        unused = with_count(first, bytes.fromhex("BCDEF10A"))
        self.refused(Refusal.TRAILER, extractor.feed, unused)
        self.refused(Refusal.SPARE, extractor.feed, unused[:18] + b"\xcd\xf6")
        used = with_count(FRAMES[0], bytes.fromhex("BCDEF14A")) + b"\x97\x26"
        self.assertEqual(extractor.feed(used)[0], Entered(0xABCDEF1, False, 0, 0, Reason.NONE))

    def test_relay_tables(self) -> None:
        many = [(apid, 1) for apid in range(33)]
        table = RelayTable(many[:32])
        beyond = bytes.fromhex("0020C0000001AABB")
        for refusal, wrong in [
            (Refusal.TABLE, many),
            (Refusal.TABLE, [(2047, 1)]),
            (Refusal.TABLE, [(5, 7), (6, 7), (5, 7)]),
            (Refusal.SETTING, [(5, 256)]),
            (Refusal.SETTING, [(2047, 1), (5, 256)]),
            (Refusal.SETTING, [(5, -1)]),
        ]:
            self.refused(refusal, table.load, wrong)
            self.refused(refusal, RelayTable, wrong)
            self.assertEqual(table.route(LIMIT, SPACE), [1])
        table.load([(32, 255), (2046, 0)])
        self.assertEqual(table.route(LIMIT, SPACE), [])
        self.assertEqual(table.route(LIMIT, beyond), [255])
        table.load([])
        self.assertEqual(table.route(LIMIT, beyond), [])

    def test_routing(self) -> None:
        self.assertEqual(RelayTable().route(LIMIT, SPACE), [])
        table = RelayTable([(5, 7), (6, 1), (5, 2)])
        self.assertEqual(table.route(LIMIT, SPACE), [7, 2])
        for packet in [ENCAPSULATION, bytes.fromhex("07FFC000000000"), b"\xe0"]:
            self.assertEqual(table.route(LIMIT, packet), [])
        self.refused(Refusal.PACKET, table.route, LIMIT, SPACE[:7])
        self.refused(Refusal.SETTING, table.route, 6, SPACE)

    def test_what_is_no_octets(self) -> None:
        """A packet or a frame in place of a list of them is a row of numbers."""
        calls: list[tuple[Callable[..., Any], Any, Any]] = [
            (well_formed, LIMIT, 7),
            (multiplex, SETTINGS, SPACE),
            (judge, SETTINGS, FRAMES[0]),
            (judge, SETTINGS, [[80, 131]]),
            (judge, SETTINGS, ["50"]),
            (Judge.tape, Judge(SETTINGS), FRAMES),
            (Judge.tape, Judge(SETTINGS), 18),
            (Judge.tape, Judge(SETTINGS), "50"),
        ]
        for call, first, second in calls:
            with self.assertRaises(TypeError):
                call(first, second)

    def test_refusals(self) -> None:
        self.assertEqual(str(Refused(Refusal.POINTER)), "refused 7: the frame's pointer is one that cannot be")
        names = "SETTING ROOM LENGTH VERSION CHANNEL SPARE POINTER PACKET MOMENT RECORD LAST TABLE TRAILER"
        self.assertEqual([Refusal(number).name for number in range(1, 14)], names.split())
        for refusal in Refusal:
            self.assertIn(f"refused {int(refusal)}: ", str(Refused(refusal)))
        self.assertIn(", or the tape ends within a frame", str(Refused(Refusal.LENGTH)))
        self.assertEqual(str(Refused(Refusal.LAST)), "refused 11: a frame, alone or in a tape, beyond the judge's last")
        damaged = Refused(Refusal.PACKET, Damage.NOT_IDLE)
        self.assertEqual(str(damaged), "refused 8: damaged 2: a packet of one octet is not idle")

    def test_damage_in_words(self) -> None:
        self.assertEqual([Damage(number).name for number in range(1, 5)], "VERSION NOT_IDLE BELOW_HEADER OVER_LIMIT".split())
        self.assertEqual(Damage.VERSION.why, "the packet's version is neither 000 nor 111")
        self.assertEqual(len({damage.why for damage in Damage}), 4)
