/*
 * itzahuemo: packets in and out of the frames of one AOS virtual channel, and
 * where they go from there.
 *
 * How to read this file
 * ---------------------
 *
 * Every call answers a refusal, one of enum itz_refusal, and 0
 * (ITZ_ACCEPTED) when it was not refused. When several apply, the number is
 * the first one in the order that stands at the call. What else a call has to
 * say it lays into an array of numbers, its answer.
 *
 * Refusals. A refused call leaves the record and every octet as lent, and sets
 * all entries of its answer to 0, but for one: with refusal 8 the entry for
 * damage may say what is wrong with the header of the lent packet. Entry 0 of an
 * answer that names an outcome is 0 with a refusal and never otherwise.
 *
 * Damage. What is wrong with a packet's header is one of enum itz_damage. The
 * answers that can carry it have it as their last entry, ITZ_..._DAMAGE, and 0
 * there otherwise.
 *
 * Arrays of numbers. Settings, records and answers are arrays of uint64_t. An
 * enum names the entries of each, and its last constant, ITZ_..._NUMBERS, says
 * how many there are. An array that is shorter is refused (2) before anything
 * else is looked at, and then nothing at all is written, the answer included.
 * Entries past those are neither read nor written. Only the list that a relay
 * table is loaded from has any number of entries, and is read to its end.
 *
 * Slices. Each buffer or array is lent as a pointer and the number of its
 * entries, and the pointer must be good for that many. A null pointer may be
 * lent with 0 entries: nothing is read or written through it. A buffer may be
 * longer than needed; then its tail is left alone. The exceptions are a frame
 * to be read, which is refused (3) when it is longer, and judged alone is then
 * a fault of its run; a tape of frames, which is refused (3) when it ends
 * within one; and a packet to be put, tested, unwrapped or routed, whose stated
 * length must be exactly what is lent.
 *
 * Aliasing. What a call may write, the pointers without const, must not
 * overlap anything else lent to that call. What it only reads may overlap.
 *
 * Records. A caller starts one as its comment says and afterwards only hands it
 * back. A record with a kind that is not listed, a number that is too great, or
 * an entry that its kind does not use and that is not 0, is refused (10). A
 * relay table is a record as well: routing refuses (10) one that no load can
 * have left.
 *
 * The store. Extractor and judge hold the front of an unfinished packet in a
 * store that the caller lends with each call, at least `limit` octets. Use one
 * store for one extractor, and another for one judge.
 *
 * Threads. The library keeps nothing between calls and has no variables of its
 * own: what has to be remembered is in the record and the store, and both
 * belong to the caller. Calls with different records, stores and answers may
 * run at the same time; calls that share one of those may not, but for a record
 * that all of them only read, as routing does a table.
 *
 * Machine. x86-64 Linux, by its usual calling convention. The library uses no
 * heap, no files and no signals, and of the C library only memcpy, memmove and
 * memset.
 */
#ifndef ITZAHUEMO_H
#define ITZAHUEMO_H

#include <stddef.h>
#include <stdint.h>

/* Before every call: an answer that is ignored warns. */
#if (defined(__cplusplus) && __cplusplus >= 201703L) || \
    (defined(__STDC_VERSION__) && __STDC_VERSION__ >= 202311L)
#define ITZ_CALL [[nodiscard]]
#elif defined(__GNUC__)
#define ITZ_CALL __attribute__((warn_unused_result))
#else
#define ITZ_CALL
#endif

#ifdef __cplusplus
extern "C" {
#endif

/* Why a call is refused. */
enum itz_refusal {
    ITZ_ACCEPTED = 0,         /* it is not */
    ITZ_REFUSED_SETTING = 1,  /* a setting or an argument is out of range */
    ITZ_REFUSED_ROOM = 2,     /* a lent buffer or array is too short */
    ITZ_REFUSED_LENGTH = 3,   /* a frame to be read does not have exactly its length, or a tape
                                 ends within a frame */
    ITZ_REFUSED_VERSION = 4,  /* the frame's version is not 01 */
    ITZ_REFUSED_CHANNEL = 5,  /* the frame is of another spacecraft or channel */
    ITZ_REFUSED_SPARE = 6,    /* a spare bit is 1; the usage of the count is not the one that is
                                 set, or is 0 and the cycle is not; or, unwrapping, an extension
                                 without protocol 6 or a reserved field that is not 0 */
    ITZ_REFUSED_POINTER = 7,  /* the frame's pointer is one that cannot be */
    ITZ_REFUSED_PACKET = 8,   /* a lent packet is not well formed, or is a space packet and to be
                                 unwrapped; a data unit is empty or would pass the limit when
                                 wrapped; or octets hold no space header */
    ITZ_REFUSED_MOMENT = 9,   /* wrong moment for this call */
    ITZ_REFUSED_RECORD = 10,  /* the record, or the octets held in the store, are not ones that
                                 the calls can have left there */
    ITZ_REFUSED_LAST = 11,    /* a frame, alone or in a tape, beyond the judge's last */
    ITZ_REFUSED_TABLE = 12,   /* the entries make no relay table: they are more than 32, or one has
                                 an APID above 2046, or two are the same */
    ITZ_REFUSED_TRAILER = 13  /* the frame's trailer is not that of the octets before it */
};

/*
 * What is wrong with a packet's header; at most one of these is. 1 and 2 are seen
 * in the first octet, 3 and 4 once the header is whole.
 *
 * Refusal 8 of a lent packet names the damage of its header, also where something
 * else is wrong with the packet. It carries ITZ_DAMAGE_NONE where the header has
 * none: for an empty packet, a header that is cut, a packet whose length is not
 * the stated one, a space packet to be unwrapped, and for a data unit that is
 * empty or would pass the limit when wrapped.
 */
enum itz_damage {
    ITZ_DAMAGE_NONE = 0,
    ITZ_DAMAGE_VERSION = 1,       /* the version is neither 000 nor 111 */
    ITZ_DAMAGE_NOT_IDLE = 2,      /* a packet of one octet is not idle: its protocol is not 0 */
    ITZ_DAMAGE_BELOW_HEADER = 3,  /* the stated length is below that of the header itself */
    ITZ_DAMAGE_OVER_LIMIT = 4     /* the total length is over the limit */
};

/*
 * The trailer. A setting says whether the frames of a channel end with one: two
 * octets behind the zone, the error control field of CCSDS 132.0-B. They are the
 * 16-bit remainder of all octets before them, by the generator
 * X^16 + X^12 + X^5 + 1 and with the register preset to ones, high octet first.
 */

/*
 * The edition. A setting says which edition of the standard the frames of a
 * channel follow, and so what the signalling octet says, the one behind the three
 * of the count. Its first bit is the replay flag. In CCSDS 701.0-B-2 the other
 * seven are spare. In CCSDS 732.0-B-3 they are the usage of the count, 1 bit, 2
 * spare bits, and the cycle of the count, 4 bits: with usage 1 the cycle stands
 * above the 24 bits of the count, and the two are one count of 28 bits; with
 * usage 0 it is 0, and the frames are to the octet those of CCSDS 701.0-B-2.
 *
 * A count is below 2^24, and below 2^28 with ITZ_EDITION_CYCLE_USED, as it is
 * written and read, and in a record, where any other is refused (10). After the
 * greatest comes 0.
 */
enum itz_edition {
    ITZ_EDITION_FORMER = 0,        /* CCSDS 701.0-B-2 */
    ITZ_EDITION_CYCLE_UNUSED = 1,  /* CCSDS 732.0-B-3 with usage 0 */
    ITZ_EDITION_CYCLE_USED = 2     /* CCSDS 732.0-B-3 with usage 1 */
};

/* Settings of a channel that carries packets. */
enum {
    ITZ_SETTINGS_SPACECRAFT,  /* 0 to 255 */
    ITZ_SETTINGS_CHANNEL,     /* 0 to 62 */
    ITZ_SETTINGS_ZONE,        /* octets of a packet zone, 1 to 2046; a frame has zone + 8, and
                                 zone + 10 with a trailer */
    ITZ_SETTINGS_LIMIT,       /* greatest total length of a packet, from the greater of 7 and
                                 `zone` to 65542 */
    ITZ_SETTINGS_FILL,        /* the octet that fills idle space, 0 to 255 */
    ITZ_SETTINGS_TRAILER,     /* 1 where the frames end with a trailer, 0 where they do not */
    ITZ_SETTINGS_EDITION,     /* one of enum itz_edition */
    ITZ_SETTINGS_NUMBERS
};

/* Settings of a channel that carries bits. */
enum {
    ITZ_BIT_SETTINGS_SPACECRAFT,  /* 0 to 255 */
    ITZ_BIT_SETTINGS_CHANNEL,     /* 0 to 62 */
    ITZ_BIT_SETTINGS_WIDTH,       /* octets of a bitstream zone, 1 to 2047; a frame has width + 8,
                                     and width + 10 with a trailer */
    ITZ_BIT_SETTINGS_FILL,        /* the octet whose bits fill the rest of a zone, 0 to 255 */
    ITZ_BIT_SETTINGS_TRAILER,     /* 1 where the frames end with a trailer, 0 where they do not */
    ITZ_BIT_SETTINGS_EDITION,     /* one of enum itz_edition */
    ITZ_BIT_SETTINGS_NUMBERS
};

/* ---- Packets ------------------------------------------------------------ */

/*
 * Reads the header at the front of `octets`, which may end anywhere: before the
 * header does, or long after the packet.
 *
 * `limit` is 7 to 65542 here and in the calls below that have one.
 * Order of refusals: 1.
 */
enum {
    ITZ_HEADER_WHAT,    /* what was found; the five entries below are 0 unless a header was */
    ITZ_HEADER_KIND,    /* the kind of packet */
    ITZ_HEADER_IDLE,    /* 1 for an idle packet (APID 2047, or protocol 0), else 0 */
    ITZ_HEADER_KEY,     /* APID of a space packet, protocol of an encapsulation packet */
    ITZ_HEADER_SIZE,    /* octets of the header */
    ITZ_HEADER_TOTAL,   /* total length, header included */
    ITZ_HEADER_DAMAGE,  /* with ITZ_HEADER_DAMAGED what is wrong, else 0 */
    ITZ_HEADER_NUMBERS
};

enum itz_header {
    ITZ_HEADER_MORE = 1,     /* more octets are needed */
    ITZ_HEADER_DAMAGED = 2,  /* no packet begins so */
    ITZ_HEADER_WHOLE = 3     /* a header */
};

enum itz_kind {
    ITZ_SPACE = 1,
    ITZ_ENCAPSULATION = 2
};

ITZ_CALL uint64_t itz_read_header(uint64_t limit,
                                  const uint8_t *octets, size_t octets_len,
                                  uint64_t *answer, size_t answer_len);

/*
 * Tests whether `packet` is one whole packet within the limit, no octet more.
 * Where it is not, itz_read_header tells whether the header is damaged, and how.
 *
 * Order of refusals: 1.
 */
enum {
    ITZ_FORMED_WHAT,
    ITZ_FORMED_NUMBERS
};

enum itz_formed {
    ITZ_FORMED = 1,
    ITZ_NOT_FORMED = 2
};

ITZ_CALL uint64_t itz_well_formed(uint64_t limit,
                                  const uint8_t *packet, size_t packet_len,
                                  uint64_t *answer, size_t answer_len);

/*
 * Wraps a data unit in an encapsulation packet with the smallest header that
 * fits, written to the front of `packet`. `protocol` is 1 to 7; `extension` is
 * 0 to 15 with protocol 6 and 0 with any other.
 *
 * Order of refusals: 1, 8, 2.
 */
enum {
    ITZ_WRAPPED_TOTAL,   /* total length of the packet written */
    ITZ_WRAPPED_DAMAGE,  /* always 0: no packet is lent, and refusal 8 is of the data unit */
    ITZ_WRAPPED_NUMBERS
};

ITZ_CALL uint64_t itz_wrap(uint64_t limit, uint64_t protocol, uint64_t extension,
                           const uint8_t *data, size_t data_len,
                           uint8_t *packet, size_t packet_len,
                           uint64_t *answer, size_t answer_len);

/*
 * Finds the data unit in an encapsulation packet. Idle packets are answered
 * like any other, and a packet of a header alone has a data unit of 0 octets.
 *
 * Order of refusals: 1, 8, 6. A space packet is 8.
 */
enum {
    ITZ_UNWRAPPED_PROTOCOL,
    ITZ_UNWRAPPED_EXTENSION,  /* 0 where the header has none */
    ITZ_UNWRAPPED_START,      /* place in `packet` where the data unit begins, 1 at least */
    ITZ_UNWRAPPED_SIZE,       /* octets of the data unit */
    ITZ_UNWRAPPED_DAMAGE,     /* what refusal 8 finds wrong with the packet's header, else 0 */
    ITZ_UNWRAPPED_NUMBERS
};

ITZ_CALL uint64_t itz_unwrap(uint64_t limit,
                             const uint8_t *packet, size_t packet_len,
                             uint64_t *answer, size_t answer_len);

/*
 * Holds an answer of itz_unwrap to a packet: start and size of the data unit
 * where it lies within `packet`, and 0 and 0 where it would run past the end
 * or where the unwrapping was refused.
 */
enum {
    ITZ_UNIT_START,
    ITZ_UNIT_SIZE,
    ITZ_UNIT_NUMBERS
};

ITZ_CALL uint64_t itz_unit_part(const uint64_t *unwrapped, size_t unwrapped_len,
                                const uint8_t *packet, size_t packet_len,
                                uint64_t *answer, size_t answer_len);

/*
 * Reads the six octets of a space packet's primary header, field by field.
 *
 * Order of refusals: 8, for fewer than six octets or a version other than 000.
 */
enum {
    ITZ_SPACE_TOTAL,      /* total length of the packet: the length field + 7 */
    ITZ_SPACE_VERSION,    /* 0 */
    ITZ_SPACE_TYPE,       /* 0 telemetry, 1 telecommand */
    ITZ_SPACE_SECONDARY,  /* 1 with a secondary header */
    ITZ_SPACE_APID,
    ITZ_SPACE_FLAGS,      /* sequence flags */
    ITZ_SPACE_COUNT,      /* sequence count */
    ITZ_SPACE_LENGTH,     /* the length field */
    ITZ_SPACE_NUMBERS
};

ITZ_CALL uint64_t itz_read_space(const uint8_t *octets, size_t octets_len,
                                 uint64_t *answer, size_t answer_len);

/*
 * Writes such a header over the first six octets. `header` has the seven fields
 * as itz_read_space tells them from ITZ_SPACE_VERSION on.
 *
 * Order of refusals: 1, 2.
 */
enum {
    ITZ_SPACE_HEADER_VERSION,    /* 0 */
    ITZ_SPACE_HEADER_TYPE,       /* 0 or 1 */
    ITZ_SPACE_HEADER_SECONDARY,  /* 0 or 1 */
    ITZ_SPACE_HEADER_APID,       /* 0 to 2047 */
    ITZ_SPACE_HEADER_FLAGS,      /* 0 to 3 */
    ITZ_SPACE_HEADER_COUNT,      /* 0 to 16383 */
    ITZ_SPACE_HEADER_LENGTH,     /* 0 to 65535 */
    ITZ_SPACE_HEADER_NUMBERS
};

ITZ_CALL uint64_t itz_write_space(const uint64_t *header, size_t header_len,
                                  uint8_t *octets, size_t octets_len);

/* ---- Multiplexer -------------------------------------------------------- */

/*
 * The multiplexer's record. itz_mux_begin lays the first one into an array.
 *
 * `frame` needs zone + 8 octets, and zone + 10 with a trailer. Lend the same
 * frame until its zone is full, and the same packet until it is taken. The eight
 * octets in front of the zone, and the trailer behind it, are written when the
 * zone is full.
 */
enum {
    ITZ_MUX_COUNT,   /* of the frame in work, below 2^24 or 2^28 by the edition */
    ITZ_MUX_FILLED,  /* octets of its zone that are laid */
    ITZ_MUX_FIRST,   /* place in the zone of the first packet start, 2047 while none */
    ITZ_MUX_TAKEN,   /* octets of a packet begun in an earlier zone that were taken */
    ITZ_MUX_NUMBERS
};

ITZ_CALL uint64_t itz_mux_begin(uint64_t *record, size_t record_len);

/*
 * Lays as many octets of the packet as the zone has room for. The zone is full,
 * or the packet is taken, or both.
 *
 * Order of refusals: 1, 2, 10, 9, 8. 9 is a packet no longer than the octets
 * already taken of it.
 */
enum {
    ITZ_PUT_FULL,    /* 1 when the zone is full and the frame is written, else 0 */
    ITZ_PUT_TAKEN,   /* 1 when the whole packet has been taken, else 0 */
    ITZ_PUT_DAMAGE,  /* what refusal 8 finds wrong with the packet's header, else 0 */
    ITZ_PUT_NUMBERS
};

ITZ_CALL uint64_t itz_mux_put(const uint64_t *settings, size_t settings_len,
                              uint64_t *record, size_t record_len,
                              const uint8_t *packet, size_t packet_len,
                              uint8_t *frame, size_t frame_len,
                              uint64_t *answer, size_t answer_len);

/*
 * Closes a begun zone with one idle packet. A zone with nothing in it yet is
 * left alone.
 *
 * Order of refusals: 1, 2, 10, 9. 9 is a packet not wholly taken.
 */
enum {
    ITZ_FLUSH_WHAT,
    ITZ_FLUSH_NUMBERS
};

enum itz_flush {
    ITZ_FLUSH_NOTHING = 1,  /* nothing was begun, and nothing is written */
    ITZ_FLUSH_FRAME = 2     /* the frame is written */
};

ITZ_CALL uint64_t itz_mux_flush(const uint64_t *settings, size_t settings_len,
                                uint64_t *record, size_t record_len,
                                uint8_t *frame, size_t frame_len,
                                uint64_t *answer, size_t answer_len);

/*
 * Writes a frame whose zone carries no packet at all.
 *
 * Order of refusals: 1, 2, 10, 9. 9 is a packet not wholly taken or a zone that
 * is begun.
 */
ITZ_CALL uint64_t itz_mux_idle(const uint64_t *settings, size_t settings_len,
                               uint64_t *record, size_t record_len,
                               uint8_t *frame, size_t frame_len);

/* ---- Extractor ---------------------------------------------------------- */

/*
 * The extractor's record, which starts as ITZ_EXTRACTOR_START.
 *
 * Enter a frame, then step with the same frame until a step says spent, then
 * enter the next.
 */
enum {
    ITZ_EXTRACTOR_KIND,  /* 0 fresh, 1 out of step, 2 in step; and between entering a frame and
                            its spent step 3 walking, 4 leaving */
    ITZ_EXTRACTOR_LAST,  /* count of the last frame entered, below 2^24 or 2^28 by the edition
                            (kinds 1, 2, 3, 4) */
    ITZ_EXTRACTOR_HELD,  /* octets held in the store (kinds 2, 3) */
    ITZ_EXTRACTOR_AT,    /* place of the walk in the zone (kind 3) */
    ITZ_EXTRACTOR_NUMBERS
};

#define ITZ_EXTRACTOR_START { 0, 0, 0, 0 }

/*
 * Enters a frame. The store is only read.
 *
 * Order of refusals: 1, 2, 10, 9, 3, 13, 4, 5, 6, 7. 9 is a frame entered before
 * the last is spent.
 */
enum {
    ITZ_ENTERED_WHAT,     /* ITZ_ENTERED */
    ITZ_ENTERED_COUNT,    /* the frame's count */
    ITZ_ENTERED_REPLAY,   /* its replay flag */
    ITZ_ENTERED_LOST,     /* frames missing between the last one and this: count - last - 1, modulo
                             2^24 or 2^28 by the edition; 0 for the first frame */
    ITZ_ENTERED_DROPPED,  /* held octets that were dropped */
    ITZ_ENTERED_REASON,   /* why the frame does not go on from what came before */
    ITZ_ENTERED_DAMAGE,   /* with ITZ_REASON_DAMAGED what is wrong with that header, else 0; it is
                             the length, 3 or 4, as a wrong first octet is never held */
    ITZ_ENTERED_NUMBERS
};

enum itz_entered {
    ITZ_ENTERED = 1
};

/* With all but the first the frame's own pointer may put the extractor in step again at once. */
enum itz_reason {
    ITZ_REASON_NONE = 0,     /* nothing is wrong */
    ITZ_REASON_LOST = 1,     /* frames are missing; told also when out of step */
    ITZ_REASON_POINTER = 2,  /* the pointer is not the agreed one */
    ITZ_REASON_DAMAGED = 3   /* the header begun in the store came out damaged */
};

ITZ_CALL uint64_t itz_extractor_enter(const uint64_t *settings, size_t settings_len,
                                      uint64_t *record, size_t record_len,
                                      const uint8_t *store, size_t store_len,
                                      const uint8_t *frame, size_t frame_len,
                                      uint64_t *answer, size_t answer_len);

/*
 * Takes the next thing out of the entered frame. A packet in the store lies at
 * its front, and only until the next step. The trailer is not looked at again.
 *
 * Order of refusals: 1, 2, 10, 9, 3. 9 is a step with no frame entered.
 */
enum {
    ITZ_STEP_WHAT,    /* what it was */
    ITZ_STEP_PLACE,   /* the buffer where the packet lies */
    ITZ_STEP_START,   /* place of its first octet in that buffer */
    ITZ_STEP_SIZE,    /* its octets */
    ITZ_STEP_DAMAGE,  /* with ITZ_STEP_DAMAGED what is wrong with the header, else 0 */
    ITZ_STEP_NUMBERS
};

enum itz_step {
    ITZ_STEP_PACKET = 1,
    ITZ_STEP_IDLE = 2,     /* an idle packet */
    ITZ_STEP_DAMAGED = 3,  /* the rest of the zone is given up; the next step says spent */
    ITZ_STEP_SPENT = 4     /* nothing is left in the frame */
};

enum itz_place {
    ITZ_NOWHERE = 0,
    ITZ_IN_FRAME = 1,
    ITZ_IN_STORE = 2
};

ITZ_CALL uint64_t itz_extractor_step(const uint64_t *settings, size_t settings_len,
                                     uint64_t *record, size_t record_len,
                                     uint8_t *store, size_t store_len,
                                     const uint8_t *frame, size_t frame_len,
                                     uint64_t *answer, size_t answer_len);

/*
 * Holds an answer of itz_extractor_step to a frame and a store: place, start and
 * size of the packet where it lies within that buffer, and ITZ_NOWHERE, 0, 0
 * where it would run past the end or where the step found no packet.
 */
enum {
    ITZ_SHOWN_PLACE,
    ITZ_SHOWN_START,
    ITZ_SHOWN_SIZE,
    ITZ_SHOWN_NUMBERS
};

ITZ_CALL uint64_t itz_show(const uint64_t *step, size_t step_len,
                           const uint8_t *frame, size_t frame_len,
                           const uint8_t *store, size_t store_len,
                           uint64_t *answer, size_t answer_len);

/* ---- Judge -------------------------------------------------------------- */

/*
 * The judge's record, which starts as ITZ_JUDGE_START. The frames of a run are
 * taken one by one or as tapes, in any turn.
 */
enum {
    ITZ_JUDGE_KIND,   /* 0 no frame yet, 1 sound so far, 2 faulty */
    ITZ_JUDGE_TALLY,  /* frames taken, 1 to 2^24 whatever the edition (kinds 1, 2) */
    ITZ_JUDGE_LAST,   /* count of the last frame, below 2^24 or 2^28 by the edition (kind 1);
                         index of the first faulty frame, from 0 (kind 2) */
    ITZ_JUDGE_HELD,   /* octets held in the store (kind 1) */
    ITZ_JUDGE_NUMBERS
};

#define ITZ_JUDGE_START { 0, 0, 0, 0 }

/*
 * Takes the next frame of a recorded run. A frame that an extractor would
 * refuse with 3 to 7 or 13 is a fault of the run and not a refusal.
 *
 * Order of refusals: 1, 2, 10, 11.
 */
ITZ_CALL uint64_t itz_judge_frame(const uint64_t *settings, size_t settings_len,
                                  uint64_t *record, size_t record_len,
                                  uint8_t *store, size_t store_len,
                                  const uint8_t *frame, size_t frame_len);

/*
 * Takes a tape of a recorded run: any number of frames, none included, end to
 * end. Each is read where it lies, zone + 8 octets, and zone + 10 with a trailer.
 * Record and store are then those that itz_judge_frame leaves when the same
 * frames are lent to it one by one in that order: a frame that an extractor would
 * refuse with 4 to 7 or 13 is a fault of the run, and behind a fault only the
 * tally grows.
 *
 * Of a refused tape no frame is taken. An empty tape is taken at any tally.
 *
 * Order of refusals: 1, 2, 10, 11, 3. 11 is a tape whose whole frames would bring
 * the tally above 2^24, also where octets are left behind them; 3 is a tape that
 * ends within a frame, which is no fault of the run here.
 */
ITZ_CALL uint64_t itz_judge_tape(const uint64_t *settings, size_t settings_len,
                                 uint64_t *record, size_t record_len,
                                 uint8_t *store, size_t store_len,
                                 const uint8_t *tape, size_t tape_len);

/*
 * Says how the run stands if it ends here. Record and store are only read.
 *
 * Order of refusals: 1, 2, 10.
 */
enum {
    ITZ_VERDICT_WHAT,
    ITZ_VERDICT_INDEX,  /* index of the first faulty frame; the number of frames when the run
                           ends within a packet; 0 with a pass */
    ITZ_VERDICT_NUMBERS
};

enum itz_verdict {
    ITZ_PASS = 1,
    ITZ_FAULT = 2
};

ITZ_CALL uint64_t itz_judge_close(const uint64_t *settings, size_t settings_len,
                                  const uint64_t *record, size_t record_len,
                                  const uint8_t *store, size_t store_len,
                                  uint64_t *answer, size_t answer_len);

/* ---- Bitstream ---------------------------------------------------------- */

/* The record of a writer of bits, which starts as ITZ_BIT_WRITER_START. */
enum {
    ITZ_BIT_WRITER_COUNT,  /* of the next frame, below 2^24 or 2^28 by the edition */
    ITZ_BIT_WRITER_NUMBERS
};

#define ITZ_BIT_WRITER_START { 0 }

/*
 * Writes a frame with the first n bits of `bits`, the first of them in the top
 * of its first octet; n may be 0 and is at most 8 * width. `frame` needs
 * width + 8 octets, and width + 10 with a trailer; `bits` needs the octets that
 * hold n bits.
 *
 * Order of refusals: 1, 2, 10.
 */
ITZ_CALL uint64_t itz_bits_write(const uint64_t *settings, size_t settings_len,
                                 uint64_t *record, size_t record_len,
                                 const uint8_t *bits, size_t bits_len, uint64_t n,
                                 uint8_t *frame, size_t frame_len);

/* The record of a reader of bits, which starts as ITZ_BIT_READER_START. */
enum {
    ITZ_BIT_READER_KIND,     /* 0 no frame yet, 1 a frame was read */
    ITZ_BIT_READER_LAST,     /* count of the last frame read, below 2^24 or 2^28 by the edition
                                (kind 1) */
    ITZ_BIT_READER_WAITING,  /* 1 when a loss waits to be told with bits, else 0 (kind 1) */
    ITZ_BIT_READER_NUMBERS
};

#define ITZ_BIT_READER_START { 0, 0, 0 }

/*
 * Reads a frame of bits.
 *
 * A frame with bits has the loss flag when any count since the last frame with
 * bits, its own included, did not follow the one read before it; since the
 * first frame, where none with bits was read. A frame of fill alone has it
 * clear: a loss there waits for the next bits. The first frame has none to
 * follow. A refused frame leaves the record as it was, and what waits with it.
 *
 * Order of refusals: 1, 10, 3, 13, 4, 5, 6, 7.
 */
enum {
    ITZ_BITS_COUNT,   /* the frame's count */
    ITZ_BITS_REPLAY,  /* its replay flag */
    ITZ_BITS_LOSS,    /* 1 when a count since the last bits did not follow, else 0 */
    ITZ_BITS_VALID,   /* number of valid bits */
    ITZ_BITS_START,   /* place in `frame` of the octets that hold them: 8 */
    ITZ_BITS_SIZE,    /* number of those octets, as few as hold the bits */
    ITZ_BITS_NUMBERS
};

ITZ_CALL uint64_t itz_bits_read(const uint64_t *settings, size_t settings_len,
                                uint64_t *record, size_t record_len,
                                const uint8_t *frame, size_t frame_len,
                                uint64_t *answer, size_t answer_len);

/* ---- Relay -------------------------------------------------------------- */

/* A relay table, a record which starts as ITZ_RELAY_START: the empty table. */
enum {
    ITZ_RELAY_COUNT,    /* entries of the table, 0 to 32 */
    ITZ_RELAY_ENTRIES,  /* the first entry: an APID, 0 to 2046, and behind it a destination, 0 to
                           255; the others follow, and 0 past the last */
    ITZ_RELAY_NUMBERS = 65
};

#define ITZ_RELAY_START { 0 }

/*
 * Replaces the whole table by a list of entries: an APID, its destination, the
 * next APID, its destination, and so on. An APID may have several destinations.
 * The list may be empty; one that ends within an entry is an array that is too
 * short. What the table held before does not matter.
 *
 * Order of refusals: 1, 12. 1 is a destination above 255, in whichever entry; 12
 * is more than 32 entries, an APID above 2046, or the same pair twice.
 */
ITZ_CALL uint64_t itz_relay_load(const uint64_t *entries, size_t entries_len,
                                 uint64_t *table, size_t table_len);

/*
 * Finds where a packet goes: to all destinations of its APID, one octet each at
 * the front of `destinations`, in table order. There is no path for an APID
 * without an entry, an idle packet or any encapsulation packet.
 *
 * Order of refusals: 1, 10, 8, 2. 2 is fewer octets than this packet has
 * destinations; 32 are enough for any.
 */
enum {
    ITZ_ROUTED_WHAT,
    ITZ_ROUTED_COUNT,   /* destinations written, 1 at least with a path and 0 without */
    ITZ_ROUTED_DAMAGE,  /* what refusal 8 finds wrong with the packet's header, else 0 */
    ITZ_ROUTED_NUMBERS
};

enum itz_routed {
    ITZ_NO_PATH = 1,
    ITZ_PATH = 2
};

ITZ_CALL uint64_t itz_relay_route(uint64_t limit,
                                  const uint64_t *table, size_t table_len,
                                  const uint8_t *packet, size_t packet_len,
                                  uint8_t *destinations, size_t destinations_len,
                                  uint64_t *answer, size_t answer_len);

#ifdef __cplusplus
}
#endif

#endif
