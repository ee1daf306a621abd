/*
 * Two packets into frames and out again.
 *
 * A space packet and an encapsulation packet go through the multiplexer, and a
 * flush closes the last frame. The frames then go to an extractor, which hands
 * the packets back, and to a judge, which says whether the run is sound; they are
 * kept on a tape, and the tape is judged in one call. A relay table says where the
 * space packet goes from there. Then a frame comes with a wrong pointer, and the
 * extractor says why it gives up the frame's zone. The same run is sent in frames
 * that end with a trailer, and a bit of it is changed. It is sent by a newer
 * spacecraft, whose counts have 28 bits, and 2^24 frames are lost. Last come bits
 * on a channel of their own, with a frame lost in the fill between them.
 *
 * `make` beside this file builds it, and the library where it is not there yet.
 */
#include "itzahuemo.h"

#include <inttypes.h>
#include <stdio.h>
#include <stdlib.h>

#define ZONE 10
#define LIMIT 1024
#define FRAME (ZONE + 8)
#define TRAILER 2
#define FRAMES 4

static uint64_t settings[ITZ_SETTINGS_NUMBERS] = {66, 3, ZONE, LIMIT, 0x55, 0, ITZ_EDITION_FORMER};

static uint8_t tape[FRAMES * (FRAME + TRAILER)]; /* the frames, end to end */
static size_t frame_len = FRAME;                 /* octets of a frame, by the settings */
static size_t written;                           /* frames that are full; the next one is in work */

static uint8_t *frame_at(size_t index)
{
    return tape + index * frame_len;
}

/* Ends the program when a call is refused. */
static void must(const char *call, uint64_t refusal)
{
    if (refusal != ITZ_ACCEPTED) {
        fprintf(stderr, "%s: refused %" PRIu64 "\n", call, refusal);
        exit(EXIT_FAILURE);
    }
}

/* ---- Sending ------------------------------------------------------------ */

/* The frame in work is full: shows it and goes on to the next. */
static void frame_is_full(void)
{
    printf("written");
    for (size_t i = 0; i < frame_len; i++)
        printf(" %02X", frame_at(written)[i]);
    printf("\n");
    written++;
}

/* Puts a whole packet, into as many frames as it takes. */
static void send_packet(uint64_t *mux, const uint8_t *packet, size_t size)
{
    uint64_t put[ITZ_PUT_NUMBERS];
    do {
        must("put", itz_mux_put(settings, ITZ_SETTINGS_NUMBERS, mux, ITZ_MUX_NUMBERS, packet, size,
                                frame_at(written), frame_len, put, ITZ_PUT_NUMBERS));
        if (put[ITZ_PUT_FULL])
            frame_is_full();
    } while (!put[ITZ_PUT_TAKEN]);
}

static void flush(uint64_t *mux)
{
    uint64_t flushed[ITZ_FLUSH_NUMBERS];
    must("flush", itz_mux_flush(settings, ITZ_SETTINGS_NUMBERS, mux, ITZ_MUX_NUMBERS,
                                frame_at(written), frame_len, flushed, ITZ_FLUSH_NUMBERS));
    if (flushed[ITZ_FLUSH_WHAT] == ITZ_FLUSH_FRAME)
        frame_is_full();
}

/* ---- Receiving ---------------------------------------------------------- */

/* Says what a packet is: its kind, its APID or protocol, its length. */
static void show_packet(const uint8_t *packet, size_t size)
{
    uint64_t header[ITZ_HEADER_NUMBERS];
    must("header", itz_read_header(LIMIT, packet, size, header, ITZ_HEADER_NUMBERS));
    if (header[ITZ_HEADER_IDLE])
        printf("idle %" PRIu64 "\n", header[ITZ_HEADER_TOTAL]);
    else
        printf("%s %" PRIu64 " %" PRIu64 "\n", header[ITZ_HEADER_KIND] == ITZ_SPACE ? "space" : "encap",
               header[ITZ_HEADER_KEY], header[ITZ_HEADER_TOTAL]);
}

/* Enters a frame and takes everything out of it, or says why it is refused. */
static void receive(uint64_t *extractor, uint8_t *store, const uint8_t *frame)
{
    uint64_t entered[ITZ_ENTERED_NUMBERS];
    uint64_t step[ITZ_STEP_NUMBERS];
    uint64_t refusal = itz_extractor_enter(settings, ITZ_SETTINGS_NUMBERS, extractor, ITZ_EXTRACTOR_NUMBERS,
                                           store, LIMIT, frame, frame_len, entered, ITZ_ENTERED_NUMBERS);
    if (refusal != ITZ_ACCEPTED) {
        printf("refused %" PRIu64 "\n", refusal);
        return;
    }
    printf("frame %" PRIu64 " lost %" PRIu64 " dropped %" PRIu64 " reason %" PRIu64 "\n",
           entered[ITZ_ENTERED_COUNT], entered[ITZ_ENTERED_LOST], entered[ITZ_ENTERED_DROPPED],
           entered[ITZ_ENTERED_REASON]);
    for (;;) {
        must("step", itz_extractor_step(settings, ITZ_SETTINGS_NUMBERS, extractor, ITZ_EXTRACTOR_NUMBERS,
                                        store, LIMIT, frame, frame_len, step, ITZ_STEP_NUMBERS));
        if (step[ITZ_STEP_WHAT] == ITZ_STEP_SPENT)
            return;
        if (step[ITZ_STEP_WHAT] == ITZ_STEP_DAMAGED)
            printf("damaged %" PRIu64 "\n", step[ITZ_STEP_DAMAGE]);
        else
            show_packet((step[ITZ_STEP_PLACE] == ITZ_IN_FRAME ? frame : store) + step[ITZ_STEP_START],
                        (size_t)step[ITZ_STEP_SIZE]);
    }
}

/* Says how a run that was judged stands. */
static void show_verdict(const uint64_t *record, const uint8_t *store)
{
    uint64_t verdict[ITZ_VERDICT_NUMBERS];
    must("close", itz_judge_close(settings, ITZ_SETTINGS_NUMBERS, record, ITZ_JUDGE_NUMBERS,
                                  store, LIMIT, verdict, ITZ_VERDICT_NUMBERS));
    if (verdict[ITZ_VERDICT_WHAT] == ITZ_PASS)
        printf("pass\n");
    else
        printf("fault %" PRIu64 "\n", verdict[ITZ_VERDICT_INDEX]);
}

/* Judges the run of all frames that were written, as they come. */
static void judge(void)
{
    static uint8_t store[LIMIT];
    uint64_t record[ITZ_JUDGE_NUMBERS] = ITZ_JUDGE_START;
    for (size_t i = 0; i < written; i++)
        must("judge", itz_judge_frame(settings, ITZ_SETTINGS_NUMBERS, record, ITZ_JUDGE_NUMBERS,
                                      store, LIMIT, frame_at(i), frame_len));
    show_verdict(record, store);
}

/* Judges the same run afterwards, all of it in one call. */
static void judge_tape(void)
{
    static uint8_t store[LIMIT];
    uint64_t record[ITZ_JUDGE_NUMBERS] = ITZ_JUDGE_START;
    must("tape", itz_judge_tape(settings, ITZ_SETTINGS_NUMBERS, record, ITZ_JUDGE_NUMBERS,
                                store, LIMIT, tape, written * frame_len));
    printf("tape ");
    show_verdict(record, store);
}

/* ---- Relaying ----------------------------------------------------------- */

/* Says where a packet goes by the table. */
static void relay(const uint64_t *table, const uint8_t *packet, size_t size)
{
    uint64_t routed[ITZ_ROUTED_NUMBERS];
    uint8_t destinations[32]; /* room for those of any table */
    must("route", itz_relay_route(LIMIT, table, ITZ_RELAY_NUMBERS, packet, size,
                                  destinations, sizeof destinations, routed, ITZ_ROUTED_NUMBERS));
    printf("%s", routed[ITZ_ROUTED_WHAT] == ITZ_PATH ? "routed to" : "no path");
    for (size_t i = 0; i < routed[ITZ_ROUTED_COUNT]; i++)
        printf(" %d", destinations[i]);
    printf("\n");
}

/* ---- Bits --------------------------------------------------------------- */

#define WIDTH 1

/* Eight bits, three frames of fill and eight bits again. The frame with the count 2 is lost: the bits behind the fill tell it. */
static void send_bits(void)
{
    static const uint64_t channel[ITZ_BIT_SETTINGS_NUMBERS] = {66, 4, WIDTH, 0x55, 0, ITZ_EDITION_FORMER};
    static const uint8_t octet[] = {0x71};
    static const uint64_t offered[] = {8, 0, 0, 0, 8};
    uint64_t writer[ITZ_BIT_WRITER_NUMBERS] = ITZ_BIT_WRITER_START;
    uint64_t reader[ITZ_BIT_READER_NUMBERS] = ITZ_BIT_READER_START;
    uint64_t bits[ITZ_BITS_NUMBERS];
    uint8_t frame[WIDTH + 8];
    for (size_t i = 0; i < sizeof offered / sizeof offered[0]; i++) {
        must("write", itz_bits_write(channel, ITZ_BIT_SETTINGS_NUMBERS, writer, ITZ_BIT_WRITER_NUMBERS,
                                     octet, sizeof octet, offered[i], frame, sizeof frame));
        if (i == 2)
            continue;
        must("read", itz_bits_read(channel, ITZ_BIT_SETTINGS_NUMBERS, reader, ITZ_BIT_READER_NUMBERS,
                                   frame, sizeof frame, bits, ITZ_BITS_NUMBERS));
        printf("frame %" PRIu64 " bits %" PRIu64 " loss %" PRIu64 "\n",
               bits[ITZ_BITS_COUNT], bits[ITZ_BITS_VALID], bits[ITZ_BITS_LOSS]);
    }
}

/* ---- The run ------------------------------------------------------------ */

static const uint8_t space[] = {0x00, 0x05, 0xC0, 0x00, 0x00, 0x01, 0xAA, 0xBB};
static const uint8_t encapsulation[] = {0xE9, 0x05, 0x11, 0x22, 0x33};

/* Sends both packets, in frames that begin at the count 0. */
static void send_run(void)
{
    uint64_t mux[ITZ_MUX_NUMBERS];
    written = 0;
    must("begin", itz_mux_begin(mux, ITZ_MUX_NUMBERS));
    send_packet(mux, space, sizeof space);
    send_packet(mux, encapsulation, sizeof encapsulation);
    flush(mux);
}

/* Receives all frames that were written, and judges them and their tape. */
static void receive_run(void)
{
    static uint8_t store[LIMIT];
    uint64_t extractor[ITZ_EXTRACTOR_NUMBERS] = ITZ_EXTRACTOR_START;
    for (size_t i = 0; i < written; i++)
        receive(extractor, store, frame_at(i));
    judge();
    judge_tape();
}

int main(void)
{
    static const uint64_t paths[] = {5, 7, 5, 2}; /* APID 5 goes to 7 and to 2 */
    uint64_t table[ITZ_RELAY_NUMBERS] = ITZ_RELAY_START;

    send_run();
    receive_run();
    must("load", itz_relay_load(paths, sizeof paths / sizeof paths[0], table, ITZ_RELAY_NUMBERS));
    relay(table, space, sizeof space);
    frame_at(1)[7] = 2; /* the second frame points at the octet 0x33, and no packet has its version, 001 */
    receive_run();

    settings[ITZ_SETTINGS_TRAILER] = 1;
    frame_len = FRAME + TRAILER;
    send_run();
    receive_run();
    frame_at(1)[10] ^= 0x01; /* the second frame has one bit changed on its way */
    receive_run();

    settings[ITZ_SETTINGS_TRAILER] = 0;
    settings[ITZ_SETTINGS_EDITION] = ITZ_EDITION_CYCLE_USED;
    frame_len = FRAME;
    send_run();
    receive_run();
    frame_at(1)[5] = 0x41; /* the second frame is of the next cycle: counts of 24 bits would say that none is lost */
    receive_run();

    send_bits();
    return EXIT_SUCCESS;
}
