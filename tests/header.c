/*
 * The names of include/itzahuemo.h against the library: every refusal, every
 * outcome and every entry of an array is met by a call and has its name's number.
 * An array of exactly the named number of entries is long enough, and a shorter
 * one is refused; an answer is not written then. Counts are written and read at
 * every edition, and held to its width in every record. What is judged of a tape
 * is what is judged of its frames one by one.
 */
#include "itzahuemo.h"

#include <stdio.h>
#include <stdlib.h>
#include <string.h>

#define ZONE 10
#define FRAME (ZONE + 8)
#define LIMIT 1024
#define WIDTH 2
#define BIT_FRAME (WIDTH + 8)
#define TRAILER 2

static unsigned checks;

static void check(int holds, int line, const char *what)
{
    if (!holds) {
        printf("header.c:%d: %s\n", line, what);
        exit(EXIT_FAILURE);
    }
    checks++;
}

#define HOLDS(what) check((what) != 0, __LINE__, #what)
#define IS(entry, number) HOLDS((entry) == (number))

/* An array of settings, a record or an answer, and its length: as it is, or one entry short. */
#define ARRAY(name) name, sizeof name / sizeof name[0]
#define SHORT(name) name, sizeof name / sizeof name[0] - 1
#define SIZED(octets) octets, sizeof octets

static void each_is(const uint64_t *entries, size_t count, uint64_t number)
{
    for (size_t i = 0; i < count; i++)
        IS(entries[i], number);
}

/* A call that is lent an array one entry short: nothing is told, and the answer is as it was. */
#define UNTOLD(answer, call) \
    (memset(answer, 0xA5, sizeof answer), IS(call, ITZ_REFUSED_ROOM), each_is(ARRAY(answer), 0xA5A5A5A5A5A5A5A5))

static const uint8_t space[] = {0x10, 0x05, 0x80, 0x09, 0x00, 0x01, 0xAA, 0xBB};
static const uint8_t wrapped[] = {0xFA, 0x05, 0x00, 0x06, 0xDD, 0xEE};
static const uint8_t encapsulation[] = {0xE9, 0x05, 0x11, 0x22, 0x33};
static const uint8_t four_bits[] = {0x70};

static uint64_t settings[ITZ_SETTINGS_NUMBERS];
static uint64_t bit_settings[ITZ_BIT_SETTINGS_NUMBERS];
static uint8_t store[LIMIT];

static void set(void)
{
    settings[ITZ_SETTINGS_SPACECRAFT] = 66;
    settings[ITZ_SETTINGS_CHANNEL] = 3;
    settings[ITZ_SETTINGS_ZONE] = ZONE;
    settings[ITZ_SETTINGS_LIMIT] = LIMIT;
    settings[ITZ_SETTINGS_FILL] = 0x55;
    settings[ITZ_SETTINGS_TRAILER] = 0;
    settings[ITZ_SETTINGS_EDITION] = ITZ_EDITION_FORMER;
    bit_settings[ITZ_BIT_SETTINGS_SPACECRAFT] = 66;
    bit_settings[ITZ_BIT_SETTINGS_CHANNEL] = 3;
    bit_settings[ITZ_BIT_SETTINGS_WIDTH] = WIDTH;
    bit_settings[ITZ_BIT_SETTINGS_FILL] = 0x55;
    bit_settings[ITZ_BIT_SETTINGS_TRAILER] = 0;
    bit_settings[ITZ_BIT_SETTINGS_EDITION] = ITZ_EDITION_FORMER;
}

static void packets(void)
{
    static const uint8_t idle[] = {0xE1, 0x02};
    static const uint8_t damaged[] = {0x33};
    static const uint8_t extended[] = {0xEA, 0x05, 0x00, 0x05, 0xDD};
    uint64_t header[ITZ_HEADER_NUMBERS], formed[ITZ_FORMED_NUMBERS], written[ITZ_WRAPPED_NUMBERS];
    uint64_t unwrapped[ITZ_UNWRAPPED_NUMBERS], unit[ITZ_UNIT_NUMBERS];
    uint8_t packet[sizeof wrapped];

    UNTOLD(header, itz_read_header(LIMIT, SIZED(wrapped), SHORT(header)));
    IS(itz_read_header(6, SIZED(damaged), ARRAY(header)), ITZ_REFUSED_SETTING);
    each_is(ARRAY(header), 0);
    IS(itz_read_header(LIMIT, NULL, 0, ARRAY(header)), ITZ_ACCEPTED);
    IS(header[ITZ_HEADER_WHAT], ITZ_HEADER_MORE);
    each_is(header + 1, ITZ_HEADER_NUMBERS - 1, 0);
    IS(itz_read_header(LIMIT, SIZED(idle), ARRAY(header)), ITZ_ACCEPTED);
    IS(header[ITZ_HEADER_IDLE], 1);
    IS(itz_read_header(LIMIT, SIZED(space), ARRAY(header)), ITZ_ACCEPTED);
    IS(header[ITZ_HEADER_KIND], ITZ_SPACE);
    IS(header[ITZ_HEADER_KEY], 5);
    IS(itz_read_header(LIMIT, SIZED(wrapped), ARRAY(header)), ITZ_ACCEPTED);
    IS(header[ITZ_HEADER_WHAT], ITZ_HEADER_WHOLE);
    IS(header[ITZ_HEADER_KIND], ITZ_ENCAPSULATION);
    IS(header[ITZ_HEADER_IDLE], 0);
    IS(header[ITZ_HEADER_KEY], 6);
    IS(header[ITZ_HEADER_SIZE], 4);
    IS(header[ITZ_HEADER_TOTAL], sizeof wrapped);
    IS(header[ITZ_HEADER_DAMAGE], ITZ_DAMAGE_NONE);

    UNTOLD(formed, itz_well_formed(LIMIT, SIZED(space), SHORT(formed)));
    IS(itz_well_formed(LIMIT, SIZED(space), ARRAY(formed)), ITZ_ACCEPTED);
    IS(formed[ITZ_FORMED_WHAT], ITZ_FORMED);
    IS(itz_well_formed(LIMIT, SIZED(damaged), ARRAY(formed)), ITZ_ACCEPTED);
    IS(formed[ITZ_FORMED_WHAT], ITZ_NOT_FORMED);

    UNTOLD(written, itz_wrap(LIMIT, 6, 5, wrapped + 4, 2, SIZED(packet), SHORT(written)));
    IS(itz_wrap(LIMIT, 6, 5, NULL, 0, SIZED(packet), ARRAY(written)), ITZ_REFUSED_PACKET);
    each_is(ARRAY(written), 0);
    IS(itz_wrap(7, 6, 5, wrapped, 4, SIZED(packet), ARRAY(written)), ITZ_REFUSED_PACKET);
    each_is(ARRAY(written), 0);
    IS(itz_wrap(LIMIT, 6, 5, wrapped + 4, 2, SIZED(packet), ARRAY(written)), ITZ_ACCEPTED);
    IS(written[ITZ_WRAPPED_TOTAL], sizeof wrapped);
    IS(written[ITZ_WRAPPED_DAMAGE], 0);
    HOLDS(memcmp(packet, wrapped, sizeof wrapped) == 0);

    UNTOLD(unwrapped, itz_unwrap(LIMIT, SIZED(wrapped), SHORT(unwrapped)));
    IS(itz_unwrap(LIMIT, SIZED(extended), ARRAY(unwrapped)), ITZ_REFUSED_SPARE);
    each_is(ARRAY(unwrapped), 0);
    IS(itz_unwrap(LIMIT, SIZED(wrapped), ARRAY(unwrapped)), ITZ_ACCEPTED);
    IS(unwrapped[ITZ_UNWRAPPED_PROTOCOL], 6);
    IS(unwrapped[ITZ_UNWRAPPED_EXTENSION], 5);
    IS(unwrapped[ITZ_UNWRAPPED_START], 4);
    IS(unwrapped[ITZ_UNWRAPPED_SIZE], 2);
    IS(unwrapped[ITZ_UNWRAPPED_DAMAGE], ITZ_DAMAGE_NONE);
    UNTOLD(unit, itz_unit_part(SHORT(unwrapped), SIZED(wrapped), ARRAY(unit)));
    UNTOLD(unit, itz_unit_part(ARRAY(unwrapped), SIZED(wrapped), SHORT(unit)));
    IS(itz_unit_part(ARRAY(unwrapped), SIZED(wrapped), ARRAY(unit)), ITZ_ACCEPTED);
    IS(unit[ITZ_UNIT_START], 4);
    IS(unit[ITZ_UNIT_SIZE], 2);
}

static void space_headers(void)
{
    uint64_t read[ITZ_SPACE_NUMBERS], header[ITZ_SPACE_HEADER_NUMBERS];
    uint8_t octets[6];

    UNTOLD(read, itz_read_space(SIZED(space), SHORT(read)));
    IS(itz_read_space(SIZED(wrapped), ARRAY(read)), ITZ_REFUSED_PACKET);
    each_is(ARRAY(read), 0);
    IS(itz_read_space(SIZED(space), ARRAY(read)), ITZ_ACCEPTED);
    IS(read[ITZ_SPACE_TOTAL], 8);
    IS(read[ITZ_SPACE_VERSION], 0);
    IS(read[ITZ_SPACE_TYPE], 1);
    IS(read[ITZ_SPACE_SECONDARY], 0);
    IS(read[ITZ_SPACE_APID], 5);
    IS(read[ITZ_SPACE_FLAGS], 2);
    IS(read[ITZ_SPACE_COUNT], 9);
    IS(read[ITZ_SPACE_LENGTH], 1);

    header[ITZ_SPACE_HEADER_VERSION] = 0;
    header[ITZ_SPACE_HEADER_TYPE] = 1;
    header[ITZ_SPACE_HEADER_SECONDARY] = 0;
    header[ITZ_SPACE_HEADER_APID] = 5;
    header[ITZ_SPACE_HEADER_FLAGS] = 2;
    header[ITZ_SPACE_HEADER_COUNT] = 9;
    header[ITZ_SPACE_HEADER_LENGTH] = 1;
    IS(itz_write_space(SHORT(header), SIZED(octets)), ITZ_REFUSED_ROOM);
    IS(itz_write_space(ARRAY(header), SIZED(octets)), ITZ_ACCEPTED);
    HOLDS(memcmp(octets, space, sizeof octets) == 0);
}

static void multiplexer(void)
{
    uint64_t mux[ITZ_MUX_NUMBERS], put[ITZ_PUT_NUMBERS], flushed[ITZ_FLUSH_NUMBERS];
    uint8_t frame[FRAME];

    IS(itz_mux_begin(SHORT(mux)), ITZ_REFUSED_ROOM);
    IS(itz_mux_begin(ARRAY(mux)), ITZ_ACCEPTED);
    UNTOLD(put, itz_mux_put(SHORT(settings), ARRAY(mux), SIZED(space), SIZED(frame), ARRAY(put)));
    UNTOLD(put, itz_mux_put(ARRAY(settings), ARRAY(mux), SIZED(space), SIZED(frame), SHORT(put)));
    UNTOLD(flushed, itz_mux_flush(ARRAY(settings), ARRAY(mux), SIZED(frame), SHORT(flushed)));
    IS(itz_mux_flush(ARRAY(settings), ARRAY(mux), SIZED(frame), ARRAY(flushed)), ITZ_ACCEPTED);
    IS(flushed[ITZ_FLUSH_WHAT], ITZ_FLUSH_NOTHING);
    IS(itz_mux_idle(ARRAY(settings), ARRAY(mux), SIZED(frame)), ITZ_ACCEPTED);
    IS(frame[FRAME - 1], 0x55);
    IS(mux[ITZ_MUX_COUNT], 1);
    IS(mux[ITZ_MUX_FIRST], 2047);
    IS(itz_mux_put(ARRAY(settings), ARRAY(mux), SIZED(space), SIZED(frame), ARRAY(put)), ITZ_ACCEPTED);
    IS(put[ITZ_PUT_FULL], 0);
    IS(put[ITZ_PUT_TAKEN], 1);
    IS(put[ITZ_PUT_DAMAGE], ITZ_DAMAGE_NONE);
    IS(mux[ITZ_MUX_FILLED], 8);
    IS(mux[ITZ_MUX_FIRST], 0);
    IS(itz_mux_idle(ARRAY(settings), ARRAY(mux), SIZED(frame)), ITZ_REFUSED_MOMENT);
    IS(itz_mux_put(ARRAY(settings), ARRAY(mux), SIZED(wrapped), SIZED(frame), ARRAY(put)), ITZ_ACCEPTED);
    IS(put[ITZ_PUT_FULL], 1);
    IS(put[ITZ_PUT_TAKEN], 0);
    IS(mux[ITZ_MUX_TAKEN], 2);
    IS(itz_mux_put(ARRAY(settings), ARRAY(mux), SIZED(wrapped), SIZED(frame), ARRAY(put)), ITZ_ACCEPTED);
    IS(itz_mux_flush(ARRAY(settings), ARRAY(mux), SIZED(frame), ARRAY(flushed)), ITZ_ACCEPTED);
    IS(flushed[ITZ_FLUSH_WHAT], ITZ_FLUSH_FRAME);
}

/* The sample's frames, spoilt at one octet, the replay flag set in the second. */
static void sample(uint8_t *frame, int second, size_t at, uint8_t octet)
{
    static const uint8_t octets[2][FRAME] = {
        {0x50, 0x83, 0, 0, 0, 0, 0, 0, 0x00, 0x05, 0xC0, 0x00, 0x00, 0x01, 0xAA, 0xBB, 0xE9, 0x05},
        {0x50, 0x83, 0, 0, 1, 0x80, 0, 3, 0x11, 0x22, 0x33, 0xE1, 0x07, 0x55, 0x55, 0x55, 0x55, 0x55}};
    memcpy(frame, octets[second], FRAME);
    frame[at] = octet;
}

static uint64_t extractor[ITZ_EXTRACTOR_NUMBERS];
static uint64_t entered[ITZ_ENTERED_NUMBERS];
static uint64_t step[ITZ_STEP_NUMBERS];
static uint64_t shown[ITZ_SHOWN_NUMBERS];
static uint8_t frame[FRAME];

static uint64_t enter(void)
{
    return itz_extractor_enter(ARRAY(settings), ARRAY(extractor), SIZED(store), SIZED(frame), ARRAY(entered));
}

static uint64_t take_step(void)
{
    return itz_extractor_step(ARRAY(settings), ARRAY(extractor), SIZED(store), SIZED(frame), ARRAY(step));
}

/* A step in the frame: what it finds, and where. */
static void finds(uint64_t what, uint64_t place, uint64_t start, uint64_t size)
{
    IS(take_step(), ITZ_ACCEPTED);
    IS(step[ITZ_STEP_WHAT], what);
    IS(step[ITZ_STEP_PLACE], place);
    IS(step[ITZ_STEP_START], start);
    IS(step[ITZ_STEP_SIZE], size);
    IS(step[ITZ_STEP_DAMAGE] != ITZ_DAMAGE_NONE, what == ITZ_STEP_DAMAGED);
    IS(itz_show(ARRAY(step), SIZED(frame), SIZED(store), ARRAY(shown)), ITZ_ACCEPTED);
    IS(shown[ITZ_SHOWN_PLACE], place);
    IS(shown[ITZ_SHOWN_START], start);
    IS(shown[ITZ_SHOWN_SIZE], size);
}

static void begin(void)
{
    static const uint64_t start[ITZ_EXTRACTOR_NUMBERS] = ITZ_EXTRACTOR_START;
    memcpy(extractor, start, sizeof start);
}

/* From the sample's first frame on to its second, spoilt: how it is entered. */
static void second_is(size_t at, uint8_t octet, uint64_t refusal, uint64_t reason)
{
    begin();
    sample(frame, 0, 0, 0x50);
    IS(enter(), ITZ_ACCEPTED);
    finds(ITZ_STEP_PACKET, ITZ_IN_FRAME, 8, 8);
    IS(extractor[ITZ_EXTRACTOR_KIND], 3);
    IS(extractor[ITZ_EXTRACTOR_AT], 8);
    finds(ITZ_STEP_SPENT, ITZ_NOWHERE, 0, 0);
    IS(extractor[ITZ_EXTRACTOR_KIND], 2);
    IS(extractor[ITZ_EXTRACTOR_HELD], 2);
    sample(frame, 1, at, octet);
    IS(enter(), refusal);
    IS(entered[ITZ_ENTERED_WHAT], refusal == ITZ_ACCEPTED ? ITZ_ENTERED : 0);
    IS(entered[ITZ_ENTERED_REASON], reason);
    IS(entered[ITZ_ENTERED_DAMAGE], ITZ_DAMAGE_NONE);
}

static void extracting(void)
{
    UNTOLD(entered, itz_extractor_enter(SHORT(settings), ARRAY(extractor), SIZED(store), SIZED(frame), ARRAY(entered)));
    UNTOLD(entered, itz_extractor_enter(ARRAY(settings), SHORT(extractor), SIZED(store), SIZED(frame), ARRAY(entered)));
    UNTOLD(entered, itz_extractor_enter(ARRAY(settings), ARRAY(extractor), SIZED(store), SIZED(frame), SHORT(entered)));
    UNTOLD(step, itz_extractor_step(ARRAY(settings), ARRAY(extractor), SIZED(store), SIZED(frame), SHORT(step)));
    UNTOLD(shown, itz_show(SHORT(step), SIZED(frame), SIZED(store), ARRAY(shown)));
    UNTOLD(shown, itz_show(ARRAY(step), SIZED(frame), SIZED(store), SHORT(shown)));

    second_is(0, 0x10, ITZ_REFUSED_VERSION, 0);
    second_is(1, 0x84, ITZ_REFUSED_CHANNEL, 0);
    second_is(5, 0x01, ITZ_REFUSED_SPARE, 0);
    second_is(7, 0x0A, ITZ_REFUSED_POINTER, 0);
    IS(itz_extractor_enter(ARRAY(settings), ARRAY(extractor), SIZED(store), frame, FRAME - 1, ARRAY(entered)), ITZ_REFUSED_LENGTH);

    second_is(7, 0x02, ITZ_ACCEPTED, ITZ_REASON_POINTER);
    finds(ITZ_STEP_DAMAGED, ITZ_NOWHERE, 0, 0);
    IS(step[ITZ_STEP_DAMAGE], ITZ_DAMAGE_VERSION);
    IS(extractor[ITZ_EXTRACTOR_KIND], 4);
    finds(ITZ_STEP_SPENT, ITZ_NOWHERE, 0, 0);
    IS(extractor[ITZ_EXTRACTOR_KIND], 1);

    second_is(4, 0x04, ITZ_ACCEPTED, ITZ_REASON_LOST);
    IS(entered[ITZ_ENTERED_COUNT], 4);
    IS(entered[ITZ_ENTERED_REPLAY], 1);
    IS(entered[ITZ_ENTERED_LOST], 3);
    IS(entered[ITZ_ENTERED_DROPPED], 2);
    IS(extractor[ITZ_EXTRACTOR_LAST], 4);
    IS(enter(), ITZ_REFUSED_MOMENT);

    second_is(5, 0x00, ITZ_ACCEPTED, ITZ_REASON_NONE);
    finds(ITZ_STEP_PACKET, ITZ_IN_STORE, 0, 5);
    finds(ITZ_STEP_IDLE, ITZ_IN_FRAME, 11, 7);
    finds(ITZ_STEP_SPENT, ITZ_NOWHERE, 0, 0);

    extractor[ITZ_EXTRACTOR_KIND] = 5;
    IS(enter(), ITZ_REFUSED_RECORD);
}

/* An answer that has the damage as its last entry, and 0 before it. */
static void carries(const uint64_t *answer, size_t count, uint64_t damage)
{
    each_is(answer, count - 1, 0);
    IS(answer[count - 1], damage);
}

/* What refusal 8 carries of a packet, from each call that is lent one. */
static void refused_with(uint64_t damage, const uint8_t *packet, size_t size)
{
    uint64_t mux[ITZ_MUX_NUMBERS], put[ITZ_PUT_NUMBERS], unwrapped[ITZ_UNWRAPPED_NUMBERS], unit[ITZ_UNIT_NUMBERS];
    uint64_t table[ITZ_RELAY_NUMBERS] = ITZ_RELAY_START, routed[ITZ_ROUTED_NUMBERS];

    IS(itz_mux_begin(ARRAY(mux)), ITZ_ACCEPTED);
    IS(itz_mux_put(ARRAY(settings), ARRAY(mux), packet, size, SIZED(frame), ARRAY(put)), ITZ_REFUSED_PACKET);
    IS(put[ITZ_PUT_DAMAGE], damage);
    carries(ARRAY(put), damage);
    IS(itz_unwrap(LIMIT, packet, size, ARRAY(unwrapped)), ITZ_REFUSED_PACKET);
    IS(unwrapped[ITZ_UNWRAPPED_DAMAGE], damage);
    carries(ARRAY(unwrapped), damage);
    IS(itz_unit_part(ARRAY(unwrapped), packet, size, ARRAY(unit)), ITZ_ACCEPTED);
    each_is(ARRAY(unit), 0);
    IS(itz_relay_route(LIMIT, ARRAY(table), packet, size, NULL, 0, ARRAY(routed)), ITZ_REFUSED_PACKET);
    IS(routed[ITZ_ROUTED_DAMAGE], damage);
    carries(ARRAY(routed), damage);
}

/* A damaged header, with or without octets behind it: as the reader finds it, as a lent packet, and at the front of a zone. */
static void damaged_by(uint64_t damage, const uint8_t *octets, size_t size)
{
    uint64_t header[ITZ_HEADER_NUMBERS];

    IS(itz_read_header(LIMIT, octets, size, ARRAY(header)), ITZ_ACCEPTED);
    IS(header[ITZ_HEADER_WHAT], ITZ_HEADER_DAMAGED);
    IS(header[ITZ_HEADER_DAMAGE], damage);
    carries(header + 1, ITZ_HEADER_NUMBERS - 1, damage);

    refused_with(damage, octets, size);

    begin();
    sample(frame, 0, 0, 0x50);
    memcpy(frame + 8, octets, size < ZONE ? size : ZONE);
    IS(enter(), ITZ_ACCEPTED);
    finds(ITZ_STEP_DAMAGED, ITZ_NOWHERE, 0, 0);
    IS(step[ITZ_STEP_DAMAGE], damage);
    finds(ITZ_STEP_SPENT, ITZ_NOWHERE, 0, 0);
}

/* Lays three octets at the front of the sample's second frame: what a held EA makes a header of four octets with this length. */
static void second_states(uint8_t high, uint8_t low)
{
    sample(frame, 1, 8, 0);
    frame[9] = high;
    frame[10] = low;
}

/* Holds the first octet of that header. */
static void hold(void)
{
    begin();
    sample(frame, 0, 17, 0xEA);
    frame[16] = 0xE0;
    IS(enter(), ITZ_ACCEPTED);
    IS(entered[ITZ_ENTERED_DAMAGE], ITZ_DAMAGE_NONE);
    finds(ITZ_STEP_PACKET, ITZ_IN_FRAME, 8, 8);
    finds(ITZ_STEP_IDLE, ITZ_IN_FRAME, 16, 1);
    finds(ITZ_STEP_SPENT, ITZ_NOWHERE, 0, 0);
}

/* A length that damages the held header: in the frame that is entered, and in another that is lent to the step. */
static void held_damaged_by(uint64_t damage, uint8_t high, uint8_t low)
{
    hold();
    second_states(high, low);
    IS(enter(), ITZ_ACCEPTED);
    IS(entered[ITZ_ENTERED_DROPPED], 1);
    IS(entered[ITZ_ENTERED_REASON], ITZ_REASON_DAMAGED);
    IS(entered[ITZ_ENTERED_DAMAGE], damage);
    finds(ITZ_STEP_IDLE, ITZ_IN_FRAME, 11, 7);

    hold();
    second_states(0, 4);
    IS(enter(), ITZ_ACCEPTED);
    IS(entered[ITZ_ENTERED_REASON], ITZ_REASON_NONE);
    second_states(high, low);
    finds(ITZ_STEP_DAMAGED, ITZ_NOWHERE, 0, 0);
    IS(step[ITZ_STEP_DAMAGE], damage);
}

static void damages(void)
{
    static const uint8_t version[] = {0x33, 0x05}, not_idle[] = {0xEC, 0x05};
    static const uint8_t below_two[] = {0xE9, 0x01}, below_four[] = {0xEA, 0, 0, 3}, below_eight[] = {0xEB, 0, 0, 0, 0, 0, 0, 7};
    static const uint8_t over_four[] = {0xEA, 0, 0x04, 0x01}, over_eight[] = {0xEB, 0, 0, 0, 0xFF, 0xFF, 0xFF, 0xFF};
    static const uint8_t over_space[LIMIT + 1] = {0x00, 0x05, 0xC0, 0x00, 0x03, 0xFA};
    static const uint8_t longer[] = {0xE9, 0x02, 0x11};
    uint64_t unwrapped[ITZ_UNWRAPPED_NUMBERS], routed[ITZ_ROUTED_NUMBERS], put[ITZ_PUT_NUMBERS];
    uint64_t table[ITZ_RELAY_NUMBERS] = ITZ_RELAY_START, mux[ITZ_MUX_NUMBERS];

    damaged_by(ITZ_DAMAGE_VERSION, version, 1);
    damaged_by(ITZ_DAMAGE_VERSION, SIZED(version));
    damaged_by(ITZ_DAMAGE_NOT_IDLE, not_idle, 1);
    damaged_by(ITZ_DAMAGE_NOT_IDLE, SIZED(not_idle));
    damaged_by(ITZ_DAMAGE_BELOW_HEADER, SIZED(below_two));
    damaged_by(ITZ_DAMAGE_BELOW_HEADER, SIZED(below_four));
    damaged_by(ITZ_DAMAGE_BELOW_HEADER, SIZED(below_eight));
    damaged_by(ITZ_DAMAGE_OVER_LIMIT, SIZED(over_four));
    damaged_by(ITZ_DAMAGE_OVER_LIMIT, SIZED(over_eight));
    damaged_by(ITZ_DAMAGE_OVER_LIMIT, over_space, 6);
    damaged_by(ITZ_DAMAGE_OVER_LIMIT, SIZED(over_space));
    held_damaged_by(ITZ_DAMAGE_BELOW_HEADER, 0x00, 0x03);
    held_damaged_by(ITZ_DAMAGE_OVER_LIMIT, 0x04, 0x01);

    /* Nothing is damaged: an empty packet, headers that are cut, packets of another length, and a space packet to be unwrapped. */
    refused_with(ITZ_DAMAGE_NONE, NULL, 0);
    refused_with(ITZ_DAMAGE_NONE, space, 5);
    refused_with(ITZ_DAMAGE_NONE, wrapped, 3);
    refused_with(ITZ_DAMAGE_NONE, over_four, 3);
    refused_with(ITZ_DAMAGE_NONE, SHORT(space));
    refused_with(ITZ_DAMAGE_NONE, SHORT(wrapped));
    refused_with(ITZ_DAMAGE_NONE, SIZED(longer));
    IS(itz_unwrap(LIMIT, SIZED(space), ARRAY(unwrapped)), ITZ_REFUSED_PACKET);
    carries(ARRAY(unwrapped), ITZ_DAMAGE_NONE);

    /* A refusal that comes before 8 carries none. */
    IS(itz_unwrap(6, SIZED(version), ARRAY(unwrapped)), ITZ_REFUSED_SETTING);
    each_is(ARRAY(unwrapped), 0);
    table[ITZ_RELAY_COUNT] = 33;
    IS(itz_relay_route(LIMIT, ARRAY(table), SIZED(version), NULL, 0, ARRAY(routed)), ITZ_REFUSED_RECORD);
    each_is(ARRAY(routed), 0);
    IS(itz_mux_begin(ARRAY(mux)), ITZ_ACCEPTED);
    mux[ITZ_MUX_TAKEN] = 2;
    IS(itz_mux_put(ARRAY(settings), ARRAY(mux), SIZED(version), SIZED(frame), ARRAY(put)), ITZ_REFUSED_MOMENT);
    each_is(ARRAY(put), 0);
}

/* Judges the frame, and as a tape of its own: the same refusal, the same record and the same store. */
static uint64_t judged(uint64_t *record)
{
    uint64_t same[ITZ_JUDGE_NUMBERS], refusal;
    uint8_t same_store[LIMIT];

    memcpy(same, record, sizeof same);
    memcpy(same_store, store, LIMIT);
    refusal = itz_judge_frame(ARRAY(settings), record, ITZ_JUDGE_NUMBERS, SIZED(store), SIZED(frame));
    IS(itz_judge_tape(ARRAY(settings), ARRAY(same), SIZED(same_store), SIZED(frame)), refusal);
    HOLDS(memcmp(same, record, sizeof same) == 0);
    HOLDS(memcmp(same_store, store, LIMIT) == 0);
    return refusal;
}

static void judging(void)
{
    uint64_t record[ITZ_JUDGE_NUMBERS] = ITZ_JUDGE_START;
    uint64_t verdict[ITZ_VERDICT_NUMBERS];

    sample(frame, 0, 0, 0x50);
    IS(itz_judge_frame(ARRAY(settings), SHORT(record), SIZED(store), SIZED(frame)), ITZ_REFUSED_ROOM);
    UNTOLD(verdict, itz_judge_close(ARRAY(settings), ARRAY(record), SIZED(store), SHORT(verdict)));
    IS(itz_judge_close(ARRAY(settings), ARRAY(record), SIZED(store), ARRAY(verdict)), ITZ_ACCEPTED);
    IS(verdict[ITZ_VERDICT_WHAT], ITZ_PASS);
    IS(judged(record), ITZ_ACCEPTED);
    IS(record[ITZ_JUDGE_KIND], 1);
    IS(record[ITZ_JUDGE_TALLY], 1);
    IS(record[ITZ_JUDGE_LAST], 0);
    IS(record[ITZ_JUDGE_HELD], 2);
    IS(itz_judge_close(ARRAY(settings), ARRAY(record), SIZED(store), ARRAY(verdict)), ITZ_ACCEPTED);
    IS(verdict[ITZ_VERDICT_WHAT], ITZ_FAULT);
    IS(verdict[ITZ_VERDICT_INDEX], 1);
    record[ITZ_JUDGE_TALLY] = 1 << 24;
    IS(judged(record), ITZ_REFUSED_LAST);
}

#define FRAMES 3

static uint8_t tape[FRAMES * (FRAME + TRAILER)];

/* The sample's frames and one without packets, end to end, with this signalling octet. */
static void lay_tape(uint8_t signalling)
{
    static const uint8_t idle[FRAME] = {
        0x50, 0x83, 0, 0, 2, 0, 0x07, 0xFE, 0x55, 0x55, 0x55, 0x55, 0x55, 0x55, 0x55, 0x55, 0x55, 0x55};
    sample(tape, 0, 5, signalling);
    sample(tape + FRAME, 1, 5, signalling);
    memcpy(tape + 2 * FRAME, idle, FRAME);
    tape[2 * FRAME + 5] = signalling;
}

/* Judges so many octets of the tape. */
static uint64_t judged_tape(uint64_t *record, size_t octets)
{
    return itz_judge_tape(ARRAY(settings), record, ITZ_JUDGE_NUMBERS, SIZED(store), tape, octets);
}

/* The same, refused: record and store are as they were. */
static void tape_refused(uint64_t *record, size_t octets, uint64_t refusal)
{
    uint64_t before[ITZ_JUDGE_NUMBERS];
    uint8_t kept[LIMIT];

    memcpy(before, record, sizeof before);
    memcpy(kept, store, LIMIT);
    IS(judged_tape(record, octets), refusal);
    HOLDS(memcmp(before, record, sizeof before) == 0);
    HOLDS(memcmp(kept, store, LIMIT) == 0);
}

static void record_is(const uint64_t *record, uint64_t kind, uint64_t tally, uint64_t last, uint64_t held)
{
    IS(record[ITZ_JUDGE_KIND], kind);
    IS(record[ITZ_JUDGE_TALLY], tally);
    IS(record[ITZ_JUDGE_LAST], last);
    IS(record[ITZ_JUDGE_HELD], held);
}

static void verdict_is(const uint64_t *record, uint64_t what, uint64_t index)
{
    uint64_t verdict[ITZ_VERDICT_NUMBERS];

    IS(itz_judge_close(ARRAY(settings), record, ITZ_JUDGE_NUMBERS, SIZED(store), ARRAY(verdict)), ITZ_ACCEPTED);
    IS(verdict[ITZ_VERDICT_WHAT], what);
    IS(verdict[ITZ_VERDICT_INDEX], index);
}

/* An empty tape, the sample's frames in two tapes, and what is cut within a frame. */
static void tapes(void)
{
    uint64_t record[ITZ_JUDGE_NUMBERS] = ITZ_JUDGE_START;

    lay_tape(0);
    IS(itz_judge_tape(ARRAY(settings), ARRAY(record), SIZED(store), NULL, 0), ITZ_ACCEPTED);
    IS(judged_tape(record, 0), ITZ_ACCEPTED);
    each_is(ARRAY(record), 0);
    verdict_is(record, ITZ_PASS, 0);
    for (size_t octets = 1; octets < FRAME; octets++)
        tape_refused(record, octets, ITZ_REFUSED_LENGTH);
    IS(judged_tape(record, FRAME), ITZ_ACCEPTED);
    record_is(record, 1, 1, 0, 2);
    HOLDS(memcmp(store, encapsulation, 2) == 0);
    verdict_is(record, ITZ_FAULT, 1);
    for (size_t octets = FRAME + 1; octets < 2 * FRAME; octets++)
        tape_refused(record, octets, ITZ_REFUSED_LENGTH);
    IS(itz_judge_tape(ARRAY(settings), ARRAY(record), SIZED(store), NULL, 0), ITZ_ACCEPTED);
    record_is(record, 1, 1, 0, 2);
    IS(itz_judge_tape(ARRAY(settings), ARRAY(record), SIZED(store), tape + FRAME, 2 * FRAME), ITZ_ACCEPTED);
    record_is(record, 1, 3, 2, 0);
    verdict_is(record, ITZ_PASS, 0);
}

/* The tape in two parts, cut before each frame and behind the last, against its frames one by one. */
static void tape_is_its_frames(void)
{
    for (size_t cut = 0; cut <= FRAMES; cut++) {
        uint64_t single[ITZ_JUDGE_NUMBERS] = ITZ_JUDGE_START, record[ITZ_JUDGE_NUMBERS] = ITZ_JUDGE_START;
        uint8_t single_store[LIMIT];

        memset(single_store, 0xA5, LIMIT);
        memset(store, 0xA5, LIMIT);
        for (size_t i = 0; i < FRAMES; i++)
            IS(itz_judge_frame(ARRAY(settings), ARRAY(single), SIZED(single_store), tape + i * FRAME, FRAME), ITZ_ACCEPTED);
        IS(judged_tape(record, cut * FRAME), ITZ_ACCEPTED);
        IS(record[ITZ_JUDGE_TALLY], cut);
        IS(itz_judge_tape(ARRAY(settings), ARRAY(record), SIZED(store), tape + cut * FRAME, (FRAMES - cut) * FRAME), ITZ_ACCEPTED);
        IS(record[ITZ_JUDGE_TALLY], FRAMES);
        HOLDS(memcmp(single, record, sizeof single) == 0);
        HOLDS(memcmp(single_store, store, LIMIT) == 0);
    }
}

/* The tape with each of its bits changed in turn; then with a fault in it, behind which only the tally grows. */
static void faults_in_tapes(void)
{
    uint64_t record[ITZ_JUDGE_NUMBERS] = ITZ_JUDGE_START;
    uint8_t kept[LIMIT];

    lay_tape(0);
    tape_is_its_frames();
    for (size_t bit = 0; bit < 8 * FRAMES * FRAME; bit++) {
        tape[bit / 8] ^= (uint8_t)(0x80 >> bit % 8);
        tape_is_its_frames();
        tape[bit / 8] ^= (uint8_t)(0x80 >> bit % 8);
    }

    tape[FRAME + 7] = 2;
    IS(judged_tape(record, FRAMES * FRAME), ITZ_ACCEPTED);
    record_is(record, 2, FRAMES, 1, 0);
    verdict_is(record, ITZ_FAULT, 1);
    memcpy(kept, store, LIMIT);
    IS(judged_tape(record, FRAMES * FRAME), ITZ_ACCEPTED);
    record_is(record, 2, 2 * FRAMES, 1, 0);
    IS(judged_tape(record, 0), ITZ_ACCEPTED);
    record_is(record, 2, 2 * FRAMES, 1, 0);
    HOLDS(memcmp(kept, store, LIMIT) == 0);
    tape_refused(record, FRAMES * FRAME - 1, ITZ_REFUSED_LENGTH);
    verdict_is(record, ITZ_FAULT, 1);
}

/* All that a tape is refused for, at once and put right one by one; then each alone. */
static void tapes_refused(void)
{
    uint64_t record[ITZ_JUDGE_NUMBERS] = {3, 0xFFFFFF, 0xFFFFFF, 0};
    const size_t cut = 2 * FRAME + 1;

    lay_tape(0);
    settings[ITZ_SETTINGS_SPACECRAFT] = 256;
    IS(itz_judge_tape(SHORT(settings), ARRAY(record), SHORT(store), tape, cut), ITZ_REFUSED_ROOM);
    IS(itz_judge_tape(ARRAY(settings), SHORT(record), SHORT(store), tape, cut), ITZ_REFUSED_ROOM);
    IS(itz_judge_tape(ARRAY(settings), ARRAY(record), SHORT(store), tape, cut), ITZ_REFUSED_SETTING);
    settings[ITZ_SETTINGS_SPACECRAFT] = 66;
    IS(itz_judge_tape(ARRAY(settings), ARRAY(record), SHORT(store), tape, cut), ITZ_REFUSED_ROOM);
    record_is(record, 3, 0xFFFFFF, 0xFFFFFF, 0);
    tape_refused(record, cut, ITZ_REFUSED_RECORD);
    record[ITZ_JUDGE_KIND] = 1;
    tape_refused(record, cut, ITZ_REFUSED_LAST);
    record[ITZ_JUDGE_TALLY] = 1;
    tape_refused(record, cut, ITZ_REFUSED_LENGTH);

    settings[ITZ_SETTINGS_SPACECRAFT] = 256;
    tape_refused(record, 2 * FRAME, ITZ_REFUSED_SETTING);
    tape_refused(record, 0, ITZ_REFUSED_SETTING);
    settings[ITZ_SETTINGS_SPACECRAFT] = 66;
    IS(itz_judge_tape(SHORT(settings), ARRAY(record), SIZED(store), tape, 2 * FRAME), ITZ_REFUSED_ROOM);
    IS(itz_judge_tape(ARRAY(settings), SHORT(record), SIZED(store), tape, 2 * FRAME), ITZ_REFUSED_ROOM);
    IS(itz_judge_tape(ARRAY(settings), ARRAY(record), SHORT(store), tape, 2 * FRAME), ITZ_REFUSED_ROOM);
    IS(itz_judge_tape(ARRAY(settings), ARRAY(record), SHORT(store), NULL, 0), ITZ_REFUSED_ROOM);
    record_is(record, 1, 1, 0xFFFFFF, 0);
    record[ITZ_JUDGE_HELD] = 2;
    store[0] = 0x33;
    tape_refused(record, 2 * FRAME, ITZ_REFUSED_RECORD);
    tape_refused(record, 0, ITZ_REFUSED_RECORD);
    record[ITZ_JUDGE_HELD] = 0;
    record[ITZ_JUDGE_TALLY] = 0xFFFFFF;
    tape_refused(record, 2 * FRAME, ITZ_REFUSED_LAST);
    record[ITZ_JUDGE_TALLY] = 1;
    tape_refused(record, 2 * FRAME - 1, ITZ_REFUSED_LENGTH);
    IS(judged_tape(record, 2 * FRAME), ITZ_ACCEPTED);
    record_is(record, 1, 3, 1, 0);
}

static void bits(void)
{
    uint64_t writer[ITZ_BIT_WRITER_NUMBERS] = ITZ_BIT_WRITER_START;
    uint64_t reader[ITZ_BIT_READER_NUMBERS] = ITZ_BIT_READER_START;
    uint64_t read[ITZ_BITS_NUMBERS];
    uint8_t bit_frame[BIT_FRAME];

    IS(itz_bits_write(SHORT(bit_settings), ARRAY(writer), SIZED(four_bits), 4, SIZED(bit_frame)), ITZ_REFUSED_ROOM);
    IS(itz_bits_write(ARRAY(bit_settings), SHORT(writer), SIZED(four_bits), 4, SIZED(bit_frame)), ITZ_REFUSED_ROOM);
    IS(itz_bits_write(ARRAY(bit_settings), ARRAY(writer), SIZED(four_bits), 4, SIZED(bit_frame)), ITZ_ACCEPTED);
    IS(bit_frame[8], 0x75);
    IS(writer[ITZ_BIT_WRITER_COUNT], 1);
    bit_frame[5] = 0x80;
    bit_frame[4] = 7;
    UNTOLD(read, itz_bits_read(ARRAY(bit_settings), SHORT(reader), SIZED(bit_frame), ARRAY(read)));
    UNTOLD(read, itz_bits_read(ARRAY(bit_settings), ARRAY(reader), SIZED(bit_frame), SHORT(read)));
    IS(itz_bits_read(ARRAY(bit_settings), ARRAY(reader), SIZED(bit_frame), ARRAY(read)), ITZ_ACCEPTED);
    IS(read[ITZ_BITS_LOSS], 0);
    IS(read[ITZ_BITS_COUNT], 7);
    IS(read[ITZ_BITS_REPLAY], 1);
    IS(read[ITZ_BITS_VALID], 4);
    IS(read[ITZ_BITS_START], 8);
    IS(read[ITZ_BITS_SIZE], 1);
    IS(reader[ITZ_BIT_READER_KIND], 1);
    IS(reader[ITZ_BIT_READER_LAST], 7);
    IS(reader[ITZ_BIT_READER_WAITING], 0);
    bit_frame[5] = 0x00;
    IS(itz_bits_read(ARRAY(bit_settings), ARRAY(reader), SIZED(bit_frame), ARRAY(read)), ITZ_ACCEPTED);
    IS(read[ITZ_BITS_LOSS], 1);
    IS(read[ITZ_BITS_REPLAY], 0);
    IS(reader[ITZ_BIT_READER_WAITING], 0);
}

/* Fill behind a gap, the next fill cut short and then whole, and the bits that tell the loss; then records that no call leaves. */
static void losses(void)
{
    uint8_t fill[BIT_FRAME] = {0x50, 0x83, 0, 0, 2, 0, 0x3F, 0xFE, 0x55, 0x55};
    uint8_t bit[BIT_FRAME] = {0x50, 0x83, 0, 0, 0, 0, 0x00, 0x00, 0xD5, 0x55};
    uint64_t reader[ITZ_BIT_READER_NUMBERS] = ITZ_BIT_READER_START;
    uint64_t read[ITZ_BITS_NUMBERS];

    IS(itz_bits_read(ARRAY(bit_settings), ARRAY(reader), SIZED(bit), ARRAY(read)), ITZ_ACCEPTED);
    IS(itz_bits_read(ARRAY(bit_settings), ARRAY(reader), SIZED(fill), ARRAY(read)), ITZ_ACCEPTED);
    IS(read[ITZ_BITS_LOSS], 0);
    IS(read[ITZ_BITS_VALID], 0);
    IS(reader[ITZ_BIT_READER_LAST], 2);
    IS(reader[ITZ_BIT_READER_WAITING], 1);
    fill[4] = 3;
    IS(itz_bits_read(ARRAY(bit_settings), ARRAY(reader), SHORT(fill), ARRAY(read)), ITZ_REFUSED_LENGTH);
    IS(reader[ITZ_BIT_READER_LAST], 2);
    IS(reader[ITZ_BIT_READER_WAITING], 1);
    IS(itz_bits_read(ARRAY(bit_settings), ARRAY(reader), SIZED(fill), ARRAY(read)), ITZ_ACCEPTED);
    IS(read[ITZ_BITS_LOSS], 0);
    IS(reader[ITZ_BIT_READER_WAITING], 1);
    bit[4] = 4;
    IS(itz_bits_read(ARRAY(bit_settings), ARRAY(reader), SIZED(bit), ARRAY(read)), ITZ_ACCEPTED);
    IS(read[ITZ_BITS_LOSS], 1);
    IS(reader[ITZ_BIT_READER_WAITING], 0);
    bit[4] = 5;
    IS(itz_bits_read(ARRAY(bit_settings), ARRAY(reader), SIZED(bit), ARRAY(read)), ITZ_ACCEPTED);
    IS(read[ITZ_BITS_LOSS], 0);
    reader[ITZ_BIT_READER_WAITING] = 2;
    IS(itz_bits_read(ARRAY(bit_settings), ARRAY(reader), SIZED(bit), ARRAY(read)), ITZ_REFUSED_RECORD);
    IS(reader[ITZ_BIT_READER_WAITING], 2);
    reader[ITZ_BIT_READER_KIND] = reader[ITZ_BIT_READER_LAST] = 0;
    reader[ITZ_BIT_READER_WAITING] = 1;
    IS(itz_bits_read(ARRAY(bit_settings), ARRAY(reader), SIZED(bit), ARRAY(read)), ITZ_REFUSED_RECORD);
}

static uint64_t enter_longer(const uint8_t *longer)
{
    return itz_extractor_enter(ARRAY(settings), ARRAY(extractor), SIZED(store), longer, FRAME + TRAILER, ARRAY(entered));
}

/* The sample's first frame with its trailer: written, refused, judged and entered. */
static void trailers(void)
{
    uint64_t mux[ITZ_MUX_NUMBERS], put[ITZ_PUT_NUMBERS];
    uint64_t record[ITZ_JUDGE_NUMBERS] = ITZ_JUDGE_START, faulty[ITZ_JUDGE_NUMBERS] = ITZ_JUDGE_START;
    uint8_t longer[FRAME + TRAILER];

    sample(frame, 0, 0, 0x50);
    memset(longer, 0xA5, sizeof longer);
    IS(itz_mux_begin(ARRAY(mux)), ITZ_ACCEPTED);
    settings[ITZ_SETTINGS_TRAILER] = 2;
    IS(itz_mux_put(ARRAY(settings), ARRAY(mux), frame + 8, 8, SIZED(longer), ARRAY(put)), ITZ_REFUSED_SETTING);
    settings[ITZ_SETTINGS_TRAILER] = 1;
    IS(itz_mux_put(ARRAY(settings), ARRAY(mux), frame + 8, 8, SHORT(longer), ARRAY(put)), ITZ_REFUSED_ROOM);
    IS(itz_mux_put(ARRAY(settings), ARRAY(mux), frame + 8, 8, SIZED(longer), ARRAY(put)), ITZ_ACCEPTED);
    IS(put[ITZ_PUT_FULL], 0);
    IS(longer[FRAME], 0xA5);
    IS(longer[FRAME + 1], 0xA5);
    IS(itz_mux_put(ARRAY(settings), ARRAY(mux), SIZED(encapsulation), SIZED(longer), ARRAY(put)), ITZ_ACCEPTED);
    IS(put[ITZ_PUT_FULL], 1);
    HOLDS(memcmp(longer, frame, FRAME) == 0);
    IS(longer[FRAME], 0x2D);
    IS(longer[FRAME + 1], 0x75);

    begin();
    IS(enter(), ITZ_REFUSED_LENGTH);
    longer[0] ^= 0x80;
    IS(enter_longer(longer), ITZ_REFUSED_TRAILER);
    longer[0] ^= 0x80;
    longer[FRAME + 1] ^= 1;
    IS(enter_longer(longer), ITZ_REFUSED_TRAILER);
    IS(entered[ITZ_ENTERED_WHAT], 0);
    IS(extractor[ITZ_EXTRACTOR_KIND], 0);
    IS(itz_judge_frame(ARRAY(settings), ARRAY(faulty), SIZED(store), SIZED(longer)), ITZ_ACCEPTED);
    IS(faulty[ITZ_JUDGE_KIND], 2);

    longer[FRAME + 1] ^= 1;
    IS(itz_judge_frame(ARRAY(settings), ARRAY(record), SIZED(store), SIZED(longer)), ITZ_ACCEPTED);
    IS(record[ITZ_JUDGE_KIND], 1);
    IS(enter_longer(longer), ITZ_ACCEPTED);
    IS(entered[ITZ_ENTERED_WHAT], ITZ_ENTERED);
    longer[FRAME + 1] ^= 1;
    IS(itz_extractor_step(ARRAY(settings), ARRAY(extractor), SIZED(store), SIZED(longer), ARRAY(step)), ITZ_ACCEPTED);
    IS(step[ITZ_STEP_WHAT], ITZ_STEP_PACKET);
    set();
}

/* The sample's frames as a tape with trailers: as long as it has to be, and with each trailer wrong. */
static void tapes_with_trailers(void)
{
    static const uint8_t ends[2][TRAILER] = {{0x2D, 0x75}, {0x43, 0x63}};
    const size_t longer = FRAME + TRAILER;
    uint64_t record[ITZ_JUDGE_NUMBERS] = ITZ_JUDGE_START, last[ITZ_JUDGE_NUMBERS] = {1, 0xFFFFFF, 0xFFFFFF, 0};

    for (size_t i = 0; i <= 1; i++) {
        sample(tape + i * longer, i == 1, 5, 0);
        memcpy(tape + i * longer + FRAME, ends[i], TRAILER);
    }
    tape_refused(record, 2 * longer, ITZ_REFUSED_LENGTH);
    tape_refused(last, 2 * longer, ITZ_REFUSED_LAST);
    tape_refused(last, 2 * FRAME, ITZ_REFUSED_LAST);
    settings[ITZ_SETTINGS_TRAILER] = 1;
    tape_refused(record, 2 * FRAME, ITZ_REFUSED_LENGTH);
    tape_refused(last, 2 * FRAME, ITZ_REFUSED_LENGTH);
    tape_refused(last, 2 * longer - 1, ITZ_REFUSED_LENGTH);
    tape_refused(last, 2 * longer, ITZ_REFUSED_LAST);
    IS(judged_tape(record, 2 * longer), ITZ_ACCEPTED);
    record_is(record, 1, 2, 1, 0);
    verdict_is(record, ITZ_PASS, 0);
    for (size_t i = 0; i <= 1; i++) {
        uint64_t faulty[ITZ_JUDGE_NUMBERS] = ITZ_JUDGE_START;
        tape[i * longer + FRAME] ^= 1;
        IS(judged_tape(faulty, 2 * longer), ITZ_ACCEPTED);
        record_is(faulty, 2, 2, i, 0);
        tape[i * longer + FRAME] ^= 1;
    }
    set();
}

static void bit_trailers(void)
{
    uint64_t writer[ITZ_BIT_WRITER_NUMBERS] = ITZ_BIT_WRITER_START;
    uint64_t reader[ITZ_BIT_READER_NUMBERS] = ITZ_BIT_READER_START;
    uint64_t read[ITZ_BITS_NUMBERS];
    uint8_t longer[BIT_FRAME + TRAILER];

    bit_settings[ITZ_BIT_SETTINGS_TRAILER] = 2;
    IS(itz_bits_write(ARRAY(bit_settings), ARRAY(writer), SIZED(four_bits), 4, SIZED(longer)), ITZ_REFUSED_SETTING);
    bit_settings[ITZ_BIT_SETTINGS_TRAILER] = 1;
    IS(itz_bits_write(ARRAY(bit_settings), ARRAY(writer), SIZED(four_bits), 4, SHORT(longer)), ITZ_REFUSED_ROOM);
    IS(itz_bits_write(ARRAY(bit_settings), ARRAY(writer), SIZED(four_bits), 4, SIZED(longer)), ITZ_ACCEPTED);
    IS(longer[BIT_FRAME], 0x31);
    IS(longer[BIT_FRAME + 1], 0xEF);
    IS(itz_bits_read(ARRAY(bit_settings), ARRAY(reader), longer, BIT_FRAME, ARRAY(read)), ITZ_REFUSED_LENGTH);
    longer[0] ^= 0x80;
    IS(itz_bits_read(ARRAY(bit_settings), ARRAY(reader), SIZED(longer), ARRAY(read)), ITZ_REFUSED_TRAILER);
    longer[0] ^= 0x80;
    longer[BIT_FRAME] ^= 1;
    IS(itz_bits_read(ARRAY(bit_settings), ARRAY(reader), SIZED(longer), ARRAY(read)), ITZ_REFUSED_TRAILER);
    IS(reader[ITZ_BIT_READER_KIND], 0);
    longer[BIT_FRAME] ^= 1;
    IS(itz_bits_read(ARRAY(bit_settings), ARRAY(reader), SIZED(longer), ARRAY(read)), ITZ_ACCEPTED);
    IS(read[ITZ_BITS_VALID], 4);
    IS(read[ITZ_BITS_START], 8);
    set();
}

#define EDITIONS 3

/* How many counts each edition has. */
static const uint64_t wheels[EDITIONS] = {0x1000000, 0x1000000, 0x10000000};

static void set_edition(uint64_t edition)
{
    settings[ITZ_SETTINGS_EDITION] = bit_settings[ITZ_BIT_SETTINGS_EDITION] = edition;
}

static uint8_t bit_frame[BIT_FRAME];

/* The sample's first frame and a frame of four bits, both with these octets of the count and this signalling octet behind them. */
static void lay_octets(const uint8_t *octets)
{
    static const uint8_t four[BIT_FRAME] = {0x50, 0x83, 0, 0, 0, 0, 0x00, 0x03, 0x75, 0x55};
    sample(frame, 0, 0, 0x50);
    memcpy(bit_frame, four, BIT_FRAME);
    memcpy(frame + 2, octets, 4);
    memcpy(bit_frame + 2, octets, 4);
}

/* The same, with a count as the edition has it. */
static void lay_count(uint64_t edition, uint64_t count)
{
    uint8_t octets[4] = {(uint8_t)(count >> 16), (uint8_t)(count >> 8), (uint8_t)count, 0};
    if (edition == ITZ_EDITION_CYCLE_USED)
        octets[3] = (uint8_t)(0x40 | count >> 24);
    lay_octets(octets);
}

/* What the calls write for a count: the frame to the octet. */
static void frame_is(const uint8_t *octets, uint8_t high, uint8_t low, const uint8_t *zone)
{
    IS(frame[0], 0x50);
    IS(frame[1], 0x83);
    HOLDS(memcmp(frame + 2, octets, 4) == 0);
    IS(frame[6], high);
    IS(frame[7], low);
    HOLDS(memcmp(frame + 8, zone, ZONE) == 0);
}

/* A count as each call writes it, and the count that is then in the record. */
static void writes(uint64_t edition, uint64_t count, const uint8_t *octets, uint64_t next)
{
    static const uint8_t filled[ZONE] = {0x10, 0x05, 0x80, 0x09, 0x00, 0x01, 0xAA, 0xBB, 0xFA, 0x05};
    static const uint8_t closed[ZONE] = {0x10, 0x05, 0x80, 0x09, 0x00, 0x01, 0xAA, 0xBB, 0xE1, 0x02};
    static const uint8_t idle[ZONE] = {0x55, 0x55, 0x55, 0x55, 0x55, 0x55, 0x55, 0x55, 0x55, 0x55};
    uint64_t mux[ITZ_MUX_NUMBERS], put[ITZ_PUT_NUMBERS], flushed[ITZ_FLUSH_NUMBERS];
    uint64_t writer[ITZ_BIT_WRITER_NUMBERS];
    uint8_t written[BIT_FRAME];

    set_edition(edition);
    IS(itz_mux_begin(ARRAY(mux)), ITZ_ACCEPTED);
    mux[ITZ_MUX_COUNT] = count;
    IS(itz_mux_put(ARRAY(settings), ARRAY(mux), SIZED(space), SIZED(frame), ARRAY(put)), ITZ_ACCEPTED);
    IS(mux[ITZ_MUX_COUNT], count);
    IS(itz_mux_put(ARRAY(settings), ARRAY(mux), SIZED(wrapped), SIZED(frame), ARRAY(put)), ITZ_ACCEPTED);
    IS(put[ITZ_PUT_FULL], 1);
    frame_is(octets, 0x00, 0x00, filled);
    IS(mux[ITZ_MUX_COUNT], next);

    IS(itz_mux_begin(ARRAY(mux)), ITZ_ACCEPTED);
    mux[ITZ_MUX_COUNT] = count;
    IS(itz_mux_put(ARRAY(settings), ARRAY(mux), SIZED(space), SIZED(frame), ARRAY(put)), ITZ_ACCEPTED);
    IS(itz_mux_flush(ARRAY(settings), ARRAY(mux), SIZED(frame), ARRAY(flushed)), ITZ_ACCEPTED);
    IS(flushed[ITZ_FLUSH_WHAT], ITZ_FLUSH_FRAME);
    frame_is(octets, 0x00, 0x00, closed);
    IS(mux[ITZ_MUX_COUNT], next);

    mux[ITZ_MUX_COUNT] = count;
    IS(itz_mux_idle(ARRAY(settings), ARRAY(mux), SIZED(frame)), ITZ_ACCEPTED);
    frame_is(octets, 0x07, 0xFE, idle);
    IS(mux[ITZ_MUX_COUNT], next);

    writer[ITZ_BIT_WRITER_COUNT] = count;
    IS(itz_bits_write(ARRAY(bit_settings), ARRAY(writer), SIZED(four_bits), 4, SIZED(written)), ITZ_ACCEPTED);
    lay_octets(octets);
    HOLDS(memcmp(written, bit_frame, BIT_FRAME) == 0);
    IS(writer[ITZ_BIT_WRITER_COUNT], next);
}

/* The laid frames as each call reads them: refused, or with this count and replay flag. */
static void reads(uint64_t edition, uint64_t refusal, uint64_t count, uint64_t replay)
{
    uint64_t record[ITZ_JUDGE_NUMBERS] = ITZ_JUDGE_START, reader[ITZ_BIT_READER_NUMBERS] = ITZ_BIT_READER_START;
    uint64_t read[ITZ_BITS_NUMBERS];

    set_edition(edition);
    begin();
    IS(enter(), refusal);
    IS(itz_bits_read(ARRAY(bit_settings), ARRAY(reader), SIZED(bit_frame), ARRAY(read)), refusal);
    IS(judged(record), ITZ_ACCEPTED);
    IS(record[ITZ_JUDGE_KIND], refusal == ITZ_ACCEPTED ? 1 : 2);
    if (refusal != ITZ_ACCEPTED) {
        each_is(ARRAY(entered), 0);
        each_is(ARRAY(extractor), 0);
        each_is(ARRAY(read), 0);
        each_is(ARRAY(reader), 0);
        return;
    }
    IS(entered[ITZ_ENTERED_COUNT], count);
    IS(entered[ITZ_ENTERED_REPLAY], replay);
    IS(entered[ITZ_ENTERED_LOST], 0);
    IS(extractor[ITZ_EXTRACTOR_LAST], count);
    IS(read[ITZ_BITS_COUNT], count);
    IS(read[ITZ_BITS_REPLAY], replay);
    IS(read[ITZ_BITS_LOSS], 0);
    IS(reader[ITZ_BIT_READER_LAST], count);
    IS(record[ITZ_JUDGE_LAST], count);
}

/* A count of an edition in its octets, written and read, and the count after it. */
static void counted(uint64_t edition, uint64_t count, uint32_t octets, uint64_t next)
{
    const uint8_t said[4] = {(uint8_t)(octets >> 24), (uint8_t)(octets >> 16), (uint8_t)(octets >> 8), (uint8_t)octets};
    writes(edition, count, said, next);
    lay_octets(said);
    reads(edition, ITZ_ACCEPTED, count, 0);
}

static void counts(void)
{
    for (uint64_t edition = ITZ_EDITION_FORMER; edition <= ITZ_EDITION_CYCLE_UNUSED; edition++) {
        counted(edition, 0, 0x00000000, 1);
        counted(edition, 0xBCDEF1, 0xBCDEF100, 0xBCDEF2);
        counted(edition, 0xFFFFFF, 0xFFFFFF00, 0);
    }
    counted(ITZ_EDITION_CYCLE_USED, 0, 0x00000040, 1);
    counted(ITZ_EDITION_CYCLE_USED, 0xBCDEF1, 0xBCDEF140, 0xBCDEF2);
    counted(ITZ_EDITION_CYCLE_USED, 0xFFFFFF, 0xFFFFFF40, 0x1000000);
    counted(ITZ_EDITION_CYCLE_USED, 0x1000000, 0x00000041, 0x1000001);
    counted(ITZ_EDITION_CYCLE_USED, 0xABCDEF1, 0xBCDEF14A, 0xABCDEF2);
    counted(ITZ_EDITION_CYCLE_USED, 0xFFFFFFF, 0xFFFFFF4F, 0);
}

/* Every signalling octet at every edition. */
static void signalling(void)
{
    for (uint64_t edition = 0; edition < EDITIONS; edition++)
        for (unsigned octet = 0; octet < 256; octet++) {
            const uint8_t octets[4] = {0xBC, 0xDE, 0xF1, (uint8_t)octet};
            uint64_t replay = octet >> 7, usage = octet >> 6 & 1, spare = octet >> 4 & 3, cycle = octet & 15;
            lay_octets(octets);
            if (spare != 0 || usage != (edition == ITZ_EDITION_CYCLE_USED) || (usage == 0 && cycle != 0))
                reads(edition, ITZ_REFUSED_SPARE, 0, 0);
            else
                reads(edition, ITZ_ACCEPTED, cycle << 24 | 0xBCDEF1, replay);
        }
}

/* The usage behind the channel and before the pointer; a step does not ask for it again. */
static void usage_in_turn(void)
{
    lay_count(ITZ_EDITION_FORMER, 7);
    frame[1] = bit_frame[1] = 0x84;
    frame[7] = 0x0A;
    bit_frame[7] = 0x0F;
    reads(ITZ_EDITION_CYCLE_USED, ITZ_REFUSED_CHANNEL, 0, 0);
    frame[1] = bit_frame[1] = 0x83;
    reads(ITZ_EDITION_CYCLE_USED, ITZ_REFUSED_SPARE, 0, 0);
    frame[5] = bit_frame[5] = 0x40;
    reads(ITZ_EDITION_CYCLE_USED, ITZ_REFUSED_POINTER, 0, 0);
    frame[7] = bit_frame[7] = 0;
    reads(ITZ_EDITION_CYCLE_USED, ITZ_ACCEPTED, 7, 0);
    frame[5] = 0x3F;
    finds(ITZ_STEP_PACKET, ITZ_IN_FRAME, 8, 8);
}

/* From one count to another: the frames lost, the loss flag of bits, and whether the judge finds a fault. */
static void loses(uint64_t edition, uint64_t last, uint64_t count, uint64_t lost)
{
    uint64_t record[ITZ_JUDGE_NUMBERS] = {1, 1, last, 0}, reader[ITZ_BIT_READER_NUMBERS] = {1, last, 0};
    uint64_t read[ITZ_BITS_NUMBERS];

    set_edition(edition);
    lay_count(edition, count);
    begin();
    extractor[ITZ_EXTRACTOR_KIND] = 2;
    extractor[ITZ_EXTRACTOR_LAST] = last;
    IS(enter(), ITZ_ACCEPTED);
    IS(entered[ITZ_ENTERED_COUNT], count);
    IS(entered[ITZ_ENTERED_LOST], lost);
    IS(entered[ITZ_ENTERED_REASON], lost == 0 ? ITZ_REASON_NONE : ITZ_REASON_LOST);
    IS(extractor[ITZ_EXTRACTOR_LAST], count);
    IS(itz_bits_read(ARRAY(bit_settings), ARRAY(reader), SIZED(bit_frame), ARRAY(read)), ITZ_ACCEPTED);
    IS(read[ITZ_BITS_COUNT], count);
    IS(read[ITZ_BITS_LOSS], lost != 0);
    IS(judged(record), ITZ_ACCEPTED);
    IS(record[ITZ_JUDGE_KIND], lost == 0 ? 1 : 2);
    IS(record[ITZ_JUDGE_TALLY], 2);
    IS(record[ITZ_JUDGE_LAST], lost == 0 ? count : 1);
}

static void lost_round_the_wheel(void)
{
    for (uint64_t edition = ITZ_EDITION_FORMER; edition <= ITZ_EDITION_CYCLE_UNUSED; edition++) {
        loses(edition, 5, 9, 3);
        loses(edition, 0xFFFFFF, 0, 0);
        loses(edition, 0xFFFFFF, 1, 1);
        loses(edition, 0, 0, 0xFFFFFF);
        loses(edition, 1, 0, 0xFFFFFE);
    }
    loses(ITZ_EDITION_CYCLE_USED, 5, 9, 3);
    loses(ITZ_EDITION_CYCLE_USED, 0xFFFFFF, 0x1000000, 0);
    loses(ITZ_EDITION_CYCLE_USED, 0xFFFFFF, 0, 0xF000000);
    loses(ITZ_EDITION_CYCLE_USED, 5, 0x1000006, 0x1000000);
    loses(ITZ_EDITION_CYCLE_USED, 0xFFFFFFF, 0, 0);
    loses(ITZ_EDITION_CYCLE_USED, 0xFFFFFFF, 1, 1);
    loses(ITZ_EDITION_CYCLE_USED, 0, 0, 0xFFFFFFF);
    loses(ITZ_EDITION_CYCLE_USED, 1, 0, 0xFFFFFFE);
    loses(ITZ_EDITION_CYCLE_USED, 0x1000000, 0xFFFFFF, 0xFFFFFFE);
}

/* A call with a record: refused (10), and then the record is as it was, or accepted. */
#define HELD(record, refusal, call) \
    (memcpy(before, record, sizeof record), IS(call, refusal), \
     HOLDS((refusal) == ITZ_ACCEPTED || memcmp(before, record, sizeof record) == 0))

/* A count in each record, at each call that is lent one. */
static void recorded(uint64_t edition, uint64_t count)
{
    const uint64_t refusal = count < wheels[edition] ? ITZ_ACCEPTED : ITZ_REFUSED_RECORD;
    uint64_t mux[ITZ_MUX_NUMBERS], put[ITZ_PUT_NUMBERS], flushed[ITZ_FLUSH_NUMBERS];
    uint64_t record[ITZ_JUDGE_NUMBERS] = {1, 1, count, 0}, verdict[ITZ_VERDICT_NUMBERS];
    uint64_t writer[ITZ_BIT_WRITER_NUMBERS] = {count}, reader[ITZ_BIT_READER_NUMBERS] = {1, count, 0};
    uint64_t read[ITZ_BITS_NUMBERS], before[ITZ_MUX_NUMBERS];

    set_edition(edition);
    IS(itz_mux_begin(ARRAY(mux)), ITZ_ACCEPTED);
    mux[ITZ_MUX_COUNT] = count;
    HELD(mux, refusal, itz_mux_flush(ARRAY(settings), ARRAY(mux), SIZED(frame), ARRAY(flushed)));
    HELD(mux, refusal, itz_mux_put(ARRAY(settings), ARRAY(mux), SIZED(space), SIZED(frame), ARRAY(put)));
    IS(itz_mux_begin(ARRAY(mux)), ITZ_ACCEPTED);
    mux[ITZ_MUX_COUNT] = count;
    HELD(mux, refusal, itz_mux_idle(ARRAY(settings), ARRAY(mux), SIZED(frame)));
    mux[ITZ_MUX_COUNT] = count;
    mux[ITZ_MUX_TAKEN] = 2;
    HELD(mux, refusal, itz_mux_put(ARRAY(settings), ARRAY(mux), SIZED(wrapped), SIZED(frame), ARRAY(put)));

    lay_count(edition, 7);
    for (uint64_t kind = 1; kind <= 4; kind++) {
        begin();
        extractor[ITZ_EXTRACTOR_KIND] = kind;
        extractor[ITZ_EXTRACTOR_LAST] = count;
        HELD(extractor, refusal, kind <= 2 ? enter() : take_step());
    }

    HELD(record, refusal, itz_judge_close(ARRAY(settings), ARRAY(record), SIZED(store), ARRAY(verdict)));
    HELD(record, refusal, itz_judge_tape(ARRAY(settings), ARRAY(record), SIZED(store), NULL, 0));
    HELD(record, refusal, judged(record));

    HELD(writer, refusal, itz_bits_write(ARRAY(bit_settings), ARRAY(writer), SIZED(four_bits), 4, SIZED(bit_frame)));
    lay_count(edition, 7);
    HELD(reader, refusal, itz_bits_read(ARRAY(bit_settings), ARRAY(reader), SIZED(bit_frame), ARRAY(read)));
}

static void counts_in_records(void)
{
    static const uint64_t tried[] = {
        0xFFFFFF, 0x1000000, 0x1000001, 0xFFFFFFF, 0x10000000, 0x10000001,
        0xFFFFFFFF, 0x100000000, 0x100000001, UINT64_MAX};
    for (uint64_t edition = 0; edition < EDITIONS; edition++)
        for (size_t i = 0; i < sizeof tried / sizeof tried[0]; i++)
            recorded(edition, tried[i]);
}

/* The judge's last frame is the same at every edition, whatever the width of its counts. */
static void last_judged(void)
{
    for (uint64_t edition = 0; edition < EDITIONS; edition++) {
        uint64_t record[ITZ_JUDGE_NUMBERS] = {1, 0xFFFFFF, 6, 0};
        set_edition(edition);
        lay_count(edition, 7);
        IS(judged(record), ITZ_ACCEPTED);
        IS(record[ITZ_JUDGE_KIND], 1);
        IS(record[ITZ_JUDGE_TALLY], 0x1000000);
        IS(judged(record), ITZ_REFUSED_LAST);
        record[ITZ_JUDGE_TALLY] = 0x1000001;
        IS(judged(record), ITZ_REFUSED_RECORD);
    }
}

/* Tapes near the judge's last frame, and at it: the whole frames are counted before octets left behind them are asked for. */
static void last_taped(uint64_t edition, uint64_t kind)
{
    const uint64_t before = kind == 1 ? wheels[edition] - 1 : 5;
    uint64_t record[ITZ_JUDGE_NUMBERS] = {kind, 0xFFFFFE, before, 0};

    set_edition(edition);
    lay_tape(edition == ITZ_EDITION_CYCLE_USED ? 0x40 : 0);
    tape_refused(record, 3 * FRAME, ITZ_REFUSED_LAST);
    tape_refused(record, 3 * FRAME + 1, ITZ_REFUSED_LAST);
    tape_refused(record, 3 * FRAME - 1, ITZ_REFUSED_LENGTH);
    IS(judged_tape(record, 2 * FRAME), ITZ_ACCEPTED);
    record_is(record, kind, 0x1000000, kind == 1 ? 1 : before, 0);

    IS(judged_tape(record, 0), ITZ_ACCEPTED);
    IS(itz_judge_tape(ARRAY(settings), ARRAY(record), SIZED(store), NULL, 0), ITZ_ACCEPTED);
    record_is(record, kind, 0x1000000, kind == 1 ? 1 : before, 0);
    tape_refused(record, 1, ITZ_REFUSED_LENGTH);
    tape_refused(record, FRAME - 1, ITZ_REFUSED_LENGTH);
    tape_refused(record, FRAME, ITZ_REFUSED_LAST);
    tape_refused(record, FRAME + 1, ITZ_REFUSED_LAST);
    record[ITZ_JUDGE_TALLY] = 0x1000001;
    tape_refused(record, 0, ITZ_REFUSED_RECORD);

    record[ITZ_JUDGE_TALLY] = 0xFFFFFF;
    record[ITZ_JUDGE_LAST] = before;
    tape_refused(record, 2 * FRAME, ITZ_REFUSED_LAST);
    tape_refused(record, 2 * FRAME + 1, ITZ_REFUSED_LAST);
    tape_refused(record, 2 * FRAME - 1, ITZ_REFUSED_LENGTH);
    tape_refused(record, FRAME + 1, ITZ_REFUSED_LENGTH);
    IS(judged_tape(record, FRAME), ITZ_ACCEPTED);
    record_is(record, kind, 0x1000000, kind == 1 ? 0 : before, kind == 1 ? 2 : 0);
}

static void last_of_tapes(void)
{
    for (uint64_t edition = 0; edition < EDITIONS; edition++)
        for (uint64_t kind = 1; kind <= 2; kind++)
            last_taped(edition, kind);
}

/* An answer before a call, and behind one that is refused: 0, or with an array too short as it was. */
#define ANSWERED(answer, refusal, call) \
    (memset(answer, 0xA5, sizeof answer), IS(call, refusal), \
     each_is(ARRAY(answer), (refusal) == ITZ_REFUSED_ROOM ? 0xA5A5A5A5A5A5A5A5 : 0))

/* Each call that takes settings, lent so many of them fewer than there are: refused, with nothing written. */
static void settings_refused(size_t missing, uint64_t refusal)
{
    const size_t lent = ITZ_SETTINGS_NUMBERS - missing, bits_lent = ITZ_BIT_SETTINGS_NUMBERS - missing;
    static const uint64_t walking[ITZ_EXTRACTOR_NUMBERS] = {3, 6, 0, 0};
    uint64_t mux[ITZ_MUX_NUMBERS], begun[ITZ_MUX_NUMBERS], put[ITZ_PUT_NUMBERS], flushed[ITZ_FLUSH_NUMBERS];
    uint64_t record[ITZ_JUDGE_NUMBERS] = ITZ_JUDGE_START, verdict[ITZ_VERDICT_NUMBERS];
    uint64_t writer[ITZ_BIT_WRITER_NUMBERS] = {6}, reader[ITZ_BIT_READER_NUMBERS] = ITZ_BIT_READER_START;
    uint64_t read[ITZ_BITS_NUMBERS];
    uint8_t written[FRAME], as_it_was[FRAME], kept[LIMIT];

    memset(written, 0x5A, sizeof written);
    memset(as_it_was, 0x5A, sizeof as_it_was);
    memcpy(kept, store, LIMIT);
    IS(itz_mux_begin(ARRAY(mux)), ITZ_ACCEPTED);
    memcpy(begun, mux, sizeof mux);
    ANSWERED(put, refusal, itz_mux_put(settings, lent, ARRAY(mux), SIZED(space), SIZED(written), ARRAY(put)));
    ANSWERED(flushed, refusal, itz_mux_flush(settings, lent, ARRAY(mux), SIZED(written), ARRAY(flushed)));
    IS(itz_mux_idle(settings, lent, ARRAY(mux), SIZED(written)), refusal);
    HOLDS(memcmp(mux, begun, sizeof mux) == 0);
    IS(itz_bits_write(bit_settings, bits_lent, ARRAY(writer), SIZED(four_bits), 4, SIZED(written)), refusal);
    IS(writer[ITZ_BIT_WRITER_COUNT], 6);
    HOLDS(memcmp(written, as_it_was, sizeof written) == 0);

    lay_count(ITZ_EDITION_FORMER, 7);
    begin();
    ANSWERED(entered, refusal, itz_extractor_enter(settings, lent, ARRAY(extractor), SIZED(store), SIZED(frame), ARRAY(entered)));
    each_is(ARRAY(extractor), 0);
    memcpy(extractor, walking, sizeof walking);
    ANSWERED(step, refusal, itz_extractor_step(settings, lent, ARRAY(extractor), SIZED(store), SIZED(frame), ARRAY(step)));
    HOLDS(memcmp(extractor, walking, sizeof walking) == 0);
    IS(itz_judge_frame(settings, lent, ARRAY(record), SIZED(store), SIZED(frame)), refusal);
    IS(itz_judge_tape(settings, lent, ARRAY(record), SIZED(store), SIZED(frame)), refusal);
    IS(itz_judge_tape(settings, lent, ARRAY(record), SIZED(store), NULL, 0), refusal);
    ANSWERED(verdict, refusal, itz_judge_close(settings, lent, ARRAY(record), SIZED(store), ARRAY(verdict)));
    each_is(ARRAY(record), 0);
    ANSWERED(read, refusal, itz_bits_read(bit_settings, bits_lent, ARRAY(reader), SIZED(bit_frame), ARRAY(read)));
    each_is(ARRAY(reader), 0);
    HOLDS(memcmp(store, kept, LIMIT) == 0);
}

static void editions_refused(void)
{
    static const uint64_t unknown[] = {3, 4, 0x100000000, 0x100000002, UINT64_MAX};
    for (size_t i = 0; i < sizeof unknown / sizeof unknown[0]; i++) {
        set_edition(unknown[i]);
        settings_refused(0, ITZ_REFUSED_SETTING);
        settings_refused(1, ITZ_REFUSED_ROOM);
    }
    for (uint64_t edition = 0; edition < EDITIONS; edition++) {
        set_edition(edition);
        settings_refused(1, ITZ_REFUSED_ROOM);
    }
}

/* The count ABCDEF1 in frames with trailers, which are asked for before the usage. */
static void editions_with_trailers(void)
{
    static const uint8_t octets[4] = {0xBC, 0xDE, 0xF1, 0x4A};
    uint64_t mux[ITZ_MUX_NUMBERS], put[ITZ_PUT_NUMBERS], writer[ITZ_BIT_WRITER_NUMBERS] = {0xABCDEF1};
    uint64_t reader[ITZ_BIT_READER_NUMBERS] = ITZ_BIT_READER_START, read[ITZ_BITS_NUMBERS];
    uint8_t longer[FRAME + TRAILER], longer_bits[BIT_FRAME + TRAILER];

    set_edition(ITZ_EDITION_CYCLE_USED);
    settings[ITZ_SETTINGS_TRAILER] = bit_settings[ITZ_BIT_SETTINGS_TRAILER] = 1;
    lay_octets(octets);
    IS(itz_mux_begin(ARRAY(mux)), ITZ_ACCEPTED);
    mux[ITZ_MUX_COUNT] = 0xABCDEF1;
    IS(itz_mux_put(ARRAY(settings), ARRAY(mux), frame + 8, 8, SIZED(longer), ARRAY(put)), ITZ_ACCEPTED);
    IS(itz_mux_put(ARRAY(settings), ARRAY(mux), SIZED(encapsulation), SIZED(longer), ARRAY(put)), ITZ_ACCEPTED);
    HOLDS(memcmp(longer, frame, FRAME) == 0);
    IS(longer[FRAME], 0x97);
    IS(longer[FRAME + 1], 0x26);
    begin();
    longer[5] = 0x0A;
    IS(enter_longer(longer), ITZ_REFUSED_TRAILER);
    longer[FRAME] = 0xCD;
    longer[FRAME + 1] = 0xF6;
    IS(enter_longer(longer), ITZ_REFUSED_SPARE);
    longer[5] = 0x4A;
    longer[FRAME] = 0x97;
    longer[FRAME + 1] = 0x26;
    IS(enter_longer(longer), ITZ_ACCEPTED);
    IS(entered[ITZ_ENTERED_COUNT], 0xABCDEF1);

    IS(itz_bits_write(ARRAY(bit_settings), ARRAY(writer), SIZED(four_bits), 4, SIZED(longer_bits)), ITZ_ACCEPTED);
    HOLDS(memcmp(longer_bits, bit_frame, BIT_FRAME) == 0);
    IS(longer_bits[BIT_FRAME], 0x6B);
    IS(longer_bits[BIT_FRAME + 1], 0x39);
    IS(itz_bits_read(ARRAY(bit_settings), ARRAY(reader), SIZED(longer_bits), ARRAY(read)), ITZ_ACCEPTED);
    IS(read[ITZ_BITS_COUNT], 0xABCDEF1);
    longer_bits[5] = 0x0A;
    IS(itz_bits_read(ARRAY(bit_settings), ARRAY(reader), SIZED(longer_bits), ARRAY(read)), ITZ_REFUSED_TRAILER);
    longer_bits[BIT_FRAME] = 0x7A;
    longer_bits[BIT_FRAME + 1] = 0x51;
    IS(itz_bits_read(ARRAY(bit_settings), ARRAY(reader), SIZED(longer_bits), ARRAY(read)), ITZ_REFUSED_SPARE);
}

static void editions(void)
{
    IS(ITZ_EDITION_FORMER, 0);
    IS(ITZ_EDITION_CYCLE_UNUSED, 1);
    IS(ITZ_EDITION_CYCLE_USED, 2);
    counts();
    signalling();
    usage_in_turn();
    lost_round_the_wheel();
    counts_in_records();
    last_judged();
    last_of_tapes();
    editions_refused();
    editions_with_trailers();
    set();
}

static void relays(void)
{
    static const uint64_t paths[] = {5, 7, 6, 8, 5, 9};
    static const uint64_t beyond[] = {5, 256};
    static const uint64_t idle[] = {2047, 7};
    uint64_t table[ITZ_RELAY_NUMBERS] = ITZ_RELAY_START;
    uint64_t routed[ITZ_ROUTED_NUMBERS];
    uint8_t destinations[3] = {0x55, 0x55, 0x55};

    IS(itz_relay_route(LIMIT, ARRAY(table), SIZED(space), NULL, 0, ARRAY(routed)), ITZ_ACCEPTED);
    IS(routed[ITZ_ROUTED_WHAT], ITZ_NO_PATH);
    IS(routed[ITZ_ROUTED_COUNT], 0);

    IS(itz_relay_load(ARRAY(paths), SHORT(table)), ITZ_REFUSED_ROOM);
    IS(itz_relay_load(SHORT(paths), ARRAY(table)), ITZ_REFUSED_ROOM);
    IS(itz_relay_load(ARRAY(beyond), ARRAY(table)), ITZ_REFUSED_SETTING);
    IS(itz_relay_load(ARRAY(idle), ARRAY(table)), ITZ_REFUSED_TABLE);
    IS(table[ITZ_RELAY_COUNT], 0);
    IS(itz_relay_load(ARRAY(paths), ARRAY(table)), ITZ_ACCEPTED);
    IS(table[ITZ_RELAY_COUNT], 3);
    HOLDS(memcmp(table + ITZ_RELAY_ENTRIES, paths, sizeof paths) == 0);
    IS(table[ITZ_RELAY_NUMBERS - 1], 0);

    UNTOLD(routed, itz_relay_route(LIMIT, SHORT(table), SIZED(space), SIZED(destinations), ARRAY(routed)));
    UNTOLD(routed, itz_relay_route(LIMIT, ARRAY(table), SIZED(space), SIZED(destinations), SHORT(routed)));
    IS(itz_relay_route(6, ARRAY(table), SIZED(space), SIZED(destinations), ARRAY(routed)), ITZ_REFUSED_SETTING);
    IS(itz_relay_route(LIMIT, ARRAY(table), SHORT(space), SIZED(destinations), ARRAY(routed)), ITZ_REFUSED_PACKET);
    IS(itz_relay_route(LIMIT, ARRAY(table), SIZED(space), destinations, 1, ARRAY(routed)), ITZ_REFUSED_ROOM);
    each_is(ARRAY(routed), 0);
    IS(itz_relay_route(LIMIT, ARRAY(table), SIZED(space), SIZED(destinations), ARRAY(routed)), ITZ_ACCEPTED);
    IS(routed[ITZ_ROUTED_WHAT], ITZ_PATH);
    IS(routed[ITZ_ROUTED_COUNT], 2);
    IS(routed[ITZ_ROUTED_DAMAGE], ITZ_DAMAGE_NONE);
    IS(destinations[0], 7);
    IS(destinations[1], 9);
    IS(destinations[2], 0x55);
    IS(itz_relay_route(LIMIT, ARRAY(table), SIZED(wrapped), NULL, 0, ARRAY(routed)), ITZ_ACCEPTED);
    IS(routed[ITZ_ROUTED_WHAT], ITZ_NO_PATH);

    table[ITZ_RELAY_COUNT] = 33;
    IS(itz_relay_route(LIMIT, ARRAY(table), SIZED(space), SIZED(destinations), ARRAY(routed)), ITZ_REFUSED_RECORD);
    IS(itz_relay_load(NULL, 0, ARRAY(table)), ITZ_ACCEPTED);
    IS(table[ITZ_RELAY_COUNT], 0);
    IS(table[ITZ_RELAY_ENTRIES], 0);
}

int main(void)
{
    set();
    packets();
    space_headers();
    multiplexer();
    extracting();
    damages();
    judging();
    tapes();
    faults_in_tapes();
    tapes_refused();
    bits();
    losses();
    trailers();
    tapes_with_trailers();
    bit_trailers();
    editions();
    relays();
    printf("%u answers, 0 differ\n", checks);
    return EXIT_SUCCESS;
}
