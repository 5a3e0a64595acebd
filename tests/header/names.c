/* Holds each name of include/vikombare.h to an input of its kind: a refusal by the example that document 01's table has for it, and the phases, the kinds
 * of mark and what becomes of a notice; how late a mark was, in each profile; a reader's limit; the marks coasted and the blocks of two releases; an
 * inserter's numbers, and what it sends. The same file is C11 and C++11. */
#include <stdio.h>
#include <string.h>

#include "vikombare.h"

enum { PACKET = VIKOMBARE_PACKET_BYTES, BLOCK = VIKOMBARE_BLOCK_BYTES, N = 2016, SITE = 7 };

static int tried, wrong;

static void hold(const char *name, unsigned named, unsigned got)
{
    tried++;
    if (named != got) {
        wrong++;
        printf("%s is %u, and the call says %u\n", name, named, got);
    }
}

#define HOLD(name, got) hold(#name, name, got)

static const vikombare_steps NONE = {0};
static uint8_t null[PACKET], mip[PACKET], block[BLOCK];

/* The number with which a notice is written in mip: without continuity, reserved bits and TPS. */
static uint8_t written(uint16_t pointer, uint32_t sts, uint32_t md, const uint8_t *field, size_t length)
{
    vikombare_notice notice = {0, pointer, true, 0, {sts}, {md}, 0};
    return vikombare_write(mip, PACKET, notice, field, length);
}

/* A packet at a tick of profile 0's clock. */
static vikombare_reply heard(vikombare_slave *slave, const uint8_t *packet, uint32_t count)
{
    vikombare_steps arrival = {count};
    return vikombare_packet(slave, packet, PACKET, vikombare_dvb_tick(arrival));
}

static uint8_t ignored(const vikombare_slave *hunting)
{
    vikombare_slave slave = *hunting;
    vikombare_reply reply = heard(&slave, mip, 5);
    return reply.notice == VIKOMBARE_NOTICE_IGNORED ? reply.ignored : 0;
}

/* The reader's number for mip with one byte of it set otherwise. */
static uint8_t damaged(size_t at, uint8_t byte)
{
    uint8_t packet[PACKET];
    memcpy(packet, mip, PACKET);
    packet[at] = byte;
    return vikombare_read(packet, PACKET).number;
}

static void refusals(void)
{
    static const uint8_t earlier[] = {0, SITE, 4, 0, 4, 0xFF, 0xCD}; /* an offset of -51 for site 7 */
    vikombare_periods sum = {700000}, arrival = {5};
    vikombare_steps step = {5};
    vikombare_slave hunting, slave;
    vikombare_notice odd = {16, 0, true, 0, {0}, {0}, 0};
    vikombare_numbers_notice numbers = {0, {0}, {700000}, 0, VIKOMBARE_INDEX_UNKNOWN};
    uint8_t packet[PACKET];

    HOLD(VIKOMBARE_ACCEPTED, vikombare_dvb_start(&hunting, N, SITE, NONE));
    slave = hunting;
    HOLD(VIKOMBARE_ACCEPTED, written(0, 9500000, 700000, earlier, 0));
    HOLD(VIKOMBARE_REFUSED_LENGTH, vikombare_packet(&slave, null, 187, vikombare_dvb_tick(step)).number);
    memcpy(packet, null, PACKET);
    packet[0] = 0x46;
    HOLD(VIKOMBARE_REFUSED_SYNC_BYTE, heard(&slave, packet, 5).number);
    HOLD(VIKOMBARE_REFUSED_TICK, heard(&slave, null, VIKOMBARE_DVB_SECOND).number);
    HOLD(VIKOMBARE_REFUSED_TICK, vikombare_packet(&slave, null, PACKET, vikombare_a110_tick(arrival)).number);
    HOLD(VIKOMBARE_REFUSED_ERROR_INDICATOR, damaged(1, 0xE0));
    HOLD(VIKOMBARE_REFUSED_PID, vikombare_read(null, PACKET).number);
    HOLD(VIKOMBARE_REFUSED_HEADER, damaged(1, 0x40));
    HOLD(VIKOMBARE_REFUSED_SYNCHRONIZATION_ID, damaged(4, 1));
    HOLD(VIKOMBARE_REFUSED_SECTION_LENGTH, damaged(5, 20));
    HOLD(VIKOMBARE_REFUSED_CHECK_VALUE, damaged(24, (uint8_t)(mip[24] ^ 1)));
    HOLD(VIKOMBARE_REFUSED_ADDRESSING, written(0, 0, 0, earlier, 2));
    HOLD(VIKOMBARE_REFUSED_TIME, written(0, VIKOMBARE_DVB_SECOND, 0, earlier, 0));
    HOLD(VIKOMBARE_ACCEPTED, written(N, 0, 0, earlier, 0));
    HOLD(VIKOMBARE_REFUSED_POINTER, ignored(&hunting));
    HOLD(VIKOMBARE_ACCEPTED, written(0, 0, 50, earlier, sizeof earlier));
    HOLD(VIKOMBARE_REFUSED_DELAY, ignored(&hunting));
    HOLD(VIKOMBARE_REFUSED_COLD, vikombare_dvb_start(&slave, N, 0, NONE));
    HOLD(VIKOMBARE_ACCEPTED, vikombare_save(hunting, block, BLOCK));
    HOLD(VIKOMBARE_REFUSED_BOARD, vikombare_dvb_resume(&slave, block, BLOCK, N, SITE + 1, NONE));
    block[0] = 7;
    HOLD(VIKOMBARE_REFUSED_BLOCK, vikombare_dvb_resume(&slave, block, BLOCK, N, SITE, NONE));
    HOLD(VIKOMBARE_REFUSED_ROOM, vikombare_save(hunting, block, BLOCK - 1));
    HOLD(VIKOMBARE_REFUSED_FIELD, vikombare_write(packet, PACKET, odd, earlier, 0));
    HOLD(VIKOMBARE_REFUSED_PROFILE, vikombare_numbers(&hunting, null, PACKET, sum, numbers).number);
    sum.periods = VIKOMBARE_DVB_SECOND;
    HOLD(VIKOMBARE_REFUSED_TICK, vikombare_numbers(&hunting, null, PACKET, sum, numbers).number);
}

static void kinds(void)
{
    vikombare_slave slave, due;
    vikombare_periods tad = {1}, arrival = {5};
    vikombare_numbers_notice numbers = {0, {0}, {700000}, 0, 0};
    vikombare_reply reply;

    HOLD(VIKOMBARE_REFUSED_COLD, vikombare_dvb_start(&slave, N, 0, NONE));
    HOLD(VIKOMBARE_PHASE_COLD, slave.count.phase);
    HOLD(VIKOMBARE_INDEX_UNKNOWN, slave.count.index);
    HOLD(VIKOMBARE_ACCEPTED, vikombare_dvb_start(&slave, N, SITE, NONE));
    HOLD(VIKOMBARE_PHASE_HUNTING, slave.count.phase);
    HOLD(VIKOMBARE_PROFILE_DVB, slave.board.profile);
    reply = heard(&slave, null, 5);
    HOLD(VIKOMBARE_NOTICE_NONE, reply.notice);
    HOLD(VIKOMBARE_MARK_NONE, reply.mark.kind);
    HOLD(VIKOMBARE_ACCEPTED, written(0, 9500000, 700000, null, 0));
    HOLD(VIKOMBARE_NOTICE_TAKEN, heard(&slave, mip, 5).notice);
    HOLD(VIKOMBARE_PHASE_LOCKED, slave.count.phase);
    due = slave;
    reply = heard(&slave, null, 9900000);
    HOLD(VIKOMBARE_MARK_DVB_RELEASED, reply.mark.kind);
    slave = due;
    reply = heard(&slave, null, 200001);
    HOLD(VIKOMBARE_MARK_DVB_LATE, reply.mark.kind);
    HOLD(VIKOMBARE_REFUSED_LATE, reply.mark.number);
    hold("P3's lateness", 1, reply.mark.dvb_late.steps);
    hold("what is behind it", 0, reply.mark.dvb.emission.steps | reply.mark.dvb.modulation.steps | (reply.mark.dvb.wait != 0));
    HOLD(VIKOMBARE_NOTICE_SLIP, heard(&slave, mip, 5).notice);
    slave.waiting.pending = 0;
    slave.waiting.sts = slave.waiting.md = 0;
    HOLD(VIKOMBARE_MARK_UNTIMED, heard(&slave, null, 5).mark.kind);
    mip[24] ^= 1;
    HOLD(VIKOMBARE_NOTICE_IGNORED, heard(&slave, mip, 5).notice);
    HOLD(VIKOMBARE_ACCEPTED, vikombare_a110_start(&slave, 624, SITE, tad));
    HOLD(VIKOMBARE_PROFILE_A110, slave.board.profile);
    HOLD(VIKOMBARE_NOTICE_TAKEN, vikombare_numbers(&slave, null, PACKET, arrival, numbers).notice);
    due = slave;
    reply = vikombare_packet(&slave, null, PACKET, vikombare_a110_tick(arrival));
    HOLD(VIKOMBARE_MARK_A110_RELEASED, reply.mark.kind);
    slave = due;
    arrival.periods = 700001;
    reply = vikombare_packet(&slave, null, PACKET, vikombare_a110_tick(arrival));
    HOLD(VIKOMBARE_MARK_A110_LATE, reply.mark.kind);
    HOLD(VIKOMBARE_REFUSED_LATE, reply.mark.number);
    hold("the lateness two periods after the modulation time", 2, reply.mark.a110_late.periods);
}

/* A notice of 7 bytes of addressing field, on boards whose limit is 7 and 6; and the longest notice, with limits of 0, 162, 163 and above. */
static void limits(void)
{
    static const uint8_t field[VIKOMBARE_LONGEST_ADDRESSING + 1] = {0, SITE, 4, 0, 4, 0xFF, 0xCD};
    vikombare_steps arrival = {5};
    vikombare_slave hunting, slave;
    vikombare_reply reply;

    HOLD(VIKOMBARE_ACCEPTED, vikombare_dvb_start(&hunting, N, SITE, NONE));
    HOLD(VIKOMBARE_ACCEPTED, written(0, 9500000, 700000, field, 7));
    HOLD(VIKOMBARE_ACCEPTED, vikombare_read_within(mip, PACKET, 7).number);
    HOLD(VIKOMBARE_REFUSED_LIMIT, vikombare_read_within(mip, PACKET, 6).number);
    slave = hunting;
    reply = vikombare_packet_within(&slave, mip, PACKET, vikombare_dvb_tick(arrival), 6);
    HOLD(VIKOMBARE_NOTICE_IGNORED, reply.notice);
    HOLD(VIKOMBARE_REFUSED_LIMIT, reply.ignored);
    HOLD(VIKOMBARE_PHASE_HUNTING, slave.count.phase);
    HOLD(VIKOMBARE_NOTICE_TAKEN, vikombare_packet_within(&slave, mip, PACKET, vikombare_dvb_tick(arrival), 7).notice);
    HOLD(VIKOMBARE_ACCEPTED, written(0, 9500000, 700000, field, VIKOMBARE_LONGEST_ADDRESSING));
    HOLD(VIKOMBARE_ACCEPTED, vikombare_read_within(mip, PACKET, VIKOMBARE_LONGEST_ADDRESSING).number);
    HOLD(VIKOMBARE_REFUSED_LIMIT, vikombare_read_within(mip, PACKET, VIKOMBARE_LONGEST_ADDRESSING - 1).number);
    HOLD(VIKOMBARE_REFUSED_LIMIT, vikombare_read_within(mip, PACKET, 0).number);
    HOLD(VIKOMBARE_ACCEPTED, vikombare_read_within(mip, PACKET, 256).number);
    HOLD(VIKOMBARE_ACCEPTED, vikombare_read_within(mip, PACKET, SIZE_MAX).number);
    slave = hunting;
    HOLD(VIKOMBARE_REFUSED_LIMIT, vikombare_packet_within(&slave, mip, PACKET, vikombare_dvb_tick(arrival), 0).ignored);
    HOLD(VIKOMBARE_NOTICE_TAKEN, vikombare_packet_within(&slave, mip, PACKET, vikombare_dvb_tick(arrival), SIZE_MAX).notice);
    HOLD(VIKOMBARE_REFUSED_SECTION_LENGTH, written(0, 0, 0, field, VIKOMBARE_LONGEST_ADDRESSING + 1));
}

/* A saved block of today and one from before 4.0, of a slave of N, SITE and no TAD that is locked and has a notice pending. */
static void blocks(void)
{
    static const uint8_t today[BLOCK] = {
        2,    0,    0x07, 0xE0, 0,    SITE, 0,    0,  0,  0, 0xFF, 0xCD, 0xFF, 0xFE, 0x79, 0x60, 0x01, 0x2C, 0x07, 0xDF,
        1,    0xFF, 0x00, 0x98, 0x96, 0x7F, 0,    0,  0,  51, /* and the marks coasted */
        42,   0,    SITE, 0,    31,   0x60, 0x3F, 0xF0, 0xF3,
    };
    uint8_t earlier[VIKOMBARE_OLD_BLOCK_BYTES];
    static const uint8_t earlier_trailer[] = {0, SITE, 0, 30, 0x9E, 0xBB, 0x22, 0x1A};
    vikombare_slave slave;
    vikombare_reply arrived;

    HOLD(VIKOMBARE_REFUSED_COLD, vikombare_dvb_start(&slave, N, 0, NONE));
    hold("what a cold slave coasted", 0, slave.count.coasted);
    HOLD(VIKOMBARE_ACCEPTED, vikombare_dvb_start(&slave, N, SITE, NONE));
    HOLD(VIKOMBARE_MOST_COASTED, slave.count.coasted);
    HOLD(VIKOMBARE_ACCEPTED, vikombare_dvb_resume(&slave, today, BLOCK, N, SITE, NONE));
    hold("what the saved slave coasted", 42, slave.count.coasted);
    arrived = heard(&slave, null, 5);
    hold("label", N - 1, arrived.label);
    arrived = heard(&slave, null, 5);
    hold("label", 0, arrived.label);
    hold("a mark more", 43, slave.count.coasted);
    HOLD(VIKOMBARE_ACCEPTED, written(0, 9500000, 700000, null, 0));
    HOLD(VIKOMBARE_NOTICE_SLIP, heard(&slave, mip, 5).notice);
    hold("behind a notice", 0, slave.count.coasted);
    memcpy(earlier, today, 30);
    memcpy(earlier + 30, earlier_trailer, sizeof earlier_trailer);
    HOLD(VIKOMBARE_ACCEPTED, vikombare_dvb_resume(&slave, earlier, VIKOMBARE_OLD_BLOCK_BYTES, N, SITE, NONE));
    HOLD(VIKOMBARE_MOST_COASTED, slave.count.coasted);
    HOLD(VIKOMBARE_REFUSED_BLOCK, vikombare_dvb_resume(&slave, today, VIKOMBARE_OLD_BLOCK_BYTES, N, SITE, NONE));
    HOLD(VIKOMBARE_PHASE_HUNTING, slave.count.phase);
}

/* An inserter of N from its start over two mega-frames, the first with a null packet and a notice of another adapter, the second with neither; and what it
 * refuses. */
static void inserting(void)
{
    static const uint8_t field[VIKOMBARE_LONGEST_ADDRESSING + 1] = {0, SITE, 4, 0, 4, 0xFF, 0xCD};
    vikombare_inserter_settings settings = {N, 1, 32767, {700000}, 0x81160000};
    vikombare_steps sts = {9500000}, late = {VIKOMBARE_DVB_SECOND};
    vikombare_inserter inserter, damaged;
    vikombare_slave slave;
    vikombare_reading reading;
    uint8_t packet[PACKET], plain[PACKET];
    unsigned label, moved = 0;

    memcpy(plain, null, PACKET);
    plain[1] = 1;
    settings.n = 624;
    HOLD(VIKOMBARE_REFUSED_COLD, vikombare_inserter_start(&inserter, settings, field, 7));
    settings.n = N;
    settings.periodic = 2;
    HOLD(VIKOMBARE_REFUSED_FIELD, vikombare_inserter_start(&inserter, settings, field, 7));
    settings.periodic = 1;
    HOLD(VIKOMBARE_REFUSED_SECTION_LENGTH, vikombare_inserter_start(&inserter, settings, field, VIKOMBARE_LONGEST_ADDRESSING + 1));
    HOLD(VIKOMBARE_REFUSED_ADDRESSING, vikombare_inserter_start(&inserter, settings, field, 2));
    settings.md = late;
    HOLD(VIKOMBARE_REFUSED_TIME, vikombare_inserter_start(&inserter, settings, field, 7));
    hold("what a refused start leaves", 0, (unsigned)(inserter.settings.n | inserter.length | inserter.field[1]));
    settings.md.steps = 700000;
    HOLD(VIKOMBARE_ACCEPTED, vikombare_inserter_start(&inserter, settings, field, 7));
    HOLD(VIKOMBARE_ACCEPTED, vikombare_dvb_start(&slave, N, SITE, NONE));
    hold("the field's length", 7, inserter.length);
    hold("the last byte of the field", 0xCD, inserter.field[6]);
    hold("behind the field", 0, inserter.field[7]);
    memcpy(packet, null, PACKET);
    HOLD(VIKOMBARE_REFUSED_LENGTH, vikombare_insert(&inserter, packet, 187, sts));
    HOLD(VIKOMBARE_REFUSED_TIME, vikombare_insert(&inserter, packet, PACKET, late));
    hold("a refused packet", 0, (unsigned)(memcmp(packet, null, PACKET) != 0));
    packet[0] = 0x46;
    HOLD(VIKOMBARE_REFUSED_SYNC_BYTE, vikombare_insert(&inserter, packet, PACKET, sts));
    hold("the label behind it", 0, inserter.progress.label);
    for (label = 0; label < N; label++) {
        /* null packets from label 5 on, and another adapter's notice on label 7 */
        memcpy(packet, label < 5 ? plain : null, PACKET);
        packet[2] = label == 7 ? 0x15 : packet[2];
        packet[1] = label == 7 ? 0x60 : packet[1];
        HOLD(VIKOMBARE_ACCEPTED, vikombare_insert(&inserter, packet, PACKET, sts));
        moved += memcmp(packet, label < 5 ? plain : null, PACKET) != 0;
        if (label == 5) {
            reading = vikombare_read(packet, PACKET);
            HOLD(VIKOMBARE_ACCEPTED, reading.number);
            hold("the notice's pointer", N - 1 - 5, reading.notice.pointer);
            hold("the notice's STS", sts.steps, reading.notice.sts.steps);
            hold("the notice's reserved bits", settings.reserved, reading.notice.reserved);
            hold("the counter of the next notice", 1, inserter.progress.continuity);
            hold("the notice is put", 1, inserter.progress.placed);
            HOLD(VIKOMBARE_NOTICE_TAKEN, heard(&slave, packet, 5).notice);
        } else if (label > 5) {
            hold("the slave's label", label, heard(&slave, packet, 5).label);
        }
    }
    hold("packets that were changed", 1, moved);
    hold("the next mega-frame's label", 0, inserter.progress.label);
    hold("its notice", 0, inserter.progress.placed);
    for (label = 0; label < N - 1; label++) {
        memcpy(packet, plain, PACKET);
        HOLD(VIKOMBARE_ACCEPTED, vikombare_insert(&inserter, packet, PACKET, sts));
    }
    memcpy(packet, plain, PACKET);
    HOLD(VIKOMBARE_NO_NULL_PACKET, vikombare_insert(&inserter, packet, PACKET, sts));
    hold("the last of a mega-frame without a null packet", 0, (unsigned)(memcmp(packet, plain, PACKET) != 0));
    hold("the counter of a mega-frame without a notice", 1, inserter.progress.continuity);
    hold("the label behind the mega-frame", 0, inserter.progress.label);
    damaged = inserter;
    damaged.progress.label = N;
    HOLD(VIKOMBARE_REFUSED_COLD, vikombare_insert(&damaged, packet, PACKET, sts));
    hold("what 15 leaves", N, damaged.progress.label);
}

int main(void)
{
    memset(null, 0xFF, PACKET);
    null[0] = 0x47;
    null[1] = 0x1F;
    null[3] = 0x10;
    refusals();
    kinds();
    limits();
    blocks();
    inserting();
    if (wrong == 0)
        printf("%d answers are as named\n", tried);
    return wrong != 0;
}
