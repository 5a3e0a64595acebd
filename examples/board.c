/* What a board's firmware does with the library, in small: starts a slave, feeds it a stream, saves it, resumes it, and prints what it says. The same file
 * is C11 and C++11. */
#include <stdio.h>
#include <stdlib.h>
#include <string.h>

#include "vikombare.h"

enum { PACKET = VIKOMBARE_PACKET_BYTES, CADENCE = 2016, SITE = 7 };

static const vikombare_steps TAD = {200};

static vikombare_steps steps(uint32_t count)
{
    vikombare_steps s = {count};
    return s;
}

static vikombare_periods periods(uint32_t count)
{
    vikombare_periods p = {count};
    return p;
}

/* A null packet. */
static void null_packet(uint8_t *packet)
{
    memset(packet, 0xFF, PACKET);
    packet[0] = 0x47;
    packet[1] = 0x1F;
    packet[3] = 0x10;
}

/* Writes a notice; the addressing field may be empty. */
static void notice_packet(uint8_t *packet, uint16_t pointer, uint32_t sts, uint32_t md, const uint8_t *addressing, size_t length)
{
    /* continuity, pointer, periodic, reserved, STS, MD, TPS */
    vikombare_notice notice = {0, pointer, true, 0, {sts}, {md}, 0};
    uint8_t number = vikombare_write(packet, PACKET, notice, addressing, length);
    if (number != VIKOMBARE_ACCEPTED) {
        printf("write refused %u\n", number);
        exit(1);
    }
}

static void print_reply(vikombare_reply reply)
{
    if (reply.number != VIKOMBARE_ACCEPTED) {
        printf("refused %u\n", reply.number);
        return;
    }
    if (reply.has_label)
        printf("label %u", reply.label);
    else
        printf("no label");
    if (reply.has_place)
        printf(", M/H place %u", reply.place);
    if (reply.notice == VIKOMBARE_NOTICE_TAKEN)
        printf(", notice taken");
    if (reply.notice == VIKOMBARE_NOTICE_SLIP)
        printf(", notice taken after a slip");
    if (reply.notice == VIKOMBARE_NOTICE_IGNORED)
        printf(", notice ignored %u", reply.ignored);
    switch (reply.mark.kind) {
    case VIKOMBARE_MARK_UNTIMED:
        printf(", mark untimed");
        break;
    case VIKOMBARE_MARK_DVB_LATE:
        printf(", mark late by %lu steps", (unsigned long)reply.mark.dvb_late.steps);
        break;
    case VIKOMBARE_MARK_A110_LATE:
        printf(", mark late by %lu periods", (unsigned long)reply.mark.a110_late.periods);
        break;
    case VIKOMBARE_MARK_DVB_RELEASED:
        printf(", mark: emission %lu, modulation %lu, wait %lld steps", (unsigned long)reply.mark.dvb.emission.steps,
               (unsigned long)reply.mark.dvb.modulation.steps, (long long)reply.mark.dvb.wait);
        break;
    case VIKOMBARE_MARK_A110_RELEASED:
        printf(", mark: emission %lu, modulation %lu, wait %lld periods", (unsigned long)reply.mark.a110.emission.periods,
               (unsigned long)reply.mark.a110.modulation.periods, (long long)reply.mark.a110.wait);
        break;
    default: /* no mark */
        break;
    }
    printf("\n");
}

static void feed_dvb(vikombare_slave *slave, const uint8_t *packet, uint32_t tick)
{
    print_reply(vikombare_packet(slave, packet, PACKET, vikombare_dvb_tick(steps(tick))));
}

static void print_slave(const char *what, uint8_t number, const vikombare_slave *slave)
{
    static const char *const phases[] = {"cold", "hunting", "locked"};
    printf("%s: number %u, %s, next label %u, coasted %u\n", what, number, phases[slave->count.phase], slave->count.next, slave->count.coasted);
}

/* What a warm boot does with the first 39 bytes of its memory, which hold a block of today or, after an update from before 4.0, one of 38 bytes. */
static uint8_t warm_boot(vikombare_slave *slave, const uint8_t *kept)
{
    uint8_t number = vikombare_dvb_resume(slave, kept, VIKOMBARE_OLD_BLOCK_BYTES, CADENCE, SITE, TAD);
    if (number == VIKOMBARE_REFUSED_BLOCK)
        number = vikombare_dvb_resume(slave, kept, VIKOMBARE_BLOCK_BYTES, CADENCE, SITE, TAD);
    return number;
}

static void dvb_board(void)
{
    /* An offset of 50 steps for site 7: identifier, loop length, then tag 0, its length 4, and the offset. */
    static const uint8_t offset[] = {0x00, SITE, 4, 0, 4, 0, 50};
    uint8_t packet[PACKET], null[PACKET], block[VIKOMBARE_BLOCK_BYTES], number;
    vikombare_slave slave;
    null_packet(null);

    number = vikombare_dvb_start(&slave, CADENCE, SITE, TAD);
    print_slave("start", number, &slave);

    feed_dvb(&slave, null, 1000);
    notice_packet(packet, 1, 9500000, 700000, offset, 0);
    feed_dvb(&slave, packet, 9000000);
    feed_dvb(&slave, null, 9450000);
    feed_dvb(&slave, null, 9900000);

    printf("save: number %u\n", vikombare_save(slave, block, sizeof block));
    number = vikombare_dvb_resume(&slave, block, sizeof block, CADENCE, SITE + 1, TAD);
    print_slave("resume on another board", number, &slave);
    number = warm_boot(&slave, block);
    print_slave("resume", number, &slave);

    notice_packet(packet, 2014, 100000, 700000, offset, sizeof offset);
    feed_dvb(&slave, packet, 9950000);
    number = vikombare_gap(&slave, 2013);
    print_slave("gap of 2013", number, &slave);
    /* The packet before the mark is lost too; the link card delivers an empty one. No tick is read. */
    print_reply(vikombare_packet(&slave, packet, 0, vikombare_dvb_tick(steps(0))));
    feed_dvb(&slave, null, 500000);
    packet[24] ^= 1;
    feed_dvb(&slave, packet, 550000);
    feed_dvb(&slave, null, 10000000);
    print_reply(vikombare_packet(&slave, null, PACKET, vikombare_a110_tick(periods(600000))));
    feed_dvb(&slave, null, 600000);

    /* A mark that comes late: its modulation time is 899,850. */
    notice_packet(packet, 2012, 200000, 700000, offset, 0);
    feed_dvb(&slave, packet, 650000);
    number = vikombare_gap(&slave, 2012);
    print_slave("gap of 2012", number, &slave);
    feed_dvb(&slave, null, 899860);

    /* No notice arrives for two cadences: the board coasts. */
    number = vikombare_gap(&slave, 2 * CADENCE);
    print_slave("gap of two cadences", number, &slave);

    /* Notices with 7 bytes of addressing field, for a board that handles 6 of them and for one that handles 7. */
    notice_packet(packet, 2014, 300000, 700000, offset, sizeof offset);
    print_reply(vikombare_packet_within(&slave, packet, PACKET, vikombare_dvb_tick(steps(950000)), 6));
    notice_packet(packet, 2013, 300000, 700000, offset, sizeof offset);
    print_reply(vikombare_packet_within(&slave, packet, PACKET, vikombare_dvb_tick(steps(990000)), 7));
}

static void a110_board(void)
{
    /* pointer, STS, MD, OD, index */
    static const vikombare_numbers_notice notice = {0, {19392657}, {63740}, -32768, 0};
    uint8_t null[PACKET], number;
    vikombare_slave slave;
    null_packet(null);

    number = vikombare_a110_start(&slave, 624, SITE, periods(1000));
    print_slave("A/110 start", number, &slave);
    print_reply(vikombare_numbers(&slave, null, PACKET, periods(19000000), notice));
    print_reply(vikombare_packet(&slave, null, PACKET, vikombare_a110_tick(periods(5))));
}

int main(void)
{
    dvb_board();
    a110_board();
    return 0;
}
