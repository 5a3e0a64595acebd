/* vikombare.h - the timing slave of a transmitter in a single-frequency network, and the inserter of its head-end. C11 or later, C++11 or later.
 *
 * The slave reads the notices in a transport stream (profile 0: the Mega-frame Initialization Packet of DVB, ETSI TS 101 191; profile 1: ATSC A/110,
 * whose notices come as plain numbers), counts packets, and says when each mark goes on air.
 *
 * A call that moves a slave gets it by pointer and leaves the new one in its place; its result is the reply, or a number alone.
 *
 * The inserter is the sending half, profile 0: it puts the notices into a stream at the head-end (INSERTING, below).
 *
 * Each call of the library has a contract that is proved for every value of its arguments, and this text says it in words: there is no number that a call
 * does not answer, it never reads or writes outside what it was lent, and it always returns. What is up to the caller:
 *  - a pointer leads to as many bytes as the length beside it says, and is not null, also where that length is 0; a vikombare_slave or vikombare_inserter
 *    pointer leads to one, and for a start or a resume to room for one, whatever it holds;
 *  - memory that is lent for writing does not overlap what else is lent to the same call;
 *  - nobody else (thread, interrupt, DMA) writes what is lent, or uses a lent slave or inserter, while a call runs;
 *  - a bool holds 0 or 1, as every C program sets it.
 * No call keeps a pointer, allocates, blocks or has a state of its own: all state is in the vikombare_slave or vikombare_inserter that the caller owns. So
 * different slaves can be used from different threads at once, and two inserters never share anything.
 *
 * THE LIBRARY
 * libvikombare.a is built for x86-64 with the ABI of Linux (System V); for other processors there is none today. It asks for memset at most of the C
 * library. On bare metal it needs what that ABI takes for granted:
 *  - SSE2 is switched on, and whoever interrupts a call keeps the general and the SSE registers; x87 and AVX are not used;
 *  - the 128 bytes below the stack pointer (the red zone) are the call's own: an interrupt runs on another stack, or steps over them;
 *  - the stack is aligned to 16 bytes at each call and has 2 KiB left.
 *
 * SETTING OUT AND COMING BACK
 * A call that changes a slave and answers 15 leaves the cold one, which gets 15 to every packet until a start or a resume gives another: look for
 * VIKOMBARE_REFUSED_COLD in each reply, and start again.
 * A warm boot resumes at the label that was saved. Tell the packets that passed since, with vikombare_gap, before the next packet (more than 65535 in
 * several gaps). Untold, they leave the count behind by as many: packets get wrong labels, and a wrong packet can be taken for the mark and released
 * with the waiting notice's time. The next notice is then a slip and sets the count right. If a whole number of cadences went untold, no slip shows
 * it: labels are right, but the waiting notice's time goes to a later mark than its own, and in profile 1 the index is behind until a notice gives
 * it.
 * Where the number of packets that passed is not known, tell a gap of n. It drops the waiting notice, so that no mark is released before the next notice
 * is taken, and keeps the offset delay, frequency and power; until that notice do not rely on labels, on untimed marks or on `coasted`, nor on places until
 * a notice gives an index. Or start instead of resuming: a fresh slave hunts, and its offset delay, frequency and power are 0 until notices give them.
 *
 * INSERTING
 * vikombare_inserter_start takes the settings; then each packet of the stream goes through vikombare_insert, in the order in which it is to go out, with the
 * STS of the next mark: the time after the pulse at which the next packet with label 0 leaves. The packet with label 0 itself gets the STS of the mark n
 * packets later. The first packet has label 0. The call leaves in the packet's own buffer what is to be sent.
 * A packet that the call refuses with 15, 1, 2 or 11 is NOT to be sent: the inserter has not counted it. If it goes out, every label after it is one off at
 * each transmitter, so that a mark goes out on the wrong packet, until the transmitter takes the next notice, which is a slip there. A packet with 21
 * (VIKOMBARE_NO_NULL_PACKET) IS to be sent, and is counted: its mega-frame ended without a null packet, and so has no notice. If it is left out, the labels
 * are off likewise.
 * A packet refused with 11 is whole, and loses nothing if it is handed in again with an STS within the second. After 15 the inserter is as it was and refuses
 * every packet: start it again. The first packet then has label 0, and a site whose own count differs finds a slip with the next notice.
 *
 * AN UPDATE FROM BEFORE 4.0
 * A block that was saved before 4.0 has 38 bytes and resumes as it did; `coasted`, which it does not have, is 255. Lend it without a byte behind it. Where it
 * is not known which kind of block the memory holds, lend the first VIKOMBARE_OLD_BLOCK_BYTES, and where the answer is 16 the first VIKOMBARE_BLOCK_BYTES: of a
 * block that is saved today the first 38 bytes give 16, always.
 * A vikombare_slave that firmware from before 4.0 left in memory has any byte in `coasted`, and would count on from it: do not hand it in, but resume or start.
 * The other way, firmware from before 4.0 resumes a block of today if all its 39 bytes are lent, and does not read `coasted`; where 38 are lent it answers
 * 16 and hunts.
 */
#ifndef VIKOMBARE_H
#define VIKOMBARE_H

#include <stdbool.h>
#include <stddef.h>
#include <stdint.h>

#ifdef __cplusplus
extern "C" {
#endif

/* The version of this interface. MAJOR rises where a program has to be changed or compiled anew, MINOR where it has not: something is added, or a call
 * gives another value. 2.1: a time that was a whole second is 0. 3.0: a late mark says how late it is, and its kind in which unit. 3.1: to
 * vikombare_packet, a packet of no bytes is one that was lost; before, it was refused with 1. 3.2: vikombare_packet_within, vikombare_read_within, and 26.
 * 4.0: a slave counts the marks that it coasted over, in a byte that was padding, and a saved block has 39 bytes. 4.1: the inserter, and 21. */
#define VIKOMBARE_VERSION_MAJOR 4
#define VIKOMBARE_VERSION_MINOR 1

/* An answer that must not be thrown away: it says what to do. The compiler warns where one is. */
#if (defined(__cplusplus) && __cplusplus >= 201703L) || (defined(__STDC_VERSION__) && __STDC_VERSION__ >= 202311L)
#define VIKOMBARE_KEEP [[nodiscard]]
#elif defined(__GNUC__)
#define VIKOMBARE_KEEP __attribute__((warn_unused_result))
#else
#define VIKOMBARE_KEEP
#endif

/* The numbers that a call refuses with: the first that applies, in the order given at each call. The numbers are document 01's, and 21 and 26 document 02's. */
enum {
    VIKOMBARE_ACCEPTED = 0,
    VIKOMBARE_REFUSED_LENGTH = 1,             /* the packet does not have 188 bytes; for the packet calls (vikombare_packet and
                                                 vikombare_packet_within), nor 0, which is a packet that was lost */
    VIKOMBARE_REFUSED_SYNC_BYTE = 2,          /* byte 0 of the packet is not 0x47 */
    VIKOMBARE_REFUSED_TICK = 3,               /* the arrival's count is a whole second of the slave's clock or more; for the packet calls, also a tick that
                                                 says the other clock */
    VIKOMBARE_REFUSED_ERROR_INDICATOR = 4,    /* the transport error indicator is set */
    VIKOMBARE_REFUSED_PID = 5,                /* the PID is not 0x0015 (reading only) */
    VIKOMBARE_REFUSED_HEADER = 6,             /* the header's unit start, priority, scrambling or adaptation bits are not a notice's */
    VIKOMBARE_REFUSED_SYNCHRONIZATION_ID = 7, /* the synchronization id is not 0 */
    VIKOMBARE_REFUSED_SECTION_LENGTH = 8,     /* the section length is not 19 + a, where a is the addressing field's length, or a is above 163 */
    VIKOMBARE_REFUSED_CHECK_VALUE = 9,        /* the check value */
    VIKOMBARE_REFUSED_ADDRESSING = 10,        /* the form of the addressing field */
    VIKOMBARE_REFUSED_TIME = 11,              /* STS or MD is a whole second or more; for vikombare_insert the STS given, on every packet */
    VIKOMBARE_REFUSED_POINTER = 12,           /* the pointer is not below n; the index is not 0 to 19 or 255 */
    VIKOMBARE_REFUSED_DELAY = 13,             /* MD + OD is not in 0 to a second - 1; in profile 1 also MD + OD + TAD not in 1 to a second - 1. OD is the one
                                                 in force once the notice is taken */
    VIKOMBARE_REFUSED_LATE = 14,              /* a mark's own number, beside the notice's: see VIKOMBARE_MARK_DVB_LATE, _A110_LATE */
    VIKOMBARE_REFUSED_COLD = 15,              /* the settings are outside the limits (of an inserter's, n alone); or the slave handed in is cold, or none that an
                                                 accepted call gives; or a part of the inserter handed in is out of its range */
    VIKOMBARE_REFUSED_BLOCK = 16,             /* the saved block's shape, check value, phase or ranges; a pending notice in it that 13 refuses */
    VIKOMBARE_REFUSED_BOARD = 17,             /* a sound block, but of another site, profile, n or TAD */
    VIKOMBARE_REFUSED_ROOM = 18,              /* the output has under 188 bytes (write) or 39 (save) */
    VIKOMBARE_REFUSED_FIELD = 19,             /* continuity above 15 or reserved above 32767; for vikombare_inserter_start, periodic above 1 too */
    VIKOMBARE_REFUSED_PROFILE = 20,           /* a numbers notice for a slave of profile 0 */
    VIKOMBARE_NO_NULL_PACKET = 21,            /* no refusal: vikombare_insert gives it with the last packet of a mega-frame without a null packet, which is
                                                 to be sent as any other */
    VIKOMBARE_REFUSED_LIMIT = 26              /* the addressing field is above the limit that the call gives (vikombare_packet_within and
                                                 vikombare_read_within only); after 8 and before 9, so whatever the check value is */
};

/* The profiles, and what their clocks count in a second. */
#define VIKOMBARE_PROFILE_DVB 0
#define VIKOMBARE_DVB_SECOND 10000000 /* steps of 100 ns */
#define VIKOMBARE_PROFILE_A110 1
#define VIKOMBARE_A110_SECOND 19392658 /* bit periods of the transport stream */

#define VIKOMBARE_PACKET_BYTES 188
#define VIKOMBARE_BLOCK_BYTES 39     /* of a saved block */
#define VIKOMBARE_OLD_BLOCK_BYTES 38 /* of one that was saved before 4.0 */
#define VIKOMBARE_INDEX_UNKNOWN 255
#define VIKOMBARE_MOST_COASTED 255
#define VIKOMBARE_LONGEST_ADDRESSING 163 /* bytes of an addressing field: the full board's limit */

/* A time after the one-second pulse, a delay, or how late a mark was. The two units are two types, so that one is not taken for the other. */
typedef struct {
    uint32_t steps; /* of 100 ns, profile 0 */
} vikombare_steps;

typedef struct {
    uint32_t periods; /* of a bit, profile 1 */
} vikombare_periods;

/* An arrival tick, counted from the last one-second pulse, 0 to a second - 1; it says of which clock it is. */
typedef struct {
    uint8_t profile; /* VIKOMBARE_PROFILE_DVB: the count is in steps; VIKOMBARE_PROFILE_A110: in periods */
    uint32_t count;
} vikombare_tick;

VIKOMBARE_KEEP static inline vikombare_tick vikombare_dvb_tick(vikombare_steps arrival)
{
    vikombare_tick tick = {VIKOMBARE_PROFILE_DVB, arrival.steps};
    return tick;
}

VIKOMBARE_KEEP static inline vikombare_tick vikombare_a110_tick(vikombare_periods arrival)
{
    vikombare_tick tick = {VIKOMBARE_PROFILE_A110, arrival.periods};
    return tick;
}

/* The settings of a start. */
typedef struct {
    uint8_t profile; /* VIKOMBARE_PROFILE_DVB or VIKOMBARE_PROFILE_A110 */
    uint16_t n;      /* packets in a cadence */
    uint16_t site;
    uint32_t tad; /* transmitter and antenna delay, in the profile's unit */
} vikombare_board;

/* The settings in force: each from the last notice taken that gave it, else 0. */
typedef struct {
    int16_t od;        /* offset delay, in the profile's unit */
    uint16_t power;    /* in 0.1 dBm */
    int32_t frequency; /* frequency offset, in Hz */
} vikombare_settings;

enum {
    VIKOMBARE_PHASE_COLD = 0,    /* not started, or found unsound: every call but a start or a resume answers 15 */
    VIKOMBARE_PHASE_HUNTING = 1, /* started, no notice taken yet: no labels and no marks */
    VIKOMBARE_PHASE_LOCKED = 2   /* counts packets, from the first notice taken on */
};

/* Where a slave stands in its cadence. */
typedef struct {
    uint8_t phase;   /* VIKOMBARE_PHASE_COLD, ... */
    uint16_t next;   /* label of the next packet */
    uint8_t index;   /* index of the next mark, 0 to 19, or VIKOMBARE_INDEX_UNKNOWN */
    uint8_t coasted; /* marks passed since the last notice taken, those in gaps too, whatever became of each: up to VIKOMBARE_MOST_COASTED, which stands for
                        every number from 255 on. The mark on that notice's own packet is not among them. A hunting slave has 255, and one that resumed
                        from a block of before 4.0 has it until a notice is taken; a cold one has 0 */
} vikombare_count;

/* The notice that waits for the next mark. */
typedef struct {
    uint8_t pending; /* 1 where one waits */
    uint32_t sts;    /* in the profile's unit */
    uint32_t md;     /* in the profile's unit */
} vikombare_waiting;

/* A slave. Copy it, keep it, read it; only the calls below change it. It has bytes of padding, of which no call says anything: compare slaves field by
 * field, and not by memcmp. One that was damaged, or that lies in memory which kept what it had at a reset, is safe to hand in: it counts as cold (15),
 * unless its parts are by chance ones that an accepted call gives. A cold slave stays cold until a start or a resume gives another. */
typedef struct {
    vikombare_board board;
    vikombare_settings settings;
    vikombare_count count;
    vikombare_waiting waiting;
} vikombare_slave;

/* When a mark goes on air, profile 0. Times are after the pulse, 0 to VIKOMBARE_DVB_SECOND - 1: a mark on the pulse has time 0. */
typedef struct {
    vikombare_steps reference;  /* reference emission time: the same at every site */
    vikombare_steps emission;   /* this site's, with its offset delay */
    vikombare_steps modulation; /* emission less the transmitter and antenna delay */
    int64_t wait;               /* steps to hold the mark from its arrival, 0 to a second - 1 */
} vikombare_dvb_times;

/* The same, profile 1: 0 to VIKOMBARE_A110_SECOND - 1. */
typedef struct {
    vikombare_periods reference;
    vikombare_periods emission;
    vikombare_periods modulation;
    int64_t wait; /* periods to hold the mark from its arrival, 0 to a second - 1 */
} vikombare_a110_times;

/* The kinds of mark. The delay from the adapter to the board is taken to be under a second: a mark that arrives later than that is not found late. */
enum {
    VIKOMBARE_MARK_NONE = 0,          /* the packet is no mark, or the slave has no label, or the packet is an empty one, also in a mark's place */
    VIKOMBARE_MARK_UNTIMED = 1,       /* a mark without a notice, or one that a slip or the first notice led to: its time is not known */
    VIKOMBARE_MARK_DVB_LATE = 2,      /* a mark that arrived after its modulation time (14): it has passed, its notice is cleared. mark.dvb_late is by how
                                         much: with a maximum delay (MD) longer by so much, where 11 and 13 allow it, it would have had a wait of 0 */
    VIKOMBARE_MARK_DVB_RELEASED = 3,  /* mark.dvb has its times */
    VIKOMBARE_MARK_A110_RELEASED = 4, /* mark.a110 has its times */
    VIKOMBARE_MARK_A110_LATE = 5      /* as VIKOMBARE_MARK_DVB_LATE, in profile 1: mark.a110_late */
};

typedef struct {
    uint8_t kind;   /* VIKOMBARE_MARK_NONE, ... */
    uint8_t number; /* VIKOMBARE_REFUSED_LATE where it is late, else 0 */
    union {
        vikombare_dvb_times dvb;     /* where kind is VIKOMBARE_MARK_DVB_RELEASED */
        vikombare_a110_times a110;   /* where kind is VIKOMBARE_MARK_A110_RELEASED */
        vikombare_steps dvb_late;    /* where kind is VIKOMBARE_MARK_DVB_LATE: 1 to 2 * (VIKOMBARE_DVB_SECOND - 1) */
        vikombare_periods a110_late; /* where kind is VIKOMBARE_MARK_A110_LATE: 1 to 2 * (VIKOMBARE_A110_SECOND - 1) */
    };                               /* all 0 for every other kind */
} vikombare_mark;

/* What became of a notice. One that is taken waits for the next mark in place of any that waited; its settings for this site enter, and so do those for site
 * 0x0000, which are for every site: entries apply in order, the later replacing the earlier. */
enum {
    VIKOMBARE_NOTICE_NONE = 0,
    VIKOMBARE_NOTICE_TAKEN = 1,
    VIKOMBARE_NOTICE_SLIP = 2,   /* taken, and it disagrees with the slave's own count: the count is set by it, the notice that waited is dropped without
                                    a release, and the index becomes unknown unless this notice gives one */
    VIKOMBARE_NOTICE_IGNORED = 3 /* `ignored` says why: 4, 6 to 13, 26 */
};

/* The reply to a packet or a numbers notice. What is not there is 0 or false; a refused call has its number alone, and an empty packet number 0 alone. */
typedef struct {
    uint8_t number; /* 0, or why the whole call is refused; then the packet does not count */
    bool has_label;
    uint16_t label; /* the packet's place in the cadence; 0 is the mark */
    uint8_t notice; /* VIKOMBARE_NOTICE_NONE, ... */
    uint8_t ignored;
    bool turn; /* a numbers notice gave another index than the known one */
    bool has_place;
    uint16_t place; /* the packet's place in the M/H frame, profile 1 */
    vikombare_mark mark;
} vikombare_reply;

/* What a numbers notice carries, profile 1. */
typedef struct {
    uint16_t pointer;      /* packets between this one and the next mark; 0: the next packet is the mark */
    vikombare_periods sts; /* the mark's time after the pulse at the adapter */
    vikombare_periods md;  /* maximum delay */
    int16_t od;            /* offset delay, in bit periods; in force after this packet's own mark */
    uint8_t index;         /* of the next mark, or VIKOMBARE_INDEX_UNKNOWN: not given */
} vikombare_numbers_notice;

/* A notice of profile 0, beside its addressing field. */
typedef struct {
    uint8_t continuity; /* 0 to 15 */
    uint16_t pointer;   /* packets between the notice and the next mark; 0: the next packet is the mark */
    bool periodic;
    uint16_t reserved;   /* 15 bits, carried unchanged */
    vikombare_steps sts; /* the mark's time after the pulse at the adapter */
    vikombare_steps md;  /* maximum delay */
    uint32_t tps;        /* carried unchanged */
} vikombare_notice;

typedef struct {
    uint8_t number; /* 0, or why it is no notice; then all else is 0 */
    vikombare_notice notice;
    size_t addressing; /* bytes of the addressing field, which is packet[21] and on */
} vikombare_reading;

/* The settings of an inserter, beside its addressing field. */
typedef struct {
    uint16_t n;          /* packets in a mega-frame */
    uint8_t periodic;    /* 0 or 1; a number and no bool, so that an inserter that was damaged is safe to hand in */
    uint16_t reserved;   /* 15 bits, sent unchanged */
    vikombare_steps md;  /* maximum delay */
    uint32_t tps;        /* sent unchanged */
} vikombare_inserter_settings;

/* Where an inserter stands in its mega-frame. */
typedef struct {
    uint16_t label;     /* of the next packet that is sent */
    uint8_t placed;     /* 1 where this mega-frame has its notice */
    uint8_t continuity; /* of the next notice */
} vikombare_inserter_progress;

/* An inserter. Copy it, keep it, read it; only the calls below change it. It has bytes of padding, and bytes of `field` from `length` on are not read. */
typedef struct {
    vikombare_inserter_settings settings;
    vikombare_inserter_progress progress;
    uint8_t length; /* bytes of the addressing field, 0 to VIKOMBARE_LONGEST_ADDRESSING */
    uint8_t field[VIKOMBARE_LONGEST_ADDRESSING];
} vikombare_inserter;

/* The library's own sizes and places: a compiler that lays a struct out otherwise does not get past here. */
#ifdef __cplusplus
#define VIKOMBARE_HOLDS(what) static_assert(what, #what)
#else
#define VIKOMBARE_HOLDS(what) _Static_assert(what, #what)
#endif
VIKOMBARE_HOLDS(sizeof(bool) == 1 && sizeof(size_t) == 8);
VIKOMBARE_HOLDS(sizeof(vikombare_steps) == 4 && sizeof(vikombare_periods) == 4);
VIKOMBARE_HOLDS(sizeof(vikombare_tick) == 8 && offsetof(vikombare_tick, count) == 4);
VIKOMBARE_HOLDS(sizeof(vikombare_board) == 12 && offsetof(vikombare_board, n) == 2 && offsetof(vikombare_board, tad) == 8);
VIKOMBARE_HOLDS(sizeof(vikombare_settings) == 8 && offsetof(vikombare_settings, power) == 2 && offsetof(vikombare_settings, frequency) == 4);
VIKOMBARE_HOLDS(sizeof(vikombare_count) == 6 && offsetof(vikombare_count, next) == 2 && offsetof(vikombare_count, index) == 4);
VIKOMBARE_HOLDS(offsetof(vikombare_count, coasted) == 5);
VIKOMBARE_HOLDS(sizeof(vikombare_waiting) == 12 && offsetof(vikombare_waiting, sts) == 4);
VIKOMBARE_HOLDS(sizeof(vikombare_slave) == 40 && offsetof(vikombare_slave, settings) == 12);
VIKOMBARE_HOLDS(offsetof(vikombare_slave, count) == 20 && offsetof(vikombare_slave, waiting) == 28);
VIKOMBARE_HOLDS(sizeof(vikombare_dvb_times) == 24 && offsetof(vikombare_dvb_times, wait) == 16);
VIKOMBARE_HOLDS(sizeof(vikombare_a110_times) == 24 && offsetof(vikombare_a110_times, wait) == 16);
VIKOMBARE_HOLDS(sizeof(vikombare_mark) == 32 && offsetof(vikombare_mark, dvb) == 8 && offsetof(vikombare_mark, a110) == 8);
VIKOMBARE_HOLDS(offsetof(vikombare_mark, dvb_late) == 8 && offsetof(vikombare_mark, a110_late) == 8);
VIKOMBARE_HOLDS(sizeof(vikombare_reply) == 48 && offsetof(vikombare_reply, place) == 8 && offsetof(vikombare_reply, mark) == 16);
VIKOMBARE_HOLDS(sizeof(vikombare_numbers_notice) == 16 && offsetof(vikombare_numbers_notice, od) == 12);
VIKOMBARE_HOLDS(sizeof(vikombare_notice) == 20 && offsetof(vikombare_notice, sts) == 8 && offsetof(vikombare_notice, tps) == 16);
VIKOMBARE_HOLDS(sizeof(vikombare_reading) == 32 && offsetof(vikombare_reading, notice) == 4 && offsetof(vikombare_reading, addressing) == 24);
VIKOMBARE_HOLDS(sizeof(vikombare_inserter_settings) == 16 && offsetof(vikombare_inserter_settings, periodic) == 2);
VIKOMBARE_HOLDS(offsetof(vikombare_inserter_settings, reserved) == 4 && offsetof(vikombare_inserter_settings, md) == 8);
VIKOMBARE_HOLDS(sizeof(vikombare_inserter_progress) == 4 && offsetof(vikombare_inserter_progress, continuity) == 3);
VIKOMBARE_HOLDS(sizeof(vikombare_inserter) == 184 && offsetof(vikombare_inserter, progress) == 16 && offsetof(vikombare_inserter, field) == 21);
#undef VIKOMBARE_HOLDS

/* Starts a slave: hunting, nothing pending. What *slave held is overwritten, also where the call refuses, and need not be initialised. n is one of the
 * profile's cadences (profile 0: 2016 * v * r with v = 2, 4 or 6 bits and r = 1/2, 2/3, 3/4, 5/6 or 7/8, such as 10584 for 64-QAM 7/8, the same in 2K and
 * 8K; profile 1: 624), site is 1 to 65535, tad is below a second. Order: 15, which leaves the cold slave, all 0 but for the index, which is 255. */
VIKOMBARE_KEEP uint8_t vikombare_dvb_start(vikombare_slave *slave, uint16_t n, uint16_t site, vikombare_steps tad);
VIKOMBARE_KEEP uint8_t vikombare_a110_start(vikombare_slave *slave, uint16_t n, uint16_t site, vikombare_periods tad);

/* Takes a packet with its arrival tick, and updates the slave in its own memory. Order: 15 (leaves the cold slave); then, unless the length is 0, 1, 2, 3
 * (each leaves the slave as it was, and the packet does not count). Else a packet of 188 bytes counts. In either profile a packet whose error indicator is
 * set has its notice ignored with 4, whatever its PID. Of the others, profile 0 reads those of PID 0x0015 as notices, which are taken or ignored with the
 * first of 6 to 13; all else is plain, and in profile 1 every packet is. A hunting slave has no label and no marks, and changes only when a notice is
 * taken; its reply still has the number that a notice is ignored with. A mark is released with the settings that were in force before a notice on the
 * same packet.
 * A length of 0, with any pointer that is not null, is a packet that was lost: a link card that keeps the rhythm delivers an empty one in its place. It
 * does to the slave what vikombare_gap of 1 does, so a lost mark takes its notice with it. The arrival is not read, neither its count nor its clock, and
 * the reply has number 0 and nothing else: no label, notice, mark or place. Hand in no length of 0 for another reason (a timeout, an empty buffer), and
 * tell a lost packet by one of the two calls, not by both. */
VIKOMBARE_KEEP vikombare_reply vikombare_packet(vikombare_slave *slave, const uint8_t *packet, size_t length, vikombare_tick arrival);

/* The same for a board that handles fewer bytes of addressing field: it reads notices of at most `limit` bytes, and exactly the limit is read. 163
 * (VIKOMBARE_LONGEST_ADDRESSING) and every limit above it make it the same as vikombare_packet; 0 reads only notices without an addressing field. No slave
 * keeps the limit: give it with each packet. A notice above the limit is ignored with 26, after 8 and before 9, unless 4, 6, 7 or 8 ignores it; it leaves just the
 * slave that a plain packet leaves, and one within the limit is treated as by vikombare_packet. Profile 1 does not use the limit. */
VIKOMBARE_KEEP vikombare_reply vikombare_packet_within(vikombare_slave *slave, const uint8_t *packet, size_t length, vikombare_tick arrival, size_t limit);

/* Takes a packet that comes with a notice in numbers, profile 1, in place of vikombare_packet for this packet. Order: 15 (leaves the cold slave), 1 (for a
 * length of 0 too), 2, 3, 20 (each leaves the slave as it was); then 4, 11, 12, 13 ignore the notice, and the packet counts. A slave of profile 0 takes no
 * numbers notice: it answers 3 where the arrival's count is VIKOMBARE_DVB_SECOND or more, else 20. */
VIKOMBARE_KEEP vikombare_reply vikombare_numbers(vikombare_slave *slave, const uint8_t *packet, size_t length, vikombare_periods arrival,
                                                 vikombare_numbers_notice notice);

/* Tells a locked slave that k packets were lost: it counts on, passes the marks among them, and drops a notice whose mark is among them. A hunting slave
 * is unchanged. Order: 15 (leaves the cold slave). What a link card delivers as empty packets goes to the packet call, and is not told here again. */
VIKOMBARE_KEEP uint8_t vikombare_gap(vikombare_slave *slave, uint16_t k);

/* Saves the slave, which stays as it is, in the first 39 bytes of out; bytes after them are kept. Order: 15, 18; each keeps every byte of out. */
VIKOMBARE_KEEP uint8_t vikombare_save(vikombare_slave slave, uint8_t *out, size_t length);

/* Resumes from a saved block, whose trailer is the last 8 bytes that are lent, on a board of these settings: lend what save wrote and nothing behind it.
 * The block must not lie in *slave, which is written first.
 * What *slave held is overwritten, also where the call refuses, and need not be initialised. Order: 15 (leaves the cold slave), 16, 17 (each leaves a
 * fresh hunting slave of these settings). Whatever the bytes are, unless the answer is 15 the slave's profile, n, site and TAD are these, never the
 * block's. A locked slave goes on from the label that was saved: SETTING OUT AND COMING BACK, above, says what has to be told. */
VIKOMBARE_KEEP uint8_t vikombare_dvb_resume(vikombare_slave *slave, const uint8_t *block, size_t length, uint16_t n, uint16_t site,
                                            vikombare_steps tad);
VIKOMBARE_KEEP uint8_t vikombare_a110_resume(vikombare_slave *slave, const uint8_t *block, size_t length, uint16_t n, uint16_t site,
                                             vikombare_periods tad);

/* Reads a notice of profile 0. Order: 1, 2, 4 to 11. */
VIKOMBARE_KEEP vikombare_reading vikombare_read(const uint8_t *packet, size_t length);

/* The same with a limit, as for vikombare_packet_within. Order: 1, 2, 4 to 8, 26, 9 to 11. */
VIKOMBARE_KEEP vikombare_reading vikombare_read_within(const uint8_t *packet, size_t length, size_t limit);

/* Writes a notice of profile 0 in the first 188 bytes of out, with its check value and stuffing; bytes after them are kept. The addressing field must not lie
 * in out: to write a packet anew in its place, copy its field first. Order: 18, 19, 8 (an addressing field of more than 163 bytes), 10, 11; each keeps
 * every byte of out. The writer knows no n and no reader's limit, and writes every pointer as given. */
VIKOMBARE_KEEP uint8_t vikombare_write(uint8_t *out, size_t out_length, vikombare_notice notice, const uint8_t *addressing, size_t addressing_length);

/* Starts an inserter, whose first packet has label 0 and whose first notice has continuity 0; each next notice has one more, 15 to 0. What *inserter held is
 * overwritten, also where the call refuses, and need not be initialised; the addressing field must not lie in it. n is one of the cadences of profile 0, as for
 * vikombare_dvb_start. Order: 15 (n), 19, 8 (an addressing field of more than 163 bytes), 10, 11 (MD); each leaves an inserter of zeros, which refuses every
 * packet with 15. */
VIKOMBARE_KEEP uint8_t vikombare_inserter_start(vikombare_inserter *inserter, vikombare_inserter_settings settings, const uint8_t *addressing,
                                                size_t addressing_length);

/* Takes the stream's next packet, with the STS of the next mark, and leaves in its place what is to be sent: the notice for the first null packet (PID 0x1FFF)
 * of each mega-frame, and every other packet as it came. A packet that comes with the notice's PID, 0x0015, is made a null packet before that (47 1F FF 10,
 * then 184 of 0xFF). PIDs alone decide, also where the error indicator is set. Order: 15, 1, 2, 11 of the STS given, on every packet; each keeps the inserter
 * and the packet, which is not to be sent. Then the packet is to be sent: 0, or 21 with the last packet of a mega-frame in which no null packet came. INSERTING,
 * above, says more. */
VIKOMBARE_KEEP uint8_t vikombare_insert(vikombare_inserter *inserter, uint8_t *packet, size_t length, vikombare_steps sts);

#ifdef __cplusplus
}
#endif

#endif
