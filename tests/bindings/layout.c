/* Prints how include/vikombare.h lays its structs out: each with its size, and its fields with their places. tests/bindings/layout.rs prints the same of the
 * tests' own bindings. */
#include "vikombare.h"
#include <stdio.h>

#define STRUCT(name) printf("%s of %zu bytes\n", #name, sizeof(vikombare_##name))
#define FIELD(name, field) printf("  %s at %zu, %zu bytes\n", #field, offsetof(vikombare_##name, field), sizeof(((vikombare_##name *)0)->field))

int main(void)
{
    STRUCT(steps);
    FIELD(steps, steps);
    STRUCT(periods);
    FIELD(periods, periods);
    STRUCT(tick);
    FIELD(tick, profile);
    FIELD(tick, count);
    STRUCT(board);
    FIELD(board, profile);
    FIELD(board, n);
    FIELD(board, site);
    FIELD(board, tad);
    STRUCT(settings);
    FIELD(settings, od);
    FIELD(settings, power);
    FIELD(settings, frequency);
    STRUCT(count);
    FIELD(count, phase);
    FIELD(count, next);
    FIELD(count, index);
    FIELD(count, coasted);
    STRUCT(waiting);
    FIELD(waiting, pending);
    FIELD(waiting, sts);
    FIELD(waiting, md);
    STRUCT(slave);
    FIELD(slave, board);
    FIELD(slave, settings);
    FIELD(slave, count);
    FIELD(slave, waiting);
    STRUCT(dvb_times);
    FIELD(dvb_times, reference);
    FIELD(dvb_times, emission);
    FIELD(dvb_times, modulation);
    FIELD(dvb_times, wait);
    STRUCT(a110_times);
    FIELD(a110_times, reference);
    FIELD(a110_times, emission);
    FIELD(a110_times, modulation);
    FIELD(a110_times, wait);
    STRUCT(mark);
    FIELD(mark, kind);
    FIELD(mark, number);
    FIELD(mark, dvb);
    FIELD(mark, a110);
    STRUCT(reply);
    FIELD(reply, number);
    FIELD(reply, has_label);
    FIELD(reply, label);
    FIELD(reply, notice);
    FIELD(reply, ignored);
    FIELD(reply, turn);
    FIELD(reply, has_place);
    FIELD(reply, place);
    FIELD(reply, mark);
    STRUCT(numbers_notice);
    FIELD(numbers_notice, pointer);
    FIELD(numbers_notice, sts);
    FIELD(numbers_notice, md);
    FIELD(numbers_notice, od);
    FIELD(numbers_notice, index);
    STRUCT(notice);
    FIELD(notice, continuity);
    FIELD(notice, pointer);
    FIELD(notice, periodic);
    FIELD(notice, reserved);
    FIELD(notice, sts);
    FIELD(notice, md);
    FIELD(notice, tps);
    STRUCT(reading);
    FIELD(reading, number);
    FIELD(reading, notice);
    FIELD(reading, addressing);
    STRUCT(inserter_settings);
    FIELD(inserter_settings, n);
    FIELD(inserter_settings, periodic);
    FIELD(inserter_settings, reserved);
    FIELD(inserter_settings, md);
    FIELD(inserter_settings, tps);
    STRUCT(inserter_progress);
    FIELD(inserter_progress, label);
    FIELD(inserter_progress, placed);
    FIELD(inserter_progress, continuity);
    STRUCT(inserter);
    FIELD(inserter, settings);
    FIELD(inserter, progress);
    FIELD(inserter, length);
    FIELD(inserter, field);
    return 0;
}
