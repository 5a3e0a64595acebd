/* Reads transport packets from standard input and prints what the reader says of each: one line a packet. */
#include <stdio.h>

#include "vikombare.h"

int main(void)
{
    uint8_t packet[VIKOMBARE_PACKET_BYTES];
    size_t got;
    unsigned long count = 0;

    while ((got = fread(packet, 1, sizeof packet, stdin)) > 0) {
        vikombare_reading r = vikombare_read(packet, got);
        if (r.number != 0)
            printf("%lu refused %u\n", count, r.number);
        else
            printf("%lu pointer %u sts %lu md %lu tps %08lx continuity %u addressing %zu\n", count, r.notice.pointer, (unsigned long)r.notice.sts.steps,
                   (unsigned long)r.notice.md.steps, (unsigned long)r.notice.tps, r.notice.continuity, r.addressing);
        count++;
    }
    if (ferror(stdin)) {
        fprintf(stderr, "reading failed\n");
        return 1;
    }
    return 0;
}
