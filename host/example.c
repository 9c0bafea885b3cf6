/* A host in C: takes a recorded stream of 188-byte packets on standard input, as if it came at a constant rate, and prints
 * its events as `tsevents` does.
 *
 *     example [BITS_A_SECOND] < recording.ts
 *
 * It ends at the last packet: a recording does not say what came behind it. It ends with 0 where the stream was read to its
 * end, 1 where a call was refused, 2 where something failed. */
#include "songpigeon.h"

#include <inttypes.h>
#include <stdio.h>
#include <stdlib.h>
#include <string.h>

enum { READ_TO_ITS_END = 0, REFUSED = 1, FAILED = 2 };

/* 188 bytes at one bit a second, in ticks of 27 MHz */
static const uint64_t packet_ticks = UINT64_C(188) * 8 * 27000000;

static songpigeon_card card;

/* as much of the stream as is read at once: 348 packets, just below 64 KiB */
static uint8_t block[348 * SONGPIGEON_PACKET];

static int print(songpigeon_reply reply) {
    if (reply.refusal != SONGPIGEON_ACCEPTED) {
        printf("refused\t%" PRIu32 "\n", reply.refusal);
        return REFUSED;
    }
    for (size_t k = 0; k < reply.n; k++) {
        const songpigeon_event *e = &card.events[k];
        printf("%" PRIu64 "\t%04x\t%u\t%04x\n", e->stamp, e->fault, e->cause, e->id);
    }
    return READ_TO_ITS_END;
}

static int judge(FILE *stream, uint64_t rate) {
    uint64_t time = 0;
    uint64_t over = 0; /* what the whole ticks so far leave over, in parts of `rate` */
    size_t filled;
    int status = print(songpigeon_card_open(&card, time));
    while (status == READ_TO_ITS_END && (filled = fread(block, 1, sizeof block, stream)) > 0) {
        for (size_t at = 0; status == READ_TO_ITS_END && at < filled; at += SONGPIGEON_PACKET) {
            size_t left = filled - at; /* less than a packet only at the end of a stream that was cut off */
            size_t length = left < SONGPIGEON_PACKET ? left : SONGPIGEON_PACKET;
            over += packet_ticks % rate;
            time += packet_ticks / rate + over / rate;
            over %= rate;
            status = print(songpigeon_card_packet(&card, time, block + at, length));
        }
    }
    if (ferror(stream)) {
        perror("reading failed");
        return FAILED;
    }
    return status;
}

int main(int count, char **arguments) {
    const char *digits = count > 1 ? arguments[1] : "38000000";
    uint64_t rate = strtoull(digits, NULL, 10);
    if (count > 2 || strspn(digits, "0123456789") != strlen(digits) || rate == 0 || rate > UINT64_C(1000000000000)) {
        fputs("usage: example [BITS_A_SECOND] < recording.ts\n", stderr);
        return FAILED;
    }
    if (songpigeon_version() / 10000 != SONGPIGEON_VERSION_MAJOR) {
        fputs("the library is of another version than the header\n", stderr);
        return FAILED;
    }
    puts("time\tfault\tcause\tid");
    int status = judge(stdin, rate);
    if (fflush(stdout) != 0 || ferror(stdout)) {
        perror("writing failed");
        return FAILED;
    }
    return status;
}
