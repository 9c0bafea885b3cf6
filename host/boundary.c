/* The boundary as a host in C meets it: each call under the names of the header, the stack that a call needs, and cards in
 * two threads. Prints what does not hold, then how many checks there were; ends with 1 where one does not hold. */
#define _XOPEN_SOURCE 700
#include "songpigeon.h"

#include <pthread.h>
#include <stdio.h>
#include <stdlib.h>
#include <string.h>
#include <ucontext.h>

static int checks;
static int failed;

#define CHECK(claim)                                                                                                   \
    do {                                                                                                               \
        checks++;                                                                                                      \
        if (!(claim)) {                                                                                                \
            failed++;                                                                                                  \
            printf("line %d: %s\n", __LINE__, #claim);                                                                 \
        }                                                                                                              \
    } while (0)

/* A packet on a PID with a counter and 184 bytes of payload, 0xFF behind those given. */
static void make(uint8_t *packet, int start, unsigned pid, unsigned counter, const uint8_t *payload, size_t length) {
    memset(packet, 0xFF, SONGPIGEON_PACKET);
    packet[0] = 0x47;
    packet[1] = (uint8_t)((start ? 0x40 : 0) | pid >> 8);
    packet[2] = (uint8_t)pid;
    packet[3] = (uint8_t)(0x10 | counter);
    memcpy(packet + 4, payload, length);
}

static uint32_t crc_of(const uint8_t *bytes, size_t length) {
    uint32_t crc = 0xFFFFFFFF;
    for (size_t k = 0; k < length * 8; k++) {
        uint32_t bit = (uint32_t)(bytes[k / 8] >> (7 - k % 8) & 1) ^ crc >> 31;
        crc = crc << 1 ^ (bit != 0 ? 0x04C11DB7 : 0);
    }
    return crc;
}

/* A payload with a PAT of so many programmes, numbers and PIDs from `first` on; answers its length. */
static size_t make_pat(uint8_t *payload, unsigned programmes, unsigned first) {
    uint8_t *section = payload + 1;
    size_t length = 8 + 4 * programmes;
    payload[0] = 0;
    section[0] = 0;
    section[1] = 0xB0;
    section[2] = (uint8_t)(length + 1);
    memcpy(section + 3, "\0\1\xC1\0\0", 5);
    for (unsigned k = 0; k < programmes; k++) {
        uint8_t *entry = section + 8 + 4 * k;
        entry[0] = 0;
        entry[1] = (uint8_t)(first + k);
        entry[2] = 0xE1;
        entry[3] = (uint8_t)(first + k);
    }
    uint32_t crc = crc_of(section, length);
    for (size_t k = 0; k < 4; k++) {
        section[length + k] = (uint8_t)(crc >> (24 - 8 * k));
    }
    return 1 + length + 4;
}

static songpigeon_card card;
static songpigeon_card before;

static int is_event(size_t place, uint64_t stamp, unsigned fault, unsigned cause, unsigned id) {
    songpigeon_event e = card.events[place];
    return e.stamp == stamp && e.fault == fault && e.cause == cause && e.id == id;
}

static int is_refused(songpigeon_reply reply, uint32_t refusal) {
    return reply.refusal == refusal && reply.n == 0 && memcmp(&card, &before, sizeof card) == 0;
}

static void calls(void) {
    const uint64_t latest = UINT64_C(1) << 62;
    uint8_t packet[SONGPIGEON_PACKET + 1];
    uint8_t payload[184];
    songpigeon_reply reply;
    CHECK(songpigeon_version() == SONGPIGEON_VERSION);
    CHECK(SONGPIGEON_VERSION / 10000 == SONGPIGEON_VERSION_MAJOR);
    /* an opening, over any contents; all zeros are an opening at 0 */
    memset(&card, 0x5A, sizeof card);
    before = card;
    CHECK(is_refused(songpigeon_card_open(&card, latest + 1), SONGPIGEON_REFUSED_TIME));
    reply = songpigeon_card_open(&card, latest);
    CHECK(reply.refusal == SONGPIGEON_ACCEPTED && reply.n == 0 && card.times[SONGPIGEON_AT_LATEST] == latest);
    memset(&card, 0, sizeof card);
    before = card;
    reply = songpigeon_card_open(&card, 0);
    CHECK(reply.refusal == SONGPIGEON_ACCEPTED && memcmp(&card, &before, sizeof card) == 0);
    /* the PAT is late half a second after the opening, and then once */
    reply = songpigeon_card_clock(&card, 13500000);
    CHECK(reply.refusal == SONGPIGEON_ACCEPTED && reply.n == 0);
    reply = songpigeon_card_clock(&card, 13500001);
    CHECK(reply.refusal == SONGPIGEON_ACCEPTED && reply.n == 1);
    CHECK(is_event(0, 13500000, SONGPIGEON_FAULT_PAT, SONGPIGEON_CAUSE_LATE, 0));
    CHECK(card.numbers[0] == 13500000 && card.numbers[1] == SONGPIGEON_FAULT_PAT);
    CHECK(card.numbers[2] == SONGPIGEON_CAUSE_LATE && card.numbers[3] == 0);
    CHECK(songpigeon_card_clock(&card, 13500001).n == 0 && card.numbers[0] == 13500000);
    /* refusals */
    before = card;
    make(packet, 0, 0x0123, 5, payload, 0);
    CHECK(is_refused(songpigeon_card_packet(&card, 13500001, NULL, SONGPIGEON_PACKET), SONGPIGEON_REFUSED_PACKET));
    CHECK(is_refused(songpigeon_card_packet(&card, 13500001, NULL, 0), SONGPIGEON_REFUSED_PACKET));
    CHECK(is_refused(songpigeon_card_packet(&card, 13500001, packet, 187), SONGPIGEON_REFUSED_PACKET));
    CHECK(is_refused(songpigeon_card_packet(&card, 13500001, packet, 189), SONGPIGEON_REFUSED_PACKET));
    CHECK(is_refused(songpigeon_packet(card.times, card.words, 13500001, packet, SONGPIGEON_PACKET, card.counters,
                                       SONGPIGEON_COUNTERS - 1, card.memory, card.numbers, card.events,
                                       SONGPIGEON_EVENTS),
                     SONGPIGEON_REFUSED_COUNTERS));
    CHECK(is_refused(songpigeon_packet(card.times, card.words, 13500001, packet, SONGPIGEON_PACKET, card.counters,
                                       SONGPIGEON_COUNTERS, card.memory, card.numbers, card.events,
                                       SONGPIGEON_EVENTS - 1),
                     SONGPIGEON_REFUSED_EVENTS));
    CHECK(is_refused(songpigeon_card_packet(&card, latest + 1, packet, SONGPIGEON_PACKET), SONGPIGEON_REFUSED_TIME));
    CHECK(is_refused(songpigeon_card_packet(&card, 13500000, packet, SONGPIGEON_PACKET), SONGPIGEON_REFUSED_ORDER));
    CHECK(is_refused(songpigeon_card_clock(&card, 13500000), SONGPIGEON_REFUSED_ORDER));
    card.words[SONGPIGEON_WORDS - 1] = 17;
    before = card;
    CHECK(is_refused(songpigeon_card_clock(&card, 13500001), SONGPIGEON_REFUSED_STATE));
    /* faults, one after the other */
    CHECK(songpigeon_card_open(&card, 0).refusal == SONGPIGEON_ACCEPTED);
    CHECK(songpigeon_card_packet(&card, 1, packet, SONGPIGEON_PACKET).n == 0);
    packet[3] = 0x18;
    CHECK(songpigeon_card_packet(&card, 2, packet, SONGPIGEON_PACKET).n == 1);
    CHECK(is_event(0, 2, SONGPIGEON_FAULT_CONTINUITY, SONGPIGEON_CAUSE_NONE, 0x0123));
    packet[1] |= 0x80;
    CHECK(songpigeon_card_packet(&card, 3, packet, SONGPIGEON_PACKET).n == 1);
    CHECK(is_event(0, 3, SONGPIGEON_FAULT_TRANSPORT, SONGPIGEON_CAUSE_NONE, 0x0123));
    packet[0] = 0x46;
    CHECK(songpigeon_card_packet(&card, 4, packet, SONGPIGEON_PACKET).n == 1);
    CHECK(is_event(0, 4, SONGPIGEON_FAULT_SYNC_BYTE, SONGPIGEON_CAUSE_NONE, 0x0123));
    CHECK(songpigeon_card_packet(&card, 5, packet, SONGPIGEON_PACKET).n == 2);
    CHECK(is_event(1, 5, SONGPIGEON_FAULT_SYNC_LOSS, SONGPIGEON_CAUSE_NONE, 0x0123));
    /* the programme list, and what a scrambled, a foreign and a torn table say */
    CHECK(songpigeon_card_open(&card, 0).refusal == SONGPIGEON_ACCEPTED);
    make(packet, 1, 0, 0, payload, make_pat(payload, 2, 1));
    CHECK(songpigeon_card_packet(&card, 1, packet, SONGPIGEON_PACKET).n == 0 && card.words[SONGPIGEON_WORDS - 1] == 2);
    make(packet, 1, 0x0101, 0, payload, make_pat(payload, 1, 1));
    CHECK(songpigeon_card_packet(&card, 2, packet, SONGPIGEON_PACKET).n == 1);
    CHECK(is_event(0, 2, SONGPIGEON_FAULT_PMT, SONGPIGEON_CAUSE_FOREIGN, 0x0101));
    packet[3] = 0x91;
    CHECK(songpigeon_card_packet(&card, 3, packet, SONGPIGEON_PACKET).n == 1);
    CHECK(is_event(0, 3, SONGPIGEON_FAULT_PMT, SONGPIGEON_CAUSE_SCRAMBLED, 0x0101));
    make(packet, 1, 0, 1, payload, make_pat(payload, 1, 1));
    packet[20] ^= 1;
    CHECK(songpigeon_card_packet(&card, 4, packet, SONGPIGEON_PACKET).n == 1);
    CHECK(is_event(0, 4, SONGPIGEON_FAULT_CRC, SONGPIGEON_CAUSE_NONE, 0));
    make(packet, 1, 0, 2, payload, make_pat(payload, 17, 1));
    CHECK(songpigeon_card_packet(&card, 5, packet, SONGPIGEON_PACKET).n == 1);
    CHECK(is_event(0, 5, SONGPIGEON_FAULT_PAT, SONGPIGEON_CAUSE_NOT_ALLOWED, 0));
    /* everything late at once, in the paper's order */
    reply = songpigeon_card_clock(&card, 900000000);
    CHECK(reply.n == 5 + 16);
    CHECK(is_event(0, 13500005, SONGPIGEON_FAULT_PAT, SONGPIGEON_CAUSE_LATE, 0x0000));
    CHECK(is_event(1, 270000000, SONGPIGEON_FAULT_NIT, SONGPIGEON_CAUSE_LATE, 0x0010));
    CHECK(is_event(2, 54000000, SONGPIGEON_FAULT_SDT, SONGPIGEON_CAUSE_LATE, 0x0011));
    CHECK(is_event(3, 54000000, SONGPIGEON_FAULT_EIT, SONGPIGEON_CAUSE_LATE, 0x0012));
    CHECK(is_event(4, 810000000, SONGPIGEON_FAULT_TDT, SONGPIGEON_CAUSE_LATE, 0x0014));
    CHECK(is_event(20, 13500005, SONGPIGEON_FAULT_PMT, SONGPIGEON_CAUSE_LATE, 16));
}

static void severities(void) {
    songpigeon_verdict v = songpigeon_severity(SONGPIGEON_KIND_PMT, 54000001);
    CHECK(v.refusal == SONGPIGEON_ACCEPTED && v.number == 4 && v.worst == SONGPIGEON_CLASS_POA);
    CHECK(v.set == (SONGPIGEON_CLASS_POA | SONGPIGEON_CLASS_CM | SONGPIGEON_CLASS_QOS | SONGPIGEON_CLASS_TNC));
    CHECK(songpigeon_severity(SONGPIGEON_KIND_PAT, 13500001).worst == SONGPIGEON_CLASS_TOA);
    CHECK(songpigeon_severity(SONGPIGEON_KIND_EIT_0, 13500001).worst == SONGPIGEON_CLASS_TNC);
    CHECK(songpigeon_severity(SONGPIGEON_KIND_EIT_1, 162000001).worst == SONGPIGEON_CLASS_QOS);
    CHECK(songpigeon_severity(SONGPIGEON_KIND_EIT_2_3, UINT64_MAX).worst == SONGPIGEON_CLASS_CM);
    CHECK(songpigeon_severity(SONGPIGEON_KIND_STT, 27000000).set == 0);
    CHECK(songpigeon_severity(SONGPIGEON_KIND_STT + 1, 0).refusal == SONGPIGEON_REFUSED_KIND);
}

static int is_laid(songpigeon_laid laid, uint8_t refusal, size_t length) {
    return laid.refusal == refusal && laid.length == length;
}

static void test_data(void) {
    uint8_t fields[SONGPIGEON_FIELDS] = {0};
    uint8_t back[SONGPIGEON_FIELDS];
    uint64_t places[SONGPIGEON_PLACES];
    uint32_t values[SONGPIGEON_VALUES] = {9, 9, 9, 9, 9};
    uint8_t row[64];
    uint8_t section[128];
    static uint8_t long_data[4096];
    size_t n = 0;
    fields[SONGPIGEON_FIELD_SYNTAX_INDICATOR] = 1;
    fields[SONGPIGEON_FIELD_TABLE_ID] = 0x10;
    fields[SONGPIGEON_FIELD_PRIORITY] = 1;
    fields[SONGPIGEON_FIELD_RESERVED] = 7;
    fields[SONGPIGEON_FIELD_USER_DEFINED] = 2;
    fields[SONGPIGEON_FIELD_EXTENSION] = 3;
    fields[SONGPIGEON_FIELD_RESERVED_VERSION] = 3;
    fields[SONGPIGEON_FIELD_VERSION] = 5;
    fields[SONGPIGEON_FIELD_CURRENT_NEXT] = 1;
    fields[SONGPIGEON_FIELD_NUMBER] = 6;
    fields[SONGPIGEON_FIELD_LAST] = 7;
    fields[SONGPIGEON_FIELD_RESERVED_LOOP] = 15;
    /* one descriptor of each kind */
    CHECK(is_laid(songpigeon_testdata_elementary_id(5, 0x0102, row, 3), SONGPIGEON_REFUSED_PLACE, 0));
    CHECK(is_laid(songpigeon_testdata_elementary_id(8, 0x0102, row, 0), SONGPIGEON_REFUSED_UNFIT, 0));
    CHECK(is_laid(songpigeon_testdata_elementary_id(5, 0x0102, row, sizeof row), SONGPIGEON_ACCEPTED, 4));
    n += 4;
    CHECK(is_laid(songpigeon_testdata_gps(1, 0x000102, 0, 0x030405, 0x0607, row + n, sizeof row - n),
                  SONGPIGEON_ACCEPTED, 10));
    CHECK(is_laid(songpigeon_testdata_gps(2, 0, 0, 0, 0, row + n, 0), SONGPIGEON_REFUSED_UNFIT, 0));
    n += 10;
    CHECK(is_laid(songpigeon_testdata_reduced_pcr(0x01020304, row + n, sizeof row - n), SONGPIGEON_ACCEPTED, 6));
    n += 6;
    CHECK(is_laid(songpigeon_testdata_program(0x0102, 3, 0x0103, row + n, sizeof row - n), SONGPIGEON_ACCEPTED, 6));
    CHECK(is_laid(songpigeon_testdata_program(0x0102, 3, 0x2000, row + n, 0), SONGPIGEON_REFUSED_UNFIT, 0));
    n += 6;
    CHECK(is_laid(songpigeon_testdata_other(0x41, (const uint8_t *)"U", 1, row + n, sizeof row - n),
                  SONGPIGEON_ACCEPTED, 3));
    CHECK(is_laid(songpigeon_testdata_other(SONGPIGEON_TAG_GPS, (const uint8_t *)"U", 1, row + n, 0),
                  SONGPIGEON_REFUSED_DESCRIPTOR_SIZE, 0));
    CHECK(is_laid(songpigeon_testdata_other(0x41, long_data, 256, row + n, 0), SONGPIGEON_REFUSED_UNFIT, 0));
    n += 3;
    CHECK(n == 29 &&
          memcmp(row, "\x40\x02\xA1\x02\x45\x08\x80\x01\x02\x03\x04\x05\x06\x07\x46\x04\x01\x02\x03\x04", 20) == 0);
    CHECK(memcmp(row + 20, "\x47\x04\x01\x02\x61\x03\x41\x01U", 9) == 0);
    /* the section there and back */
    CHECK(is_laid(songpigeon_testdata_write(fields, row, n, (const uint8_t *)"xyz", 3, section, sizeof section),
                  SONGPIGEON_ACCEPTED, 14 + n + 3));
    size_t length = 14 + n + 3;
    CHECK(memcmp(section, "\x41\xF0\x2B\x02\x03\xCB\x06\x07\xF0\x1D", 10) == 0);
    CHECK(songpigeon_testdata_read(section, length, back, places) == SONGPIGEON_ACCEPTED);
    CHECK(memcmp(fields, back, sizeof fields) == 0);
    CHECK(places[SONGPIGEON_PLACE_DESCRIPTORS] == 10 && places[SONGPIGEON_PLACE_DESCRIPTORS_LENGTH] == n);
    CHECK(places[SONGPIGEON_PLACE_DATA] == 10 + n && places[SONGPIGEON_PLACE_DATA_LENGTH] == 3);
    /* its descriptors, one after the other */
    size_t end = 10 + n;
    songpigeon_found d = songpigeon_testdata_descriptor(section, length, 10, end, values);
    CHECK(d.refusal == SONGPIGEON_ACCEPTED && d.kind == SONGPIGEON_OF_FIXED && d.tag == SONGPIGEON_TAG_ELEMENTARY_ID);
    CHECK(values[0] == 5 && values[1] == 0x0102 && values[2] == 0 && values[3] == 0 && values[4] == 0);
    d = songpigeon_testdata_descriptor(section, length, d.next, end, values);
    CHECK(d.kind == SONGPIGEON_OF_FIXED && d.tag == SONGPIGEON_TAG_GPS);
    CHECK(values[0] == 1 && values[1] == 0x000102 && values[2] == 0 && values[3] == 0x030405 && values[4] == 0x0607);
    d = songpigeon_testdata_descriptor(section, length, d.next, end, values);
    CHECK(d.kind == SONGPIGEON_OF_FIXED && d.tag == SONGPIGEON_TAG_REDUCED_PCR && values[0] == 0x01020304 &&
          values[1] == 0);
    d = songpigeon_testdata_descriptor(section, length, d.next, end, values);
    CHECK(d.kind == SONGPIGEON_OF_FIXED && d.tag == SONGPIGEON_TAG_PROGRAM);
    CHECK(values[0] == 0x0102 && values[1] == 3 && values[2] == 0x0103 && values[3] == 0);
    d = songpigeon_testdata_descriptor(section, length, d.next, end, values);
    CHECK(d.kind == SONGPIGEON_OF_OTHER && d.tag == 0x41 && d.length == 1 && section[d.at] == 'U' &&
          values[0] == 0x0102);
    d = songpigeon_testdata_descriptor(section, length, d.next, end, values);
    CHECK(d.refusal == SONGPIGEON_ACCEPTED && d.kind == SONGPIGEON_NO_MORE && d.next == end);
    d = songpigeon_testdata_descriptor(section, length, end, end + 1, values);
    CHECK(d.refusal == SONGPIGEON_REFUSED_UNFIT && d.kind == SONGPIGEON_NO_MORE && d.next == end);
    d = songpigeon_testdata_descriptor((const uint8_t *)"\x40\x03\0\0\0", 5, 0, 5, values);
    CHECK(d.refusal == SONGPIGEON_REFUSED_DESCRIPTOR_SIZE);
    d = songpigeon_testdata_descriptor(section, length, SIZE_MAX, SIZE_MAX, values);
    CHECK(d.refusal == SONGPIGEON_REFUSED_UNFIT && values[0] == 0x0102);
    /* refusals */
    CHECK(songpigeon_testdata_read(section, length - 1, back, places) == SONGPIGEON_REFUSED_LENGTH);
    section[length - 1] ^= 1;
    CHECK(songpigeon_testdata_read(section, length, back, places) == SONGPIGEON_REFUSED_CRC);
    CHECK(is_laid(songpigeon_testdata_write(fields, row, n, long_data, 0, section, 13), SONGPIGEON_REFUSED_PLACE, 0));
    CHECK(is_laid(songpigeon_testdata_write(fields, row, n, long_data, sizeof long_data, section, 0),
                  SONGPIGEON_REFUSED_UNFIT, 0));
    /* an indicator of 2 is too wide for its field; a descriptor of another size comes before it */
    fields[SONGPIGEON_FIELD_SYNTAX_INDICATOR] = 2;
    memset(section, 0xEE, sizeof section);
    CHECK(is_laid(songpigeon_testdata_write(fields, row, n, long_data, 0, section, sizeof section),
                  SONGPIGEON_REFUSED_UNFIT, 0));
    CHECK(is_laid(
        songpigeon_testdata_write(fields, (const uint8_t *)"\x40\x03", 2, long_data, 0, section, sizeof section),
        SONGPIGEON_REFUSED_DESCRIPTOR_SIZE, 0));
    CHECK(section[0] == 0xEE && section[127] == 0xEE);
    fields[SONGPIGEON_FIELD_SYNTAX_INDICATOR] = 0;
    CHECK(is_laid(songpigeon_testdata_write(fields, row, 0, (const uint8_t *)"xyz", 3, section, sizeof section),
                  SONGPIGEON_ACCEPTED, 6));
    CHECK(is_laid(songpigeon_testdata_write(fields, row, 4, long_data, 0, section, sizeof section),
                  SONGPIGEON_REFUSED_UNFIT, 0));
    /* the longest section and the longest descriptor */
    static uint8_t longest[SONGPIGEON_SECTION];
    CHECK(is_laid(songpigeon_testdata_write(fields, row, 0, long_data, sizeof long_data - 3, longest, sizeof longest),
                  SONGPIGEON_ACCEPTED, SONGPIGEON_SECTION));
    CHECK(is_laid(songpigeon_testdata_write(fields, row, 0, long_data, sizeof long_data - 2, longest, sizeof longest),
                  SONGPIGEON_REFUSED_UNFIT, 0));
    CHECK(is_laid(songpigeon_testdata_other(0x41, long_data, 255, longest, SONGPIGEON_DESCRIPTOR), SONGPIGEON_ACCEPTED,
                  SONGPIGEON_DESCRIPTOR));
}

/* ---- The stack: calls on one that is painted first. */
enum { STACK = 1 << 20, PAINT = 0xC5 };

static ucontext_t outside;
static ucontext_t inside;

/* The calls that go deepest: programme lists that move half-built sections, everything late at once, test data. */
static void deepest_calls(void) {
    static uint8_t packet[SONGPIGEON_PACKET];
    static uint8_t payload[184];
    songpigeon_card_open(&card, 0);
    for (unsigned round = 0; round < 8; round++) {
        /* a half-built section of a programme moves to another place, then a new list in every round */
        make(packet, 1, 0, round, payload, make_pat(payload, 16, 1 + 3 * round));
        songpigeon_card_packet(&card, 1 + round, packet, SONGPIGEON_PACKET);
        make(packet, 1, 0x0104 + 3 * round, 0, (const uint8_t *)"\0\2\xB3\xFD", 4);
        songpigeon_card_packet(&card, 1 + round, packet, SONGPIGEON_PACKET);
        songpigeon_card_clock(&card, 900000000);
        songpigeon_card_open(&card, 1 + round);
    }
    songpigeon_card_clock(&card, 900000000);
    severities();
    test_data();
}

static void stack(void) {
    uint8_t *bytes = malloc(STACK);
    CHECK(bytes != NULL);
    memset(bytes, PAINT, STACK);
    getcontext(&inside);
    inside.uc_stack.ss_sp = bytes;
    inside.uc_stack.ss_size = STACK;
    inside.uc_link = &outside;
    makecontext(&inside, deepest_calls, 0);
    swapcontext(&outside, &inside);
    size_t untouched = 0;
    while (untouched < STACK && bytes[untouched] == PAINT) {
        untouched++;
    }
    free(bytes);
    printf("stack used: %zu bytes of the %d that the header states\n", (size_t)STACK - untouched, SONGPIGEON_STACK);
    CHECK((size_t)STACK - untouched <= SONGPIGEON_STACK);
    CHECK((size_t)STACK - untouched > 1024); /* else nothing was measured */
}

/* ---- Two cards in two threads come to what one after the other does. */
static void *work(void *place) {
    songpigeon_card *mine = place;
    uint8_t packet[SONGPIGEON_PACKET];
    uint8_t payload[184];
    uint64_t seed = mine->times[SONGPIGEON_AT_LATEST];
    songpigeon_card_open(mine, 0);
    for (uint64_t time = 1; time < 200000; time++) {
        seed = seed * UINT64_C(6364136223846793005) + 1;
        if (seed >> 60 == 0) {
            make(packet, 1, 0, (unsigned)(seed >> 56 & 15), payload,
                 make_pat(payload, 16, (unsigned)(seed >> 40 & 31)));
        } else {
            make(packet, 0, (unsigned)(seed >> 50 & 0x1FFF), (unsigned)(seed >> 40 & 15), payload, 0);
        }
        songpigeon_card_packet(mine, time * 5000, packet, SONGPIGEON_PACKET);
    }
    return NULL;
}

static void threads(void) {
    static songpigeon_card alone[2];
    static songpigeon_card beside[2];
    pthread_t running[2];
    for (int k = 0; k < 2; k++) {
        alone[k].times[SONGPIGEON_AT_LATEST] = beside[k].times[SONGPIGEON_AT_LATEST] = (uint64_t)k + 1;
        work(&alone[k]);
    }
    for (int k = 0; k < 2; k++) {
        CHECK(pthread_create(&running[k], NULL, work, &beside[k]) == 0);
    }
    for (int k = 0; k < 2; k++) {
        CHECK(pthread_join(running[k], NULL) == 0);
        CHECK(memcmp(&alone[k], &beside[k], sizeof alone[k]) == 0);
    }
    CHECK(memcmp(&alone[0], &alone[1], sizeof alone[0]) != 0);
}

int main(void) {
    calls();
    severities();
    test_data();
    stack();
    threads();
    printf("%d passed, %d failed\n", checks - failed, failed);
    return failed != 0;
}
