/* Songpigeon for hosts in C and C++: what a probe card judges of an MPEG-2 transport stream, and the test data sections of
 * DVB A046. C99 or C++. Link libsongpigeon.a, for x86-64 Linux (`pkg-config --libs songpigeon`).
 *
 * Two ways to call it. `songpigeon_card` holds all memory that a card needs, and the functions over it cannot be given an
 * array that is too short. The functions below it take each array apart, for hosts that keep the memory elsewhere.
 *
 * What is asked of a host: no pointer is null, not with length 0 either (songpigeon_card_packet alone takes a null packet,
 * and refuses it); each is aligned for its type and good for the whole call; memory that is written overlaps nothing else of
 * the call; and SONGPIGEON_STACK bytes of stack are left. Everything else is answered, whatever the bytes hold: a bad call is
 * refused by its number, and then nothing that was lent is written.
 *
 * There is no hidden state: a call reads and writes what it is lent and nothing else, allocates nothing and waits for
 * nothing. So calls on different cards may run in different threads at the same time; two calls on one card may not.
 *
 * Times are ticks of 27 MHz, 0 to 2^62.
 */
#ifndef SONGPIGEON_H
#define SONGPIGEON_H

#include <stddef.h>
#include <stdint.h>

#ifdef __cplusplus
extern "C" {
#endif

/* The version of this header, major * 10000 + minor * 100 + patch. The major one moves where lent memory or a call's shape
 * does: a host that was compiled with another one than songpigeon_version() has must not call. */
#define SONGPIGEON_VERSION_MAJOR 2
#define SONGPIGEON_VERSION_MINOR 0
#define SONGPIGEON_VERSION_PATCH 0
#define SONGPIGEON_VERSION                                                                                             \
    (SONGPIGEON_VERSION_MAJOR * 10000 + SONGPIGEON_VERSION_MINOR * 100 + SONGPIGEON_VERSION_PATCH)

/* The version of the library. */
uint32_t songpigeon_version(void);

/* Sizes. */
enum {
    SONGPIGEON_PACKET = 188,
    SONGPIGEON_TIMES = 22,      /* latest time and gap starts, see SONGPIGEON_AT_LATEST */
    SONGPIGEON_WORDS = 56,      /* the list, half-built lengths and sync, see SONGPIGEON_AT_NUMBERS */
    SONGPIGEON_COUNTERS = 8192, /* one byte for each PID */
    SONGPIGEON_MEMORY = 24576,  /* half-built sections */
    SONGPIGEON_EVENTS = 96,     /* the least room for events; a call has at most 87 */
    SONGPIGEON_WIDTH = 4,       /* the numbers of an event: stamp, fault, cause, id */
    /* the events of a call as numbers */
    SONGPIGEON_NUMBERS = SONGPIGEON_WIDTH * SONGPIGEON_EVENTS,
    SONGPIGEON_FIELDS = 12,      /* the fields of a test data section, one byte each */
    SONGPIGEON_PLACES = 4,       /* descriptors at, length; data at, length */
    SONGPIGEON_VALUES = 5,       /* the numbers of a descriptor of fixed size, at most */
    SONGPIGEON_SECTION = 4096,   /* a test data section, at most */
    SONGPIGEON_DESCRIPTOR = 257, /* a descriptor, at most */
    SONGPIGEON_STACK = 65536     /* what a call needs of stack, at most */
};

/* Where the numbers of a state stand in its two arrays. A number that is new stands behind all of them. */
enum {
    SONGPIGEON_AT_LATEST = 0,  /* in the times: the latest accepted time */
    SONGPIGEON_AT_GAPS = 1,    /* gap starts of PAT, NIT, SDT, EIT and TDT */
    SONGPIGEON_AT_SINCES = 6,  /* those of the sixteen places of the list */
    SONGPIGEON_AT_NUMBERS = 0, /* in the words: programme numbers of the sixteen places of the list */
    SONGPIGEON_AT_PIDS = 16,   /* their PIDs */
    SONGPIGEON_AT_HALVES = 32, /* half-built lengths, one for each room */
    SONGPIGEON_AT_LOST = 53,   /* not 0: sync is lost */
    SONGPIGEON_AT_RUN = 54,    /* the run of wrong sync bytes; while sync is lost, of right ones */
    SONGPIGEON_AT_COUNT = 55   /* how many programmes are listed */
};

/* Why a call is refused; 0: it is accepted. Where several hold, the lowest is given; test data sections have an order of
 * their own. */
enum {
    SONGPIGEON_ACCEPTED = 0,
    SONGPIGEON_REFUSED_PACKET = 1,   /* the packet is not 188 bytes */
    SONGPIGEON_REFUSED_COUNTERS = 2, /* the counter table is not 8,192 bytes */
    SONGPIGEON_REFUSED_EVENTS = 3,   /* the event list has room for fewer than SONGPIGEON_EVENTS */
    SONGPIGEON_REFUSED_TIME = 4,     /* the time is above 2^62 */
    SONGPIGEON_REFUSED_STATE = 5,    /* the state, or the packet's table byte, is none that calls leave */
    SONGPIGEON_REFUSED_ORDER = 6,    /* the time is below the latest accepted one */
    SONGPIGEON_REFUSED_KIND = 7,     /* severity is asked for a kind that is not listed */
    SONGPIGEON_REFUSED_LINE = 8,     /* a malformed line; by the program `tsevents` alone */
    SONGPIGEON_REFUSED_LENGTH = 11,  /* not the length that the section gives, below its fixed fields or too long */
    SONGPIGEON_REFUSED_CRC = 12,     /* CRC_32 */
    SONGPIGEON_REFUSED_UNFIT = 13,   /* runs past its end; written: too long, or a number too wide for its field */
    SONGPIGEON_REFUSED_DESCRIPTOR_SIZE = 14, /* a descriptor of fixed size has another */
    SONGPIGEON_REFUSED_PLACE = 15            /* the lent place is too short */
};

/* Faults, by Table A.3 of DVB A046, with their indicators of TR 101 290. */
enum {
    SONGPIGEON_FAULT_NIT = 0x0001,        /* NIT_error, 3.1.a */
    SONGPIGEON_FAULT_SDT = 0x0002,        /* SDT_error, 3.5.a */
    SONGPIGEON_FAULT_EIT = 0x0004,        /* EIT_error, 3.6 */
    SONGPIGEON_FAULT_TDT = 0x0008,        /* TDT_error, 3.8 */
    SONGPIGEON_FAULT_PAT = 0x0009,        /* PAT_error, 1.3 */
    SONGPIGEON_FAULT_SYNC_LOSS = 0x000C,  /* TS_sync_loss, 1.1 */
    SONGPIGEON_FAULT_SYNC_BYTE = 0x000D,  /* Sync_byte_error, 1.2 */
    SONGPIGEON_FAULT_CONTINUITY = 0x000E, /* Continuity_count_error, 1.4 */
    SONGPIGEON_FAULT_PMT = 0x000F,        /* PMT_error, 1.5 */
    SONGPIGEON_FAULT_TRANSPORT = 0x0011,  /* Transport_error, 2.1 */
    SONGPIGEON_FAULT_CRC = 0x0012         /* CRC_error, 2.2 */
};

/* What parts the ways to one fault. */
enum {
    SONGPIGEON_CAUSE_NONE = 0,
    SONGPIGEON_CAUSE_LATE = 1,       /* a gap longer than its limit; stamped at its start plus the limit */
    SONGPIGEON_CAUSE_FOREIGN = 2,    /* a table that does not belong on this PID */
    SONGPIGEON_CAUSE_SCRAMBLED = 3,  /* a packet that must not be scrambled */
    SONGPIGEON_CAUSE_NOT_ALLOWED = 4 /* a programme list or a section_length that is not allowed */
};

/* The id is the PID; of a late PMT it is the programme number. */
typedef struct {
    uint64_t stamp;
    uint16_t fault;
    uint8_t cause;
    uint16_t id;
} songpigeon_event;

/* refusal 0: accepted, with n events */
typedef struct {
    uint32_t refusal;
    size_t n;
} songpigeon_reply;

/* ---- A card: all memory that it needs. Any contents serve before its opening; all zeros are an opening at time 0. */
typedef struct {
    uint64_t times[SONGPIGEON_TIMES];
    uint16_t words[SONGPIGEON_WORDS];
    uint8_t counters[SONGPIGEON_COUNTERS];
    uint8_t memory[SONGPIGEON_MEMORY];
    uint64_t numbers[SONGPIGEON_NUMBERS];       /* what the last call worked its events out in */
    songpigeon_event events[SONGPIGEON_EVENTS]; /* those of the last call: the first n */
} songpigeon_card;

/* ---- The calls over each array. Those without a length beside them have the length that stands in their brackets.
 *
 * `numbers` is where a call works its events out. Any contents serve before a call, and the next call needs none of them.
 * After a call it holds the call's events from the first place on, four numbers to an event: stamp, fault, cause, id. The
 * others are as they were. */

/* Opens at a time: writes the state of an opening, and sets the counter table to 0. Refusals 2 and 4. */
songpigeon_reply songpigeon_open(uint64_t times[SONGPIGEON_TIMES], uint16_t words[SONGPIGEON_WORDS], uint64_t time,
                                 uint8_t *counters, size_t counters_length);

/* Judges a packet. Refusals 1 to 6. */
songpigeon_reply songpigeon_packet(uint64_t times[SONGPIGEON_TIMES], uint16_t words[SONGPIGEON_WORDS], uint64_t time,
                                   const uint8_t *packet, size_t packet_length, uint8_t *counters,
                                   size_t counters_length, uint8_t memory[SONGPIGEON_MEMORY],
                                   uint64_t numbers[SONGPIGEON_NUMBERS], songpigeon_event *events,
                                   size_t events_length);

/* Lets time pass without a packet. Refusals 3 to 6. */
songpigeon_reply songpigeon_clock(uint64_t times[SONGPIGEON_TIMES], uint16_t words[SONGPIGEON_WORDS], uint64_t time,
                                  const uint8_t memory[SONGPIGEON_MEMORY], uint64_t numbers[SONGPIGEON_NUMBERS],
                                  songpigeon_event *events, size_t events_length);

/* ---- The calls over a card. */

/* Opens at a time. Refusal 4. */
static inline songpigeon_reply songpigeon_card_open(songpigeon_card *card, uint64_t time) {
    return songpigeon_open(card->times, card->words, time, card->counters, SONGPIGEON_COUNTERS);
}

/* Judges a packet: its events are the first n of card->events, late ones first. Refusals 1, 4, 6; 5 where the card's memory
 * was written by others. A null packet has no bytes. */
static inline songpigeon_reply songpigeon_card_packet(songpigeon_card *card, uint64_t time, const uint8_t *packet,
                                                      size_t packet_length) {
    static const uint8_t nothing[1] = {0};
    return songpigeon_packet(card->times, card->words, time, packet != NULL ? packet : nothing,
                             packet != NULL ? packet_length : 0, card->counters, SONGPIGEON_COUNTERS, card->memory,
                             card->numbers, card->events, SONGPIGEON_EVENTS);
}

/* Lets time pass without a packet: what became late. Refusals 4, 6; 5 as above. */
static inline songpigeon_reply songpigeon_card_clock(songpigeon_card *card, uint64_t time) {
    return songpigeon_clock(card->times, card->words, time, card->memory, card->numbers, card->events,
                            SONGPIGEON_EVENTS);
}

/* ---- Severity of a gap in ticks, by A/78. */
enum {
    SONGPIGEON_KIND_PAT = 0,
    SONGPIGEON_KIND_PMT = 1,
    SONGPIGEON_KIND_EIT_0 = 2,
    SONGPIGEON_KIND_EIT_1 = 3,
    SONGPIGEON_KIND_EIT_2_3 = 4,
    SONGPIGEON_KIND_STT = 5
};

enum {
    SONGPIGEON_CLASS_TNC = 1, /* technically not conformant */
    SONGPIGEON_CLASS_QOS = 2, /* quality of service */
    SONGPIGEON_CLASS_CM = 4,  /* component missing */
    SONGPIGEON_CLASS_POA = 8, /* programme off air */
    SONGPIGEON_CLASS_TOA = 16 /* transport stream off air */
};

/* the set of classes, how many they are, and the worst of them */
typedef struct {
    uint32_t refusal;
    uint32_t set;
    uint32_t number;
    uint32_t worst;
} songpigeon_verdict;

/* Refusal 7. */
songpigeon_verdict songpigeon_severity(size_t kind, uint64_t gap);

/* ---- Test data sections of DVB A046. */

/* The twelve fields of Table 1, a byte each and in this order, with their bits. The last eight are of a section whose
 * section_syntax_indicator is 1; of others they are read as 0 and not looked at when written. */
enum {
    SONGPIGEON_FIELD_SYNTAX_INDICATOR = 0, /* 1 */
    SONGPIGEON_FIELD_TABLE_ID = 1,         /* 6 */
    SONGPIGEON_FIELD_PRIORITY = 2,         /* 2 */
    SONGPIGEON_FIELD_RESERVED = 3,         /* 3, before the section's length */
    SONGPIGEON_FIELD_USER_DEFINED = 4,     /* 8 */
    SONGPIGEON_FIELD_EXTENSION = 5,        /* 8 */
    SONGPIGEON_FIELD_RESERVED_VERSION = 6, /* 2, before version_number */
    SONGPIGEON_FIELD_VERSION = 7,          /* 5 */
    SONGPIGEON_FIELD_CURRENT_NEXT = 8,     /* 1 */
    SONGPIGEON_FIELD_NUMBER = 9,           /* 8, section_number */
    SONGPIGEON_FIELD_LAST = 10,            /* 8, last_section_number */
    SONGPIGEON_FIELD_RESERVED_LOOP = 11    /* 4, before descriptors_length */
};

/* The places that a reading gives: where descriptors and data stand in the section. */
enum {
    SONGPIGEON_PLACE_DESCRIPTORS = 0,
    SONGPIGEON_PLACE_DESCRIPTORS_LENGTH = 1,
    SONGPIGEON_PLACE_DATA = 2,
    SONGPIGEON_PLACE_DATA_LENGTH = 3
};

/* refusal 0: written, so many bytes at the front of the place; those behind them are as they were */
typedef struct {
    uint8_t refusal;
    size_t length;
} songpigeon_laid;

/* Reads a section: its fields, and where its descriptors and data stand. Refusals 11 to 14, given back as the number; 0 where it
 * was read. */
uint8_t songpigeon_testdata_read(const uint8_t *section, size_t section_length, uint8_t fields[SONGPIGEON_FIELDS],
                                 uint64_t places[SONGPIGEON_PLACES]);

/* Writes a section of its fields, the bytes of its descriptors and its data; lengths and CRC_32 are worked out. A section
 * whose indicator is 0 has no descriptors: any are unfit, 13. A place of SONGPIGEON_SECTION bytes is never too short.
 * Refusals 14, 13, 15 in this order. */
songpigeon_laid songpigeon_testdata_write(const uint8_t fields[SONGPIGEON_FIELDS], const uint8_t *descriptors,
                                          size_t descriptors_length, const uint8_t *data, size_t data_length,
                                          uint8_t *place, size_t place_length);

/* ---- Descriptors of a section, one after the other. */

/* Tags of the descriptors of fixed size (Table 4), and their numbers in `values`. */
enum {
    SONGPIGEON_TAG_ELEMENTARY_ID = 0x40, /* id_type (3 bits), PID (13) */
    SONGPIGEON_TAG_GPS = 0x45, /* north_south (1), latitude (23), east_west (1), longitude (23), elevation (16) */
    SONGPIGEON_TAG_REDUCED_PCR = 0x46, /* base (32) */
    SONGPIGEON_TAG_PROGRAM = 0x47      /* number (16), reserved (3), PID (13) */
};

enum {
    SONGPIGEON_NO_MORE = 0,  /* the end; or a refusal */
    SONGPIGEON_OF_FIXED = 1, /* a descriptor of fixed size: its numbers are in `values`; `at` and `length` are 0 */
    SONGPIGEON_OF_OTHER = 2  /* another one: its body stands at `at` */
};

/* what stands at a place, and the next place */
typedef struct {
    uint8_t refusal;
    uint8_t kind;
    uint8_t tag;
    size_t at;
    size_t length;
    size_t next;
} songpigeon_found;

/* What stands at a place among descriptors that end at another: begin at places[0], end at places[0] + places[1], and go on
 * from `next`. The values are written for a descriptor of fixed size alone, in the order above and 0 behind them. Refusals 13
 * and 14. */
songpigeon_found songpigeon_testdata_descriptor(const uint8_t *bytes, size_t bytes_length, size_t at, size_t end,
                                                uint32_t values[SONGPIGEON_VALUES]);

/* Writers of one descriptor, for the bytes that songpigeon_testdata_write is lent. A place of SONGPIGEON_DESCRIPTOR bytes is
 * never too short. Refusals 13, then 15. */
songpigeon_laid songpigeon_testdata_elementary_id(uint8_t id_type, uint16_t pid, uint8_t *place, size_t place_length);
songpigeon_laid songpigeon_testdata_gps(uint8_t north_south, uint32_t latitude, uint8_t east_west, uint32_t longitude,
                                        uint16_t elevation, uint8_t *place, size_t place_length);
songpigeon_laid songpigeon_testdata_reduced_pcr(uint32_t base, uint8_t *place, size_t place_length);
songpigeon_laid songpigeon_testdata_program(uint16_t number, uint8_t reserved, uint16_t pid, uint8_t *place,
                                            size_t place_length);

/* The same for any tag, with its body as it is. Refusals 14, 13, 15 in this order. */
songpigeon_laid songpigeon_testdata_other(uint8_t tag, const uint8_t *body, size_t body_length, uint8_t *place,
                                          size_t place_length);

#ifdef __cplusplus
}
#endif

#endif
