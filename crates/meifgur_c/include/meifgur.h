/*
 * Meifgur: the alarm part of a tyre receiver, as proved calls.
 *
 * Link target/staticlib/libmeifgur_c.a (`host/archive.sh meifgur_c` writes it; x86-64-v2). It needs memcpy and memset
 * and nothing else. The contracts behind these calls stand in crates/meifgur_c/src, the definitions that they cite in
 * crates/meifgur_c/specs: every result, and every byte and word of each lent buffer, for input of any length and content.
 *
 *   static struct meifgur_bank bank;
 *   meifgur_load(&bank, image, image_length, &loaded);
 *   meifgur_scan(&bank, record, record_length, events, sizeof events, &scanned);   for each record, as it comes
 *   meifgur_report(&bank, 1, report, &reported);                                   whenever somebody asks
 *
 * State: a bank is the words of a struct meifgur_bank, which the caller keeps; nothing else is kept between calls.
 * Nothing is allocated, no file, clock or lock is touched. How much stack the calls use stands below, as measured.
 *
 * Memory: the caller owns every buffer and lends it for the call; no pointer is kept. A length counts elements: bytes of
 * a uint8_t buffer, words of a uint64_t buffer. A pointer must not be NULL, not even with length 0. A buffer that is
 * written must overlap no other buffer of the same call. A call touches nothing outside the lengths given.
 *
 * A bank's words: nothing but these calls may write them, and no two calls may run on one bank at once, unless both only
 * read it (report, write). Calls on different banks and buffers may run at the same time. The words hold no pointer, so
 * that they may be copied, and saved as plain bytes: a bank restored from them, anywhere, goes on where it was. Bytes go
 * back as they came, in the order of bytes in which they were saved.
 * Damaged words are safe: a call on them ends and touches nothing but what it may. But they mean some bank, and not the
 * one that was saved; keep a checksum beside them if the store may fail. Only a wrong length and a wrong layout word are
 * seen (42), so a struct of zeros is no bank before the first load.
 *
 * Multi-byte numbers in buffers of bytes are little-endian. Times are milliseconds. Alarms are numbered from 1, the
 * digital ones first. The words of a bank and of an answer are numbers of the host.
 *
 * Settings image, at most 842 bytes: count of digital alarms (0 to 12), 9 bytes for each, count of analog alarms (0 to
 * 12), 61 bytes for each.
 *   digital  flags (bit 0 Condition, 1 AckRequired, 2 Latched), Severity (4), MinDuration (4)
 *   analog   flags (bits 0 to 3 HH, H, L, LL enabled, 4 AckRequired), six Severities of 4 bytes (HH, H, L, LL, ROCPos,
 *            ROCNeg), REALs HH, H, L, LL, Deadband, ROCPosLimit, ROCNegLimit, then ROCPeriod (4), MinDuration (4)
 * An image of no bytes means the factory bank: twelve digital alarms with Condition and AckRequired, Severity 500,
 * MinDuration 0. It is written out in full, in 110 bytes; every other image is written as it was read.
 *
 * Scan record, meifgur_record_length(digital, analog) bytes: time (8), then for each alarm its reading (digital: one
 * byte, 0 or 1; analog: a REAL) and a command word (4).
 *
 * Event, 16 bytes:
 *   0 alarm   1 condition (0 digital, 1 to 6 HH, H, L, LL, ROCPos, ROCNeg, 7 whole alarm)
 *   2 kind (1 disabled, 2 enabled, 3 suppressed, 4 unsuppressed, 5 count reset, 6 acknowledged, 7 returned, 8 activated)
 *   3 suppressed (0 or 1)   4..6 acting severity   6..8 zero   8..16 time of the scan
 *
 * Report of an alarm, 224 bytes:
 *   0 enabled   1 suppressed   2 InFaulted   3 SeverityInv (each 0 or 1)   4..8 rate, a REAL (0 for digital)
 *   8..16 count reset stamp   16..24 elapsed run (analog: of the high side)   24..32 elapsed run of the low side
 *   then six conditions of 32 bytes: HH, H, L, LL, ROCPos, ROCNeg; a digital alarm has the first only, the rest are 0:
 *   0 in alarm   1 acknowledged   2..4 zero   4..8 count   8..16 alarm stamp   16..24 ack stamp   24..32 return stamp
 */
#ifndef MEIFGUR_H
#define MEIFGUR_H

#include <stddef.h>
#include <stdint.h>

#ifdef __cplusplus
extern "C" {
#endif

/* Sizes as constants, for buffers. meifgur_sizes_agree below compares them with the archive's: ask it once. */
#define MEIFGUR_VERSION 3u
#define MEIFGUR_ALARMS_MOST 24u     /* 12 of each kind */
#define MEIFGUR_IMAGE_MOST 842u     /* bytes of the longest settings image */
#define MEIFGUR_EVENT_SIZE 16u      /* bytes of an event record */
#define MEIFGUR_EVENTS_ENOUGH 3840u /* bytes of events that always suffice for one scan */
#define MEIFGUR_REPORT_SIZE 224u    /* bytes of an alarm's report */
#define MEIFGUR_SETTINGS_WORDS 292u /* words of a bank's three blocks */
#define MEIFGUR_STATES_WORDS 580u
#define MEIFGUR_MARKS_WORDS 900u
#define MEIFGUR_LOAD_ANSWER 4u      /* words of each call's answer */
#define MEIFGUR_SCAN_ANSWER 3u
#define MEIFGUR_REPORT_ANSWER 2u
#define MEIFGUR_WRITE_ANSWER 3u
#define MEIFGUR_REPLAY_ANSWER 5u

/*
 * Bytes of stack, measured on a full bank and rounded up (host/c/stack.c measures them). A scan whose event buffer might be
 * too short runs on copies, and uses what SCAN_SHORT says. REPLAY is of the longer of the two ways.
 */
#define MEIFGUR_LOAD_STACK 6144u
#define MEIFGUR_SCAN_STACK 1024u
#define MEIFGUR_SCAN_SHORT_STACK 17408u
#define MEIFGUR_REPORT_STACK 1024u
#define MEIFGUR_WRITE_STACK 1024u
#define MEIFGUR_REPLAY_STACK 17408u

/* What a call returns: 0, one of these three, or the number of a refusal (below). */
#define MEIFGUR_OK 0u
#define MEIFGUR_ANSWER_SHORT 40u /* `answer` has too few words */
#define MEIFGUR_REPORT_SHORT 41u /* `report` has fewer than 224 bytes */
#define MEIFGUR_NO_BANK 42u      /* a block has another length, or no call wrote its layout: 0 settings, 1 states, 2 marks */

/*
 * Refusals: number, and what its place is.
 *   settings  1 byte or record missing (never of an image of no bytes), 2 count over 12: its offset
 *             3 unknown flag, 4 number outside its range, 5 limits or Deadband rule: the record's offset
 *             6 bytes left over: the first of them
 *   record    7 length wrong, 8 time earlier than that of the last accepted record: 0
 *             9 digital byte not 0 or 1, 10 REAL bad, 11 command bit that its kind lacks: the alarm
 *             12 event buffer too short for this record's events: 0
 *   writing   13 buffer shorter than the image: 0
 *   report    14 no such alarm: 0
 *
 * A refused call says in its answer why and leaves every byte lent as it was, and every word of the bank, unless it is a
 * refused image (see meifgur_load_words); 40 and 41 leave the answer too. Where several refusals apply, 40 comes first,
 * then 41, then 42. Words behind an answer's own stay.
 */

/* A bank of alarms. It is large: keep it static or within a struct of your own. Leave its words to the calls. */
struct meifgur_bank {
    uint64_t settings[MEIFGUR_SETTINGS_WORDS];
    uint64_t states[MEIFGUR_STATES_WORDS];
    uint64_t marks[MEIFGUR_MARKS_WORDS];
};

/* The answers. `number` is 0, or the number of the refusal with its place; what follows these two is 0 then. */
struct meifgur_loaded {
    uint64_t number;
    uint64_t place;
    uint64_t digital; /* alarms of each kind */
    uint64_t analog;
};

struct meifgur_scanned {
    uint64_t number;
    uint64_t place;
    uint64_t events; /* how many were written */
};

struct meifgur_reported {
    uint64_t number;
    uint64_t place;
};

struct meifgur_written {
    uint64_t number;
    uint64_t place;
    uint64_t length; /* bytes of the image */
};

/* Of a replay: `number`, `place` and `index` (from 0) are those of the first refused record, or 0. */
struct meifgur_replayed {
    uint64_t events;  /* how many were written */
    uint64_t refused; /* how many records were refused */
    uint64_t number;
    uint64_t place;
    uint64_t index;
};

/*
 * The calls of the archive, by blocks: settings, states, marks, each with its number of words. With a struct meifgur_bank
 * use meifgur_load, meifgur_scan and so on further below, which pass its blocks.
 */

/*
 * Makes the words a bank of a settings image's alarms, before their first scan, whatever the words held. A length of 0
 * makes them the factory bank. A refused image makes them a bank without alarms, and its refusal is returned.
 *
 * answer: number, place, digital, analog. Returns 0, 1 to 6, 40, or 42 for a wrong length.
 */
uint32_t meifgur_load_words(const uint8_t *image, size_t image_length,
                            uint64_t *settings, size_t settings_words,
                            uint64_t *states, size_t states_words,
                            uint64_t *marks, size_t marks_words,
                            uint64_t *answer, size_t answer_words);

/*
 * Runs one record as a scan. `events` gets event records from its front on; the bytes behind them stay. With 3840 bytes
 * it is never too short.
 *
 * answer: number, place, events. Returns 0, 7 to 12, 40 or 42.
 */
uint32_t meifgur_scan_words(const uint64_t *settings, size_t settings_words,
                            uint64_t *states, size_t states_words,
                            uint64_t *marks, size_t marks_words,
                            const uint8_t *record, size_t record_length,
                            uint8_t *events, size_t events_length,
                            uint64_t *answer, size_t answer_words);

/*
 * Writes the report of alarm `alarm` to the front of `report`; the bytes behind it stay.
 *
 * answer: number, place. Returns 0, 14, 40, 41 or 42.
 */
uint32_t meifgur_report_words(const uint64_t *settings, size_t settings_words,
                              const uint64_t *states, size_t states_words,
                              const uint64_t *marks, size_t marks_words,
                              size_t alarm,
                              uint8_t *report, size_t report_length,
                              uint64_t *answer, size_t answer_words);

/*
 * Writes the bank's settings image to the front of `out`: the image that was loaded. The bytes behind it stay.
 *
 * answer: number, place, length. Returns 0, 13, 40 or 42.
 */
uint32_t meifgur_write_words(const uint64_t *settings, size_t settings_words,
                             uint8_t *out, size_t out_length,
                             uint64_t *answer, size_t answer_words);

/*
 * Runs each record of `records` as a scan, one after the other.
 *
 * `records` is cut into records of meifgur_record_length bytes; a shorter rest is one more record, which is refused (7).
 * A refused record changes nothing and is passed over. So is one whose events don't fit into what is left of `events`
 * (12); 3840 bytes for each record always suffice. `events` gets the events of all, from its front on; the bytes behind
 * them stay.
 *
 * answer: events, refused, and of the first refused record number, place and index. Returns 0, with refused records too;
 * 40; or 42, which is then the answer's number, with its place, and the other three are 0.
 */
uint32_t meifgur_replay_words(const uint64_t *settings, size_t settings_words,
                              uint64_t *states, size_t states_words,
                              uint64_t *marks, size_t marks_words,
                              const uint8_t *records, size_t records_length,
                              uint8_t *events, size_t events_length,
                              uint64_t *answer, size_t answer_words);

/* Bytes of a scan record for so many alarms of each kind: 8 + 5 * digital + 8 * analog; 8 if one of them is over 12. */
size_t meifgur_record_length(size_t digital, size_t analog);

uint32_t meifgur_version(void);
uint32_t meifgur_event_size(void);
uint32_t meifgur_events_enough(void);
uint32_t meifgur_image_most(void);
uint32_t meifgur_report_size(void);
uint32_t meifgur_settings_words(void);
uint32_t meifgur_states_words(void);
uint32_t meifgur_marks_words(void);

/* Whether the archive has this header's version and sizes. */
static inline int meifgur_sizes_agree(void)
{
    return meifgur_version() == MEIFGUR_VERSION && meifgur_event_size() == MEIFGUR_EVENT_SIZE &&
           meifgur_events_enough() == MEIFGUR_EVENTS_ENOUGH && meifgur_image_most() == MEIFGUR_IMAGE_MOST &&
           meifgur_report_size() == MEIFGUR_REPORT_SIZE && meifgur_settings_words() == MEIFGUR_SETTINGS_WORDS &&
           meifgur_states_words() == MEIFGUR_STATES_WORDS && meifgur_marks_words() == MEIFGUR_MARKS_WORDS;
}

/* The calls above on a struct meifgur_bank. An answer's fields are the words that the call writes, in their order. */

static inline uint32_t meifgur_load(struct meifgur_bank *bank, const uint8_t *image, size_t image_length,
                                    struct meifgur_loaded *answer)
{
    return meifgur_load_words(image, image_length, bank->settings, MEIFGUR_SETTINGS_WORDS, bank->states,
                              MEIFGUR_STATES_WORDS, bank->marks, MEIFGUR_MARKS_WORDS, (uint64_t *)answer,
                              MEIFGUR_LOAD_ANSWER);
}

static inline uint32_t meifgur_scan(struct meifgur_bank *bank, const uint8_t *record, size_t record_length,
                                    uint8_t *events, size_t events_length, struct meifgur_scanned *answer)
{
    return meifgur_scan_words(bank->settings, MEIFGUR_SETTINGS_WORDS, bank->states, MEIFGUR_STATES_WORDS, bank->marks,
                              MEIFGUR_MARKS_WORDS, record, record_length, events, events_length, (uint64_t *)answer,
                              MEIFGUR_SCAN_ANSWER);
}

static inline uint32_t meifgur_report(const struct meifgur_bank *bank, size_t alarm,
                                      uint8_t report[MEIFGUR_REPORT_SIZE], struct meifgur_reported *answer)
{
    return meifgur_report_words(bank->settings, MEIFGUR_SETTINGS_WORDS, bank->states, MEIFGUR_STATES_WORDS, bank->marks,
                                MEIFGUR_MARKS_WORDS, alarm, report, MEIFGUR_REPORT_SIZE, (uint64_t *)answer,
                                MEIFGUR_REPORT_ANSWER);
}

static inline uint32_t meifgur_write(const struct meifgur_bank *bank, uint8_t *out, size_t out_length,
                                     struct meifgur_written *answer)
{
    return meifgur_write_words(bank->settings, MEIFGUR_SETTINGS_WORDS, out, out_length, (uint64_t *)answer,
                               MEIFGUR_WRITE_ANSWER);
}

static inline uint32_t meifgur_replay(struct meifgur_bank *bank, const uint8_t *records, size_t records_length,
                                      uint8_t *events, size_t events_length, struct meifgur_replayed *answer)
{
    return meifgur_replay_words(bank->settings, MEIFGUR_SETTINGS_WORDS, bank->states, MEIFGUR_STATES_WORDS, bank->marks,
                                MEIFGUR_MARKS_WORDS, records, records_length, events, events_length, (uint64_t *)answer,
                                MEIFGUR_REPLAY_ANSWER);
}

#ifdef __cplusplus
}
#endif

#endif
