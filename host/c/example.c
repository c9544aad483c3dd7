/*
 * Document 01's listing by live calls: prints the events of each scan as it is run, then how each condition stands. Midway the
 * bank is saved as plain bytes to FILE, and another bank that is restored from there goes on.
 *
 *   gcc -Wall -Wextra -I crates/meifgur_c/include host/c/example.c target/staticlib/libmeifgur_c.a -o example
 *   ./example FILE
 */
#include <inttypes.h>
#include <stdio.h>
#include <string.h>

#include "meifgur.h"

#define SCANS 6
#define RECORD 13 /* time, then reading and command word of one digital alarm */

/* One digital alarm: Condition, AckRequired, Latched; Severity 700; MinDuration 100. No analog alarm. */
static const uint8_t image[] = {0x01, 0x07, 0xBC, 0x02, 0x00, 0x00, 0x64, 0x00, 0x00, 0x00, 0x00};

static const struct scan {
    uint64_t time;
    uint8_t reading;
    uint32_t command;
} scans[SCANS] = {{1000, 1, 0},      {1100, 1, 0},      {1200, 0, 0},
                  {1300, 0, 1 << 8}, {1400, 0, 1 << 0}, {1500, 1, 0}};

static struct meifgur_bank at_first, restored;

static void put(uint8_t *at, uint64_t value, size_t bytes)
{
    for (size_t i = 0; i < bytes; i++)
        at[i] = (uint8_t)(value >> (8 * i));
}

static uint64_t get(const uint8_t *at, size_t bytes)
{
    uint64_t value = 0;
    for (size_t i = 0; i < bytes; i++)
        value |= (uint64_t)at[i] << (8 * i);
    return value;
}

/* time, alarm, condition, kind, severity, suppressed */
static void print_event(const uint8_t *e)
{
    printf("%" PRIu64 " %u %u %u %" PRIu64 " %u\n", get(e + 8, 8), e[0], e[1], e[2], get(e + 4, 2), e[3]);
}

/* end, alarm, condition, in alarm, unacknowledged, count */
static void print_condition(unsigned alarm, unsigned condition, const uint8_t *c)
{
    printf("end %u %u %u %u %" PRIu64 "\n", alarm, condition, c[0], c[1] == 0, get(c + 4, 4));
}

/* The conditions of an alarm stand behind the first 32 bytes of its report. */
static void print_report(unsigned alarm, int is_digital, const uint8_t *report)
{
    if (is_digital)
        print_condition(alarm, 0, report + 32);
    else
        for (unsigned c = 1; c <= 6; c++)
            print_condition(alarm, c, report + 32 * c);
}

static int fail(const char *what, uint64_t number, uint64_t place)
{
    fprintf(stderr, "%s: %" PRIu64 " at %" PRIu64 "\n", what, number, place);
    return 1;
}

/* Loads the settings and holds the image that the bank writes to the one that it was given. */
static int load(struct meifgur_bank *bank, struct meifgur_loaded *loaded)
{
    struct meifgur_written written;
    uint8_t copy[MEIFGUR_IMAGE_MOST];

    if (meifgur_load(bank, image, sizeof image, loaded) != MEIFGUR_OK)
        return fail("settings refused", loaded->number, loaded->place);
    if (meifgur_write(bank, copy, sizeof copy, &written) != MEIFGUR_OK)
        return fail("settings not written", written.number, written.place);
    if (written.length != sizeof image || memcmp(copy, image, sizeof image) != 0)
        return fail("settings written otherwise", written.length, 0);
    return 0;
}

static int scan(struct meifgur_bank *bank, const struct scan *s)
{
    struct meifgur_scanned scanned;
    uint8_t record[RECORD];
    uint8_t events[MEIFGUR_EVENTS_ENOUGH];

    put(record, s->time, 8);
    put(record + 8, s->reading, 1);
    put(record + 9, s->command, 4);
    if (meifgur_scan(bank, record, sizeof record, events, sizeof events, &scanned) != MEIFGUR_OK)
        return fail("record refused", scanned.number, scanned.place);
    for (uint64_t i = 0; i < scanned.events; i++)
        print_event(events + MEIFGUR_EVENT_SIZE * i);
    return 0;
}

static int report(const struct meifgur_bank *bank, size_t alarm, uint8_t bytes[MEIFGUR_REPORT_SIZE])
{
    struct meifgur_reported reported;
    if (meifgur_report(bank, alarm, bytes, &reported) != MEIFGUR_OK)
        return fail("report refused", reported.number, reported.place);
    return 0;
}

/* Every word of a bank, as plain bytes. */
static int save(const struct meifgur_bank *bank, const char *path)
{
    FILE *file = fopen(path, "wb");
    size_t saved = file == NULL ? 0 : fwrite(bank, sizeof *bank, 1, file);
    if (file == NULL || fclose(file) != 0 || saved != 1)
        return fail("bank not saved", 0, 0);
    return 0;
}

static int restore(struct meifgur_bank *bank, const char *path)
{
    FILE *file = fopen(path, "rb");
    size_t read = file == NULL ? 0 : fread(bank, sizeof *bank, 1, file);
    if (file != NULL)
        fclose(file);
    return read == 1 ? 0 : fail("bank not restored", 0, 0);
}

int main(int argc, char **argv)
{
    struct meifgur_bank *bank = &at_first;
    struct meifgur_loaded loaded;
    uint8_t bytes[MEIFGUR_REPORT_SIZE];

    if (argc != 2)
        return fail("arguments other than FILE", (uint64_t)argc, 0);
    if (!meifgur_sizes_agree() || meifgur_record_length(1, 0) != RECORD)
        return fail("another version", meifgur_version(), 0);
    /* Before there are settings: the factory bank watches twelve silent sensors. */
    if (meifgur_load(bank, image, 0, &loaded) != MEIFGUR_OK || loaded.digital != 12 || loaded.analog != 0)
        return fail("no factory bank", loaded.number, loaded.place);
    if (load(bank, &loaded))
        return 1;

    for (size_t i = 0; i < SCANS; i++) {
        if (i == SCANS / 2) {
            if (save(bank, argv[1]) || restore(&restored, argv[1]))
                return 1;
            bank = &restored;
        }
        if (scan(bank, &scans[i]) || report(bank, 1, bytes))
            return 1;
    }

    for (unsigned n = 1; n <= loaded.digital + loaded.analog; n++) {
        if (report(bank, n, bytes))
            return 1;
        print_report(n, n <= loaded.digital, bytes);
    }
    return 0;
}
