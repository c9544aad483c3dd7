/*
 * Measures how much stack the calls use, on a full bank whose every alarm raises and returns, and holds the header's figures to it:
 * each covers what is measured, by less than 2 KB.
 *
 *   gcc -O2 -Wall -Wextra -I crates/meifgur_c/include host/c/stack.c target/staticlib/libmeifgur_c.a -o stack
 */
#include <stdio.h>
#include <string.h>
#include <ucontext.h>

#include "meifgur.h"

#define EACH 12                                 /* alarms of each kind */
#define SCANS 50                                /* scans of the drive */
#define RECORD (8 + EACH * (1 + 4) + EACH * (4 + 4))
#define TOO_SHORT 12 /* the refusal of a record whose events don't fit */
#define STACK 262144
#define PAINT 0xA5

static const uint8_t digital[9] = {0x03, 0xF4, 0x01, 0, 0, 0, 0, 0, 0};
static const uint8_t analog[61] = {0x1F, 0x84, 0x03, 0, 0, 0xBC, 0x02, 0, 0, 0xBC, 0x02, 0, 0, 0x84, 0x03, 0,
                                   0,    0x90, 0x01, 0, 0, 0x90, 0x01, 0, 0, 0,    0,    0x61, 0x44, 0, 0, 0x48,
                                   0x44, 0,    0,    0x16, 0x44, 0, 0, 0xFA, 0x43, 0, 0, 0xA0, 0x41, 0, 0, 0xA0,
                                   0x40, 0,    0,    0xA0, 0x40, 0xE8, 0x03, 0, 0, 0, 0, 0, 0};

static struct meifgur_bank bank;
static uint8_t image[MEIFGUR_IMAGE_MOST];
static uint8_t records[SCANS * RECORD];
static uint8_t events[SCANS * MEIFGUR_EVENTS_ENOUGH];
static uint8_t report[MEIFGUR_REPORT_SIZE];
static uint8_t out[MEIFGUR_IMAGE_MOST];
static int refused; /* calls that were refused and should not have been */
static uint8_t stack[STACK] __attribute__((aligned(64)));
static ucontext_t here, there;

static void make_image(void)
{
    uint8_t *at = image;
    *at++ = EACH;
    for (int i = 0; i < EACH; i++, at += sizeof digital)
        memcpy(at, digital, sizeof digital);
    *at++ = EACH;
    for (int i = 0; i < EACH; i++, at += sizeof analog)
        memcpy(at, analog, sizeof analog);
}

/* A scan a second; the digital readings go to and fro, the analog ones between 950.0 and 400.0, and every condition is acknowledged. */
static void make_records(void)
{
    for (int scan = 0; scan < SCANS; scan++) {
        uint8_t *at = records + scan * RECORD;
        uint64_t time = (uint64_t)scan * 1000;
        for (int i = 0; i < 8; i++)
            *at++ = (uint8_t)(time >> (8 * i));
        for (int i = 0; i < EACH; i++, at += 5) {
            at[0] = scan % 2 == 0;
            at[1] = 0x80; /* OperAck */
        }
        for (int i = 0; i < EACH; i++, at += 8) {
            static const uint8_t readings[2][4] = {{0, 0x80, 0x6D, 0x44}, {0, 0, 0xC8, 0x43}};
            memcpy(at, readings[scan % 2], 4);
            at[4] = 0x80;
        }
    }
}

/* The factory bank, then the full one. */
static void load(void)
{
    struct meifgur_loaded answer;
    refused += meifgur_load(&bank, image, 0, &answer) != MEIFGUR_OK;
    refused += meifgur_load(&bank, image, sizeof image, &answer) != MEIFGUR_OK;
}

/* The whole drive, scan by scan, with an event buffer of so many bytes; 1 if any was refused with another number than `but`. */
static int scans_refused(size_t room, uint32_t but)
{
    struct meifgur_scanned answer;
    int others = 0;
    for (int scan = 0; scan < SCANS; scan++) {
        uint32_t code = meifgur_scan(&bank, records + scan * RECORD, RECORD, events, room, &answer);
        others |= code != MEIFGUR_OK && code != but;
    }
    return others;
}

static void scan(void)
{
    refused += scans_refused(MEIFGUR_EVENTS_ENOUGH, MEIFGUR_OK);
}

/* Buffers that might not suffice: one that never does here, then one that does. */
static void scan_short(void)
{
    refused += scans_refused(MEIFGUR_EVENT_SIZE, TOO_SHORT);
    refused += scans_refused(MEIFGUR_EVENTS_ENOUGH - 1, MEIFGUR_OK);
}

static void report_each(void)
{
    struct meifgur_reported answer;
    for (size_t n = 1; n <= MEIFGUR_ALARMS_MOST; n++)
        refused += meifgur_report(&bank, n, report, &answer) != MEIFGUR_OK;
}

static void write_image(void)
{
    struct meifgur_written answer;
    refused += meifgur_write(&bank, out, sizeof out, &answer) != MEIFGUR_OK;
}

/* With a buffer that always suffices, and with one that does not. */
static void replay(void)
{
    struct meifgur_replayed answer;
    refused += meifgur_replay(&bank, records, sizeof records, events, sizeof events, &answer) != MEIFGUR_OK;
    refused += meifgur_replay(&bank, records, sizeof records, events, MEIFGUR_EVENT_SIZE, &answer) != MEIFGUR_OK;
}

static const struct measured {
    const char *name;
    void (*call)(void);
    size_t figure; /* the header's */
} calls[] = {
    {"MEIFGUR_LOAD_STACK", load, MEIFGUR_LOAD_STACK},
    {"MEIFGUR_SCAN_STACK", scan, MEIFGUR_SCAN_STACK},
    {"MEIFGUR_SCAN_SHORT_STACK", scan_short, MEIFGUR_SCAN_SHORT_STACK},
    {"MEIFGUR_REPORT_STACK", report_each, MEIFGUR_REPORT_STACK},
    {"MEIFGUR_WRITE_STACK", write_image, MEIFGUR_WRITE_STACK},
    {"MEIFGUR_REPLAY_STACK", replay, MEIFGUR_REPLAY_STACK},
};

/* Bytes of a painted stack that a call leaves changed, from the lowest one up; the caller's own frame is among them. */
static size_t used_by(void (*call)(void))
{
    memset(stack, PAINT, sizeof stack);
    getcontext(&there);
    there.uc_stack.ss_sp = stack;
    there.uc_stack.ss_size = sizeof stack;
    there.uc_link = &here;
    makecontext(&there, call, 0);
    swapcontext(&here, &there);
    size_t kept = 0;
    while (kept < sizeof stack && stack[kept] == PAINT)
        kept++;
    return sizeof stack - kept;
}

/* 1 where the header's figure is less than the bytes measured, or 2 KB more. Each call starts from a fresh bank. */
static int differs(const struct measured *m)
{
    load();
    size_t used = used_by(m->call);
    printf("%s: %zu bytes of stack; the header says %zu\n", m->name, used, m->figure);
    return m->figure < used || used + 2048 <= m->figure;
}

int main(void)
{
    int wrong = 0;
    make_image();
    make_records();
    for (size_t i = 0; i < sizeof calls / sizeof calls[0]; i++)
        wrong |= differs(&calls[i]);
    if (refused)
        printf("%d calls were refused, so that the bytes measured say nothing\n", refused);
    return wrong || refused;
}
