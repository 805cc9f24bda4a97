/* The checksum, held against the two of crc.h. */
#include "crc.h"
#include "logs.h"
#include "measure.h"
#include "rust.h"
#include "show.h"
#include "tables.h"

#include <stdio.h>
#include <stdlib.h>

#define CHECKED 49152

#define SHORT_MOST 256

/* The payloads of a commit, of an insert of a byte under a key of a byte, of the entry in appends.c, and longer ones. */
static const size_t lengths[] = {20, 38, 65, SHORT_MOST, CHECKED};

/* So many are timed at once, since the shortest of them takes little longer than the clock does. */
#define CHECKS 64

struct check {
    crc_tables tables;
    uint8_t bytes[CHECKED + CHECKS];
    size_t len;
    uint32_t (*crc)(const struct check *, size_t start);
    uint32_t answer;
};

static uint32_t ours(const struct check *check, size_t start)
{
    return ringwal_crc32(check->bytes + start, check->len);
}

static uint32_t by_bytes(const struct check *check, size_t start)
{
    return crc_by_bytes(check->tables, check->bytes + start, check->len);
}

static uint32_t by_eights(const struct check *check, size_t start)
{
    return crc_by_eights(check->tables, check->bytes + start, check->len);
}

/* Each starts a byte further on, since payloads stand anywhere in a log. */
static void make_checks(void *context)
{
    struct check *check = context;

    for (size_t i = 0; i < CHECKS; i++)
        check->answer = check->crc(check, i);
}

static struct check *checked(void)
{
    struct check *check = (struct check *)zeros(sizeof *check);

    crc_make_tables(check->tables);
    for (size_t i = 0; i < sizeof check->bytes; i++)
        check->bytes[i] = (uint8_t)(i * 31 + i / 256);
    return check;
}

static void agree_on(struct check *check, size_t len)
{
    check->len = len;
    for (size_t start = 0; start < CHECKS; start++)
        if (by_bytes(check, start) != ours(check, start) || by_eights(check, start) != ours(check, start))
            die("checksum", "the three don't agree");
}

/* All agree on what is timed, and on every length up to SHORT_MOST, so that every remainder is met. */
static void agree_or_die(struct check *check)
{
    for (size_t len = 0; len <= SHORT_MOST; len++)
        agree_on(check, len);
    agree_on(check, CHECKED);
    if (rust_figures("checksum") != NULL && rust_figures("checksum")->crc != ours(check, 0))
        die("checksum", "the Rust doesn't agree");
}

static void print_checksum(const char *name, double seconds, double reference)
{
    printf("%-34s %11s %11.0f %9.2f\n", name, shown_time(seconds), CHECKED / seconds / 1e6, reference / seconds);
}

static double measure_checksum(struct check *check, uint32_t (*crc)(const struct check *, size_t start))
{
    check->crc = crc;
    return measure(make_checks, check) / CHECKS;
}

void checksums(void)
{
    struct check *check = checked();
    const struct figures *rust = rust_figures("checksum");
    double reference;

    agree_or_die(check);
    print_title("checksum of 49,152 bytes", "       time        MB/s  ours/it");
    reference = measure_checksum(check, ours);
    print_checksum("ours", reference, reference);
    print_checksum("plain C, a table of bytes", measure_checksum(check, by_bytes), reference);
    print_checksum("plain C, slicing by eight", measure_checksum(check, by_eights), reference);
    if (rust != NULL)
        print_checksum("the Rust's crate crc32fast", rust->first, reference);
    free(check);
}

void checksum_lengths(void)
{
    struct check *check = checked();

    agree_or_die(check);
    print_title("checksum", COLUMNS);
    for (size_t i = 0; i < sizeof lengths / sizeof *lengths; i++) {
        char text[32];

        check->len = lengths[i];
        snprintf(text, sizeof text, "%zu bytes", check->len);
        print_times(text, (struct times){.ours = measure_checksum(check, ours)});
    }
    free(check);
}
