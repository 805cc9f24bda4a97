/* Appends into an empty log, and into large ones. */
#include "logs.h"
#include "measure.h"
#include "rust.h"
#include "show.h"
#include "tables.h"

#include <stdio.h>

/* The entry, as in oracle/measure. The raw call has as long a payload. */
#define KEY "setting.00042"
#define VALUE "0123456789abcdef"
#define PAYLOAD_LEN 65

/* The large log: so many segments of so many bytes, or one with all of them. */
#define SEGMENTS 4095
#define SEGMENT_LEN 16384

/* So many appends are timed at once; then the log is as before. */
#define BATCH 4096

#define LOG_LEN ((size_t)SEGMENTS * SEGMENT_LEN)

enum log_kind { EMPTY, IN_ONE_SEGMENT, IN_SEGMENTS };

struct bench {
    struct lent lent;
    struct ringwal_writer writer;
    /* the active segment before the appends */
    struct ringwal_segment active;
};

static void accept_or_die(uint64_t refusal)
{
    if (refusal != RINGWAL_ACCEPTED)
        die("append", "refused");
}

/* Raw entries of SEGMENT_LEN bytes, header included. Under a bound of that size each has a segment of its own. */
static void fill(struct lent *lent, uint64_t bound, size_t n)
{
    static const uint8_t payload[SEGMENT_LEN - RINGWAL_HEADER];
    struct ringwal_open_answer opened = ringwal_open(ringwal_new(bound), lent->area, lent->area_len,
                                                     lent->directory, lent->directory_len, &lent->used);
    struct ringwal_append_answer appended = {.writer = opened.writer};

    accept_or_die(opened.refusal);
    for (size_t i = 0; i < n; i++) {
        appended = ringwal_append_entry(appended.writer, lent->area, lent->area_len, lent->directory, lent->directory_len,
                                        &lent->used, i, payload, sizeof payload);
        accept_or_die(appended.refusal);
    }
}

static struct bench prepared(enum log_kind log)
{
    struct bench b = {.writer = ringwal_new(UINT64_MAX)};

    b.lent.area_len = LOG_LEN + BATCH * (RINGWAL_HEADER + PAYLOAD_LEN);
    b.lent.area = zeros(b.lent.area_len);
    b.lent.directory_len = RINGWAL_DIRECTORY_MOST * RINGWAL_DIRECTORY_RECORD;
    b.lent.directory = zeros(b.lent.directory_len);
    fill(&b.lent, log == IN_SEGMENTS ? SEGMENT_LEN : UINT64_MAX, log == EMPTY ? 0 : SEGMENTS);
    b.active = ringwal_segment_at(b.lent.directory, b.lent.directory_len, b.lent.used - 1);
    return b;
}

static void restore(struct bench *b)
{
    ringwal_put_segment(b->lent.directory, b->lent.directory_len, b->lent.used - 1, b->active);
}

static void append_raw(void *context)
{
    static const uint8_t payload[PAYLOAD_LEN] = KEY VALUE;
    struct bench *b = context;
    struct ringwal_append_answer appended = {.writer = b->writer};

    for (uint64_t i = 1; i <= BATCH; i++) {
        appended = ringwal_append_entry(appended.writer, b->lent.area, b->lent.area_len, b->lent.directory,
                                        b->lent.directory_len, &b->lent.used, i, payload, sizeof payload);
        accept_or_die(appended.refusal);
    }
    restore(b);
}

static void append_entry(void *context)
{
    struct bench *b = context;
    struct ringwal_writer writer = b->writer;

    for (uint64_t i = 1; i <= BATCH; i++) {
        struct ringwal_write_answer written = ringwal_append_in_place(
            &writer, b->lent.area, b->lent.area_len, b->lent.directory, b->lent.directory_len, &b->lent.used,
            i, RINGWAL_INSERT, i, i, (const uint8_t *)KEY, sizeof KEY - 1, (const uint8_t *)"", 0,
            (const uint8_t *)VALUE, sizeof VALUE - 1);

        accept_or_die(written.refusal);
    }
    restore(b);
}

static void print_append(const char *call, const char *into, double ours, double rust)
{
    char text[64];

    snprintf(text, sizeof text, "%s, %s", call, into);
    print_times(text, (struct times){ours, rust});
}

static void print_appends(enum log_kind log, const char *into)
{
    const struct figures *rust = rust_figures("append");
    struct bench b = prepared(log);

    print_append("raw", into, measure(append_raw, &b) / BATCH, rust == NULL ? 0 : rust->first);
    print_append("entry", into, measure(append_entry, &b) / BATCH, rust == NULL ? 0 : rust->second);
    lent_free(&b.lent);
}

void appends(void)
{
    print_title("append of 65 bytes and a header", COLUMNS);
    print_appends(EMPTY, "empty log");
    print_appends(IN_ONE_SEGMENT, "67 MB in 1 segment");
    print_appends(IN_SEGMENTS, "67 MB in 4,095 segments");
}
