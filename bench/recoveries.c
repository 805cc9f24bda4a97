/* Recovery and replay: small and large logs, growth, and the accepted worst cases. */
#include "logs.h"
#include "measure.h"
#include "rust.h"
#include "show.h"
#include "tables.h"

#include <math.h>
#include <stdio.h>
#include <stdlib.h>
#include <string.h>

enum call { RECOVERY, REPLAY };

struct run {
    struct lent lent;
    struct ringwal_recover_answer answer;
};

static void recover(void *context)
{
    struct run *run = context;
    struct lent *l = &run->lent;

    run->answer = ringwal_recover(l->area, l->area_len, l->directory, l->directory_len, l->used, l->entries, l->entries_len,
                                  l->transactions, l->transactions_len);
}

static void replay(void *context)
{
    struct run *run = context;
    struct lent *l = &run->lent;

    run->answer = ringwal_recover_into_store(l->area, l->area_len, l->directory, l->directory_len, l->used, l->entries,
                                             l->entries_len, l->transactions, l->transactions_len, l->table, l->table_len);
}

static size_t rows_in(const struct lent *lent)
{
    size_t rows = 0;

    while (rows < lent->table_len / RINGWAL_TABLE_RECORD
           && ringwal_row_at(lent->table, lent->table_len, rows).mark == RINGWAL_LIVE)
        rows++;
    return rows;
}

/* The checksum of all keys and values, in the table's order. */
static uint32_t table_crc(const struct lent *lent, size_t rows)
{
    uint8_t *text = zeros(lent->table_len);
    size_t len = 0;
    uint32_t crc;

    for (size_t k = 0; k < rows; k++) {
        struct ringwal_row row = ringwal_row_at(lent->table, lent->table_len, k);
        const uint8_t *record = lent->table + k * RINGWAL_TABLE_RECORD;

        memcpy(text + len, record + RINGWAL_TABLE_KEY, row.key_len);
        memcpy(text + len + row.key_len, record + RINGWAL_TABLE_VALUE, row.value_len);
        len += row.key_len + row.value_len;
    }
    crc = ringwal_crc32(text, len);
    free(text);
    return crc;
}

/* A ratio is worth something only where both sides did the same. */
static void same_or_die(const struct plan *plan, const struct run *run, enum call call, const struct figures *rust)
{
    size_t rows = rows_in(&run->lent);

    if (run->answer.refusal != RINGWAL_ACCEPTED || run->answer.entries != plan_entries(plan))
        die(plan->name, "not recovered whole");
    if (rust == NULL)
        return;
    if (run->answer.total_transactions != rust->total || run->answer.committed != rust->committed)
        die(plan->name, "the Rust counts otherwise");
    if (call == REPLAY && (rows != rust->rows || table_crc(&run->lent, rows) != rust->crc))
        die(plan->name, "the Rust's table is another");
}

enum lists { AS_NEEDED, AT_THEIR_MOST };

static struct times measure_lent(const struct plan *plan, const char *folder, enum call call, enum lists lists)
{
    struct run run = {0};
    const struct figures *rust = rust_figures(plan->name);
    struct times times = {0};

    log_read(plan, folder, &run.lent);
    if (lists == AT_THEIR_MOST)
        lend_most(&run.lent);
    times.ours = measure(call == RECOVERY ? recover : replay, &run);
    same_or_die(plan, &run, call, rust);
    lent_free(&run.lent);
    if (rust != NULL)
        times.rust = call == RECOVERY ? rust->first : rust->second;
    return times;
}

static struct times measure_log(const struct plan *plan, const char *folder, enum call call)
{
    return measure_lent(plan, folder, call, AS_NEEDED);
}

static void print_log(const char *folder, enum call call, const char *name, const char *text)
{
    print_times(text, measure_log(plan_named(name), folder, call));
}

/* The lists are cleared whole, however few of their records are used. */
static void print_at_most(const char *folder, enum call call, const char *name, const char *text)
{
    print_times(text, measure_lent(plan_named(name), folder, call, AT_THEIR_MOST));
}

void recoveries_in_short(const char *folder)
{
    print_title("recovery", COLUMNS);
    print_log(folder, RECOVERY, "small", "small: 640 entries, 43 KB");
    print_at_most(folder, RECOVERY, "small", "small, lists lent at their most");
    print_log(folder, RECOVERY, "large", "large: 262,144 entries, 17 MB");
    print_log(folder, RECOVERY, "long", "long values: as many, 64 MB");
    print_title("replay (with its recovery)", COLUMNS);
    print_log(folder, REPLAY, "small", "small, 256 keys");
    print_at_most(folder, REPLAY, "small", "small, all lent at their most");
    print_log(folder, REPLAY, "large", "large, 1,024 keys");
    print_log(folder, REPLAY, "long", "long values, 1,024 keys");
}

/* ---- Growth */

static const char *const sizes[] = {"10", "3", "1"};

/* Each time also in nanoseconds for each unit of n log2 n, n being the number of entries. */
static void print_growth(const struct plan *plan, const char *folder, enum call call)
{
    struct times times = measure_log(plan, folder, call);
    double n = (double)plan_entries(plan);
    char text[64];

    snprintf(text, sizeof text, "%.0f entries in %.0f", n, (double)plan->transactions);
    printf("%-34s %11s %11.2f", text, shown_time(times.ours), times.ours * 1e9 / (n * log2(n)));
    print_rust(times);
    fflush(stdout);
}

static void growth(const char *folder, enum call call, const char *shape)
{
    for (size_t i = 0; i < sizeof sizes / sizeof *sizes; i++) {
        char name[32];

        snprintf(name, sizeof name, "%s-%s", shape, sizes[i]);
        print_growth(plan_named(name), folder, call);
    }
}

#define GROWTH_COLUMNS "       ours  ns/n log n        Rust ours/Rust"

static void growths(const char *folder)
{
    print_title("recovery, rising numbers", GROWTH_COLUMNS);
    growth(folder, RECOVERY, "rising");
    print_title("recovery, all open at once", GROWTH_COLUMNS);
    growth(folder, RECOVERY, "spread");
    print_title("replay, all open at once", GROWTH_COLUMNS);
    growth(folder, REPLAY, "spread");
}

/* ---- The accepted worst cases, each below what it is held against */

static void worst_cases(const char *folder)
{
    print_title("recovery of 65,536 transactions", COLUMNS);
    print_log(folder, RECOVERY, "numbers-up", "rising numbers");
    print_log(folder, RECOVERY, "numbers-down", "falling numbers");
    print_title("replay of 16,384 keys", COLUMNS);
    print_log(folder, REPLAY, "keys-up", "inserted in rising order");
    print_log(folder, REPLAY, "keys-mixed", "inserted in mixed order");
    print_log(folder, REPLAY, "keys-down", "inserted in falling order");
    print_log(folder, REPLAY, "removals", "rising, then removed in front");
}

void recoveries(const char *folder)
{
    recoveries_in_short(folder);
    growths(folder);
    worst_cases(folder);
}
