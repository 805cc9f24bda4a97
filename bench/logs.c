#include "logs.h"

#include <errno.h>
#include <inttypes.h>
#include <stdio.h>
#include <stdlib.h>
#include <string.h>

#define DEFAULT_BOUND 49152
#define MIB 1048576

/* Room for any of the logs. */
#define AREA_LEN (128 * MIB)

const struct plan plans[] = {
    {.name = "small", .transactions = 160, .sets = 3, .keys = 256, .order = MIXED, .value_len = 16, .bound = DEFAULT_BOUND},
    {.name = "large", .transactions = 65536, .sets = 3, .keys = 1024, .order = MIXED, .value_len = 16, .bound = DEFAULT_BOUND},
    {.name = "long", .transactions = 65536, .sets = 3, .keys = 1024, .order = MIXED, .value_len = 252, .bound = DEFAULT_BOUND},

    {.name = "rising-10", .transactions = 6553, .sets = 15, .keys = 16384, .value_len = 16, .bound = MIB},
    {.name = "rising-3", .transactions = 21845, .sets = 15, .keys = 16384, .value_len = 16, .bound = MIB},
    {.name = "rising-1", .transactions = 65536, .sets = 15, .keys = 16384, .value_len = 16, .bound = MIB},
    {.name = "spread-10", .transactions = 6553, .sets = 15, .keys = 16384, .value_len = 16, .bound = MIB, .is_spread = 1},
    {.name = "spread-3", .transactions = 21845, .sets = 15, .keys = 16384, .value_len = 16, .bound = MIB, .is_spread = 1},
    {.name = "spread-1", .transactions = 65536, .sets = 15, .keys = 16384, .value_len = 16, .bound = MIB, .is_spread = 1},

    {.name = "numbers-up", .transactions = 65536, .sets = 1, .keys = 1024, .value_len = 16, .bound = MIB},
    {.name = "numbers-down", .transactions = 65536, .sets = 1, .keys = 1024, .value_len = 16, .bound = MIB, .is_falling = 1},
    {.name = "keys-up", .transactions = 16384, .sets = 1, .keys = 16384, .value_len = 16, .bound = MIB},
    {.name = "keys-mixed", .transactions = 16384, .sets = 1, .keys = 16384, .order = MIXED, .value_len = 16, .bound = MIB},
    {.name = "keys-down", .transactions = 16384, .sets = 1, .keys = 16384, .order = FALLING, .value_len = 16, .bound = MIB},
    {.name = "removals", .transactions = 32768, .sets = 1, .keys = 16384, .value_len = 16, .bound = MIB, .has_removals = 1},
};

const size_t plan_count = sizeof plans / sizeof *plans;

_Noreturn void die(const char *what, const char *why)
{
    fprintf(stderr, "bench: %s: %s\n", what, why);
    exit(EXIT_FAILURE);
}

uint8_t *zeros(size_t len)
{
    uint8_t *memory = calloc(len, 1);

    if (memory == NULL)
        die("memory", strerror(errno));
    return memory;
}

void lent_free(struct lent *lent)
{
    free(lent->area);
    free(lent->directory);
    free(lent->entries);
    free(lent->transactions);
    free(lent->table);
}

uint64_t plan_entries(const struct plan *plan)
{
    return plan->transactions * (plan->sets + 1);
}

const struct plan *plan_named(const char *name)
{
    for (size_t i = 0; i < plan_count; i++)
        if (strcmp(plans[i].name, name) == 0)
            return &plans[i];
    die(name, "no plan has this name");
}

/* ---- Writing */

/* The key of a replay's nth entry. */
static uint64_t key_number(const struct plan *plan, uint64_t nth)
{
    switch (plan->order) {
    case FALLING:
        return plan->keys - 1 - nth % plan->keys;
    case MIXED:
        /* Each key once, since the number of keys is a power of two and the factor is odd. */
        return nth * 40503 % plan->keys;
    default:
        return nth % plan->keys;
    }
}

static uint64_t kind_of(const struct plan *plan, uint64_t number, uint64_t round)
{
    if (round == plan->sets)
        return RINGWAL_COMMIT;
    if (plan->has_removals && number > plan->transactions / 2)
        return RINGWAL_DELETE;
    return RINGWAL_INSERT;
}

/* Entry `round` of the transaction `number`, as entry i of the log. */
static void append(const struct plan *plan, struct ringwal_writer *writer, struct lent *lent,
                   uint64_t i, uint64_t number, uint64_t round)
{
    uint64_t nth = (number - 1) * plan->sets + round;
    uint8_t value[RINGWAL_VALUE_MOST];
    char key[RINGWAL_KEY_MOST];
    int key_len = snprintf(key, sizeof key, "setting.%05" PRIu64, key_number(plan, nth));
    struct ringwal_write_answer written;

    memset(value, (int)(nth % 251), sizeof value);
    written = ringwal_append_in_place(writer, lent->area, lent->area_len, lent->directory, lent->directory_len, &lent->used,
                                      i + 1, kind_of(plan, number, round), number, i, (const uint8_t *)key, (size_t)key_len,
                                      value, plan->value_len, value, plan->value_len);
    if (written.refusal != RINGWAL_ACCEPTED)
        die(plan->name, "an append is refused");
}

static void append_nth(const struct plan *plan, struct ringwal_writer *writer, struct lent *lent, uint64_t i)
{
    uint64_t each = plan->sets + 1;
    uint64_t t = plan->is_spread ? i % plan->transactions : i / each;
    uint64_t round = plan->is_spread ? i / plan->transactions : i % each;

    append(plan, writer, lent, i, plan->is_falling ? plan->transactions - t : t + 1, round);
}

static void fill(const struct plan *plan, struct lent *lent)
{
    struct ringwal_open_answer opened = ringwal_open(ringwal_new(plan->bound), lent->area, lent->area_len,
                                                     lent->directory, lent->directory_len, &lent->used);

    if (opened.refusal != RINGWAL_ACCEPTED)
        die(plan->name, "opening is refused");
    for (uint64_t i = 0; i < plan_entries(plan); i++)
        append_nth(plan, &opened.writer, lent, i);
}

/* ---- Files */

static FILE *open_file(const struct plan *plan, const char *folder, const char *part, const char *mode)
{
    char path[512];
    FILE *file;

    snprintf(path, sizeof path, "%s/%s.%s", folder, plan->name, part);
    file = fopen(path, mode);
    if (file == NULL)
        die(path, strerror(errno));
    return file;
}

static void write_file(const struct plan *plan, const char *folder, const char *part, const uint8_t *bytes, size_t len)
{
    FILE *file = open_file(plan, folder, part, "wb");

    if (fwrite(bytes, 1, len, file) != len || fclose(file) != 0)
        die(plan->name, "cannot be written");
}

static size_t file_len(FILE *file)
{
    long len;

    fseek(file, 0, SEEK_END);
    len = ftell(file);
    rewind(file);
    return len < 0 ? 0 : (size_t)len;
}

static uint8_t *read_file(const struct plan *plan, const char *folder, const char *part, size_t *len)
{
    FILE *file = open_file(plan, folder, part, "rb");
    uint8_t *bytes;

    *len = file_len(file);
    bytes = zeros(*len);
    if (fread(bytes, 1, *len, file) != *len)
        die(plan->name, "cannot be read");
    fclose(file);
    return bytes;
}

void log_write(const struct plan *plan, const char *folder)
{
    struct lent lent = {.area_len = AREA_LEN, .directory_len = RINGWAL_DIRECTORY_MOST * RINGWAL_DIRECTORY_RECORD};
    struct ringwal_segment last;

    lent.area = zeros(lent.area_len);
    lent.directory = zeros(lent.directory_len);
    fill(plan, &lent);
    last = ringwal_segment_at(lent.directory, lent.directory_len, lent.used - 1);
    write_file(plan, folder, "area", lent.area, last.start + last.length);
    write_file(plan, folder, "directory", lent.directory, lent.used * RINGWAL_DIRECTORY_RECORD);
    lent_free(&lent);
}

void log_read(const struct plan *plan, const char *folder, struct lent *lent)
{
    lent->area = read_file(plan, folder, "area", &lent->area_len);
    lent->directory = read_file(plan, folder, "directory", &lent->directory_len);
    lent->used = lent->directory_len / RINGWAL_DIRECTORY_RECORD;
    lent->entries_len = plan_entries(plan) * RINGWAL_ENTRY_RECORD;
    lent->entries = zeros(lent->entries_len);
    lent->transactions_len = plan->transactions * RINGWAL_TRANSACTION_RECORD;
    lent->transactions = zeros(lent->transactions_len);
    lent->table_len = plan->keys * RINGWAL_TABLE_RECORD;
    lent->table = zeros(lent->table_len);
}

static uint8_t *lend_anew(uint8_t *old, size_t *len, size_t most)
{
    free(old);
    *len = most;
    return zeros(most);
}

void lend_most(struct lent *lent)
{
    lent->entries = lend_anew(lent->entries, &lent->entries_len, RINGWAL_ENTRY_MOST * RINGWAL_ENTRY_RECORD);
    lent->transactions = lend_anew(lent->transactions, &lent->transactions_len,
                                   RINGWAL_TRANSACTION_MOST * RINGWAL_TRANSACTION_RECORD);
    lent->table = lend_anew(lent->table, &lent->table_len, RINGWAL_TABLE_MOST * RINGWAL_TABLE_RECORD);
}
