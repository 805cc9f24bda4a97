/* The logs that both sides read. They are written by the library's own entry call, kept as files for the Rust, and read back
 * from there. */
#ifndef LOGS_H
#define LOGS_H

#include <ringwal.h>

/* In which order a replay comes upon the keys. */
enum key_order { RISING, FALLING, MIXED };

/* A log of `transactions` transactions, each of `sets` entries and a commit. */
struct plan {
    const char *name;
    uint64_t transactions;
    uint64_t sets;
    uint64_t keys;
    enum key_order order;
    size_t value_len;
    uint64_t bound;
    /* first the first entries of all transactions, then their second ones, ..: all are open at once */
    int is_spread;
    /* the highest number first */
    int is_falling;
    /* the second half of the transactions remove what the first half set */
    int has_removals;
};

/* What is lent. The lists have as many records as the log needs. */
struct lent {
    uint8_t *area;
    size_t area_len;
    uint8_t *directory;
    size_t directory_len;
    size_t used;
    uint8_t *entries;
    size_t entries_len;
    uint8_t *transactions;
    size_t transactions_len;
    uint8_t *table;
    size_t table_len;
};

extern const struct plan plans[];
extern const size_t plan_count;

uint64_t plan_entries(const struct plan *plan);

const struct plan *plan_named(const char *name);

/* Writes the log's segments one after the other to FOLDER/NAME.area, and its directory to FOLDER/NAME.directory. */
void log_write(const struct plan *plan, const char *folder);

/* Reads them back into memory that `lent_free` gives back. */
void log_read(const struct plan *plan, const char *folder, struct lent *lent);

/* Lists and table at their most instead. */
void lend_most(struct lent *lent);

void lent_free(struct lent *lent);

/* Memory, zero throughout. */
uint8_t *zeros(size_t len);

_Noreturn void die(const char *what, const char *why);

#endif
