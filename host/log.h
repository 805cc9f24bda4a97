/* A log kept in the files of a directory: `wal-00000001.log` and so on, one a segment.
 *
 * The library works on lent memory; this is the host that lends it, reads the files into it and writes its new bytes to
 * them. Whatever fails ends the program with a message and status 1.
 *
 * Order on the disk: a file gets its first byte only after every byte of the files before it is synced. So a power cut tears
 * the newest file alone. A file that is there already is never written again: each run opens a segment of its own.
 */
#ifndef LOG_H
#define LOG_H

#include <ringwal.h>

#include <stdbool.h>

struct bytes {
    const uint8_t *at;
    size_t len;
};

#define NO_BYTES ((struct bytes){(const uint8_t *)"", 0})

enum purpose { TO_READ, TO_WRITE };

struct log {
    const char *path;
    int dir;
    size_t used;
    struct ringwal_writer writer;
    /* of the next entry, and of the transaction that it belongs to */
    uint64_t lsn;
    uint64_t tx_id;
    /* the active segment's file, -1 before its first byte */
    int file;
    struct ringwal_segment active;
};

/* Prints a message and ends the program with status 1. */
_Noreturn void die(const char *format, ...) __attribute__((format(printf, 1, 2)));

/* Reads the directory's segments into the area. */
void log_load(struct log *log, const char *path, enum purpose purpose);

/* Rebuilds the table and answers how many rows it has. */
size_t log_replay(struct log *log);

/* Row k of the rebuilt table, and the row of a key: false where it has none. */
void log_row(size_t k, struct bytes *key, struct bytes *value);
bool log_find(size_t rows, struct bytes key, struct bytes *value);

/* Opens a segment to append to, under the next transaction number. */
void log_begin(struct log *log);

/* Appends an entry of the transaction: to the area, and then to the file. */
void log_append(struct log *log, uint64_t kind, struct bytes key, struct bytes old_value, struct bytes new_value);

/* Ends the transaction with a marker, and syncs it. The next entry belongs to the next number. */
void log_end(struct log *log, uint64_t marker);

/* The name of the active segment's file, with a zero behind it. */
void log_file_name(const struct log *log, char name[RINGWAL_NAME_MOST + 1]);

void log_close(struct log *log);

#endif
