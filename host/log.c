#include "log.h"

#include <dirent.h>
#include <errno.h>
#include <fcntl.h>
#include <inttypes.h>
#include <stdarg.h>
#include <stdio.h>
#include <stdlib.h>
#include <string.h>
#include <sys/file.h>
#include <sys/stat.h>
#include <time.h>
#include <unistd.h>

/* The size bound is given, and not the default. */
#define SEGMENT_BOUND 16384

#define AREA_LEN (16 << 20)

/* An entry has at least 33 bytes, so these are enough for any log that the area holds. */
#define ENTRIES (AREA_LEN / 33)

/* What is lent. */
static uint8_t area[AREA_LEN];
static uint8_t directory[RINGWAL_DIRECTORY_MOST * RINGWAL_DIRECTORY_RECORD];
static uint8_t entries[ENTRIES * RINGWAL_ENTRY_RECORD];
static uint8_t transactions[RINGWAL_TRANSACTION_MOST * RINGWAL_TRANSACTION_RECORD];
static uint8_t table[RINGWAL_TABLE_MOST * RINGWAL_TABLE_RECORD];

void die(const char *format, ...)
{
    va_list args;

    fflush(stdout);
    fputs("skid: ", stderr);
    va_start(args, format);
    vfprintf(stderr, format, args);
    va_end(args);
    fputc('\n', stderr);
    exit(EXIT_FAILURE);
}

static const char *refusal_text(uint64_t refusal)
{
    static const char *const texts[] = {
        [RINGWAL_INVALID_BUFFER] = "a buffer is over its most or not whole records",
        [RINGWAL_INVALID_DIRECTORY] = "the directory breaks its rule",
        [RINGWAL_INVALID_ENTRY] = "the key is not UTF-8 or over 64 bytes, or a value is over 252",
        [RINGWAL_NO_NEXT_SEGMENT_ID] = "the last segment id is used",
        [RINGWAL_NO_ROOM] = "the area or the directory is full",
        [RINGWAL_ENTRY_LIST_FULL] = "more entries than entry records",
        [RINGWAL_TRANSACTIONS_FULL] = "more transactions than transaction records",
        [RINGWAL_EXCEEDS_TABLE_RECORD] = "a key is over 64 bytes or a value over 252",
        [RINGWAL_TABLE_FULL] = "more keys than table records",
        [RINGWAL_NO_NEW_CHECKPOINTS] = "no committed number exceeds the stored one",
    };

    return refusal < sizeof texts / sizeof *texts ? texts[refusal] : "unknown";
}

static void accept_or_die(const char *call, uint64_t refusal)
{
    if (refusal != RINGWAL_ACCEPTED)
        die("%s is refused with %" PRIu64 ": %s", call, refusal, refusal_text(refusal));
}

/* ---- Files */

static void name_of(uint64_t id, char name[RINGWAL_NAME_MOST + 1])
{
    struct ringwal_name_answer answer = ringwal_segment_name(id, (uint8_t *)name, RINGWAL_NAME_MOST);

    accept_or_die("a name", answer.refusal);
    name[answer.len] = '\0';
}

static int open_segment(const struct log *log, uint64_t id, int flags)
{
    char name[RINGWAL_NAME_MOST + 1];
    int file;

    name_of(id, name);
    file = openat(log->dir, name, flags | O_CLOEXEC, 0644);
    if (file < 0)
        die("%s/%s: %s", log->path, name, strerror(errno));
    return file;
}

static void sync_or_die(const struct log *log, int file)
{
    if (fdatasync(file) != 0)
        die("%s: cannot be synced: %s", log->path, strerror(errno));
}

static void close_or_die(const struct log *log, int file)
{
    if (close(file) != 0)
        die("%s: cannot be closed: %s", log->path, strerror(errno));
}

static void write_all(const struct log *log, const uint8_t *from, size_t len)
{
    while (len > 0) {
        ssize_t n = write(log->file, from, len);

        if (n < 0 && errno == EINTR)
            continue;
        if (n <= 0)
            die("%s: cannot be written: %s", log->path, strerror(errno));
        from += n;
        len -= (size_t)n;
    }
}

static void read_all(const struct log *log, int file, uint8_t *to, size_t len)
{
    while (len > 0) {
        ssize_t n = read(file, to, len);

        if (n < 0 && errno == EINTR)
            continue;
        if (n <= 0)
            die("%s: a segment cannot be read: %s", log->path, n < 0 ? strerror(errno) : "it became shorter");
        to += n;
        len -= (size_t)n;
    }
}

/* ---- Reading the directory */

/* The id in a file's name; false where the file is none of the log's. */
static bool id_of(const struct log *log, const char *name, uint64_t *id)
{
    struct ringwal_parse_answer answer = ringwal_parse_segment_name((const uint8_t *)name, strlen(name));

    if (!answer.is_name)
        return false;
    if (!answer.kept) {
        char kept[RINGWAL_NAME_MOST + 1];

        name_of(answer.id, kept);
        die("%s/%s: this name isn't kept; segment %" PRIu64 " is %s", log->path, name, answer.id, kept);
    }
    *id = answer.id;
    return true;
}

static size_t list_ids(const struct log *log, uint64_t ids[RINGWAL_DIRECTORY_MOST])
{
    int listed = openat(log->dir, ".", O_RDONLY | O_DIRECTORY | O_CLOEXEC);
    DIR *dir = listed < 0 ? NULL : fdopendir(listed);
    struct dirent *file;
    size_t n = 0;
    uint64_t id;

    if (dir == NULL)
        die("%s: cannot be read: %s", log->path, strerror(errno));
    while (errno = 0, (file = readdir(dir)) != NULL) {
        if (!id_of(log, file->d_name, &id))
            continue;
        if (n == RINGWAL_DIRECTORY_MOST)
            die("%s: more than %d segments", log->path, RINGWAL_DIRECTORY_MOST);
        ids[n++] = id;
    }
    if (errno != 0)
        die("%s: cannot be read: %s", log->path, strerror(errno));
    closedir(dir);
    return n;
}

static int compare_ids(const void *a, const void *b)
{
    uint64_t x = *(const uint64_t *)a;
    uint64_t y = *(const uint64_t *)b;

    return (x > y) - (x < y);
}

/* Reads one file behind the segments that are there. */
static void load_segment(struct log *log, uint64_t id)
{
    uint64_t start = log->active.start + log->active.length;
    /* The opening of a named pipe would wait. */
    int file = open_segment(log, id, O_RDONLY | O_NONBLOCK);
    struct stat status;

    if (fstat(file, &status) != 0)
        die("%s: segment %" PRIu64 " cannot be read: %s", log->path, id, strerror(errno));
    if (!S_ISREG(status.st_mode))
        die("%s: segment %" PRIu64 " is no file", log->path, id);
    if ((uint64_t)status.st_size > AREA_LEN - start)
        die("%s: the log is larger than its area of %d bytes", log->path, AREA_LEN);
    read_all(log, file, area + start, (size_t)status.st_size);
    close_or_die(log, file);
    log->active = (struct ringwal_segment){id, start, (uint64_t)status.st_size};
    ringwal_put_segment(directory, sizeof directory, log->used++, log->active);
}

void log_load(struct log *log, const char *path, enum purpose purpose)
{
    static uint64_t ids[RINGWAL_DIRECTORY_MOST];
    size_t n;

    *log = (struct log){.path = path, .file = -1};
    log->dir = open(path, O_RDONLY | O_DIRECTORY | O_CLOEXEC);
    if (log->dir < 0)
        die("%s: cannot be read: %s", path, strerror(errno));
    /* Freed when the program ends, however it ends. */
    if (flock(log->dir, (purpose == TO_WRITE ? LOCK_EX : LOCK_SH) | LOCK_NB) != 0)
        die("%s: is used by another program: %s", path, strerror(errno));
    n = list_ids(log, ids);
    qsort(ids, n, sizeof *ids, compare_ids);
    for (size_t i = 0; i < n; i++)
        load_segment(log, ids[i]);
}

void log_close(struct log *log)
{
    if (log->file >= 0)
        close_or_die(log, log->file);
    close_or_die(log, log->dir);
}

/* ---- The table */

size_t log_replay(struct log *log)
{
    size_t rows = 0;
    struct ringwal_recover_answer answer = ringwal_recover_into_store(
        area, sizeof area, directory, sizeof directory, log->used,
        entries, sizeof entries, transactions, sizeof transactions, table, sizeof table);

    accept_or_die("replay", answer.refusal);
    if (answer.checksum_failures > 0)
        fprintf(stderr, "skid: %zu segments are damaged, and read up to there\n", answer.checksum_failures);
    while (ringwal_row_at(table, sizeof table, rows).mark == RINGWAL_LIVE)
        rows++;
    return rows;
}

void log_row(size_t k, struct bytes *key, struct bytes *value)
{
    const uint8_t *record = table + k * RINGWAL_TABLE_RECORD;
    struct ringwal_row row = ringwal_row_at(table, sizeof table, k);

    *key = (struct bytes){record + RINGWAL_TABLE_KEY, row.key_len};
    *value = (struct bytes){record + RINGWAL_TABLE_VALUE, row.value_len};
}

bool log_find(size_t rows, struct bytes key, struct bytes *value)
{
    struct ringwal_find_answer answer = ringwal_find(table, sizeof table, rows, key.at, key.len);
    struct bytes found;

    if (answer.is_found)
        log_row(answer.place, &found, value);
    return answer.is_found != 0;
}

/* ---- Writing */

static uint64_t first_number(const struct ringwal_recover_answer *answer)
{
    if (answer->next == RINGWAL_NEXT_EXHAUSTED)
        die("the transaction numbers are exhausted");
    return answer->next == RINGWAL_NEXT_NUMBER ? answer->next_number : 1;
}

void log_begin(struct log *log)
{
    struct ringwal_recover_answer recovered = ringwal_recover(
        area, sizeof area, directory, sizeof directory, log->used,
        entries, sizeof entries, transactions, sizeof transactions);
    struct ringwal_open_answer opened;

    accept_or_die("recovery", recovered.refusal);
    log->tx_id = first_number(&recovered);
    log->lsn = recovered.entries + 1;
    /* What was recovered is built upon from here: it has to be on the disk. */
    if (log->used > 0) {
        int newest = open_segment(log, log->active.id, O_RDONLY);

        sync_or_die(log, newest);
        close_or_die(log, newest);
    }
    opened = ringwal_open(ringwal_new(SEGMENT_BOUND), area, sizeof area, directory, sizeof directory, &log->used);
    accept_or_die("opening", opened.refusal);
    log->writer = opened.writer;
}

/* The file of a segment that gets its first byte: what was written before is synced, and then the new name. */
static void change_file(struct log *log, uint64_t id)
{
    if (log->file >= 0) {
        sync_or_die(log, log->file);
        close_or_die(log, log->file);
    }
    log->file = open_segment(log, id, O_WRONLY | O_CREAT | O_EXCL);
    if (fsync(log->dir) != 0)
        die("%s: cannot be synced: %s", log->path, strerror(errno));
}

void log_append(struct log *log, uint64_t kind, struct bytes key, struct bytes old_value, struct bytes new_value)
{
    struct ringwal_write_answer answer;
    struct ringwal_segment active;

    /* It wrapped: 2^64 - 1 was the last. */
    if (log->tx_id == 0)
        die("the transaction numbers are exhausted");
    answer = ringwal_append_in_place(
        &log->writer, area, sizeof area, directory, sizeof directory, &log->used,
        log->lsn, kind, log->tx_id, (uint64_t)time(NULL),
        key.at, key.len, old_value.at, old_value.len, new_value.at, new_value.len);
    accept_or_die("an entry", answer.refusal);
    active = ringwal_segment_at(directory, sizeof directory, log->used - 1);
    if (log->file < 0 || active.id != log->active.id)
        change_file(log, active.id);
    write_all(log, area + active.start + active.length - answer.len, answer.len);
    log->active = active;
    log->lsn++;
}

void log_end(struct log *log, uint64_t marker)
{
    log_append(log, marker, NO_BYTES, NO_BYTES, NO_BYTES);
    sync_or_die(log, log->file);
    log->tx_id++;
}

void log_file_name(const struct log *log, char name[RINGWAL_NAME_MOST + 1])
{
    name_of(log->active.id, name);
}
