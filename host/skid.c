/* A bench skid: settings kept in a log of real files.
 *
 *   skid set DIR KEY VALUE    one transaction
 *   skid get DIR KEY          the key's value
 *   skid table DIR            every key and its value, a tab between them
 *   skid log DIR              a stream of transactions from standard input, in lines: `set KEY VALUE`, `delete KEY`,
 *                             `commit`, `abort`
 *
 * `set` and `log` acknowledge a transaction on standard output once its bytes and its marker are synced: `committed` or
 * `aborted`, its number, the file of its marker and the length that the file then has.
 */
#include "log.h"

#include <errno.h>
#include <inttypes.h>
#include <stdio.h>
#include <stdlib.h>
#include <string.h>

static struct bytes text(const char *s)
{
    return (struct bytes){(const uint8_t *)s, strlen(s)};
}

static void flush_or_die(void)
{
    if (fflush(stdout) != 0 || ferror(stdout))
        die("standard output: %s", strerror(errno));
}

/* Ends the transaction, and acknowledges it. */
static void end(struct log *log, uint64_t marker)
{
    char name[RINGWAL_NAME_MOST + 1];
    uint64_t tx_id = log->tx_id;

    log_end(log, marker);
    log_file_name(log, name);
    printf("%s %" PRIu64 " %s %" PRIu64 "\n", marker == RINGWAL_COMMIT ? "committed" : "aborted", tx_id, name,
           log->active.length);
    flush_or_die();
}

static void set(const char *path, const char *key, const char *value)
{
    struct log log;

    log_load(&log, path, TO_WRITE);
    log_begin(&log);
    log_append(&log, RINGWAL_INSERT, text(key), NO_BYTES, text(value));
    end(&log, RINGWAL_COMMIT);
    log_close(&log);
}

static void get(const char *path, const char *key)
{
    struct bytes value;
    struct log log;

    log_load(&log, path, TO_READ);
    if (!log_find(log_replay(&log), text(key), &value))
        die("%s: no such key", key);
    fwrite(value.at, 1, value.len, stdout);
    putchar('\n');
    flush_or_die();
    log_close(&log);
}

/* Control characters and backslashes as `\xNN`, so that a row is a line with one tab. */
static void print_escaped(struct bytes s)
{
    for (size_t i = 0; i < s.len; i++) {
        uint8_t c = s.at[i];

        if (c < 0x20 || c == 0x7f || c == '\\')
            printf("\\x%02x", c);
        else
            putchar(c);
    }
}

static void print_table(const char *path)
{
    struct bytes key, value;
    struct log log;
    size_t rows;

    log_load(&log, path, TO_READ);
    rows = log_replay(&log);
    for (size_t k = 0; k < rows; k++) {
        log_row(k, &key, &value);
        print_escaped(key);
        putchar('\t');
        print_escaped(value);
        putchar('\n');
    }
    flush_or_die();
    log_close(&log);
}

static bool is(struct bytes s, const char *word)
{
    return s.len == strlen(word) && memcmp(s.at, word, s.len) == 0;
}

/* Cuts a text at its first space; false where it has none. */
static bool cut(struct bytes s, struct bytes *word, struct bytes *rest)
{
    const uint8_t *space = memchr(s.at, ' ', s.len);

    if (space == NULL)
        return false;
    *word = (struct bytes){s.at, (size_t)(space - s.at)};
    *rest = (struct bytes){space + 1, s.len - word->len - 1};
    return true;
}

static void run_line(struct log *log, struct bytes line, size_t number)
{
    struct bytes verb, rest, key, value;

    if (is(line, "commit"))
        end(log, RINGWAL_COMMIT);
    else if (is(line, "abort"))
        end(log, RINGWAL_ABORT);
    else if (cut(line, &verb, &rest) && is(verb, "delete"))
        log_append(log, RINGWAL_DELETE, rest, NO_BYTES, NO_BYTES);
    else if (cut(line, &verb, &rest) && is(verb, "set") && cut(rest, &key, &value))
        log_append(log, RINGWAL_INSERT, key, NO_BYTES, value);
    else
        die("standard input, line %zu: neither set, delete, commit nor abort", number);
}

static void write_log(const char *path)
{
    struct log log;
    char *line = NULL;
    size_t room = 0;
    ssize_t len;

    log_load(&log, path, TO_WRITE);
    log_begin(&log);
    for (size_t number = 1; (len = getline(&line, &room, stdin)) >= 0; number++) {
        if (len > 0 && line[len - 1] == '\n')
            len--;
        run_line(&log, (struct bytes){(const uint8_t *)line, (size_t)len}, number);
    }
    if (ferror(stdin))
        die("standard input: %s", strerror(errno));
    free(line);
    log_close(&log);
}

int main(int argc, char **argv)
{
    const char *verb = argc > 1 ? argv[1] : "";

    if (strcmp(verb, "set") == 0 && argc == 5)
        set(argv[2], argv[3], argv[4]);
    else if (strcmp(verb, "get") == 0 && argc == 4)
        get(argv[2], argv[3]);
    else if (strcmp(verb, "table") == 0 && argc == 3)
        print_table(argv[2]);
    else if (strcmp(verb, "log") == 0 && argc == 3)
        write_log(argv[2]);
    else {
        fputs("usage: skid set DIR KEY VALUE | get DIR KEY | table DIR | log DIR\n", stderr);
        return 2;
    }
    return EXIT_SUCCESS;
}
