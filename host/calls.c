/* Runs every call of ringwal.h. Nothing else holds the header against the library: each number that goes in or comes out
 * here differs from its neighbours, so that two that changed places show. The expected numbers are document 01's, or follow
 * from its entry bytes. */
#include <ringwal.h>

#include <inttypes.h>
#include <stdio.h>
#include <stdlib.h>
#include <string.h>

static uint8_t area[400];
static uint8_t directory[4 * RINGWAL_DIRECTORY_RECORD];
static uint8_t entries[8 * RINGWAL_ENTRY_RECORD];
static uint8_t transactions[8 * RINGWAL_TRANSACTION_RECORD];
static uint8_t table[4 * RINGWAL_TABLE_RECORD];
static size_t used;

#define AREA area, sizeof area
#define DIRECTORY directory, sizeof directory
#define LISTS entries, sizeof entries, transactions, sizeof transactions
#define TEXT(s) (const uint8_t *)(s), sizeof(s) - 1

static void expect(int line, const char *what, uint64_t is, uint64_t should)
{
    if (is == should)
        return;
    fprintf(stderr, "calls.c:%d: %s is %" PRIu64 ", not %" PRIu64 "\n", line, what, is, should);
    exit(EXIT_FAILURE);
}

#define EXPECT(is, should) expect(__LINE__, #is, (uint64_t)(is), (uint64_t)(should))

static void expect_writer(int line, struct ringwal_writer w, uint64_t bound, uint64_t count, uint64_t first, uint64_t last)
{
    expect(line, "bound", w.max_segment_size, bound);
    expect(line, "entry count", w.entry_count, count);
    expect(line, "first lsn", w.first_lsn, first);
    expect(line, "last lsn", w.last_lsn, last);
}

static void expect_segment(int line, size_t k, uint64_t id, uint64_t start, uint64_t length)
{
    struct ringwal_segment s = ringwal_segment_at(DIRECTORY, k);

    expect(line, "id", s.id, id);
    expect(line, "start", s.start, start);
    expect(line, "length", s.length, length);
}

/* An insert of 51 bytes and a commit of 33 in segment 1; an update of 66 and a commit in segment 2; a raw payload. */
static void writing(void)
{
    struct ringwal_open_answer opened = ringwal_open(ringwal_new(84), AREA, DIRECTORY, &used);
    struct ringwal_append_answer appended;
    struct ringwal_write_answer written;
    struct ringwal_writer writer;

    expect_writer(__LINE__, ringwal_with_default_size(), 49152, 0, 0, 0);
    EXPECT(opened.refusal, 0);
    EXPECT(used, 1);
    expect_writer(__LINE__, opened.writer, 84, 0, 0, 0);

    appended = ringwal_append(opened.writer, AREA, DIRECTORY, &used, 11, RINGWAL_INSERT, 1, 5,
                              TEXT("a"), TEXT("unseen"), TEXT("9"));
    EXPECT(appended.refusal, 0);
    EXPECT(appended.len, 51);
    expect_writer(__LINE__, appended.writer, 84, 1, 11, 11);

    writer = appended.writer;
    written = ringwal_append_in_place(&writer, AREA, DIRECTORY, &used, 12, RINGWAL_COMMIT, 1, 6,
                                      TEXT(""), TEXT(""), TEXT(""));
    EXPECT(written.refusal, 0);
    EXPECT(written.len, 33);
    expect_writer(__LINE__, writer, 84, 2, 11, 12);
    expect_segment(__LINE__, 0, 1, 0, 84);

    /* At its bound: the append rotates. */
    written = ringwal_append_in_place(&writer, AREA, DIRECTORY, &used, 13, RINGWAL_UPDATE, 7, 8,
                                      TEXT("bc"), TEXT("def"), TEXT("ghij"));
    EXPECT(written.len, 13 + 20 + 8 + 2 + 8 + 3 + 8 + 4);
    EXPECT(used, 2);
    expect_writer(__LINE__, writer, 84, 1, 13, 13);
    written = ringwal_append_in_place(&writer, AREA, DIRECTORY, &used, 14, RINGWAL_COMMIT, 7, 9,
                                      TEXT(""), TEXT(""), TEXT(""));
    EXPECT(written.refusal, 0);
    expect_segment(__LINE__, 1, 2, 84, 66 + 33);

    opened = ringwal_rotate(writer, AREA, DIRECTORY, &used);
    EXPECT(opened.refusal, 0);
    EXPECT(used, 3);
    expect_writer(__LINE__, opened.writer, 84, 0, 0, 0);
    appended = ringwal_append_entry(opened.writer, AREA, DIRECTORY, &used, 15, TEXT("raw"));
    EXPECT(appended.refusal, 0);
    EXPECT(appended.len, 16);
    expect_segment(__LINE__, 2, 3, 183, 16);
}

/* A refused call leaves the used count and the state. */
static void refusals(void)
{
    struct ringwal_writer writer = {84, 2, 11, 12};
    struct ringwal_append_answer appended;
    struct ringwal_write_answer written;

    written = ringwal_append_in_place(&writer, AREA, DIRECTORY, &used, 16, 5, 1, 1, TEXT("k"), TEXT(""), TEXT(""));
    EXPECT(written.refusal, RINGWAL_INVALID_ENTRY);
    EXPECT(written.len, 0);
    EXPECT(used, 3);
    expect_writer(__LINE__, writer, 84, 2, 11, 12);
    appended = ringwal_append_entry(writer, AREA, directory, 23, &used, 16, TEXT("raw"));
    EXPECT(appended.refusal, RINGWAL_INVALID_BUFFER);
    EXPECT(appended.len, 0);
    expect_writer(__LINE__, appended.writer, 84, 2, 11, 12);
    EXPECT(ringwal_recover(AREA, DIRECTORY, 9, LISTS).refusal, RINGWAL_INVALID_DIRECTORY);
}

static void recovery(void)
{
    struct ringwal_recover_answer answer = ringwal_recover(AREA, DIRECTORY, used, LISTS);
    struct ringwal_entry entry = ringwal_entry_at(entries, sizeof entries, 2);
    struct ringwal_transaction transaction = ringwal_transaction_at(transactions, sizeof transactions, 1);
    struct ringwal_decode_answer decoded;

    EXPECT(answer.refusal, 0);
    EXPECT(answer.total_transactions, 2);
    EXPECT(answer.committed, 2);
    EXPECT(answer.aborted, 0);
    EXPECT(answer.incomplete, 0);
    EXPECT(answer.partial_writes, 0);
    EXPECT(answer.checksum_failures, 1);
    EXPECT(answer.entries, 4);
    EXPECT(answer.next, RINGWAL_NEXT_NUMBER);
    EXPECT(answer.next_number, 8);
    EXPECT(entry.tx_id, 7);
    EXPECT(entry.place, 84 + RINGWAL_HEADER);
    EXPECT(entry.len, 53);
    EXPECT(entry.kind, RINGWAL_UPDATE);
    EXPECT(transaction.tx_id, 7);
    EXPECT(transaction.action, RINGWAL_COMMITTED);
    EXPECT(transaction.count, 1);

    decoded = ringwal_decode(area + entry.place, entry.len);
    EXPECT(decoded.is_entry, 1);
    EXPECT(decoded.kind, RINGWAL_UPDATE);
    EXPECT(decoded.tx_id, 7);
    EXPECT(decoded.timestamp, 8);
    EXPECT(decoded.used, 53);
    EXPECT(decoded.parts.key.start, 28);
    EXPECT(decoded.parts.key.len, 2);
    EXPECT(decoded.parts.old_value.start, 38);
    EXPECT(decoded.parts.old_value.len, 3);
    EXPECT(decoded.parts.new_value.start, 49);
    EXPECT(decoded.parts.new_value.len, 4);
    decoded = ringwal_decode(area + 51 + RINGWAL_HEADER, 20);
    EXPECT(decoded.is_entry, 1);
    EXPECT(decoded.kind, RINGWAL_COMMIT);
    EXPECT(ringwal_decode(TEXT("raw")).is_entry, 0);
}

/* The 84 bytes of segment 1 cut by one, and the 66 of the update too. */
static void torn(void)
{
    uint8_t two[2 * RINGWAL_DIRECTORY_RECORD];
    struct ringwal_recover_answer answer;
    struct ringwal_transaction transaction;

    ringwal_put_segment(two, sizeof two, 0, (struct ringwal_segment){1, 0, 83});
    ringwal_put_segment(two, sizeof two, 1, (struct ringwal_segment){2, 84, 65});
    answer = ringwal_recover(AREA, two, sizeof two, 2, LISTS);
    EXPECT(answer.total_transactions, 1);
    EXPECT(answer.committed, 0);
    EXPECT(answer.aborted, 0);
    EXPECT(answer.incomplete, 1);
    EXPECT(answer.partial_writes, 2);
    EXPECT(answer.checksum_failures, 0);
    EXPECT(answer.entries, 1);
    transaction = ringwal_transaction_at(transactions, sizeof transactions, 0);
    EXPECT(transaction.action, RINGWAL_INCOMPLETE);
    EXPECT(transaction.count, 1);
}

/* An abort of the greatest number; and no log at all. */
static void edges(void)
{
    size_t none = 0;
    struct ringwal_open_answer opened = ringwal_open(ringwal_new(84), AREA, DIRECTORY, &none);
    struct ringwal_recover_answer answer;

    ringwal_append(opened.writer, AREA, DIRECTORY, &none, 1, RINGWAL_ABORT, UINT64_MAX, 1, TEXT(""), TEXT(""), TEXT(""));
    answer = ringwal_recover(AREA, DIRECTORY, none, LISTS);
    EXPECT(answer.aborted, 1);
    EXPECT(answer.incomplete, 0);
    EXPECT(answer.next, RINGWAL_NEXT_EXHAUSTED);
    EXPECT(answer.next_number, 0);
    EXPECT(ringwal_transaction_at(transactions, sizeof transactions, 0).action, RINGWAL_ROLLED_BACK);
    EXPECT(ringwal_recover(AREA, DIRECTORY, 0, LISTS).next, RINGWAL_NEXT_UNCHANGED);
}

static void replay(void)
{
    struct ringwal_recover_answer answer = ringwal_recover_into_store(AREA, DIRECTORY, used, LISTS, table, sizeof table);
    struct ringwal_row row = ringwal_row_at(table, sizeof table, 1);
    struct ringwal_find_answer found = ringwal_find(table, sizeof table, 2, TEXT("bc"));

    EXPECT(answer.refusal, 0);
    EXPECT(answer.committed, 2);
    EXPECT(row.mark, RINGWAL_LIVE);
    EXPECT(row.key_len, 2);
    EXPECT(row.value_len, 4);
    EXPECT(memcmp(table + RINGWAL_TABLE_RECORD + RINGWAL_TABLE_KEY, "bc", 2), 0);
    EXPECT(memcmp(table + RINGWAL_TABLE_RECORD + RINGWAL_TABLE_VALUE, "ghij", 4), 0);
    EXPECT(ringwal_row_at(table, sizeof table, 2).mark, RINGWAL_EMPTY);
    EXPECT(found.is_found, 1);
    EXPECT(found.place, 1);
    found = ringwal_find(table, sizeof table, 2, TEXT("zz"));
    EXPECT(found.is_found, 0);
    EXPECT(found.place, 2);
}

static void checkpoint(void)
{
    uint8_t stored[8] = {3};
    uint8_t target[9] = {0, 0, 0, 0, 0, 0, 0, 0, 42};
    struct ringwal_checkpoint_answer answer;
    struct ringwal_truncate_answer truncated;

    answer = ringwal_checkpoint(AREA, DIRECTORY, used, LISTS, stored, sizeof stored, target, sizeof target);
    EXPECT(answer.refusal, 0);
    EXPECT(answer.number, 7);
    EXPECT(ringwal_read_checkpoint(target, 8), 7);
    EXPECT(ringwal_read_checkpoint(target, 9), 0);
    EXPECT(target[8], 42);
    answer = ringwal_checkpoint(AREA, DIRECTORY, used, LISTS, target, 8, stored, sizeof stored);
    EXPECT(answer.refusal, RINGWAL_NO_NEW_CHECKPOINTS);
    EXPECT(answer.number, 0);

    truncated = ringwal_truncate_segments_before(AREA, DIRECTORY, &used, 7);
    EXPECT(truncated.refusal, 0);
    EXPECT(truncated.count, 1);
    EXPECT(used, 2);
    expect_segment(__LINE__, 0, 2, 84, 99);
}

static void names(void)
{
    uint8_t name[RINGWAL_NAME_MOST];
    struct ringwal_name_answer named = ringwal_segment_name(17, name, sizeof name);
    struct ringwal_parse_answer parsed;

    EXPECT(named.refusal, 0);
    EXPECT(named.len, 16);
    EXPECT(memcmp(name, "wal-00000017.log", 16), 0);
    EXPECT(ringwal_segment_name(17, name, 15).refusal, RINGWAL_INVALID_BUFFER);
    parsed = ringwal_parse_segment_name(name, 16);
    EXPECT(parsed.is_name, 1);
    EXPECT(parsed.id, 17);
    EXPECT(parsed.kept, 1);
    parsed = ringwal_parse_segment_name(TEXT("wal-+5.log"));
    EXPECT(parsed.is_name, 1);
    EXPECT(parsed.id, 5);
    EXPECT(parsed.kept, 0);
    EXPECT(ringwal_parse_segment_name(TEXT("wal-.log")).is_name, 0);
}

int main(void)
{
    writing();
    refusals();
    recovery();
    torn();
    replay();
    checkpoint();
    names();
    edges();
    EXPECT(ringwal_crc32(TEXT("123456789")), 0xcbf43926);
    puts("every call of ringwal.h answers as it says");
    return EXIT_SUCCESS;
}
