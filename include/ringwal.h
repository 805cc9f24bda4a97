/* A write-ahead log over lent memory, for C.
 *
 * The library takes no memory of its own and opens no file. A host lends it byte buffers; every call says what each of them
 * holds afterwards, refused or not. What is said here is proved of the code (crates/ringwal_c), for any contents of the
 * buffers and any numbers. What the code can't know is asked of the host alone:
 *
 *   - a pointer is not NULL, also where its length is 0, and is good for its length, in reading and, without `const`, in
 *     writing;
 *   - of what one call is lent, buffers, used count and state, nothing that it writes overlaps anything else.
 *
 * Archives are built for x86-64 Linux. Nothing checks this file against the library but host/calls.c, which runs every
 * call.
 */
#ifndef RINGWAL_H
#define RINGWAL_H

#include <stddef.h>
#include <stdint.h>

#ifdef __cplusplus
extern "C" {
#endif

/* ---- What a host lends
 *
 *   area          segment images, as bytes
 *   directory     24 bytes a record: id, start, length
 *   entry list    32 bytes a record: tx number, place of payload in area, payload length, kind byte, 7 zeros
 *   transactions  24 bytes a record: tx number, action byte, 7 zeros, count of non-marker entries
 *   table         320 bytes a record: mark (1 byte), key length (1), value length (2), 64 key bytes, 252 value bytes
 *
 * Numbers are little endian, 8 bytes unless said. The directory comes with a used count, at most its records. Used ids
 * strictly ascend; each start is at or after the end before it (0 for the first); each end lies in the area. Transactions
 * strictly ascend by number, table records by key bytes, a proper prefix first. The entry list holds every good entry,
 * markers too, in reading order. All three are dense from the front. Records after the last used one are zero at every
 * byte, and so are unused key and value bytes. Unused directory records aren't tested.
 */
#define RINGWAL_AREA_MOST 1073741824
#define RINGWAL_DIRECTORY_RECORD 24
#define RINGWAL_DIRECTORY_MOST 4096
#define RINGWAL_ENTRY_RECORD 32
#define RINGWAL_ENTRY_MOST 1048576
#define RINGWAL_TRANSACTION_RECORD 24
#define RINGWAL_TRANSACTION_MOST 65536
#define RINGWAL_TABLE_RECORD 320
#define RINGWAL_TABLE_MOST 16384

/* Limits of a well-formed entry, and where key and value stand in a table record. */
#define RINGWAL_KEY_MOST 64
#define RINGWAL_VALUE_MOST 252
#define RINGWAL_TABLE_KEY 4
#define RINGWAL_TABLE_VALUE 68

/* An entry's bytes before its payload: payload length (8), CRC-32 of the payload (4), version (1). */
#define RINGWAL_HEADER 13

/* The longest name of a segment's file: 20 digits. */
#define RINGWAL_NAME_MOST 28

/* Kinds of entries, actions of transactions, marks of table records. */
enum { RINGWAL_INSERT, RINGWAL_UPDATE, RINGWAL_DELETE, RINGWAL_COMMIT, RINGWAL_ABORT };
enum { RINGWAL_INCOMPLETE, RINGWAL_COMMITTED, RINGWAL_ROLLED_BACK };
enum { RINGWAL_EMPTY, RINGWAL_LIVE };

/* ---- Refusal numbers
 *
 * 0 where a call isn't refused. Else the lowest number that applies; 8 and 9 concern the same first entry, 8 before 9.
 * Every refusal leaves the directory, the used count, area, writer state and name and checkpoint targets unchanged. In
 * recovery, replay and checkpoint, 1 and 2 change nothing; 6 to 9 leave entry list, transactions and table, where lent,
 * zero throughout. A refused answer's counts are all 0. With 10, the lists hold the recovery's results.
 */
enum {
    RINGWAL_ACCEPTED = 0,
    /* a buffer is over its most, or not whole records, or a target for a name or a checkpoint is too short for it */
    RINGWAL_INVALID_BUFFER = 1,
    /* the directory breaks its rule, or append finds a used count of 0 */
    RINGWAL_INVALID_DIRECTORY = 2,
    /* entry call: kind over 4, key not UTF-8 or over 64 bytes, or a value over 252 */
    RINGWAL_INVALID_ENTRY = 3,
    /* a new segment is needed and the last id is 2^64 - 1 */
    RINGWAL_NO_NEXT_SEGMENT_ID = 4,
    /* a new segment finds no unused directory record, or 13 + payload exceeds the area left after the last segment's end */
    RINGWAL_NO_ROOM = 5,
    /* more accepted entries than entry records */
    RINGWAL_ENTRY_LIST_FULL = 6,
    /* more distinct numbers than transaction records */
    RINGWAL_TRANSACTIONS_FULL = 7,
    /* replay: the first unappliable entry is an insert or update with key over 64 or new value over 252 */
    RINGWAL_EXCEEDS_TABLE_RECORD = 8,
    /* replay: the first unappliable entry fits but needs a new record in a full table */
    RINGWAL_TABLE_FULL = 9,
    /* checkpoint: no committed number exceeds the stored one */
    RINGWAL_NO_NEW_CHECKPOINTS = 10
};

/* ---- Writing
 *
 * The state holds the size bound, and entry count and first and last log number of the active segment; a first number of 0
 * counts as unset. A new segment sets all three to 0; the count wraps at 2^64. The state goes in by value and comes back in
 * the answer; of a refused call it comes back as it went in. `used` is the directory's used count, in and out.
 */
struct ringwal_writer {
    uint64_t max_segment_size;
    uint64_t entry_count;
    uint64_t first_lsn;
    uint64_t last_lsn;
};

struct ringwal_open_answer {
    uint64_t refusal;
    struct ringwal_writer writer;
};

struct ringwal_append_answer {
    uint64_t refusal;
    /* the bytes written, header included */
    size_t len;
    struct ringwal_writer writer;
};

struct ringwal_write_answer {
    uint64_t refusal;
    /* the bytes written, header included */
    size_t len;
};

/* A state with this size bound, and three zeros. */
struct ringwal_writer ringwal_new(uint64_t max_segment_size);

/* The same with the default bound, 49,152 bytes. */
struct ringwal_writer ringwal_with_default_size(void);

/* Open before the first append of each run: a new segment stands behind a torn end, and recovery would not find an entry that
 * was appended to one. Opening adds an empty segment: id 1 at 0 for an empty directory, else last id plus one, at the last
 * end. A new segment takes the next directory record and leaves those after it. Refused with 1, 2, 4, 5. */
struct ringwal_open_answer ringwal_open(struct ringwal_writer writer,
    const uint8_t *area, size_t area_len,
    uint8_t *directory, size_t directory_len, size_t *used);

/* A new segment behind the active one; on an empty directory as opening. Refused with 1, 2, 4, 5. */
struct ringwal_open_answer ringwal_rotate(struct ringwal_writer writer,
    const uint8_t *area, size_t area_len,
    uint8_t *directory, size_t directory_len, size_t *used);

/* The raw call: appends any payload under the log number `lsn`. Append first rotates if the active length is at or above the
 * bound, so a segment may pass its bound by one entry. Bound 0 rotates before every append. Each append is all or nothing,
 * rotation included. Refused with 1, 2, 4, 5. */
struct ringwal_append_answer ringwal_append_entry(struct ringwal_writer writer,
    uint8_t *area, size_t area_len,
    uint8_t *directory, size_t directory_len, size_t *used,
    uint64_t lsn, const uint8_t *payload, size_t payload_len);

/* The entry call: encodes, takes only well-formed entries, and looks only at the parts their kind has. An insert's value is
 * the new one, a delete's the old one. Refused with 1, 2, 3, 4, 5. */
struct ringwal_append_answer ringwal_append(struct ringwal_writer writer,
    uint8_t *area, size_t area_len,
    uint8_t *directory, size_t directory_len, size_t *used,
    uint64_t lsn, uint64_t kind, uint64_t tx_id, uint64_t timestamp,
    const uint8_t *key, size_t key_len,
    const uint8_t *old_value, size_t old_value_len,
    const uint8_t *new_value, size_t new_value_len);

/* The entry call on a state that is changed in place. */
struct ringwal_write_answer ringwal_append_in_place(struct ringwal_writer *writer,
    uint8_t *area, size_t area_len,
    uint8_t *directory, size_t directory_len, size_t *used,
    uint64_t lsn, uint64_t kind, uint64_t tx_id, uint64_t timestamp,
    const uint8_t *key, size_t key_len,
    const uint8_t *old_value, size_t old_value_len,
    const uint8_t *new_value, size_t new_value_len);

/* ---- Recovery
 *
 * Segments are read by ascending id. In each: fewer than 13 bytes left but at least 1 is a partial write; a length above
 * what is left is a partial write; a wrong checksum or undecodable payload is a checksum failure. Each ends that segment
 * only; the next is read. The last marker of a number decides. All its non-marker entries belong to it, those after the
 * marker too.
 */
enum { RINGWAL_NEXT_UNCHANGED, RINGWAL_NEXT_NUMBER, RINGWAL_NEXT_EXHAUSTED };

struct ringwal_recover_answer {
    uint64_t refusal;
    /* the number of distinct numbers; committed, aborted and incomplete add up to it */
    size_t total_transactions;
    size_t committed;
    size_t aborted;
    size_t incomplete;
    size_t partial_writes;
    size_t checksum_failures;
    /* how many records of the entry list are used; of the transactions it is the total */
    size_t entries;
    /* unchanged if the highest number is 0, the highest plus one otherwise, and exhausted at 2^64 - 1 */
    uint64_t next;
    /* the number, where there is one, else 0 */
    uint64_t next_number;
};

struct ringwal_checkpoint_answer {
    uint64_t refusal;
    uint64_t number;
};

struct ringwal_truncate_answer {
    uint64_t refusal;
    /* how many segments were dropped */
    size_t count;
};

/* Fills entry list and transactions. Refused with 1, 2, 6, 7. */
struct ringwal_recover_answer ringwal_recover(
    const uint8_t *area, size_t area_len,
    const uint8_t *directory, size_t directory_len, size_t used,
    uint8_t *entries, size_t entries_len,
    uint8_t *transactions, size_t transactions_len);

/* Replay: runs the recovery itself and trusts no lists, empties the table, then applies committed transactions by ascending
 * number, each one's entries in log order. Insert and update set; delete of an absent key, over-long ones too, does nothing.
 * Old values aren't looked at. An accepted replay answers as recovery does. Refused with 1, 2, 6, 7, 8, 9. */
struct ringwal_recover_answer ringwal_recover_into_store(
    const uint8_t *area, size_t area_len,
    const uint8_t *directory, size_t directory_len, size_t used,
    uint8_t *entries, size_t entries_len,
    uint8_t *transactions, size_t transactions_len,
    uint8_t *table, size_t table_len);

/* A checkpoint image not exactly 8 bytes reads as 0. */
uint64_t ringwal_read_checkpoint(const uint8_t *image, size_t image_len);

/* Runs the recovery itself. Answers the highest committed number if above the stored one, and writes its 8 bytes at the
 * target's start, the rest unchanged. Refused with 1, 2, 6, 7, 10. */
struct ringwal_checkpoint_answer ringwal_checkpoint(
    const uint8_t *area, size_t area_len,
    const uint8_t *directory, size_t directory_len, size_t used,
    uint8_t *entries, size_t entries_len,
    uint8_t *transactions, size_t transactions_len,
    const uint8_t *stored, size_t stored_len,
    uint8_t *target, size_t target_len);

/* Drops every directory record but the last whose segment's highest number m has 0 < m < checkpoint. That scan stops at a
 * partial write or wrong checksum but passes over an undecodable payload. The kept records close up in order, the freed ones
 * become zero. Area bytes stay. Refused with 1, 2. */
struct ringwal_truncate_answer ringwal_truncate_segments_before(
    const uint8_t *area, size_t area_len,
    uint8_t *directory, size_t directory_len, size_t *used,
    uint64_t checkpoint);

/* ---- Names
 *
 * A segment's file is `wal-`, the id padded to at least 8 digits, `.log`. Reading a name takes one or more digits with an
 * optional leading `+`, below 2^64. Only names are kept that writing gives back, or one file would be read twice.
 */
struct ringwal_name_answer {
    uint64_t refusal;
    size_t len;
};

struct ringwal_parse_answer {
    /* 1, or 0 where there is no name */
    uint64_t is_name;
    uint64_t id;
    /* 1 where writing the id gives the same name back */
    uint64_t kept;
};

/* Writes the name at the target's start, without a zero behind it, and leaves the bytes after it unchanged. Refused with
 * 1. */
struct ringwal_name_answer ringwal_segment_name(uint64_t id, uint8_t *target, size_t target_len);

/* Never refused. */
struct ringwal_parse_answer ringwal_parse_segment_name(const uint8_t *name, size_t name_len);

/* ---- Records
 *
 * Record k of a buffer. What lies past the buffer's end reads as 0.
 */
struct ringwal_segment {
    uint64_t id;
    uint64_t start;
    uint64_t length;
};

struct ringwal_entry {
    uint64_t tx_id;
    /* of the payload's first byte, in the area */
    uint64_t place;
    uint64_t len;
    uint64_t kind;
};

struct ringwal_transaction {
    uint64_t tx_id;
    uint64_t action;
    /* of the entries that are no markers */
    uint64_t count;
};

struct ringwal_row {
    uint64_t mark;
    size_t key_len;
    size_t value_len;
};

struct ringwal_find_answer {
    /* 1, or 0 where the key has no record: `place` is then that of its gap */
    uint64_t is_found;
    size_t place;
};

struct ringwal_segment ringwal_segment_at(const uint8_t *directory, size_t directory_len, size_t k);
struct ringwal_entry ringwal_entry_at(const uint8_t *entries, size_t entries_len, size_t k);
struct ringwal_transaction ringwal_transaction_at(const uint8_t *transactions, size_t transactions_len, size_t k);
struct ringwal_row ringwal_row_at(const uint8_t *table, size_t table_len, size_t k);

/* Writes record k; what lies past the directory's end isn't written. */
void ringwal_put_segment(uint8_t *directory, size_t directory_len, size_t k, struct ringwal_segment segment);

/* The place of a key among the first `rows` records of a table whose keys ascend, as replay leaves it. Of another table the
 * answer says nothing about the key. */
struct ringwal_find_answer ringwal_find(const uint8_t *table, size_t table_len, size_t rows,
    const uint8_t *key, size_t key_len);

/* ---- Entries
 *
 * A payload: a 4-byte kind, tx number, timestamp; then Insert key, value; Update key, old value, new value; Delete key, old
 * value. A key or value is an 8-byte length and its bytes. Decoding fails on another kind, on a length beyond what is left,
 * or on a key that isn't UTF-8. Bytes left over after a good entry are allowed.
 */
/* A place in the payload. */
struct ringwal_span {
    size_t start;
    size_t len;
};

/* A part that the kind does not have is empty, at 0. An insert's value is the new one, a delete's the old one. */
struct ringwal_parts {
    struct ringwal_span key;
    struct ringwal_span old_value;
    struct ringwal_span new_value;
};

struct ringwal_decode_answer {
    /* 1, or 0 where decoding fails, and all else is then 0 */
    uint64_t is_entry;
    uint64_t kind;
    uint64_t tx_id;
    uint64_t timestamp;
    /* how many bytes the entry took */
    size_t used;
    struct ringwal_parts parts;
};

struct ringwal_decode_answer ringwal_decode(const uint8_t *payload, size_t payload_len);

/* CRC-32 of ITU-T V.42: reflected polynomial EDB88320 hex, start and final inversion all ones. */
uint32_t ringwal_crc32(const uint8_t *bytes, size_t len);

#ifdef __cplusplus
}
#endif

#endif
