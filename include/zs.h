/* The proved library, for C (from C99 on) and C++ (from C++11 on).
 *
 * Link target/staticlib/libzs.a, which `scripts/staticlib.sh zs` makes for x86-64 Linux (System V ABI). It calls nothing but C's memory functions
 * (memset, memcpy).
 *
 * Every function takes any bytes and any lists, and always returns.
 *
 * Byte strings are a pointer and a length. They are never written, and may overlap each other. An output of bytes, likewise a pointer and
 * a length, is written whole, save by the steps of a session, and must not overlap a byte string.
 *
 * Lists are a pointer to 64-bit numbers, aligned as such, and how many places there are. They must not overlap each other or the byte
 * strings. Numbers stand at the front, and zeros after them. Every call writes every place of every list, so a long list costs time
 * however few numbers are put on it.
 *
 * With length 0 any pointer may be NULL.
 *
 * Threads: nothing is allocated and nothing is kept between calls. Any number of calls may run at once, each with its own lists and outputs;
 * they may share byte strings, which nobody may write meanwhile. A call takes less than 64 KiB of stack (measured, not proved).
 *
 * Lengths that always suffice:
 *   work      file_len / 11, since a block with records or entries takes 11 bytes or more; of zs_compare that of the longer file
 *   opened    on a file that zs_check accepts: `blocks` of its answer
 *   results   on a file that zs_check accepts: `records` of its answer; for zs_read on any bytes: file_len
 *   list      of zs_compare: five times the sum of `records` in zs_check's answers for both files
 *   output    of zs_write and of a session: 2^30 bytes, since no file is longer; of zs_import_sim: 2 * dump_len
 * On other bytes there is no such length for zs_search: they can lead to one block again and again, and only the length of the opened
 * list bounds how often.
 */
#ifndef ZS_H
#define ZS_H

#include <stdbool.h>
#include <stddef.h>
#include <stdint.h>

#define ZS_VERSION "0.1.0"

/* ---- Answers. Without a refusal number and place are 0. After one every count and length is 0, and every list and output is zeros; only a
 * session and its output stay as they were. */

typedef struct zs_read_answer { uint64_t number, place, matches; } zs_read_answer;
typedef struct zs_checked { uint64_t number, place, blocks, records; } zs_checked;
typedef struct zs_found { uint64_t number, place, matches, opened; } zs_found;
typedef struct zs_written { uint64_t number, place, length; } zs_written;
typedef struct zs_compared { uint64_t number, place, which, differences; int64_t sum; } zs_compared;

/* A part of the file. */
typedef struct zs_part { uint64_t offset, length; } zs_part;

/* Where a match lies, from its number on a result list: the offset times 2^32, plus the length. */
static inline zs_part zs_unpack(uint64_t match)
{
    zs_part part = {match >> 32, match & 0xffffffffu};
    return part;
}

/* A part of the first of two files (which is 1) or of the second (which is 2). */
typedef struct zs_shown { uint64_t which, offset, length; } zs_shown;

/* A writing session. The figures are how many records were added, the offset of the last one's first byte, and where the next block will
 * begin, which is the end of all that stands in the output; each is 0 where there is nothing. All others belong to the session: hand them on as
 * they are. */
typedef struct zs_session {
    uint64_t records, last, next;
    uint64_t stage, blocks, per_block, per_index, start, count, payload, crc;
} zs_session;

/* The answer of a step, and the session after it. */
typedef struct zs_stepped { uint64_t number, place; zs_session session; } zs_stepped;

/* ---- Refusals: what `number` can be. README.md says what the place of each is, and what to do about it. */

typedef enum zs_refusal {
    ZS_OK = 0,
    ZS_TOO_LONG = 1,
    ZS_UNFINISHED = 2,
    ZS_BAD_MAGIC = 3,
    ZS_HEADER_TRUNCATED = 4,
    ZS_HEADER_CRC = 5,
    ZS_HEADER_TOO_SHORT = 6,
    ZS_UNKNOWN_CODEC = 7,
    ZS_FILE_LENGTH = 8,
    ZS_BAD_METADATA = 9,
    ZS_BLOCK_TRUNCATED = 10,
    ZS_NUMBER_TOO_WIDE = 11,
    ZS_NUMBER_NOT_SHORTEST = 12,
    ZS_BLOCK_LENGTH_ZERO = 13,
    ZS_BLOCK_CRC = 14,
    ZS_BAD_PAYLOAD = 15,
    ZS_RECORDS_UNSORTED = 16,
    ZS_NO_ROOT = 17,
    ZS_WORK_LIST_SHORT = 18,
    ZS_BAD_ENTRY = 19,
    ZS_NOT_A_TREE = 20,
    ZS_KEYS_UNSORTED = 21,
    ZS_WALK_UNSORTED = 22,
    ZS_DATA_BLOCKS_UNSORTED = 23,
    ZS_BAD_KEY = 24,
    ZS_DATA_HASH = 25,
    ZS_OPENED_LIST_SHORT = 26,
    ZS_RESULT_LIST_SHORT = 27,
    ZS_BAD_RECORDS = 28,
    ZS_INPUT_UNSORTED = 29,
    ZS_COUNT_OUT_OF_RANGE = 30,
    ZS_OUTPUT_SHORT = 31,
    ZS_BAD_DUMP = 32,
    ZS_BAD_NAME = 33,
    ZS_BAD_NUMBER_LENGTH = 34,
    ZS_DIFFERENCE_LIST_SHORT = 35
} zs_refusal;

/* What a number means, in a sentence. "This block" is the one at the place. */
static inline const char *zs_message(uint64_t number)
{
    switch (number) {
    case ZS_OK: return "nothing is refused";
    case ZS_TOO_LONG: return "the file is longer than 1073741824 bytes (2^30)";
    case ZS_UNFINISHED: return "the file isn't finished: its writer is still at work, or has stopped before the end";
    case ZS_BAD_MAGIC: return "this is no ZS file: it doesn't begin as one";
    case ZS_HEADER_TRUNCATED: return "the header doesn't fit in the file";
    case ZS_HEADER_CRC: return "the header's checksum is wrong: its bytes were changed";
    case ZS_HEADER_TOO_SHORT: return "the header is too short for its fields or its metadata";
    case ZS_UNKNOWN_CODEC: return "the codec isn't `none`, the only one that is read";
    case ZS_FILE_LENGTH: return "the file's length isn't the one that its header states";
    case ZS_BAD_METADATA: return "the metadata isn't one JSON object from { to }, in UTF-8 and nested at most 64 deep";
    case ZS_BLOCK_TRUNCATED: return "this block is cut off: its number or its bytes run past the end of the file";
    case ZS_NUMBER_TOO_WIDE: return "a number in this block takes more than nine bytes";
    case ZS_NUMBER_NOT_SHORTEST: return "a number in this block isn't written in its shortest form";
    case ZS_BLOCK_LENGTH_ZERO: return "this block has the length 0";
    case ZS_BLOCK_CRC: return "this block's checksum is wrong: its bytes were changed";
    case ZS_BAD_PAYLOAD: return "this block holds nothing, or something in it runs past its end";
    case ZS_RECORDS_UNSORTED: return "the records of this block are out of order";
    case ZS_NO_ROOT: return "the header doesn't name an index block as the root";
    case ZS_WORK_LIST_SHORT: return "there are more data and index blocks than the work list has places";
    case ZS_BAD_ENTRY: return "an entry of this index block names no block that fits it";
    case ZS_NOT_A_TREE: return "this block is named by no entry or by more than one, or is the root and is named";
    case ZS_KEYS_UNSORTED: return "the keys of this index block are out of order";
    case ZS_WALK_UNSORTED: return "the index leads to this data block after one that comes later in the file";
    case ZS_DATA_BLOCKS_UNSORTED: return "a record of this data block is less than one of the data block before it";
    case ZS_BAD_KEY: return "a key of this index block is greater than the first record it leads to, or less than a record before that";
    case ZS_DATA_HASH: return "the SHA-256 of the data isn't the one that the header states";
    case ZS_OPENED_LIST_SHORT: return "the search opens more blocks than the opened list has places";
    case ZS_RESULT_LIST_SHORT: return "more records match than there is room for";
    case ZS_BAD_RECORDS: return "the records to be written aren't each a length and as many bytes, or there are none, or a session's step is out of turn";
    case ZS_INPUT_UNSORTED: return "the records to be written are out of order";
    case ZS_COUNT_OUT_OF_RANGE: return "a count is out of range: 1 to 65535 records in a data block, 2 to 65535 entries in an index block";
    case ZS_OUTPUT_SHORT: return "the output is too short, or the file would be longer than 1073741824 bytes (2^30)";
    case ZS_BAD_DUMP: return "the dump isn't whole records: its length is no multiple of the name length plus 14, or the name length is above 241";
    case ZS_BAD_NAME: return "the name of a record isn't formed as one, or isn't followed by FF bytes to the end of its field";
    case ZS_BAD_NUMBER_LENGTH: return "a record states a number of more than 11 bytes";
    case ZS_DIFFERENCE_LIST_SHORT: return "there are more differences than the list has room for";
    default: return "no refusal has this number";
    }
}

/* ---- Functions. */

#ifdef __cplusplus
extern "C" {
#endif

/* Checks the whole file, and counts its ordinary blocks (data and index blocks) and its records. The work list needs a place for each
 * ordinary block, else the number is 18 (where nothing before it applies). Whatever it held before, it is all zeros after every call. */
zs_checked zs_check(const uint8_t *file, size_t file_len, uint64_t *work, size_t work_len);

/* Reads the file front to back. The result list receives one number for each record that matches, in file order: the offset of its first
 * byte times 2^32, plus its length, which zs_unpack takes apart. No such number is 0. 27: more records match than the list has places. Where
 * stop_given is false the bytes of stop have no influence. */
zs_read_answer zs_read(const uint8_t *file, size_t file_len, const uint8_t *start, size_t start_len, bool stop_given,
                       const uint8_t *stop, size_t stop_len, const uint8_t *prefix, size_t prefix_len, uint64_t *results,
                       size_t results_len);

/* Searches the file through its index. The opened list receives the offset of each block opened, in walk order, root first; the result
 * list is that of zs_read. 26: no place is left for a block to open; 27: none is left for a match. Any bytes may be searched; that every
 * match is found is promised for files that zs_check accepts. */
zs_found zs_search(const uint8_t *file, size_t file_len, const uint8_t *start, size_t start_len, bool stop_given,
                   const uint8_t *stop, size_t stop_len, const uint8_t *prefix, size_t prefix_len, uint64_t *opened,
                   size_t opened_len, uint64_t *results, size_t results_len);

/* Where the part of `length` bytes from `offset` on lies; 0, 0 where it isn't within the file. */
zs_part zs_record(const uint8_t *file, size_t file_len, uint64_t offset, uint64_t length);

/* Whether that part lies within the file. */
bool zs_within(const uint8_t *file, size_t file_len, uint64_t offset, uint64_t length);

/* Where the metadata lie, braces included; 0, 0 where the header is refused (1 to 9), and only then. Blocks aren't looked at. */
zs_part zs_metadata(const uint8_t *file, size_t file_len);

/* Whether the bytes are metadata that zs_write takes and a file may hold: one JSON object (RFC 8259) in UTF-8, from { to } with nothing
 * before or after it, objects and arrays nested at most 64 deep, itself among them. A file or metadata without that is refused with 9. */
bool zs_is_metadata(const uint8_t *bytes, size_t bytes_len);

/* Writes a file into the output: the metadata, and records that rise, each a length (uleb128 in shortest form) and as many bytes, one
 * after the other; so many records in a data block (1 to 65535) and so many entries in an index block (2 to 65535). The output then holds
 * the file and zeros after it, and `length` is the file's. Its index has the shortest keys that zs_check accepts. Refusals in this order:
 * 30 a count, 9 the metadata, 28 and 29 the records, 31 no room; after one the output is zeros. Every call writes every byte of the
 * output. A file written is one that zs_check accepts. */
zs_written zs_write(const uint8_t *metadata, size_t metadata_len, const uint8_t *records, size_t records_len, uint64_t per_block,
                    uint64_t per_index, uint8_t *output, size_t output_len);

/* Imports a dump of a SIM phonebook (EF ADN of 3GPP TS 51.011), whose records are `name_length` bytes (0 to 241) for a name and 14 more. Free
 * records, nothing but FF, are left out; of each other one the output gets the name's bytes, coding bytes included, and the 14 bytes as they
 * are, sorted and in the form that zs_write takes, with zeros after them; `length` is how many bytes they take. No records are joined: equal
 * ones stay as often as they were. Refusals in this order: 32 the size of the dump, 33 a name and 34 the length of a number by record, 31 no
 * room; after one the output is zeros. Every call writes every byte of the output. Output of twice the dump's length is always enough. */
zs_written zs_import_sim(const uint8_t *dump, size_t dump_len, uint64_t name_length, uint8_t *output, size_t output_len);

/* Stores: how to bring a file that zs_write made (lend `output` and `length` of its answer) to a disk, so that a power cut leaves no wrong
 * one. Store i (0 to 3) goes to `offset` of the file on the disk, which is empty before store 0; bytes that are leapt over are zeros. The bytes
 * are `length` bytes of the lent file from `offset` on, but those of store 0 are zs_unfinished. In order: the unfinished magic, all blocks,
 * the header from byte 8 through its CRC, the magic. The stores must arrive in this order, and a sync goes before the last (and one after it,
 * where the file must be there for good). All four give the file. Wherever they stop, between two stores or within one, zs_check refuses what
 * is there with 2 or 3, unless it is the whole file already.
 * 0, 0 where there is no store: i is above 3, or the bytes don't begin with the magic, or are shorter than their header. So after a refusal of
 * zs_write there is none, neither of `length` bytes of the output, which are none, nor of the whole output. */
zs_part zs_store(const uint8_t *file, size_t file_len, uint64_t i);

/* Compares two files: which records are stored a different number of times in them. The list receives five numbers for each such record, in
 * rising order and once: the file from which it is shown, 1 or 2; the offset of its first copy there, and its length; how many copies the first
 * file has, and how many the second. It is shown from the first file where it is stored there. `differences` counts them, and `sum` adds up the
 * copies in the second less those in the first, which is the second file's number of records less the first's.
 * Refusals in this order: those of zs_check for the first file, those for the second, each with its place and with `which` 1 or 2; then 35: the
 * list hasn't five places for each difference. One work list serves both checks; it needs a place for each ordinary block of either file, and is
 * all zeros after every call. After a refusal `sum` is 0 too. `which` is 0 unless a file is refused. */
zs_compared zs_compare(const uint8_t *first, size_t first_len, const uint8_t *second, size_t second_len, uint64_t *work, size_t work_len,
                       uint64_t *list, size_t list_len);

/* Where a record lies that zs_compare lists, from the first three of its numbers: that part of the first file where `which` is 1, of the second
 * where it is 2. 1, 0, 0 where `which` is any other number, or the part isn't within that file. */
zs_shown zs_show(const uint8_t *first, size_t first_len, const uint8_t *second, size_t second_len, uint64_t which, uint64_t offset,
                 uint64_t length);

/* A session makes a file in the output one record at a time: start afresh, begin, add records, finish. It is a value: each step takes the session
 * and the output as the last one left them, and hands the next session back. Between two steps the output may be lengthened by zeros, and may move;
 * so an output that is too short can grow. A step with any other session or output is safe, and promises nothing else.
 * After every step the figures are those that can be counted in the output: its data blocks stand one after the other, the last one framed though
 * it may still grow, with zeros behind them. From begin to finish the file has the unfinished magic, so that zs_check refuses it with 2.
 * A refused step changes neither session nor output, so that it may be tried again. A step out of its order is refused with 28, before all else;
 * starting afresh never is. */

/* Starts afresh, at any time and with any output, which is all zeros then. Every number of the session is 0. */
zs_session zs_session_afresh(uint8_t *output, size_t output_len);

/* Begins a file: metadata and counts are those of zs_write. Refusals in this order: 28 it is begun or finished already, 30 a count, 9 the
 * metadata, 31 the header is longer than the output or 2^30 bytes. */
zs_stepped zs_session_begin(zs_session session, const uint8_t *metadata, size_t metadata_len, uint64_t per_block, uint64_t per_index,
                            uint8_t *output, size_t output_len);

/* Adds a record, here without its length before it. A block that is full is closed first. Refusals in this order: 28 nothing is begun, or it is
 * finished; 29 the record is less than the last one; 31 with it header and data blocks would be longer than the output or 2^30 bytes. The cost is
 * that of the record, however much stands in the output; now and then the records of a block are moved by a byte. */
zs_stepped zs_session_add(zs_session session, const uint8_t *record, size_t record_len, uint8_t *output, size_t output_len);

/* Closes the block, so that the next record begins another. The output is only read. 28: nothing is begun, it is finished, or no record was added
 * since begin or since a block was closed. */
zs_stepped zs_session_close(zs_session session, const uint8_t *output, size_t output_len);

/* Finishes the file, which then is the first `next` bytes of the output; zs_store gives its stores. It is one that zs_check accepts, holds the
 * records added, in order, and where no block was closed early it is the file that zs_write makes of them. Refusals in this order: 28 nothing is
 * begun, it is finished already, or it has no record; 31 with its index the file would be longer than the output or 2^30 bytes. */
zs_stepped zs_session_finish(zs_session session, uint8_t *output, size_t output_len);

/* The bytes of store 0: with what an unfinished file begins. */
static const uint8_t zs_unfinished[8] = {0xab, 0x5a, 0x53, 0x74, 0x6f, 0x42, 0x65, 0x01};

#ifdef __cplusplus
}
#endif
#endif
