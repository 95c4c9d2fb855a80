/* The calls of Thrunglow for C. Link target/staticlib/libthrunglow.a, which building host/thrunglow writes.
 *
 * A log is cut into pieces where its content says. A list of cuts has the offset where each piece ends, rising, the log's length
 * last. It belongs to the bytes and the settings alone: every way of cutting gives the same list.
 *
 * Every call takes any numbers, bytes, carries, boards, lists and sheets, and answers them. Of memory it asks what C asks of any call: it is
 * lent as a pointer and a length in entries, and none is kept; the pointer may be anything where the length is 0. What a call writes must not
 * overlap what it reads: amend into another list than the old one. A call may run beside others on other threads as long as no memory
 * that one writes is lent to another.
 *
 * A number of 0 is a success. Any other is a refusal: every value beside it is 0, a carry comes back unaltered, and lent memory is
 * untouched (but see thrunglow_segment). docs/HANDBOOK.md says what each number means and what to do.
 *
 *    1  a setting is out of range          7  S, R or segment out of range,     12  no sheet
 *    2  the log would pass 2^40 bytes         or the board too short            13  check word wrong
 *    3  carry not in order                 8  bay not done                      14  another trailer field wrong
 *    4  carry closed                       9  bay malformed                     15  the other label
 *    5  lent memory too short             10  list not well formed              16  over 1,048,576 cuts for a sheet
 *    6  record longer than its bay        11  the edit does not fit             17  list full (a guard; never seen)
 */
#ifndef THRUNGLOW_H
#define THRUNGLOW_H

#include <stdbool.h>
#include <stddef.h>
#include <stdint.h>

#ifdef __cplusplus
extern "C" {
#endif

/* How a log is cut: pattern bits (1 to 31), their target (1 to 2^bits - 1), and the least (from 48) and the greatest (up to
 * 16,777,216) length of a piece. The house settings are 13, 120, 2048, 65536. */
typedef struct {
    uint32_t bits;
    uint32_t target;
    uint64_t minimum;
    uint64_t maximum;
} thrunglow_Settings;

/* What the single pass keeps between two blocks. `closed` is 0 while it is open and 1 once it is closed; a carry with any other number
 * is not in order. */
typedef struct {
    thrunglow_Settings settings;
    uint64_t taken;
    uint64_t since;
    uint8_t window[48];
    uint32_t signature;
    uint32_t closed;
} thrunglow_Carry;

/* The entries or bytes written. */
typedef struct {
    uint32_t number;
    uint64_t count;
} thrunglow_Outcome;

/* The entries written, and the carry to go on with. */
typedef struct {
    uint32_t number;
    uint64_t count;
    thrunglow_Carry carry;
} thrunglow_Passed;

/* The cuts kept before the edit, cut anew, and kept and moved after it. */
typedef struct {
    uint32_t number;
    uint64_t front;
    uint64_t recut;
    uint64_t back;
} thrunglow_Amendment;

/* What a sheet says: its label ('P' practice, 'L' live), its settings, and its count of cuts. */
typedef struct {
    uint32_t number;
    uint8_t label;
    thrunglow_Settings settings;
    uint64_t count;
} thrunglow_Reading;

/* The single pass: a fresh carry, then each block in turn with the carry of the last, then the close.
 * The list has room for block_length / minimum + 1 entries, and for 1 to close. */
thrunglow_Passed thrunglow_fresh(thrunglow_Settings settings);
thrunglow_Passed thrunglow_block(thrunglow_Carry carry, const uint8_t *block, size_t block_length, uint64_t *list, size_t list_length);
thrunglow_Passed thrunglow_close(thrunglow_Carry carry, uint64_t *list, size_t list_length);

/* The whole log. The list has room for log_length / minimum + 1 entries. */
thrunglow_Outcome thrunglow_cut_log(thrunglow_Settings settings, const uint8_t *log, size_t log_length, uint64_t *list, size_t list_length);

/* Segment `index` of `size` bytes (64 to 16,777,216), recorded into its bay: `width` entries (2 or more) from board[index * width] on. The
 * board has a bay for each segment, log_length / size of them, rounded up. On number 6 the bay's first two entries are 0, which is
 * "not done", and the others hold the record's first offsets. */
thrunglow_Outcome thrunglow_segment(thrunglow_Settings settings, const uint8_t *log, size_t log_length, uint64_t size, uint64_t width, uint64_t index, uint64_t *board, size_t board_length);

/* The same with one bay lent by itself, so that each thread has its own; its width is bay_length. */
thrunglow_Outcome thrunglow_record(thrunglow_Settings settings, const uint8_t *log, size_t log_length, uint64_t size, uint64_t index, uint64_t *bay, size_t bay_length);

/* The list of a log of `bytes` bytes from its board. The list has room for bytes / minimum + 1 entries. */
thrunglow_Outcome thrunglow_merge(thrunglow_Settings settings, uint64_t bytes, uint64_t size, uint64_t width, const uint64_t *board, size_t board_length, uint64_t *list, size_t list_length);

/* The list of the log that came of replacing `removed` bytes at `at` by `added` bytes, from the old log's list. The list has room
 * for log_length / minimum + 1 entries. */
thrunglow_Amendment thrunglow_amend(thrunglow_Settings settings, const uint64_t *old, size_t old_length, uint64_t at, uint64_t removed, uint64_t added, const uint8_t *log, size_t log_length, uint64_t *list, size_t list_length);

/* Sheets, live or practice. The bytes have room for 8 * list_length + 32 to write one, the list for its count to read one. A sheet
 * stands at the end of the bytes; what is before it is not read. */
thrunglow_Outcome thrunglow_write_sheet(thrunglow_Settings settings, bool live, const uint64_t *list, size_t list_length, uint8_t *bytes, size_t bytes_length);
thrunglow_Reading thrunglow_read_sheet(const uint8_t *bytes, size_t bytes_length, bool live, uint64_t *list, size_t list_length);

#ifdef __cplusplus
}
#endif

#endif
