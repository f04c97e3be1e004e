/* Wharftoken: order sheets of boat control heads.
 *
 * The functions of crates/exports/out/libexports.a (`rt lib` in crates/exports), for x86-64. They
 * are proved to do what is said here; that these declarations are theirs is tested, not proved.
 *
 * No function asks anything of its caller but that each pointer is not null and has the room that
 * the length after it says, and that lent memory overlaps nothing. None keeps a pointer, takes
 * memory or has state, so that any threads may call them.
 *
 * Lines, columns, slots and places count from 1; arrays are indexed from 0, so the entry of slot 1
 * has index 0. See docs/PLACES.md.
 */
#ifndef WHARFTOKEN_H
#define WHARFTOKEN_H

#include <stddef.h>
#include <stdint.h>

#ifdef __cplusplus
extern "C" {
#endif

enum {
    WHARFTOKEN_SHEET_BYTES = 8192,  /* a longer text is refused as 1 */
    WHARFTOKEN_LONGEST_TEXT = 6446, /* no record has a longer text */
    WHARFTOKEN_REPORT_BYTES = 1024, /* no report is longer */
    WHARFTOKEN_CATALOGUE_LINES = 512,
    WHARFTOKEN_OPTIONS = 32,
    WHARFTOKEN_ORDERINGS = 64,
    WHARFTOKEN_DECISIONS = 96, /* options, then orderings */
    WHARFTOKEN_LIMITS = 386,   /* 2 for the whole sheet, then 4 for each item */
    WHARFTOKEN_TOTALS = 2,     /* value, ceiling */
    WHARFTOKEN_MOST_TOLERANCE = 959904
};

/* A decision, one byte each in a list. */
enum { WHARFTOKEN_OPEN = 0, WHARFTOKEN_KEPT = 1, WHARFTOKEN_DROPPED = 2 };

/* A sheet as arrays; unused entries are zero. A record that no accepted sheet gives is refused as
 * 12 wherever it is handed in. Its 1,894 bytes are little-endian and have no padding. */
struct wharftoken_record {
    uint16_t catalogue_lines;
    uint16_t option_count;
    uint16_t ordering_count;
    uint16_t weights[32];          /* of options, in slot order */
    uint16_t ordering_weights[64]; /* in slot order */
    uint8_t letters[512];          /* 'C' or 'X' of each catalogue line */
    uint8_t befores[512];
    uint8_t afters[512];
    uint8_t numbers[32]; /* catalogue numbers of options, in slot order */
    uint8_t firsts[64];  /* catalogue numbers of both ends of orderings, in slot order */
    uint8_t seconds[64];
};

typedef char wharftoken_record_has_1894_bytes[sizeof(struct wharftoken_record) == 1894 ? 1 : -1];

/* Every function answers count + 65536 * (column + 65536 * (line + 65536 * number)).
 * number: 0, or the refusal, 1 to 15. Refused: count is 0 and no lent byte is changed.
 * Else line and column are 0, and nothing past what is written is changed. */
static inline unsigned wharftoken_number(uint64_t answer) { return (unsigned)(answer >> 48); }
static inline unsigned wharftoken_line(uint64_t answer) { return (unsigned)(answer >> 32 & 65535); }
static inline unsigned wharftoken_column(uint64_t answer) { return (unsigned)(answer >> 16 & 65535); }
static inline unsigned wharftoken_count(uint64_t answer) { return (unsigned)(answer & 65535); }

/* The report on a sheet at the start of out; count is its length. A refused sheet is no refusal:
 * its report is `E number line column`. Refused as 13 if out is shorter than the report. */
uint64_t wharftoken_report(const uint8_t *text, size_t text_len, uint8_t *out, size_t out_len);

/* The record of a sheet at the start of record. Refused as 1 to 10 with line and column (0 and 0
 * for 1 and 2), then as 13 if record_len is below 1,894. */
uint64_t wharftoken_read(const uint8_t *text, size_t text_len, uint8_t *record, size_t record_len);

/* The text of a record at the start of out; count is its length. It is the one text that reads as
 * this record. Refused as 12, then as 13 if out is shorter than the text. */
uint64_t wharftoken_write(const uint8_t *record, size_t record_len, uint8_t *out, size_t out_len);

/* What decisions force, and the limits of the value. forced: 96 decisions, the given ones and the
 * forced ones. limits: lower and upper of the whole sheet, then kept lower, kept upper, dropped
 * lower, dropped upper of 32 options and 64 orderings; four zeros for what is decided.
 * count is 1 if no consistent relaxation agrees; then all that is written is 0.
 * Refused as 12, then 14 (a list of another length, a byte that is no decision, an entry past the
 * record's counts that is not open), then 13. */
uint64_t wharftoken_limits(const uint8_t *record, size_t record_len,
                           const uint8_t *decisions, size_t decisions_len,
                           uint8_t *forced, size_t forced_len,
                           uint32_t *limits, size_t limits_len);

/* The catalogue number at each of 32 places, 0 past the last kept option; count is the number of
 * places in use. Refused as 12, then 14 (as above, or an item of the sheet is open), then 15 (what
 * is kept is no consistent relaxation), then 13. */
uint64_t wharftoken_sequence(const uint8_t *record, size_t record_len,
                             const uint8_t *decisions, size_t decisions_len,
                             uint8_t *places, size_t places_len);

/* A consistent relaxation as 96 decisions, and its value and ceiling: no consistent relaxation is
 * worth more than the ceiling, which is at most the tolerance above the value. At tolerance 0 it is
 * the best one, by the tie rule. Refused as 12, then 11 (tolerance above 959,904), then 13. */
uint64_t wharftoken_search(const uint8_t *record, size_t record_len, uint32_t tolerance,
                           uint8_t *decisions, size_t decisions_len,
                           uint32_t *totals, size_t totals_len);

#ifdef __cplusplus
}
#endif

#endif
