/*
 * The splitter's calls for a controller written in C: the shortest table of a weight, and the counter.
 *
 * A service of width W has the addresses 0 to 2^W - 1. A rule of length n matches the 2^(W - n) addresses from its start on and sends them to server 1
 * or 2. The weight is how many addresses go to server 1.
 *
 * A RECORD is a rule in 8 bytes, and records stand one behind the other:
 *
 *   bytes 0 to 3   the start, most significant byte first; below 2^W, and a multiple of 2^(W - length)
 *   byte  4        the length, 0 to W
 *   byte  5        the server, 1 or 2
 *   bytes 6 and 7  zero
 *
 * A REFUSED call answers the number of its ground, zeros in all other fields, and has altered nothing. The grounds are tried in this order, and the
 * first that fits decides:
 *
 *    3   the width is outside 1 to 24                        (both calls)
 *    8   the weight is above 2^W                             (splitter_table)
 *   12   more than 1,024 records, that is more than 8,192    (splitter_count)
 *        bytes: a record that is cut short counts as one
 *   13   a record is cut short or breaks the layout above    (splitter_count)
 *   16   the buffer is shorter than 8 bytes for each rule    (splitter_table)
 *
 * MEMORY. The buffers are the caller's, and no call keeps a pointer to one after it returns. Nothing is allocated and nothing has to be freed. A
 * pointer must be valid for the length that follows it, and must not be null even where that length is 0. splitter_table needs less than 1 KiB of
 * stack and splitter_count less than 16 KiB, most of it for the rules that it has read (measured, with some room added).
 *
 * THREADS. The calls have no state of their own, take no lock and read nothing but their arguments, so any number of threads may call at once; only a
 * buffer that splitter_table writes must not be in use elsewhere during the call.
 *
 * Link libcontroller.a, which `rt lib` makes in crates/controller/out.
 */
#ifndef SPLITTER_H
#define SPLITTER_H

#include <stddef.h>
#include <stdint.h>

#ifdef __cplusplus
extern "C" {
#endif

/* Bytes of a record; the most rules that a table has; the most records that are counted. */
#define SPLITTER_RECORD 8
#define SPLITTER_TABLE_MOST 13
#define SPLITTER_COUNT_MOST 1024

#define SPLITTER_DONE 0
#define SPLITTER_WIDTH_OUT_OF_RANGE 3
#define SPLITTER_BEYOND_WIDTH 8
#define SPLITTER_RULE_COUNT_OUT_OF_RANGE 12
#define SPLITTER_BROKEN_LAYOUT 13
#define SPLITTER_BUFFER_TOO_SHORT 16

typedef struct {
    uint32_t refusal; /* 0: carried out */
    uint32_t rules;   /* how many records were written */
} splitter_table_answer;

typedef struct {
    uint32_t refusal;   /* 0: carried out */
    uint32_t one;       /* addresses of server 1 */
    uint32_t two;       /* addresses of server 2 */
    uint32_t unmatched; /* addresses that no rule matches; the three add up to 2^W */
    uint32_t complete;  /* 1 where every address is matched, else 0 */
    uint32_t excess;    /* where complete: by how many rules the list passes the fewest that give server 1 as many addresses; else 0 */
} splitter_count_answer;

/*
 * Writes the records of the shortest table of the weight, in the table's order, from the start of `out` on. Bytes behind the records stay as they
 * were. In a table the LONGEST prefix that matches an address decides. A buffer of SPLITTER_RECORD * SPLITTER_TABLE_MOST bytes is always long enough.
 */
splitter_table_answer splitter_table(uint32_t width, uint32_t weight, uint8_t *out, size_t out_length);

/*
 * Counts what the rules of the records do with all addresses. They may stand in any order, and the FIRST that matches an address decides: hand over
 * the records of a table from the last to the first.
 */
splitter_count_answer splitter_count(uint32_t width, const uint8_t *records, size_t records_length);

#ifdef __cplusplus
}
#endif

#endif
