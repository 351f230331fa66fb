/* The collection-rights book for C and C++: the exported functions of libtaborumbra.a.
 *
 * For x86-64 with the System V calling convention (Linux, ELF). Link libtaborumbra.a with the program; of other libraries it needs only memcpy
 * and memset. The code is position-independent.
 *
 * Every function answers the number of the table below, 0 for accepted. All checking is inside: each call ends, whatever bytes and numbers it gets.
 *
 * Bytes are a pointer and their count; the pointer may be NULL where the count is 0.
 * Results come through pointers, the slots: none may be NULL, they must be distinct objects, and each is always written, with 0 where a refusal
 * has no value for it. A buffer that is written may overlap neither a slot nor bytes that are read, and bytes that are read may overlap no slot.
 * A refusal leaves the written buffer as it was.
 * No pointer is kept after a call, and nothing is to be freed. Bytes that are read must not change during the call; several calls may read the
 * same ones. A call keeps no state, so that several threads may call at once, each with slots and written buffers of its own.
 * It takes no memory but the stack: as measured, at most 14 KiB for the first two functions, and 1 KiB for the others.
 */
#ifndef TABORUMBRA_H
#define TABORUMBRA_H

#include <stddef.h>
#include <stdint.h>

#ifdef __cplusplus
extern "C" {
#endif

/* The library's version: each change that a user sees raises the second number; CHANGELOG.md tells what it brought. */
#define TABORUMBRA_VERSION_MAJOR 0
#define TABORUMBRA_VERSION_MINOR 5
#define TABORUMBRA_VERSION "0.5"

/* Why a call or a file is refused, by trade word. The lowest number that applies is told; in a file, the first fault. */
enum taborumbra_number {
    TABORUMBRA_ACCEPTED = 0,
    TABORUMBRA_UNOPENED = 1,            /* a call other than Open on an empty book */
    TABORUMBRA_ALREADY_OPEN = 2,        /* Open on an open book */
    TABORUMBRA_DATE = 3,                /* no date from 20000101 to 21991231 */
    TABORUMBRA_TERM = 4,                /* a term not 1 to 6,000 days, or a first day after 20991231 */
    TABORUMBRA_AMOUNT = 5,              /* Open: 0 or over 10^12 cents; Settle: over 10^11 */
    TABORUMBRA_RATE = 6,                /* over 4,000 thousandths of a percent */
    TABORUMBRA_FINANCING = 7,           /* not 1 to 64 holders, a holder 0, over 999,999,999 or twice, a share 0, or a sum not 1,000,000 */
    TABORUMBRA_DAY = 8,                 /* Advance: not after today, or after the term's end; Rate: before the first day or after today */
    TABORUMBRA_SETTLEMENT_PENDING = 9,  /* Advance to more than 92 days after the last settlement, or the first day */
    TABORUMBRA_HOLDER = 10,             /* a number 0 or over 999,999,999, a cedent not in the book, cedent and assignee the same */
    TABORUMBRA_SHARE = 11,              /* 0 parts, or more than the cedent holds */
    TABORUMBRA_BOOK_FULL = 12,          /* a 65th position, a 241st settlement, or a rate where 16 stored rates start before its date */
    TABORUMBRA_NO_DAY_HELD = 13,        /* Settle with no day since the last settlement */
    TABORUMBRA_OVERPAID = 14,           /* Settle: more than due plus outstanding; Rate: some past settlement would be */
    TABORUMBRA_EMPTY_FILE = 20,         /* no byte */
    TABORUMBRA_LINE = 21,               /* not in the form of a line, or an F line behind neither O nor F; a writer's fields that make no line;
                                         * a short buffer */
    TABORUMBRA_UNFINISHED = 22          /* no E line, its count wrong, or bytes after it */
};

/* What every statement fits into. */
#define TABORUMBRA_STATEMENT_BYTES 3089

/* A line: 42 columns and a line feed. */
#define TABORUMBRA_LINE_BYTES 43

/* Loads an order file on an empty book. The file is taken whole, however long; the program `statement` takes 65,536 bytes.
 * Accepted: 0; line 0; start and end the file's length; count the lines before E.
 * Refused: the number; line the refused line's, from 1; start its first byte's position in the file, and end the position behind its last one;
 * count 0. A refused opening names its O line, a 65th F line itself, and bytes after E the line that they begin. For 20, and 22 without an E line,
 * the part is empty, at the file's end, and its line is the lines before it plus 1. */
uint32_t taborumbra_check(const uint8_t *file, size_t file_bytes, size_t *line, size_t *start, size_t *end, size_t *count);

/* Writes the statement of an order file, loaded on an empty book, at out's start. The file is taken whole here too.
 * 0: statement_bytes is its count of bytes, and bytes of out behind it are left as they were. A refused file's statement is its X line, with 0 here
 * too; a file that leaves the book empty has a statement of 0 bytes.
 * 21: out_bytes is under TABORUMBRA_STATEMENT_BYTES; statement_bytes 0, out as it was. */
uint32_t taborumbra_statement(const uint8_t *file, size_t file_bytes, uint8_t *out, size_t out_bytes, size_t *statement_bytes);

/* The fields of a line. O: date, first term, second rate, third cents. F: first holder, third share. D: date. R: date, third rate. T: first cedent,
 * second assignee, third parts. S: third cents. E: third the lines before it. The letter is its ASCII byte. A field that it doesn't use is 0. */

/* Reads one line, with its line feed, as its fields.
 * 0: the fields. 21: the line is malformed, and every field is 0. */
uint32_t taborumbra_read_line(const uint8_t *line, size_t line_bytes, uint8_t *letter, uint32_t *date, uint32_t *first, uint32_t *second,
                              uint64_t *third);

/* Writes the line for given fields in out's first TABORUMBRA_LINE_BYTES bytes, and leaves the rest.
 * 21: an unknown letter, a field too wide, an unused field not 0, or a shorter buffer; out is as it was. */
uint32_t taborumbra_write_line(uint8_t letter, uint32_t date, uint32_t first, uint32_t second, uint64_t third, uint8_t *out, size_t out_bytes);

/* The daily rate, to the nearest unit of 1/10^10, of an annual rate in thousandths of a percent.
 * 0: the rate. 6: annual is over 4,000, and daily is 0. */
uint32_t taborumbra_daily_rate(uint64_t annual, uint64_t *daily);

/* The date so many days after a date, both YYYYMMDD.
 * 0: the sum. 3: no date, or a sum beyond 21991231, and sum is 0. */
uint32_t taborumbra_plus_days(uint32_t date, uint32_t days, uint32_t *sum);

#ifdef __cplusplus
}
#endif

#endif
