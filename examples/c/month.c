/* Checks a month's order file. Prints how many lines it has before E and its statement, or why it is refused and the refused line.
 *
 * Build and run it with one command:  examples/c/run FILE
 * which is, where tools/archive has built the archive:
 *     cc -Iinclude examples/c/month.c target/staticlib/libtaborumbra.a -o target/month && target/month FILE
 *
 * The exit code is 0 for an accepted file, 1 for a refused one, 2 if the file can't be read, has no statement or the text can't be written, and 3, of
 * examples/c/run alone, if the program isn't built. */
#include <stdio.h>
#include <stdlib.h>

#include "taborumbra.h"

/* A refusal's trade word. */
static const char *trade_word(uint32_t number)
{
    switch (number) {
    case TABORUMBRA_UNOPENED: return "unopened";
    case TABORUMBRA_ALREADY_OPEN: return "already open";
    case TABORUMBRA_DATE: return "date";
    case TABORUMBRA_TERM: return "term";
    case TABORUMBRA_AMOUNT: return "amount";
    case TABORUMBRA_RATE: return "rate";
    case TABORUMBRA_FINANCING: return "financing";
    case TABORUMBRA_DAY: return "day";
    case TABORUMBRA_SETTLEMENT_PENDING: return "settlement pending";
    case TABORUMBRA_HOLDER: return "holder";
    case TABORUMBRA_SHARE: return "share";
    case TABORUMBRA_BOOK_FULL: return "book full";
    case TABORUMBRA_NO_DAY_HELD: return "no day held";
    case TABORUMBRA_OVERPAID: return "overpaid";
    case TABORUMBRA_EMPTY_FILE: return "empty file";
    case TABORUMBRA_LINE: return "line";
    case TABORUMBRA_UNFINISHED: return "unfinished";
    default: return "unknown";
    }
}

/* The whole file, however long, in memory that the caller frees. NULL if it can't be read. */
static uint8_t *read_file(const char *name, size_t *bytes)
{
    FILE *stream = fopen(name, "rb");
    if (stream == NULL)
        return NULL;
    uint8_t *file = NULL;
    size_t room = 0;
    *bytes = 0;
    do {
        room += 65536;
        uint8_t *larger = realloc(file, room);
        if (larger == NULL)
            break;
        file = larger;
        *bytes += fread(file + *bytes, 1, room - *bytes, stream);
    } while (*bytes == room);
    int whole = feof(stream) && !ferror(stream);
    fclose(stream);
    if (whole)
        return file;
    free(file);
    return NULL;
}

/* How many bytes of a refused part are shown. A file without line feeds is one line, however long. */
#define SHOWN_BYTES 200

/* Printable ASCII as it is, but a backslash as two; every other byte as \n, \r, \t or \xNN. */
static void print_byte(uint8_t byte)
{
    switch (byte) {
    case '\n': fputs("\\n", stdout); return;
    case '\r': fputs("\\r", stdout); return;
    case '\t': fputs("\\t", stdout); return;
    case '\\': fputs("\\\\", stdout); return;
    default: break;
    }
    if (byte >= ' ' && byte <= '~')
        putchar(byte);
    else
        printf("\\x%02x", (unsigned)byte);
}

/* The refused part on a line of its own, so that what can't be seen of it is seen: CR LF, a tab, a lost line feed. Nothing if it is empty. */
static void print_part(const uint8_t *part, size_t bytes)
{
    size_t shown = bytes < SHOWN_BYTES ? bytes : SHOWN_BYTES;
    if (bytes == 0)
        return;
    for (size_t i = 0; i < shown; i++)
        print_byte(part[i]);
    puts(shown < bytes ? " ..." : "");
}

/* Prints the statement of an accepted file below its count of lines. Answers the exit code. */
static int print_statement(const uint8_t *file, size_t bytes, size_t count)
{
    uint8_t statement[TABORUMBRA_STATEMENT_BYTES];
    size_t statement_bytes;
    if (taborumbra_statement(file, bytes, statement, sizeof statement, &statement_bytes) != TABORUMBRA_ACCEPTED)
        return 2;
    printf("accepted: %zu line%s before E\n", count, count == 1 ? "" : "s");
    fwrite(statement, 1, statement_bytes, stdout);
    return 0;
}

/* Checks the file and prints. Answers the exit code. */
static int print_month(const uint8_t *file, size_t bytes)
{
    size_t line, start, end, count;
    uint32_t number = taborumbra_check(file, bytes, &line, &start, &end, &count);
    if (number == TABORUMBRA_ACCEPTED)
        return print_statement(file, bytes, count);
    printf("refused with %u (%s) at line %zu\n", (unsigned)number, trade_word(number), line);
    print_part(file + start, end - start);
    return 1;
}

int main(int argc, char **argv)
{
    if (argc != 2) {
        fprintf(stderr, "usage: month FILE\n");
        return 2;
    }
    size_t bytes;
    uint8_t *file = read_file(argv[1], &bytes);
    if (file == NULL) {
        fprintf(stderr, "can't read %s\n", argv[1]);
        return 2;
    }
    int code = print_month(file, bytes);
    free(file);
    /* A write may fail as late as when the stream is closed. */
    if (ferror(stdout) || fclose(stdout) != 0) {
        fprintf(stderr, "can't write the text\n");
        return 2;
    }
    return code;
}
