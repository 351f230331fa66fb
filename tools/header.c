/* Calls the six functions of include/taborumbra.h from C. What is expected is written from documents 01 and 02 and the header.
 *
 * tools/examples builds it with target/staticlib/libtaborumbra.a and runs it. It prints a line for each check that failed, and last the counts. */
#include <stdio.h>
#include <string.h>

#include "taborumbra.h"

static const char paper[] = "O20140101       30     2000            100\n"
                            "F                1                 1000000\n"
                            "D20140111                                 \n"
                            "T                1        2         500000\n"
                            "D20140131                                 \n"
                            "S                                      100\n"
                            "E                                        6\n";

static const char paper_statement[] = "B20140131              0              0 1627656000            100              0\n"
                                      "H        1   500000           0             67\n"
                                      "H        2   500000           0             33\n";

/* A line of every letter: each field that it uses is another number, and one that it doesn't use is 0. */
static const struct {
    char letter;
    uint32_t date, first, second;
    uint64_t third;
    const char *text;
} lines[] = {
    {'O', 20140101, 5479, 2000, 354054743000, "O20140101     5479     2000   354054743000\n"},
    {'F', 0, 999999999, 0, 350100, "F        999999999                  350100\n"},
    {'D', 20140111, 0, 0, 0, "D20140111                                 \n"},
    {'R', 20140116, 0, 0, 1850, "R20140116                             1850\n"},
    {'T', 0, 101, 303, 250000, "T              101      303         250000\n"},
    {'S', 0, 0, 0, 999999999999999, "S                          999999999999999\n"},
    {'E', 0, 0, 0, 7, "E                                        7\n"},
};

/* What slots and buffers hold before a call. */
#define BEFORE 0xa5

static int passed, failed;

static void judge(int holds, const char *what)
{
    if (holds) {
        passed++;
        return;
    }
    failed++;
    printf("header: %s\n", what);
}

static void equal(uint64_t answered, uint64_t expected, const char *what)
{
    char text[200];
    snprintf(text, sizeof text, "%s: %llu, expected %llu", what, (unsigned long long)answered, (unsigned long long)expected);
    judge(answered == expected, text);
}

/* The text, then bytes as they were before. */
static void holds_text(const uint8_t *out, size_t out_bytes, const char *text, const char *what)
{
    size_t length = strlen(text);
    int same = length <= out_bytes && memcmp(out, text, length) == 0;
    for (size_t i = length; i < out_bytes; i++)
        same = same && out[i] == BEFORE;
    judge(same, what);
}

static void try_plus_days(uint32_t date, uint32_t days, uint32_t number, uint32_t expected)
{
    uint32_t sum = BEFORE;
    equal(taborumbra_plus_days(date, days, &sum), number, "plus_days, number");
    equal(sum, expected, "plus_days, sum");
}

static void try_daily_rate(uint64_t annual, uint32_t number, uint64_t expected)
{
    uint64_t daily = BEFORE;
    equal(taborumbra_daily_rate(annual, &daily), number, "daily_rate, number");
    equal(daily, expected, "daily_rate, rate");
}

static void try_read_line(const uint8_t *line, size_t bytes, uint32_t number, const uint64_t expected[5])
{
    uint8_t letter = BEFORE;
    uint32_t date = BEFORE, first = BEFORE, second = BEFORE;
    uint64_t third = BEFORE;
    equal(taborumbra_read_line(line, bytes, &letter, &date, &first, &second, &third), number, "read_line, number");
    equal(letter, expected[0], "read_line, letter");
    equal(date, expected[1], "read_line, date");
    equal(first, expected[2], "read_line, first");
    equal(second, expected[3], "read_line, second");
    equal(third, expected[4], "read_line, third");
}

/* A buffer of so many bytes, and some behind it that must stay. */
static void try_write_line(const uint64_t fields[5], size_t bytes, uint32_t number, const char *text)
{
    uint8_t out[2 * TABORUMBRA_LINE_BYTES];
    memset(out, BEFORE, sizeof out);
    uint32_t answered =
        taborumbra_write_line((uint8_t)fields[0], (uint32_t)fields[1], (uint32_t)fields[2], (uint32_t)fields[3], fields[4], out, bytes);
    equal(answered, number, "write_line, number");
    holds_text(out, sizeof out, text, "write_line, buffer");
}

static void try_line(size_t place)
{
    const uint64_t nothing[5] = {0};
    uint64_t fields[5] = {(uint8_t)lines[place].letter, lines[place].date, lines[place].first, lines[place].second, lines[place].third};
    const char *text = lines[place].text;
    const uint8_t *line = (const uint8_t *)text;
    equal(strlen(text), TABORUMBRA_LINE_BYTES, "bytes of a line");
    try_write_line(fields, TABORUMBRA_LINE_BYTES, 0, text);
    try_write_line(fields, TABORUMBRA_LINE_BYTES + 1, 0, text);
    try_write_line(fields, TABORUMBRA_LINE_BYTES - 1, TABORUMBRA_LINE, "");
    try_read_line(line, TABORUMBRA_LINE_BYTES, 0, fields);
    try_read_line(line, TABORUMBRA_LINE_BYTES - 1, TABORUMBRA_LINE, nothing);
    for (size_t field = 1; field < 5; field++) {
        if (fields[field] != 0)
            continue;
        fields[field] = 1; /* it isn't used */
        try_write_line(fields, TABORUMBRA_LINE_BYTES, TABORUMBRA_LINE, "");
        fields[field] = 0;
    }
}

static void try_check(const char *file, size_t bytes, uint32_t number, const size_t expected[4])
{
    size_t line = BEFORE, start = BEFORE, end = BEFORE, count = BEFORE;
    equal(taborumbra_check((const uint8_t *)file, bytes, &line, &start, &end, &count), number, "check, number");
    equal(line, expected[0], "check, line");
    equal(start, expected[1], "check, start");
    equal(end, expected[2], "check, end");
    equal(count, expected[3], "check, count");
}

/* A buffer of so many bytes, and some behind it that must stay. */
static void try_statement(const char *file, size_t bytes, size_t out_bytes, uint32_t number, const char *text)
{
    uint8_t out[TABORUMBRA_STATEMENT_BYTES + 100];
    memset(out, BEFORE, sizeof out);
    size_t statement_bytes = BEFORE;
    equal(taborumbra_statement((const uint8_t *)file, bytes, out, out_bytes, &statement_bytes), number, "statement, number");
    equal(statement_bytes, strlen(text), "statement, bytes");
    holds_text(out, sizeof out, text, "statement, buffer");
}

static void try_files(void)
{
    const size_t bytes = strlen(paper);
    try_check(paper, bytes, 0, (size_t[]){0, 301, 301, 6});
    try_check(paper, 4 * TABORUMBRA_LINE_BYTES, TABORUMBRA_UNFINISHED, (size_t[]){5, 172, 172, 0});
    try_check(paper, 95, TABORUMBRA_LINE, (size_t[]){3, 86, 95, 0});
    try_statement(paper, bytes, TABORUMBRA_STATEMENT_BYTES, 0, paper_statement);
    try_statement(paper, bytes, TABORUMBRA_STATEMENT_BYTES + 1, 0, paper_statement);
    try_statement(paper, bytes, TABORUMBRA_STATEMENT_BYTES - 1, TABORUMBRA_LINE, "");
    try_statement(paper, 95, TABORUMBRA_STATEMENT_BYTES, 0, "X 21        3\n");
}

/* Where the count is 0, the pointer may be NULL. */
static void try_null(void)
{
    const uint64_t nothing[5] = {0};
    try_check(NULL, 0, TABORUMBRA_EMPTY_FILE, (size_t[]){1, 0, 0, 0});
    try_statement(NULL, 0, TABORUMBRA_STATEMENT_BYTES, 0, "X 20        1\n");
    size_t statement_bytes = BEFORE;
    equal(taborumbra_statement((const uint8_t *)paper, strlen(paper), NULL, 0, &statement_bytes), TABORUMBRA_LINE, "statement into NULL, number");
    equal(statement_bytes, 0, "statement into NULL, bytes");
    statement_bytes = BEFORE;
    equal(taborumbra_statement(NULL, 0, NULL, 0, &statement_bytes), TABORUMBRA_LINE, "statement of NULL into NULL, number");
    equal(statement_bytes, 0, "statement of NULL into NULL, bytes");
    try_read_line(NULL, 0, TABORUMBRA_LINE, nothing);
    equal(taborumbra_write_line('D', 20140111, 0, 0, 0, NULL, 0), TABORUMBRA_LINE, "write_line into NULL, number");
}

static void try_version(void)
{
    char text[20];
    snprintf(text, sizeof text, "%d.%d", TABORUMBRA_VERSION_MAJOR, TABORUMBRA_VERSION_MINOR);
    judge(strcmp(text, TABORUMBRA_VERSION) == 0, "the version's text isn't its numbers");
}

int main(void)
{
    try_version();
    try_plus_days(20140101, 5479, 0, 20290101);
    try_plus_days(20140230, 1, TABORUMBRA_DATE, 0);
    try_plus_days(21991231, 1, TABORUMBRA_DATE, 0);
    try_daily_rate(0, 0, 0);
    try_daily_rate(1, 0, 274);
    try_daily_rate(2000, 0, 542552);
    try_daily_rate(4000, 0, 1074598);
    try_daily_rate(4001, TABORUMBRA_RATE, 0);
    try_daily_rate(4294969296, TABORUMBRA_RATE, 0); /* 2^32 + 2,000 */
    for (size_t place = 0; place < sizeof lines / sizeof lines[0]; place++)
        try_line(place);
    try_files();
    try_null();
    printf("%d passed, %d failed\n", passed, failed);
    return failed > 0;
}
