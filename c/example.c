/*
 * Reads a sheet from standard input and prints its answer, or a part of it:
 *
 *     example                            the answer
 *     example rows                       the same, from planner_run's rows and summary
 *     example convert                    the conversion of a stored sheet, which may have up to 400 steps
 *     example first QUANTITY NEED RUN    the first row from which on RUN rows in a row have at least NEED units of the
 *                                        quantity (numbered from 1) for certain, each all through its step: a line
 *                                        first=ROW, or first=0 where there is none, or refused=NUMBER where the query is
 *                                        refused; then the answer's last two lines. Where a step is refused, the rows
 *                                        before it are looked through. Where the sheet cannot be read, there are only the
 *                                        two lines
 *
 * Why a sheet, a step or a query is refused is said in words on standard error too.
 *
 * The exit status is the answer's result or, where that is 0, the number with which the query is refused; of a conversion
 * 0; 64 where the arguments are not understood or the sheet has no such quantity; 74 where nothing could be read or
 * written.
 */
#include <errno.h>
#include <inttypes.h>
#include <stdio.h>
#include <stdlib.h>
#include <string.h>
#include "planner.h"

enum { NOT_UNDERSTOOD = 64, FAILED = 74 };

static uint8_t sheet[PLANNER_SHEET_LENGTH];
static int64_t rows[PLANNER_ROWS_LENGTH];
static uint8_t text[PLANNER_TEXT_LENGTH];
static uint8_t converted[PLANNER_CONVERTED_LENGTH];

/* Says in words why the sheet is refused, if it is. */
static void say_refusal(const uint64_t *summary)
{
    const char *words = planner_refusal_words((int64_t)summary[PLANNER_RESULT]);
    if (summary[PLANNER_RESULT] == PLANNER_ACCEPTED)
        return;
    if (summary[PLANNER_AT] == 0)
        fprintf(stderr, "example: the sheet is refused: %s\n", words);
    else
        fprintf(stderr, "example: step %" PRIu64 " is refused: %s\n", summary[PLANNER_AT], words);
}

static void print_end(const uint64_t *summary)
{
    printf("result=%" PRIu64 "\nat=%" PRIu64 "\n", summary[PLANNER_RESULT], summary[PLANNER_AT]);
}

static void print_rows(const uint64_t *summary)
{
    size_t n = summary[PLANNER_QUANTITIES];
    for (size_t j = 0; j < summary[PLANNER_ROWS]; j++) {
        printf("row=%zu\ndegree=%" PRId64 "\n", j + 1, rows[PLANNER_DEGREE_PLACE(n, j)]);
        for (size_t i = 0; i < n; i++)
            printf("value=%" PRId64 "\nradius=%" PRId64 "\nlow=%" PRId64 "\nhigh=%" PRId64 "\n",
                   rows[PLANNER_VALUE_PLACE(n, j, i)], rows[PLANNER_RADIUS_PLACE(n, j, i)],
                   rows[PLANNER_LOW_PLACE(n, j, i)], rows[PLANNER_HIGH_PLACE(n, j, i)]);
    }
    print_end(summary);
}

struct query {
    int64_t quantity, need, run;
};

/* Prints the first row with enough of a quantity all through its step. Gives the number of the refusal, or that for none. */
static int print_first(const uint64_t *summary, struct query query)
{
    int64_t weights[PLANNER_MOST_QUANTITIES] = {0};
    weights[query.quantity - 1] = PLANNER_SCALE;
    int64_t found = planner_first_clear(summary[PLANNER_QUANTITIES], summary[PLANNER_ROWS], rows, PLANNER_ROWS_LENGTH,
                                        weights, 0, query.need, (size_t)query.run);
    if (found >= 0) {
        printf("first=%" PRId64 "\n", found);
        return PLANNER_ACCEPTED;
    }
    printf("refused=%" PRId64 "\n", -found);
    fprintf(stderr, "example: the query is refused: %s\n", planner_refusal_words(found));
    return (int)-found;
}

static int is_number(const char *word, int64_t *number)
{
    char *end;
    errno = 0;
    *number = strtoll(word, &end, 10);
    return end != word && *end == '\0' && errno == 0;
}

static int is_query(int argc, char **argv, struct query *query)
{
    return argc == 5 && strcmp(argv[1], "first") == 0 && is_number(argv[2], &query->quantity) &&
           is_number(argv[3], &query->need) && is_number(argv[4], &query->run);
}

static int was_written(void)
{
    return fflush(stdout) == 0 && !ferror(stdout);
}

int main(int argc, char **argv)
{
    uint64_t summary[PLANNER_SUMMARY_LENGTH];
    struct query query;
    int for_rows = argc == 2 && strcmp(argv[1], "rows") == 0;
    int for_conversion = argc == 2 && strcmp(argv[1], "convert") == 0;
    int for_first = is_query(argc, argv, &query);
    int refused = PLANNER_ACCEPTED;
    if (argc > 1 && !for_rows && !for_conversion && !for_first) {
        fputs("Usage: example [rows | convert | first QUANTITY NEED RUN] <SHEET\n", stderr);
        return NOT_UNDERSTOOD;
    }
    size_t sheet_length = fread(sheet, 1, sizeof sheet, stdin);
    if (ferror(stdin))
        return FAILED;
    if (for_conversion) {
        size_t length = planner_convert(sheet, sheet_length, rows, PLANNER_ROWS_LENGTH, converted, sizeof converted);
        fwrite(converted, 1, length, stdout);
        return was_written() ? 0 : FAILED;
    }
    planner_run(sheet, sheet_length, rows, PLANNER_ROWS_LENGTH, summary);
    say_refusal(summary);
    if (for_rows) {
        print_rows(summary);
    } else if (for_first) {
        uint64_t n = summary[PLANNER_QUANTITIES];
        if (n > 0) {
            if (query.quantity < 1 || (uint64_t)query.quantity > n) {
                fprintf(stderr, "example: the sheet's quantities are 1 to %" PRIu64 "\n", n);
                return NOT_UNDERSTOOD;
            }
            refused = print_first(summary, query);
        }
        print_end(summary);
    } else {
        size_t length = planner_answer(sheet, sheet_length, rows, PLANNER_ROWS_LENGTH, text, sizeof text);
        fwrite(text, 1, length, stdout);
    }
    if (!was_written())
        return FAILED;
    return summary[PLANNER_RESULT] != PLANNER_ACCEPTED ? (int)summary[PLANNER_RESULT] : refused;
}
