/*
 * Reads a sheet from standard input, runs its passage, and asks the proved search of each row whether it is certain to clear
 * the row's own need:
 *
 *     search BASE WEIGHT.. : NEED..
 *
 * with a weight for each quantity and a need for each row from the first on, all in units; of rows without a need nothing is
 * asked. It prints a line `clear=ROW` for each certain row, or a line `refused=NUMBER` where a query is refused; then the
 * passage's `result` and `at`. Which rows are certain is only asked of planner_first_clear, never worked out here.
 *
 * The exit status is 0; 64 where the arguments are not understood; 74 where nothing could be read or written.
 */
#include <errno.h>
#include <inttypes.h>
#include <stdio.h>
#include <stdlib.h>
#include <string.h>
#include "planner.h"

enum { NOT_UNDERSTOOD = 64, FAILED = 74 };

struct query {
    int64_t base, needs[PLANNER_MOST_STEPS], weights[PLANNER_MOST_QUANTITIES];
    size_t quantities, rows;
};

static uint8_t sheet[PLANNER_SHEET_LENGTH];
static int64_t rows[PLANNER_ROWS_LENGTH];

/* Asks of one row, counted from 0. Gives 1 where it is certain to clear its need; 0 where it is not; minus the number of a
 * refusal. */
static int64_t row_clears(size_t n, size_t row, const struct query *query)
{
    size_t place = PLANNER_DEGREE_PLACE(n, row);
    return planner_first_clear(n, 1, rows + place, PLANNER_ROWS_LENGTH - place, query->weights, query->base,
                               query->needs[row], 1);
}

/* Prints the rows that are certain, up to a refusal. */
static void print_rows(size_t n, size_t count, const struct query *query)
{
    for (size_t row = 0; row < count && row < query->rows; row++) {
        int64_t found = row_clears(n, row, query);
        if (found < 0) {
            printf("refused=%" PRId64 "\n", -found);
            return;
        }
        if (found > 0)
            printf("clear=%zu\n", row + 1);
    }
}

static int is_number(const char *word, int64_t *number)
{
    char *end;
    errno = 0;
    *number = strtoll(word, &end, 10);
    return end != word && *end == '\0' && errno == 0;
}

/* Reads numbers as long as there are any. Gives how many there are, or one more than may be where there are more. */
static size_t numbers(char **words, int64_t *found, size_t most)
{
    size_t count = 0;
    int64_t number;
    while (words[count] != NULL && is_number(words[count], &number)) {
        if (count == most)
            return most + 1;
        found[count++] = number;
    }
    return count;
}

static int is_query(int argc, char **argv, struct query *query)
{
    if (argc < 3 || !is_number(argv[1], &query->base))
        return 0;
    char **words = argv + 2;
    query->quantities = numbers(words, query->weights, PLANNER_MOST_QUANTITIES);
    words += query->quantities;
    if (query->quantities > PLANNER_MOST_QUANTITIES || *words == NULL || strcmp(*words, ":") != 0)
        return 0;
    words++;
    query->rows = numbers(words, query->needs, PLANNER_MOST_STEPS);
    return query->rows <= PLANNER_MOST_STEPS && words[query->rows] == NULL;
}

int main(int argc, char **argv)
{
    uint64_t summary[PLANNER_SUMMARY_LENGTH];
    struct query query = {0};
    if (!is_query(argc, argv, &query)) {
        fputs("Usage: search BASE WEIGHT.. : NEED.. <SHEET\n", stderr);
        return NOT_UNDERSTOOD;
    }
    size_t sheet_length = fread(sheet, 1, sizeof sheet, stdin);
    if (ferror(stdin))
        return FAILED;
    planner_run(sheet, sheet_length, rows, PLANNER_ROWS_LENGTH, summary);
    size_t n = summary[PLANNER_QUANTITIES];
    if (n > 0) {
        if (query.quantities != n) {
            fprintf(stderr, "search: the sheet has %zu quantities\n", n);
            return NOT_UNDERSTOOD;
        }
        print_rows(n, summary[PLANNER_ROWS], &query);
    }
    printf("result=%" PRIu64 "\nat=%" PRIu64 "\n", summary[PLANNER_RESULT], summary[PLANNER_AT]);
    return fflush(stdout) == 0 && !ferror(stdout) ? 0 : FAILED;
}
